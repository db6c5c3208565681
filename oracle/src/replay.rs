//! Asks the program `replay`.

use std::io::{self, Write};
use std::process::{Command, Stdio};
use std::thread;

use crate::question::Question;

/// What one run of the program gave.
pub struct Heard {
    pub lines: Vec<String>,
    /// How it ended, if that was not well.
    pub failure: Option<String>,
}

/// Starts the program, gives it the questions and reads its lines.
pub fn ask(command: &[String], questions: &[Question]) -> io::Result<Heard> {
    let mut input = String::new();
    for question in questions {
        input += &format!("{question}\n");
    }
    let mut child = Command::new(&command[0])
        .args(&command[1..])
        .stdin(Stdio::piped())
        .stdout(Stdio::piped())
        .spawn()?;
    let mut stdin = child.stdin.take().expect("standard input is a pipe");
    // A thread of its own, since the program answers while it is still being asked. What it does not
    // take, because it ended early, shows in the lines that are missing.
    let writer = thread::spawn(move || stdin.write_all(input.as_bytes()));
    let output = child.wait_with_output()?;
    let _ = writer.join();
    Ok(Heard {
        lines: String::from_utf8_lossy(&output.stdout)
            .split_terminator('\n')
            .map(str::to_string)
            .collect(),
        failure: (!output.status.success()).then(|| output.status.to_string()),
    })
}
