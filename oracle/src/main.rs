//! Holds the proved program `replay` against the Rust that it was ported from. Started by `run`.

mod ask;
mod caps;
mod edges;
mod grammar;
mod judge;
mod made;
mod ordered;
mod place;
mod question;
mod questions;
mod random;
mod reading;
mod replay;
mod sample;
mod short;
// not all that the Rust offers is used here
#[allow(dead_code)]
mod the_rust;

use std::io::{self, BufRead, Write};
use std::process::ExitCode;

use judge::Judge;
use question::{Kind, Question};
use questions::Extent;

/// How many questions go to one start of the program: few enough to hold in memory with the answers.
const BATCH: usize = 100_000;

const USAGE: &str =
    "usage: oracle compare short|full KINDS COMMAND.. | sample N FILE KINDS | answer";

fn main() -> ExitCode {
    match run() {
        Ok(true) => ExitCode::SUCCESS,
        Ok(false) => ExitCode::from(1),
        Err(error) => {
            eprintln!("oracle: {error}");
            ExitCode::from(2)
        }
    }
}

/// Does what the arguments ask; false if the program and the Rust differ.
fn run() -> io::Result<bool> {
    let arguments: Vec<String> = std::env::args().skip(1).collect();
    let words: Vec<&str> = arguments.iter().map(String::as_str).collect();
    match words.as_slice() {
        ["compare", "short", kinds, _, ..] => {
            compare(&questions::SHORT, &kinds_named(kinds)?, &arguments[3..])
        }
        ["compare", "full", kinds, _, ..] => {
            compare(&questions::FULL, &kinds_named(kinds)?, &arguments[3..])
        }
        ["sample", count, file, kinds] => {
            let count = count.parse().map_err(|_| io::Error::other(USAGE))?;
            sample::write(count, file, &kinds_named(kinds)?)?;
            Ok(true)
        }
        ["answer"] => answer().map(|()| true),
        _ => Err(io::Error::other(USAGE)),
    }
}

/// The kinds in a list with commas.
fn kinds_named(names: &str) -> io::Result<Vec<Kind>> {
    let kind = |name| {
        Kind::named(name).ok_or_else(|| io::Error::other(format!("no such question: {name}")))
    };
    names.split(',').map(kind).collect()
}

/// Asks the program everything, prints the report, and says whether all answers agreed.
fn compare(extent: &Extent, kinds: &[Kind], command: &[String]) -> io::Result<bool> {
    let mut judge = Judge::default();
    let mut questions = questions::all(extent, kinds).peekable();
    while questions.peek().is_some() && !judge.program_failed() {
        let batch: Vec<Question> = questions.by_ref().take(BATCH).collect();
        let heard = replay::ask(command, &batch)?;
        judge.hear(batch, heard);
    }
    judge.report();
    Ok(judge.agreed())
}

/// Answers the questions on standard input as the Rust does, with the caps.
fn answer() -> io::Result<()> {
    let mut output = io::BufWriter::new(io::stdout());
    for line in io::stdin().lock().lines() {
        let line = line?;
        let question = Question::from_line(&line)
            .ok_or_else(|| io::Error::other(format!("not a question about versions: {line}")))?;
        writeln!(output, "{}", ask::answer(&question).line)?;
    }
    output.flush()
}
