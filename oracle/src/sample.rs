//! A fixed sample of questions with their answers, for a run where there is no Rust.

use std::fs;
use std::io;

use crate::ask;
use crate::question::{Kind, Question};
use crate::questions;

/// Writes `count` questions of the kinds to FILE.questions and the answers to FILE.answers.
pub fn write(count: usize, file: &str, kinds: &[Kind]) -> io::Result<()> {
    let (mut asked, mut answered) = (String::new(), String::new());
    for question in sample(count, kinds)? {
        asked += &format!("{question}\n");
        answered += &format!("{}\n", ask::answer(&question).line);
    }
    fs::write(format!("{file}.questions"), asked)?;
    fs::write(format!("{file}.answers"), answered)
}

/// The questions that meet every rule and every refusal, filled up with made ones.
fn sample(count: usize, kinds: &[Kind]) -> io::Result<Vec<Question>> {
    let mut sample = questions::on_every_rule(kinds);
    let Some(missing) = count.checked_sub(sample.len()) else {
        let least = sample.len();
        return Err(io::Error::other(format!(
            "a sample of these kinds takes at least {least} questions"
        )));
    };
    sample.extend(questions::made(kinds).take(missing));
    Ok(sample)
}
