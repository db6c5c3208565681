//! Holds the program's answers against the Rust's, and counts.

use std::collections::BTreeMap;

use crate::ask;
use crate::caps;
use crate::question::{Kind, Question};
use crate::replay::Heard;

#[derive(Default)]
struct Count {
    compared: usize,
    differing: usize,
}

struct Difference {
    question: Question,
    expected: String,
    given: String,
}

#[derive(Default)]
pub struct Judge {
    counts: BTreeMap<Kind, Count>,
    /// How many answers each cap decided.
    caps: BTreeMap<u8, usize>,
    not_utf8: usize,
    /// The smallest difference of each sort: by kind, and by what was expected and what was given.
    smallest: BTreeMap<(Kind, String, String), Difference>,
    /// What went wrong with the program itself.
    failures: Vec<String>,
}

impl Judge {
    /// Judges the lines that the program gave for the questions.
    pub fn hear(&mut self, questions: Vec<Question>, heard: Heard) {
        if heard.lines.len() > questions.len() {
            self.failures
                .push("replay wrote more lines than it was asked questions".to_string());
        }
        if let Some(failure) = heard.failure {
            self.failures.push(format!("replay ended with {failure}"));
        }
        let mut lines = heard.lines.into_iter();
        for question in questions {
            let given = lines.next().unwrap_or("(no line)".to_string());
            self.judge(question, given);
        }
    }

    fn judge(&mut self, question: Question, given: String) {
        let expected = ask::answer(&question);
        let count = self.counts.entry(question.kind()).or_default();
        count.compared += 1;
        self.not_utf8 += usize::from(!is_utf8(&question));
        if expected.line != given {
            count.differing += 1;
            self.keep_if_smallest(Difference {
                question,
                expected: expected.line,
                given,
            });
        } else if let Some(cap) = expected.cap {
            *self.caps.entry(cap).or_default() += 1;
        }
    }

    fn keep_if_smallest(&mut self, found: Difference) {
        let sort = (
            found.question.kind(),
            sort_of(&found.expected),
            sort_of(&found.given),
        );
        match self.smallest.get(&sort) {
            Some(kept) if size(&kept.question) <= size(&found.question) => {}
            _ => drop(self.smallest.insert(sort, found)),
        }
    }

    /// Whether the program itself went wrong, so that there is no use in asking on.
    pub fn program_failed(&self) -> bool {
        !self.failures.is_empty()
    }

    pub fn agreed(&self) -> bool {
        !self.program_failed() && self.smallest.is_empty()
    }

    pub fn report(&self) {
        println!("question   compared    differ");
        for (kind, count) in &self.counts {
            let (name, compared, differing) = (kind.name(), count.compared, count.differing);
            println!("{name:<9}{compared:>10}{differing:>10}");
        }
        for cap in caps::NUMBERS {
            let count = self.caps.get(&cap).unwrap_or(&0);
            println!("listed difference, refusal {cap}: {count}");
        }
        println!("compared on a text that is not UTF-8: {}", self.not_utf8);
        for failure in &self.failures {
            println!("{failure}");
        }
        for difference in self.smallest.values() {
            difference.print();
        }
    }
}

impl Difference {
    fn print(&self) {
        println!("differs: {}", self.question);
        for text in self.question.texts() {
            println!("  text     \"{}\"", text.escape_ascii());
        }
        println!("  expected {}", self.expected);
        println!("  replay   {}", self.given);
    }
}

/// An answer without its details: its first word, with a refusal's number. All that begins in another
/// way, such as a segment's bytes, is one sort.
fn sort_of(answer: &str) -> String {
    let words: Vec<&str> = answer.split(' ').collect();
    match *words.as_slice() {
        [refused @ ("no" | "first" | "second"), number, ..] => format!("{refused} {number}"),
        [first @ ("ok" | "ok*" | "word" | "none" | "less" | "equal" | "greater"), ..] => {
            first.into()
        }
        _ => "other".into(),
    }
}

fn is_utf8(question: &Question) -> bool {
    let texts = question.texts();
    texts.iter().all(|text| std::str::from_utf8(text).is_ok())
}

fn size(question: &Question) -> usize {
    question.texts().iter().map(|text| text.len()).sum()
}
