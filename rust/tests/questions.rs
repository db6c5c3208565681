//! Asks the questions that the gate replays (`crates/replay/stdin`), and compares with the answers there.
use knappulf::{Entry, Fit, Fragments, Input, PreKind, Refusal, Refused, Segment, Version};
use std::fmt::{Display, Write};
use std::fs;

const NO_QUESTION: &str = "not a question";

fn bytes(word: &str) -> Vec<u8> {
    let byte = |i: usize| u8::from_str_radix(&word[i..i + 2], 16).expect("a byte");
    if word == "-" { Vec::new() } else { (0..word.len()).step_by(2).map(byte).collect() }
}

fn hex(bytes: &[u8]) -> String {
    if bytes.is_empty() { "-".into() } else { bytes.iter().map(|b| format!("{b:02x}")).collect() }
}

fn no(refusal: Refusal) -> String {
    format!("no {} {}", refusal.number, refusal.place)
}

fn either(refused: Refused, first: &str, second: &str) -> String {
    let who = if refused.input == Input::Second { second } else { first };
    format!("{who} {} {}", refused.refusal.number, refused.refusal.place)
}

fn joined<T: Display>(parts: impl Iterator<Item = T>, by: &str) -> String {
    let mut out = String::new();
    for (i, part) in parts.enumerate() {
        write!(out, "{}{part}", if i == 0 { "" } else { by }).expect("a string takes all");
    }
    if out.is_empty() { "-".into() } else { out }
}

fn fields(text: &[u8], version: Version<'_>) -> String {
    let pre = version.pre().map(|(kind, n)| match kind {
        PreKind::Alpha => format!("a{n}"),
        PreKind::Beta => format!("b{n}"),
        PreKind::Candidate => format!("rc{n}"),
    });
    let place = |part: &[u8]| part.as_ptr() as usize - text.as_ptr() as usize;
    let label = version.label().map(|segment| match segment {
        Segment::Number(n) => format!("n{n}"),
        Segment::Text(part) => format!("t{}:{}", place(part), place(part) + part.len()),
    });
    let (release, label) = (joined(version.release().iter(), "."), joined(label, ","));
    let (pre, post, dev) = (joined(pre.iter(), ""), joined(version.post().iter(), ""), joined(version.dev().iter(), ""));
    format!("{} {release} {pre} {post} {dev} {label}", version.epoch())
}

fn written(writer: impl FnOnce(&mut [u8]) -> Result<usize, Refusal>, room: &str) -> String {
    let mut buffer = vec![0xa5; room.parse().expect("a room")];
    let answer = writer(&mut buffer).map_or_else(no, |length| format!("ok {length}"));
    format!("{answer} {}", hex(&buffer))
}

fn yes_or_no(answer: Result<bool, Refused>, first: &str) -> String {
    answer.map_or_else(|refused| either(refused, first, "version"), |yes| if yes { "yes".into() } else { "no".into() })
}

fn answer(kind: &str, text: &[u8], more: &str) -> String {
    match kind {
        "read" => knappulf::read(text).map_or_else(no, |version| format!("ok {}", fields(text, version))),
        "pattern" => knappulf::pattern(text).map_or_else(no, |(version, wildcard)| {
            format!("ok{} {}", if wildcard { "*" } else { "" }, fields(text, version))
        }),
        "segment" => hex(knappulf::segment(text, more.parse().expect("an index"))),
        "normal" => written(|buffer| knappulf::normal(text, buffer).map(|text| text.len()), more),
        "word" => knappulf::word(text).map_or_else(no, |word| word.map_or("none".into(), |word| format!("word {:016x}", word.0))),
        "list" => knappulf::check(text).map_or_else(no, |count| format!("ok {count}")),
        "compare" => knappulf::compare(text, &bytes(more))
            .map_or_else(|refused| either(refused, "first", "second"), |order| format!("{order:?}").to_lowercase()),
        "accepts" => yes_or_no(knappulf::accepts(text, &bytes(more)), "list"),
        "compile" => written(|buffer| knappulf::compile(text, buffer).map(|table| table.len()), more),
        "lookup" => yes_or_no(knappulf::lookup(text, &bytes(more)), "table"),
        _ => panic!("{kind} is not known here"),
    }
}

fn entries(word: &str) -> Vec<Entry> {
    let entry = |said: &str| {
        let mut numbers = said.split(':').map(|number| number.parse::<usize>().expect("a number"));
        let mut next = || numbers.next().expect("three numbers");
        Entry { id: next().try_into().expect("an identifier"), start: next(), length: next() }
    };
    if word == "-" { Vec::new() } else { word.split(',').map(entry).collect() }
}

fn register(words: &[&str]) -> String {
    let fit = knappulf::fit(&entries(words[1]), &bytes(words[2]), &bytes(words[3]));
    fit.map_or_else(
        |refused| either(refused, "register", "version"),
        |fit| match fit {
            Fit::Nothing => "none".into(),
            Fit::One(id) => format!("one {id}"),
            Fit::Several(lowest, second) => format!("two {lowest} {second}"),
        },
    )
}

fn said(fragments: &Fragments) -> String {
    let text = fragments.text();
    match fragments.verdict() {
        None => "none".into(),
        Some(verdict) => verdict.map_or_else(no, |version| format!("ok {}", fields(text, version))),
    }
}

/// Each lump is written, and each verdict is the held text's own.
fn fragments(events: &[&str]) -> String {
    let mut fragments = Fragments::new();
    let said = events.iter().map(|event| {
        match *event {
            "end" => fragments.end(),
            "reset" => fragments.reset(),
            lump => std::io::Write::write_all(&mut fragments, &bytes(lump)).expect("every lump is taken"),
        }
        let said = said(&fragments);
        assert!(said == "none" || said == answer("read", fragments.text(), ""), "{events:?}");
        said
    });
    joined(said, " | ")
}

fn lines(file: &str) -> Vec<String> {
    let folder = option_env!("CARGO_MANIFEST_DIR").unwrap_or("rust");
    let path = format!("{folder}/../crates/replay/{file}");
    let text = fs::read(&path).unwrap_or_else(|error| panic!("{path}: {error}"));
    String::from_utf8(text).expect("the protocol is ASCII").lines().map(String::from).collect()
}

#[test]
fn the_questions_that_the_gate_replays() {
    let (questions, answers) = (lines("stdin"), lines("stdout"));
    assert_eq!(questions.len(), answers.len());
    let asked = questions.iter().zip(&answers).filter(|(_, expected)| *expected != NO_QUESTION);
    let mut count = 0;
    for (question, expected) in asked {
        let words: Vec<&str> = question.split(' ').collect();
        let said = match words[0] {
            "register" => register(&words),
            "fragments" => fragments(&words[1..]),
            kind => answer(kind, &bytes(words[1]), words.get(2).unwrap_or(&"")),
        };
        assert_eq!(&said, expected, "{question}");
        count += 1;
    }
    assert!(count > 6000, "only {count} questions");
}

#[test]
fn a_compiled_table_answers_as_its_list() {
    let mut buffer = [0; 31];
    let table = knappulf::compile(b">=4.2,!=4.3", &mut buffer).expect("a table");
    for version in ["4.1", "4.2", "4.3", "4.3.0+b1", "4.4", "x"] {
        let version = version.as_bytes();
        assert_eq!(knappulf::lookup(table, version), knappulf::accepts(b">=4.2,!=4.3", version));
    }
}

#[test]
fn every_refusal_has_a_sentence() {
    for number in (1..=18).chain(30..=33) {
        let sentence = Refusal { number, place: 7 }.to_string();
        assert!(!sentence.contains("no meaning"), "{number}: {sentence}");
    }
}
