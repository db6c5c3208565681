//! Times each entry point beside what the Rust does for the same question, on the same texts. Started by `run`.

mod rows;
mod texts;
mod timing;

use rows::{Texts, ROWS};

/// The longest text that either side is given.
const LONGEST: usize = 1024;

fn main() {
    let part = std::env::args().nth(1).unwrap_or_default();
    let wanted = |name: &str| part.is_empty() || part == name;
    println!("Nanoseconds a call: the proved library, the Rust, and the first divided by the second (the median of the");
    println!("rounds, and between which ratios four of five lie).");
    if wanted("mix") {
        table("A realistic mix", &Texts::of(texts::mixed(1000), texts::lists(100)));
    }
    if wanted("long") {
        for (shape, text) in texts::long(LONGEST) {
            table(&format!("1,024 bytes: {shape}"), &Texts::of(vec![text], vec![texts::long_list(LONGEST)]));
        }
    }
    if wanted("growth") {
        growth();
    }
}

fn table(title: &str, texts: &Texts) {
    println!("\n## {title}\n\n| call | proved | Rust | ratio | spread |\n|---|---|---|---|---|");
    for row in ROWS {
        let m = (row.measure)(texts);
        println!("| {} | {:.1} | {:.1} | {:.2} | {:.2} to {:.2} |", row.name, m.ours, m.theirs, m.ratio, m.low, m.high);
    }
}

/// How the times grow with the length of texts and lists.
fn growth() {
    let names: Vec<&str> = ROWS.iter().map(|row| row.name).collect();
    println!("\n## Growth with the length: proved / Rust\n\n| bytes | shape | {} |", names.join(" | "));
    println!("|---|---|{}", "---|".repeat(ROWS.len()));
    for bytes in [128, 256, 512, LONGEST] {
        for (shape, text) in texts::long(bytes) {
            let texts = Texts::of(vec![text], vec![texts::long_list(bytes)]);
            let cells: Vec<String> = ROWS.iter().map(|row| (row.measure)(&texts)).map(|m| format!("{:.0} / {:.0}", m.ours, m.theirs)).collect();
            println!("| {bytes} | {shape} | {} |", cells.join(" | "));
        }
    }
}
