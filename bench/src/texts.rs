//! The texts that both sides are given. The same seed gives the same texts in every run.

use std::fmt::Write;

/// Numbers that look random, by the method known as SplitMix64.
struct Random(u64);

impl Random {
    fn below(&mut self, bound: u64) -> u64 {
        self.0 = self.0.wrapping_add(0x9e37_79b9_7f4a_7c15);
        let mut mixed = self.0;
        mixed = (mixed ^ (mixed >> 30)).wrapping_mul(0xbf58_476d_1ce4_e5b9);
        mixed = (mixed ^ (mixed >> 27)).wrapping_mul(0x94d0_49bb_1331_11eb);
        (mixed ^ (mixed >> 31)) % bound
    }

    /// One of several, by their weights.
    fn pick<T: Copy>(&mut self, weighted: &[(u64, T)]) -> T {
        let mut left = self.below(weighted.iter().map(|(weight, _)| weight).sum());
        for &(weight, item) in weighted {
            if left < weight {
                return item;
            }
            left -= weight;
        }
        unreachable!("the weights cover what is drawn")
    }
}

/// A version as they are stamped: of a hundred 87 have three numbers, 7 two, 5 four and 1 one; 7 are pre-releases,
/// 7 development releases, 1 is a post-release.
fn stamped(random: &mut Random) -> String {
    let count = random.pick(&[(87, 3), (7, 2), (5, 4), (1, 1)]);
    let mut text = random.below(12).to_string();
    for _ in 1..count {
        write!(text, ".{}", random.below(40)).expect("a string takes it");
    }
    let suffix = random.pick(&[(3, "a"), (2, "b"), (2, "rc"), (7, ".dev"), (1, ".post"), (85, "")]);
    if !suffix.is_empty() {
        write!(text, "{suffix}{}", random.below(20)).expect("a string takes it");
    }
    text
}

pub fn mixed(count: usize) -> Vec<String> {
    let mut random = Random(1);
    (0..count).map(|_| stamped(&mut random)).collect()
}

/// Lists as fault tables carry them: one to four clauses.
pub fn lists(count: usize) -> Vec<String> {
    let mut random = Random(2);
    let one = |random: &mut Random| {
        let operator = random.pick(&[(6, ">="), (5, "<"), (2, "!="), (2, "~="), (1, ">"), (1, "<="), (1, "=="), (1, "!=*")]);
        match operator {
            "~=" => format!("~={}.{}", random.below(12), random.below(40)),
            "!=*" => format!("!={}.{}.*", random.below(12), random.below(40)),
            _ => format!("{operator}{}", stamped(random)),
        }
    };
    (0..count)
        .map(|_| {
            let clauses = random.pick(&[(2, 1), (6, 2), (2, 3), (1, 4)]);
            (0..clauses).map(|_| one(&mut random)).collect::<Vec<_>>().join(",")
        })
        .collect()
}

/// The longest that can be read, of several shapes; shorter ones of the same shapes for the growth with length.
pub fn long(bytes: usize) -> Vec<(&'static str, String)> {
    let padded = |text: &str, fill: &str, tail: &str| {
        let room = bytes.saturating_sub(text.len() + tail.len());
        format!("{text}{}{tail}", fill.repeat(room))
    };
    vec![
        ("zeros before a number", padded("", "0", "7")),
        ("blanks around", padded("", " ", "1.2.3")),
        ("one long segment", padded("1.2.3+", "a", "")),
        ("many numbers and segments", many(bytes)),
    ]
}

/// Sixteen numbers and sixteen segments, as long as may be.
fn many(bytes: usize) -> String {
    let width = (bytes / 32).saturating_sub(1).max(1);
    let numbers = vec![format!("{:0>width$}", 9); 16].join(".");
    let room = bytes.saturating_sub(numbers.len() + 1);
    let segment = "b".repeat((room / 16).saturating_sub(1).max(1));
    format!("{numbers}+{}", vec![segment; 16].join("."))
}

/// Sixteen clauses in as many bytes.
pub fn long_list(bytes: usize) -> String {
    let room = bytes / 16 - 3;
    let clauses: Vec<String> = (1..=16).map(|i| format!("!={i:0>room$}")).collect();
    clauses.join(",")
}
