//! The script of a test program: its cases are read from the program's own, so that each case stands
//! once.

use std::fs;
use std::path::Path;

/// A line of a script: a word, a name and numbers.
pub struct Line {
    pub word: String,
    pub numbers: Vec<u32>,
    name: String,
}

impl Line {
    /// The line that is printed of an answer: the name, with the line's numbers for each # in it, and
    /// the answer.
    pub fn answered(&self, answer: &str) -> String {
        let mut parts = self.name.split('#');
        let mut whole = parts.next().unwrap_or_default().to_string();
        for (part, number) in parts.zip(&self.numbers) {
            whole += &format!("{number}{part}");
        }
        format!("{whole}: {answer}\n")
    }
}

/// A number: decimal, or hexadecimal after 0x.
fn number(word: &str) -> u32 {
    match word.strip_prefix("0x") {
        Some(digits) => u32::from_str_radix(digits, 16).expect("a hexadecimal number"),
        None => word.parse().expect("a decimal number"),
    }
}

/// The lines of a program's script. One that starts with a space goes on with the line before it.
pub fn lines(program: &str) -> Vec<Line> {
    let script = Path::new(env!("CARGO_MANIFEST_DIR")).join(format!("../crates/{program}/stdin"));
    let script = fs::read_to_string(script).expect("the program's script");
    let script = script.replace("\n ", " ");
    let cases = script.lines().filter(|line| !line.starts_with('#'));
    let parts = cases.filter_map(|line| line.split_once(':'));
    parts
        .map(|(head, tail)| {
            let (word, name) = head.split_once(' ').unwrap_or((head, ""));
            Line {
                word: word.to_string(),
                numbers: tail.split_whitespace().map(number).collect(),
                name: name.to_string(),
            }
        })
        .collect()
}

/// Numbers as they are printed, a space before each.
pub fn listed<N: ToString>(numbers: impl IntoIterator<Item = N>) -> String {
    let numbers = numbers.into_iter();
    numbers
        .map(|number| format!(" {}", number.to_string()))
        .collect()
}
