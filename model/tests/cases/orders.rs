//! W-208's cases, "Every small order": each order by its place, what is refused, and policies written as
//! files.

use super::script::{lines, listed};
use vigambul_model::orders::all;
use vigambul_model::policy::{read, write, Policy};
use vigambul_model::refusal::Refusal;

/// What stands in a slice before a call writes into it.
const MARKER: u8 = 99;

fn number_of(refusal: Option<Refusal>) -> u32 {
    refusal.map_or(0, Refusal::number)
}

/// A number for each of the sixteen class numbers; one that is no class has 0.
fn sixteen<N: Copy + Into<u32>>(numbers: &[N]) -> String {
    let numbers = numbers.iter().map(|number| (*number).into());
    listed(numbers.chain(std::iter::repeat(0)).take(16))
}

/// The status, and the numbers of a policy. One of no classes has no ranks.
fn shown(policy: &Policy, refusal: Option<Refusal>) -> String {
    let timing = &policy.timing;
    let ranks = match (policy.rows.len(), timing.rank_gap) {
        (0, _) => 0,
        (_, None) => 1,
        (_, Some(_)) => 4,
    };
    format!(
        "{}, classes {}, rows{}, E {}, minimums{}, caps{}, turn {}, ranks {ranks}, gap {}",
        number_of(refusal),
        policy.rows.len(),
        sixteen(&policy.rows),
        policy.epoch,
        sixteen(&policy.minimums),
        sixteen(&policy.caps),
        timing.turn_length,
        timing.rank_gap.unwrap_or(0),
    )
}

/// The policy written as a file: the status, how many bytes were written, and the whole slice.
fn written(policy: &Policy, room: u32) -> String {
    let mut file = vec![MARKER; room as usize];
    let (size, refusal) = write(policy, &mut file);
    format!("{}, size {size}, file{}", number_of(refusal), listed(file))
}

/// The answers to the script's cases.
pub fn orders() -> String {
    let (mut timing, mut file) = (Vec::new(), Vec::new());
    let mut answers = String::new();
    for line in lines("cases_orders") {
        let own = &line.numbers;
        let bytes: Vec<u8> = own.iter().map(|byte| *byte as u8).collect();
        let answer = match line.word.as_str() {
            "Timing" => {
                timing = bytes;
                timing.resize(16, 0);
                continue;
            }
            "File" => {
                file = bytes;
                continue;
            }
            "again" => {
                let (policy, refusal) = read(&file);
                format!("{}, {}", number_of(refusal), written(&policy, own[0]))
            }
            word => {
                let (policy, refusal) = all().order(own[0], own[1], &timing[..own[2] as usize]);
                match word {
                    "order" => shown(&policy, refusal),
                    _ => written(&policy, own[3]),
                }
            }
        };
        answers += &line.answered(&answer);
    }
    answers
}

#[test]
fn the_cases_meet_every_answer_about_orders() {
    let answers = orders();
    for answer in [
        ": 0, classes 1,",
        ": 0, classes 2,",
        ": 0, classes 3,",
        ": 0, classes 4,",
        ": 0, classes 0,",
        ": 20, classes 0,",
        ": 2, classes 0,",
        ": 8, classes 0,",
        ", ranks 1, gap 0\n",
        ", ranks 4, gap 3\n",
        ": 0, size 41, file",
        ": 13, size 0, file",
        ": 16, size 0, file",
        ": 0, 0, size 77, file",
        ": 0, 16, size 0, file",
        ": 2, 13, size 0, file",
    ] {
        assert!(answers.contains(answer), "no case gets{answer}");
    }
    // Every order: 1, 2, 9 and 76 places.
    for (n, count) in [(1, 1), (2, 2), (3, 9), (4, 76)] {
        for place in 0..count {
            let case = format!("{n} classes, place {place}: 0, classes {n},");
            assert!(answers.contains(&case), "no case fetches {case}");
        }
    }
}
