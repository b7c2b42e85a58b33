//! W-204's cases, "Wires against cores": two recordings held together, and the recordings of a log.

use super::script::{lines, listed};
use super::*;
use vigambul_model::recordings::{
    match_recordings, recording, rest, soundness, Recording, Soundness,
};

/// Whether two recordings are sound, the first event without a partner, and the rest.
fn held(wires: &[u32], cores: &[u32], delay: u8) -> String {
    let sound = match soundness(wires, cores, delay) {
        Soundness::Sound => "sound",
        Soundness::Unsound(Recording::Wires) => "18 wires",
        Soundness::Unsound(Recording::Cores) => "18 cores",
    };
    let matched = match_recordings(wires, cores, delay);
    let found = match matched.which {
        Some(Recording::Wires) if matched.status == 0 => format!("activate {}", matched.at),
        Some(Recording::Cores) if matched.status == 0 => format!("answer {}", matched.at),
        _ => "none".to_string(),
    };
    format!(
        "{sound}, {found}, rest{}",
        listed(rest(wires, cores, delay))
    )
}

/// A recording of a log: the status, the count, and the whole slice.
fn made(of: Recording, trace: &[u32], log: &[u32], start: u32, room: usize) -> String {
    let mut out = vec![MARKER; room];
    let (count, refusal) = recording(of, trace, log, start, &mut out);
    let status = refusal.map_or(0, Refusal::number);
    format!("{status}, count {count}, out{}", listed(out))
}

/// The answers to the script's cases.
pub fn recordings() -> String {
    let (mut first, mut second) = (Vec::new(), Vec::new());
    let mut answers = String::new();
    for line in lines("cases_recordings") {
        let own = &line.numbers;
        let up_to = |list: &[u32], count: u32| list[..count as usize].to_vec();
        let answer = match line.word.as_str() {
            "Trace" => {
                first = line.numbers;
                continue;
            }
            "Log" => {
                second = line.numbers;
                continue;
            }
            "match" => held(
                &up_to(&first, own[1]),
                &up_to(&second, own[2]),
                own[0] as u8,
            ),
            _ => {
                let of = if line.word == "wires" {
                    Recording::Wires
                } else {
                    Recording::Cores
                };
                let trace = up_to(&first, own[1]);
                made(of, &trace, &up_to(&second, own[2]), own[0], own[3] as usize)
            }
        };
        answers += &line.answered(&answer);
    }
    answers
}

#[test]
fn the_cases_meet_every_answer_about_recordings() {
    let answers = recordings();
    for answer in [
        ": sound, none,",
        ": sound, activate ",
        ": sound, answer ",
        ": 18 wires, none, rest\n",
        ": 18 cores, none, rest\n",
        ": 0, count 2,",
        ": 17, count 0,",
        ": 12, count 0,",
        ": 16, count 0,",
    ] {
        assert!(answers.contains(answer), "no case gets{answer}");
    }
}
