//! The built program and the built library, beside the model, on generated
//! policies and traces.

mod common;

use common::*;
use vigambul_compare::library;
use vigambul_model::program::{self, read_trace};
use vigambul_model::random::Random;

/// Numbers on both sides of a lent log, in which a stray write shows.
const GUARD: usize = 8;

#[test]
fn the_program_prints_what_the_model_prints() {
    let mut counts = Counts::new(&[]);
    let folder = Folder::new("generated");
    for case in cases() {
        folder
            .put("policy.bin", case.policy.as_deref())
            .put("trace.bin", case.trace.as_deref());
        let expected = program::output(case.policy_bytes(), case.trace_bytes());
        if let Err(why) = check_program(&folder, &expected) {
            panic!("seed {} ({}): {why}", case.seed, case.change);
        }
        counts.add(&case);
    }
    counts.require_all_met();
}

#[test]
fn the_library_writes_what_the_model_writes() {
    let mut counts = Counts::new(&[
        "a log exactly as long as needed",
        "a log longer than needed",
        "refusal 15, a log too short by 1",
        "refusal 15, a log too short by 2",
        "refusal 15, a log too short by 3",
        "refusal 15, a log too short by 4",
        "refusal 15, a log of no numbers",
        "a refused file and a log too short",
    ]);
    for case in cases() {
        let trace = read_trace(case.trace_bytes()).numbers;
        let expected = model_log(case.policy_bytes(), &trace);
        for (log_length, name) in log_lengths(case.seed, trace.len(), expected.is_err()) {
            let checked = check_library(case.policy_bytes(), &trace, &expected, log_length);
            if let Err(why) = checked {
                panic!(
                    "seed {} ({}), {} trace numbers, a log of {log_length}: {why}",
                    case.seed,
                    case.change,
                    trace.len()
                );
            }
            counts.met(&name);
        }
        counts.add(&case);
    }
    counts.require_all_met();
}

#[test]
fn calls_of_the_library_at_the_same_time_do_not_meet() {
    // Each thread has cases of its own; what one leaves behind would show in
    // the other.
    let run_cases = |odd: usize| {
        for case in cases().skip(odd).step_by(2).take(400) {
            let trace = read_trace(case.trace_bytes()).numbers;
            let expected = model_log(case.policy_bytes(), &trace);
            for _ in 0..10 {
                let checked =
                    check_library(case.policy_bytes(), &trace, &expected, 4 * trace.len());
                assert_eq!(checked, Ok(()), "seed {}", case.seed);
            }
        }
    };
    std::thread::scope(|scope| {
        scope.spawn(|| run_cases(0));
        scope.spawn(|| run_cases(1));
    });
}

/// The lengths of log to try, each with the name that it is counted under.
fn log_lengths(seed: u64, trace_length: usize, refused: bool) -> Vec<(usize, String)> {
    let needed = 4 * trace_length;
    let past = 1 + Random::new(seed).below(40);
    let mut lengths = vec![
        (needed, "a log exactly as long as needed".to_string()),
        (needed + past, "a log longer than needed".to_string()),
    ];
    if trace_length > 0 {
        let name = |text: String| match refused {
            // "Order": the file is read before there is a run to refuse.
            true => "a refused file and a log too short".to_string(),
            false => format!("refusal 15, {text}"),
        };
        for short in 1..=4 {
            let text = format!("a log too short by {short}");
            lengths.push((needed - short, name(text)));
        }
        lengths.push((0, name("a log of no numbers".to_string())));
    }
    lengths
}

/// Whether the library answers as it must and leaves in the log, and around it,
/// what it must.
fn check_library(
    policy: &[u8],
    trace: &[u32],
    expected: &Result<Vec<u32>, u32>,
    log_length: usize,
) -> Result<(), String> {
    // No number of a log looks like these.
    let filler = |place: usize| 0x5AA5_0000 ^ place as u32;
    let mut after: Vec<u32> = (0..GUARD + log_length + GUARD).map(filler).collect();
    let mut numbers = after.clone();
    let status = library::run(policy, trace, &mut numbers[GUARD..GUARD + log_length]);
    let expected_status = match expected {
        Err(number) => *number,
        Ok(log) if log_length < log.len() => 15,
        Ok(log) => {
            after[GUARD..GUARD + log.len()].copy_from_slice(log);
            0
        }
    };
    if status != expected_status {
        return Err(format!("status {status}, not {expected_status}"));
    }
    match (0..after.len()).find(|&place| numbers[place] != after[place]) {
        None => Ok(()),
        Some(place) => Err(format!(
            "log number {} is {:08X}, not {:08X}",
            place as i64 - GUARD as i64,
            numbers[place],
            after[place]
        )),
    }
}
