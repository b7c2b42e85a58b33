//! Runs up to the last tick, number 16,777,214, and past it, where ticks get 12:
//! through the library and through the program, under several policies.

mod common;

use common::*;
use vigambul_compare::library;
use vigambul_model::policy::Policy;
use vigambul_model::state;
use vigambul_model::trace::{self, LINE};

const FILLER: u32 = 0x5AA5_5AA5;

/// The numbers after the last tick. "A run goes on after a refused line", and
/// each call still gets its own number: 12, 14, 9, 10, and 11 once a queue is
/// full.
fn numbers_past_the_last_tick(policy: &Policy) -> Vec<u32> {
    let no_class = 0x8000_0000 | (policy.class_count() as u32) << 24;
    let mut numbers = vec![0, 0, 1, no_class, 0x8008_0000, 0];
    numbers.extend([0x8000_0001; 9]);
    numbers.extend([0, 0]);
    numbers
}

/// What is known of the log after the last tick, whatever the numbers up to it
/// were.
fn check_past_the_last_tick(log: &[u32], to_the_last_tick: usize) {
    let (before, after) = log.split_at(LINE * to_the_last_tick);
    let last_tick = &before[before.len() - LINE..];
    assert_eq!(last_tick[0], 0, "tick number 16,777,214 is not refused");
    let statuses: Vec<u32> = after
        .chunks_exact(LINE)
        .map(|line| {
            assert_eq!(line[1..], [0, 0, 0]);
            line[0]
        })
        .collect();
    assert_eq!(statuses[..6], [12, 12, 14, 9, 10, 12]);
    assert_eq!(statuses[14..], [11, 12, 12]);
}

#[test]
fn the_tick_after_16_777_215_ticks_is_refused_and_the_run_goes_on() {
    for (seed, (name, file)) in (0..).zip(long::policies()) {
        let policy = accepted(&file);
        let mut numbers = long::numbers_to_the_last_tick(seed, &file);
        assert_eq!(numbers.last(), Some(&0), "{name}: a tick");
        let to_the_last_tick = numbers.len();
        numbers.extend(numbers_past_the_last_tick(&policy));
        let mut log = vec![FILLER; LINE * numbers.len() + 1];
        assert_eq!(library::run(&file, &numbers, &mut log), 0, "{name}");
        assert_eq!(log.pop(), Some(FILLER), "{name}: a number past the log");
        check_past_the_last_tick(&log, to_the_last_tick);

        // The whole log, in blocks, since a second one would need as much memory.
        let (mut state, _) = state::fresh(&policy);
        let mut expected = vec![0; LINE * 65_536];
        let blocks = numbers.chunks(65_536).zip(log.chunks(LINE * 65_536));
        for (place, (block, written)) in blocks.enumerate() {
            let expected = &mut expected[..LINE * block.len()];
            assert_eq!(trace::run(&policy, &mut state, block, expected), Ok(()));
            assert!(
                written == expected,
                "{name}: block {place} of 65,536 numbers"
            );
        }
    }
}

#[test]
fn the_program_prints_every_line_to_the_last_tick_and_past_it() {
    for (seed, (name, file)) in (4..).zip(long::policies()) {
        let mut numbers = long::numbers_to_the_last_tick(seed, &file);
        numbers.extend(numbers_past_the_last_tick(&accepted(&file)));
        println!("{name}");
        let memory = stream_program(&format!("last-tick-{seed}"), &file, &numbers);
        assert!(memory < MOST_MEMORY, "{name}: {memory} KiB");
    }
}
