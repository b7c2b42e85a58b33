//! A trace of any length runs in constant memory.

mod common;

use common::*;
use vigambul_model::generate::sound_offer;
use vigambul_model::random::Random;

/// In KiB, what a run of ten times the length may need beyond the shorter one.
/// It is less than the numbers that are added, let alone their text.
const MOST_GROWTH: u64 = 1024;

/// The memory that the program holds on a trace of so many numbers: ticks with an
/// offer in a hundred.
fn peak_of_run(length: usize) -> u64 {
    let mut random = Random::new(6);
    let number = |place: usize| {
        if place % 100 == 99 {
            let class = random.below(4) as u8;
            sound_offer(&mut random, class, 8)
        } else {
            0
        }
    };
    let numbers: Vec<u32> = (0..length).map(number).collect();
    stream_program(&format!("memory-{length}"), &diamond(), &numbers)
}

#[test]
fn a_million_numbers_take_no_more_memory_than_a_hundred_thousand() {
    let short = peak_of_run(100_000);
    let long = peak_of_run(1_000_000);
    assert!(long < MOST_MEMORY, "{long} KiB");
    assert!(long <= short + MOST_GROWTH, "{short} KiB, then {long} KiB");
}
