//! What W-203 gains: the cycles that a burst of requests takes, from the first tick to the last
//! answer, under the rule before it and under the rule as it is.

mod common;

use common::*;
use vigambul_model::generate::busy_bank_offer;
use vigambul_model::planted::Planted;
use vigambul_model::policy::Policy;
use vigambul_model::random::Random;
use vigambul_model::state::{Request, State};
use vigambul_model::trace::{offer_word, run_planted};

/// One class, so that no dead time is kept: turns of 64, dead time 16; gaps 2 between two of one
/// kind and 4 between others; the same-bank gap is the dead time; column delay 3, answer delay 8.
const TIMING: [u8; 10] = [64, 16, 2, 4, 4, 2, 16, 16, 3, 8];

fn one_class() -> Policy {
    policy(&[1], 1, &[0], TIMING)
}

fn read(bank: u8, tag: u16) -> u32 {
    offer_word(&Request {
        class: 0,
        kind: 0,
        rank: 0,
        bank,
        tag,
    })
}

/// One number of a run; whether it was an offer that found room, and whether an answer went out.
fn call(policy: &Policy, state: &mut State, number: u32, planted: Planted) -> (bool, bool) {
    let mut line = [0; 4];
    assert_eq!(
        run_planted(policy, state, &[number], &mut line, planted),
        Ok(())
    );
    (line[0] == 0, line[2] != 0)
}

/// The ticks until all of a burst is answered. Before each tick as much of it is offered as the
/// queue takes.
fn drain(words: &[u32], planted: Planted) -> u32 {
    let policy = one_class();
    let mut state = fresh(&policy);
    let (mut to_come, mut answers) = (words, 0);
    while answers < words.len() {
        while let Some((&word, rest)) = to_come.split_first() {
            if !call(&policy, &mut state, word, planted).0 {
                break;
            }
            to_come = rest;
        }
        answers += usize::from(call(&policy, &mut state, 0, planted).1);
    }
    state.cycle
}

/// The numbers before W-203 and with it.
fn both(name: &str, words: &[u32]) -> [u32; 2] {
    let drained = [Planted::OldestAlone, Planted::Nothing].map(|rule| drain(words, rule));
    println!("{name}: {} cycles before, {} now", drained[0], drained[1]);
    drained
}

fn reads(banks: &[u8]) -> Vec<u32> {
    let tagged = banks.iter().zip(0..);
    tagged.map(|(&bank, tag)| read(bank, tag)).collect()
}

/// Two reads of bank 0, then one of each of six others. Before, the second of bank 0 waits until 16
/// and all others behind it: activates at 0, 16, 18, 20, 22, 24, 26 and 28, the last answer at 36.
/// Now the others go at 2 to 12 and the second of bank 0 at 16: the last answer is at 24.
#[test]
fn two_reads_of_one_bank_and_six_of_others() {
    let words = reads(&[0, 0, 1, 2, 3, 4, 5, 6]);
    let drained = both("two of bank 0, then six of other banks", &words);
    assert_eq!(drained, [37, 25]);
}

/// Two reads of each of four banks. Before, each bank is waited for: activates at 0, 16, 18, 34, 36,
/// 52, 54 and 70, the last answer at 78. Now at 0, 2, 4, 6, 16, 18, 20 and 22: the last answer is at 30.
#[test]
fn two_reads_of_each_of_four_banks() {
    let words = reads(&[0, 0, 1, 1, 2, 2, 3, 3]);
    let drained = both("two of each of four banks", &words);
    assert_eq!(drained, [79, 31]);
}

/// A thousand requests of either kind: a quarter of bank 0, the rest of any bank. Now bank 0 is the
/// one thing that is waited for: it is busy for 16 cycles after each of its requests.
#[test]
fn a_thousand_requests_with_a_busy_bank() {
    let random = &mut Random::new(203);
    let words: Vec<u32> = (0..1_000)
        .map(|_| busy_bank_offer(random, 0, 0, 25))
        .collect();
    let of_bank_0 = words.iter().filter(|&word| word >> 16 & 7 == 0).count();
    println!("{of_bank_0} of bank 0");
    let drained = both("a thousand, many of bank 0", &words);
    assert_eq!(drained, [6943, 5145]);
    assert_eq!(of_bank_0, 321);
}
