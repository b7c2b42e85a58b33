//! The policies and traces that speed is measured on.

use vigambul_model::generate::{
    antichain_rows, busy_bank_offer, chain_rows, malformed_word, missing_class_word, on_rank,
    refused_offer, sound_offer, PolicyFields,
};
use vigambul_model::policy::{self, Policy, MOST_CLASSES};
use vigambul_model::random::Random;
use vigambul_model::state::{QUEUE_LIMIT, RANKS};
use vigambul_model::trace::COLUMN_BIT;

use crate::fast::Controller;

/// A policy file and a trace to run under it.
pub struct Workload {
    pub name: &'static str,
    pub policy: Vec<u8>,
    pub trace: Vec<u32>,
}

/// Turns of 16 with a dead time of 6; gaps and delays that differ, so that each
/// of them holds some activates back.
const TIMING: [u8; 10] = [16, 6, 2, 3, 3, 2, 4, 6, 2, 5];
/// The same with the longest turns: one tick in 255 starts one.
const LONG_TURNS: [u8; 10] = [255, 6, 2, 3, 3, 2, 4, 6, 2, 5];

/// Turns of 64 with a dead time of 16, which is also the same-bank gap: a bank that is asked
/// for again is busy for long.
const BUSY_BANK: [u8; 10] = [64, 16, 2, 4, 4, 2, 16, 16, 3, 8];

/// Longer than the shortest gap by kinds: a request on the last one's rank may pass others.
const RANK_GAP: u8 = 3;

/// The workloads of the main table, each of so many trace numbers.
pub fn main_workloads(length: usize) -> Vec<Workload> {
    vec![
        idle("idle ticks, a diamond", diamond(), length),
        saturated("one class, saturated", single(TIMING), length),
        kept_full(
            "one class, a busy bank",
            single(BUSY_BANK),
            length,
            |random, class| busy_bank_offer(random, class, 0, 25),
        ),
        kept_full(
            "one class, four ranks, saturated",
            single(TIMING).with_rank_gap(RANK_GAP),
            length,
            |random, class| {
                let word = sound_offer(random, class, 8);
                on_rank(word, random.below(RANKS))
            },
        ),
        saturated("chain of 16, saturated", chain(TIMING), length),
        idle("chain of 16, idle", chain(TIMING), length),
        saturated(
            "antichain of 15 over one, saturated",
            antichain(ONE_BUT_OF_THE_LEAST),
            length,
        ),
        idle(
            "antichain of 15 over one, idle",
            antichain(NO_MINIMUMS),
            length,
        ),
        mix("mix with refusals, a diamond", diamond(), length),
    ]
}

/// Ticks of which one in 255 starts a turn, for one class and for sixteen.
pub fn long_turn_workloads(length: usize) -> Vec<Workload> {
    vec![
        idle("1 class, idle", single(LONG_TURNS), length),
        idle("16 classes, idle", chain(LONG_TURNS), length),
        saturated("1 class, saturated", single(LONG_TURNS), length),
        saturated("16 classes, saturated", chain(LONG_TURNS), length),
    ]
}

/// The policy file of the chain of sixteen.
pub fn policy_of_sixteen() -> Vec<u8> {
    chain(TIMING).encode()
}

fn single(timing: [u8; 10]) -> PolicyFields {
    PolicyFields::new(&[1], 4, &[0], timing)
}

/// 0 below 1 and 2, both below 3.
fn diamond() -> PolicyFields {
    PolicyFields::new(&[0b1111, 0b1010, 0b1100, 0b1000], 8, &[1, 2, 2, 1], TIMING)
}

/// All sixteen in a row, each but the least with a home turn, so that a walk of each
/// epoch starts at every height. Saturated, each class takes the turn that starts at it
/// and no walk ascends; idle, every walk goes to the top.
fn chain(timing: [u8; 10]) -> PolicyFields {
    let rows = chain_rows(MOST_CLASSES);
    PolicyFields::new(&rows, 16, &ONE_BUT_OF_THE_LEAST, timing)
}

/// Minimums of an epoch of sixteen turns, of which the first starts at class 0 and each
/// other is another class's home turn.
const ONE_BUT_OF_THE_LEAST: [u8; MOST_CLASSES] = {
    let mut minimums = [1; MOST_CLASSES];
    minimums[0] = 0;
    minimums
};

/// Minimums with which every turn starts at class 0.
const NO_MINIMUMS: [u8; MOST_CLASSES] = [0; MOST_CLASSES];

/// Class 0 below fifteen that are incomparable. Saturated, no walk ascends; idle, every
/// walk from class 0 goes to the next of its fifteen children.
fn antichain(minimums: [u8; MOST_CLASSES]) -> PolicyFields {
    let rows = antichain_rows(MOST_CLASSES, 0);
    PolicyFields::new(&rows, 16, &minimums, TIMING)
}

fn accepted(fields: &PolicyFields) -> (Vec<u8>, Policy) {
    let file = fields.encode();
    let (policy, refusal) = policy::read(&file);
    assert_eq!(refusal, None, "the policy of a workload is accepted");
    (file, policy)
}

/// Nothing but ticks.
fn idle(name: &'static str, fields: PolicyFields, length: usize) -> Workload {
    Workload {
        name,
        policy: accepted(&fields).0,
        trace: vec![0; length],
    }
}

/// Queues that are kept full of requests of any bank and either kind.
fn saturated(name: &'static str, fields: PolicyFields, length: usize) -> Workload {
    kept_full(name, fields, length, |random, class| {
        sound_offer(random, class, 8)
    })
}

/// Every queue is filled at the start, and each activate is followed by an offer
/// of the same class: no queue ever empties, and none is offered too much.
fn kept_full(
    name: &'static str,
    fields: PolicyFields,
    length: usize,
    offer_of: fn(&mut Random, u8) -> u32,
) -> Workload {
    let (file, policy) = accepted(&fields);
    let random = &mut Random::new(1);
    let mut trace: Vec<u32> = (0..policy.class_count() as u8)
        .flat_map(|class| [class; QUEUE_LIMIT])
        .map(|class| offer_of(random, class))
        .collect();
    let mut controller = Controller::new(&policy);
    for &offer in &trace {
        controller.call(offer);
    }
    while trace.len() < length {
        trace.push(0);
        let [_, command, _, _] = controller.call(0);
        if command != 0 && command & COLUMN_BIT == 0 {
            let class = (command >> 24 & 0x1F) as u8;
            let offer = offer_of(random, class);
            trace.push(offer);
            controller.call(offer);
        }
    }
    trace.truncate(length);
    Workload {
        name,
        policy: file,
        trace,
    }
}

/// Half ticks; the rest are offers, of which many find a full queue, and
/// numbers of each other kind that is refused.
fn mix(name: &'static str, fields: PolicyFields, length: usize) -> Workload {
    let (file, policy) = accepted(&fields);
    let random = &mut Random::new(2);
    let number = |_| {
        let class = random.below(policy.class_count()) as u8;
        match random.below(20) {
            0..=9 => 0,
            10..=15 => sound_offer(random, class, 8),
            16 => missing_class_word(random, &policy),
            17 => refused_offer(random, class),
            _ => malformed_word(random),
        }
    };
    Workload {
        name,
        trace: (0..length).map(number).collect(),
        policy: file,
    }
}
