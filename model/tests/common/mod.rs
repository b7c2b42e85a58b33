//! What the tests share: policies by their fields, and lists of calls.

#![allow(dead_code)] // each test file uses its own part

use vigambul_model::generate::PolicyFields;
use vigambul_model::policy::{self, Policy};
use vigambul_model::state::{self, InFlight, Kind, LastActivate, Request, State};
use vigambul_model::trace::{self, offer_word, LINE};

/// The timing body of document 01's printed log: turns of 4, dead time 2, all
/// gaps 2, column delay 1, answer delay 2.
pub const TIMING: [u8; 10] = [4, 2, 2, 2, 2, 2, 2, 2, 1, 2];

/// Document 01's file for the printed log, byte for byte.
pub const PRINTED_POLICY: [u8; 34] = [
    0x03, 0x01, 0x10, 0x00, 0x05, 0x00, 0x02, 0x15, 0x00, 0x03, 0x00, 0x03, 0x18, 0x00, 0x0A, 0x00,
    0x02, 0x03, 0x00, 0x02, 0x00, 0x03, 0x00, 0x02, 0x04, 0x02, 0x02, 0x02, 0x02, 0x02, 0x02, 0x02,
    0x01, 0x02,
];

/// 0 below 1.
pub const CHAIN_OF_TWO: [u16; 2] = [0b11, 0b10];
/// 0 below 1 below 2.
pub const CHAIN_OF_THREE: [u16; 3] = [0b111, 0b110, 0b100];
/// 0 below 1 and 2, which are incomparable.
pub const FORK: [u16; 3] = [0b111, 0b010, 0b100];
/// 0 below 1 and 2, both below 3.
pub const DIAMOND: [u16; 4] = [0b1111, 0b1010, 0b1100, 0b1000];

/// A policy that must be accepted.
pub fn policy(rows: &[u16], epoch: u8, minimums: &[u8], timing: [u8; 10]) -> Policy {
    let file = PolicyFields::new(rows, epoch, minimums, timing).encode();
    let (policy, refusal) = policy::read(&file);
    assert_eq!(refusal, None, "the file must be accepted");
    policy
}

/// A policy with a rank gap, which must be accepted.
pub fn ranked(rows: &[u16], epoch: u8, minimums: &[u8], timing: [u8; 10], rank_gap: u8) -> Policy {
    let fields = PolicyFields::new(rows, epoch, minimums, timing);
    let (policy, refusal) = policy::read(&fields.with_rank_gap(rank_gap).encode());
    assert_eq!(refusal, None, "the file must be accepted");
    policy
}

/// The policy of document 01's printed log.
pub fn printed_policy() -> Policy {
    policy(&CHAIN_OF_TWO, 3, &[0, 2], TIMING)
}

/// The fresh state of a policy that must be fit.
pub fn fresh(policy: &Policy) -> State {
    let (state, refusal) = state::fresh(policy);
    assert_eq!(refusal, None, "the policy must be fit");
    state
}

/// A state at the start of turn 1, with the turns left of some classes changed.
///
/// Since W-202 no class that a walk comes to is without turns left in a list of calls
/// from the fresh state (`promises.rs`). A caller may hand in such a state all the same.
pub fn with_turns_left(policy: &Policy, left: &[(usize, u8)]) -> State {
    let mut state = fresh(policy);
    state.cycle = u32::from(policy.timing.turn_length);
    for &(class, turns) in left {
        state.classes[class].left = turns;
    }
    state
}

/// The number that a file is refused with; 0 if it is taken.
pub fn file_number(file: &[u8]) -> u32 {
    policy::read(file).1.map_or(0, |refusal| refusal.number())
}

/// A read of bank 0, on rank 0.
pub fn read_request(class: u8, tag: u16) -> Request {
    Request {
        class,
        kind: 0,
        rank: 0,
        bank: 0,
        tag,
    }
}

/// The trace number of a read of bank 0.
pub fn read_word(class: u8, tag: u16) -> u32 {
    offer_word(&read_request(class, tag))
}

/// What an extract shows for a turn whose owner is not seen.
pub const HIDDEN: u32 = 512;

/// An extract by document 01's sentences, said once more: what those see who see some classes.
pub fn extract_in_words(seen: impl Fn(u32) -> bool, trace: &[u32], log: &[u32]) -> Vec<u32> {
    let mut kept = Vec::new();
    for (&number, line) in trace.iter().zip(log.chunks(4)) {
        let is_offer = number >> 31 == 1 && number & 0x6000_0000 == 0;
        if is_offer && seen(number >> 24 & 31) {
            kept.extend_from_slice(line);
        } else if number == 0 {
            let shown = |word: u32| if seen(word >> 24 & 31) { word } else { 0 };
            let low = line[3] & 255;
            let turn = match line[3] {
                0 => 0,
                turn if low > 0 && seen(low - 1) => turn,
                _ => HIDDEN,
            };
            kept.extend([line[0], shown(line[1]), shown(line[2]), turn]);
        }
    }
    kept
}

/// Runs a whole list from a state and gives its log.
pub fn run_on(policy: &Policy, state: &mut State, list: &[u32]) -> Vec<u32> {
    let mut log = vec![0; LINE * list.len()];
    assert_eq!(trace::run(policy, state, list, &mut log), Ok(()));
    log
}

/// Runs a whole list from the fresh state and gives its log.
pub fn run_fresh(policy: &Policy, list: &[u32]) -> Vec<u32> {
    run_on(policy, &mut fresh(policy), list)
}

/// The turn numbers other than 0 of a log, in order.
pub fn turns(log: &[u32]) -> Vec<u32> {
    log.chunks(LINE)
        .map(|line| line[3])
        .filter(|&turn| turn != 0)
        .collect()
}

/// Turn numbers as (owner, dead time dropped).
pub fn owners(log: &[u32]) -> Vec<(u32, bool)> {
    turns(log)
        .into_iter()
        .map(|turn| ((turn & 0xFF) - 1, turn & 256 != 0))
        .collect()
}

/// The owners of a list that is run from the fresh state.
pub fn picked(policy: &Policy, list: &[u32]) -> Vec<u32> {
    let log = run_fresh(policy, list);
    owners(&log).into_iter().map(|(owner, _)| owner).collect()
}

/// A list of some turns in which, before each turn, every class named gets as
/// many offers as its queue has room for.
pub fn always_waiting(policy: &Policy, classes: &[u8], turn_count: usize) -> Vec<u32> {
    let mut list = Vec::new();
    for _ in 0..turn_count {
        for &class in classes {
            list.extend([read_word(class, 0); 8]);
        }
        list.extend(vec![0; usize::from(policy.timing.turn_length)]);
    }
    list
}

/// A request on rank 0 with a tag of its own.
pub fn request(class: u8, kind: u8, bank: u8) -> Request {
    Request {
        class,
        kind,
        rank: 0,
        bank,
        tag: 5,
    }
}

/// 0 below 1 and 2; turns of 20, dead time 10, column delay 3, answer delay 6.
pub fn fork() -> Policy {
    policy(&FORK, 4, &[0, 1, 1], [20, 10, 2, 2, 2, 2, 2, 2, 3, 6])
}

/// A state at cycle 3 with two columns due at 3 and 5, two answers due at 6 and 8, and a waiting
/// request of class 1.
pub fn busy() -> State {
    let policy = fork();
    let mut state = fresh(&policy);
    let offers = [read_word(0, 1), read_word(0, 2), read_word(1, 3)];
    run_on(&policy, &mut state, &offers);
    run_on(&policy, &mut state, &[0; 3]);
    let due = |flight: &[InFlight]| flight.iter().map(|item| item.due).collect::<Vec<_>>();
    assert_eq!(due(&state.columns), [3, 5]);
    assert_eq!(due(&state.responses), [6, 8]);
    state
}

pub fn waiting(state: &mut State, class: usize, request: Request) {
    state.classes[class].queue.push_back(request);
}

/// A last activate on rank 0.
pub fn last(cycle: u32, kind: Kind) -> Option<LastActivate> {
    let rank = 0;
    Some(LastActivate { cycle, kind, rank })
}

/// A case's name, and what it changes in a busy state.
pub type Change = (&'static str, fn(&mut State));

/// Every clause of 13 on a state, with a number just out of range.
pub const OUT_OF_RANGE: [Change; 33] = [
    ("a sound state", |_| ()),
    ("one class less", |state| state.classes.truncate(2)),
    ("one class more", |state| {
        state.classes.push(Default::default())
    }),
    ("no classes", |state| state.classes.clear()),
    ("an owner not below n", |state| state.owner = 3),
    ("a cycle of 16777216", |state| {
        *state = fresh(&fork());
        state.cycle = 16_777_216;
    }),
    ("the highest cycle", |state| {
        *state = fresh(&fork());
        state.cycle = u32::MAX;
    }),
    ("a mark above the children", |state| {
        state.classes[0].pointer = 3
    }),
    ("a mark where there are no children", |state| {
        state.classes[1].pointer = 1
    }),
    ("turns left above the cap of 0", |state| {
        state.classes[0].left = 3
    }),
    ("turns left above the cap of 1", |state| {
        state.classes[1].left = 5
    }),
    ("turns left above the cap of 2", |state| {
        state.classes[2].left = 5
    }),
    ("a queue length of 9", |state| {
        state.classes[0].queue = vec![request(0, 1, 7); 9].into()
    }),
    ("a waiting request of no class", |state| {
        waiting(state, 2, request(3, 0, 0))
    }),
    ("a waiting request of bank 8", |state| {
        waiting(state, 2, request(2, 0, 8))
    }),
    ("a waiting request of kind 2", |state| {
        waiting(state, 2, request(2, 2, 0))
    }),
    ("a request in another class's queue", |state| {
        waiting(state, 2, request(1, 0, 0))
    }),
    ("the second of a queue is wrong", |state| {
        waiting(state, 1, request(0, 0, 0))
    }),
    ("the eighth of a queue is wrong", |state| {
        state.classes[0].queue = vec![request(0, 1, 7); 7].into();
        waiting(state, 0, request(0, 0, 8));
    }),
    ("a last activate at the cycle", |state| {
        state.last_activate = last(3, Kind::Read)
    }),
    ("a last activate after the cycle", |state| {
        state.last_activate = last(100, Kind::Write)
    }),
    ("a last activate of bank 7 at the cycle", |state| {
        state.last_of_bank[7] = last(3, Kind::Write)
    }),
    ("a last activate of bank 0 after the cycle", |state| {
        state.last_of_bank[0] = last(100, Kind::Read)
    }),
    ("a column of no class", |state| {
        state.columns[0].request = request(3, 0, 0)
    }),
    ("a column of bank 8", |state| {
        state.columns[1].request = request(0, 0, 8)
    }),
    ("a column of kind 2", |state| {
        state.columns[1].request = request(0, 2, 0)
    }),
    ("a column due before the next tick", |state| {
        state.columns[0].due = 2
    }),
    ("a column due its delay after it", |state| {
        state.columns[1].due = 6
    }),
    ("an answer of no class", |state| {
        state.responses[0].request = request(16, 0, 0)
    }),
    ("an answer of bank 8", |state| {
        state.responses[1].request = request(0, 0, 8)
    }),
    ("an answer of kind 2", |state| {
        state.responses[0].request = request(0, 2, 0)
    }),
    ("an answer due before the next tick", |state| {
        state.responses[0].due = 2
    }),
    ("an answer due its delay after it", |state| {
        state.responses[1].due = 9
    }),
];

/// Of two classes in a row with turns of 4: a request of class 0 that comes between the first and the
/// second tick of an idle turn of class 1 goes out in the next turn, and class 1 keeps its dead time.
pub fn check_late_request(policy: &Policy) {
    let log = run_fresh(policy, &[0, read_word(0, 1), 0, 0, 0, 0]);
    let commands: Vec<u32> = log.chunks(4).map(|line| line[1]).collect();
    assert_eq!(commands, [0, 0, 0, 0, 0, read_word(0, 1)]);
    assert_eq!(turns(&log), [0x2_0002, 0x1_0101]);
}
