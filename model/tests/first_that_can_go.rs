//! W-203: "The owner now activates its oldest request whose gaps are met", cycle by cycle, and
//! the count that holds this back at 15. All numbers are worked out by hand.

mod common;

use common::*;
use vigambul_model::policy::Policy;
use vigambul_model::state::{Kind, Request, State};
use vigambul_model::tick::{offer, tick, Wires};

const READ: u8 = 0;
const WRITE: u8 = 1;

/// Gaps 3, 5, 7 and 9 by kinds, 11 and 13 by bank; column delay 1.
const DISTINCT: [u8; 10] = [255, 31, 3, 5, 7, 9, 11, 13, 1, 2];

/// A read is followed by a read after 2 cycles and by a write after 31; banks do not matter.
const WRITES_WAIT: [u8; 10] = [255, 31, 2, 31, 2, 2, 1, 1, 1, 2];

/// One class, whose turns never keep their dead time.
fn one_class(timing: [u8; 10]) -> Policy {
    policy(&[1], 1, &[0], timing)
}

fn ask(class: u8, kind: u8, bank: u8, tag: u16) -> Request {
    Request {
        class,
        kind,
        rank: 0,
        bank,
        tag,
    }
}

/// Offers requests, each of which must be taken.
fn offer_all(policy: &Policy, state: &mut State, requests: &[Request]) {
    for &request in requests {
        assert_eq!(offer(policy, state, request), Ok(()), "{request:?}");
    }
}

/// Some ticks, and the cycle and tag of each activate in them.
fn ticks(policy: &Policy, state: &mut State, count: u32) -> Vec<(u32, u16)> {
    let mut activates = Vec::new();
    for _ in 0..count {
        let cycle = state.cycle;
        let record = tick(policy, state).expect("a tick that is taken");
        if let Wires::Activate(request) = record.wires {
            activates.push((cycle, request.tag));
        }
    }
    activates
}

/// The tags of a class's waiting requests, oldest first, and its count.
fn waiting_tags(state: &State, class: usize) -> (Vec<u16>, u8) {
    let own = &state.classes[class];
    let tags = own.queue.iter().map(|request| request.tag).collect();
    (tags, own.passed)
}

/// One class's requests by kind, bank and tag, offered before cycle 0: the activates.
fn activates(timing: [u8; 10], requests: &[(u8, u8, u16)]) -> Vec<(u32, u16)> {
    let policy = one_class(timing);
    let mut state = fresh(&policy);
    for &(kind, bank, tag) in requests {
        offer_all(&policy, &mut state, &[ask(0, kind, bank, tag)]);
    }
    ticks(&policy, &mut state, 100)
}

#[test]
fn a_fresh_states_counts_are_0() {
    let state = fresh(&fork());
    assert!(state.classes.iter().all(|class| class.passed == 0));
}

/// Bank 0 is busy until cycle 11; a read of bank 1 may go 3 cycles after the first.
#[test]
fn one_of_a_free_bank_passes_the_oldest_of_a_busy_one() {
    let requests = [(READ, 0, 1), (READ, 0, 2), (READ, 1, 3)];
    assert_eq!(activates(DISTINCT, &requests), [(0, 1), (3, 3), (11, 2)]);
}

/// After a write a write waits 9 cycles and a read 7; after that read the write waits 5.
#[test]
fn one_of_the_other_kind_passes_the_oldest() {
    let requests = [(WRITE, 0, 1), (WRITE, 1, 2), (READ, 2, 3)];
    assert_eq!(activates(DISTINCT, &requests), [(0, 1), (7, 3), (12, 2)]);
}

/// Where the oldest's gaps are met it goes, whatever the others could do.
#[test]
fn the_oldest_goes_if_it_can() {
    let requests = [(READ, 0, 1), (READ, 1, 2), (READ, 2, 3), (READ, 3, 4)];
    let in_order = [(0, 1), (3, 2), (6, 3), (9, 4)];
    assert_eq!(activates(DISTINCT, &requests), in_order);
}

/// Of those that can go it is the oldest, and not one whose gaps were met for longer.
#[test]
fn of_several_that_can_go_the_oldest_goes() {
    // At 3 the gaps of 3 to 6 are met, and so on every 3 cycles; at 12 those of 2 are met too,
    // whose bank was busy until 11.
    let requests = [
        (READ, 0, 1),
        (READ, 0, 2),
        (READ, 1, 3),
        (READ, 2, 4),
        (READ, 3, 5),
        (READ, 4, 6),
    ];
    let expected = [(0, 1), (3, 3), (6, 4), (9, 5), (12, 2), (15, 6)];
    assert_eq!(activates(DISTINCT, &requests), expected);
}

#[test]
fn the_rest_of_the_queue_closes_up_in_its_order() {
    let policy = one_class(DISTINCT);
    let mut state = fresh(&policy);
    let reads = [(0, 1), (0, 2), (1, 3), (0, 4), (2, 5)];
    let reads = reads.map(|(bank, tag)| ask(0, READ, bank, tag));
    offer_all(&policy, &mut state, &reads);
    assert_eq!(ticks(&policy, &mut state, 1), [(0, 1)]);
    assert_eq!(waiting_tags(&state, 0), (vec![2, 3, 4, 5], 0));
    // From the second place, then from the last.
    assert_eq!(ticks(&policy, &mut state, 3), [(3, 3)]);
    assert_eq!(waiting_tags(&state, 0), (vec![2, 4, 5], 1));
    assert_eq!(ticks(&policy, &mut state, 3), [(6, 5)]);
    assert_eq!(waiting_tags(&state, 0), (vec![2, 4], 2));
    // A new one goes to the end and passes both, from the third place.
    offer_all(&policy, &mut state, &[ask(0, READ, 3, 6)]);
    assert_eq!(waiting_tags(&state, 0), (vec![2, 4, 6], 2));
    assert_eq!(ticks(&policy, &mut state, 3), [(9, 6)]);
    assert_eq!(waiting_tags(&state, 0), (vec![2, 4], 3));
    // The oldest goes; nothing has passed the next yet.
    assert_eq!(ticks(&policy, &mut state, 3), [(12, 2)]);
    assert_eq!(waiting_tags(&state, 0), (vec![4], 0));
    assert_eq!(ticks(&policy, &mut state, 20), [(23, 4)]);
    assert_eq!(waiting_tags(&state, 0), (vec![], 0));
}

/// Any place of a full queue can be the first that can go.
#[test]
fn each_of_eight_can_be_the_one_that_goes() {
    let policy = one_class(DISTINCT);
    for free in 0..8 {
        let mut state = fresh(&policy);
        state.cycle = 20;
        // Bank 0 is busy until 31.
        state.last_of_bank[0] = last(20 - 1, Kind::Write);
        for place in 0..8 {
            let bank = if place == free { 5 } else { 0 };
            offer_all(&policy, &mut state, &[ask(0, READ, bank, place)]);
        }
        assert_eq!(ticks(&policy, &mut state, 1), [(20, free)]);
        let rest: Vec<u16> = (0..8).filter(|&place| place != free).collect();
        assert_eq!(waiting_tags(&state, 0), (rest, u8::from(free > 0)));
    }
}

#[test]
fn a_full_queue_on_one_busy_bank_waits_for_it() {
    let requests: Vec<_> = (0..8).map(|tag| (READ, 6, tag)).collect();
    let expected: Vec<_> = (0u16..8).map(|tag| (11 * u32::from(tag), tag)).collect();
    assert_eq!(activates(DISTINCT, &requests), expected);
}

/// A state of one class in which a write has been the oldest since cycle 0 and reads wait behind
/// it, whose tags rise from 1; the write's is 1000.
struct WriteBehindReads {
    policy: Policy,
    state: State,
    next_tag: u16,
}

impl WriteBehindReads {
    fn new() -> WriteBehindReads {
        let policy = one_class(WRITES_WAIT);
        let mut state = fresh(&policy);
        let first = [ask(0, READ, 0, 0), ask(0, WRITE, 0, 1000)];
        offer_all(&policy, &mut state, &first);
        WriteBehindReads {
            policy,
            state,
            next_tag: 1,
        }
    }

    /// Some ticks, before each of which the queue is filled with reads. No offer changes the count.
    fn ticks(&mut self, count: u32) -> Vec<(u32, u16)> {
        let mut activates = Vec::new();
        for _ in 0..count {
            while self.state.classes[0].queue.len() < 8 {
                let before = self.state.classes[0].passed;
                let read = ask(0, READ, 0, self.next_tag);
                offer_all(&self.policy, &mut self.state, &[read]);
                self.next_tag += 1;
                assert_eq!(self.state.classes[0].passed, before);
            }
            activates.extend(ticks(&self.policy, &mut self.state, 1));
        }
        activates
    }

    fn passed(&self) -> u8 {
        self.state.classes[0].passed
    }
}

/// Reads go at 0, 2, 4 and so on. Those at 2 to 30 pass the write, which are 15; then it waits
/// for its own gap, 31 cycles after the last of them, and nothing else goes.
#[test]
fn fifteen_pass_and_then_the_oldest_goes_next() {
    let mut list = WriteBehindReads::new();
    assert_eq!(list.ticks(1), [(0, 0)]);
    for passes in 1u8..=15 {
        let at = 2 * u32::from(passes);
        assert_eq!(list.ticks(2), [(at, u16::from(passes))]);
        assert_eq!(list.passed(), passes);
    }
    assert_eq!(list.state.cycle, 31);
    for _ in 31..61 {
        assert_eq!(list.ticks(1), []);
        assert_eq!(list.passed(), 15);
    }
    assert_eq!(list.ticks(1), [(61, 1000)]);
    assert_eq!(list.passed(), 0);
    // The reads go on where they were.
    assert_eq!(list.ticks(5), [(63, 16), (65, 17)]);
    assert_eq!(list.passed(), 0);
}

/// The next write is counted anew.
#[test]
fn each_oldest_has_a_count_of_its_own() {
    let mut list = WriteBehindReads::new();
    list.ticks(5);
    assert_eq!(list.passed(), 2);
    // A second write waits behind the reads 3 to 7, in the place of read 8.
    let read = list.state.classes[0].queue.pop_back();
    assert_eq!(read.map(|read| read.tag), Some(8));
    let write = ask(0, WRITE, 0, 2000);
    offer_all(&list.policy, &mut list.state, &[write]);
    let went = list.ticks(26);
    assert_eq!(went.last(), Some(&(30, 16)));
    assert_eq!(list.passed(), 15);
    assert_eq!(list.ticks(31).last(), Some(&(61, 1000)));
    // Now the second is the oldest, and 2 cycles are enough between two writes.
    assert_eq!(list.ticks(2), [(63, 2000)]);
    assert_eq!(list.passed(), 0);
}

/// A due column command holds all back: the second may not go at 2, nor the third.
#[test]
fn a_due_column_command_holds_all_back() {
    let policy = one_class([20, 10, 2, 2, 2, 2, 8, 8, 2, 3]);
    let mut state = fresh(&policy);
    let reads = [(0, 1), (0, 2), (1, 3)].map(|(bank, tag)| ask(0, READ, bank, tag));
    offer_all(&policy, &mut state, &reads);
    assert_eq!(ticks(&policy, &mut state, 3), [(0, 1)]);
    assert_eq!(waiting_tags(&state, 0), (vec![2, 3], 0));
    assert_eq!(ticks(&policy, &mut state, 10), [(3, 3), (8, 2)]);
}

/// 0 below 1; class 0 keeps turns left, so a turn of class 1 keeps its dead time. Turns of 8, dead
/// time 3: at offsets 5 to 7 nothing goes, though a gap of 1 is met at 6.
#[test]
fn the_dead_time_holds_all_back() {
    let policy = policy(&CHAIN_OF_TWO, 64, &[0, 0], [8, 3, 1, 1, 1, 1, 3, 3, 1, 2]);
    let mut state = fresh(&policy);
    assert_eq!(ticks(&policy, &mut state, 4), []);
    let reads = [(0, 1), (0, 2), (1, 3)].map(|(bank, tag)| ask(1, READ, bank, tag));
    offer_all(&policy, &mut state, &reads);
    assert_eq!(ticks(&policy, &mut state, 4), [(4, 1)]);
    assert_eq!(waiting_tags(&state, 1), (vec![2, 3], 0));
    // In the next turn bank 0 is free again, so the oldest goes first.
    assert_eq!(ticks(&policy, &mut state, 4), [(8, 2), (10, 3)]);
}

/// Two classes with a count each, in the turn of class 0: a read of bank 0 was activated at 4.
fn two_counts(passed: [u8; 2]) -> (Policy, State) {
    let policy = policy(
        &CHAIN_OF_TWO,
        1,
        &[0, 0],
        [64, 10, 2, 2, 2, 2, 10, 10, 1, 2],
    );
    let mut state = fresh(&policy);
    state.cycle = 6;
    state.last_activate = last(4, Kind::Read);
    state.last_of_bank[0] = last(4, Kind::Read);
    for (class, passed) in passed.into_iter().enumerate() {
        state.classes[class].passed = passed;
    }
    (policy, state)
}

#[test]
fn the_owners_count_alone_moves() {
    let (policy, mut state) = two_counts([7, 9]);
    let reads = [(0, 0, 1), (0, 1, 2), (1, 0, 3), (1, 1, 4)];
    let reads = reads.map(|(class, bank, tag)| ask(class, READ, bank, tag));
    offer_all(&policy, &mut state, &reads);
    let counts = |state: &State| [state.classes[0].passed, state.classes[1].passed];
    assert_eq!(counts(&state), [7, 9]);
    assert_eq!(ticks(&policy, &mut state, 1), [(6, 2)]);
    assert_eq!(counts(&state), [8, 9]);
    // A column command, then nothing that could go: no count moves.
    assert_eq!(ticks(&policy, &mut state, 7), []);
    assert_eq!(counts(&state), [8, 9]);
    assert_eq!(ticks(&policy, &mut state, 1), [(14, 1)]);
    assert_eq!(counts(&state), [0, 9]);
    // The rest of the turn is idle, and class 1 keeps its requests and its count.
    assert_eq!(ticks(&policy, &mut state, 40), []);
    assert_eq!(waiting_tags(&state, 1), (vec![3, 4], 9));
}

/// A turn's start leaves the counts as they are.
#[test]
fn a_turns_start_changes_no_count() {
    let (policy, mut state) = two_counts([3, 5]);
    state.cycle = 64;
    state.last_activate = last(63, Kind::Read);
    state.last_of_bank[0] = last(63, Kind::Read);
    offer_all(&policy, &mut state, &[ask(0, READ, 0, 1)]);
    let record = tick(&policy, &mut state).expect("a tick that is taken");
    assert!(record.turn.is_some() && record.wires == Wires::Nothing);
    assert_eq!(waiting_tags(&state, 0), (vec![1], 3));
    assert_eq!(waiting_tags(&state, 1), (vec![], 5));
}

/// One cycle of a state that was handed in with a count: at 14 the younger goes and the count is
/// 15; at 15 it waits for the oldest.
#[test]
fn a_count_handed_in_decides() {
    let reads = [ask(0, READ, 0, 1), ask(0, READ, 1, 2)];
    let (policy, mut state) = two_counts([14, 15]);
    offer_all(&policy, &mut state, &reads);
    assert_eq!(ticks(&policy, &mut state, 1), [(6, 2)]);
    assert_eq!(waiting_tags(&state, 0), (vec![1], 15));
    let (policy, mut state) = two_counts([15, 14]);
    offer_all(&policy, &mut state, &reads);
    assert_eq!(ticks(&policy, &mut state, 8), []);
    assert_eq!(waiting_tags(&state, 0), (vec![1, 2], 15));
    assert_eq!(ticks(&policy, &mut state, 1), [(14, 1)]);
    assert_eq!(waiting_tags(&state, 0), (vec![2], 0));
    assert_eq!(ticks(&policy, &mut state, 2), [(16, 2)]);
}

/// The count belongs to whichever request is the oldest, of an empty queue to none: an offer to it
/// leaves the count that was handed in.
#[test]
fn an_offer_to_an_empty_queue_leaves_a_count_handed_in() {
    let (policy, mut state) = two_counts([15, 0]);
    offer_all(&policy, &mut state, &[ask(0, READ, 1, 1)]);
    assert_eq!(waiting_tags(&state, 0), (vec![1], 15));
    assert_eq!(ticks(&policy, &mut state, 1), [(6, 1)]);
    assert_eq!(waiting_tags(&state, 0), (vec![], 0));
}
