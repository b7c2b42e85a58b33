//! Refusals 9 to 12, 14 and 15: examples, order, and that a refused call leaves
//! everything as it was.

mod common;

use common::*;
use vigambul_model::refusal::{status, Refusal};
use vigambul_model::state::{Request, State};
use vigambul_model::tick::{offer, tick};
use vigambul_model::trace::{offer_word, run, Word};

/// A state that 13 refuses.
fn broken(mut state: State) -> State {
    state.owner = 2;
    state
}

fn full_queue_of_0() -> State {
    let policy = printed_policy();
    let mut state = fresh(&policy);
    run_on(&policy, &mut state, &[read_word(0, 0); 8]);
    state
}

const BAD_CLASS: u8 = 2;

fn offer_number(state: &State, request: Request) -> u32 {
    let mut after = state.clone();
    let outcome = offer(&printed_policy(), &mut after, request);
    if outcome.is_err() {
        assert_eq!(after, *state, "a refused offer leaves the state");
    }
    status(&outcome)
}

#[test]
fn offers_are_refused_in_the_order_13_9_10_11() {
    let full = full_queue_of_0();
    assert_eq!(
        offer_number(&broken(full.clone()), request(BAD_CLASS, 2, 8)),
        13
    );
    assert_eq!(offer_number(&full, request(BAD_CLASS, 2, 8)), 9);
    assert_eq!(offer_number(&full, request(0, 0, 8)), 10);
    assert_eq!(offer_number(&full, request(0, 2, 0)), 10);
    assert_eq!(offer_number(&full, request(0, 0, 0)), 11);
    assert_eq!(offer_number(&full, request(1, 0, 0)), 0);
}

#[test]
fn the_bounds_of_class_bank_and_kind() {
    let state = fresh(&printed_policy());
    assert_eq!(offer_number(&state, request(1, 1, 7)), 0);
    assert_eq!(offer_number(&state, request(2, 1, 7)), 9);
    assert_eq!(offer_number(&state, request(255, 1, 7)), 9);
    assert_eq!(offer_number(&state, request(1, 1, 8)), 10);
    assert_eq!(offer_number(&state, request(1, 1, 255)), 10);
    assert_eq!(offer_number(&state, request(1, 2, 7)), 10);
    assert_eq!(offer_number(&state, request(1, 255, 7)), 10);
}

#[test]
fn a_taken_offer_goes_to_the_end_of_its_queue_and_changes_nothing_else() {
    let policy = printed_policy();
    let mut state = fresh(&policy);
    run_on(
        &policy,
        &mut state,
        &[read_word(1, 1), 0, 0, read_word(1, 2), 0],
    );
    let mut expected = state.clone();
    let late = request(1, 1, 7);
    expected.classes[1].queue.push_back(late);
    assert_eq!(offer(&policy, &mut state, late), Ok(()));
    assert_eq!(state, expected);
}

#[test]
fn ticks_are_refused_in_the_order_13_12() {
    let policy = printed_policy();
    let mut state = fresh(&policy);
    state.cycle = 16_777_215;
    let before = state.clone();
    assert_eq!(tick(&policy, &mut state), Err(Refusal::NoMoreTicks));
    assert_eq!(state, before);
    let mut state = broken(state);
    let before = state.clone();
    assert_eq!(tick(&policy, &mut state), Err(Refusal::OutOfRange));
    assert_eq!(state, before);
}

#[test]
fn runs_are_refused_in_the_order_13_15() {
    let policy = printed_policy();
    // "1 number, log of 3"
    let mut log = [77; 3];
    let mut state = full_queue_of_0();
    let before = state.clone();
    let outcome = run(&policy, &mut state, &[0], &mut log);
    assert_eq!(outcome, Err(Refusal::LogTooShort));
    assert_eq!((&state, log), (&before, [77; 3]));
    let mut state = broken(state);
    let before = state.clone();
    let outcome = run(&policy, &mut state, &[0], &mut log);
    assert_eq!(outcome, Err(Refusal::OutOfRange));
    assert_eq!((state, log), (before, [77; 3]));
}

#[test]
fn a_run_asks_13_even_where_the_trace_is_empty() {
    let policy = printed_policy();
    let mut state = fresh(&policy);
    assert_eq!(run(&policy, &mut state, &[], &mut []), Ok(()));
    assert_eq!(state, fresh(&policy));
    let mut state = broken(state);
    let outcome = run(&policy, &mut state, &[], &mut []);
    assert_eq!(outcome, Err(Refusal::OutOfRange));
}

#[test]
fn numbers_past_the_log_of_a_run_stay() {
    let policy = printed_policy();
    let mut log = [77; 11];
    let mut state = fresh(&policy);
    assert_eq!(run(&policy, &mut state, &[0, 1], &mut log), Ok(()));
    assert_eq!(log, [0, 0, 0, 0x2_0102, 14, 0, 0, 0, 77, 77, 77]);
}

#[test]
fn a_run_goes_on_after_refused_lines_and_writes_them() {
    let policy = printed_policy();
    let mut list = vec![read_word(0, 1); 8];
    list.extend([
        read_word(BAD_CLASS, 0),
        offer_word(&request(0, 0, 8)),
        offer_word(&request(0, 3, 0)),
        read_word(0, 9),
        1,
        0,
    ]);
    let log = run_fresh(&policy, &list);
    let lines: Vec<[u32; 4]> = log.chunks(4).map(|line| line.try_into().unwrap()).collect();
    assert_eq!(lines[..8], [[0; 4]; 8]);
    assert_eq!(
        lines[8..],
        [
            [9, 0, 0, 0],
            [10, 0, 0, 0],
            [10, 0, 0, 0],
            [11, 0, 0, 0],
            [14, 0, 0, 0],
            [0, read_word(0, 1), 0, 0x1_0101],
        ]
    );
}

#[test]
fn refused_lines_change_nothing_in_the_state() {
    let policy = printed_policy();
    let mut state = full_queue_of_0();
    let before = state.clone();
    let refused = [
        read_word(BAD_CLASS, 0),
        offer_word(&request(0, 0, 8)),
        read_word(0, 9),
        1,
    ];
    let log = run_on(&policy, &mut state, &refused);
    let statuses: Vec<u32> = log.chunks(4).map(|line| line[0]).collect();
    assert_eq!(statuses, [9, 10, 11, 14]);
    assert_eq!(state, before);
}

#[test]
fn the_forms_of_a_trace_number() {
    assert_eq!(Word::of(0), Word::Tick);
    assert_eq!(
        Word::of(0x9FFF_FFFF),
        Word::Offer(Request {
            class: 31,
            kind: 3,
            rank: 3,
            bank: 15,
            tag: 0xFFFF
        })
    );
    assert_eq!(Word::of(0x8000_0000), Word::Offer(read_request(0, 0)));
    // W-206: "A trace number is no longer malformed for its bits 22 and 23."
    for bit in [29, 30] {
        assert_eq!(
            Word::of(0x8000_0000 | 1 << bit),
            Word::Malformed,
            "bit {bit}"
        );
    }
    for bit in 0..31 {
        assert_eq!(Word::of(1 << bit), Word::Malformed, "bit {bit} alone");
    }
    assert_eq!(Word::of(0x7FFF_FFFF), Word::Malformed);
    assert_eq!(Word::of(0xFFFF_FFFF), Word::Malformed);
}

#[test]
fn an_offers_word_names_its_fields() {
    let request = Request {
        class: 0x12,
        kind: 1,
        rank: 2,
        bank: 5,
        tag: 0xABCD,
    };
    assert_eq!(offer_word(&request), 0x9295_ABCD);
    assert_eq!(Word::of(0x9295_ABCD), Word::Offer(request));
}

#[test]
fn every_refusal_has_its_number_in_the_table() {
    let table = [
        Refusal::Contents,
        Refusal::Lengths,
        Refusal::Rows,
        Refusal::FlowBothWays,
        Refusal::NotTransitive,
        Refusal::NoLeastClass,
        Refusal::Turns,
        Refusal::Timing,
        Refusal::Class,
        Refusal::BankOrKind,
        Refusal::QueueFull,
        Refusal::NoMoreTicks,
        Refusal::OutOfRange,
        Refusal::Malformed,
        Refusal::LogTooShort,
        Refusal::ExtractTooShort,
        Refusal::LogNotOfTrace,
    ];
    let numbers: Vec<u32> = table.iter().map(|refusal| refusal.number()).collect();
    assert_eq!(numbers, (1..=17).collect::<Vec<u32>>());
    assert_eq!(status(&Ok::<(), Refusal>(())), 0);
}
