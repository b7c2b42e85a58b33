//! 13: "a state or policy handed in has numbers out of range", clause by clause.

mod common;

use common::*;
use vigambul_model::policy::Policy;
use vigambul_model::refusal::Refusal;
use vigambul_model::state::{InFlight, Kind, State};
use vigambul_model::tick::{offer, tick};
use vigambul_model::trace::run;

/// Whether all three kinds of call refuse a state with 13, and leave it and the
/// log alone; or all three take it.
fn is_refused(policy: &Policy, state: &State) -> bool {
    let refused = Err(Refusal::OutOfRange);
    let mut ticked = state.clone();
    let by_tick = tick(policy, &mut ticked).map(|_| ()) == refused;
    let mut offered = state.clone();
    let by_offer = offer(policy, &mut offered, read_request(2, 9)) == refused;
    let mut after_run = state.clone();
    let mut log = [77; 8];
    let by_run = run(policy, &mut after_run, &[0, read_word(2, 9)], &mut log) == refused;
    assert_eq!(by_tick, by_offer);
    assert_eq!(by_tick, by_run);
    if by_tick {
        assert_eq!([&ticked, &offered, &after_run], [state; 3]);
        assert_eq!(log, [77; 8]);
    }
    by_tick
}

#[test]
fn a_sound_state_is_taken() {
    assert!(!is_refused(&fork(), &busy()));
    assert!(!is_refused(&fork(), &fresh(&fork())));
}

/// Each clause with a change just out of range, and changes that only the model's
/// state can hold; the change just inside it is tested below.
#[test]
fn every_clause_refuses_a_number_just_out_of_range() {
    let more: [Change; 10] = [
        ("an owner far off", |state| state.owner = usize::MAX),
        ("a cycle above 16,777,215", |state| {
            state.columns.clear();
            state.responses.clear();
            state.cycle = 16_777_216;
        }),
        ("a last activate at the highest cycle", |state| {
            state.last_activate = last(u32::MAX, Kind::Write)
        }),
        ("an answer due at the end of 32 bits", |state| {
            state.responses[1].due = u32::MAX
        }),
        ("a count of 16", |state| state.classes[0].passed = 16),
        ("a count of 16 where none waits", |state| {
            assert!(state.classes[2].queue.is_empty());
            state.classes[2].passed = 16
        }),
        ("the highest count", |state| {
            state.classes[1].passed = u8::MAX
        }),
        ("two columns due in one cycle", |state| {
            state.columns[0].due = state.columns[1].due
        }),
        ("two answers due in one cycle", |state| {
            state.responses[1].due = state.responses[0].due
        }),
        ("two far columns due in one cycle", |state| {
            let first = state.columns[0];
            state.columns.push(InFlight { ..first });
        }),
    ];
    for (what, change) in OUT_OF_RANGE[1..].iter().chain(&more) {
        let mut state = busy();
        change(&mut state);
        assert!(is_refused(&fork(), &state), "{what}");
    }
}

#[test]
fn every_clause_takes_a_number_just_inside_its_range() {
    let changes: [(&str, fn(&mut State)); 16] = [
        ("the last owner", |state| state.owner = 2),
        ("a pointer at the covers", |state| {
            state.classes[0].pointer = 2
        }),
        ("a queue length of 8", |state| {
            state.classes[0].queue = vec![request(0, 1, 7); 8].into()
        }),
        ("turns left at the cap", |state| state.classes[0].left = 2),
        ("no turns left", |state| state.classes[1].left = 0),
        ("a count of 15", |state| state.classes[1].passed = 15),
        ("counts of 15 where none waits", |state| {
            state.classes[0].passed = 15;
            state.classes[2].passed = 15;
        }),
        ("a last activate one before the cycle", |state| {
            state.last_activate = last(2, Kind::Write)
        }),
        ("a last activate of a bank one before the cycle", |state| {
            state.last_of_bank[7] = last(2, Kind::Write)
        }),
        // No clause asks that the last activate of all is the latest of a bank.
        ("no last activate of all", |state| {
            state.last_activate = None
        }),
        ("a column due one less than its delay after", |state| {
            state.columns[1].due = 5;
            state.columns[0].due = 4;
        }),
        ("an answer due one less than its delay after", |state| {
            state.responses[1].due = 8
        }),
        ("a column due at the next tick", |state| {
            state.columns[0].due = 3
        }),
        ("an answer due at the next tick", |state| {
            state.responses[0].due = 3
        }),
        ("columns in falling order", |state| state.columns.reverse()),
        ("a column without an answer", |state| {
            state.responses.clear()
        }),
    ];
    for (what, change) in changes {
        let mut state = busy();
        change(&mut state);
        assert!(!is_refused(&fork(), &state), "{what}");
    }
}

#[test]
fn the_last_cycle_is_in_range_and_offers_are_taken_there() {
    let policy = fork();
    let mut state = fresh(&policy);
    state.cycle = 16_777_215;
    assert_eq!(offer(&policy, &mut state, read_request(0, 0)), Ok(()));
}

#[test]
fn a_state_of_another_policy_is_refused() {
    let two = printed_policy();
    assert!(is_refused(&two, &fresh(&fork())));
    assert!(is_refused(&fork(), &fresh(&two)));
}

#[test]
fn an_unfit_policy_is_refused_with_any_state() {
    let mut unfit = fork();
    unfit.caps[0] += 1;
    assert!(is_refused(&unfit, &busy()));
    assert!(is_refused(&Policy::of_no_classes(), &State::of_zeros()));
}

/// What is in flight goes out by its due cycle, in whatever order it is stored.
#[test]
fn the_order_in_which_flights_are_stored_does_not_matter() {
    let policy = fork();
    let mut forward = busy();
    let mut backward = busy();
    backward.columns.reverse();
    backward.responses.reverse();
    let list = [0; 40];
    assert_eq!(
        run_on(&policy, &mut forward, &list),
        run_on(&policy, &mut backward, &list)
    );
    assert_eq!(forward, backward);
}
