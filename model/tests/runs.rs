//! Runs: cut anywhere they give the same, made singly too; and the last cycles.

mod common;

use common::*;
use vigambul_model::generate;
use vigambul_model::policy::{self, Policy};
use vigambul_model::program::read_trace;
use vigambul_model::refusal::Refusal;
use vigambul_model::state::{check_range, InFlight, Kind, State};
use vigambul_model::tick::{offer, tick};
use vigambul_model::trace::{run, tick_line, Word};

/// Generated policies that are accepted, each with its trace.
fn accepted_folders(seeds: std::ops::Range<u64>) -> Vec<(Policy, Vec<u32>)> {
    seeds
        .map(generate::folder)
        .map(|folder| (policy::read(&folder.policy), read_trace(&folder.trace)))
        .filter(|((_, refusal), _)| refusal.is_none())
        .map(|((policy, _), trace)| (policy, trace.numbers))
        .collect()
}

#[test]
fn a_run_cut_in_two_at_every_place_gives_the_same_log_and_state() {
    let mut cuts = 0;
    for (policy, mut list) in accepted_folders(0..60) {
        list.truncate(250);
        let mut whole = fresh(&policy);
        let log = run_on(&policy, &mut whole, &list);
        for place in 0..=list.len() {
            let (first, second) = list.split_at(place);
            let mut state = fresh(&policy);
            let mut parts = run_on(&policy, &mut state, first);
            parts.extend(run_on(&policy, &mut state, second));
            assert_eq!(parts, log, "cut at {place}");
            assert_eq!(state, whole, "cut at {place}");
            cuts += 1;
        }
    }
    assert!(cuts > 1_000);
}

#[test]
fn single_calls_give_what_one_run_gives_and_every_state_is_in_range() {
    for (policy, list) in accepted_folders(100..200) {
        let mut whole = fresh(&policy);
        let log = run_on(&policy, &mut whole, &list);
        let mut state = fresh(&policy);
        for (&number, line) in list.iter().zip(log.chunks(4)) {
            let given = match Word::of(number) {
                Word::Tick => tick(&policy, &mut state).map(|record| tick_line(&record)),
                Word::Offer(request) => offer(&policy, &mut state, request).map(|()| [0; 4]),
                Word::Malformed => Err(Refusal::Malformed),
            };
            let given = given.unwrap_or_else(|refusal| [refusal.number(), 0, 0, 0]);
            assert_eq!(given, line);
            assert_eq!(check_range(&policy, &state), Ok(()));
        }
        assert_eq!(state, whole);
    }
}

/// The state near the end of all ticks, with something in flight.
fn near_the_end(policy: &Policy) -> State {
    let mut state = fresh(policy);
    state.cycle = 16_777_213;
    state.owner = 1;
    state.last_activate = last(16_777_212, Kind::Read);
    state.last_of_bank[0] = state.last_activate;
    state.columns = vec![InFlight {
        due: 16_777_213,
        request: read_request(1, 7),
    }];
    state.responses = vec![InFlight {
        due: 16_777_214,
        request: read_request(1, 7),
    }];
    state
}

#[test]
fn ticks_at_the_last_cycles() {
    let policy = printed_policy();
    let mut state = near_the_end(&policy);
    assert_eq!(16_777_213 % 4, 1, "no turn starts in these ticks");
    let list = [0, 0, 0, read_word(0, 1), 1, 0];
    let log = run_on(&policy, &mut state, &list);
    assert_eq!(
        log,
        [
            [0, read_word(1, 7) | 0x4000_0000, 0, 0],
            [0, 0, read_word(1, 7), 0],
            [12, 0, 0, 0],
            // Offers and malformed words are as ever.
            [0, 0, 0, 0],
            [14, 0, 0, 0],
            [12, 0, 0, 0],
        ]
        .concat()
    );
    assert_eq!(state.cycle, 16_777_215);
    assert_eq!(state.classes[0].queue, [read_request(0, 1)]);
}

#[test]
fn a_single_tick_at_16_777_214_is_the_last() {
    let policy = printed_policy();
    let mut state = fresh(&policy);
    state.cycle = 16_777_214;
    assert!(tick(&policy, &mut state).is_ok());
    assert_eq!(state.cycle, 16_777_215);
    let before = state.clone();
    assert_eq!(tick(&policy, &mut state), Err(Refusal::NoMoreTicks));
    assert_eq!(state, before);
}

#[test]
fn a_turn_may_start_at_the_last_tick_and_what_it_activates_never_comes_back() {
    let turns_of_47 = [47, 2, 1, 1, 1, 1, 1, 1, 1, 2];
    let policy = policy(&CHAIN_OF_TWO, 64, &[0, 0], turns_of_47);
    let mut state = fresh(&policy);
    state.cycle = 16_777_214;
    assert_eq!(state.cycle % 47, 0);
    let log = run_on(&policy, &mut state, &[read_word(0, 1), 0, 0]);
    assert_eq!(log[4..], [0, read_word(0, 1), 0, 0x1_0101, 12, 0, 0, 0]);
    assert_eq!((state.columns.len(), state.responses.len()), (1, 1));
    // Flights past the last cycle are in range, so offers go on.
    assert_eq!(offer(&policy, &mut state, read_request(1, 0)), Ok(()));
}

#[test]
fn sixteen_million_ticks_are_taken_and_the_next_gets_12() {
    let policy = printed_policy();
    let mut state = fresh(&policy);
    let list = vec![0; 1 << 16];
    let mut log = vec![0; 4 << 16];
    for _ in 0..255 {
        assert_eq!(run(&policy, &mut state, &list, &mut log), Ok(()));
        assert!(log.chunks(4).all(|line| line[0] == 0));
    }
    assert_eq!(run(&policy, &mut state, &list, &mut log), Ok(()));
    let (last, taken) = log.split_last_chunk::<4>().map(|(a, b)| (b, a)).unwrap();
    assert!(taken.chunks(4).all(|line| line[0] == 0));
    assert_eq!(*last, [12, 0, 0, 0]);
    assert_eq!(state.cycle, 16_777_215);
}

#[test]
fn an_empty_run_changes_nothing() {
    let policy = printed_policy();
    let mut state = near_the_end(&policy);
    let before = state.clone();
    let mut log = [77; 2];
    assert_eq!(run(&policy, &mut state, &[], &mut log), Ok(()));
    assert_eq!((state, log), (before, [77; 2]));
}
