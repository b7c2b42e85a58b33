//! W-202, "Turns that a class can count on": the plan of home turns, their walk, what it charges, and
//! the dead time before them; and examples of W-209, "The full cap, not up to it". What the two promise
//! of whole lists is held by `promises.rs`.

mod common;

use common::*;
use vigambul_model::policy::Policy;
use vigambul_model::state::State;

const DROPPED: bool = true;
const KEPT: bool = false;

/// The home class of each turn of an epoch and of the first turn of the next.
fn plan(rows: &[u16], epoch: u8, minimums: &[u8]) -> Vec<Option<usize>> {
    let policy = policy(rows, epoch, minimums, TIMING);
    let turns = 0..=u32::from(epoch);
    turns.map(|turn| policy.home(turn)).collect()
}

/// A turn of 4 ticks before which some classes offer one request each.
fn turn(policy: &Policy, state: &mut State, offering: &[u8]) -> (u32, bool) {
    let mut list: Vec<u32> = offering.iter().map(|&class| read_word(class, 1)).collect();
    list.extend([0; 4]);
    owners(&run_on(policy, state, &list))[0]
}

fn left(state: &State) -> Vec<u8> {
    state.classes.iter().map(|class| class.left).collect()
}

fn marks(state: &State) -> Vec<usize> {
    state.classes.iter().map(|class| class.pointer).collect()
}

// ---------------------------------------------------------------------------
// "The last S turns of each epoch become home turns, class by class in rising number, each as often
// as its minimum."

#[test]
fn with_a_sum_of_0_no_turn_is_a_home_turn() {
    assert_eq!(plan(&CHAIN_OF_TWO, 1, &[0, 0]), [None; 2]);
    assert_eq!(plan(&FORK, 64, &[0, 0, 0]), [None; 65]);
}

#[test]
fn with_a_sum_of_e_every_turn_is_one_and_the_epochs_first_too() {
    let [zero, one, two] = [0, 1, 2].map(Some);
    assert_eq!(plan(&[1], 1, &[1]), [zero, zero]);
    assert_eq!(plan(&CHAIN_OF_TWO, 2, &[0, 2]), [one, one, one]);
    let all = plan(&CHAIN_OF_THREE, 6, &[1, 2, 3]);
    assert_eq!(all, [zero, one, one, two, two, two, zero]);
}

#[test]
fn the_last_turns_of_an_epoch_go_by_rising_number_and_skip_minimums_of_0() {
    let [zero, one, two, three] = [0, 1, 2, 3].map(Some);
    assert_eq!(plan(&FORK, 3, &[0, 1, 1]), [None, one, two, None]);
    assert_eq!(plan(&FORK, 3, &[1, 0, 1]), [None, zero, two, None]);
    let skipping = plan(&DIAMOND, 6, &[0, 2, 0, 1]);
    assert_eq!(skipping, [None, None, None, one, one, three, None]);
    // The number decides, and not the order: 2 is below 1, which is below 0.
    let falling = plan(&[0b001, 0b011, 0b111], 5, &[1, 1, 1]);
    assert_eq!(falling, [None, None, zero, one, two, None]);
}

#[test]
fn the_longest_epoch_and_late_turns_have_the_same_plan() {
    let policy = policy(&CHAIN_OF_TWO, 64, &[31, 32], TIMING);
    let of_epoch = |start: u32| (start..start + 64).map(|turn| policy.home(turn));
    let mut expected = vec![None];
    expected.extend([Some(0); 31]);
    expected.extend([Some(1); 32]);
    for start in [0, 64, 64 * 1024, 64 * 131_071] {
        assert!(of_epoch(start).eq(expected.iter().copied()), "{start}");
    }
}

/// A least class that is not class 0, with a minimum of its own: it has the turns that
/// start at it, and its home turn besides.
#[test]
fn a_least_class_with_a_minimum_owns_its_home_turn_as_well() {
    // 2 below 0 and 1.
    let policy = policy(&[0b001, 0b010, 0b111], 5, &[1, 1, 1], TIMING);
    assert_eq!((policy.least(), policy.caps[2]), (2, 3));
    let mut state = fresh(&policy);
    let epoch: Vec<(u32, bool)> = (0..5)
        .map(|_| turn(&policy, &mut state, &[0, 1, 2]))
        .collect();
    // 0 may not flow to 1, nor 1 to 2.
    let expected = [
        (2, DROPPED),
        (2, DROPPED),
        (0, KEPT),
        (1, KEPT),
        (2, DROPPED),
    ];
    assert_eq!(epoch, expected);
    // It was charged for the first two.
    assert_eq!(left(&state), [5, 5, 1]);
}

// ---------------------------------------------------------------------------
// "A home turn's walk starts at its class, which takes it if a request waits, turns left or not, and
// is not charged; otherwise the walk ascends as usual and charges."

/// A chain of three, E = 4: one turn that starts at the least class, then two home turns
/// of class 1 and one of class 2.
fn chain() -> Policy {
    policy(&CHAIN_OF_THREE, 4, &[0, 2, 1], TIMING)
}

#[test]
fn a_home_class_takes_its_turn_before_lower_ones_and_is_not_charged() {
    let policy = chain();
    assert_eq!(policy.caps, [1, 3, 4]);
    let mut state = fresh(&policy);
    assert_eq!(turn(&policy, &mut state, &[0, 1, 2]), (0, DROPPED));
    assert_eq!(left(&state), [0, 3, 4]);
    assert_eq!(turn(&policy, &mut state, &[0]), (1, DROPPED));
    assert_eq!(turn(&policy, &mut state, &[1]), (1, DROPPED));
    assert_eq!(turn(&policy, &mut state, &[]), (2, KEPT));
    assert_eq!(left(&state), [0, 3, 4]);
}

#[test]
fn turns_that_a_home_class_passes_on_are_charged_to_who_owns_them() {
    let policy = chain();
    let mut state = fresh(&policy);
    // Nobody waits: class 2 owns all turns, its own home turn too, and pays for each.
    let idle: Vec<u32> = (0..4).map(|_| turn(&policy, &mut state, &[]).0).collect();
    assert_eq!(idle, [2, 2, 2, 2]);
    assert_eq!(left(&state), [1, 3, 0]);
    // Class 2 pays for a home turn of class 1, and not for its own.
    turn(&policy, &mut state, &[2, 2, 2]);
    turn(&policy, &mut state, &[2, 2, 2]);
    assert_eq!((state.owner, left(&state)), (2, vec![1, 3, 2]));
    turn(&policy, &mut state, &[1]);
    turn(&policy, &mut state, &[]);
    assert_eq!((state.owner, left(&state)), (2, vec![1, 3, 2]));
}

#[test]
fn turns_left_do_not_matter_to_a_home_class_and_matter_to_those_above() {
    let policy = chain();
    let mut state = with_turns_left(&policy, &[(0, 0), (1, 0), (2, 0)]);
    assert_eq!(turn(&policy, &mut state, &[1]), (1, DROPPED));
    assert_eq!(left(&state), [0, 0, 0]);
    // A chain of four: class 1 passes its home turn on, past class 2, which waits without
    // turns left, to class 3.
    let rows = [0b1111, 0b1110, 0b1100, 0b1000];
    let policy = common::policy(&rows, 2, &[0, 1, 0, 0], TIMING);
    let mut state = with_turns_left(&policy, &[(2, 0)]);
    assert_eq!(turn(&policy, &mut state, &[2]).0, 3);
    assert_eq!(left(&state), [1, 2, 0, 1]);
    // With turns left it takes what class 1 passes on, and pays.
    let mut state = with_turns_left(&policy, &[(2, 2)]);
    assert_eq!(turn(&policy, &mut state, &[2]).0, 2);
    assert_eq!(left(&state), [1, 2, 1, 2]);
}

/// "An idle home class with nothing above it owns the turn and is charged."
#[test]
fn an_idle_home_class_with_nothing_above_is_charged_and_not_below_0() {
    let policy = policy(&FORK, 3, &[0, 1, 1], TIMING);
    let mut state = with_turns_left(&policy, &[(1, 3), (2, 0)]);
    assert_eq!(turn(&policy, &mut state, &[0]), (1, KEPT));
    assert_eq!(left(&state), [1, 2, 0]);
    assert_eq!(turn(&policy, &mut state, &[]), (2, KEPT));
    assert_eq!(left(&state), [1, 2, 0]);
    assert_eq!(marks(&state), [0, 0, 0]);
}

/// W-201: "a mark moves only when the walk passes on from the class".
#[test]
fn a_home_class_moves_its_mark_where_it_passes_on_and_no_lower_one_does() {
    // 0 below 1, which is below 2 and 3; three home turns of class 1.
    let rows = [0b1111, 0b1110, 0b0100, 0b1000];
    let policy = policy(&rows, 4, &[0, 3, 0, 0], TIMING);
    let mut state = fresh(&policy);
    assert_eq!(turn(&policy, &mut state, &[0]).0, 0);
    assert_eq!(turn(&policy, &mut state, &[]).0, 2);
    assert_eq!(marks(&state), [0, 1, 0, 0]);
    assert_eq!(turn(&policy, &mut state, &[1]).0, 1);
    assert_eq!(marks(&state), [0, 1, 0, 0]);
    assert_eq!(turn(&policy, &mut state, &[]).0, 3);
    assert_eq!(marks(&state), [0, 2, 0, 0]);
    // A turn that starts at the least class goes on from where the home turns ended.
    assert_eq!(turn(&policy, &mut state, &[]).0, 2);
    assert_eq!(marks(&state), [1, 1, 0, 0]);
}

#[test]
fn a_home_turn_does_not_return_to_its_class_whose_request_comes_after_the_start() {
    // Class 1 may not flow to class 0, whose home turn comes next, so it keeps its dead time.
    check_late_request(&policy(&CHAIN_OF_TWO, 1, &[1, 0], TIMING));
}

// ---------------------------------------------------------------------------
// "The trial walk serves only before those; before a home turn the dead time is dropped if and only
// if the owner may flow to the home class."

#[test]
fn before_a_home_turn_neither_turns_left_nor_marks_nor_queues_decide() {
    // 0 below 1 and 2, E = 4, home turns of 1, 1 and 2.
    let policy = policy(&FORK, 4, &[0, 2, 1], TIMING);
    for lower_left in [0, 1] {
        for mark in 0..=2 {
            for offering in [&[][..], &[0], &[1], &[2], &[0, 1, 2]] {
                let mut state = with_turns_left(&policy, &[(0, lower_left)]);
                state.classes[0].pointer = mark;
                assert_eq!(turn(&policy, &mut state, offering), (1, DROPPED));
                assert_eq!(turn(&policy, &mut state, offering), (1, KEPT));
                // By the cap, since the next turn starts at class 0.
                assert_eq!(turn(&policy, &mut state, offering), (2, KEPT));
            }
        }
    }
}

#[test]
fn a_lower_owner_drops_before_the_home_turn_of_a_higher_class_alone() {
    // A chain of three whose numbers fall, E = 3: home turns of the highest class, 0,
    // and of the middle one, 1.
    let policy = policy(&[0b001, 0b011, 0b111], 3, &[1, 1, 0], TIMING);
    let mut state = fresh(&policy);
    assert_eq!(turn(&policy, &mut state, &[1]), (1, DROPPED));
    assert_eq!(turn(&policy, &mut state, &[0]), (0, KEPT));
    assert_eq!(turn(&policy, &mut state, &[1]), (1, KEPT));
    // The least class may flow to all.
    assert_eq!(turn(&policy, &mut state, &[2]), (2, DROPPED));
    // The highest class owns its home turn, idle as it is, and then that of the middle
    // class, which passes it on.
    assert_eq!(turn(&policy, &mut state, &[]), (0, KEPT));
    assert_eq!(turn(&policy, &mut state, &[]), (0, KEPT));
}

/// What counts is the turn that comes next, in an epoch's last turn too.
#[test]
fn an_epochs_last_turn_goes_by_what_the_next_epoch_starts_with() {
    // S = E: the next epoch starts with the home turn of class 0, to which 1 may not flow.
    let all = policy(&CHAIN_OF_TWO, 2, &[1, 1], TIMING);
    let mut state = fresh(&all);
    assert_eq!(turn(&all, &mut state, &[]), (1, DROPPED));
    assert_eq!(turn(&all, &mut state, &[]), (1, KEPT));
    // With that of class 1: dropped, whatever class 0 has.
    let all = policy(&CHAIN_OF_TWO, 1, &[0, 1], TIMING);
    assert_eq!(turn(&all, &mut fresh(&all), &[0]), (1, DROPPED));
    // The same order with a turn that starts at the least class: kept by its cap, and
    // dropped for the least class itself.
    let some = policy(&CHAIN_OF_TWO, 2, &[0, 1], TIMING);
    let mut state = fresh(&some);
    assert_eq!(turn(&some, &mut state, &[0]), (0, DROPPED));
    assert_eq!(turn(&some, &mut state, &[0]), (1, KEPT));
    let none = policy(&CHAIN_OF_TWO, 1, &[0, 0], TIMING);
    assert_eq!(turn(&none, &mut fresh(&none), &[0]), (0, DROPPED));
}

// ---------------------------------------------------------------------------
// W-209: "a least class with a request waiting at every turn start of an epoch owns exactly its cap in
// that epoch."

/// Whole epochs in which some classes, the least among them, always have a request waiting, their owners
/// and the cap of the least class worked out by hand.
fn check_full_cap(policy: &Policy, least: u8, cap: usize, waiting: &[u8], expected: &[u32]) {
    assert_eq!(policy.least(), usize::from(least));
    assert_eq!(usize::from(policy.caps[policy.least()]), cap);
    let list = always_waiting(policy, waiting, expected.len());
    assert_eq!(picked(policy, &list), expected);
    let epochs = expected.chunks_exact(usize::from(policy.epoch));
    assert!(epochs.len() >= 2 && epochs.remainder().is_empty());
    for epoch in epochs {
        let owned = epoch.iter().filter(|&&owner| owner == u32::from(least));
        assert_eq!(owned.count(), cap);
    }
}

#[test]
fn one_class_alone_owns_all_of_an_epoch() {
    // Nothing is above it: its cap is E, whatever its own minimum.
    for minimum in 0..=3 {
        let policy = policy(&[1], 3, &[minimum], TIMING);
        check_full_cap(&policy, 0, 3, &[0], &[0, 0, 0, 0, 0, 0]);
    }
}

#[test]
fn the_least_of_a_chain_owns_its_cap_and_nothing_that_others_pass_on() {
    // Two turns that start at class 0, then a home turn of each. Its cap is 5 - 1 - 1.
    let policy = policy(&CHAIN_OF_THREE, 5, &[1, 1, 1], TIMING);
    let all_waiting = [0, 0, 0, 1, 2, 0, 0, 0, 1, 2];
    check_full_cap(&policy, 0, 3, &[0, 1, 2], &all_waiting);
    // Class 1 passes its home turn up to class 2, which owns its own too, idle as it is.
    let alone_waiting = [0, 0, 0, 2, 2, 0, 0, 0, 2, 2];
    check_full_cap(&policy, 0, 3, &[0], &alone_waiting);
}

#[test]
fn where_s_is_e_a_least_class_owns_its_minimum_and_no_more() {
    // 0 below 1, 2 and 3, of which no two may flow to each other.
    let rows = [0b1111, 0b0010, 0b0100, 0b1000];
    // Its cap is 6 - 1 - 2 - 1. Each of the others has nothing above it and so owns its home turns,
    // idle or not.
    let some = policy(&rows, 6, &[2, 1, 2, 1], TIMING);
    let expected = [0, 0, 1, 2, 2, 3, 0, 0, 1, 2, 2, 3];
    check_full_cap(&some, 0, 2, &[0, 1, 2, 3], &expected);
    check_full_cap(&some, 0, 2, &[0], &expected);
    // Without a minimum its cap is 4 - 1 - 2 - 1.
    let none = policy(&rows, 4, &[0, 1, 2, 1], TIMING);
    check_full_cap(&none, 0, 0, &[0], &[1, 2, 2, 3, 1, 2, 2, 3]);
}

#[test]
fn a_least_class_of_any_number_owns_its_cap() {
    // 2 below 0 and 1, both below 3: two turns that start at class 2, then home turns of 0, 2, 3 and 3.
    // Its cap is 6 - 1 - 0 - 2.
    let policy = policy(&[0b1001, 0b1010, 0b1111, 0b1000], 6, &[1, 0, 1, 2], TIMING);
    let all_waiting = [2, 2, 0, 2, 3, 3, 2, 2, 0, 2, 3, 3];
    check_full_cap(&policy, 2, 3, &[0, 1, 2, 3], &all_waiting);
    // Class 0 passes its home turn up to class 3.
    let alone_waiting = [2, 2, 3, 2, 3, 3, 2, 2, 3, 2, 3, 3];
    check_full_cap(&policy, 2, 3, &[2], &alone_waiting);
}
