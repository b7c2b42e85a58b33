//! Gaps, delays and the dead time, cycle by cycle.

mod common;

use common::*;
use vigambul_model::policy::Policy;
use vigambul_model::state::Request;
use vigambul_model::trace::offer_word;

const READ: u8 = 0;
const WRITE: u8 = 1;

fn word(kind: u8, bank: u8, tag: u16) -> u32 {
    offer_word(&Request {
        class: 0,
        kind,
        rank: 0,
        bank,
        tag,
    })
}

/// One class, whose turns never keep their dead time.
fn one_class(timing: [u8; 10]) -> Policy {
    policy(&[1], 1, &[0], timing)
}

/// The cycles at which activates go out, when these offers come before cycle 0.
fn activates(policy: &Policy, offers: &[u32]) -> Vec<usize> {
    let list: Vec<u32> = offers.iter().copied().chain([0; 100]).collect();
    let log = run_fresh(policy, &list);
    log.chunks(4)
        .skip(offers.len())
        .enumerate()
        .filter(|(_, line)| line[1] >> 30 == 2)
        .map(|(cycle, _)| cycle)
        .collect()
}

/// Gaps 3, 5, 7 and 9 by kinds, 11 and 13 by bank.
const DISTINCT: [u8; 10] = [255, 31, 3, 5, 7, 9, 11, 13, 1, 2];

#[test]
fn the_gap_of_all_goes_by_the_two_kinds_earlier_first() {
    let policy = one_class(DISTINCT);
    for (first, second, gap) in [
        (READ, READ, 3),
        (READ, WRITE, 5),
        (WRITE, READ, 7),
        (WRITE, WRITE, 9),
    ] {
        let offers = [word(first, 0, 0), word(second, 1, 0)];
        assert_eq!(activates(&policy, &offers), [0, gap]);
    }
}

#[test]
fn the_same_bank_gap_goes_by_the_earlier_kind() {
    let policy = one_class(DISTINCT);
    for second in [READ, WRITE] {
        let after_read = [word(READ, 4, 0), word(second, 4, 0)];
        assert_eq!(activates(&policy, &after_read), [0, 11]);
        let after_write = [word(WRITE, 4, 0), word(second, 4, 0)];
        assert_eq!(activates(&policy, &after_write), [0, 13]);
    }
}

#[test]
fn the_same_bank_gap_runs_from_the_last_of_that_bank_and_not_of_all() {
    let policy = one_class(DISTINCT);
    // Bank 0 at 0, bank 1 at 7, bank 0 again 13 after its first.
    let offers = [word(WRITE, 0, 0), word(READ, 1, 0), word(READ, 0, 0)];
    assert_eq!(activates(&policy, &offers), [0, 7, 13]);
    // The gap of all may be the later one to be met.
    let policy = one_class([255, 31, 20, 20, 20, 20, 2, 2, 1, 2]);
    let offers = [word(READ, 0, 0), word(READ, 1, 0), word(READ, 0, 0)];
    assert_eq!(activates(&policy, &offers), [0, 20, 40]);
}

#[test]
fn the_head_waits_and_the_next_goes() {
    let policy = one_class(DISTINCT);
    let offers = [word(READ, 0, 0), word(READ, 0, 1), word(READ, 1, 2)];
    // W-203: bank 1 three cycles after the first, and then bank 0 eleven after it.
    assert_eq!(activates(&policy, &offers), [0, 3, 11]);
}

#[test]
fn column_command_and_answer_come_their_delays_after_the_activate() {
    let policy = one_class([20, 10, 1, 1, 1, 1, 1, 1, 4, 9]);
    let offer = word(WRITE, 3, 0x55);
    let list: Vec<u32> = [offer].into_iter().chain([0; 12]).collect();
    let log = run_fresh(&policy, &list);
    let lines: Vec<&[u32]> = log.chunks(4).skip(1).collect();
    for (cycle, line) in lines.iter().enumerate() {
        let command = match cycle {
            0 => offer,
            4 => offer | 0x4000_0000,
            _ => 0,
        };
        let answer = if cycle == 9 { offer } else { 0 };
        assert_eq!(line[1..3], [command, answer], "cycle {cycle}");
    }
}

#[test]
fn a_due_column_command_holds_an_activate_back_for_one_cycle() {
    // All gaps are 2 and so is the column delay: the second would go at 2.
    let policy = one_class([20, 10, 2, 2, 2, 2, 2, 2, 2, 3]);
    let offers = [word(READ, 0, 0), word(READ, 1, 1), word(READ, 2, 2)];
    assert_eq!(activates(&policy, &offers), [0, 3, 6]);
    // With gaps of 1 an activate goes out between two column commands.
    let policy = one_class([20, 10, 1, 1, 1, 1, 1, 1, 2, 3]);
    let offers: Vec<u32> = (0..5).map(|bank| word(READ, bank, 0)).collect();
    assert_eq!(activates(&policy, &offers), [0, 1, 4, 5, 8]);
}

/// 0 below 1; class 0 keeps turns left, so a turn of class 1 keeps its dead
/// time. Turns of 8, dead time 3.
fn kept_dead_time() -> Policy {
    policy(&CHAIN_OF_TWO, 64, &[0, 0], [8, 3, 1, 1, 1, 1, 1, 1, 1, 2])
}

/// The cycle of the one activate, when an offer comes before a given cycle.
fn activate_of_late_offer(policy: &Policy, class: u8, before: usize) -> usize {
    let mut list = vec![0; 40];
    list.insert(before, read_word(class, 1));
    let log = run_fresh(policy, &list);
    let place = log
        .chunks(4)
        .position(|line| line[1] == read_word(class, 1))
        .expect("it goes out at last");
    place - 1
}

#[test]
fn a_kept_dead_time_ends_activates_at_turn_length_less_dead_time() {
    let policy = kept_dead_time();
    for cycle in 0..5 {
        assert_eq!(activate_of_late_offer(&policy, 1, cycle), cycle);
    }
    for cycle in 5..8 {
        assert_eq!(activate_of_late_offer(&policy, 1, cycle), 8);
    }
}

#[test]
fn a_dropped_dead_time_allows_all_offsets() {
    let policy = one_class([8, 3, 1, 1, 1, 1, 1, 1, 1, 2]);
    for cycle in 0..20 {
        assert_eq!(activate_of_late_offer(&policy, 0, cycle), cycle);
    }
}

#[test]
fn flights_and_gaps_go_on_over_a_turns_end() {
    // Turns of 4, dead time 3 and always dropped, gaps 3, delays 2 and 3.
    let policy = one_class([4, 3, 3, 3, 3, 3, 3, 3, 2, 3]);
    let mut list = vec![0; 3];
    list.extend([word(READ, 0, 1), word(READ, 1, 2), 0, 0, 0, 0, 0, 0, 0]);
    let log = run_fresh(&policy, &list);
    let ticks: Vec<[u32; 2]> = log
        .chunks(4)
        .zip(&list)
        .filter(|(_, &number)| number == 0)
        .map(|(line, _)| [line[1], line[2]])
        .collect();
    let [first, second] = [word(READ, 0, 1), word(READ, 1, 2)];
    let column = 0x4000_0000;
    assert_eq!(
        ticks[3..],
        [
            [first, 0],
            [0, 0],
            [first | column, 0],
            [second, first],
            [0, 0],
            [second | column, 0],
            [0, second],
        ]
    );
}

#[test]
fn the_epochs_end_is_seen_by_the_trial_walk_when_e_is_1() {
    // Class 0 has a cap of 1 in every turn, so class 1 never drops.
    let policy = policy(&CHAIN_OF_TWO, 1, &[0, 0], TIMING);
    let log = run_fresh(&policy, &[0; 12]);
    assert_eq!(owners(&log), [(1, false); 3]);
    // With a minimum of 1 every turn is its home turn, and it always does.
    let policy = common::policy(&CHAIN_OF_TWO, 1, &[0, 1], TIMING);
    let log = run_fresh(&policy, &always_waiting(&policy, &[0], 3));
    assert_eq!(owners(&log), [(1, true); 3]);
}

#[test]
fn the_trial_walk_moves_pointers_of_classes_on_its_way() {
    // No turns left below the top: 0 under 1 and 2, both under 3. Every walk ends
    // at 3, by 1 and by 2 in turn, and the trial walk reaches it either way.
    let policy = policy(&DIAMOND, 64, &[0; 4], TIMING);
    let mut state = with_turns_left(&policy, &[(0, 0), (1, 0), (2, 0)]);
    let log = run_on(&policy, &mut state, &[0; 12]);
    assert_eq!(owners(&log), [(3, true); 3]);
    // The trial changes nothing: the pointers moved once in each turn.
    let pointers: Vec<usize> = state.classes.iter().map(|class| class.pointer).collect();
    assert_eq!(pointers, [1, 1, 1, 0]);
}

#[test]
fn the_owners_turns_left_fall_and_the_epoch_sets_them_back() {
    let policy = printed_policy();
    let mut state = fresh(&policy);
    let mut left = Vec::new();
    for _ in 0..4 {
        run_on(&policy, &mut state, &always_waiting(&policy, &[0], 1));
        left.push([state.classes[0].left, state.classes[1].left]);
    }
    assert_eq!(left, [[0, 3], [0, 2], [0, 1], [0, 3]]);
}

#[test]
fn turns_left_do_not_fall_below_0() {
    let policy = printed_policy();
    let mut state = fresh(&policy);
    run_on(&policy, &mut state, &[0; 4]);
    state.classes[1].left = 0;
    run_on(&policy, &mut state, &[0; 1]);
    assert_eq!((state.owner, state.classes[1].left), (1, 0));
}
