//! The worked turns (a) to (h) of document 01, (c) and (d) as W-202 takes them, and
//! the examples of document 000's sections 3.2 and 5.1. Marks move by W-201, of which
//! `marks.rs` has more; `home_turns.rs` has more of W-202, and W-209.

mod common;

use common::*;
use vigambul_model::generate::PolicyFields;
use vigambul_model::program;
use vigambul_model::refusal::Refusal;
use vigambul_model::tick::{offer, tick, Wires};

const DROPPED: bool = true;
const KEPT: bool = false;

#[test]
fn a_one_class_owns_every_turn_and_always_drops() {
    for epoch in [1, 2, 64] {
        for minimum in [0, 1] {
            let policy = policy(&[1], epoch, &[minimum], TIMING);
            let idle = run_fresh(&policy, &[0; 4 * 70]);
            assert_eq!(owners(&idle), vec![(0, DROPPED); 70]);
            let busy = run_fresh(&policy, &always_waiting(&policy, &[0], 70));
            assert_eq!(owners(&busy), vec![(0, DROPPED); 70]);
        }
    }
}

#[test]
fn b_two_classes_with_minimums_0_and_2() {
    let policy = printed_policy();
    let log = run_fresh(&policy, &always_waiting(&policy, &[0], 6));
    let epoch = [(0, DROPPED), (1, DROPPED), (1, KEPT)];
    assert_eq!(owners(&log), [epoch, epoch].concat());
}

/// W-202: "case (c) is taken with E = 3 and minimums 0, 1, 1, where the turn after
/// 1's is the home turn of 2".
#[test]
fn c_after_a_turn_of_1_comes_the_home_turn_of_2_so_1_keeps_its_dead_time() {
    let policy = policy(&FORK, 3, &[0, 1, 1], TIMING);
    assert_eq!(policy.caps, [1, 3, 3]);
    let log = run_fresh(&policy, &always_waiting(&policy, &[0, 1, 2], 6));
    // 0 may flow to 1, and 1 may not flow to 2; after 2's turn comes one that starts
    // at 0, which has turns again by its cap.
    let epoch = [(0, DROPPED), (1, KEPT), (2, KEPT)];
    assert_eq!(owners(&log), [epoch, epoch].concat());
}

#[test]
fn c_with_no_other_turns_than_home_turns() {
    // The minimums take up the whole epoch, so class 0 has a cap of 0, and after an
    // epoch's last turn comes a home turn too.
    let policy = policy(&FORK, 2, &[0, 1, 1], TIMING);
    assert_eq!(policy.caps, [0, 2, 2]);
    let log = run_fresh(&policy, &always_waiting(&policy, &[0, 1, 2], 4));
    assert_eq!(owners(&log), [(1, KEPT), (2, KEPT), (1, KEPT), (2, KEPT)]);
}

#[test]
fn c_with_a_cap_that_is_used_up_within_the_epoch() {
    // E = 4: class 0 takes one turn; then come the home turn of 1 and the two of 2,
    // of which the first is followed by another of its own.
    let policy = policy(&FORK, 4, &[0, 1, 2], TIMING);
    assert_eq!(policy.caps, [1, 4, 4]);
    let log = run_fresh(&policy, &always_waiting(&policy, &[0, 1, 2], 4));
    assert_eq!(
        owners(&log),
        [(0, DROPPED), (1, KEPT), (2, DROPPED), (2, KEPT)]
    );
}

#[test]
fn d_a_chain_of_three_with_minimums_0_1_1() {
    let policy = policy(&CHAIN_OF_THREE, 3, &[0, 1, 1], TIMING);
    let log = run_fresh(&policy, &always_waiting(&policy, &[0, 1], 6));
    // W-202: "Case (d) then gives 0, 1, 2". Each of the first two may flow to the next
    // turn's home class; after the last, class 0 has turns again.
    let epoch = [(0, DROPPED), (1, DROPPED), (2, KEPT)];
    assert_eq!(owners(&log), [epoch, epoch].concat());
}

#[test]
fn e_nobody_waits_and_the_walk_ends_at_a_class_with_nothing_above() {
    let pick = |rows: &[u16], count: usize| -> Vec<u32> {
        let policy = policy(rows, 2, &vec![0; rows.len()], TIMING);
        picked(&policy, &vec![0; 4 * count])
    };
    assert_eq!(pick(&CHAIN_OF_THREE, 4), [2, 2, 2, 2]);
    assert_eq!(pick(&FORK, 5), [1, 2, 1, 2, 1]);
    assert_eq!(pick(&DIAMOND, 4), [3, 3, 3, 3]);
}

#[test]
fn f_the_eighth_offer_is_taken_the_ninth_gets_11_and_after_an_activate_one_more_is_taken() {
    let policy = printed_policy();
    let mut state = fresh(&policy);
    for tag in 0..8 {
        assert_eq!(offer(&policy, &mut state, read_request(0, tag)), Ok(()));
    }
    let full = state.clone();
    let ninth = offer(&policy, &mut state, read_request(0, 8));
    assert_eq!(ninth, Err(Refusal::QueueFull));
    assert_eq!(state, full);
    let record = tick(&policy, &mut state).expect("a tick is taken");
    assert_eq!(record.wires, Wires::Activate(read_request(0, 0)));
    assert_eq!(offer(&policy, &mut state, read_request(0, 9)), Ok(()));
    let tenth = offer(&policy, &mut state, read_request(0, 10));
    assert_eq!(tenth, Err(Refusal::QueueFull));
}

#[test]
fn g_a_sum_of_minimums_equal_to_e_is_taken_and_one_more_gets_7() {
    let number = |epoch, minimums: &[u8]| {
        file_number(&PolicyFields::new(&CHAIN_OF_TWO, epoch, minimums, TIMING).encode())
    };
    assert_eq!(number(3, &[1, 2]), 0);
    assert_eq!(number(3, &[2, 2]), 7);
    assert_eq!(number(64, &[32, 32]), 0);
    assert_eq!(number(64, &[32, 33]), 7);
    // The sum is not cut down to a byte.
    assert_eq!(number(64, &[128, 128]), 7);
}

/// W-212: "in case (h) the turn 00000101 becomes 00010101".
#[test]
fn h_the_printed_log() {
    let trace = [0x07, 0x00, 0x01, 0x80, 0, 0, 0, 0, 0, 0, 0, 0, 0, 0, 0, 0];
    let printed = "\
status command answer turn
00000000 00000000 00000000 00000000
00000000 80010007 00000000 00010101
00000000 C0010007 00000000 00000000
00000000 00000000 80010007 00000000
";
    let output = program::output(&PRINTED_POLICY, &trace);
    assert_eq!(String::from_utf8_lossy(&output), printed);
}

#[test]
fn h_the_file_is_laid_out_as_the_generator_lays_it_out() {
    let fields = PolicyFields::new(&CHAIN_OF_TWO, 3, &[0, 2], TIMING);
    assert_eq!(fields.encode(), PRINTED_POLICY);
}

/// Document 000, section 3.2: an epoch of 2, L (class 0) granted at most one
/// turn in it. Nothing waits at t0: H. Then L and H have requests: L. In the
/// second epoch only H has: H, H.
///
/// W-202 changes what document 000 tells: with its minimum of 1, H has the second turn
/// of each epoch as its home turn, and takes it. L, which still waits, has the first
/// turn of the next epoch, and H the second: H, H, L, H.
#[test]
fn section_3_2_owners_h_h_l_h() {
    let policy = policy(&CHAIN_OF_TWO, 2, &[0, 1], TIMING);
    assert_eq!(policy.caps, [1, 2]);
    let mut list = vec![0; 4];
    list.extend([read_word(1, 1), read_word(0, 2), 0, 0, 0, 0]);
    list.extend([read_word(1, 3), read_word(1, 4), 0, 0, 0, 0, 0, 0, 0, 0]);
    assert_eq!(picked(&policy, &list), [1, 1, 0, 1]);
}

/// The limit itself: L always waiting has one turn of each two.
#[test]
fn section_3_2_the_lower_class_has_at_most_one_turn_in_an_epoch() {
    let policy = policy(&CHAIN_OF_TWO, 2, &[0, 1], TIMING);
    let list = always_waiting(&policy, &[0], 6);
    assert_eq!(picked(&policy, &list), [0, 1, 0, 1, 0, 1]);
}

/// Document 000, section 5.1: in the diamond, M1 and M2 alternate whether or not
/// either has requests, once L has none.
#[test]
fn section_5_1_round_robin_between_incomparable_classes() {
    let policy = policy(&DIAMOND, 64, &[0; 4], TIMING);
    let list = always_waiting(&policy, &[1, 2], 6);
    assert_eq!(picked(&policy, &list), [1, 2, 1, 2, 1, 2]);
    // Class 2 idle: its turn goes up to the greatest class, not over to 1.
    let list = always_waiting(&policy, &[1], 4);
    assert_eq!(picked(&policy, &list), [1, 3, 1, 3]);
}

/// Document 000, figure 9: a class with three covers counts from 1 to 3 and
/// then from 1 again; covers are numbered by rising class number.
#[test]
fn section_5_1_a_pointer_counts_through_all_covers() {
    // Class 5 is least, directly below 4, which is directly below 1, 2 and 3;
    // class 0 is above all of them.
    let rows = [0b000001, 0b000011, 0b000101, 0b001001, 0b011111, 0b111111];
    let policy = policy(&rows, 64, &[0; 6], TIMING);
    assert_eq!(policy.covers[5], [4]);
    assert_eq!(policy.covers[4], [1, 2, 3]);
    let list = always_waiting(&policy, &[1, 2, 3], 7);
    assert_eq!(picked(&policy, &list), [1, 2, 3, 1, 2, 3, 1]);
}
