//! "The extract for class L": refusals 13, 9, 17 and 16, and what is shown of
//! any log, whether a run wrote it or not.

mod common;

use common::*;
use vigambul_model::extract::extract;
use vigambul_model::policy::Policy;
use vigambul_model::random::Random;
use vigambul_model::refusal::Refusal;

/// The extract with room enough, which must not be refused.
fn extracted(policy: &Policy, class: usize, trace: &[u32], log: &[u32]) -> Vec<u32> {
    let mut out = vec![77; log.len() + 3];
    let (count, refusal) = extract(policy, class, trace, log, &mut out);
    assert_eq!(refusal, None);
    assert!(out[count..].iter().all(|&number| number == 77));
    out.truncate(count);
    out
}

/// What an extract under 0 below 1 and 2 shows of one tick's log line.
fn shown_tick(class: usize, line: [u32; 4]) -> Vec<u32> {
    let policy = policy(&FORK, 4, &[0, 1, 1], TIMING);
    extracted(&policy, class, &[0], &line)
}

#[test]
fn extracts_are_refused_in_the_order_13_9_17_16() {
    let fit = printed_policy();
    let mut unfit = fit.clone();
    unfit.caps[0] += 1;
    let refusal_of = |policy: &Policy, class: usize, log: &[u32], room: usize| {
        let mut out = vec![77; room];
        let (count, refusal) = extract(policy, class, &[0], log, &mut out);
        assert_eq!(count, 0, "a refused extract hands back a count of 0");
        assert_eq!(out, vec![77; room], "and writes nothing");
        refusal
    };
    let (bad_class, log_of_5) = (2, [0; 5]);
    let [first, second, third, fourth] = [
        refusal_of(&unfit, bad_class, &log_of_5, 3),
        refusal_of(&fit, bad_class, &log_of_5, 3),
        // "one tick, log of 5"
        refusal_of(&fit, 1, &log_of_5, 3),
        // "one tick, 3 numbers"
        refusal_of(&fit, 1, &[0; 4], 3),
    ];
    assert_eq!(first, Some(Refusal::OutOfRange));
    assert_eq!(second, Some(Refusal::Class));
    assert_eq!(third, Some(Refusal::LogNotOfTrace));
    assert_eq!(fourth, Some(Refusal::ExtractTooShort));
}

#[test]
fn a_log_shorter_or_longer_than_four_times_the_trace_gets_17() {
    let policy = printed_policy();
    for length in (0..12).filter(|&length| length != 8) {
        let log = vec![0; length];
        let outcome = extract(&policy, 0, &[0, 0], &log, &mut [0; 20]);
        assert_eq!(outcome, (0, Some(Refusal::LogNotOfTrace)), "{length}");
    }
}

#[test]
fn any_class_not_below_n_gets_9() {
    let policy = printed_policy();
    for class in [2, 3, 16, 255, 256, usize::MAX] {
        let outcome = extract(&policy, class, &[], &[], &mut []);
        assert_eq!(outcome, (0, Some(Refusal::Class)), "class {class}");
    }
}

#[test]
fn room_is_asked_for_what_is_kept_only() {
    let policy = printed_policy();
    // For class 0: the offer of class 1, the missing class and the malformed
    // word are dropped; two lines are left.
    let list = [read_word(1, 0), 0, read_word(2, 0), read_word(0, 0), 1];
    let log = run_fresh(&policy, &list);
    for room in 0..12 {
        let mut out = vec![77; room];
        let outcome = extract(&policy, 0, &list, &log, &mut out);
        if room < 8 {
            assert_eq!(outcome, (0, Some(Refusal::ExtractTooShort)), "{room}");
            assert_eq!(out, vec![77; room]);
        } else {
            assert_eq!(outcome, (8, None), "{room}");
            assert_eq!(out[8..], vec![77; room - 8]);
        }
    }
}

#[test]
fn an_empty_trace_has_an_empty_extract() {
    assert_eq!(
        extract(&printed_policy(), 0, &[], &[], &mut [77]),
        (0, None)
    );
}

#[test]
fn lines_of_offers_are_dropped_or_kept_whole() {
    let policy = policy(&FORK, 4, &[0, 1, 1], TIMING);
    let list = [
        read_word(0, 1),
        read_word(1, 2),
        read_word(2, 3),
        read_word(3, 4),
        read_word(31, 5),
        0x4000_0000,
    ];
    // No run wrote this log: kept lines are shown as they stand.
    let log: Vec<u32> = (100..124).collect();
    let line = |place: usize| log[4 * place..4 * place + 4].to_vec();
    assert_eq!(extracted(&policy, 0, &list, &log), line(0));
    assert_eq!(
        extracted(&policy, 1, &list, &log),
        [line(0), line(1)].concat()
    );
    assert_eq!(
        extracted(&policy, 2, &list, &log),
        [line(0), line(2)].concat()
    );
}

#[test]
fn refused_offers_of_seen_classes_are_kept_with_their_status() {
    let policy = printed_policy();
    let mut list = vec![read_word(1, 0); 9];
    list.push(read_word(1, 0) | 8 << 16);
    let log = run_fresh(&policy, &list);
    let shown = extracted(&policy, 1, &list, &log);
    assert_eq!(shown.len(), 40);
    assert_eq!(shown[32..], [11, 0, 0, 0, 10, 0, 0, 0]);
    assert_eq!(extracted(&policy, 0, &list, &log), Vec::<u32>::new());
}

#[test]
fn refused_ticks_are_kept() {
    assert_eq!(shown_tick(1, [12, 0, 0, 0]), [12, 0, 0, 0]);
}

#[test]
fn commands_and_answers_of_hidden_classes_become_0() {
    let activate = |class: u32| 0x8000_1234 | class << 24;
    let column = |class: u32| activate(class) | 0x4000_0000;
    for class in 0..3 {
        for other in 0..32 {
            let seen = other == 0 || other == class as u32;
            let shown = |word: u32| if seen { word } else { 0 };
            assert_eq!(
                shown_tick(class, [0, activate(other), activate(other), 0]),
                [0, shown(activate(other)), shown(activate(other)), 0],
                "class {class} sees an activate and an answer of {other}"
            );
            assert_eq!(
                shown_tick(class, [0, column(other), 0, 0]),
                [0, shown(column(other)), 0, 0],
                "class {class} sees a column command of {other}"
            );
        }
    }
}

/// The class of any number in a command's place is in its bits 24 to 28.
#[test]
fn stray_words_in_a_log_are_shown_or_hidden_by_their_class_bits() {
    assert_eq!(
        shown_tick(1, [9, 1, 0x6000_0001, 0]),
        [9, 1, 0x6000_0001, 0]
    );
    assert_eq!(
        shown_tick(1, [9, 0x0200_0001, 0x0300_0000, 0]),
        [9, 0, 0, 0]
    );
    // Where class 0 itself is hidden, so is a stray number that names it.
    let policy = policy(&[0b001, 0b010, 0b111], 4, &[1, 1, 0], TIMING);
    assert_eq!(extracted(&policy, 1, &[0], &[0, 1, 1, 0]), [0; 4]);
}

#[test]
fn turn_numbers_of_hidden_owners_become_512() {
    // Class 1 sees turns of 0 and 1, with their dead times and walks, and none of 2.
    for (turn, shown) in [
        (0, 0),
        (1, 1),
        (257, 257),
        (2, 2),
        (258, 258),
        (0x1_0001, 0x1_0001),
        (0x2_0102, 0x2_0102),
        (0x10_0002, 0x10_0002),
        (0x1F_0002, 0x1F_0002),
        (3, HIDDEN),
        (259, HIDDEN),
        (0x1_0003, HIDDEN),
        (0x2_0103, HIDDEN),
        (0x1F_0003, HIDDEN),
    ] {
        assert_eq!(shown_tick(1, [0, 0, 0, turn]), [0, 0, 0, shown], "{turn}");
    }
}

#[test]
fn turn_numbers_that_name_no_class_become_512_and_0_stays() {
    for turn in [
        4,
        17,
        255,
        256,
        512,
        0x1_0000,
        0x1_0104,
        0x10_0000,
        0xFFFF_FF00,
        0x1000,
        0x104,
        u32::MAX,
    ] {
        for class in 0..3 {
            assert_eq!(
                shown_tick(class, [0, 0, 0, turn]),
                [0, 0, 0, HIDDEN],
                "{turn}"
            );
        }
    }
    for class in 0..3 {
        assert_eq!(shown_tick(class, [0, 0, 0, 0]), [0, 0, 0, 0]);
    }
    // The owner is in the low 8 bits alone; a number that is shown is shown whole.
    assert_eq!(
        shown_tick(1, [0, 0, 0, 0xABCD_EF02]),
        [0, 0, 0, 0xABCD_EF02]
    );
}

/// Every line of a random log, held against the sentences of document 01 said
/// once more, over the order 0 below 1 and 2, both below 3.
#[test]
fn arbitrary_logs() {
    let policy = policy(&DIAMOND, 4, &[0, 1, 1, 1], TIMING);
    let flows = |from: u32, to: u32| from == to || from == 0 || (to == 3 && from < 3);
    let random = &mut Random::new(3);
    let mut hidden_turns = 0;
    for _ in 0..2_000 {
        let length = random.below(12);
        let mut word = || match random.below(4) {
            0 => 0,
            1 => random.next() as u32,
            2 => {
                let [owner, above, tried] = [6, 4, 32].map(|below| random.below(below) as u32);
                1 + owner + 256 * above + 65_536 * tried
            }
            _ => 0x8000_0000 | (random.below(6) as u32) << 24 | random.below(9) as u32,
        };
        let trace: Vec<u32> = (0..length).map(|_| word()).collect();
        let log: Vec<u32> = (0..4 * length).map(|_| word()).collect();
        for class in 0..4u32 {
            let seen = |other: u32| other < 4 && flows(other, class);
            let expected = extract_in_words(seen, &trace, &log);
            hidden_turns += expected.chunks(4).filter(|line| line[3] == HIDDEN).count();
            assert_eq!(extracted(&policy, class as usize, &trace, &log), expected);
        }
    }
    assert!(hidden_turns > 100);
}

/// A run's log as its classes see it: (c) of document 01's worked turns.
#[test]
fn the_extracts_of_a_run() {
    let policy = policy(&FORK, 2, &[0, 1, 1], TIMING);
    let list = [read_word(1, 7), read_word(2, 8), 0, 0, 0, 0, 0, 0];
    let log = run_fresh(&policy, &list);
    let activate = |class, tag| read_word(class, tag);
    let column = |class, tag| read_word(class, tag) | 0x4000_0000;
    assert_eq!(
        extracted(&policy, 1, &list, &log),
        [
            [0, 0, 0, 0],
            [0, activate(1, 7), 0, 0x1_0002],
            [0, column(1, 7), 0, 0],
            [0, 0, activate(1, 7), 0],
            [0, 0, 0, 0],
            [0, 0, 0, HIDDEN],
            [0, 0, 0, 0],
        ]
        .concat()
    );
    assert_eq!(
        extracted(&policy, 0, &list, &log),
        [
            [0, 0, 0, HIDDEN],
            [0; 4],
            [0; 4],
            [0; 4],
            [0, 0, 0, HIDDEN],
            [0; 4]
        ]
        .concat()
    );
}
