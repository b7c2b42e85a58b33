//! "The policy file": refusals 1 to 8, their order, what follows from an
//! accepted file, and the file that is written of a policy.

mod common;

use common::*;
use vigambul_model::generate::{self, chain_rows, encode_bodies, PolicyFields};
use vigambul_model::masks::{below_mask, class_mask};
use vigambul_model::policy::{self, Policy};
use vigambul_model::random::Random;
use vigambul_model::refusal::Refusal;
use vigambul_model::state::{self, State};

fn number_of(rows: &[u16], epoch: u8, minimums: &[u8], timing: [u8; 10]) -> u32 {
    file_number(&PolicyFields::new(rows, epoch, minimums, timing).encode())
}

fn number_of_timing(timing: [u8; 10]) -> u32 {
    number_of(&CHAIN_OF_TWO, 3, &[0, 2], timing)
}

fn number_of_rows(rows: &[u16]) -> u32 {
    number_of(rows, 3, &vec![0; rows.len()], TIMING)
}

#[test]
fn the_examples_of_the_table() {
    let n_17 = PolicyFields {
        n: 17,
        ..PolicyFields::new(&CHAIN_OF_TWO, 3, &[0, 2], TIMING)
    };
    assert_eq!(file_number(&[]), 1, "the empty file");
    assert_eq!(file_number(&n_17.encode()), 2, "n = 17");
    assert_eq!(number_of_rows(&[0]), 3, "n = 1, row 0");
    assert_eq!(number_of_rows(&[3, 3]), 4, "n = 2, rows 3, 3");
    assert_eq!(number_of_rows(&[3, 6, 4]), 5, "n = 3, rows 3, 6, 4");
    assert_eq!(number_of_rows(&[1, 2]), 6, "n = 2, rows 1, 2");
    assert_eq!(number_of(&CHAIN_OF_TWO, 0, &[0, 0], TIMING), 7, "E = 0");
    let dead_time_1 = [4, 1, 1, 1, 1, 1, 1, 1, 1, 2];
    assert_eq!(number_of_timing(dead_time_1), 8, "dead time 1");
}

#[test]
fn a_refused_file_gives_the_policy_of_no_classes_whose_fresh_state_is_zeros_with_13() {
    let (policy, refusal) = policy::read(&[]);
    assert_eq!(refusal, Some(Refusal::Contents));
    assert_eq!(policy, Policy::of_no_classes());
    assert_eq!(policy.class_count(), 0);
    assert!(!policy.in_range());
    let fresh = state::fresh(&policy);
    assert_eq!(fresh, (State::of_zeros(), Some(Refusal::OutOfRange)));
}

#[test]
fn the_printed_file_is_read_as_it_is_meant() {
    let (policy, refusal) = policy::read(&PRINTED_POLICY);
    assert_eq!(refusal, None);
    assert_eq!(policy.rows, [3, 2]);
    assert_eq!(policy.epoch, 3);
    assert_eq!(policy.minimums, [0, 2]);
    assert_eq!(policy.timing.turn_length, 4);
    assert_eq!(policy.timing.dead_time, 2);
    assert_eq!(policy.timing.column_delay, 1);
    assert_eq!(policy.timing.response_delay, 2);
    assert_eq!(policy.covers, [vec![1], vec![]]);
    assert_eq!(policy.caps, [1, 3]);
    assert_eq!(policy.least(), 0);
}

#[test]
fn the_timing_bytes_have_their_places() {
    let timing = policy(&[1], 1, &[0], [50, 10, 1, 2, 3, 4, 5, 6, 7, 8]).timing;
    assert_eq!((timing.turn_length, timing.dead_time), (50, 10));
    assert_eq!(timing.gaps, [[1, 2], [3, 4]]);
    assert_eq!(timing.bank_gaps, [5, 6]);
    assert_eq!((timing.column_delay, timing.response_delay), (7, 8));
}

#[test]
fn a_file_of_31_bytes_and_one_of_76() {
    let shortest = PolicyFields::new(&[1], 1, &[1], TIMING).encode();
    assert_eq!(shortest.len(), 31);
    assert_eq!(file_number(&shortest), 0);
    let longest = PolicyFields::new(&chain_rows(16), 64, &[4; 16], TIMING).encode();
    assert_eq!(longest.len(), 76);
    assert_eq!(file_number(&longest), 0);
}

/// The bits that W-205's mask of all classes below n does not have: each of them gets 3.
#[test]
fn every_bit_at_n_or_above_is_refused_in_every_row() {
    for n in 1..=16 {
        let chain = chain_rows(n);
        assert_eq!(number_of_rows(&chain), 0, "n = {n}");
        for (class, bit) in (0..n).flat_map(|class| (n..16).map(move |bit| (class, bit))) {
            let mut rows = chain.clone();
            rows[class] |= class_mask(bit);
            assert_eq!(
                number_of_rows(&rows),
                3,
                "n = {n}, bit {bit} of row {class}"
            );
        }
    }
}

#[test]
fn the_answer_delay_may_be_the_dead_time_and_not_one_above() {
    assert_eq!(number_of_timing([20, 7, 1, 1, 1, 1, 1, 1, 1, 7]), 0);
    assert_eq!(number_of_timing([20, 7, 1, 1, 1, 1, 1, 1, 1, 8]), 8);
}

#[test]
fn every_timing_byte_has_its_bounds() {
    let sound = [20, 7, 3, 3, 3, 3, 3, 3, 2, 5];
    assert_eq!(number_of_timing(sound), 0);
    // Each byte with values just inside its bounds, and just outside.
    let bounds: [(usize, &[u8], &[u8]); 10] = [
        (0, &[8, 255], &[0, 1, 2, 6, 7]),
        (1, &[5, 19], &[0, 1, 2, 4, 20, 21, 255]),
        (2, &[1, 7], &[0, 8, 255]),
        (3, &[1, 7], &[0, 8, 255]),
        (4, &[1, 7], &[0, 8, 255]),
        (5, &[1, 7], &[0, 8, 255]),
        (6, &[1, 7], &[0, 8, 255]),
        (7, &[1, 7], &[0, 8, 255]),
        (8, &[1, 4], &[0, 5, 6, 255]),
        (9, &[3, 7], &[0, 1, 2, 8, 255]),
    ];
    for (place, inside, outside) in bounds {
        for (values, number) in [(inside, 0), (outside, 8)] {
            for &value in values {
                let mut timing = sound;
                timing[place] = value;
                assert_eq!(number_of_timing(timing), number, "byte {place} = {value}");
            }
        }
    }
    // The dead time's own bounds, under a long turn.
    for (dead, number) in [(1, 8), (2, 0), (31, 0), (32, 8)] {
        let timing = [255, dead, 1, 1, 1, 1, 1, 1, 1, 2];
        assert_eq!(number_of_timing(timing), number, "dead time {dead}");
    }
    // The shortest turn length that any dead time allows is 3.
    assert_eq!(number_of_timing([3, 2, 1, 1, 1, 1, 1, 1, 1, 2]), 0);
    assert_eq!(number_of_timing([2, 2, 1, 1, 1, 1, 1, 1, 1, 2]), 8);
}

#[test]
fn the_epoch_has_its_bounds() {
    for (epoch, number) in [(0, 7), (1, 0), (64, 0), (65, 7), (255, 7)] {
        assert_eq!(number_of(&[1], epoch, &[0], TIMING), number, "E = {epoch}");
    }
}

#[test]
fn the_length_of_a_file_has_its_bounds() {
    // 16 bytes: a contents table of three empty bodies, and nothing else.
    assert_eq!(file_number(&encode_bodies(&[], &[], &[])), 1);
    // 17 bytes: a contents table that fits, so the number is 2.
    assert_eq!(file_number(&encode_bodies(&[1], &[], &[])), 2);
    assert_eq!(file_number(&encode_bodies(&[], &[1], &[])), 2);
    // 65,535 bytes and one more, each with a contents table that fits.
    let fields = PolicyFields::new(&CHAIN_OF_TWO, 3, &[0, 2], TIMING).encode();
    for (length, number) in [(65_535, 2), (65_536, 1)] {
        let timing = vec![2; length - 24];
        let file = encode_bodies(&fields[16..21], &fields[21..24], &timing);
        assert_eq!(file.len(), length);
        assert_eq!(file_number(&file), number, "{length} bytes");
    }
}

#[test]
fn every_cut_of_a_file_is_refused_with_1() {
    for length in 0..PRINTED_POLICY.len() {
        assert_eq!(file_number(&PRINTED_POLICY[..length]), 1, "{length} bytes");
    }
}

#[test]
fn every_byte_of_the_contents_table_counts() {
    for place in 0..16 {
        for value in (0..=255).filter(|&value| value != PRINTED_POLICY[place]) {
            let mut file = PRINTED_POLICY;
            file[place] = value;
            assert_eq!(file_number(&file), 1, "byte {place} = {value}");
        }
    }
}

#[test]
fn a_length_that_does_not_fit_n_is_2_though_the_table_is_sound() {
    let [order, turns, timing] = [&[2, 3, 0, 2, 0], &[3, 0, 2][..], &TIMING[..]];
    assert_eq!(file_number(&encode_bodies(order, turns, timing)), 0);
    for length in (0..12).filter(|&length| length != 5) {
        let order: Vec<u8> = order.iter().copied().chain([0; 12]).take(length).collect();
        assert_eq!(file_number(&encode_bodies(&order, turns, timing)), 2);
    }
    for length in (0..8).filter(|&length| length != 3) {
        let turns: Vec<u8> = turns.iter().copied().chain([0; 8]).take(length).collect();
        assert_eq!(file_number(&encode_bodies(order, &turns, timing)), 2);
    }
    // W-206: 10 and 11 timing bytes fit.
    for length in (0..14).filter(|length| ![10, 11].contains(length)) {
        let timing: Vec<u8> = timing.iter().copied().chain([2; 14]).take(length).collect();
        assert_eq!(file_number(&encode_bodies(order, turns, &timing)), 2);
    }
}

#[test]
fn the_lowest_number_comes_first() {
    // Every fault at once, then taken away one by one. Rows: class 0 has a bit
    // at n; 1 and 2 flow to each other; 0 to 1 to 3 is not closed; none is least.
    let mut file = PolicyFields::new(&[0x13, 0x0E, 0x06, 0x08], 0, &[9; 4], [0; 10]);
    file.n = 17;
    let mut bytes = file.encode();
    bytes[0] = 4;
    assert_eq!(file_number(&bytes), 1);
    assert_eq!(file_number(&file.encode()), 2);
    file.n = 4;
    assert_eq!(file_number(&file.encode()), 3);
    file.rows[0] = 0x03;
    assert_eq!(file_number(&file.encode()), 4);
    file.rows[2] = 0x04;
    assert_eq!(file_number(&file.encode()), 5);
    file.rows = vec![0x0B, 0x0A, 0x04, 0x08];
    assert_eq!(file_number(&file.encode()), 6);
    file.rows[0] = 0x0F;
    assert_eq!(file_number(&file.encode()), 7);
    file.epoch = 36;
    assert_eq!(file_number(&file.encode()), 8);
    file.timing = TIMING.to_vec();
    assert_eq!(file_number(&file.encode()), 0);
}

#[test]
fn a_least_class_may_have_any_number() {
    // 2 below 0 and 1.
    let policy = policy(&[0b001, 0b010, 0b111], 4, &[1, 2, 0], TIMING);
    assert_eq!(policy.least(), 2);
    assert_eq!(policy.covers, [vec![], vec![], vec![0, 1]]);
    assert_eq!(policy.caps, [4, 4, 1]);
}

#[test]
fn a_greatest_class_is_not_needed() {
    assert_eq!(number_of_rows(&FORK), 0);
}

#[test]
fn covers_leave_out_what_has_a_class_between() {
    let policy = policy(&DIAMOND, 10, &[1, 2, 3, 4], TIMING);
    assert_eq!(policy.covers, [vec![1, 2], vec![3], vec![3], vec![]]);
    assert_eq!(policy.caps, [1, 6, 6, 10]);
}

#[test]
fn no_bytes_break_the_reader_and_what_it_accepts_is_in_range() {
    let random = &mut Random::new(1);
    let mut accepted = 0;
    for place in 0..PRINTED_POLICY.len() {
        for value in 0..=255 {
            let mut file = PRINTED_POLICY;
            file[place] = value;
            let (policy, refusal) = policy::read(&file);
            assert_eq!(policy.in_range(), refusal.is_none());
            assert_eq!(policy == Policy::of_no_classes(), refusal.is_some());
            accepted += usize::from(refusal.is_none());
        }
    }
    assert!(accepted > PRINTED_POLICY.len(), "some changes are harmless");
    for _ in 0..20_000 {
        let length = random.below(100);
        let mut file: Vec<u8> = (0..length).map(|_| random.next() as u8).collect();
        let sound_start = random.below(17).min(length);
        file[..sound_start].copy_from_slice(&PRINTED_POLICY[..sound_start]);
        let (policy, refusal) = policy::read(&file);
        assert_eq!(policy.in_range(), refusal.is_none());
    }
}

#[test]
fn a_policy_whose_stored_covers_or_caps_are_not_its_orders_is_out_of_range() {
    let sound = policy(&DIAMOND, 10, &[1, 2, 3, 4], TIMING);
    assert!(sound.in_range());
    let changes: [(&str, fn(&mut Policy)); 19] = [
        ("a cap too high", |policy| policy.caps[0] += 1),
        ("a cap too low", |policy| policy.caps[3] -= 1),
        ("a cap missing", |policy| policy.caps.truncate(3)),
        ("a cap too many", |policy| policy.caps.push(0)),
        ("covers in another order", |policy| {
            policy.covers[0].reverse()
        }),
        ("a cover missing", |policy| policy.covers[0].truncate(1)),
        ("a cover too many", |policy| policy.covers[0].push(3)),
        ("a list of covers missing", |policy| {
            policy.covers.truncate(3)
        }),
        ("no classes", |policy| policy.rows.clear()),
        ("more than 16 classes", |policy| {
            policy.rows.resize(17, below_mask(16))
        }),
        ("a minimum missing", |policy| policy.minimums.truncate(3)),
        ("a minimum too many", |policy| policy.minimums.push(0)),
        ("3", |policy| policy.rows[0] |= class_mask(4)),
        ("4", |policy| policy.rows[3] |= class_mask(0)),
        ("5", |policy| policy.rows[0] &= !class_mask(3)),
        ("6", |policy| policy.rows[0] = class_mask(0)),
        ("7, E", |policy| policy.epoch = 65),
        ("7, the sum", |policy| policy.minimums[0] += 1),
        ("8", |policy| policy.timing.column_delay = 2),
    ];
    for (what, change) in changes {
        let mut policy = sound.clone();
        change(&mut policy);
        assert!(!policy.in_range(), "{what}");
        let fresh = state::fresh(&policy);
        assert_eq!(
            fresh,
            (State::of_zeros(), Some(Refusal::OutOfRange)),
            "{what}"
        );
        // 13 is asked before 16.
        for room in [0, 100] {
            let refused = (0, Some(Refusal::OutOfRange), vec![UNWRITTEN; room]);
            assert_eq!(written(&policy, room), refused, "{what}");
        }
    }
}

#[test]
fn a_fresh_state_is_as_document_01_says() {
    let policy = policy(&[0b001, 0b010, 0b111], 4, &[1, 2, 0], TIMING);
    let state = fresh(&policy);
    assert_eq!(state.cycle, 0);
    assert!(state.classes.iter().all(|class| class.queue.is_empty()));
    assert!(state.classes.iter().all(|class| class.pointer == 0));
    let left: Vec<u8> = state.classes.iter().map(|class| class.left).collect();
    assert_eq!(left, [4, 4, 1]);
    assert!(state.columns.is_empty() && state.responses.is_empty());
    assert_eq!(state.last_activate, None);
    assert_eq!(state.last_of_bank, [None; 32]);
    // Owner 0, though the least class is 2.
    assert_eq!((state.owner, state.elided), (0, false));
}

// ---------------------------------------------------------------------------
// Writing.

/// What stands in a room before a file is written into it.
const UNWRITTEN: u8 = 0xA5;

/// What writing a policy hands back, and the whole room after it.
fn written(policy: &Policy, room: usize) -> (usize, Option<Refusal>, Vec<u8>) {
    let mut room = vec![UNWRITTEN; room];
    let (count, refusal) = policy::write(policy, &mut room);
    (count, refusal, room)
}

/// A file that is taken is the one written, with room for just that; its policy is read back.
fn check_written(file: &[u8]) -> bool {
    let (policy, refusal) = policy::read(file);
    let expected = match refusal {
        None => (file.len(), None, file.to_vec()),
        // The policy of no classes is out of range.
        Some(_) => (0, Some(Refusal::OutOfRange), vec![UNWRITTEN; file.len()]),
    };
    let written = written(&policy, file.len());
    assert_eq!(written, expected);
    if refusal.is_none() {
        assert_eq!(policy::read(&written.2), (policy, None));
    }
    refusal.is_none()
}

#[test]
fn the_printed_file_is_the_one_written() {
    assert!(check_written(&PRINTED_POLICY));
    let shortest = PolicyFields::new(&[1], 1, &[1], TIMING).encode();
    assert!(check_written(&shortest));
    let longest = PolicyFields::new(&chain_rows(16), 64, &[4; 16], TIMING).with_rank_gap(2);
    assert_eq!(longest.encode().len(), 77);
    assert!(check_written(&longest.encode()));
    assert!(!check_written(&[]));
}

#[test]
fn every_file_that_is_taken_is_the_one_written() {
    // By the number of classes, with ten timing bytes and with eleven; and those refused.
    let mut met = [[0; 2]; 16];
    let mut refused = 0;
    for seed in 0..3_000 {
        let file = generate::folder(seed).policy;
        match check_written(&file) {
            true => met[usize::from(file[16]) - 1][usize::from(file[14]) - 10] += 1,
            false => refused += 1,
        }
    }
    println!("{met:?}, {refused} refused");
    assert!(refused > 0 && met.iter().flatten().all(|&count| count > 0));
    let mut changed = 0;
    for (place, value) in (0..34).flat_map(|place| (0..=255).map(move |value| (place, value))) {
        let mut file = PRINTED_POLICY;
        file[place] = value;
        changed += usize::from(check_written(&file));
    }
    assert!(changed > PRINTED_POLICY.len(), "some changes are harmless");
}

#[test]
fn a_file_needs_room_for_all_its_bytes() {
    for seed in 0..200 {
        let file = generate::sound_fields(&mut Random::new(seed)).encode();
        let (policy, _) = policy::read(&file);
        let length = file.len();
        for room in 0..length {
            let refused = (0, Some(Refusal::ExtractTooShort), vec![UNWRITTEN; room]);
            assert_eq!(written(&policy, room), refused, "room for {room}");
        }
        for more in [0, 1, 40] {
            let after = [&file[..], &vec![UNWRITTEN; more]].concat();
            assert_eq!(written(&policy, length + more), (length, None, after));
        }
    }
}
