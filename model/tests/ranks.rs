//! W-206, "Ranks": the eleventh timing byte, the rank in words, requests and gaps, and what ten timing
//! bytes leave as it was. All numbers of logs are worked out by hand.

mod common;

use common::*;
use vigambul_model::extract::extract;
use vigambul_model::generate::{self, chain_rows, encode_bodies, PolicyFields};
use vigambul_model::policy::{self, Policy};
use vigambul_model::program::{self, read_trace};
use vigambul_model::refusal::{status, Refusal};
use vigambul_model::state::{self, check_range, InFlight, Kind, LastActivate, Request, State};
use vigambul_model::tick::offer;
use vigambul_model::trace::{offer_word, LINE};

const READ: u8 = 0;
const WRITE: u8 = 1;

/// Bits 22 and 23.
const RANK_BITS: u32 = 0x00C0_0000;
const COLUMN: u32 = 0x4000_0000;

/// One class, whose turns never keep their dead time.
fn one_class(timing: [u8; 10], rank_gap: u8) -> Policy {
    ranked(&[1], 1, &[0], timing, rank_gap)
}

fn on(rank: u8, request: Request) -> Request {
    Request { rank, ..request }
}

/// The word of a request of class 0.
fn word(kind: u8, rank: u8, bank: u8, tag: u16) -> u32 {
    let class = 0;
    offer_word(&Request {
        class,
        kind,
        rank,
        bank,
        tag,
    })
}

// ---------------------------------------------------------------------------
// The file.

/// The number of document 01's file with these timing bytes.
fn number_of_timing(timing: &[u8]) -> u32 {
    file_number(&encode_bodies(
        &PRINTED_POLICY[16..21],
        &PRINTED_POLICY[21..24],
        timing,
    ))
}

#[test]
fn the_eleventh_timing_byte_is_the_rank_gap() {
    let ten = [50, 10, 1, 2, 3, 4, 5, 6, 7, 8];
    let without = policy(&[1], 1, &[0], ten);
    assert_eq!(without.timing.rank_gap, None);
    let with = one_class(ten, 9);
    assert_eq!(with.timing.rank_gap, Some(9));
    // All else is read as it was.
    let mut all_else = with;
    all_else.timing.rank_gap = None;
    assert_eq!(all_else, without);
}

#[test]
fn the_rank_gap_is_1_to_the_dead_time() {
    for (dead_time, rank_gap, number) in [
        (7, 0, 8),
        (7, 1, 0),
        (7, 7, 0),
        (7, 8, 8),
        (7, 255, 8),
        (2, 2, 0),
        (2, 3, 8),
        (31, 31, 0),
        (31, 32, 8),
    ] {
        let timing = [40, dead_time, 1, 1, 1, 1, 1, 1, 1, 2, rank_gap];
        assert_eq!(number_of_timing(&timing), number, "{rank_gap}");
    }
}

#[test]
fn timing_bodies_of_10_and_11_bytes_fit_and_no_others() {
    let timing = [4, 2, 2, 2, 2, 2, 2, 2, 1, 2, 2, 2, 2, 2];
    for length in 0..=timing.len() {
        let number = if [10, 11].contains(&length) { 0 } else { 2 };
        assert_eq!(number_of_timing(&timing[..length]), number, "{length}");
    }
}

#[test]
fn an_unfit_length_comes_before_a_rank_gap_out_of_range_and_so_does_7() {
    let [sound, of_0] = [2, 0].map(|gap| [&TIMING[..], &[gap]].concat());
    assert_eq!(number_of_timing(&of_0), 8);
    assert_eq!(number_of_timing(&[&of_0[..], &[2]].concat()), 2);
    // A dead time that is out of range itself: 8 whatever the rank gap is.
    let no_dead_time = [4, 1, 1, 1, 1, 1, 1, 1, 1, 2, 1];
    assert_eq!(number_of_timing(&no_dead_time), 8);
    // E = 0.
    let with_epoch_0 = |timing: &[u8]| {
        let turns = [0, 0, 0];
        file_number(&encode_bodies(&PRINTED_POLICY[16..21], &turns, timing))
    };
    assert_eq!([with_epoch_0(&of_0), with_epoch_0(&sound)], [7, 7]);
}

#[test]
fn files_of_31_and_32_bytes_and_of_76_and_77() {
    let shortest = PolicyFields::new(&[1], 1, &[1], TIMING);
    let longest = PolicyFields::new(&chain_rows(16), 64, &[4; 16], TIMING);
    for (fields, length) in [(shortest, 31), (longest, 76)] {
        for (fields, length) in [
            (fields.clone(), length),
            (fields.with_rank_gap(1), length + 1),
        ] {
            let file = fields.encode();
            assert_eq!((file.len(), file_number(&file)), (length, 0));
        }
    }
}

/// A policy handed in is in range only if some file gives it.
#[test]
fn a_policy_handed_in_with_a_rank_gap_out_of_range_gets_13() {
    let sound = fork();
    for (rank_gap, in_range) in [
        (None, true),
        (Some(0), false),
        (Some(1), true),
        (Some(10), true),
        (Some(11), false),
        (Some(255), false),
    ] {
        let mut policy = sound.clone();
        policy.timing.rank_gap = rank_gap;
        assert_eq!(policy.in_range(), in_range, "{rank_gap:?}");
        let refusal = (!in_range).then_some(Refusal::OutOfRange);
        assert_eq!(state::fresh(&policy).1, refusal, "{rank_gap:?}");
        let (_, of_extract) = extract(&policy, 0, &[], &[], &mut []);
        assert_eq!(of_extract, refusal, "{rank_gap:?}");
        let of_offer = offer(&policy, &mut fresh(&sound), read_request(0, 1)).err();
        assert_eq!(of_offer, refusal, "{rank_gap:?}");
    }
}

// ---------------------------------------------------------------------------
// Offers, and requests in a state.

/// Document 01's policy with ten timing bytes, and with a rank gap of 2.
fn ten_and_eleven() -> [Policy; 2] {
    let with = ranked(&CHAIN_OF_TWO, 3, &[0, 2], TIMING, 2);
    [printed_policy(), with]
}

/// The number of an offer. Refused, it leaves the state as it was; taken, it stands at its queue's end
/// as it is.
fn offer_number(policy: &Policy, state: &State, request: Request) -> u32 {
    let mut after = state.clone();
    let outcome = offer(policy, &mut after, request);
    match outcome {
        Err(_) => assert_eq!(after, *state),
        Ok(()) => {
            let newest = after.classes[usize::from(request.class)].queue.back();
            assert_eq!(newest, Some(&request));
        }
    }
    status(&outcome)
}

#[test]
fn a_rank_other_than_0_gets_10_with_ten_bytes_and_is_taken_with_eleven() {
    let [ten, eleven] = ten_and_eleven();
    for rank in 0..4 {
        let request = on(rank, request(1, 1, 7));
        let with_ten = offer_number(&ten, &fresh(&ten), request);
        assert_eq!(with_ten, if rank == 0 { 0 } else { 10 }, "rank {rank}");
        assert_eq!(offer_number(&eleven, &fresh(&eleven), request), 0);
    }
}

/// No trace number has such a rank.
#[test]
fn a_single_offer_of_a_rank_above_3_gets_10() {
    for policy in ten_and_eleven() {
        for rank in [4, 5, 8, 255] {
            let request = on(rank, request(1, 1, 7));
            assert_eq!(offer_number(&policy, &fresh(&policy), request), 10);
        }
    }
}

#[test]
fn offers_of_ranks_are_refused_in_the_order_13_9_10_11() {
    for policy in ten_and_eleven() {
        let mut full = fresh(&policy);
        run_on(&policy, &mut full, &[read_word(0, 0); 8]);
        let mut broken = full.clone();
        broken.owner = 2;
        // A rank that neither has.
        let wrong = |class| on(4, request(class, 0, 0));
        assert_eq!(offer_number(&policy, &broken, wrong(2)), 13);
        assert_eq!(offer_number(&policy, &full, wrong(2)), 9);
        assert_eq!(offer_number(&policy, &full, wrong(0)), 10);
        // Ranks 1 to 3: 9 with both, and before 11 comes 10 with ten bytes alone.
        let number = if policy.timing.rank_gap.is_none() {
            10
        } else {
            11
        };
        for rank in 1..4 {
            let of_class = |class| on(rank, request(class, 0, 0));
            assert_eq!(offer_number(&policy, &full, of_class(2)), 9);
            assert_eq!(offer_number(&policy, &full, of_class(0)), number);
        }
        // Bank and kind are asked of every rank.
        for (kind, bank) in [(0, 8), (2, 0)] {
            let request = on(1, request(0, kind, bank));
            assert_eq!(offer_number(&policy, &full, request), 10);
        }
    }
}

#[test]
fn the_ranks_of_a_run() {
    // Of class 0 each rank, of class 2, which there is not, rank 1, and of bank 8 rank 3.
    let list = [
        0x8001_0001,
        0x8041_0002,
        0x8081_0003,
        0x80C1_0004,
        0x8241_0005,
        0x80C8_0006,
    ];
    let [ten, eleven] = ten_and_eleven();
    let statuses = |policy: &Policy| -> Vec<u32> {
        let log = run_fresh(policy, &list);
        log.chunks(LINE).map(|line| line[0]).collect()
    };
    assert_eq!(statuses(&ten), [0, 10, 10, 10, 9, 10]);
    assert_eq!(statuses(&eleven), [0, 0, 0, 0, 9, 10]);
    let mut state = fresh(&eleven);
    run_on(&eleven, &mut state, &list);
    let ranks = state.classes[0].queue.iter().map(|request| request.rank);
    assert_eq!(ranks.collect::<Vec<_>>(), [0, 1, 2, 3]);
}

/// [`busy`] with a waiting request, a pending column and a pending answer of a rank.
fn with_a_rank(rank: u8) -> [(&'static str, State); 3] {
    let [mut queued, mut column, mut answer] = [(); 3].map(|()| busy());
    waiting(&mut queued, 2, on(rank, request(2, 0, 0)));
    let in_flight = |flight: &mut [InFlight]| flight[1].request.rank = rank;
    in_flight(&mut column.columns);
    in_flight(&mut answer.responses);
    [
        ("a waiting request", queued),
        ("a column", column),
        ("an answer", answer),
    ]
}

#[test]
fn a_waiting_or_in_flight_request_of_a_rank_that_10_refuses_gets_13() {
    let ten = fork();
    let mut eleven = fork();
    eleven.timing.rank_gap = Some(10);
    for (rank, taken) in [
        (0, [true, true]),
        (1, [false, true]),
        (3, [false, true]),
        (4, [false, false]),
        (255, [false, false]),
    ] {
        for (what, state) in with_a_rank(rank) {
            let found = [&ten, &eleven].map(|policy| check_range(policy, &state).is_ok());
            assert_eq!(found, taken, "{what} of rank {rank}");
        }
    }
}

/// Of the last activates it is asked that they were before the cycle, of each of the 32 banks too, and
/// not on which rank they were.
#[test]
fn last_activates_of_all_32_banks_are_before_the_cycle_and_on_any_rank() {
    let ten = fork();
    let mut eleven = fork();
    eleven.timing.rank_gap = Some(10);
    for policy in [ten, eleven] {
        let taken = |state: &State| check_range(&policy, state).is_ok();
        for place in 0..32 {
            for (cycle, before) in [(2, true), (3, false)] {
                let mut state = busy();
                state.last_of_bank[place] = last(cycle, Kind::Write);
                assert_eq!(taken(&state), before, "bank {place}, cycle {cycle}");
            }
        }
        for rank in [1, 3, 4, 255] {
            let mut state = busy();
            for last in state.last_of_bank.iter_mut().flatten() {
                last.rank = rank;
            }
            let last_of_all = state.last_activate.as_mut();
            last_of_all.expect("one was activated").rank = rank;
            assert!(taken(&state), "rank {rank}");
        }
    }
}

// ---------------------------------------------------------------------------
// The gaps.

/// The cycles at which activates go out, when these offers come before cycle 0.
fn activates(policy: &Policy, offers: &[u32]) -> Vec<usize> {
    let list: Vec<u32> = offers.iter().copied().chain([0; 100]).collect();
    let log = run_fresh(policy, &list);
    let ticks = log.chunks(LINE).skip(offers.len()).enumerate();
    let activates = ticks.filter(|(_, line)| line[1] >> 30 == 2);
    activates.map(|(cycle, _)| cycle).collect()
}

/// Gaps of 2 by kinds, 3 by bank, a rank gap of 6, column delay 1, answer delay 2. At 2 the gap by kinds
/// is met, the bank is free, and the rank gap from cycle 0 is not met until 6.
#[test]
fn an_activate_waits_for_the_rank_gap_alone() {
    let policy = one_class([20, 10, 2, 2, 2, 2, 3, 3, 1, 2], 6);
    let [first, second] = [0x8000_0001, 0x8041_0002];
    let list = [first, second, 0, 0, 0, 0, 0, 0, 0, 0, 0];
    assert_eq!(
        run_fresh(&policy, &list),
        [
            [0, 0, 0, 0],
            [0, 0, 0, 0],
            [0, first, 0, 0x1_0101],
            [0, first | COLUMN, 0, 0],
            [0, 0, first, 0],
            [0, 0, 0, 0],
            [0, 0, 0, 0],
            [0, 0, 0, 0],
            [0, second, 0, 0],
            [0, second | COLUMN, 0, 0],
            [0, 0, second, 0],
        ]
        .concat()
    );
    // On the first one's rank it goes at 2.
    let one_rank = [first, second & !RANK_BITS];
    assert_eq!(activates(&policy, &one_rank), [0, 2]);
}

#[test]
fn the_rank_gap_is_kept_between_any_two_ranks_and_goes_by_no_kind() {
    // Gaps of 1 and column delay 2: on one rank the second goes at 1.
    let policy = one_class([40, 20, 1, 1, 1, 1, 1, 1, 2, 3], 9);
    for (earlier, later) in (0..16).map(|both| (both / 4, both % 4)) {
        for (first, second) in [(READ, READ), (READ, WRITE), (WRITE, READ), (WRITE, WRITE)] {
            let offers = [word(first, earlier, 0, 1), word(second, later, 1, 2)];
            let expected = if earlier == later { 1 } else { 9 };
            let what = format!("rank {earlier} and then {later}");
            assert_eq!(activates(&policy, &offers), [0, expected], "{what}");
        }
    }
}

#[test]
fn the_rank_gap_at_its_bounds() {
    let offers = [word(READ, 0, 0, 1), word(READ, 3, 1, 2)];
    // Dead time 31, other gaps 1, column delay 30: no column is due before 30.
    for rank_gap in [1, 2, 29, 31] {
        let policy = one_class([255, 31, 1, 1, 1, 1, 1, 1, 30, 31], rank_gap);
        assert_eq!(activates(&policy, &offers), [0, usize::from(rank_gap)]);
    }
    // At 30 the column is due, and the activate goes a cycle later.
    let policy = one_class([255, 31, 1, 1, 1, 1, 1, 1, 30, 31], 30);
    assert_eq!(activates(&policy, &offers), [0, 31]);
}

/// The same-bank gap is 9, the others 2: bank 3 of rank 1 is another bank than bank 3 of rank 0.
#[test]
fn one_bank_number_on_two_ranks_goes_back_to_back() {
    let policy = one_class([20, 10, 2, 2, 2, 2, 9, 9, 1, 2], 2);
    let two_ranks = [word(READ, 0, 3, 1), word(READ, 1, 3, 2)];
    assert_eq!(activates(&policy, &two_ranks), [0, 2]);
    let one_rank = [word(READ, 1, 3, 1), word(READ, 1, 3, 2)];
    assert_eq!(activates(&policy, &one_rank), [0, 9]);
    // Each of the four has its own: all are free again at 9, 11, 13 and 15.
    let twice: Vec<u32> = (0..8)
        .map(|tag| word(WRITE, (tag % 4) as u8, 3, tag))
        .collect();
    let expected = [0, 2, 4, 6, 9, 11, 13, 15];
    assert_eq!(activates(&policy, &twice), expected);
}

/// Rank 0 at 0, rank 1 at 2, both of bank 3; rank 0 again 9 after its own, whatever came since.
#[test]
fn the_same_bank_gap_goes_by_rank_and_bank_over_others_of_that_number() {
    let policy = one_class([20, 10, 2, 2, 2, 2, 9, 9, 1, 2], 2);
    let offers = [
        word(READ, 0, 3, 1),
        word(READ, 1, 3, 2),
        word(READ, 0, 3, 3),
    ];
    assert_eq!(activates(&policy, &offers), [0, 2, 9]);
}

#[test]
fn the_gap_by_kinds_goes_from_the_last_activate_of_all_whatever_its_rank() {
    // Gaps 3, 5, 7 and 9 by kinds, and a rank gap of 4: the longer of the two is what is waited for.
    let policy = one_class([255, 31, 3, 5, 7, 9, 11, 13, 1, 2], 4);
    for (first, second, expected) in [
        (READ, READ, 4),
        (READ, WRITE, 5),
        (WRITE, READ, 7),
        (WRITE, WRITE, 9),
    ] {
        let offers = [word(first, 2, 0, 1), word(second, 1, 0, 2)];
        assert_eq!(activates(&policy, &offers), [0, expected]);
    }
}

/// A rank gap of 10 and gaps of 2 by kinds. The fourth, on the first one's rank, passes the others at 2
/// (W-203); from there rank 1 waits until 12, and its next goes 2 later.
#[test]
fn the_rank_gap_runs_from_the_last_activate_of_all_and_from_no_other() {
    let policy = one_class([255, 31, 2, 2, 2, 2, 2, 2, 1, 2], 10);
    let offers = [
        word(READ, 0, 0, 1),
        word(READ, 1, 1, 2),
        word(READ, 1, 2, 3),
        word(READ, 0, 3, 4),
    ];
    assert_eq!(activates(&policy, &offers), [0, 2, 12, 14]);
    // A state that no list leads to: rank 1 was activated at 18 and rank 0 at 19. On rank 0 one goes at 21
    // by its kind, though 18 is not 10 cycles ago, and on rank 1 at 29.
    for (rank, cycle) in [(0, 21), (1, 29)] {
        let mut state = fresh(&policy);
        state.cycle = 20;
        state.elided = true;
        let last_on = |rank, cycle| {
            let kind = Kind::Read;
            Some(LastActivate { cycle, kind, rank })
        };
        state.last_of_bank[8] = last_on(1, 18);
        state.last_of_bank[0] = last_on(0, 19);
        state.last_activate = last_on(0, 19);
        let mut list = vec![word(READ, rank, 5, 1)];
        list.extend([0; 20]);
        let log = run_on(&policy, &mut state, &list);
        let place = log.chunks(LINE).position(|line| line[1] == list[0]);
        assert_eq!(place.map(|place| place + 19), Some(cycle), "rank {rank}");
    }
}

/// The oldest waits for the rank gap, and one on the last one's rank passes it: W-203 with W-206.
#[test]
fn one_on_the_last_ones_rank_passes_the_oldest() {
    let policy = one_class([255, 31, 2, 2, 2, 2, 2, 2, 1, 2], 7);
    let mut state = fresh(&policy);
    let offers = [
        word(READ, 0, 0, 1),
        word(READ, 1, 1, 2),
        word(READ, 0, 2, 3),
    ];
    let list: Vec<u32> = offers.into_iter().chain([0; 3]).collect();
    let log = run_on(&policy, &mut state, &list);
    assert_eq!(log[4 * 5 + 1], offers[2]);
    assert_eq!(state.classes[0].passed, 1);
    // 7 cycles after cycle 2.
    let log = run_on(&policy, &mut state, &[0; 7]);
    assert_eq!(log[4 * 6 + 1], offers[1]);
    assert_eq!(state.classes[0].passed, 0);
}

/// With ten timing bytes there is no rank gap to keep, whatever rank a state that is handed in names.
#[test]
fn ten_timing_bytes_ask_no_rank() {
    let policy = policy(&[1], 1, &[0], [20, 10, 2, 2, 2, 2, 3, 3, 1, 2]);
    for rank in [0, 1, 255] {
        let mut state = fresh(&policy);
        state.cycle = 10;
        state.elided = true;
        state.last_activate = Some(LastActivate {
            cycle: 8,
            kind: Kind::Read,
            rank,
        });
        let log = run_on(&policy, &mut state, &[word(READ, 0, 0, 1), 0]);
        assert_eq!(log[5], word(READ, 0, 0, 1), "rank {rank}");
    }
}

/// Two classes, 0 below 1, turns of 6 with a dead time of 3: class 1 keeps it, and its last activate goes
/// at offset 2. A rank gap of the dead time is met as class 0's turn starts.
#[test]
fn a_rank_gap_of_the_dead_time_is_over_as_the_next_turn_starts() {
    let policy = ranked(
        &CHAIN_OF_TWO,
        64,
        &[0, 0],
        [6, 3, 1, 1, 1, 1, 1, 1, 1, 2],
        3,
    );
    let high = offer_word(&on(1, request(1, READ, 0)));
    let low = word(READ, 0, 0, 7);
    let list = [0, 0, high, 0, 0, low, 0, 0, 0, 0];
    let log = run_fresh(&policy, &list);
    let commands: Vec<u32> = log.chunks(LINE).map(|line| line[1]).collect();
    let expected = [0, 0, 0, high, high | COLUMN, 0, 0, 0, low, low | COLUMN];
    assert_eq!(commands, expected);
    // Class 1 keeps its dead time, and class 0 drops it.
    assert_eq!(turns(&log), [0x2_0002, 0x1_0101]);
}

// ---------------------------------------------------------------------------
// Words, logs and extracts.

/// Document 01's printed log with a rank gap of 2 and the offer on rank 3: C is in place of 0.
#[test]
fn words_are_printed_with_the_rank() {
    let fields = PolicyFields::new(&CHAIN_OF_TWO, 3, &[0, 2], TIMING);
    let trace: Vec<u8> = [0x80C1_0007, 0, 0, 0u32]
        .iter()
        .flat_map(|number| number.to_le_bytes())
        .collect();
    let printed = |file: &[u8]| String::from_utf8(program::output(file, &trace)).expect("text");
    assert_eq!(
        printed(&fields.clone().with_rank_gap(2).encode()),
        "status command answer turn\n\
         00000000 00000000 00000000 00000000\n\
         00000000 80C10007 00000000 00010101\n\
         00000000 C0C10007 00000000 00000000\n\
         00000000 00000000 80C10007 00000000\n"
    );
    // With ten timing bytes it gets 10, and nobody waits: the turn goes to class 1.
    assert_eq!(
        printed(&fields.encode()),
        "status command answer turn\n\
         0000000A 00000000 00000000 00000000\n\
         00000000 00000000 00000000 00020102\n\
         00000000 00000000 00000000 00000000\n\
         00000000 00000000 00000000 00000000\n"
    );
}

fn extracted(policy: &Policy, class: usize, list: &[u32], log: &[u32]) -> Vec<u32> {
    let mut out = vec![77; log.len()];
    let (count, refusal) = extract(policy, class, list, log, &mut out);
    assert_eq!(refusal, None);
    out.truncate(count);
    out
}

/// It gets 10 in the run; its class decides whether L sees that.
#[test]
fn the_extract_keeps_an_offer_of_rank_1_with_ten_timing_bytes_by_its_class() {
    let policy = policy(&FORK, 4, &[0, 1, 1], TIMING);
    let list = [0, 1, 2, 3, 31].map(|class| 0x8040_0005 | class << 24);
    let log = run_fresh(&policy, &list);
    let statuses: Vec<u32> = log.chunks(LINE).map(|line| line[0]).collect();
    assert_eq!(statuses, [10, 10, 10, 9, 9]);
    let line = [10, 0, 0, 0];
    // Class 0 sees itself alone, the others themselves and class 0.
    assert_eq!(extracted(&policy, 0, &list, &log), line);
    for class in [1, 2] {
        let shown = extracted(&policy, class, &list, &log);
        assert_eq!(shown, [line, line].concat(), "class {class}");
    }
}

/// A word of bit 29 or 30 is malformed and dropped, of any rank.
#[test]
fn the_extract_drops_malformed_words_of_any_rank() {
    for policy in ten_and_eleven() {
        let list = [0xA040_0001, 0xC080_0002, 0x00C0_0003, 0x0040_0000];
        let log = run_fresh(&policy, &list);
        assert!(log.chunks(LINE).all(|line| line == [14, 0, 0, 0]));
        assert_eq!(extracted(&policy, 1, &list, &log), []);
    }
}

#[test]
fn the_extract_shows_words_with_their_rank() {
    let [_, policy] = ten_and_eleven();
    let high = offer_word(&on(2, request(1, WRITE, 6)));
    let list = [high, 0, 0, 0];
    let log = run_fresh(&policy, &list);
    assert_eq!(high, 0x8196_0005);
    assert_eq!(
        extracted(&policy, 1, &list, &log),
        [
            [0, 0, 0, 0],
            [0, high, 0, 0x2_0102],
            [0, high | COLUMN, 0, 0],
            [0, 0, high, 0],
        ]
        .concat()
    );
    let hidden = [[0, 0, 0, 512], [0; 4], [0; 4]].concat();
    assert_eq!(extracted(&policy, 0, &list, &log), hidden);
}

// ---------------------------------------------------------------------------
// "Ten-byte files with traces that have both bits 0 give the logs they gave before."

/// The accepted policies of generated folders, each with the numbers of its trace.
fn accepted_folders() -> impl Iterator<Item = (Policy, Vec<u32>)> {
    (0..1_000).map(generate::folder).filter_map(|folder| {
        let (policy, refusal) = policy::read(&folder.policy);
        let numbers = read_trace(&folder.trace).numbers;
        refusal.is_none().then_some((policy, numbers))
    })
}

/// The numbers of a trace with bits 22 and 23 set to 0.
fn without_ranks(numbers: &[u32]) -> Vec<u32> {
    numbers.iter().map(|number| number & !RANK_BITS).collect()
}

#[test]
fn with_ten_timing_bytes_no_log_has_a_rank() {
    let (mut activates, mut refused) = (0, 0);
    for (policy, numbers) in accepted_folders() {
        if policy.timing.rank_gap.is_some() {
            continue;
        }
        // The second has offers of other ranks too: they are refused.
        for numbers in [without_ranks(&numbers), numbers] {
            let log = run_fresh(&policy, &numbers);
            assert!(log.iter().all(|number| number & RANK_BITS == 0));
            activates += log.chunks(LINE).filter(|line| line[1] >> 30 == 2).count();
            let of_rank = |number: u32| number >> 31 == 1 && number & RANK_BITS != 0;
            refused += numbers.iter().filter(|&&number| of_rank(number)).count();
        }
    }
    assert!(
        activates > 10_000 && refused > 100,
        "{activates}, {refused}"
    );
}

/// The rank gap is asked of nothing where all are on rank 0.
#[test]
fn an_eleventh_byte_changes_no_log_of_a_trace_without_ranks() {
    let mut activates = 0;
    for (mut policy, numbers) in accepted_folders() {
        let numbers = without_ranks(&numbers);
        policy.timing.rank_gap = None;
        let mut end = fresh(&policy);
        let log = run_on(&policy, &mut end, &numbers);
        activates += log.chunks(LINE).filter(|line| line[1] >> 30 == 2).count();
        for rank_gap in [1, policy.timing.dead_time] {
            policy.timing.rank_gap = Some(rank_gap);
            let mut state = fresh(&policy);
            assert!(run_on(&policy, &mut state, &numbers) == log);
            assert_eq!(state, end);
        }
    }
    assert!(activates > 10_000, "{activates}");
}
