//! W-206's cases, "Ranks": files of eleven timing bytes, requests and last activates on other ranks,
//! and the rank gap.

use super::*;
use vigambul_model::generate::encode_bodies;
use vigambul_model::state::LastActivate;

/// Document 01's file with another timing body.
fn with_timing(timing: &[u8]) -> Vec<u8> {
    encode_bodies(&PRINTED_POLICY[16..21], &PRINTED_POLICY[21..24], timing)
}

/// Document 01's timing with a rank gap.
fn eleven(gap: u8) -> Vec<u8> {
    [&TIMING[..], &[gap]].concat()
}

/// A file with one byte changed.
fn changed_to(mut file: Vec<u8>, at: usize, value: u8) -> Vec<u8> {
    file[at] = value;
    file
}

/// An eleventh byte of each value, where the dead time is 2 and where it is 31.
fn gaps() -> String {
    let short = VALUES.map(|gap| {
        let name = format!("eleven bytes, a rank gap of {gap}");
        line(&name, &with_timing(&eleven(gap)))
    });
    let long = VALUES.map(|gap| {
        let name = format!("dead time 31, a rank gap of {gap}");
        let timing = [32, 31, 2, 2, 2, 2, 2, 2, 1, 2, gap];
        line(&name, &with_timing(&timing))
    });
    short.concat() + &long.concat()
}

/// A rank gap of 0 is found after whatever 3 to 7 refuse.
fn gap_of_0() -> String {
    let case = |name, at, value| {
        let name = format!("a rank gap of 0, and {name}");
        line(&name, &changed_to(with_timing(&eleven(0)), at, value))
    };
    [
        case("row 0 lacks its own", 17, 2),
        case("no least class", 17, 1),
        case("E = 0", 21, 0),
        case("dead time 1", 25, 1),
    ]
    .concat()
}

/// The timing body's length, and a length in the contents table that is not the body's.
fn lengths() -> String {
    let whole = with_timing(&eleven(2));
    let twelve = [&eleven(2)[..], &[2]].concat();
    let contents = |there: &[u8], said| changed_to(there.to_vec(), 14, said);
    [
        line("a timing body of 9 bytes", &with_timing(&TIMING[..9])),
        line("a timing body of 10 bytes", &with_timing(&TIMING)),
        line(
            "11 bytes by the contents, 10 there",
            &contents(&PRINTED_POLICY, 11),
        ),
        line("a timing body of 11 bytes", &whole),
        line("10 bytes by the contents, 11 there", &contents(&whole, 10)),
        line("12 bytes by the contents, 11 there", &contents(&whole, 12)),
        line("eleven bytes, cut to 34", &whole[..34]),
        line("eleven bytes, cut to 35", &whole),
        line("a timing body of 12 bytes", &with_timing(&twelve)),
        line("a timing body of no bytes", &with_timing(&[])),
    ]
    .concat()
}

/// The shortest file and the longest, each with a rank gap.
fn sizes() -> String {
    let single = PolicyFields::new(&[1], 1, &[0], TIMING).with_rank_gap(2);
    let sixteen = |gap| {
        let timing = [255, 31, 31, 31, 31, 31, 31, 31, 30, 31];
        let fields = PolicyFields::new(&chain_rows(16), 64, &[4; 16], timing);
        fields.with_rank_gap(gap).encode()
    };
    assert_eq!((single.encode().len(), sixteen(31).len()), (32, 77));
    line("a file of 32 bytes", &single.encode())
        + &line("a file of 77 bytes", &sixteen(31))
        + &line("a file of 77 bytes, a rank gap of 32", &sixteen(32))
}

/// Stored policies: one rank without a gap, or four with one. The proved policy stores how many ranks
/// there are beside the gap; the model has only the gap, and of other numbers of ranks, and of a gap
/// where there is one rank, "no" is what the proved program is to answer.
fn stored() -> String {
    let answer = |ranks: u32, gap: u8| {
        let mut policy = fork();
        policy.timing.rank_gap = (ranks == 4).then_some(gap);
        let known = ranks == 4 || (ranks, gap) == (1, 0);
        let answer = if known && policy.in_range() {
            "yes"
        } else {
            "no"
        };
        format!("a stored policy, ranks {ranks}, rank gap {gap}: {answer}\n")
    };
    #[rustfmt::skip]
    let cases = [
        (1, 0), (1, 1), (1, 10), (4, 0), (4, 1), (4, 10), (4, 11), (4, 255), (0, 0), (0, 1), (2, 0), (2, 1),
        (3, 1), (5, 1), (4_294_967_295, 1),
    ];
    cases.map(|(ranks, gap)| answer(ranks, gap)).concat()
}

/// Trace numbers under ten timing bytes with log numbers that no run wrote: offers on other ranks,
/// malformed words, and ticks with words on each rank.
#[rustfmt::skip]
const SEEN: [(u32, [u32; LINE]); 11] = [
    (0x8041_0001, [10, 0, 0, 0]),
    (0x8141_0002, [10, 0, 0, 0]),
    (0x8241_0003, [9, 0, 0, 0]),
    (0xA041_0004, [14, 0, 0, 0]),
    (0xC0C1_0005, [14, 0, 0, 0]),
    (0x80C1_0006, [10, 0, 0, 0]),
    (0x8181_0007, [10, 0, 0, 0]),
    (0, [0, 0x8041_0008, 0x80C1_0009, 257]),
    (0, [0, 0xC081_000A, 0x8141_000B, 0]),
    (0, [0, 0x81C1_000C, 0xC140_000D, 258]),
    (0, [0, 0xC1C1_000E, 0x8000_0000, 2]),
];

/// Forty numbers on four ranks.
#[rustfmt::skip]
const FORTY: [u32; 40] = [
    0x8000_0001, 0x8051_0002, 0x8082_0003, 0x80D3_0004, 0x8040_0005, 0x8014_0006, 0x8085_0007, 0x80D6_0008,
    0x8000_0009, 0x8110_000A, 0x8240_000B, 0, 0x80C7_000C, 0x8440_000D, 0, 0x40C0_0000, 0, 0x8148_000E,
    0, 0, 0x8360_000F, 0, 0, 0x8392_0010, 0, 0, 1, 0x82C1_0011, 0, 0, 0, 0, 0x8143_0012, 0, 0, 0, 0,
    0xC040_0013, 0, 0,
];

/// The quick diamond with a rank gap of 2.
fn ranked_diamond() -> Policy {
    let timing = [4, 3, 1, 2, 3, 1, 2, 3, 1, 3];
    ranked(&DIAMOND, 4, &[1; 4], timing, 2)
}

/// What goes by a policy alone.
pub fn policies() -> String {
    let (list, lines): (Vec<u32>, Vec<[u32; LINE]>) = SEEN.into_iter().unzip();
    let diamond = ranked_diamond();
    [
        gaps(),
        gap_of_0(),
        lengths(),
        sizes(),
        stored(),
        seen_under("ranks", &printed_policy(), &list, &lines.concat()),
        seen_under(
            "a run on four ranks",
            &diamond,
            &FORTY,
            &run_fresh(&diamond, &FORTY),
        ),
    ]
    .concat()
}

/// Document 01's policy with a rank gap of 2.
fn ranked_printed() -> Policy {
    ranked(&CHAIN_OF_TWO, 3, &[0, 2], TIMING, 2)
}

/// Offers of each rank under ten and eleven timing bytes, and the order 9, 10, 11.
fn offers() -> String {
    let on = |rank, class, kind, bank| Request {
        rank,
        ..request(class, kind, bank)
    };
    let of = |bytes, policy: &Policy, ranks: &[u8]| {
        let cases = ranks.iter().map(|&rank| {
            let name = format!("{bytes} bytes, rank {rank}");
            offer_case(&name, policy, &fresh(policy), on(rank, 1, 1, 7))
        });
        cases.collect::<String>()
    };
    let four = ranked_printed();
    let mut full = fresh(&four);
    #[rustfmt::skip]
    let eight = [
        0x8000_0000, 0x8040_0000, 0x8080_0000, 0x80C0_0000, 0x8000_0000, 0x8040_0000, 0x8080_0000, 0x80C0_0000,
    ];
    run_on(&four, &mut full, &eight);
    let case = |name, rank, class| offer_case(name, &four, &full, on(rank, class, 0, 0));
    [
        of("ten", &printed_policy(), &[0, 1, 2, 3, 4, 255]),
        of("eleven", &four, &[0, 1, 2, 3, 4, 5, 7, 255]),
        case("9, before 10 for the rank", 4, 2),
        case("10 for the rank, before 11", 4, 0),
        case("11, rank 3", 3, 0),
    ]
    .concat()
}

/// A list of one class alone, with turns of 20 and a rank gap, after the calls of another and with
/// W-203's count changed.
fn alone(name: &str, gap: u8, before: &[u32], passed: u8, offers: &[u32], ticks: usize) -> String {
    let timing = [20, 8, 1, 5, 4, 1, 6, 7, 1, 2];
    let policy = ranked(&[1], 1, &[0], timing, gap);
    let mut state = fresh(&policy);
    run_on(&policy, &mut state, before);
    let list = [offers, &vec![0; ticks]].concat();
    run_case(name, &policy, with_counts(&state, &[(0, passed)]), &list)
}

/// The rank gap by itself and beside the other gaps.
fn held_back() -> String {
    let one = [0x8000_0001, 0x8040_0002, 0x8040_0003];
    let kinds = [0x8000_0001, 0x8051_0002, 0x8002_0003];
    #[rustfmt::skip]
    let banks = [
        0x8005_0001, 0x8045_0002, 0x8085_0003, 0x80C5_0004, 0x8005_0005, 0x8045_0006, 0x8085_0007, 0x80C5_0008,
    ];
    let read = [0x8000_0001, 0];
    let passing = [0x8041_0002, 0x8002_0003, 0x8003_0004, 0x8004_0005];
    let four = [0x8000_0001, 0x8040_0002, 0x8080_0003, 0x80C0_0004];
    let held = |count| format!("a rank held back at a count of {count}");
    [
        alone("a rank gap alone", 3, &[], 0, &one, 12),
        alone("a kind gap besides", 3, &[], 0, &kinds, 14),
        alone("one bank of four ranks", 3, &[], 0, &banks, 28),
        alone(&held(14), 3, &read, 14, &passing, 12),
        alone(&held(15), 3, &read, 15, &passing, 12),
        alone("a rank gap of 1", 1, &[], 0, &four, 25),
        alone("a rank gap that is the dead time", 8, &[], 0, &four, 25),
    ]
    .concat()
}

/// Requests and last activates on other ranks, in a busy state.
const ON_OTHER_RANKS: [Change; 9] = [
    ("a waiting request of rank 1", |state| wait_on(state, 1)),
    ("a waiting request of rank 2", |state| wait_on(state, 2)),
    ("a column of rank 1", |state| {
        state.columns[0].request.rank = 1
    }),
    ("an answer of rank 3", |state| {
        state.responses[0].request.rank = 3
    }),
    ("a last activate on rank 3", |state| {
        state.last_activate = last_on(3, 2, Kind::Write)
    }),
    (
        "a last activate of bank 0 on rank 3 at the cycle",
        |state| state.last_of_bank[24] = last_on(3, 3, Kind::Read),
    ),
    (
        "a last activate of bank 7 on rank 3 at the cycle",
        |state| state.last_of_bank[31] = last_on(3, 3, Kind::Write),
    ),
    ("a last activate of bank 7 on rank 3", |state| {
        state.last_of_bank[31] = last_on(3, 2, Kind::Write)
    }),
    ("a last activate of bank 0 on rank 1", |state| {
        state.last_of_bank[8] = last_on(1, 2, Kind::Read)
    }),
];

fn wait_on(state: &mut State, rank: u8) {
    waiting(
        state,
        2,
        Request {
            rank,
            ..read_request(2, 0)
        },
    );
}

fn last_on(rank: u8, cycle: u32, kind: Kind) -> Option<LastActivate> {
    Some(LastActivate { cycle, kind, rank })
}

/// 13 on a busy state, where the timing has ten bytes and where it has eleven; and policies whose
/// ranks and rank gap no file gives.
fn out_of_range() -> String {
    let timing = [20, 10, 2, 2, 2, 2, 2, 2, 3, 6];
    let ranked_fork = ranked(&FORK, 4, &[0, 1, 1], timing, 4);
    let states = |bytes, policy: &Policy| {
        let cases = ON_OTHER_RANKS.iter().map(|(name, change)| {
            let mut state = busy();
            change(&mut state);
            both(&format!("{bytes} bytes, {name}"), policy, &state)
        });
        cases.collect::<String>()
    };
    let with_gap_of = |gap| {
        let mut policy = fork();
        policy.timing.rank_gap = Some(gap);
        policy
    };
    [
        states("ten", &fork()),
        states("eleven", &ranked_fork),
        unfit_by_rank("a policy of one rank and a gap"),
        unfit(
            "a policy of four ranks and no gap",
            &with_gap_of(0),
            &busy(),
        ),
        unfit(
            "a policy of a rank gap above the dead time",
            &with_gap_of(11),
            &busy(),
        ),
    ]
    .concat()
}

/// A policy that the proved program stores and the model cannot: 13 is what it is to answer.
fn unfit_by_rank(name: &str) -> String {
    format!("{name}, fresh: 13, all zeros\n")
        + &["offer", "tick"]
            .map(|call| format!("{name}, {call}: 13 0 0 0, as it was\n"))
            .concat()
}

/// Offers on other ranks inside a run, under ten and eleven timing bytes.
fn in_runs() -> String {
    #[rustfmt::skip]
    let list = [
        0x8040_0001, 0x80C0_0002, 0x8240_0003, 0x8048_0004, 0x8060_0005, 0, 0x8000_0006, 0x8040_0007, 0x8080_0008,
        0x80C0_0009, 0x8040_000A, 0x8050_000B, 0x8041_000C, 0x8042_000D, 0x8043_000E, 0x8044_000F, 0x81C0_0010,
        0, 0, 0, 0, 0,
    ];
    let case = |bytes, policy: &Policy| {
        let name = format!("{bytes} bytes, ranks in a run");
        listed_under(&name, policy, &fresh(policy), &list)
    };
    case("ten", &printed_policy()) + &case("eleven", &ranked_printed())
}

/// What goes by a state.
pub fn calls() -> String {
    let diamond = ranked_diamond();
    let places = [9, 12, 15, 20, 33].into_iter();
    let pieces = in_pieces("four ranks, ", &diamond, &fresh(&diamond), &FORTY, places);
    [offers(), held_back(), out_of_range(), in_runs(), pieces].concat()
}

/// With ten timing bytes requests on other ranks are out of range, with eleven they are not; a last
/// activate is by its cycle alone.
#[test]
fn the_cases_of_ranks_break_what_they_name() {
    let answers = out_of_range();
    let refused = |bytes: &str| {
        let lines = answers.lines().filter(|line| line.starts_with(bytes));
        lines.filter(|line| line.contains(": 13 ")).count()
    };
    assert_eq!((refused("ten"), refused("eleven")), (2 * 6, 2 * 2));
    assert_eq!(stored().matches(": yes").count(), 3);
}
