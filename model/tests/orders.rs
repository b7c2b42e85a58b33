//! W-208, "Every small order": the list held against cases made by hand, against laws and against a
//! list made in another way; the refusals, their order and the room; and a search for leaks under
//! every order.

mod common;

use std::collections::{BTreeMap, BTreeSet};

use common::*;
use vigambul_model::generate::PolicyFields;
use vigambul_model::generate_orders::{
    both_timings, call, count, kinds, needed, run, target, timing_faults, Call, Trouble, COUNTS,
    ORDERS, ORDERS_BY_CLASS,
};
use vigambul_model::leaks::{
    search_orders_planted, ORDINARY_PAIRS_OF_ORDERS, PAIRS_OF_ORDERS_ENOUGH,
};
use vigambul_model::met::NEVER_OF_ORDERS;
use vigambul_model::orders::{self, Orders, EPOCH};
use vigambul_model::planted::{Planted, LEAKS, NOT_UNDER_SMALL_ORDERS, WRONG_ORDERS};
use vigambul_model::policy::{self, Policy};
use vigambul_model::random::Random;
use vigambul_model::refusal::Refusal;

use Trouble::{Classes, Length, Place, Room, Timing};

/// What stands in a room before a file is written into it.
const UNWRITTEN: u8 = 0xA5;

/// The last number of 32 bits.
const LAST: u32 = u32::MAX;

/// The number of bytes, the status and the whole room after a call.
fn ask(orders: &Orders, call: &Call) -> (usize, u32, Vec<u8>) {
    let mut room = vec![UNWRITTEN; call.room];
    let (count, refusal) = orders.file(call.n, call.place, &call.timing, &mut room);
    (count, refusal.map_or(0, Refusal::number), room)
}

/// The same of the right listing, without the room.
fn answer(n: u32, place: u32, timing: &[u8], room: usize) -> (usize, u32) {
    let timing = timing.to_vec();
    let call = Call {
        n,
        place,
        timing,
        room,
    };
    let (count, status, _) = ask(orders::all(), &call);
    (count, status)
}

/// The file at a place, with room for any.
fn file(orders: &Orders, n: u32, place: u32, timing: &[u8]) -> Vec<u8> {
    let mut room = vec![UNWRITTEN; 100];
    let (count, refusal) = orders.file(n, place, timing, &mut room);
    assert_eq!(refusal, None);
    room.truncate(count);
    room
}

fn rows(n: u32) -> &'static [Vec<u16>] {
    orders::all().of(n).expect("1 to 4 classes")
}

/// "the rows read as one number, row 0 most significant, 16 bits a row", in hexadecimal.
fn value(rows: &[u16]) -> String {
    rows.iter().map(|row| format!("{row:04X}")).collect()
}

// ---------------------------------------------------------------------------
// The list.

#[test]
fn the_orders_of_one_two_and_three_classes_by_hand() {
    assert_eq!(rows(1), [[0b1]]);
    // 1 below 0, and 0 below 1.
    assert_eq!(rows(2), [[0b01, 0b11], [0b11, 0b10]]);
    let three = [
        // 2 below 0 and 1, which are incomparable, and then 1 below 0.
        [0b001, 0b010, 0b111],
        [0b001, 0b011, 0b111],
        // 1 below the others: incomparable, and then 2 below 0.
        [0b001, 0b111, 0b100],
        [0b001, 0b111, 0b101],
        // 2 below 0 below 1, and 1 below 0 below 2.
        [0b011, 0b010, 0b111],
        [0b101, 0b111, 0b100],
        // 0 below the others: incomparable, 2 below 1, and 1 below 2.
        [0b111, 0b010, 0b100],
        [0b111, 0b010, 0b110],
        [0b111, 0b110, 0b100],
    ];
    assert_eq!(rows(3), three);
}

/// In the first, 3 is below the others, which are incomparable; in the next 2 is below 0. The last two
/// are the chains 0, 1, 3, 2 and 0, 1, 2, 3, from the least class on.
#[test]
fn the_first_and_the_last_of_four_classes_by_hand() {
    assert_eq!(rows(4)[0], [0b0001, 0b0010, 0b0100, 0b1111]);
    assert_eq!(rows(4)[1], [0b0001, 0b0010, 0b0101, 0b1111]);
    assert_eq!(rows(4)[74], [0b1111, 0b1110, 0b0100, 0b1100]);
    assert_eq!(rows(4)[75], [0b1111, 0b1110, 0b1100, 0b1000]);
}

/// "There are 1, 2, 9 and 76."
#[test]
fn there_are_1_2_9_and_76() {
    let counts = [1, 2, 3, 4].map(|n| rows(n).len() as u32);
    assert_eq!(counts, [1, 2, 9, 76]);
    assert_eq!(counts, COUNTS);
    assert_eq!(u64::from(counts.iter().sum::<u32>()), ORDERS);
    let classes = counts.iter().zip(1..).map(|(count, n)| count * n);
    assert_eq!(u64::from(classes.sum::<u32>()), ORDERS_BY_CLASS);
    for n in [0, 5, 6, 16, 256 + 1, LAST] {
        assert_eq!(orders::all().of(n), None);
        assert_eq!(count(n), 0);
    }
}

/// "They come by rising value of the rows read as one number, row 0 most significant, 16 bits a row."
/// "none twice"
#[test]
fn they_come_by_rising_value_and_none_twice() {
    for n in 1..=4 {
        let values: Vec<String> = rows(n).iter().map(|rows| value(rows)).collect();
        assert!(values.windows(2).all(|pair| pair[0] < pair[1]), "n = {n}");
    }
}

/// Every legal order of n classes, by what holds of each two: the one is below the other, the other
/// below it, or neither.
fn orders_by_pairs(n: usize) -> BTreeSet<Vec<u16>> {
    let pairs: Vec<(usize, usize)> = (0..n)
        .flat_map(|a| (a + 1..n).map(move |b| (a, b)))
        .collect();
    let all = 0..3u32.pow(pairs.len() as u32);
    let rows = all.map(|number| {
        let mut rows: Vec<u16> = (0..n).map(|class| 1 << class).collect();
        for (place, &(a, b)) in pairs.iter().enumerate() {
            match number / 3u32.pow(place as u32) % 3 {
                0 => rows[a] |= 1 << b,
                1 => rows[b] |= 1 << a,
                _ => {}
            }
        }
        rows
    });
    rows.filter(|rows| is_transitive_with_least(rows)).collect()
}

fn is_transitive_with_least(rows: &[u16]) -> bool {
    let n = rows.len();
    let below = |a: usize, b: usize| rows[a] >> b & 1 == 1;
    let passes = |a: usize, b: usize, c: usize| !below(a, b) || !below(b, c) || below(a, c);
    let transitive = (0..n).all(|a| (0..n).all(|b| (0..n).all(|c| passes(a, b, c))));
    transitive && (0..n).any(|least| (0..n).all(|class| below(least, class)))
}

/// "Each legal order is there"
#[test]
fn the_list_is_that_of_another_way_to_make_it() {
    for n in 1..=4 {
        let listed: BTreeSet<Vec<u16>> = rows(n as u32).iter().cloned().collect();
        assert_eq!(listed, orders_by_pairs(n), "n = {n}");
    }
}

/// What is above the least of four classes is any order of three: none related, two of them, one
/// below two, two below one, or a chain.
#[test]
fn the_shapes_of_four_classes() {
    let mut shapes: BTreeMap<(usize, usize), usize> = BTreeMap::new();
    let mut leasts = [0; 4];
    for place in 0..count(4) {
        let (policy, _) = orders::all().order(4, place, &TIMING);
        leasts[policy.least()] += 1;
        let covers: usize = policy.covers.iter().map(Vec::len).sum();
        let tops = policy.covers.iter().filter(|covers| covers.is_empty());
        *shapes.entry((covers, tops.count())).or_default() += 1;
    }
    assert_eq!(leasts, [19; 4]);
    let expected = [
        // Direct flows, and classes with nothing above: a chain; the least below two of which one is
        // below a third, or below one that is below two; below three; and a diamond.
        ((3, 1), 24),
        ((3, 2), 24 + 12),
        ((3, 3), 4),
        ((4, 1), 12),
    ];
    assert_eq!(shapes, BTreeMap::from(expected));
}

// ---------------------------------------------------------------------------
// The policies and their files.

/// "as policies with E = 4, minimums 0 and a given timing body"
#[test]
fn each_is_read_back() {
    let random = &mut Random::new(208);
    for (n, place) in (1..=4).flat_map(|n| (0..count(n)).map(move |place| (n, place))) {
        for timing in both_timings(random) {
            let (policy, refusal) = orders::all().order(n, place, &timing);
            assert_eq!(refusal, None);
            let file = file(orders::all(), n, place, &timing);
            assert_eq!(file.len(), 18 + 3 * n as usize + timing.len());
            assert_eq!(policy::read(&file), (policy.clone(), None));
            assert_eq!(file[file.len() - timing.len()..], timing);
            assert_eq!(policy.rows, rows(n)[place as usize]);
            assert_eq!((policy.epoch, EPOCH), (4, 4));
            assert_eq!(policy.minimums, vec![0; n as usize]);
            assert_eq!(policy.caps, vec![4; n as usize]);
            assert!(policy.in_range());
        }
    }
}

#[test]
fn two_files_byte_by_byte() {
    let two = file(orders::all(), 2, 1, &TIMING);
    #[rustfmt::skip]
    let expected = [
        3, 1, 16, 0, 5, 0, 2, 21, 0, 3, 0, 3, 24, 0, 10, 0,
        2, 3, 0, 2, 0,
        4, 0, 0,
        4, 2, 2, 2, 2, 2, 2, 2, 1, 2,
    ];
    assert_eq!(two, expected);
    let with_rank_gap = [9, 3, 1, 2, 3, 1, 2, 3, 1, 3, 2];
    let four = file(orders::all(), 4, 75, &with_rank_gap);
    #[rustfmt::skip]
    let expected = [
        3, 1, 16, 0, 9, 0, 2, 25, 0, 5, 0, 3, 30, 0, 11, 0,
        4, 15, 0, 14, 0, 12, 0, 8, 0,
        4, 0, 0, 0, 0,
        9, 3, 1, 2, 3, 1, 2, 3, 1, 3, 2,
    ];
    assert_eq!(four, expected);
}

// ---------------------------------------------------------------------------
// Refusals and places.

/// A refusal "gives the policy of no classes, and so, with no number, does a place past the last".
#[test]
fn a_refusal_gives_the_policy_of_no_classes() {
    let out_of_range = [4, 1, 1, 1, 1, 1, 1, 1, 1, 2];
    let cases: [(u32, u32, &[u8], Option<Refusal>); 7] = [
        (0, 0, &TIMING, Some(Refusal::SmallOrder)),
        (5, 0, &TIMING, Some(Refusal::SmallOrder)),
        (LAST, 0, &TIMING, Some(Refusal::SmallOrder)),
        (4, 0, &TIMING[..9], Some(Refusal::Lengths)),
        (4, 0, &out_of_range, Some(Refusal::Timing)),
        (4, 76, &TIMING, None),
        (4, LAST, &TIMING, None),
    ];
    for (n, place, timing, refusal) in cases {
        let expected = (Policy::of_no_classes(), refusal);
        assert_eq!(
            orders::all().order(n, place, timing),
            expected,
            "{n}, {place}"
        );
    }
    assert_eq!(Refusal::SmallOrder.number(), 20);
}

#[test]
fn n_is_1_to_4() {
    for n in [
        0,
        5,
        6,
        7,
        16,
        17,
        255,
        256,
        257,
        260,
        65_537,
        1 << 31,
        LAST - 1,
        LAST,
    ] {
        assert_eq!(answer(n, 0, &TIMING, 100), (0, 20), "n = {n}");
    }
    for n in 1..=4 {
        let bytes = needed(n, &TIMING);
        assert_eq!(answer(n, 0, &TIMING, 100), (bytes, 0), "n = {n}");
    }
}

#[test]
fn the_timing_has_ten_or_eleven_bytes() {
    // In range as far as it goes.
    let many: Vec<u8> = TIMING.iter().copied().chain([1; 300]).collect();
    for n in 1..=4 {
        for length in (0..=300).filter(|length| ![10, 11].contains(length)) {
            assert_eq!(answer(n, 0, &many[..length], 400), (0, 2), "{length}");
        }
        for length in [10, 11] {
            let bytes = 18 + 3 * n as usize + length;
            assert_eq!(answer(n, 0, &many[..length], 400), (bytes, 0), "{length}");
        }
    }
}

/// Of every value of every byte, 8 as reading a file with it says.
#[test]
fn the_timing_bytes_have_the_bounds_of_a_file() {
    let sound: [[u8; 10]; 3] = [
        [20, 7, 3, 3, 3, 3, 3, 3, 2, 5],
        TIMING,
        [255, 31, 31, 31, 31, 31, 31, 31, 30, 31],
    ];
    for ten in sound {
        for (place, value) in (0..11).flat_map(|place| (0..=255).map(move |value| (place, value))) {
            let mut timing = [&ten[..], &[1]].concat();
            timing[place] = value;
            for length in [10, 11] {
                let timing = &timing[..length];
                let fields = PolicyFields {
                    timing: timing.to_vec(),
                    ..PolicyFields::new(&[1], EPOCH, &[0], TIMING)
                };
                let expected = file_number(&fields.encode());
                assert_eq!(answer(1, 0, timing, 100).1, expected, "{timing:?}");
                assert!([0, 8].contains(&expected));
                assert_eq!(expected == 8, !timing_faults(timing).is_empty());
            }
        }
    }
}

#[test]
fn a_place_past_the_last_has_no_file_and_no_number() {
    for n in 1..=4 {
        let count = count(n);
        let bytes = needed(n, &TIMING);
        assert_eq!(answer(n, count - 1, &TIMING, bytes), (bytes, 0), "n = {n}");
        for place in [count, count + 1, 255, 256, 65_536, 1 << 31, LAST] {
            for room in [0, 1, bytes - 1, bytes, 100] {
                assert_eq!(answer(n, place, &TIMING, room), (0, 0), "{n}, {place}");
            }
        }
    }
}

#[test]
fn the_room_may_be_exactly_enough() {
    for (n, place) in (1..=4).flat_map(|n| (0..count(n)).map(move |place| (n, place))) {
        for timing in [&TIMING[..], &[4, 2, 2, 2, 2, 2, 2, 2, 1, 2, 1]] {
            let bytes = needed(n, timing);
            for room in [bytes, bytes + 1, bytes + 100] {
                let call = Call {
                    n,
                    place,
                    timing: timing.to_vec(),
                    room,
                };
                let (count, status, room) = ask(orders::all(), &call);
                assert_eq!((count, status), (bytes, 0));
                assert_eq!(room[..count], file(orders::all(), n, place, timing));
                assert!(room[count..].iter().all(|&byte| byte == UNWRITTEN));
            }
            for room in [0, 1, 16, bytes - 1] {
                assert_eq!(answer(n, place, timing, room), (0, 16), "{n}, {place}");
            }
        }
    }
}

/// "20 for n outside 1 to 4, asked first; then 2 or 8 for the timing, then the place." Then 16. Each
/// two troubles, of which the first is not what a call gets that has both.
fn troubles_out_of_order(orders: &Orders) -> Vec<[Trouble; 2]> {
    let nine = TIMING[..9].to_vec();
    let mut dead_time_1 = TIMING.to_vec();
    dead_time_1[1] = 1;
    let both = [&dead_time_1[..], &[1, 1]].concat();
    let sound = TIMING.to_vec();
    // n, the place, the timing, the room, and what is wrong.
    let cases = [
        (5, 0, &nine, 100, [Classes, Length]),
        (0, 0, &dead_time_1, 100, [Classes, Timing]),
        (LAST, LAST, &sound, 100, [Classes, Place]),
        (5, 0, &sound, 0, [Classes, Room]),
        (3, 8, &both, 100, [Length, Timing]),
        (3, 9, &nine, 100, [Length, Place]),
        (4, 75, &nine, 0, [Length, Room]),
        (4, 76, &dead_time_1, 100, [Timing, Place]),
        (4, 75, &dead_time_1, 0, [Timing, Room]),
        (4, 76, &sound, 0, [Place, Room]),
    ];
    let wrong = cases
        .into_iter()
        .filter(|(n, place, timing, room, troubles)| {
            let call = Call {
                n: *n,
                place: *place,
                timing: timing.to_vec(),
                room: *room,
            };
            assert_eq!(call.troubles(), troubles);
            let (count, status, after) = ask(orders, &call);
            let writes = after.iter().any(|&byte| byte != UNWRITTEN);
            count != 0 || status != troubles[0].status() || writes
        });
    wrong.map(|(.., troubles)| troubles).collect()
}

#[test]
fn every_two_troubles_at_once() {
    assert_eq!(troubles_out_of_order(orders::all()), [[Classes; 2]; 0]);
    let place_first = Orders::planted(Planted::PlaceBeforeTiming);
    let wrong = [[Length, Place], [Timing, Place]];
    assert_eq!(troubles_out_of_order(&place_first), wrong);
    let timing_first = Orders::planted(Planted::TimingBeforeClasses);
    let wrong = [[Classes, Length], [Classes, Timing]];
    assert_eq!(troubles_out_of_order(&timing_first), wrong);
}

// ---------------------------------------------------------------------------
// A search, and wrong rules that it must find.

/// So many generated calls are searched.
const CALLS: u64 = 20_000;

/// The law that a listing breaks, if it does.
fn broken_law(orders: &Orders, calls: u64) -> Option<String> {
    (1..=4)
        .find_map(|n| broken_law_of_list(orders, n))
        .or_else(|| (0..calls).find_map(|seed| broken_law_of_call(orders, &call(seed))))
}

/// Asked by the files alone: those at all places up to the count, and past it none.
fn broken_law_of_list(orders: &Orders, n: u32) -> Option<String> {
    let all = 0..count(n);
    let files: Vec<Vec<u8>> = all.map(|place| file(orders, n, place, &TIMING)).collect();
    let policies = files.iter().map(|file| policy::read(file));
    let taken: Vec<Policy> = policies
        .filter_map(|(policy, no)| no.is_none().then_some(policy))
        .collect();
    let broken = |law: &str| Some(format!("n = {n}: {law}"));
    if taken.len() < files.len() {
        return broken("each is taken by the reader");
    }
    let values: Vec<String> = taken.iter().map(|policy| value(&policy.rows)).collect();
    if !values.windows(2).all(|pair| pair[0] < pair[1]) {
        return broken("they come by rising value");
    }
    let listed: BTreeSet<Vec<u16>> = taken.into_iter().map(|policy| policy.rows).collect();
    if listed != orders_by_pairs(n as usize) {
        return broken("each legal order is there");
    }
    match file(orders, n, count(n), &TIMING).is_empty() {
        true => None,
        false => broken("past the last there is none"),
    }
}

fn broken_law_of_call(orders: &Orders, call: &Call) -> Option<String> {
    let (count, status, room) = ask(orders, call);
    let expected = call.expected();
    if (count, status) != expected {
        return Some(format!("{:?}: {count}, {status}", call.troubles()));
    }
    // Past the file, or of the whole room where there is none.
    let stays = room[count..].iter().all(|&byte| byte == UNWRITTEN);
    (!stays).then(|| "bytes past the file stay".to_string())
}

#[test]
fn no_law_is_broken() {
    assert_eq!(broken_law(orders::all(), CALLS), None);
}

/// Each wrong listing must be found by its list, and each wrong order of questions in a tenth of the calls.
#[test]
fn every_wrong_rule_is_found() {
    for planted in WRONG_ORDERS {
        let found = broken_law(&Orders::planted(planted), CALLS / 10);
        println!("{planted:?}: {found:?}");
        let law = match planted {
            Planted::RowZeroLeastSignificant => "n = 2: they come by rising value",
            Planted::NoLeastClassListed => "n = 2: each is taken by the reader",
            Planted::PlacesFromOne => "n = 1: each is taken by the reader",
            Planted::PlaceBeforeTiming => ", Place",
            _ => "[Classes, ",
        };
        assert!(
            found.is_some_and(|found| found.contains(law)),
            "{planted:?}"
        );
    }
}

/// A generator that never produces a case tests nothing.
#[test]
fn the_calls_meet_every_kind() {
    let mut met: BTreeMap<String, u64> = BTreeMap::new();
    for seed in 0..CALLS {
        for (name, is) in kinds(&call(seed)) {
            *met.entry(name).or_default() += u64::from(is);
        }
    }
    for (name, count) in &met {
        println!("{count:>9} {name}");
    }
    assert_eq!(met.len(), 79);
    let missed: Vec<_> = met.iter().filter(|(_, &count)| count == 0).collect();
    assert!(missed.is_empty(), "{missed:?}");
}

// ---------------------------------------------------------------------------
// Every order in its turn.

#[test]
fn every_order_is_run_and_every_class_of_each_is_searched() {
    let first = 1_000_000;
    let runs: BTreeSet<_> = (first..first + 2 * ORDERS)
        .map(|seed| run(seed).target)
        .map(|target| (target.n, target.place, target.ranks))
        .collect();
    assert_eq!(runs.len() as u64, 2 * ORDERS);
    let pairs: BTreeSet<_> = (first..first + 2 * ORDERS_BY_CLASS)
        .map(target)
        .map(|target| (target.n, target.place, target.class, target.ranks))
        .collect();
    assert_eq!(pairs.len() as u64, 2 * ORDERS_BY_CLASS);
}

/// With E = 4 and minimums 0 the least class has turns left at every turn's start of an epoch, and so
/// has it by the caps: the trial walk ends there unless the least class is the owner.
#[test]
fn the_dead_time_is_dropped_just_where_the_least_class_owns_the_turn() {
    let mut met = [0; 2];
    for seed in 0..4 * ORDERS {
        let run = run(seed);
        let file = run.target.fields(run.timing).encode();
        let (policy, refusal) = policy::read(&file);
        assert_eq!(refusal, None);
        for (owner, dropped) in owners(&run_fresh(&policy, &run.trace)) {
            assert_eq!(dropped, owner as usize == policy.least(), "seed {seed}");
            met[usize::from(dropped)] += 1;
        }
    }
    println!("{} kept, {} dropped", met[0], met[1]);
    assert!(met.iter().all(|&count| count > 1_000));
}

#[test]
fn no_leak_is_found_under_a_small_order() {
    let search = search_orders_planted(ORDINARY_PAIRS_OF_ORDERS, Planted::Nothing);
    println!("{}", search.report());
    assert_eq!(search.leak, None);
    assert_eq!(search.met.too_little(), [""; 0]);
    for name in NEVER_OF_ORDERS {
        assert_eq!(search.met.count(name), 0, "{name}");
    }
}

#[test]
fn planted_leaks_are_found_under_small_orders() {
    for planted in LEAKS {
        let shows = !NOT_UNDER_SMALL_ORDERS.contains(&planted);
        let pairs = match shows {
            true => PAIRS_OF_ORDERS_ENOUGH,
            // Two for each class of each order.
            false => 2 * ORDERS_BY_CLASS,
        };
        let search = search_orders_planted(pairs, planted);
        let found = search.leak.map(|leak| (leak.check, leak.what));
        println!("{planted:?} after {} pairs: {found:?}", search.met.pairs());
        assert_eq!(found.is_some(), shows, "{planted:?}");
    }
}
