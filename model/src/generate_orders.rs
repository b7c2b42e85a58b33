//! Calls for W-208's orders made from a seed, with the kinds that they are counted by; and each of
//! the orders in its turn, to be run and to be searched for leaks.

use std::sync::OnceLock;

use crate::generate::{sound_timing, trace_of_length, PolicyFields};
use crate::orders::{self, CLASS_COUNTS, EPOCH};
use crate::pairs::searched_timing;
use crate::policy::{self, TIMING_LENGTH};
use crate::random::Random;

/// "There are 1, 2, 9 and 76."
pub const COUNTS: [u32; 4] = [1, 2, 9, 76];
/// All of them.
pub const ORDERS: u64 = 88;
/// All their classes: 1, 4, 27 and 304.
pub const ORDERS_BY_CLASS: u64 = 336;

// ---------------------------------------------------------------------------
// Each order in its turn.

/// An order by its place, a class of it, and whether its timing has an eleventh byte.
#[derive(Clone, Copy, Debug, PartialEq, Eq)]
pub struct Target {
    pub n: u32,
    pub place: u32,
    pub class: usize,
    pub ranks: bool,
}

/// Each order once, with class 0, and each with each of its classes.
fn targets() -> &'static [Vec<Target>; 2] {
    static TARGETS: OnceLock<[Vec<Target>; 2]> = OnceLock::new();
    TARGETS.get_or_init(|| {
        let target = |n, place, class| Target {
            n,
            place,
            class,
            ranks: false,
        };
        let places = CLASS_COUNTS.flat_map(|n| (0..count(n)).map(move |place| (n, place)));
        let classes = |(n, place)| (0..n as usize).map(move |class| target(n, place, class));
        let all: Vec<Target> = places.flat_map(classes).collect();
        let once = |target: &&Target| target.class == 0;
        [all.iter().filter(once).copied().collect(), all]
    })
}

/// The one whose turn it is; in every second round with an eleventh timing byte.
fn in_turn(targets: &[Target], seed: u64) -> Target {
    let count = targets.len() as u64;
    Target {
        ranks: seed / count % 2 == 1,
        ..targets[(seed % count) as usize]
    }
}

/// The order and the class of a pair of lists. In as many seeds as there are classes of orders, each
/// class of each order has its turn.
pub fn target(seed: u64) -> Target {
    in_turn(&targets()[1], seed)
}

impl Target {
    /// A policy file's fields under a timing.
    pub fn fields(&self, timing: Vec<u8>) -> PolicyFields {
        let orders = orders::all().of(self.n).unwrap_or_default();
        let rows = &orders[self.place as usize];
        PolicyFields {
            n: self.n as u8,
            rows: rows.clone(),
            epoch: EPOCH,
            minimums: vec![0; rows.len()],
            timing,
        }
    }
}

/// A rank gap at the end of ten timing bytes, often at its edges.
pub(crate) fn with_rank_gap(random: &mut Random, timing: [u8; TIMING_LENGTH]) -> Vec<u8> {
    let dead_time = timing[1];
    let any = random.between(1, usize::from(dead_time)) as u8;
    let gap = *random.pick(&[1, dead_time, any]);
    [&timing[..], &[gap]].concat()
}

/// An order to be run: a timing body of ten bytes or eleven, and a trace.
#[derive(Clone, Debug, PartialEq, Eq)]
pub struct Run {
    pub target: Target,
    pub timing: Vec<u8>,
    pub trace: Vec<u32>,
}

/// Short turns, so that so many ticks have many of them.
const MOST_TICKS: usize = 240;

/// The run of a seed. In as many seeds as there are orders, each has its turn.
pub fn run(seed: u64) -> Run {
    let target = in_turn(&targets()[0], seed);
    let random = &mut Random::new(seed);
    let ten = searched_timing(random, MOST_TICKS);
    let timing = match target.ranks {
        true => with_rank_gap(random, ten),
        false => ten.to_vec(),
    };
    let (policy, _) = policy::read(&target.fields(timing.clone()).encode());
    let length = random.between(200, 600);
    Run {
        target,
        timing,
        trace: trace_of_length(random, &policy, length),
    }
}

// ---------------------------------------------------------------------------
// Calls.

/// What an order is asked by, and the room for its file.
#[derive(Clone, Debug, PartialEq, Eq)]
pub struct Call {
    pub n: u32,
    pub place: u32,
    pub timing: Vec<u8>,
    pub room: usize,
}

/// How many orders of n classes there are; none where n is not 1 to 4.
pub fn count(n: u32) -> u32 {
    let place = n.checked_sub(1).map(|place| place as usize);
    let count = place.and_then(|place| COUNTS.get(place));
    count.copied().unwrap_or(0)
}

/// The number of a file's bytes: the contents table, the order body, the turns body and the timing
/// body. That of the most classes where n is not 1 to 4.
pub fn needed(n: u32, timing: &[u8]) -> usize {
    let n = match CLASS_COUNTS.contains(&n) {
        true => n as usize,
        false => COUNTS.len(),
    };
    16 + (1 + 2 * n) + (1 + n) + timing.len()
}

/// A call made from a seed. Some have nothing wrong, most have one thing or two.
pub fn call(seed: u64) -> Call {
    let random = &mut Random::new(seed);
    let n = match random.percent(25) {
        true => wrong_n(random),
        false => random.between(1, COUNTS.len()) as u32,
    };
    let place = match (random.percent(30), count(n)) {
        (true, count) => place_past(random, count),
        (false, 0) => random.below(100) as u32,
        (false, count) => place_below(random, count),
    };
    let timing = match random.below(10) {
        0 | 1 => timing_of_wrong_length(random),
        2..=4 => timing_out_of_range(random),
        _ => any_timing(random),
    };
    let needed = needed(n, &timing);
    let room = match random.percent(30) {
        true => less_room(random, needed),
        false => needed + more_room(random),
    };
    Call {
        n,
        place,
        timing,
        room,
    }
}

/// A number of classes that 20 refuses: at an edge, or 1 to 4 where upper bits are lost.
fn wrong_n(random: &mut Random) -> u32 {
    let low = random.between(1, COUNTS.len()) as u32;
    match random.below(8) {
        0 | 1 => 0,
        2 | 3 => 5,
        4 => u32::MAX,
        5 => low + (1 << *random.pick(&[8, 16, 31])),
        6 => random.between(6, 64) as u32,
        _ => (random.next() as u32).max(5),
    }
}

fn place_below(random: &mut Random, count: u32) -> u32 {
    match random.below(4) {
        0 => 0,
        1 => count - 1,
        _ => random.below(count as usize) as u32,
    }
}

/// A place past the last of so many: at an edge, or below it where upper bits are lost.
fn place_past(random: &mut Random, count: u32) -> u32 {
    let low = random.below(count as usize) as u32;
    match random.below(8) {
        0..=2 => count,
        3 => u32::MAX,
        4 | 5 => low + (1 << *random.pick(&[8, 16, 31])),
        6 => count + random.below(100) as u32,
        _ => (random.next() as u32).max(count),
    }
}

/// Ten timing bytes that nothing refuses, and the same with an eleventh.
pub fn both_timings(random: &mut Random) -> [Vec<u8>; 2] {
    let ten = sound_timing(random);
    [ten.to_vec(), with_rank_gap(random, ten)]
}

/// One of the two.
fn any_timing(random: &mut Random) -> Vec<u8> {
    let [ten, eleven] = both_timings(random);
    match random.percent(50) {
        true => eleven,
        false => ten,
    }
}

/// Timing bytes of a length that no timing body has, which begin as one does, in range or not.
fn timing_of_wrong_length(random: &mut Random) -> Vec<u8> {
    let mut timing = match random.percent(40) {
        true => timing_out_of_range(random),
        false => any_timing(random),
    };
    let length = match random.below(8) {
        0 => 0,
        1 | 2 => 9,
        3 | 4 => 12,
        // 10 and 11 where upper bits are lost.
        5 => random.between(10, 11) + (1 << *random.pick(&[8, 16])),
        6 => *random.pick(&[20, 21, 22, 26, 27, 42, 43]),
        _ => random.below(9),
    };
    let last = random.between(1, 2) as u8;
    timing.resize(length, last);
    timing
}

/// Ten timing bytes or eleven, one of them or two out of range.
fn timing_out_of_range(random: &mut Random) -> Vec<u8> {
    loop {
        let mut timing = any_timing(random);
        let [turn, dead, response] = [0, 1, 9].map(|place| timing[place]);
        let edges = [0, 0, 1, 32, 255, turn, dead, dead + 1, response];
        for _ in 0..random.between(1, 5).div_ceil(4) {
            let place = random.below(timing.len());
            timing[place] = *random.pick(&edges);
        }
        if !timing_faults(&timing).is_empty() {
            return timing;
        }
    }
}

/// How much more room there is than is needed.
fn more_room(random: &mut Random) -> usize {
    match random.below(4) {
        0 | 1 => 0,
        2 => 1,
        _ => random.below(300),
    }
}

/// Less room than is needed: at an edge, or enough for another order or timing.
fn less_room(random: &mut Random, needed: usize) -> usize {
    match random.below(6) {
        0 => 0,
        1..=3 => needed - 1,
        4 => needed - 3,
        _ => random.below(needed),
    }
}

// ---------------------------------------------------------------------------
// What is wrong with a call, and what it gets.

/// What can be wrong with a call, in the order in which it is asked: "20 for n outside 1 to 4, asked
/// first; then 2 or 8 for the timing, then the place". 16 is asked last.
#[derive(Clone, Copy, Debug, PartialEq, Eq)]
pub enum Trouble {
    Classes,
    Length,
    Timing,
    Place,
    Room,
}

impl Trouble {
    pub const ALL: [Trouble; 5] = [
        Trouble::Classes,
        Trouble::Length,
        Trouble::Timing,
        Trouble::Place,
        Trouble::Room,
    ];

    /// The status of a call whose first trouble it is.
    pub fn status(self) -> u32 {
        match self {
            Trouble::Classes => 20,
            Trouble::Length => 2,
            Trouble::Timing => 8,
            // "and so, with no number, does a place past the last"
            Trouble::Place => 0,
            Trouble::Room => 16,
        }
    }

    fn name(self) -> &'static str {
        match self {
            Trouble::Classes => "20",
            Trouble::Length => "2",
            Trouble::Timing => "8",
            Trouble::Place => "a place past the last",
            Trouble::Room => "16",
        }
    }
}

impl Call {
    /// Whether it has a trouble, whatever others it has. Where n is not 1 to 4, a place is past the
    /// last if it is so for every n, and the room is too little if it is so for the most classes.
    fn has(&self, trouble: Trouble) -> bool {
        let wrong_n = !CLASS_COUNTS.contains(&self.n);
        let last = *CLASS_COUNTS.end();
        match trouble {
            Trouble::Classes => wrong_n,
            Trouble::Length => ![10, 11].contains(&self.timing.len()),
            Trouble::Timing => !timing_faults(&self.timing).is_empty(),
            Trouble::Place => self.place >= count(if wrong_n { last } else { self.n }),
            Trouble::Room => self.room < needed(self.n, &self.timing),
        }
    }

    /// All that is wrong with it, in the order in which it is asked.
    pub fn troubles(&self) -> Vec<Trouble> {
        let all = Trouble::ALL.into_iter();
        all.filter(|&trouble| self.has(trouble)).collect()
    }

    /// The number of bytes and the status that it gets.
    pub fn expected(&self) -> (usize, u32) {
        match self.troubles().first() {
            None => (needed(self.n, &self.timing), 0),
            Some(trouble) => (0, trouble.status()),
        }
    }
}

/// Everything by which 8 refuses a timing body: "Turn length 2 to 255, dead time 2 to 31 and below
/// the turn length, each gap 1 to the dead time, answer delay 2 to the dead time, column delay 1 to
/// the answer delay less 1"; W-206: "the rank gap (1 to the dead time)". A turn length below 2 is not
/// above any dead time that is taken. Nothing is asked of bytes that are not even ten.
pub fn timing_faults(timing: &[u8]) -> Vec<&'static str> {
    let Some((ten, more)) = timing.split_first_chunk::<TIMING_LENGTH>() else {
        return Vec::new();
    };
    let [turn, dead, gaps @ .., column, response] = *ten;
    let mut faults = vec![
        ("a dead time below 2", dead < 2),
        ("a dead time above 31", dead > 31),
        ("a turn length not above the dead time", turn <= dead),
        ("an answer delay below 2", response < 2),
        ("an answer delay above the dead time", response > dead),
        ("a column delay of 0", column < 1),
        (
            "a column delay not below the answer delay",
            column >= response,
        ),
    ];
    let gaps = gaps.iter().chain(more.first());
    for (&gap, [of_0, above]) in gaps.zip(GAP_FAULTS) {
        faults.extend([(of_0, gap < 1), (above, gap > dead)]);
    }
    let faults = faults.into_iter().filter(|&(_, is)| is);
    faults.map(|(name, _)| name).collect()
}

/// What can be wrong with a gap, the rank gap last.
const GAP_FAULTS: [[&str; 2]; 7] = [
    [
        "a gap read-read of 0",
        "a gap read-read above the dead time",
    ],
    [
        "a gap read-write of 0",
        "a gap read-write above the dead time",
    ],
    [
        "a gap write-read of 0",
        "a gap write-read above the dead time",
    ],
    [
        "a gap write-write of 0",
        "a gap write-write above the dead time",
    ],
    [
        "a gap after a read of 0",
        "a gap after a read above the dead time",
    ],
    [
        "a gap after a write of 0",
        "a gap after a write above the dead time",
    ],
    ["a rank gap of 0", "a rank gap above the dead time"],
];

/// What can be alone: a dead time or an answer delay below 2 leaves no number to another byte.
const OTHER_FAULTS_ALONE: [&str; 5] = [
    "a dead time above 31",
    "a turn length not above the dead time",
    "an answer delay above the dead time",
    "a column delay of 0",
    "a column delay not below the answer delay",
];

// ---------------------------------------------------------------------------
// Kinds, for counts of what was met.

/// Every kind of call, and whether this one is of it.
pub fn kinds(call: &Call) -> Vec<(String, bool)> {
    let troubles = call.troubles();
    let mut kinds = kinds_of_troubles(&troubles);
    kinds.extend(kinds_of_classes(call, &troubles));
    kinds.extend(kinds_of_places(call, &troubles));
    kinds.extend(kinds_of_timings(call, &troubles));
    kinds.extend(kinds_of_rooms(call, &troubles));
    kinds
}

/// Calls by the status that they get, and by each two troubles that they have and no others.
fn kinds_of_troubles(troubles: &[Trouble]) -> Vec<(String, bool)> {
    let mut kinds = vec![("a file".to_string(), troubles.is_empty())];
    for (place, first) in Trouble::ALL.into_iter().enumerate() {
        let name = first.name();
        kinds.push((name.to_string(), troubles.first() == Some(&first)));
        kinds.push((format!("{name} alone"), troubles == [first]));
        for second in &Trouble::ALL[place + 1..] {
            let name = format!("{name} before {} alone", second.name());
            kinds.push((name, troubles == [first, *second]));
        }
    }
    kinds
}

fn named<const N: usize>(kinds: [(&str, bool); N]) -> Vec<(String, bool)> {
    kinds.map(|(name, is)| (name.to_string(), is)).to_vec()
}

/// Whether a number is below a bound if it is kept in so many bits, and else not.
fn is_below_in(bits: u32, number: u32, bound: u32) -> bool {
    number >= bound && number & ((1 << bits) - 1) < bound
}

fn kinds_of_classes(call: &Call, troubles: &[Trouble]) -> Vec<(String, bool)> {
    let alone = troubles == [Trouble::Classes];
    let taken = troubles.is_empty();
    // n from 1 to 4 is n - 1 below 4.
    let in_bits = |bits| alone && is_below_in(bits, call.n.wrapping_sub(1), 4);
    named([
        ("a file of 1 class", taken && call.n == 1),
        ("a file of 2 classes", taken && call.n == 2),
        ("a file of 3 classes", taken && call.n == 3),
        ("a file of 4 classes", taken && call.n == 4),
        ("20 alone, n = 0", alone && call.n == 0),
        ("20 alone, n = 5", alone && call.n == 5),
        ("20 alone, n = 2^32 - 1", alone && call.n == u32::MAX),
        ("20 alone, n is 1 to 4 in 8 bits", in_bits(8)),
        ("20 alone, n is 1 to 4 in 16 bits", in_bits(16)),
        ("20 alone, n is 1 to 4 in 31 bits", in_bits(31)),
    ])
}

fn kinds_of_places(call: &Call, troubles: &[Trouble]) -> Vec<(String, bool)> {
    let several = call.n > 2;
    let taken = several && troubles.is_empty();
    let past = several && troubles == [Trouble::Place];
    let count = count(call.n);
    let in_bits = |bits| past && is_below_in(bits, call.place, count);
    let between = taken && call.place > 0 && call.place + 1 < count;
    named([
        ("a file, the first place", taken && call.place == 0),
        ("a file, a place between", between),
        ("a file, the last place", taken && call.place + 1 == count),
        (
            "no file, the place after the last",
            past && call.place == count,
        ),
        ("no file, a later place", past && call.place > count),
        ("no file, place 2^32 - 1", past && call.place == u32::MAX),
        ("no file, a place below the count in 8 bits", in_bits(8)),
        ("no file, a place below the count in 16 bits", in_bits(16)),
        ("no file, a place below the count in 31 bits", in_bits(31)),
    ])
}

fn kinds_of_timings(call: &Call, troubles: &[Trouble]) -> Vec<(String, bool)> {
    let length = call.timing.len();
    let taken = troubles.is_empty();
    let wrong_length = troubles == [Trouble::Length];
    let in_bits = |bits: u32| wrong_length && [10, 11].contains(&(length % (1 << bits)));
    let out_of_range = troubles == [Trouble::Timing];
    let faults = timing_faults(&call.timing);
    let has = |name: &str| out_of_range && faults.contains(&name);
    let mut kinds = named([
        ("a file, ten timing bytes", taken && length == 10),
        ("a file, eleven timing bytes", taken && length == 11),
        ("2 alone, no timing bytes", wrong_length && length == 0),
        ("2 alone, 9 timing bytes", wrong_length && length == 9),
        ("2 alone, 12 timing bytes", wrong_length && length == 12),
        ("2 alone, 10 or 11 timing bytes in 4 bits", in_bits(4)),
        ("2 alone, 10 or 11 timing bytes in 8 bits", in_bits(8)),
        ("2 alone, 10 or 11 timing bytes in 16 bits", in_bits(16)),
        ("8 alone, ten timing bytes", out_of_range && length == 10),
        ("8 alone, eleven timing bytes", out_of_range && length == 11),
        ("8 alone, a dead time below 2", has("a dead time below 2")),
        (
            "8 alone, an answer delay below 2",
            has("an answer delay below 2"),
        ),
    ]);
    let alone = GAP_FAULTS.as_flattened().iter().chain(&OTHER_FAULTS_ALONE);
    for name in alone {
        kinds.push((
            format!("8 alone, {name} alone"),
            has(name) && faults.len() == 1,
        ));
    }
    kinds
}

fn kinds_of_rooms(call: &Call, troubles: &[Trouble]) -> Vec<(String, bool)> {
    let needed = needed(call.n, &call.timing);
    let taken = troubles.is_empty();
    let short = troubles == [Trouble::Room];
    let eleven = call.timing.len() == 11;
    let no_file = troubles == [Trouble::Place, Trouble::Room];
    named([
        (
            "a file, room exactly as needed",
            taken && call.room == needed,
        ),
        (
            "a file, room for one more",
            taken && call.room == needed + 1,
        ),
        (
            "a file, room for many more",
            taken && call.room > needed + 100,
        ),
        (
            "16 alone, room short by 1",
            short && call.room == needed - 1,
        ),
        (
            "16 alone, room for ten timing bytes of eleven",
            short && eleven && call.room == needed - 1,
        ),
        (
            "16 alone, room for a class less",
            short && call.room == needed - 3,
        ),
        ("16 alone, no room", short && call.room == 0),
        ("no file, no room", no_file && call.room == 0),
    ])
}
