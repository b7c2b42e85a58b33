//! "Two lists side by side": what L, or W-211's set of classes, is told of two lists that agree for it.

use std::ops::Range;

use vigambul_compare::calls::{Calls, Viewer};
use vigambul_model::leaks::{self, Check, Pair};
use vigambul_model::met::Met;
use vigambul_model::trace::LINE;

/// No number of a log or of an extract looks like this.
const FILLER: u32 = 0x5AA5_5AA5;

/// A leak: the comparison that told, and what it told.
pub type Leak = (Check, String);

/// Compares the pairs of some seeds, up to the first leak, which is told.
pub fn search(
    calls: &impl Calls,
    pair: impl Fn(u64) -> Pair,
    seeds: Range<u64>,
    met: &mut Met,
) -> Option<Leak> {
    for seed in seeds {
        let pair = pair(seed);
        if let Err((check, what)) = compare(calls, &pair, met) {
            let what = format!("seed {seed}, {}: {what}", viewer(&pair));
            return Some((check, what));
        }
    }
    None
}

/// Whom the extracts of a pair are for. A pair for a set asks the function for sets, also where the set is one
/// class.
pub fn viewer(pair: &Pair) -> Viewer {
    match pair.refused {
        Some(_) => Viewer::Set(pair.classes.0),
        None => Viewer::Class(pair.classes.0.trailing_zeros()),
    }
}

/// Whether L, or the set, is told the same by the extracts of both lists of a pair.
pub fn compare(calls: &impl Calls, pair: &Pair, met: &mut Met) -> Result<(), Leak> {
    let [left, right] = [0, 1].map(|side| run(calls, pair, side));
    let logs = [left?, right?];

    // What the lists have in common is all that is kept of either.
    let needed = LINE * leaks::purge(pair.seen, &pair.lists[0]).len();
    let longest = pair.lists[0].len().max(pair.lists[1].len());
    // "with room enough", of several sizes; and "given equal room, 16 meets both
    // or neither".
    let enough = [LINE * longest + 7, LINE * longest, needed];
    let short = (1..=4).map(|short| needed.saturating_sub(short));
    let mut seen = Vec::new();
    for room in enough.into_iter().chain(short).chain([0]) {
        let told = [0, 1].map(|side| Told::new(calls, pair, viewer(pair), side, &logs[side], room));
        if let Some((check, what)) = difference(&told) {
            return Err((check, format!("{what}, with room for {room}")));
        }
        let expected = if room < needed { 16 } else { 0 };
        if told[0].status != expected {
            let what = format!("both get {}, with room for {room}", told[0].status);
            return Err((Check::Room, what));
        }
        if room == needed {
            let [first, _] = told;
            seen = first.numbers;
        }
    }
    // A set with a class that does not exist is refused, whatever the list.
    if let Some(refused) = pair.refused.map(|set| Viewer::Set(set.0)) {
        let told = [0, 1].map(|side| Told::new(calls, pair, refused, side, &logs[side], needed));
        if let Some((check, what)) = difference(&told) {
            return Err((check, format!("{what}, for {refused}")));
        }
        let written = told[0].numbers.iter().any(|&number| number != FILLER);
        if told[0].status == 0 || told[0].count != 0 || written {
            let what = format!("both get {} for {refused}", told[0].status);
            return Err((Check::RefusedSet, what));
        }
    }
    met.add_pair(pair, [&logs[0], &logs[1]], &seen);
    Ok(())
}

/// The log of one list of a pair.
pub fn run(calls: &impl Calls, pair: &Pair, side: usize) -> Result<Vec<u32>, Leak> {
    let list = &pair.lists[side];
    let mut log = vec![FILLER; LINE * list.len()];
    match calls.run(&pair.file, list, &mut log) {
        0 => Ok(log),
        status => Err((Check::Run, format!("a run is refused with {status}"))),
    }
}

/// All that an extract with a certain room tells.
pub struct Told {
    pub count: usize,
    pub status: u32,
    /// The whole room, past the count too.
    pub numbers: Vec<u32>,
}

impl Told {
    pub fn new(
        calls: &impl Calls,
        pair: &Pair,
        viewer: Viewer,
        side: usize,
        log: &[u32],
        room: usize,
    ) -> Told {
        let mut numbers = vec![FILLER; room];
        let list = &pair.lists[side];
        let (count, status) = calls.extract(&pair.file, viewer, list, log, &mut numbers);
        Told {
            count,
            status,
            numbers,
        }
    }
}

/// "hand back the same count and write the same numbers"
fn difference([left, right]: &[Told; 2]) -> Option<Leak> {
    if left.status != right.status {
        let what = format!("statuses {} and {}", left.status, right.status);
        return Some((Check::Refusal, what));
    }
    if left.count != right.count {
        let what = format!("counts {} and {}", left.count, right.count);
        return Some((Check::Count, what));
    }
    let [left_numbers, right_numbers] = [&left.numbers, &right.numbers];
    let differ = |&place: &usize| left_numbers[place] != right_numbers[place];
    let place = (0..left_numbers.len()).find(differ)?;
    let what = format!(
        "number {place} is {:08X} and {:08X}",
        left_numbers[place], right_numbers[place]
    );
    Some((Check::of_number(place, left.count), what))
}
