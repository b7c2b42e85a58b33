//! "Two lists side by side", through the built library: two lists that agree
//! for a class L, or for W-211's set of classes, are run, and the extracts of their logs
//! for it are compared.
//!
//! The pairs, the planted leaks and what must be met are those of the model's own
//! search; the comparison is the tests' own (`common/lists.rs`). Through the library
//! no state is seen, and every list is one run.

mod common;

use std::hash::{DefaultHasher, Hash, Hasher};
use std::ops::Range;

use common::lists::{compare, run, search, viewer, Leak, Told};
use common::*;
use vigambul_compare::calls::{Calls, Library, Model};
use vigambul_compare::wrong::{WithWrongExtract, Wrong, LEAKS, LEAKS_OF_SETS, OTHERS_OF_SETS};
use vigambul_model::class_set::ClassSet;
use vigambul_model::extract::Seen;
use vigambul_model::generate::{malformed_word, sound_offer};
use vigambul_model::leaks::{
    self, Check, Cut, Pair, ORDINARY_PAIRS, ORDINARY_PAIRS_OF_SETS, PAIRS_ENOUGH,
    PAIRS_OF_SETS_ENOUGH,
};
use vigambul_model::met::Met;
use vigambul_model::planted::{self, Planted};
use vigambul_model::random::Random;
use vigambul_model::state;
use vigambul_model::trace::{Word, LINE};

// ---------------------------------------------------------------------------
// The tests.

fn check_library(pair: fn(u64) -> Pair, count: u64, mut met: Met) {
    let pairs = seeds("VIGAMBUL_PAIRS", count);
    assert_eq!(search(&Library, pair, pairs, &mut met), None);
    println!("{}", met.report());
    assert_eq!(met.too_little(), [""; 0]);
}

#[test]
fn the_library_shows_no_leak() {
    check_library(leaks::pair, ORDINARY_PAIRS, Met::default());
}

#[test]
fn the_library_shows_no_leak_to_sets_of_classes() {
    check_library(leaks::pair_of_set, ORDINARY_PAIRS_OF_SETS, Met::of_sets());
}

/// Each planted leak must be found in these: a tenth of the pairs.
fn pairs_enough() -> Range<u64> {
    seeds("VIGAMBUL_PAIRS", PAIRS_ENOUGH)
}

/// The same of pairs for sets of classes.
fn pairs_of_sets_enough() -> Range<u64> {
    seeds("VIGAMBUL_PAIRS", PAIRS_OF_SETS_ENOUGH)
}

/// The same search finds a leak in something that leaks.
fn finds(calls: &impl Calls, pair: impl Fn(u64) -> Pair, name: &str) -> Option<Check> {
    let mut met = Met::default();
    let leak = search(calls, pair, pairs_enough(), &mut met);
    println!("{name} after {} pairs: {leak:?}", met.pairs() + 1);
    assert!(leak.is_some(), "{name} was not found");
    leak.map(|(check, _)| check)
}

/// What is told by each pair for a set that tells the two lists apart, with its place. What both get alike, such
/// as 16 where there is room, is wrong and tells nothing.
fn leaks_to_sets<'a>(
    calls: &'a impl Calls,
    pair: impl Fn(u64) -> Pair + 'a,
    seeds: Range<u64>,
) -> impl Iterator<Item = (usize, Leak)> + 'a {
    let told = move |seed: u64| compare(calls, &pair(seed), &mut Met::of_sets()).err();
    let alike = [Check::Room, Check::RefusedSet];
    seeds
        .enumerate()
        .filter_map(move |(place, seed)| Some((place, told(seed)?)))
        .filter(move |(_, (check, _))| !alike.contains(check))
}

fn finds_for_sets(calls: &impl Calls, pair: impl Fn(u64) -> Pair, name: &str) {
    let leak = leaks_to_sets(calls, pair, pairs_of_sets_enough()).next();
    println!("{name}, the first and its place: {leak:?}");
    assert!(leak.is_some(), "{name} was not found");
}

#[test]
fn every_planted_leak_of_the_model_is_found() {
    for planted in planted::LEAKS {
        let check = match planted {
            // A refused run of the library leaves no state to go on from.
            Planted::RefusedRunMakesItsCalls => continue,
            // Turns left decide no owner in a list from fresh, so no log shows them.
            Planted::HomeChargedIfHigherWaits => continue,
            // Each class's first activate after a hidden turn sets the one count to 0.
            Planted::OneCount => continue,
            _ => {
                let pair = |seed| leaks::pair_planted(seed, planted);
                finds(&Model(planted), pair, &format!("{planted:?}"))
            }
        };
        let by_the_run = planted == Planted::RunAnswersForItsLastWord;
        assert_eq!(check == Some(Check::Run), by_the_run, "{planted:?}");
    }
}

/// Each wrong extract that leaks, and the comparison that tells it.
#[test]
fn every_extract_that_leaks_is_found() {
    for wrong in LEAKS {
        let expected = match wrong {
            Wrong::KeepsMalformedWords
            | Wrong::KeepsOffersOfHiddenClasses
            | Wrong::KeepsOffersOfMissingClasses => Check::Count,
            Wrong::ShowsHiddenCommands | Wrong::ShowsThatWiresAreBusy => Check::Command,
            Wrong::ShowsHiddenAnswers => Check::Answer,
            Wrong::ShowsHiddenOwners | Wrong::ShowsHiddenDeadTimes | Wrong::ShowsHiddenWalks => {
                Check::Turn
            }
            // Both lists have too little room, or both more than they need.
            Wrong::AsksRoomForAll | Wrong::SeesClassesAbove => Check::Room,
            _ => panic!("{wrong:?} is not said to leak"),
        };
        let check = finds(&WithWrongExtract(wrong), leaks::pair, &format!("{wrong:?}"));
        assert_eq!(check, Some(expected), "{wrong:?}");
    }
}

#[test]
fn every_planted_leak_to_sets_is_found() {
    for planted in planted::LEAKS_OF_SETS {
        let pair = |seed| leaks::pair_of_set_planted(seed, planted);
        finds_for_sets(&Model(planted), pair, &format!("{planted:?}"));
    }
}

/// What leaks to one class leaks to sets too.
#[test]
fn every_extract_that_leaks_to_sets_is_found() {
    for wrong in LEAKS.into_iter().chain(LEAKS_OF_SETS) {
        let calls = WithWrongExtract(wrong);
        finds_for_sets(&calls, leaks::pair_of_set, &format!("{wrong:?}"));
    }
}

/// They are wrong, which the comparison with the model tells, and yet no list tells more than it may.
#[test]
fn the_other_wrong_extracts_for_sets_do_not_leak() {
    for wrong in OTHERS_OF_SETS {
        let calls = WithWrongExtract(wrong);
        let pairs = seeds("VIGAMBUL_PAIRS", PAIRS_OF_SETS_ENOUGH / 5);
        let leak = leaks_to_sets(&calls, leaks::pair_of_set, pairs).next();
        assert_eq!(leak, None, "{wrong:?}");
    }
}

#[test]
fn nothing_is_found_where_nothing_is_planted() {
    let met = &mut Met::default();
    let model = Model(Planted::Nothing);
    assert_eq!(search(&model, leaks::pair, pairs_enough(), met), None);
    // The extract whose wrong cousins are found.
    let right = WithWrongExtract(Wrong::Nothing);
    assert_eq!(search(&right, leaks::pair, pairs_enough(), met), None);
    let (met, pairs) = (&mut Met::of_sets(), pairs_of_sets_enough());
    assert_eq!(search(&model, leaks::pair_of_set, pairs.clone(), met), None);
    assert_eq!(search(&right, leaks::pair_of_set, pairs, met), None);
}

// ---------------------------------------------------------------------------
// Refused ticks.

/// Ticks that get 12 in each of the two lists of the pair that has them.
const REFUSED_TICKS: usize = 60;

/// A pair of lists that go on after the last tick. L is class 0 of the diamond:
/// 2 may flow to it, 1 and 3 may not.
fn pair_past_the_last_tick() -> Pair {
    let file = diamond();
    let policy = accepted(&file);
    let (start, _) = state::fresh(&policy);
    let classes = ClassSet::of(0);
    let seen_by_l = Seen::by(&policy, classes);
    let seen = |number: u32| match Word::of(number) {
        Word::Offer(request) => seen_by_l.has(usize::from(request.class)),
        _ => true,
    };
    let random = &mut Random::new(12);
    let mut left = long::numbers_to_the_last_tick(8, &file);
    // The neighbours of the second list ask at other times, and seldom.
    let mut right = Vec::with_capacity(left.len());
    for &number in &left {
        if seen(number) {
            right.push(number);
        }
        if random.below(40) == 0 {
            right.push(sound_offer(random, 3, 8));
        }
    }
    for _ in 0..REFUSED_TICKS {
        let of_below = 2 * random.below(2) as u8;
        let shared = sound_offer(random, of_below, 8);
        for (list, neighbour) in [(&mut left, 1), (&mut right, 3)] {
            if random.below(2) == 0 {
                list.extend([sound_offer(random, neighbour, 8), malformed_word(random)]);
            }
            list.extend([shared, 0]);
        }
    }
    Pair {
        file,
        policy,
        classes,
        seen: seen_by_l,
        refused: None,
        start,
        lists: [left, right],
        cuts: [Cut::OneRun; 2],
    }
}

/// What an extract with room for just what is kept told of a list that is too
/// long to hold it twice: its count, its refused ticks, and a number for each
/// block of 65,536 lines.
#[derive(Debug, PartialEq, Eq)]
struct ToldOfMany {
    count: usize,
    refused_ticks: usize,
    blocks: Vec<u64>,
}

impl ToldOfMany {
    fn new(calls: &impl Calls, pair: &Pair, side: usize, needed: usize) -> ToldOfMany {
        let log = run(calls, pair, side).expect("the run is taken");
        let told = Told::new(calls, pair, viewer(pair), side, &log, needed);
        assert_eq!(told.status, 0);
        let lines = told.numbers.chunks_exact(LINE);
        let block = |numbers: &[u32]| {
            let mut hasher = DefaultHasher::new();
            numbers.hash(&mut hasher);
            hasher.finish()
        };
        ToldOfMany {
            count: told.count,
            refused_ticks: lines.filter(|line| line[0] == 12).count(),
            blocks: told.numbers.chunks(LINE * 65_536).map(block).collect(),
        }
    }
}

#[test]
fn two_lists_with_refused_ticks_tell_the_same() {
    let pair = pair_past_the_last_tick();
    let purged = [0, 1].map(|side| leaks::purge(pair.seen, &pair.lists[side]));
    assert!(purged[0] == purged[1], "the lists agree");
    assert!(pair.lists[0].len() != pair.lists[1].len());
    let needed = LINE * purged[0].len();
    let told = [0, 1].map(|side| ToldOfMany::new(&Library, &pair, side, needed));
    assert_eq!(told[0].count, needed);
    assert_eq!(told[0].refused_ticks, REFUSED_TICKS);
    assert_eq!(told[0], told[1]);
}
