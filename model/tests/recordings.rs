//! W-204, "Wires against cores": recordings held together by cases made by hand and by a search of
//! generated pairs, and the recordings of logs by runs that are cut.

mod common;

use std::collections::BTreeMap;

use common::*;
use vigambul_model::generate::any_log;
use vigambul_model::generate_recordings::{damaged_log, kinds, pair, Pair, Run, Stretch, DAMAGES};
use vigambul_model::planted::{Planted, WRONG_CHECKS, WRONG_RECORDINGS};
use vigambul_model::random::Random;
use vigambul_model::recordings::{
    match_planted, match_recordings, recording, recording_planted, rest, soundness, Matched,
    Recording, Soundness,
};
use vigambul_model::refusal::{status, Refusal};
use vigambul_model::state::LAST_CYCLE;

use Recording::{Cores, Wires};

/// What stands in a slice before a recording is written into it.
const UNWRITTEN: u32 = 77;

/// The last cycle that has 32 bits.
const LAST: u32 = u32::MAX;

// ---------------------------------------------------------------------------
// The check, by hand.

/// A case's name, the two recordings, the delay, and what is expected: the status, which recording, and where
/// the rest begins.
type Case<'a> = (
    &'a str,
    &'a [u32],
    &'a [u32],
    u8,
    (u32, Option<Recording>, usize),
);

fn check(cases: &[Case]) {
    for &(name, wires, cores, delay, (status, which, at)) in cases {
        let matched = match_recordings(wires, cores, delay);
        assert_eq!(matched, Matched { status, which, at }, "{name}");
        let sound = match (status, which) {
            (0, _) => Soundness::Sound,
            (_, which) => Soundness::Unsound(which.expect("the unsound one")),
        };
        assert_eq!(soundness(wires, cores, delay), sound, "{name}");
        assert_eq!(sound.status(), status, "{name}");
        let expected = match (status, which) {
            (0, Some(Wires)) => &wires[at..],
            (0, Some(Cores)) => &cores[at..],
            _ => &[],
        };
        assert_eq!(rest(wires, cores, delay), expected, "{name}");
    }
}

/// "if all have partners, an empty rest of the wires'"
#[test]
fn all_events_have_partners() {
    #[rustfmt::skip]
    let cases: &[Case] = &[
        ("two empty recordings", &[], &[], 2, (0, None, 0)),
        ("an activate and its answer", &[3, 9], &[5, 9], 2, (0, None, 2)),
        ("three of them, with other words", &[0, 1, 4, 2, 5, 3], &[2, 1, 6, 2, 7, 3], 2, (0, None, 6)),
        ("one word many times", &[0, 9, 1, 9, 2, 9, 3, 9], &[2, 9, 3, 9, 4, 9, 5, 9], 2, (0, None, 8)),
        ("words of 0", &[0, 0, 1, 0], &[7, 0, 8, 0], 7, (0, None, 4)),
        ("words that fall", &[0, LAST, 1, 5, 2, 0], &[1, LAST, 2, 5, 3, 0], 1, (0, None, 6)),
        ("the delay 0", &[0, 4, 9, 5], &[0, 4, 9, 5], 0, (0, None, 4)),
        ("the delay 255", &[1, 4, 9, 5], &[256, 4, 264, 5], 255, (0, None, 4)),
    ];
    check(cases);
}

/// "hands back the rest of whichever recording holds the first event without a partner, beginning at it"
#[test]
fn the_rest_begins_at_the_first_event_without_a_partner() {
    #[rustfmt::skip]
    let cases: &[Case] = &[
        ("no wires", &[], &[5, 9, 6, 9], 2, (0, Some(Cores), 0)),
        ("no cores", &[3, 9, 4, 9], &[], 2, (0, Some(Wires), 0)),
        ("the first answer dropped", &[0, 1, 4, 2, 5, 3], &[6, 2, 7, 3], 2, (0, Some(Wires), 0)),
        ("an answer in the middle dropped", &[0, 1, 4, 2, 5, 3], &[2, 1, 7, 3], 2, (0, Some(Wires), 2)),
        ("the last answer dropped", &[0, 1, 4, 2, 5, 3], &[2, 1, 6, 2], 2, (0, Some(Wires), 4)),
        ("the first activate dropped", &[4, 2, 5, 3], &[2, 1, 6, 2, 7, 3], 2, (0, Some(Cores), 0)),
        ("an activate in the middle dropped", &[0, 1, 5, 3], &[2, 1, 6, 2, 7, 3], 2, (0, Some(Cores), 2)),
        ("the last activate dropped", &[0, 1, 4, 2], &[2, 1, 6, 2, 7, 3], 2, (0, Some(Cores), 4)),
        // Of the same word at other places nothing is taken for a partner.
        ("one word many times, an answer dropped", &[0, 9, 1, 9, 2, 9], &[2, 9, 4, 9], 2, (0, Some(Wires), 2)),
        ("one word many times, an activate dropped", &[0, 9, 2, 9], &[2, 9, 3, 9, 4, 9], 2, (0, Some(Cores), 2)),
        // An activate without a partner and an answer without one: what is due first is taken first.
        ("the activate is due first", &[0, 1, 3, 7, 9, 2], &[2, 1, 6, 8, 11, 2], 2, (0, Some(Wires), 2)),
        ("the answer comes first", &[0, 1, 5, 7, 9, 2], &[2, 1, 6, 8, 11, 2], 2, (0, Some(Cores), 2)),
        // The activate is the earlier event, but its answer is due later.
        ("the order is by due cycles", &[3, 1], &[4, 2], 2, (0, Some(Cores), 0)),
    ];
    check(cases);
}

/// "an activate before an answer where a due cycle is shared but the words differ"
#[test]
fn an_activate_is_taken_first_where_a_due_cycle_is_shared() {
    #[rustfmt::skip]
    let cases: &[Case] = &[
        ("alone", &[3, 7], &[5, 8], 2, (0, Some(Wires), 0)),
        ("between others", &[0, 1, 3, 7, 9, 2], &[2, 1, 5, 8, 11, 2], 2, (0, Some(Wires), 2)),
        ("in one cycle", &[3, 7], &[3, 8], 0, (0, Some(Wires), 0)),
        ("at the end of 32 bits", &[LAST - 2, 7], &[LAST, 8], 2, (0, Some(Wires), 0)),
        // Two words exchanged: both answers are others.
        ("exchanged", &[0, 1, 1, 2], &[2, 2, 3, 1], 2, (0, Some(Wires), 0)),
    ];
    check(cases);
}

/// "the answer comes the answer delay (a byte handed in) later": not sooner and not later.
#[test]
fn equal_words_in_another_cycle_are_no_partners() {
    #[rustfmt::skip]
    let cases: &[Case] = &[
        ("a cycle late", &[3, 9], &[6, 9], 2, (0, Some(Wires), 0)),
        ("a cycle early", &[3, 9], &[4, 9], 2, (0, Some(Cores), 0)),
        ("in the activate's own cycle", &[3, 9], &[3, 9], 2, (0, Some(Cores), 0)),
        ("before the activate", &[3, 9], &[1, 9], 2, (0, Some(Cores), 0)),
        ("in a cycle below the delay", &[0, 9], &[1, 9], 200, (0, Some(Cores), 0)),
        ("late by the low byte of a delay", &[3, 9], &[3 + 256, 9], 0, (0, Some(Wires), 0)),
        ("the delay from the answer on", &[5, 9], &[3, 9], 2, (0, Some(Cores), 0)),
    ];
    check(cases);
}

/// "A recording with an odd length, a cycle not above the one before, or a due cycle past 32 bits ... gets that
/// empty rest"; "18 for such a recording, with which one it is, the wires first".
#[test]
fn an_unsound_recording_is_named_and_gets_the_empty_rest() {
    let wires = |at: usize| (18, Some(Wires), at);
    let cores = |at: usize| (18, Some(Cores), at);
    #[rustfmt::skip]
    let cases: &[Case] = &[
        ("one number on the wires", &[3], &[], 2, wires(1)),
        ("one number at the cores", &[], &[3], 2, cores(0)),
        ("a word lost on the wires", &[3, 9, 4], &[5, 9], 2, wires(3)),
        ("a word lost at the cores", &[3, 9, 4, 8], &[5, 9, 6], 2, cores(4)),
        ("a cycle repeated on the wires", &[3, 9, 3, 8], &[5, 9], 2, wires(4)),
        ("a cycle repeated at the cores", &[3, 9], &[5, 9, 5, 9], 2, cores(2)),
        ("a pair repeated on the wires", &[3, 9, 3, 9], &[5, 9], 2, wires(4)),
        ("cycle 0 repeated", &[0, 9, 0, 9], &[], 2, wires(4)),
        ("the last cycle repeated", &[], &[LAST, 9, LAST, 8], 2, cores(0)),
        ("a cycle below on the wires", &[3, 9, 2, 8], &[5, 9, 4, 8], 2, wires(4)),
        ("a cycle below at the cores", &[3, 9, 4, 8], &[6, 8, 5, 9], 2, cores(4)),
        ("the third is below", &[3, 9, 5, 8, 4, 7], &[], 2, wires(6)),
        // Each is above the one before it but for one.
        ("the third is above the first alone", &[3, 9, 7, 8, 5, 7], &[], 2, wires(6)),
        ("due at 2^32", &[LAST - 1, 9], &[], 2, wires(2)),
        ("due at 2^32 by 255", &[LAST - 254, 9], &[], 255, wires(2)),
        ("due at the last past 2^32", &[LAST, 9], &[], 255, wires(2)),
        // In 32 bits the first would be due just when the other comes.
        ("due past 32 bits, and an answer where it wraps", &[LAST, 9], &[1, 9], 2, wires(2)),
        ("the last of three is due past 32 bits", &[1, 9, 5, 9, LAST, 9], &[3, 9], 1, wires(6)),
        ("both of odd length", &[3], &[5], 2, wires(1)),
        ("both repeated", &[3, 9, 3, 9], &[5, 9, 5, 9], 2, wires(4)),
        ("past 32 bits, and odd cores", &[LAST, 9], &[5], 1, wires(2)),
        // The question is asked of whole recordings, before events are taken.
        ("a fault after an event without a partner", &[0, 1, 5, 2, 5, 3], &[], 2, wires(6)),
        ("a fault of the cores after one of the wires", &[0, 1], &[5, 2, 4, 3], 2, cores(2)),
    ];
    check(cases);
}

#[test]
fn recordings_at_the_edge_are_sound() {
    #[rustfmt::skip]
    let cases: &[Case] = &[
        ("due at 2^32 - 1", &[LAST - 2, 9], &[LAST, 9], 2, (0, None, 2)),
        ("due at 2^32 - 1 by 255", &[LAST - 255, 9], &[LAST, 9], 255, (0, None, 2)),
        ("the delay 0 in the last cycle", &[LAST, 9], &[LAST, 9], 0, (0, None, 2)),
        // An answer is due at its own cycle.
        ("an answer in the last cycle", &[], &[LAST, 9], 255, (0, Some(Cores), 0)),
        ("cycles 0 and 1", &[0, 9, 1, 9], &[0, 9, 1, 9], 0, (0, None, 4)),
        ("the first cycle and the last", &[0, 9, LAST, 9], &[0, 9, LAST, 9], 0, (0, None, 4)),
    ];
    check(cases);
}

// ---------------------------------------------------------------------------
// The check, by its laws.

/// An event of a recording: where it stands, its cycle and its word.
type Shown = (Recording, usize, u64, u32);

fn shown(of: Recording, numbers: &[u32]) -> Vec<Shown> {
    let places = (0..numbers.len() / 2).map(|place| 2 * place);
    let event = |at: usize| (of, at, u64::from(numbers[at]), numbers[at + 1]);
    places.map(event).collect()
}

/// "An activate and an answer are partners if the words are equal and the answer comes the answer delay later."
fn partners(one: &Shown, other: &Shown, delay: u8) -> bool {
    let (activate, answer) = match (one.0, other.0) {
        (Wires, Cores) => (one, other),
        (Cores, Wires) => (other, one),
        _ => return false,
    };
    activate.3 == answer.3 && activate.2 + u64::from(delay) == answer.2
}

fn due(event: &Shown, delay: u8) -> u64 {
    match event.0 {
        Wires => event.2 + u64::from(delay),
        Cores => event.2,
    }
}

/// "Events are taken in the order of the cycle their answer is due, an activate before an answer where a due
/// cycle is shared but the words differ."
fn taken_before(one: &Shown, other: &Shown, delay: u8) -> bool {
    let (first, second) = (due(one, delay), due(other, delay));
    first < second || first == second && one.0 == Wires && other.0 == Cores && one.3 != other.3
}

/// Whether a recording has one of the three faults.
fn has_fault(of: Recording, numbers: &[u32], delay: u8) -> bool {
    let mut fault = numbers.len() % 2 != 0;
    for place in (0..numbers.len()).step_by(2) {
        fault |= place > 0 && numbers[place] <= numbers[place - 2];
        let past = numbers[place].checked_add(u32::from(delay)).is_none();
        fault |= of == Wires && past;
    }
    fault
}

/// The law that an answer of the check breaks, if it does.
fn broken_law(wires: &[u32], cores: &[u32], delay: u8, matched: Matched) -> Option<&'static str> {
    let unsound = match [(Wires, wires), (Cores, cores)].map(|(of, all)| has_fault(of, all, delay))
    {
        [true, _] => Some(Wires),
        [false, true] => Some(Cores),
        [false, false] => None,
    };
    if let Some(of) = unsound {
        return match () {
            () if matched.status != 18 => Some("18 for an unsound recording"),
            () if matched.which != Some(of) => Some("the unsound one, the wires first"),
            () if matched.at != wires.len() => Some("an unsound recording gets the empty rest"),
            () => None,
        };
    }
    if matched.status != 0 {
        return Some("0 where both are sound");
    }
    let events = [shown(Wires, wires), shown(Cores, cores)].concat();
    let count = |event: &Shown| {
        let of_it = events.iter().filter(|other| partners(event, other, delay));
        of_it.count()
    };
    let counts: Vec<usize> = events.iter().map(count).collect();
    if counts.iter().any(|&count| count > 1) {
        return Some("no event of sound recordings has two partners");
    }
    let with_partner = |event: &&Shown| counts[position(&events, event)] > 0;
    let Some(of) = matched.which else {
        return match () {
            () if !events.iter().all(|event| with_partner(&event)) => Some("all have partners"),
            () if matched.at != wires.len() => Some("an empty rest of the wires'"),
            () => None,
        };
    };
    let begins = |event: &&Shown| event.0 == of && event.1 == matched.at;
    let Some(first) = events.iter().find(begins) else {
        return Some("the rest begins at an event");
    };
    let mut before = events
        .iter()
        .filter(|event| taken_before(event, first, delay));
    match () {
        () if with_partner(&first) => Some("the event at which the rest begins has no partner"),
        () if !before.all(|event| with_partner(&event)) => {
            Some("every event taken before it has a partner")
        }
        () => None,
    }
}

/// No two events stand at one place of one recording.
fn position(events: &[Shown], event: &Shown) -> usize {
    let place = events.iter().position(|other| other == event);
    place.expect("one of the events")
}

/// Of all pairs of short recordings with few cycles and words, the answer is the one that the laws leave.
#[test]
fn the_laws_leave_one_answer_for_every_short_pair() {
    let events: Vec<[u32; 2]> = (0..3).flat_map(|c| [[c, 0], [c, 1]]).collect();
    let mut recordings: Vec<Vec<u32>> = vec![vec![], vec![1], vec![0, 1, 2]];
    for first in &events {
        recordings.push(first.to_vec());
        recordings.extend(events.iter().map(|second| [*first, *second].concat()));
    }
    let mut asked = 0;
    for wires in &recordings {
        for (cores, delay) in recordings.iter().flat_map(|cores| [(cores, 0), (cores, 1)]) {
            let longest = wires.len().max(cores.len());
            let mut lawful = Vec::new();
            for status in [0, 18] {
                for which in [None, Some(Wires), Some(Cores)] {
                    for at in 0..=longest + 2 {
                        let answer = Matched { status, which, at };
                        if broken_law(wires, cores, delay, answer).is_none() {
                            lawful.push(answer);
                        }
                    }
                }
            }
            let answer = match_recordings(wires, cores, delay);
            assert_eq!(lawful, [answer], "{wires:?}, {cores:?}, {delay}");
            asked += 1;
        }
    }
    println!("{asked} pairs");
}

/// So many pairs are searched.
const PAIRS: std::ops::Range<u64> = 0..12_000;

/// The first pair in which a law is broken, with how many were asked.
fn search(planted: Planted) -> Option<(u64, &'static str)> {
    PAIRS.into_iter().find_map(|seed| {
        let Pair {
            wires,
            cores,
            delay,
            ..
        } = pair(seed);
        let matched = match_planted(&wires, &cores, delay, planted);
        let broken = broken_law(&wires, &cores, delay, matched);
        broken.map(|law| (seed + 1 - PAIRS.start, law))
    })
}

#[test]
fn no_generated_pair_breaks_a_law() {
    assert_eq!(search(Planted::Nothing), None);
}

#[test]
fn every_wrong_check_is_found() {
    for planted in WRONG_CHECKS {
        let found = search(planted);
        println!("{planted:?}: {found:?}");
        assert!(found.is_some(), "{planted:?} was not found");
    }
}

/// "the rest": the part that the check names, of the recording that it names; empty if all have partners or a
/// recording is unsound, and only then.
#[test]
fn the_rest_is_the_part_that_is_named() {
    for seed in PAIRS.step_by(3) {
        let Pair {
            wires,
            cores,
            delay,
            ..
        } = &pair(seed);
        let matched = match_recordings(wires, cores, *delay);
        let part = rest(wires, cores, *delay);
        let whole = match (matched.status, matched.which) {
            (0, Some(Cores)) => cores,
            _ => wires,
        };
        // The part itself, and no copy of it.
        assert_eq!(part.as_ptr_range(), whole[matched.at..].as_ptr_range());
        let unsound = soundness(wires, cores, *delay) != Soundness::Sound;
        assert_eq!(
            part.is_empty(),
            unsound || matched.which.is_none(),
            "{seed}"
        );
        assert_eq!(unsound, matched.status == 18, "{seed}");
    }
}

/// Once may be by luck.
const FAIR: u64 = 5;

#[test]
fn the_generated_pairs_are_of_every_kind() {
    let mut met: BTreeMap<String, u64> = BTreeMap::new();
    for (name, _) in DAMAGES {
        met.insert(format!("damage: {name}"), 0);
    }
    for seed in PAIRS {
        let pair = pair(seed);
        let damage = pair.damage.map(|name| (format!("damage: {name}"), true));
        for (name, is) in kinds(&pair).into_iter().chain(damage) {
            *met.entry(name).or_default() += u64::from(is);
        }
    }
    for (name, count) in &met {
        println!("{count:>9} {name}");
    }
    let missed: Vec<_> = met.iter().filter(|(_, &count)| count < FAIR).collect();
    assert!(missed.is_empty(), "too seldom: {missed:?}");
}

#[test]
fn a_seed_always_gives_the_same_pair() {
    let pairs: Vec<Pair> = (0..200).map(pair).collect();
    for (seed, same) in (0..).zip(&pairs) {
        assert_eq!(pair(seed), *same, "seed {seed}");
    }
    let mut different = pairs.clone();
    different.dedup();
    assert!(different.len() > 190);
}

/// What is done to both recordings alike changes nothing: all cycles later by so many, or words for others.
#[test]
fn the_answer_goes_by_differences_alone() {
    let mut later = 0;
    for seed in PAIRS.step_by(2) {
        let Pair {
            wires,
            cores,
            delay,
            ..
        } = pair(seed);
        let answer = match_recordings(&wires, &cores, delay);
        let words = |numbers: &[u32]| -> Vec<u32> {
            let other = |(place, &number): (usize, &u32)| match place % 2 {
                0 => number,
                _ => number.wrapping_mul(3).wrapping_add(1),
            };
            numbers.iter().enumerate().map(other).collect()
        };
        let [other_wires, other_cores] = [&wires, &cores].map(|all| words(all));
        assert_eq!(match_recordings(&other_wires, &other_cores, delay), answer);
        let room = |numbers: &[u32]| {
            let highest = numbers.iter().step_by(2).max();
            highest.map_or(LAST, |&highest| LAST - highest)
        };
        let by = room(&wires)
            .min(room(&cores))
            .saturating_sub(255)
            .min(1_000);
        let moved = |numbers: &[u32]| -> Vec<u32> {
            let later =
                |(place, &number): (usize, &u32)| number + if place % 2 == 0 { by } else { 0 };
            numbers.iter().enumerate().map(later).collect()
        };
        let [later_wires, later_cores] = [&wires, &cores].map(|all| moved(all));
        assert_eq!(
            match_recordings(&later_wires, &later_cores, delay),
            answer,
            "{seed}"
        );
        later += u32::from(by > 0);
    }
    assert!(later > 1_000, "{later}");
}

// ---------------------------------------------------------------------------
// The recordings of a log, by hand.

/// A recording: what the call handed back, and the whole slice after it.
type Outcome = ((usize, Option<Refusal>), Vec<u32>);

fn record_into(of: Recording, stretch: Stretch, room: usize) -> Outcome {
    let mut out = vec![UNWRITTEN; room];
    let Stretch { trace, log, start } = stretch;
    let answer = recording(of, trace, log, start, &mut out);
    (answer, out)
}

/// The recording with room enough, or the number that refuses it.
fn recorded(of: Recording, stretch: Stretch, planted: Planted) -> Result<Vec<u32>, u32> {
    let Stretch { trace, log, start } = stretch;
    let mut out = vec![UNWRITTEN; 2 * trace.len() + 3];
    match recording_planted(of, trace, log, start, &mut out, planted) {
        Err(refusal) => Err(refusal.number()),
        Ok(count) => {
            assert!(out[count..].iter().all(|&number| number == UNWRITTEN));
            out.truncate(count);
            Ok(out)
        }
    }
}

fn right(of: Recording, stretch: Stretch) -> Vec<u32> {
    recorded(of, stretch, Planted::Nothing).expect("a recording that is not refused")
}

/// Document 01's log: an offer, and three ticks.
#[test]
fn the_recordings_of_the_printed_log() {
    let trace = [0x8001_0007, 0, 0, 0];
    let log = run_fresh(&printed_policy(), &trace);
    for start in [0, 1, 1_000_000, LAST_CYCLE - 3] {
        let stretch = Stretch {
            trace: &trace,
            log: &log,
            start,
        };
        assert_eq!(right(Wires, stretch), [start, 0x8001_0007]);
        assert_eq!(right(Cores, stretch), [start + 2, 0x8001_0007]);
    }
}

/// A trace and a log of any numbers, each line with what it is for.
fn any_lines() -> (Vec<u32>, Vec<u32>) {
    let column = 0x4000_0000;
    #[rustfmt::skip]
    let lines = [
        // Offers and malformed words, whatever their lines hold.
        (read_word(0, 1), [0, 5, 6, 7]),
        (read_word(1, 1), [11, 5, 6, 7]),
        (1, [14, 5, 6, 7]),
        (1, [0, 5, 6, 7]),
        // Ticks 0 to 2: nothing, an activate and an answer, a column command and an answer.
        (0, [0, 0, 0, 0]),
        (0, [0, 0x8000_0001, 0x8000_0002, 9]),
        (0, [0, 0xC000_0003, 0x8000_0004, 0]),
        // Ticks that are refused, with 12 and with any number.
        (0, [12, 0, 0, 0]),
        (0, [12, 5, 6, 7]),
        (0, [u32::MAX, 5, 6, 7]),
        // Ticks 3 to 6: a word is any number but 0, and of a command bit 30 tells.
        (0, [0, 1, 0, 512]),
        (0, [0, column, column, 0]),
        (0, [0, !column, u32::MAX, u32::MAX]),
        (0, [0, u32::MAX, 1, 0]),
    ];
    let trace = lines.iter().map(|&(number, _)| number).collect();
    let log = lines.iter().flat_map(|&(_, line)| line).collect();
    (trace, log)
}

#[test]
fn only_ticks_that_are_made_have_cycles_and_words() {
    let (trace, log) = any_lines();
    let stretch = Stretch {
        trace: &trace,
        log: &log,
        start: 100,
    };
    let wires = [101, 0x8000_0001, 103, 1, 105, 0xBFFF_FFFF];
    assert_eq!(right(Wires, stretch), wires);
    let cores = [
        101,
        0x8000_0002,
        102,
        0x8000_0004,
        104,
        0x4000_0000,
        105,
        u32::MAX,
        106,
        1,
    ];
    assert_eq!(right(Cores, stretch), cores);
}

/// Exactly enough room is enough, one number less is not, and what is past the count stays.
#[test]
fn room_is_asked_for_what_is_recorded() {
    let (trace, log) = any_lines();
    let stretch = Stretch {
        trace: &trace,
        log: &log,
        start: 0,
    };
    for (of, needed) in [(Wires, 6), (Cores, 10)] {
        for room in 0..needed + 4 {
            let (answer, out) = record_into(of, stretch, room);
            if room < needed {
                assert_eq!(
                    answer,
                    (0, Some(Refusal::ExtractTooShort)),
                    "{of:?}, {room}"
                );
                assert_eq!(out, vec![UNWRITTEN; room], "{of:?}, {room}");
            } else {
                assert_eq!(answer, (needed, None), "{of:?}, {room}");
                assert_eq!(out[..needed], right(of, stretch));
                assert_eq!(out[needed..], vec![UNWRITTEN; room - needed]);
            }
        }
    }
    let nothing = Stretch {
        trace: &[],
        log: &[],
        start: 0,
    };
    for of in Recording::BOTH {
        assert_eq!(record_into(of, nothing, 0), ((0, None), vec![]));
    }
}

/// 12: "a tick after 16,777,215 ticks". Of so many ticks the start may be so many less; ticks that are refused
/// are not counted, and without ticks the start itself is asked.
#[test]
fn a_log_with_a_tick_too_many_gets_12() {
    let (trace, log) = any_lines();
    let ticks = 7;
    let none = (&trace[..4], &log[..16]);
    for (start, of_seven, of_none) in [
        (0, 0, 0),
        (LAST_CYCLE - ticks, 0, 0),
        (LAST_CYCLE - ticks + 1, 12, 0),
        (LAST_CYCLE, 12, 0),
        (LAST_CYCLE + 1, 12, 12),
        (u32::MAX - ticks, 12, 12),
        (u32::MAX - ticks + 1, 12, 12),
        (u32::MAX, 12, 12),
    ] {
        for of in Recording::BOTH {
            for ((trace, log), number) in [((&trace[..], &log[..]), of_seven), (none, of_none)] {
                let mut out = [UNWRITTEN; 28];
                let planted = Planted::Nothing;
                let outcome = recording_planted(of, trace, log, start, &mut out, planted);
                assert_eq!(status(&outcome), number, "{of:?}, {start}");
                if number > 0 {
                    assert_eq!(out, [UNWRITTEN; 28], "{of:?}, {start}");
                }
            }
        }
    }
}

#[test]
fn recordings_are_refused_in_the_order_17_12_16() {
    let (trace, log) = any_lines();
    let longer = [&log[..], &[0]].concat();
    let number = |of: Recording, log: &[u32], start: u32, room: usize| {
        let stretch = Stretch {
            trace: &trace,
            log,
            start,
        };
        let ((count, refusal), out) = record_into(of, stretch, room);
        assert_eq!(count, 0);
        assert_eq!(
            out,
            vec![UNWRITTEN; room],
            "a refused recording writes nothing"
        );
        refusal.map_or(0, Refusal::number)
    };
    for of in Recording::BOTH {
        for wrong in [&log[1..], &log[4..], &longer, &[], &trace] {
            for (start, room) in [(u32::MAX, 0), (LAST_CYCLE, 40), (0, 0), (0, 40)] {
                assert_eq!(number(of, wrong, start, room), 17, "{of:?}");
            }
        }
        assert_eq!(number(of, &log, u32::MAX, 0), 12, "{of:?}");
        assert_eq!(number(of, &log, LAST_CYCLE - 6, 0), 12, "{of:?}");
        assert_eq!(number(of, &log, LAST_CYCLE - 6, 40), 12, "{of:?}");
        assert_eq!(number(of, &log, LAST_CYCLE - 7, 0), 16, "{of:?}");
    }
}

// ---------------------------------------------------------------------------
// The recordings of generated runs.

/// So many folders, from a seed on that no other test uses.
const FOLDERS: std::ops::Range<u64> = 70_000..70_500;

fn runs() -> impl Iterator<Item = (u64, Run)> {
    FOLDERS.filter_map(|seed| Some((seed, Run::of_seed(seed)?)))
}

/// The whole of a run, and parts of it that begin and end at such moments.
fn parts(random: &mut Random, run: &Run, moments: &[usize], count: usize) -> Vec<(usize, usize)> {
    let Some(&last) = moments.last() else {
        return Vec::new();
    };
    let mut parts = vec![(moments[0], last)];
    for _ in 0..count {
        let mut ends = [0; 2].map(|_| moments[random.below(moments.len())]);
        ends.sort();
        parts.push((ends[0], ends[1]));
    }
    assert!(last < run.moments.len());
    parts
}

/// What the recordings of a part of a run say under its policy's delay, if they are not refused.
fn matched(run: &Run, part: (usize, usize), planted: Planted) -> Result<(Matched, usize), u32> {
    let stretch = run.stretch(part.0, part.1);
    let wires = recorded(Wires, stretch, planted)?;
    let cores = recorded(Cores, stretch, planted)?;
    let delay = run.policy.timing.response_delay;
    let events = wires.len() / 2;
    Ok((match_recordings(&wires, &cores, delay), events))
}

fn is_full(outcome: &Result<(Matched, usize), u32>) -> bool {
    outcome
        .as_ref()
        .is_ok_and(|(matched, _)| matched.status == 0 && matched.which.is_none())
}

/// "A run's log, cut at both ends where nothing is in flight, matches fully under its policy's delay."
#[test]
fn runs_cut_where_nothing_is_in_flight_match_fully() {
    let random = &mut Random::new(204);
    let [mut whole, mut cut, mut late, mut refused, mut quiet, mut many] = [0; 6];
    for (seed, run) in runs() {
        for (place, part) in parts(random, &run, &run.cuts(), 8).into_iter().enumerate() {
            let outcome = matched(&run, part, Planted::Nothing);
            assert!(is_full(&outcome), "seed {seed}, {part:?}: {outcome:?}");
            let events = outcome.map_or(0, |(_, events)| events);
            let stretch = run.stretch(part.0, part.1);
            let ticks = |is: fn(u32) -> bool| {
                let lines = stretch.trace.iter().zip(stretch.log.chunks(4));
                let ticks = lines.filter(|(&number, line)| number == 0 && is(line[0]));
                ticks.count()
            };
            whole += u32::from(place == 0 && events > 0 && part == (0, run.trace.len()));
            cut += u32::from(part.0 > 0 && part.1 < run.trace.len() && events > 0);
            late += u32::from(part.0 > 0 && stretch.start > 0 && events > 0);
            refused += u32::from(ticks(|status| status == 12) > 0 && events > 0);
            quiet += u32::from(ticks(|status| status == 0) > 0 && events == 0);
            many += u32::from(events > 50);
        }
    }
    let met = [whole, cut, late, refused, quiet, many];
    println!("whole, cut, late, with refused ticks, without events, with many: {met:?}");
    assert!(met.iter().all(|&count| count > 10), "{met:?}");
}

/// Elsewhere an activate is cut off from its answer. Where the part is so short that it has neither, or has just
/// those that belong together, it matches all the same.
#[test]
fn runs_cut_where_something_is_in_flight_often_do_not_match() {
    let random = &mut Random::new(205);
    // By the end at which something is in flight.
    let mut met: BTreeMap<(&str, bool), u32> = BTreeMap::new();
    for (_, run) in runs() {
        let all: Vec<usize> = (0..run.moments.len()).collect();
        for (from, to) in parts(random, &run, &all, 12) {
            let ends = [from, to].map(|place| run.moments[place].nothing_in_flight);
            let name = match ends {
                [true, true] => continue,
                [false, true] => "at the start",
                [true, false] => "at the end",
                [false, false] => "at both",
            };
            let full = is_full(&matched(&run, (from, to), Planted::Nothing));
            // What is in flight at one end alone is without its partner in the part.
            assert!(!full || ends == [false, false], "{name}");
            *met.entry((name, full)).or_default() += 1;
        }
    }
    println!("{met:?}");
    for name in ["at the start", "at the end", "at both"] {
        assert!(met[&(name, false)] > 20, "{name}: {met:?}");
    }
    assert!(met[&("at both", true)] > 0, "{met:?}");
}

/// The runs until a wrong recording shows, and how: as a refusal, or as an event without a partner.
fn search_runs(planted: Planted) -> Option<(usize, String)> {
    let random = &mut Random::new(206);
    let mut found = runs().enumerate().filter_map(|(place, (_, run))| {
        let parts = parts(random, &run, &run.cuts(), 4);
        let mut outcomes = parts.into_iter().map(|part| matched(&run, part, planted));
        let wrong = outcomes.find(|outcome| !is_full(outcome))?;
        Some((place + 1, format!("{wrong:?}")))
    });
    found.next()
}

#[test]
fn every_wrong_recording_is_found() {
    assert_eq!(search_runs(Planted::Nothing), None);
    for planted in WRONG_RECORDINGS {
        let found = search_runs(planted);
        println!("{planted:?}: {found:?}");
        assert!(found.is_some(), "{planted:?} was not found");
    }
}

/// The logs that recordings are tried on: a run's, the same damaged, and one of any numbers.
fn logs(random: &mut Random, run: &Run) -> [Vec<u32>; 3] {
    [
        run.log.clone(),
        damaged_log(random, &run.trace, &run.log),
        any_log(random, &run.trace),
    ]
}

/// The recordings of any log are sound under every delay, if they are not refused.
#[test]
fn the_recordings_of_any_log_are_sound() {
    let random = &mut Random::new(207);
    let [mut events, mut unmatched] = [0; 2];
    for (seed, run) in runs() {
        for log in logs(random, &run) {
            let ticks = run.trace.len() as u32;
            let start = match random.below(3) {
                0 => 0,
                1 => LAST_CYCLE - ticks,
                _ => random.below((LAST_CYCLE - ticks) as usize) as u32,
            };
            let stretch = Stretch {
                trace: &run.trace,
                log: &log,
                start,
            };
            let [wires, cores] = Recording::BOTH.map(|of| right(of, stretch));
            for delay in [0, 1, random.next() as u8, 254, 255] {
                let sound = soundness(&wires, &cores, delay);
                assert_eq!(sound, Soundness::Sound, "seed {seed}");
            }
            events += wires.len() + cores.len();
            let matched = match_recordings(&wires, &cores, run.policy.timing.response_delay);
            unmatched += usize::from(matched.which.is_some());
        }
    }
    println!("{events} numbers, {unmatched} logs that do not match");
    assert!(events > 10_000 && unmatched > 100);
}

/// The sentences once more: the i-th tick that is made has the cycle start + i.
fn in_words(of: Recording, trace: &[u32], log: &[u32], start: u32) -> Vec<u32> {
    let (mut cycle, mut numbers) = (start, Vec::new());
    for place in (0..trace.len()).filter(|&place| trace[place] == 0 && log[4 * place] == 0) {
        let (command, response) = (log[4 * place + 1], log[4 * place + 2]);
        let activate = command != 0 && command >> 30 & 1 == 0;
        match of {
            Wires if activate => numbers.extend([cycle, command]),
            Cores if response != 0 => numbers.extend([cycle, response]),
            _ => {}
        }
        cycle += 1;
    }
    numbers
}

#[test]
fn generated_logs_are_recorded_as_the_sentences_say() {
    let random = &mut Random::new(208);
    for (seed, run) in runs() {
        for log in logs(random, &run) {
            let start = random.below((LAST_CYCLE / 2) as usize) as u32;
            let stretch = Stretch {
                trace: &run.trace,
                log: &log,
                start,
            };
            for of in Recording::BOTH {
                let expected = in_words(of, &run.trace, &log, start);
                assert_eq!(right(of, stretch), expected, "seed {seed}, {of:?}");
                assert!(expected.len() <= 2 * run.trace.len());
            }
        }
    }
}
