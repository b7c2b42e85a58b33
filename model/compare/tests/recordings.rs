//! W-204, "Wires against cores": the built library's check and its recordings of logs beside the model's, on
//! generated pairs of recordings and on logs that runs wrote, that were damaged and that are of any numbers.

mod common;

use common::*;
use vigambul_compare::calls::{Calls, Library, Model, RecordingCalls};
use vigambul_compare::wrong_recordings::{WithWrongRecordings, Wrong, CHECKS, RECORDINGS};
use vigambul_model::generate::any_log;
use vigambul_model::generate_recordings::{damaged_log, kinds, pair, Pair, Run, Stretch};
use vigambul_model::planted::{Planted, WRONG_CHECKS, WRONG_RECORDINGS};
use vigambul_model::program::read_trace;
use vigambul_model::random::Random;
use vigambul_model::recordings::Recording::{self, Cores, Wires};
use vigambul_model::recordings::{match_recordings, recording};
use vigambul_model::state::LAST_CYCLE;
use vigambul_model::trace::{Word, COLUMN_BIT, LINE, OFFER_BIT};

/// Pairs of recordings. `VIGAMBUL_RECORDINGS` sets how many.
const PAIRS: u64 = 20_000;

fn pairs() -> impl Iterator<Item = (u64, Pair)> {
    seeds("VIGAMBUL_RECORDINGS", PAIRS).map(|seed| (seed, pair(seed)))
}

/// So many pairs, and so many folders, are enough to find what is wrong.
const FEW_PAIRS: usize = 2_000;
const FEW_FOLDERS: usize = 200;

// ---------------------------------------------------------------------------
// The check.

/// Compares the status, which recording and where the rest begins with the model's, under a delay.
fn check_match(calls: &impl RecordingCalls, pair: &Pair, delay: u8) -> Result<(), String> {
    let Pair { wires, cores, .. } = pair;
    let matched = match_recordings(wires, cores, delay);
    let which = matched.which.map_or(0, Recording::number);
    let expected = (matched.status, which, matched.at);
    let answer = calls.match_recordings(wires, cores, delay);
    if answer == expected {
        return Ok(());
    }
    let lengths = (wires.len(), cores.len());
    Err(format!(
        "status, which and at {answer:?}, not {expected:?}: recordings of {lengths:?}, delay {delay}"
    ))
}

/// Compares checks on pairs, up to the first difference, which is told.
fn compare_checks(
    calls: &impl RecordingCalls,
    pairs: impl Iterator<Item = (u64, Pair)>,
    tally: &mut Tally,
) -> Option<String> {
    for (seed, pair) in pairs {
        // Under its own delay, and under others.
        let others = [0, 255, pair.delay.wrapping_add(1), seed as u8];
        for delay in [pair.delay].into_iter().chain(others) {
            if let Err(why) = check_match(calls, &pair, delay) {
                return Some(format!("seed {seed} ({:?}): {why}", pair.damage));
            }
        }
        for (name, is) in kinds(&pair) {
            tally.add(&name, u64::from(is));
        }
    }
    None
}

/// Every kind of pair must be met.
fn tally_of_kinds() -> Tally {
    let names: Vec<String> = kinds(&pair(0)).into_iter().map(|(name, _)| name).collect();
    Tally::new(names.iter().map(String::as_str))
}

#[test]
fn the_library_holds_recordings_together_as_the_model_does() {
    let mut tally = tally_of_kinds();
    assert_eq!(compare_checks(&Library, pairs(), &mut tally), None);
    tally.require_all_met();
}

/// Two events at most on each side, with few cycles and words: all pairs that there are, unsound ones too.
#[test]
fn the_library_holds_every_short_pair_together_as_the_model_does() {
    let end = u32::MAX;
    let events: Vec<[u32; 2]> = [0, 1, 2, end - 1, end]
        .into_iter()
        .flat_map(|cycle| [[cycle, 0], [cycle, 1]])
        .collect();
    let mut recordings: Vec<Vec<u32>> = vec![vec![], vec![0], vec![end], vec![0, 1, 2]];
    for first in &events {
        recordings.push(first.to_vec());
        recordings.extend(events.iter().map(|second| [*first, *second].concat()));
    }
    for wires in &recordings {
        for cores in &recordings {
            let pair = Pair {
                wires: wires.clone(),
                cores: cores.clone(),
                delay: 0,
                damage: None,
            };
            for delay in [0, 1, 2, 255] {
                let outcome = check_match(&Library, &pair, delay);
                assert_eq!(outcome, Ok(()), "{wires:?}, {cores:?}");
            }
        }
    }
}

/// Under each of the 256 delays, recordings that match under one of them alone.
#[test]
fn every_delay_is_told_from_the_others() {
    for own in 0..=255u8 {
        let word = 0x8001_0007;
        let pair = Pair {
            wires: vec![1_000, word, 1_001, word],
            cores: vec![1_000 + u32::from(own), word, 1_001 + u32::from(own), word],
            delay: own,
            damage: None,
        };
        for delay in 0..=255 {
            assert_eq!(check_match(&Library, &pair, delay), Ok(()));
            let full = Library.match_recordings(&pair.wires, &pair.cores, delay) == (0, 0, 4);
            assert_eq!(full, delay == own, "{own}, {delay}");
        }
    }
}

#[test]
fn every_wrong_check_is_found() {
    let few = || pairs().take(FEW_PAIRS);
    for wrong in CHECKS {
        let calls = WithWrongRecordings(wrong);
        let found = compare_checks(&calls, few(), &mut tally_of_kinds());
        println!("{wrong:?}: {found:?}");
        assert!(found.is_some(), "{wrong:?} was not found");
    }
    for planted in WRONG_CHECKS {
        let found = compare_checks(&Model(planted), few(), &mut tally_of_kinds());
        println!("{planted:?}: {found:?}");
        assert!(found.is_some(), "{planted:?} was not found");
    }
}

// ---------------------------------------------------------------------------
// The recordings of a log.

/// What a recording is asked of.
#[derive(Clone, Copy)]
struct Asked<'a> {
    of: Recording,
    trace: &'a [u32],
    log: &'a [u32],
    start: u32,
}

impl Asked<'_> {
    /// How many numbers are recorded.
    fn needed(&self) -> usize {
        let mut out = vec![0; 2 * self.trace.len()];
        recording(self.of, self.trace, self.log, self.start, &mut out).0
    }

    /// Makes the call with so much room, and compares the count, the status and every number in the room and
    /// around it with the model's. The status must be the one that the test expects, in the model too.
    fn check(&self, calls: &impl RecordingCalls, room: usize, status: u32) -> Result<(), String> {
        let Asked {
            of,
            trace,
            log,
            start,
        } = *self;
        let mut lent = Lent::with_room(room);
        let (count, refusal) = recording(of, trace, log, start, lent.expected());
        let expected = (count, refusal.map_or(0, |refusal| refusal.number()));
        assert_eq!(expected.1, status, "the model's status");
        let made = calls.recording(of, trace, log, start, lent.numbers());
        let (trace, log) = (trace.len(), log.len());
        let asked = format!("{of:?}, {trace} trace numbers, a log of {log}, start {start}");
        lent.compare(made, expected, &asked)
    }
}

/// What the calls on logs must meet.
const CALLS: [&str; 44] = [
    "folders",
    "a run's log",
    "a run's log, cut where nothing is in flight",
    "a run's log, cut anywhere",
    "a run's log, damaged",
    "a log of any numbers",
    "an empty trace",
    "a trace without ticks",
    "nothing recorded of a trace with ticks",
    "room exactly as needed",
    "room for more",
    "room for twice the trace",
    "16, room short by 1",
    "16, room short by 2",
    "16, no room",
    "start 0",
    "the last start that is taken",
    "another start that is taken",
    "12, the first start that is refused",
    "12, start 16,777,215",
    "12, start 16,777,216",
    "12, start 2^32 - 1",
    "12, start and ticks are 2^32 - 1",
    "12, start and ticks are 2^32",
    "12, start and ticks are more than 2^32",
    "12 without ticks",
    "12 before 16",
    "the last start that is taken, by ticks that are refused",
    "17, a log short by 1 to 4",
    "17, a log long by 1 to 4",
    "17, a log of no numbers",
    "17, a log as long as the trace",
    "17 before 12",
    "17 before 16",
    "17 before 12 and 16",
    "activates recorded",
    "activates recorded, without bit 31",
    "activates recorded, of a rank other than 0",
    "column commands left out",
    "answers recorded",
    "answers recorded, with bit 30",
    "words in lines of offers and malformed words left out",
    "words in lines of refused ticks left out",
    "statuses of ticks other than 0 and 12",
];

/// How many ticks were made.
fn ticks_made(trace: &[u32], log: &[u32]) -> usize {
    let lines = trace.iter().zip(log.chunks_exact(LINE));
    lines
        .filter(|(&number, line)| number == 0 && line[0] == 0)
        .count()
}

/// Both recordings of a log: starts, rooms and log lengths that are right and wrong.
fn check_log(
    calls: &impl RecordingCalls,
    stretch: Stretch,
    random: &mut Random,
    tally: &mut Tally,
) -> Result<(), String> {
    let Stretch { trace, log, .. } = stretch;
    count_lines(trace, log, tally);
    let ticks = ticks_made(trace, log);
    let last_start = LAST_CYCLE - ticks as u32;
    for of in Recording::BOTH {
        let at = |start: u32| Asked {
            of,
            trace,
            log,
            start,
        };
        let needed = at(0).needed();
        if trace.is_empty() {
            tally.met("an empty trace");
        } else if ticks == 0 {
            tally.met("a trace without ticks");
        } else if needed == 0 {
            tally.met("nothing recorded of a trace with ticks");
        }
        let another = random.below(last_start as usize) as u32;
        let starts = [
            (0, "start 0"),
            (last_start, "the last start that is taken"),
            (another, "another start that is taken"),
            (stretch.start.min(last_start), "another start that is taken"),
        ];
        for (start, name) in starts {
            at(start).check(calls, needed, 0)?;
            tally.met(name);
        }
        let (start, _) = starts[random.below(starts.len())];
        check_rooms(calls, at(start), needed, random, tally)?;
        if trace.iter().filter(|&&number| number == 0).count() > ticks {
            tally.met("the last start that is taken, by ticks that are refused");
        }
        check_starts(calls, at, ticks, needed, tally)?;
        for start in [0, last_start + 1, u32::MAX] {
            check_wrong_logs(
                calls,
                &at(start),
                (needed, start > last_start),
                random,
                tally,
            )?;
        }
    }
    Ok(())
}

/// Rooms around what is needed: 16, or a recording.
fn check_rooms(
    calls: &impl RecordingCalls,
    call: Asked,
    needed: usize,
    random: &mut Random,
    tally: &mut Tally,
) -> Result<(), String> {
    call.check(calls, needed, 0)?;
    tally.met("room exactly as needed");
    call.check(calls, needed + 1 + random.below(20), 0)?;
    tally.met("room for more");
    call.check(calls, 2 * call.trace.len(), 0)?;
    tally.met("room for twice the trace");
    if needed > 0 {
        // Two numbers for each event.
        for (room, name) in [
            (needed - 1, "16, room short by 1"),
            (needed - 2, "16, room short by 2"),
            (0, "16, no room"),
        ] {
            call.check(calls, room, 16)?;
            tally.met(name);
        }
    }
    Ok(())
}

/// Starts after which there is a tick too many: 12, whether the room is enough or not.
fn check_starts<'a>(
    calls: &impl RecordingCalls,
    at: impl Fn(u32) -> Asked<'a>,
    ticks: usize,
    needed: usize,
    tally: &mut Tally,
) -> Result<(), String> {
    let ticks = ticks as u32;
    let starts = [
        (
            LAST_CYCLE - ticks + 1,
            "12, the first start that is refused",
        ),
        (LAST_CYCLE, "12, start 16,777,215"),
        (LAST_CYCLE + 1, "12, start 16,777,216"),
        (u32::MAX, "12, start 2^32 - 1"),
        (u32::MAX - ticks, "12, start and ticks are 2^32 - 1"),
        (
            u32::MAX.wrapping_sub(ticks).wrapping_add(1),
            "12, start and ticks are 2^32",
        ),
        (
            u32::MAX - ticks / 2,
            "12, start and ticks are more than 2^32",
        ),
    ];
    for (start, name) in starts {
        let sum = u64::from(start) + u64::from(ticks);
        // Some of these are not what their name says if there are no ticks, or few.
        if sum <= u64::from(LAST_CYCLE) || name.ends_with("than 2^32") && sum <= 1 << 32 {
            continue;
        }
        let call = at(start);
        call.check(calls, needed, 12)?;
        call.check(calls, 2 * call.trace.len() + 1, 12)?;
        tally.met(name);
        tally.add("12 without ticks", u64::from(ticks == 0));
        if needed > 0 {
            call.check(calls, needed - 1, 12)?;
            call.check(calls, 0, 12)?;
            tally.met("12 before 16");
        }
    }
    Ok(())
}

/// Logs of a wrong length: 17, whether the start and the room are right or not.
fn check_wrong_logs(
    calls: &impl RecordingCalls,
    call: &Asked,
    (needed, late): (usize, bool),
    random: &mut Random,
    tally: &mut Tally,
) -> Result<(), String> {
    let right = call.log.len();
    let longer = [call.log, &[0, 0x8000_0001, 1, 2]].concat();
    let by = 1 + random.below(4);
    let lengths = [
        (right.checked_sub(by), "17, a log short by 1 to 4"),
        (Some(right + by), "17, a log long by 1 to 4"),
        (Some(0), "17, a log of no numbers"),
        (Some(call.trace.len()), "17, a log as long as the trace"),
    ];
    for (length, name) in lengths {
        let Some(length) = length.filter(|&length| length != right) else {
            continue;
        };
        let wrong = Asked {
            log: &longer[..length],
            ..*call
        };
        wrong.check(calls, needed + random.below(2), 17)?;
        tally.met(name);
        if late {
            tally.met("17 before 12");
        }
        if needed > 0 {
            wrong.check(calls, random.below(needed), 17)?;
            tally.met(if late {
                "17 before 12 and 16"
            } else {
                "17 before 16"
            });
        }
    }
    Ok(())
}

/// Counts what recordings do with the lines of a log.
fn count_lines(trace: &[u32], log: &[u32], tally: &mut Tally) {
    for (&number, line) in trace.iter().zip(log.chunks_exact(LINE)) {
        let (command, answer) = (line[1], line[2]);
        let words = u64::from(command != 0) + u64::from(answer != 0);
        if Word::of(number) != Word::Tick {
            tally.add(
                "words in lines of offers and malformed words left out",
                words,
            );
            continue;
        }
        if line[0] != 0 {
            tally.add("words in lines of refused ticks left out", words);
            let other = u64::from(line[0] != 12);
            tally.add("statuses of ticks other than 0 and 12", other);
            continue;
        }
        let column = command & COLUMN_BIT != 0;
        let activate = command != 0 && !column;
        for (name, is) in [
            ("activates recorded", activate),
            (
                "activates recorded, without bit 31",
                activate && command & OFFER_BIT == 0,
            ),
            (
                "activates recorded, of a rank other than 0",
                activate && command >> 22 & 3 != 0,
            ),
            ("column commands left out", column),
            ("answers recorded", answer != 0),
            ("answers recorded, with bit 30", answer & COLUMN_BIT != 0),
        ] {
            tally.add(name, u64::from(is));
        }
    }
}

/// The logs of one folder. Of a file that is refused there is no run; no policy is asked of recordings, and its
/// trace is of any numbers.
fn check_folder(calls: &impl RecordingCalls, case: &Case, tally: &mut Tally) -> Result<(), String> {
    // Any other seed would do; the folder's own would repeat its numbers.
    let random = &mut Random::new(case.seed ^ 0x204_204);
    tally.met("folders");
    let trace = read_trace(case.trace_bytes()).numbers;
    let whole = |log| Stretch {
        trace: &trace,
        log,
        start: 0,
    };
    let any = any_log(random, &trace);
    check_log(calls, whole(&any), random, tally)?;
    tally.met("a log of any numbers");
    if let Ok(log) = model_log(case.policy_bytes(), &trace) {
        check_log(calls, whole(&log), random, tally)?;
        tally.met("a run's log");
        let damaged = damaged_log(random, &trace, &log);
        check_log(calls, whole(&damaged), random, tally)?;
        tally.met("a run's log, damaged");
    }
    let Some(run) = Run::of_seed(case.seed) else {
        return Ok(());
    };
    let places: Vec<usize> = (0..run.moments.len()).collect();
    for (places, name) in [
        (run.cuts(), "a run's log, cut where nothing is in flight"),
        (places, "a run's log, cut anywhere"),
    ] {
        let mut ends = [0; 2].map(|_| places[random.below(places.len())]);
        ends.sort();
        check_log(calls, run.stretch(ends[0], ends[1]), random, tally)?;
        tally.met(name);
    }
    Ok(())
}

/// Compares recordings on folders, up to the first difference, which is told.
fn compare_recordings(
    calls: &impl RecordingCalls,
    cases: impl Iterator<Item = Case>,
    tally: &mut Tally,
) -> Option<String> {
    for case in cases {
        if let Err(why) = check_folder(calls, &case, tally) {
            return Some(format!("seed {} ({}): {why}", case.seed, case.change));
        }
    }
    None
}

/// What is found in so many folders as something wrong must be found in.
fn found(calls: &impl RecordingCalls) -> Option<String> {
    compare_recordings(calls, cases().take(FEW_FOLDERS), &mut Tally::new(CALLS))
}

#[test]
fn the_library_records_what_the_model_records() {
    let mut tally = Tally::new(CALLS);
    assert_eq!(compare_recordings(&Library, cases(), &mut tally), None);
    tally.require_all_met();
}

#[test]
fn every_wrong_recording_is_found() {
    for wrong in RECORDINGS {
        let found = found(&WithWrongRecordings(wrong));
        println!("{wrong:?}: {found:?}");
        assert!(found.is_some(), "{wrong:?} was not found");
    }
    for planted in WRONG_RECORDINGS {
        let found = found(&Model(planted));
        println!("{planted:?}: {found:?}");
        assert!(found.is_some(), "{planted:?} was not found");
    }
}

#[test]
fn nothing_is_found_where_nothing_is_wrong() {
    let right = WithWrongRecordings(Wrong::Nothing);
    let model = Model(Planted::Nothing);
    assert_eq!(found(&right), None);
    assert_eq!(found(&model), None);
    let few = || pairs().take(FEW_PAIRS);
    assert_eq!(compare_checks(&right, few(), &mut tally_of_kinds()), None);
    assert_eq!(compare_checks(&model, few(), &mut tally_of_kinds()), None);
}

// ---------------------------------------------------------------------------
// Runs, recordings and the check together, all of the library.

/// A recording with room for twice the trace.
fn recorded(of: Recording, stretch: Stretch) -> Vec<u32> {
    let Stretch { trace, log, start } = stretch;
    let mut out = vec![0; 2 * trace.len()];
    let (count, status) = Library.recording(of, trace, log, start, &mut out);
    assert_eq!(status, 0);
    out.truncate(count);
    out
}

/// "A run's log, cut at both ends where nothing is in flight, matches fully under its policy's delay."
#[test]
fn the_librarys_runs_match_fully() {
    let mut tally = Tally::new([
        "whole, with events",
        "cut at both ends, with events",
        "cut where something is in flight, and not matching",
        "under another delay, and not matching",
    ]);
    for case in cases() {
        let (file, trace) = (case.policy_bytes(), read_trace(case.trace_bytes()).numbers);
        let (policy, None) = vigambul_model::policy::read(file) else {
            continue;
        };
        // The model says where nothing is in flight; the log is the library's.
        let mut run = Run::new(policy, 0, trace);
        let mut log = vec![0; run.log.len()];
        assert_eq!(Library.run(file, &run.trace, &mut log), 0);
        run.log = log;
        let random = &mut Random::new(!case.seed);
        let delay = run.policy.timing.response_delay;
        let end = run.trace.len();
        let places = run.cuts();
        for part in 0..4 {
            let mut ends = match part {
                0 => [0, end],
                3 => [0; 2].map(|_| random.below(run.moments.len())),
                _ => [0; 2].map(|_| places[random.below(places.len())]),
            };
            ends.sort();
            let stretch = run.stretch(ends[0], ends[1]);
            let (wires, cores) = (recorded(Wires, stretch), recorded(Cores, stretch));
            let answer = Library.match_recordings(&wires, &cores, delay);
            let full = answer == (0, 0, wires.len());
            let at_cuts = ends.map(|place| run.moments[place].nothing_in_flight) == [true; 2];
            assert!(full || !at_cuts, "seed {}, {ends:?}: {answer:?}", case.seed);
            assert_eq!(answer.0, 0, "seed {}: sound", case.seed);
            let inside = ends[0] > 0 && ends[1] < end;
            let events = u64::from(!wires.is_empty() && at_cuts);
            tally.add("whole, with events", events * u64::from(part == 0));
            tally.add("cut at both ends, with events", events * u64::from(inside));
            tally.add(
                "cut where something is in flight, and not matching",
                u64::from(!full),
            );
            let other = Library.match_recordings(&wires, &cores, delay + 1);
            tally.add(
                "under another delay, and not matching",
                u64::from(other.1 != 0),
            );
        }
    }
    tally.require_all_met();
}

#[test]
fn recordings_of_a_million_lines() {
    let file = diamond();
    let trace = generated_trace(9, &file, 1_000_000);
    let run = Run::new(accepted(&file), 0, trace);
    let mut log = vec![0; run.log.len()];
    assert_eq!(Library.run(&file, &run.trace, &mut log), 0);
    for of in Recording::BOTH {
        let call = Asked {
            of,
            trace: &run.trace,
            log: &log,
            start: 77,
        };
        let needed = call.needed();
        assert!(needed > 100_000, "{needed}");
        assert_eq!(call.check(&Library, needed, 0), Ok(()));
        assert_eq!(call.check(&Library, needed - 1, 16), Ok(()));
    }
    let whole = Stretch {
        trace: &run.trace,
        log: &log,
        start: 77,
    };
    let delay = run.policy.timing.response_delay;
    let (wires, cores) = (recorded(Wires, whole), recorded(Cores, whole));
    assert_eq!(wires.len(), cores.len());
    let full = (0, 0, wires.len());
    assert_eq!(Library.match_recordings(&wires, &cores, delay), full);
    // One answer dropped, and one activate: the partner stands at the same place of the other recording.
    let middle = wires.len() / 4 * 2;
    for place in [0, middle, wires.len() - 2] {
        let without = |numbers: &[u32]| [&numbers[..place], &numbers[place + 2..]].concat();
        let dropped = Library.match_recordings(&wires, &without(&cores), delay);
        assert_eq!(dropped, (0, 1, place));
        let dropped = Library.match_recordings(&without(&wires), &cores, delay);
        assert_eq!(dropped, (0, 2, place));
    }
    // An odd length is found at the end too.
    let odd = Library.match_recordings(&wires, &cores[..cores.len() - 1], delay);
    assert_eq!(odd, (18, 2, wires.len()));
    let last = wires.len() - 2;
    let mut repeated = wires.clone();
    repeated[last] = repeated[last - 2];
    let repeated = Library.match_recordings(&repeated, &cores, delay);
    assert_eq!(repeated, (18, 1, wires.len()));
}

#[test]
fn recordings_at_the_same_time_do_not_meet() {
    // Each thread has cases of its own; what one leaves behind would show in the other.
    let half = |odd: usize| {
        let few = pairs().skip(odd).step_by(2).take(FEW_PAIRS);
        let difference = compare_checks(&Library, few, &mut tally_of_kinds());
        assert_eq!(difference, None);
        let few = cases().skip(odd).step_by(2).take(FEW_FOLDERS / 2);
        let difference = compare_recordings(&Library, few, &mut Tally::new(CALLS));
        assert_eq!(difference, None);
    };
    std::thread::scope(|scope| {
        scope.spawn(|| half(0));
        scope.spawn(|| half(1));
    });
}
