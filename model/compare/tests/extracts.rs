//! The extracts of the built library beside the model's: for every class of
//! generated folders, and for sets of their classes (W-211), of logs that a run wrote
//! and of logs of any numbers.

mod common;

use common::*;
use vigambul_compare::calls::{Calls, Library, Model, Viewer};
use vigambul_compare::wrong::{
    WithWrongExtract, Wrong, LEAKS, LEAKS_OF_SETS, OTHERS, OTHERS_OF_SETS,
};
use vigambul_model::class_set::{
    kinds, kinds_of_offers, ClassSet, OFFER_KINDS, REFUSED_KINDS, TAKEN_KINDS,
};
use vigambul_model::extract::{extract_set, Seen, HIDDEN_TURN};
use vigambul_model::generate::any_log;
use vigambul_model::planted::{self, Planted};
use vigambul_model::policy::{self, Policy};
use vigambul_model::program::read_trace;
use vigambul_model::random::Random;
use vigambul_model::trace::{
    class_bits, tried, Word, COLUMN_BIT, ELIDED, LINE, OFFER_BIT, TRIED_BITS,
};

/// Classes that no policy has. Some would be one of its own in fewer bits.
const NO_CLASSES: [u32; 8] = [16, 31, 32, 255, 256, 65_536, 1 << 31, u32::MAX];

// ---------------------------------------------------------------------------
// Whom extracts are for.

/// The viewers that a folder is tried with.
#[derive(Clone, Copy, PartialEq, Eq)]
enum Viewers {
    /// Every class.
    Classes,
    /// The folder's sets of classes.
    Sets,
}

impl Viewers {
    /// Those that 9 does not refuse.
    fn taken(self, case: &Case, policy: &Policy) -> Vec<Viewer> {
        match self {
            Viewers::Classes => (0..policy.class_count() as u32)
                .map(Viewer::Class)
                .collect(),
            Viewers::Sets => sets(case, |set| set.is_of(policy)),
        }
    }

    /// Those that it refuses.
    fn missing(self, case: &Case, policy: &Policy) -> Vec<Viewer> {
        let n = policy.class_count() as u32;
        match self {
            Viewers::Classes => [n]
                .into_iter()
                .chain(NO_CLASSES)
                .map(Viewer::Class)
                .collect(),
            Viewers::Sets => sets(case, |set| !set.is_of(policy)),
        }
    }

    /// Those that a refused file is tried with.
    fn of_refused_file(self) -> Vec<Viewer> {
        match self {
            Viewers::Classes => [0, 1, 15, 16, 31, u32::MAX].map(Viewer::Class).to_vec(),
            Viewers::Sets => [0, 1, 0b110, 1 << 15, 1 << 16, u32::MAX]
                .map(Viewer::Set)
                .to_vec(),
        }
    }

    /// What the calls must meet for these viewers alone.
    fn names(self) -> Vec<&'static str> {
        match self {
            Viewers::Classes => {
                vec![
                    "9, class n",
                    "9, class 31",
                    "9, class 2^32 - 1",
                    "9, another class",
                ]
            }
            Viewers::Sets => {
                let kinds = TAKEN_KINDS.into_iter().chain(REFUSED_KINDS);
                kinds.chain(OFFER_KINDS).collect()
            }
        }
    }
}

/// The sets of a case that fit.
fn sets(case: &Case, fit: impl Fn(&ClassSet) -> bool) -> Vec<Viewer> {
    let fitting = case.sets.iter().filter(|&set| fit(set));
    fitting.map(|set| Viewer::Set(set.0)).collect()
}

// ---------------------------------------------------------------------------
// One call.

/// What an extract is asked of.
#[derive(Clone, Copy)]
struct Asked<'a> {
    file: &'a [u8],
    /// The file as the model reads it, or the number that refuses it.
    policy: &'a Result<Policy, u32>,
    viewer: Viewer,
    trace: &'a [u32],
    log: &'a [u32],
}

impl Asked<'_> {
    /// The numbers that are kept for the viewer.
    fn needed(&self) -> usize {
        let kept = |policy: &Policy| {
            let seen = Seen::by(policy, self.viewer.classes());
            LINE * self.trace.iter().filter(|&&n| seen.keeps(n)).count()
        };
        self.policy.as_ref().map_or(0, kept)
    }

    /// Makes the call with so much room, and compares the count, the status and
    /// every number in the room and around it with the model's. The status must
    /// be the one that the test expects, in the model too.
    fn check(&self, calls: &impl Calls, room: usize, status: u32) -> Result<(), String> {
        let mut lent = Lent::with_room(room);
        let expected = match self.policy {
            Err(number) => (0, *number),
            Ok(policy) => {
                let classes = self.viewer.classes();
                let out = lent.expected();
                let (count, refusal) = extract_set(policy, classes, self.trace, self.log, out);
                (count, refusal.map_or(0, |refusal| refusal.number()))
            }
        };
        assert_eq!(expected.1, status, "the model's status");
        let out = lent.numbers();
        let made = calls.extract(self.file, self.viewer, self.trace, self.log, out);
        let (trace, log) = (self.trace.len(), self.log.len());
        let asked = format!("{}, {trace} trace numbers, a log of {log}", self.viewer);
        lent.compare(made, expected, &asked)
    }
}

// ---------------------------------------------------------------------------
// One folder.

/// What the calls on folders must meet, besides what the extracts show and what is the viewers' own.
const CALLS: [&str; 37] = [
    "folders",
    "policies accepted",
    "extracts of a run's log",
    "extracts of a log of any numbers",
    "extracts of an empty trace",
    "extracts of nothing from a trace that is not empty",
    "room exactly as needed",
    "room for more",
    "16, room short by 1",
    "16, room short by 2",
    "16, room short by 3",
    "16, room short by 4",
    "16, no room",
    "17, a log short by 1",
    "17, a log short by 2",
    "17, a log short by 3",
    "17, a log short by 4",
    "17, a log long by 1",
    "17, a log long by 2",
    "17, a log long by 3",
    "17, a log long by 4",
    "17, a log of no numbers",
    "17, a log as long as the trace",
    "17, a log of what is kept alone",
    "17 before 16",
    "9 before 17",
    "9 before 16",
    "9 before 17 and 16",
    "refusal 1",
    "refusal 2",
    "refusal 3",
    "refusal 4",
    "refusal 5",
    "refusal 6",
    "refusal 7",
    "refusal 8",
    "1 to 8 before 9, 17 and 16",
];

/// Compares extracts on one folder.
fn check_folder(
    calls: &impl Calls,
    case: &Case,
    viewers: Viewers,
    tally: &mut Tally,
    shown: &mut Shown,
) -> Result<(), String> {
    // Any other seed would do; the folder's own would repeat its numbers.
    let random = &mut Random::new(case.seed ^ 0xE7_7AC7);
    let trace = read_trace(case.trace_bytes()).numbers;
    let file = case.policy_bytes();
    let policy = match policy::read(file) {
        (policy, None) => Ok(policy),
        (_, Some(refusal)) => Err(refusal.number()),
    };
    tally.met("folders");
    let asked = |viewer: Viewer| Asked {
        file,
        policy: &policy,
        viewer,
        trace: &trace,
        log: &[],
    };
    let any_log = any_log(random, &trace);
    let Ok(accepted) = &policy else {
        for viewer in viewers.of_refused_file() {
            let call = Asked {
                log: &any_log,
                ..asked(viewer)
            };
            check_refused_file(calls, &call, random, tally)?;
        }
        return Ok(());
    };
    tally.met("policies accepted");
    let mut log = vec![0; LINE * trace.len()];
    let status = calls.run(file, &trace, &mut log);
    if status != 0 || log != model_log(file, &trace).expect("an accepted policy") {
        return Err(format!("the run, of status {status}, is not the model's"));
    }

    for viewer in viewers.taken(case, accepted) {
        for (log, name) in [
            (&log, "extracts of a run's log"),
            (&any_log, "extracts of a log of any numbers"),
        ] {
            let call = Asked {
                log,
                ..asked(viewer)
            };
            check_rooms(calls, &call, random, tally)?;
            check_wrong_logs(calls, &call, random, tally)?;
            tally.met(name);
            shown.count(accepted, viewer, &trace, log);
        }
        count_viewer(accepted, viewer, &trace, tally);
    }
    for viewer in viewers.missing(case, accepted) {
        let log = if random.below(2) == 0 { &log } else { &any_log };
        let call = Asked {
            log,
            ..asked(viewer)
        };
        check_missing_class(calls, &call, random, tally)?;
        count_viewer(accepted, viewer, &trace, tally);
    }
    Ok(())
}

/// Counts what is the viewer's own.
fn count_viewer(policy: &Policy, viewer: Viewer, trace: &[u32], tally: &mut Tally) {
    let n = policy.class_count();
    let classes = viewer.classes();
    match viewer {
        Viewer::Class(class) if (class as usize) < n => {}
        Viewer::Class(class) if class as usize == n => tally.met("9, class n"),
        Viewer::Class(31) => tally.met("9, class 31"),
        Viewer::Class(u32::MAX) => tally.met("9, class 2^32 - 1"),
        Viewer::Class(_) => tally.met("9, another class"),
        Viewer::Set(_) => {
            kinds(policy, classes)
                .into_iter()
                .for_each(|kind| tally.met(kind));
            if classes.is_of(policy) {
                kinds_of_offers(policy, classes, trace).for_each(|kind| tally.met(kind));
            }
        }
    }
}

/// Rooms around what is needed: 16, or an extract.
fn check_rooms(
    calls: &impl Calls,
    call: &Asked,
    random: &mut Random,
    tally: &mut Tally,
) -> Result<(), String> {
    let needed = call.needed();
    call.check(calls, needed, 0)?;
    tally.met("room exactly as needed");
    call.check(calls, needed + 1 + random.below(40), 0)?;
    tally.met("room for more");
    for short in (1..=4).filter(|&short| short <= needed) {
        call.check(calls, needed - short, 16)?;
        tally.met(&format!("16, room short by {short}"));
    }
    if needed > 0 {
        call.check(calls, 0, 16)?;
        tally.met("16, no room");
    } else if call.trace.is_empty() {
        tally.met("extracts of an empty trace");
    } else {
        tally.met("extracts of nothing from a trace that is not empty");
    }
    Ok(())
}

/// Logs of a wrong length: 17, whether the room is enough or not.
fn check_wrong_logs(
    calls: &impl Calls,
    call: &Asked,
    random: &mut Random,
    tally: &mut Tally,
) -> Result<(), String> {
    let (right, needed) = (call.log.len(), call.needed());
    let longer = [call.log, &[0, 0x8000_0001, 1, 2]].concat();
    let by = 1 + random.below(4);
    let lengths = [
        (right.checked_sub(by), format!("17, a log short by {by}")),
        (Some(right + by), format!("17, a log long by {by}")),
        (Some(0), "17, a log of no numbers".to_string()),
        (
            Some(call.trace.len()),
            "17, a log as long as the trace".into(),
        ),
        (Some(needed), "17, a log of what is kept alone".into()),
    ];
    for (length, name) in lengths {
        let Some(length) = length.filter(|&length| length != right) else {
            continue;
        };
        let wrong = Asked {
            log: &longer[..length],
            ..*call
        };
        wrong.check(calls, needed + random.below(2), 17)?;
        tally.met(&name);
        if needed > 0 {
            wrong.check(calls, needed - 1 - random.below(needed), 17)?;
            tally.met("17 before 16");
        }
    }
    Ok(())
}

/// A class that the policy does not have, or a set with one: 9, whatever else is wrong.
fn check_missing_class(
    calls: &impl Calls,
    call: &Asked,
    random: &mut Random,
    tally: &mut Tally,
) -> Result<(), String> {
    let room = call.log.len();
    call.check(calls, room, 9)?;
    // Room for no line of a tick, which every class would keep.
    let ticks = call.trace.iter().filter(|&&number| number == 0).count();
    let short = (LINE * ticks).checked_sub(1 + random.below(4));
    if let Some(short) = short {
        call.check(calls, short, 9)?;
        tally.met("9 before 16");
    }
    let longer = [call.log, &[0]].concat();
    let length = match random.below(2) {
        0 => longer.len(),
        _ => random.below(call.log.len()),
    };
    let wrong = Asked {
        log: &longer[..length],
        ..*call
    };
    if length != call.log.len() {
        wrong.check(calls, room, 9)?;
        tally.met("9 before 17");
        if let Some(short) = short {
            wrong.check(calls, short, 9)?;
            tally.met("9 before 17 and 16");
        }
    }
    Ok(())
}

/// A refused file: its number, whatever else is wrong.
fn check_refused_file(
    calls: &impl Calls,
    call: &Asked,
    random: &mut Random,
    tally: &mut Tally,
) -> Result<(), String> {
    let number = *call.policy.as_ref().expect_err("the file is refused");
    call.check(calls, call.log.len(), number)?;
    tally.met(&format!("refusal {number}"));
    call.check(calls, random.below(call.log.len()), number)?;
    let longer = [call.log, &[0]].concat();
    let wrong = Asked {
        log: &longer,
        ..*call
    };
    wrong.check(calls, call.log.len() + 1, number)?;
    wrong.check(calls, 0, number)?;
    tally.met("1 to 8 before 9, 17 and 16");
    Ok(())
}

// ---------------------------------------------------------------------------
// What the extracts show.

/// Counts of lines by what an extract does with them, each from the sentences of
/// document 01.
#[derive(Default)]
struct Shown {
    offers_kept: u64,
    refused_offers_kept: u64,
    offers_kept_with_any_numbers: u64,
    hidden_offers_dropped: u64,
    missing_offers_dropped: u64,
    offers_of_ranks_kept: u64,
    refused_offers_of_ranks_kept: u64,
    offers_of_ranks_dropped: u64,
    malformed_words_dropped: u64,
    ticks_kept: u64,
    refused_ticks_kept: u64,
    commands_seen: u64,
    columns_seen: u64,
    ranks_seen: u64,
    commands_hidden: u64,
    commands_of_missing_classes: u64,
    answers_seen: u64,
    answers_hidden: u64,
    answers_of_missing_classes: u64,
    no_offers_seen: u64,
    no_offers_hidden: u64,
    owners_seen: u64,
    dropped_dead_times_seen: u64,
    walks_seen: u64,
    turns_with_stray_bits_seen: u64,
    owners_hidden: u64,
    walks_hidden: u64,
    turns_of_zero: u64,
    turns_of_low_byte_zero: u64,
    turns_of_512: u64,
    turns_of_class_n: u64,
    turns_of_classes_above: u64,
}

impl Shown {
    fn counts(&self) -> [(&'static str, u64); 32] {
        [
            ("offers kept", self.offers_kept),
            ("offers kept, refused", self.refused_offers_kept),
            (
                "offers kept, with any numbers after the status",
                self.offers_kept_with_any_numbers,
            ),
            (
                "offers of hidden classes dropped",
                self.hidden_offers_dropped,
            ),
            (
                "offers of missing classes dropped",
                self.missing_offers_dropped,
            ),
            // W-206.
            (
                "offers of ranks other than 0 kept",
                self.offers_of_ranks_kept,
            ),
            (
                "offers of ranks other than 0 kept, refused with ten timing bytes",
                self.refused_offers_of_ranks_kept,
            ),
            (
                "offers of ranks other than 0 dropped",
                self.offers_of_ranks_dropped,
            ),
            ("malformed words dropped", self.malformed_words_dropped),
            ("ticks kept", self.ticks_kept),
            ("ticks kept, refused", self.refused_ticks_kept),
            ("commands seen", self.commands_seen),
            ("commands seen, columns", self.columns_seen),
            (
                "commands and answers of ranks other than 0 seen",
                self.ranks_seen,
            ),
            ("commands hidden", self.commands_hidden),
            (
                "commands of missing classes hidden",
                self.commands_of_missing_classes,
            ),
            ("answers seen", self.answers_seen),
            ("answers hidden", self.answers_hidden),
            (
                "answers of missing classes hidden",
                self.answers_of_missing_classes,
            ),
            (
                "commands and answers without bit 31 seen",
                self.no_offers_seen,
            ),
            (
                "commands and answers without bit 31 hidden",
                self.no_offers_hidden,
            ),
            ("owners seen", self.owners_seen),
            (
                "owners seen, dead time dropped",
                self.dropped_dead_times_seen,
            ),
            (
                "owners seen, after walks of two classes or more",
                self.walks_seen,
            ),
            (
                "owners seen, bits that are no field's",
                self.turns_with_stray_bits_seen,
            ),
            ("owners hidden by 512", self.owners_hidden),
            (
                "owners hidden by 512, after walks of two classes or more",
                self.walks_hidden,
            ),
            ("turn numbers of 0", self.turns_of_zero),
            (
                "turn numbers of low byte 0 hidden by 512",
                self.turns_of_low_byte_zero,
            ),
            ("turn numbers of 512", self.turns_of_512),
            (
                "turn numbers of class n hidden by 512",
                self.turns_of_class_n,
            ),
            (
                "turn numbers of classes above n hidden by 512",
                self.turns_of_classes_above,
            ),
        ]
    }

    fn count(&mut self, policy: &Policy, viewer: Viewer, trace: &[u32], log: &[u32]) {
        let n = policy.class_count();
        let seen = Seen::by(policy, viewer.classes());
        let sees = |other: usize| seen.has(other);
        for (&number, line) in trace.iter().zip(log.chunks_exact(LINE)) {
            match Word::of(number) {
                Word::Malformed => self.malformed_words_dropped += 1,
                Word::Offer(request) => {
                    let of_rank = u64::from(request.rank != 0);
                    let ten_bytes = u64::from(policy.timing.rank_gap.is_none());
                    match usize::from(request.class) {
                        other if sees(other) => {
                            self.offers_kept += 1;
                            self.refused_offers_kept += u64::from(line[0] != 0);
                            self.offers_kept_with_any_numbers += u64::from(line[1..] != [0; 3]);
                            self.offers_of_ranks_kept += of_rank;
                            self.refused_offers_of_ranks_kept += of_rank * ten_bytes;
                        }
                        other => {
                            self.missing_offers_dropped += u64::from(other >= n);
                            self.hidden_offers_dropped += u64::from(other < n);
                            self.offers_of_ranks_dropped += of_rank;
                        }
                    }
                }
                Word::Tick => {
                    self.ticks_kept += 1;
                    self.refused_ticks_kept += u64::from(line[0] != 0);
                    self.count_words(n, sees, [line[1], line[2]]);
                    self.count_turn(n, sees, line[3]);
                }
            }
        }
    }

    fn count_words(&mut self, n: usize, sees: impl Fn(usize) -> bool, words: [u32; 2]) {
        for (place, word) in words.into_iter().enumerate() {
            if word == 0 {
                continue;
            }
            let command = place == 0;
            let other = usize::from(class_bits(word));
            let no_offer = u64::from(word & OFFER_BIT == 0);
            if sees(other) {
                self.no_offers_seen += no_offer;
                self.ranks_seen += u64::from(word >> 22 & 3 != 0);
                if command {
                    self.commands_seen += 1;
                    self.columns_seen += u64::from(word & COLUMN_BIT != 0);
                } else {
                    self.answers_seen += 1;
                }
                continue;
            }
            self.no_offers_hidden += no_offer;
            match (command, other < n) {
                (true, true) => self.commands_hidden += 1,
                (true, false) => self.commands_of_missing_classes += 1,
                (false, true) => self.answers_hidden += 1,
                (false, false) => self.answers_of_missing_classes += 1,
            }
        }
    }

    fn count_turn(&mut self, n: usize, sees: impl Fn(usize) -> bool, turn: u32) {
        self.turns_of_512 += u64::from(turn == HIDDEN_TURN);
        match (turn, (turn & 0xFF) as usize) {
            (0, _) => self.turns_of_zero += 1,
            (_, 0) => self.turns_of_low_byte_zero += 1,
            (_, low) if low - 1 == n => self.turns_of_class_n += 1,
            (_, low) if low - 1 > n => self.turns_of_classes_above += 1,
            (_, low) if sees(low - 1) => {
                self.owners_seen += 1;
                self.dropped_dead_times_seen += u64::from(turn & ELIDED != 0);
                self.walks_seen += u64::from(tried(turn) > 1);
                let stray = turn & !(TRIED_BITS | 0x1FF);
                self.turns_with_stray_bits_seen += u64::from(stray != 0);
            }
            _ => {
                self.owners_hidden += 1;
                self.walks_hidden += u64::from(tried(turn) > 1);
            }
        }
    }
}

// ---------------------------------------------------------------------------
// The tests.

/// Compares extracts on folders, up to the first difference, which is told.
fn compare(
    calls: &impl Calls,
    viewers: Viewers,
    cases: impl Iterator<Item = Case>,
    tally: &mut Tally,
) -> Option<String> {
    let mut shown = Shown::default();
    for case in cases {
        if let Err(why) = check_folder(calls, &case, viewers, tally, &mut shown) {
            return Some(format!("seed {} ({}): {why}", case.seed, case.change));
        }
    }
    for (name, count) in shown.counts() {
        tally.add(name, count);
    }
    None
}

fn tally(viewers: Viewers) -> Tally {
    let shown = Shown::default().counts().map(|(name, _)| name);
    Tally::new(CALLS.into_iter().chain(shown).chain(viewers.names()))
}

/// What is found in so many folders as something wrong must be found in.
fn found(calls: &impl Calls, viewers: Viewers) -> Option<String> {
    compare(calls, viewers, cases().take(200), &mut tally(viewers))
}

fn check_library(viewers: Viewers) {
    let mut tally = tally(viewers);
    assert_eq!(compare(&Library, viewers, cases(), &mut tally), None);
    tally.require_all_met();
}

#[test]
fn the_library_extracts_what_the_model_extracts() {
    check_library(Viewers::Classes);
}

#[test]
fn the_library_extracts_for_sets_what_the_model_extracts() {
    check_library(Viewers::Sets);
}

/// "A set of one class gives the extract as it was": of the library's two functions one is held against the
/// other, for every class and some that no policy has.
#[test]
fn the_librarys_sets_of_one_class_are_its_classes() {
    let mut statuses = Tally::new(["0", "1", "2", "3", "4", "5", "6", "7", "8", "9", "16", "17"]);
    for case in cases().take(1_000) {
        let random = &mut Random::new(case.seed);
        let trace = read_trace(case.trace_bytes()).numbers;
        let mut log = any_log(random, &trace);
        for class in 0..32 {
            if random.below(8) == 0 {
                log.push(0);
            }
            let room = random.below(LINE * trace.len() + 9);
            let [of_class, of_set] =
                [Viewer::Class(class), Viewer::Set(1 << class)].map(|viewer| {
                    let mut out = vec![0x5AA5_5AA5; room];
                    let answer =
                        Library.extract(case.policy_bytes(), viewer, &trace, &log, &mut out);
                    (answer, out)
                });
            assert_eq!(of_class, of_set, "seed {}, class {class}", case.seed);
            let ((_, status), _) = of_class;
            statuses.met(&status.to_string());
            log.truncate(LINE * trace.len());
        }
    }
    statuses.require_all_met();
}

#[test]
fn every_wrong_extract_is_found() {
    for wrong in LEAKS.into_iter().chain(OTHERS) {
        let found = found(&WithWrongExtract(wrong), Viewers::Classes);
        println!("{wrong:?}: {found:?}");
        assert!(found.is_some(), "{wrong:?} was not found");
    }
}

/// What is wrong for one class is wrong for sets too, but for one thing that sets do not have.
#[test]
fn every_wrong_extract_for_sets_is_found() {
    let of_sets = LEAKS_OF_SETS.into_iter().chain(OTHERS_OF_SETS);
    for wrong in LEAKS.into_iter().chain(OTHERS).chain(of_sets) {
        if wrong == Wrong::TakesClassesByTheirLowByte {
            continue;
        }
        let found = found(&WithWrongExtract(wrong), Viewers::Sets);
        println!("{wrong:?}: {found:?}");
        assert!(found.is_some(), "{wrong:?} was not found");
    }
    // The model's own: those that leak and the one that does not.
    for planted in planted::LEAKS_OF_SETS
        .into_iter()
        .chain([Planted::RoomBeforeClass])
    {
        let found = found(&Model(planted), Viewers::Sets);
        println!("{planted:?}: {found:?}");
        assert!(found.is_some(), "{planted:?} was not found");
    }
}

#[test]
fn nothing_is_found_where_nothing_is_wrong() {
    for viewers in [Viewers::Classes, Viewers::Sets] {
        assert_eq!(found(&WithWrongExtract(Wrong::Nothing), viewers), None);
        assert_eq!(found(&Model(Planted::Nothing), viewers), None);
    }
}

#[test]
fn a_log_of_a_million_lines() {
    let file = diamond();
    let policy = Ok(policy::read(&file).0);
    let trace = generated_trace(7, &file, 1_000_000);
    let mut log = vec![0; LINE * trace.len()];
    assert_eq!(Library.run(&file, &trace, &mut log), 0);
    let classes = (0..4).map(Viewer::Class);
    // None, two that are incomparable, and a class with one above it.
    for viewer in classes.chain([0, 0b1001, 0b0011].map(Viewer::Set)) {
        let call = Asked {
            file: &file,
            policy: &policy,
            viewer,
            trace: &trace,
            log: &log,
        };
        assert_eq!(call.check(&Library, call.needed(), 0), Ok(()));
        assert_eq!(call.check(&Library, call.needed() - 1, 16), Ok(()));
    }
}

#[test]
fn extracts_at_the_same_time_do_not_meet() {
    // Each thread has cases of its own; what one leaves behind would show in
    // the other.
    let half = |odd: usize, viewers: Viewers| {
        let cases = cases().skip(odd).step_by(2).take(150);
        let difference = compare(&Library, viewers, cases, &mut tally(viewers));
        assert_eq!(difference, None);
    };
    std::thread::scope(|scope| {
        scope.spawn(|| half(0, Viewers::Classes));
        scope.spawn(|| half(1, Viewers::Sets));
    });
}
