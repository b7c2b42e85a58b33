//! W-211, "Tenants who compare notes": extracts for sets of classes, by cases made by hand and on generated
//! folders, and what holds between the extracts for different sets.

mod common;

use std::collections::{BTreeMap, BTreeSet};

use common::*;
use vigambul_model::class_set::{kinds, ClassSet, LAST_BIT, REFUSED_KINDS, TAKEN_KINDS};
use vigambul_model::extract::{extract, extract_set, extract_set_planted, Seen};
use vigambul_model::generate::{self, any_log, chain_rows};
use vigambul_model::leaks::purge;
use vigambul_model::planted::{Planted, LEAKS_OF_SETS};
use vigambul_model::policy::{self, Policy};
use vigambul_model::program::read_trace;
use vigambul_model::random::Random;
use vigambul_model::refusal::{status, Refusal};
use vigambul_model::trace::{Word, LINE};

/// What stands in a slice before an extract writes into it.
const UNWRITTEN: u32 = 77;

/// A set by its members.
fn set(members: &[usize]) -> ClassSet {
    members.iter().copied().map(ClassSet::of).collect()
}

/// An extract: what it handed back, and the whole slice after it.
type Outcome = ((usize, Option<Refusal>), Vec<u32>);

fn extract_into(
    policy: &Policy,
    classes: ClassSet,
    trace: &[u32],
    log: &[u32],
    room: usize,
) -> Outcome {
    let mut out = vec![UNWRITTEN; room];
    let answer = extract_set(policy, classes, trace, log, &mut out);
    (answer, out)
}

/// The extract with room enough, which must not be refused.
fn extracted(policy: &Policy, classes: ClassSet, trace: &[u32], log: &[u32]) -> Vec<u32> {
    let ((count, refusal), mut out) = extract_into(policy, classes, trace, log, log.len() + 3);
    assert_eq!(refusal, None);
    assert!(out[count..].iter().all(|&number| number == UNWRITTEN));
    out.truncate(count);
    out
}

// ---------------------------------------------------------------------------
// By hand.

/// 0 below 1 and 2: a base and two tenants. In its three turns each of them has one, in rising number.
fn base_and_tenants() -> (Policy, Vec<u32>, Vec<u32>) {
    let policy = policy(&FORK, 3, &[0, 1, 1], TIMING);
    let mut list = vec![read_word(0, 5), read_word(1, 7), 1, read_word(2, 8)];
    list.extend([0; 12]);
    let log = run_fresh(&policy, &list);
    (policy, list, log)
}

/// The lines of a turn's four ticks: an activate, its column command and its answer.
fn turn_of(class: u8, tag: u16, turn: u32) -> Vec<u32> {
    let word = read_word(class, tag);
    [
        [0, word, 0, turn],
        [0, word | 0x4000_0000, 0, 0],
        [0, 0, word, 0],
        [0; 4],
    ]
    .concat()
}

/// The same lines of a turn that is hidden.
fn hidden_turn() -> Vec<u32> {
    [[0, 0, 0, HIDDEN], [0; 4], [0; 4], [0; 4]].concat()
}

#[test]
fn two_tenants_see_together_what_either_sees() {
    let (policy, list, log) = base_and_tenants();
    let offers = |count: usize| vec![0; LINE * count];
    let of_base = turn_of(0, 5, 0x1_0101);
    let of_1 = turn_of(1, 7, 0x1_0002);
    let of_2 = turn_of(2, 8, 0x1_0003);
    let hidden = hidden_turn();
    // The run itself, with the line of the malformed word.
    let run = [offers(2), vec![14, 0, 0, 0], offers(1)].concat();
    assert_eq!(
        log,
        [run, of_base.clone(), of_1.clone(), of_2.clone()].concat()
    );

    let seen = |classes: &[usize]| extracted(&policy, set(classes), &list, &log);
    let lines = |kept: usize, turns: [&[u32]; 3]| [&offers(kept), &turns.concat()[..]].concat();
    assert_eq!(seen(&[0]), lines(1, [&of_base, &hidden, &hidden]));
    assert_eq!(seen(&[1]), lines(2, [&of_base, &of_1, &hidden]));
    assert_eq!(seen(&[2]), lines(2, [&of_base, &hidden, &of_2]));
    let both = lines(3, [&of_base, &of_1, &of_2]);
    assert_eq!(seen(&[1, 2]), both);
    // What a tenant sees, the base may flow to: with it they see no more.
    assert_eq!(seen(&[0, 1]), seen(&[1]));
    assert_eq!(seen(&[0, 2]), seen(&[2]));
    assert_eq!(seen(&[0, 1, 2]), both);
    assert_eq!(seen(&[]), [hidden.clone(), hidden.clone(), hidden].concat());
}

/// 3 is above both tenants. What it alone does, they do not see together either.
#[test]
fn two_tenants_do_not_see_a_class_above_both() {
    let policy = policy(&DIAMOND, 4, &[0, 1, 1, 1], TIMING);
    let mut list: Vec<u32> = (0..4).map(|class| read_word(class, 9)).collect();
    list.extend([0; 16]);
    let log = run_fresh(&policy, &list);
    let owners: Vec<u32> = owners(&log).into_iter().map(|(owner, _)| owner).collect();
    assert_eq!(owners, [0, 1, 2, 3]);
    let seen = extracted(&policy, set(&[1, 2]), &list, &log);
    // The offer of 3 is gone, and so is all of its turn but the start.
    let mut expected = [&log[..12], &log[16..]].concat();
    let last = expected.len() - LINE * 4;
    expected[last..].copy_from_slice(&hidden_turn());
    assert_eq!(seen, expected);
    for classes in [&[3][..], &[1, 3], &[0, 1, 2, 3]] {
        assert_eq!(extracted(&policy, set(classes), &list, &log), log);
    }
}

/// "The empty set keeps the ticks, with no commands or answers and 512 at each turn start."
#[test]
fn the_empty_set_keeps_the_ticks_alone() {
    let policy = policy(&FORK, 4, &[0, 1, 1], TIMING);
    let list = [read_word(0, 1), 0, 1, read_word(9, 0), 0, 0, 0, 0];
    let word = read_word(0, 3);
    #[rustfmt::skip]
    let log = [
        11, 1, 2, 3,
        0, word, word, 1,
        14, 0, 0, 0,
        9, 0, 0, 0,
        12, 0, 0, 0,
        5, 1, word | 0x4000_0000, 0x1_0101,
        u32::MAX, u32::MAX, u32::MAX, u32::MAX,
        0, 0, 0, HIDDEN,
    ];
    #[rustfmt::skip]
    let expected = [
        0, 0, 0, HIDDEN,
        12, 0, 0, 0,
        5, 0, 0, HIDDEN,
        u32::MAX, 0, 0, HIDDEN,
        0, 0, 0, HIDDEN,
    ];
    assert_eq!(extracted(&policy, ClassSet::EMPTY, &list, &log), expected);
    // Of a trace without ticks nothing is left.
    let offers = [read_word(0, 1); 3];
    assert_eq!(
        extracted(&policy, ClassSet::EMPTY, &offers, &[7; 12]),
        [0; 0]
    );
}

/// The numbers that four extracts get, each wrong in one way less than the one before.
fn order_of_refusals(planted: Planted) -> [u32; 4] {
    let fit = policy(&FORK, 4, &[0, 1, 1], TIMING);
    let mut unfit = fit.clone();
    unfit.caps[0] += 1;
    let (with_3, of_5) = (set(&[1, 3]), [0; 5]);
    let number = |policy: &Policy, classes: ClassSet, log: &[u32]| {
        let mut out = [UNWRITTEN; 3];
        let outcome = extract_set_planted(policy, classes, &[0], log, &mut out, planted);
        assert_eq!(out, [UNWRITTEN; 3], "a refused extract writes nothing");
        status(&outcome)
    };
    [
        number(&unfit, with_3, &of_5),
        number(&fit, with_3, &of_5),
        number(&fit, set(&[1, 2]), &of_5),
        number(&fit, set(&[1, 2]), &[0; 4]),
    ]
}

#[test]
fn sets_are_refused_in_the_order_13_9_17_16() {
    assert_eq!(order_of_refusals(Planted::Nothing), [13, 9, 17, 16]);
}

/// It leaks nothing (`leaks.rs`), so this is where it must be found.
#[test]
fn the_order_tells_16_before_9() {
    assert_eq!(
        order_of_refusals(Planted::RoomBeforeClass),
        [13, 16, 17, 16]
    );
}

/// 13 is asked of the policy alone, and of the empty set too.
#[test]
fn every_set_is_refused_under_an_unfit_policy() {
    let mut unfit = policy(&FORK, 4, &[0, 1, 1], TIMING);
    unfit.rows[1] = 0;
    for policy in [unfit, Policy::of_no_classes()] {
        for classes in [0, 1, 0b111, 1 << 16, u32::MAX].map(ClassSet) {
            let outcome = extract_into(&policy, classes, &[], &[], 2);
            let refused = (0, Some(Refusal::OutOfRange));
            assert_eq!(outcome, (refused, vec![UNWRITTEN; 2]), "{classes}");
        }
    }
}

/// Each bit at n or above gets 9, alone and beside any of the others; none below does.
#[test]
fn any_bit_at_n_or_above_gets_9() {
    for n in [1, 2, 15, 16] {
        let policy = policy(&chain_rows(n), 64, &vec![0; n], TIMING);
        let all = ClassSet::below(n);
        for class in 0..=LAST_BIT {
            for own in [ClassSet::EMPTY, ClassSet::of(0), all] {
                let (answer, out) =
                    extract_into(&policy, own | ClassSet::of(class), &[0], &[0; 4], 4);
                let expected = match class < n {
                    true => ((4, None), vec![0; 4]),
                    false => ((0, Some(Refusal::Class)), vec![UNWRITTEN; 4]),
                };
                assert_eq!((answer, out), expected, "n = {n}, class {class} with {own}");
            }
        }
        for classes in [u32::MAX, u32::MAX << n, u32::MAX << 16].map(ClassSet) {
            let (answer, _) = extract_into(&policy, classes, &[0], &[0; 4], 4);
            assert_eq!(answer, (0, Some(Refusal::Class)), "n = {n}, {classes}");
        }
    }
}

/// Exactly enough room is enough, one number less is not, and what is past the count stays.
#[test]
fn room_is_asked_for_what_the_set_keeps() {
    let (policy, list, log) = base_and_tenants();
    let ticks = 12;
    for (classes, offers) in [
        (0, 0),
        (1, 1),
        (2, 2),
        (3, 2),
        (4, 2),
        (5, 2),
        (6, 3),
        (7, 3),
    ] {
        let needed = LINE * (ticks + offers);
        for room in [
            0,
            LINE,
            needed - LINE,
            needed - 1,
            needed,
            needed + 1,
            needed + 9,
        ] {
            let (answer, out) = extract_into(&policy, ClassSet(classes), &list, &log, room);
            if room < needed {
                assert_eq!(
                    answer,
                    (0, Some(Refusal::ExtractTooShort)),
                    "{classes}, {room}"
                );
                assert_eq!(out, vec![UNWRITTEN; room], "{classes}, {room}");
            } else {
                assert_eq!(answer, (needed, None), "{classes}, {room}");
                assert_eq!(out[needed..], vec![UNWRITTEN; room - needed]);
            }
        }
    }
}

#[test]
fn a_set_is_written_and_read_as_a_list() {
    for (number, text) in [
        (0, "none"),
        (1, "0"),
        (0b110, "1,2"),
        (0x8000, "15"),
        (0x8001_0001, "0,16,31"),
    ] {
        assert_eq!(ClassSet(number).to_string(), text);
        assert_eq!(text.parse(), Ok(ClassSet(number)));
    }
    // Any order will do, and a class named twice is in it once.
    assert_eq!("2,1,2".parse(), Ok(ClassSet(0b110)));
    // Numbers without a bit are classes that no policy has, as 31 is.
    assert_eq!("1,40".parse(), Ok(ClassSet(0x8000_0002)));
    for wrong in ["", ",", "1,", ",1", "1 2", "-1", "None", "none,1", "0x3"] {
        assert!(wrong.parse::<ClassSet>().is_err(), "{wrong:?}");
    }
}

// ---------------------------------------------------------------------------
// On generated folders.

/// So many folders, from a seed on that no other test uses.
const FOLDERS: std::ops::Range<u64> = 40_000..40_600;

/// A folder with an accepted policy, and two logs of its trace: the run's, and one of any numbers.
struct Accepted {
    seed: u64,
    policy: Policy,
    trace: Vec<u32>,
    logs: [Vec<u32>; 2],
    /// Sets that 9 does not refuse, and others.
    taken: Vec<ClassSet>,
    refused: Vec<ClassSet>,
}

fn accepted_folders() -> impl Iterator<Item = Accepted> {
    FOLDERS.filter_map(|seed| {
        let folder = generate::folder(seed);
        let (policy, refusal) = policy::read(&folder.policy);
        if refusal.is_some() {
            return None;
        }
        let mut trace = read_trace(&folder.trace).numbers;
        // Long traces show no more of extracts than shorter ones.
        trace.truncate(600);
        let any = any_log(&mut Random::new(!seed), &trace);
        let (taken, refused) = folder.sets.iter().partition(|set| set.is_of(&policy));
        Some(Accepted {
            seed,
            logs: [run_fresh(&policy, &trace), any],
            policy,
            trace,
            taken,
            refused,
        })
    })
}

impl Accepted {
    /// Each set that 9 does not refuse, with each log.
    fn asked(&self) -> impl Iterator<Item = (ClassSet, &[u32])> {
        let with_logs = |&set| self.logs.iter().map(move |log| (set, log.as_slice()));
        self.taken.iter().flat_map(with_logs)
    }

    fn extracted(&self, classes: ClassSet, log: &[u32]) -> Vec<u32> {
        extracted(&self.policy, classes, &self.trace, log)
    }

    /// The trace numbers that a set keeps.
    fn kept(&self, classes: ClassSet) -> Vec<u32> {
        purge(Seen::by(&self.policy, classes), &self.trace)
    }

    fn at(&self, classes: ClassSet) -> String {
        format!("seed {}, classes {classes}", self.seed)
    }
}

/// What a set sees by the bits of rows: a class is seen if its row and the set share a bit.
fn expected(policy: &Policy, classes: u32, trace: &[u32], log: &[u32]) -> Vec<u32> {
    let row = |class: u32| policy.rows.get(class as usize).copied().unwrap_or(0);
    let seen = |class: u32| u32::from(row(class)) & classes != 0;
    extract_in_words(seen, trace, log)
}

#[test]
fn generated_sets_see_what_the_sentences_say() {
    let mut met: BTreeMap<&str, u64> = BTreeMap::new();
    for folder in accepted_folders() {
        let (policy, trace) = (&folder.policy, &folder.trace);
        for (classes, log) in folder.asked() {
            let expected = expected(policy, classes.0, trace, log);
            assert_eq!(
                folder.extracted(classes, log),
                expected,
                "{}",
                folder.at(classes)
            );
        }
        // 9, whether the log and the room are right or not.
        for &classes in &folder.refused {
            let [run, any] = &folder.logs;
            let longer = [any, &[0][..]].concat();
            for (log, room) in [
                (run, run.len()),
                (any, 0),
                (&longer, run.len()),
                (&longer, 0),
            ] {
                let outcome = extract_into(policy, classes, trace, log, room);
                let refused = ((0, Some(Refusal::Class)), vec![UNWRITTEN; room]);
                assert_eq!(outcome, refused, "{}", folder.at(classes));
            }
        }
        let sets = folder.taken.iter().chain(&folder.refused);
        for kind in sets.flat_map(|&set| kinds(policy, set)) {
            *met.entry(kind).or_default() += 1;
        }
    }
    println!("{met:#?}");
    for kind in TAKEN_KINDS.into_iter().chain(REFUSED_KINDS) {
        assert!(met.contains_key(kind), "no {kind}");
    }
}

/// "A set of one class gives the extract as it was": status, count and every number of the room, for every
/// class, with logs and rooms that are right and wrong. How it was, the sentences of document 01 say.
#[test]
fn a_set_of_one_class_gives_the_extract_as_it_was() {
    let random = &mut Random::new(11);
    let mut numbers = BTreeSet::new();
    for folder in accepted_folders() {
        let (policy, trace) = (&folder.policy, &folder.trace);
        let n = policy.class_count();
        let asked = (0..=n).chain([16, 31]);
        for (class, log) in asked.flat_map(|class| folder.logs.iter().map(move |log| (class, log)))
        {
            let expected = expected(policy, 1 << class, trace, log);
            let room = match random.below(4) {
                0 => expected.len(),
                1 => expected.len().saturating_sub(1),
                2 => random.below(expected.len() + 1),
                _ => expected.len() + random.below(9),
            };
            let log = match random.below(8) {
                0 => &log[..random.below(log.len() + 1)],
                _ => log,
            };
            let mut out = vec![UNWRITTEN; room];
            let answer = extract(policy, class, trace, log, &mut out);
            let of_set = extract_into(policy, ClassSet(1 << class), trace, log, room);
            let at = folder.at(ClassSet(1 << class));
            assert_eq!((answer, out.clone()), of_set, "{at}");

            let refusal = if class >= n {
                Some(Refusal::Class)
            } else if log.len() != LINE * trace.len() {
                Some(Refusal::LogNotOfTrace)
            } else {
                (room < expected.len()).then_some(Refusal::ExtractTooShort)
            };
            let written = if refusal.is_none() {
                expected
            } else {
                Vec::new()
            };
            assert_eq!(answer, (written.len(), refusal), "{at}");
            assert_eq!(out[..written.len()], written, "{at}");
            assert!(
                out[written.len()..]
                    .iter()
                    .all(|&number| number == UNWRITTEN),
                "{at}"
            );
            numbers.insert(refusal.map_or(0, Refusal::number));
        }
    }
    assert_eq!(numbers, BTreeSet::from([0, 9, 16, 17]));
}

/// What wrong rules for sets show, by the kinds of sets for which they differ from the right one. Those that
/// leak do so for the empty set or for incomparable classes (`leaks.rs`); all the rest only this comparison
/// tells.
#[test]
fn wrong_rules_for_sets_differ_where_they_are_said_to() {
    let rules = LEAKS_OF_SETS;
    let mut differ = rules.map(|_| BTreeSet::new());
    for folder in accepted_folders() {
        for (classes, log) in folder.asked() {
            let right = folder.extracted(classes, log);
            for (rule, differ) in rules.into_iter().zip(&mut differ) {
                let mut out = vec![UNWRITTEN; log.len()];
                let (policy, trace) = (&folder.policy, &folder.trace);
                let count = extract_set_planted(policy, classes, trace, log, &mut out, rule);
                if out[..count.expect("room enough")] != right {
                    differ.extend(kinds(policy, classes));
                }
            }
        }
    }
    let [empty, _, incomparable, below, some, all] = TAKEN_KINDS;
    for (rule, differ) in rules.into_iter().zip(differ) {
        let expected = match rule {
            Planted::KeptForEveryMember => vec![empty, incomparable, below, some, all],
            Planted::SetAsItsJoin => vec![incomparable, some],
            _ => vec![empty],
        };
        assert_eq!(differ, BTreeSet::from_iter(expected), "{rule:?}");
    }
}

// ---------------------------------------------------------------------------
// Between sets.

/// Of sets A and B with every class of A flowing to a member of B, A's extract is the extract for A of B's, with
/// what B keeps of the trace as its trace. Where a class of A may not flow to B, it need not be.
#[test]
fn the_extract_of_an_extract() {
    let random = &mut Random::new(12);
    let mut met: BTreeMap<&str, u64> = BTreeMap::new();
    for folder in accepted_folders() {
        for (outer, log) in folder.asked() {
            let seen = Seen::by(&folder.policy, outer);
            let kept = folder.kept(outer);
            let of_outer = folder.extracted(outer, log);
            let classes = 0..folder.policy.class_count();
            let some: Vec<usize> = classes.filter(|_| random.below(2) == 0).collect();
            let inner = set(&some).members().filter(|&class| seen.has(class));
            let inner: ClassSet = inner.map(ClassSet::of).collect();
            for classes in [inner, set(&some)] {
                let of_inner = folder.extracted(classes, log);
                let again = extracted(&folder.policy, classes, &kept, &of_outer);
                if classes == inner {
                    assert_eq!(again, of_inner, "{}, of {outer}", folder.at(inner));
                }
                let name = match (classes == inner, of_inner == of_outer) {
                    (true, _) if inner.is_empty() => "the empty set's",
                    (true, true) => "the same as the other set's",
                    (true, false) if inner | outer == outer => "less, of a subset",
                    (true, false) => "less, of no subset",
                    (false, _) if again != of_inner => "lost, of classes that may not flow",
                    (false, _) => "not lost, though classes may not flow",
                };
                *met.entry(name).or_default() += 1;
            }
        }
    }
    println!("{met:#?}");
    assert_eq!(met.len(), 6, "{met:?}");
    assert!(met.values().all(|&count| count > 20), "{met:?}");
}

/// The extract for a set with a member, put together from the trace numbers that it keeps and the extracts of
/// its members.
fn put_together(policy: &Policy, kept: &[u32], members: &[(usize, Vec<u32>)]) -> Vec<u32> {
    let mut places = vec![0; members.len()];
    let mut whole = Vec::new();
    for &number in kept {
        // The line of each member that has one for this number.
        let mut lines = Vec::new();
        for ((member, numbers), place) in members.iter().zip(&mut places) {
            let has = match Word::of(number) {
                Word::Offer(request) => policy.flows(usize::from(request.class), *member),
                _ => true,
            };
            if has {
                lines.push(&numbers[*place..*place + LINE]);
                *place += LINE;
            }
        }
        // Of a tick, a number that one member sees is another's 0 or 512; of an offer, all see the same.
        let number_at = |at: usize, hidden: u32| {
            let mut shown = lines.iter().map(|line| line[at]);
            shown.find(|&number| number != hidden).unwrap_or(hidden)
        };
        whole.extend([
            lines[0][0],
            number_at(1, 0),
            number_at(2, 0),
            number_at(3, HIDDEN),
        ]);
    }
    let ends: Vec<usize> = members.iter().map(|(_, numbers)| numbers.len()).collect();
    assert_eq!(places, ends, "each member's extract is used up");
    whole
}

/// The extract of each member of a set.
fn of_members(
    policy: &Policy,
    classes: ClassSet,
    list: &[u32],
    log: &[u32],
) -> Vec<(usize, Vec<u32>)> {
    let of_member = |member| (member, extracted(policy, ClassSet::of(member), list, log));
    classes.members().map(of_member).collect()
}

/// Another list that agrees with one for those who see some classes: some numbers that are struck are left out,
/// and others come in. Its log has the same lines for the numbers that are in both.
fn agreeing(
    random: &mut Random,
    policy: &Policy,
    seen: Seen,
    list: &[u32],
    log: &[u32],
) -> (Vec<u32>, Vec<u32>) {
    let (mut other, mut other_log) = (Vec::new(), Vec::new());
    for (&number, line) in list.iter().zip(log.chunks(LINE)) {
        if seen.keeps(number) || random.below(2) == 0 {
            other.push(number);
            other_log.extend_from_slice(line);
        }
        let more = match random.below(8) {
            0 => generate::malformed_word(random),
            1 => generate::missing_class_word(random, policy),
            _ => continue,
        };
        other.push(more);
        other_log.extend(any_log(random, &[more]));
    }
    (other, other_log)
}

/// For a set with a member, of two logs of lists that agree for the set: the set's extracts are equal if the
/// extracts of each member are, and only then. One bit of the second log is another: it may be in a line that is
/// struck, in what a member sees, or in what none does.
#[test]
fn a_set_sees_what_its_members_see_put_together() {
    let random = &mut Random::new(13);
    let [mut equal, mut different] = [0; 2];
    for folder in accepted_folders() {
        let (policy, trace) = (&folder.policy, &folder.trace);
        for (classes, log) in folder.asked().filter(|(classes, _)| !classes.is_empty()) {
            let at = folder.at(classes);
            let kept = folder.kept(classes);
            let whole = folder.extracted(classes, log);
            let parts = of_members(policy, classes, trace, log);
            assert_eq!(put_together(policy, &kept, &parts), whole, "{at}");

            let seen = Seen::by(policy, classes);
            let (other, mut other_log) = agreeing(random, policy, seen, trace, log);
            assert_eq!(purge(seen, &other), kept, "{at}");
            if !other_log.is_empty() {
                let place = random.below(other_log.len());
                other_log[place] ^= 1 << random.below(32);
            }
            let other_whole = extracted(policy, classes, &other, &other_log);
            let other_parts = of_members(policy, classes, &other, &other_log);
            assert_eq!(whole == other_whole, parts == other_parts, "{at}");
            match whole == other_whole {
                true => equal += usize::from(log != other_log),
                false => different += 1,
            }
        }
    }
    println!("{equal} equal, of different logs; {different} different");
    assert!(equal > 500 && different > 500, "{equal}, {different}");
}

/// Of the empty set there is no member to put anything together from: its extract is the ticks of any other.
#[test]
fn every_extract_has_the_ticks_of_the_empty_set() {
    let mut turns = 0;
    for folder in accepted_folders() {
        for (classes, log) in folder.asked() {
            let kept = folder.kept(classes);
            let of_set = folder.extracted(classes, log);
            let ticks = kept
                .iter()
                .zip(of_set.chunks(LINE))
                .filter(|(&number, _)| number == 0);
            let hidden = |line: &[u32]| [line[0], 0, 0, if line[3] == 0 { 0 } else { HIDDEN }];
            let expected: Vec<u32> = ticks.flat_map(|(_, line)| hidden(line)).collect();
            let of_none = folder.extracted(ClassSet::EMPTY, log);
            assert_eq!(of_none, expected, "{}", folder.at(classes));
            turns += of_none
                .chunks(LINE)
                .filter(|line| line[3] == HIDDEN)
                .count();
        }
    }
    assert!(turns > 1_000, "{turns}");
}
