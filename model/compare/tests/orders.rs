//! W-208, "Every small order": the built library's orders beside the model's, at every place and on generated
//! calls. Then the regression that they are for: each of the 88 policies, as the library hands it out, is run,
//! library against model, and searched for leaks.

mod common;

use std::collections::BTreeSet;
use std::ops::Range;

use common::lists::search;
use common::*;
use vigambul_compare::calls::{Calls, Library, Model, OrderCalls, Viewer};
use vigambul_compare::wrong_orders::{WithWrongOrders, Wrong, ORDERS as WRONG};
use vigambul_model::generate_orders::{
    self, both_timings, call, count, kinds, needed, Call, Run, Target, ORDERS, ORDERS_BY_CLASS,
};
use vigambul_model::leaks::{self, Check, Pair, ORDINARY_PAIRS_OF_ORDERS, PAIRS_OF_ORDERS_ENOUGH};
use vigambul_model::met::{Met, NEVER_OF_ORDERS};
use vigambul_model::orders::{self, Orders};
use vigambul_model::planted::{Planted, LEAKS, NOT_UNDER_SMALL_ORDERS, WRONG_ORDERS};
use vigambul_model::policy::Policy;
use vigambul_model::random::Random;
use vigambul_model::trace::{tried, Word, COLUMN_BIT, ELIDED, LINE};

/// Generated calls. `VIGAMBUL_ORDERS` sets how many.
const CALLS: u64 = 20_000;

/// So many are enough to find what is wrong.
const FEW_CALLS: usize = 2_000;

fn calls() -> impl Iterator<Item = u64> {
    seeds("VIGAMBUL_ORDERS", CALLS)
}

// ---------------------------------------------------------------------------
// Places and calls.

/// Compares the number of bytes, the status, and every byte in the room and around it with the model's, which are
/// those that the call is made for.
fn check_call(library: &impl OrderCalls, call: &Call) -> Result<(), String> {
    let Call {
        n,
        place,
        timing,
        room,
    } = call;
    let mut lent = Lent::with_room(*room);
    let expected = orders::all().order_file(*n, *place, timing, lent.expected());
    assert_eq!(expected, call.expected(), "the model's answer");
    let made = library.order_file(*n, *place, timing, lent.numbers());
    let (length, start) = (timing.len(), &timing[..timing.len().min(12)]);
    let asked = format!("n = {n}, place {place}, {length} timing bytes {start:?}");
    lent.compare(made, expected, &asked)
}

/// What every place must meet.
const PLACES: [&str; 6] = [
    "a file at a place, ten timing bytes",
    "a file at a place, eleven timing bytes",
    "16 at a place, room short by 1",
    "16 at a place, no room",
    "no file at a place past the last",
    "no file at a place past the last, no room",
];

/// Every place of every n, and places past the last, under timings made from the seed.
fn check_places(library: &impl OrderCalls, seed: u64, tally: &mut Tally) -> Result<(), String> {
    let random = &mut Random::new(seed);
    for (n, place) in (1..=4).flat_map(|n| (0..count(n) + 80).map(move |place| (n, place))) {
        let past = place >= count(n);
        for timing in both_timings(random) {
            let needed = needed(n, &timing);
            let file = PLACES[timing.len() - 10];
            let more = needed + 1 + random.below(40);
            for (room, name) in [
                (needed, file),
                (more, file),
                (needed - 1, PLACES[2]),
                (0, PLACES[3]),
            ] {
                let call = Call {
                    n,
                    place,
                    timing: timing.clone(),
                    room,
                };
                check_call(library, &call)?;
                tally.met(match (past, room) {
                    (false, _) => name,
                    (true, 0) => PLACES[5],
                    (true, _) => PLACES[4],
                });
            }
        }
    }
    Ok(())
}

/// Compares all places and some generated calls, up to the first difference, which is told.
fn compare_orders(
    library: &impl OrderCalls,
    seeds: impl Iterator<Item = u64>,
    tally: &mut Tally,
) -> Option<String> {
    if let Err(why) = check_places(library, 208, tally) {
        return Some(format!("at all places: {why}"));
    }
    for seed in seeds {
        let call = call(seed);
        if let Err(why) = check_call(library, &call) {
            return Some(format!("seed {seed}, {:?}: {why}", call.troubles()));
        }
        for (name, is) in kinds(&call) {
            tally.add(&name, u64::from(is));
        }
    }
    None
}

/// Every kind of place and of call must be met.
fn tally_of_calls() -> Tally {
    let kinds = kinds(&call(0));
    let kinds = kinds.iter().map(|(name, _)| name.as_str());
    Tally::new(kinds.chain(PLACES))
}

/// What is found in so many calls as something wrong must be found in.
fn found(library: &impl OrderCalls) -> Option<String> {
    compare_orders(library, calls().take(FEW_CALLS), &mut tally_of_calls())
}

#[test]
fn the_library_hands_out_the_orders_of_the_model() {
    let mut tally = tally_of_calls();
    assert_eq!(compare_orders(&Library, calls(), &mut tally), None);
    tally.require_all_met();
}

/// Under other timings: each place under those of eight seeds more.
#[test]
fn the_library_hands_them_out_under_any_timing() {
    let mut tally = Tally::new(PLACES);
    for seed in seeds("VIGAMBUL_ORDERS", 8).take(8) {
        let outcome = check_places(&Library, seed, &mut tally);
        assert_eq!(outcome, Ok(()), "seed {seed}");
    }
    tally.require_all_met();
}

#[test]
fn every_wrong_order_is_found() {
    for wrong in WRONG {
        let found = found(&WithWrongOrders::new(wrong));
        println!("{wrong:?}: {found:?}");
        assert!(found.is_some(), "{wrong:?} was not found");
    }
    for planted in WRONG_ORDERS {
        let found = found(&Orders::planted(planted));
        println!("{planted:?}: {found:?}");
        assert!(found.is_some(), "{planted:?} was not found");
    }
}

#[test]
fn nothing_is_found_where_nothing_is_wrong() {
    assert_eq!(found(&WithWrongOrders::new(Wrong::Nothing)), None);
    assert_eq!(found(orders::all()), None);
}

#[test]
fn orders_at_the_same_time_do_not_meet() {
    // Each thread has calls of its own; what one leaves behind would show in the other.
    let half = |odd: usize| {
        let few = calls().skip(odd).step_by(2).take(FEW_CALLS);
        let difference = compare_orders(&Library, few, &mut tally_of_calls());
        assert_eq!(difference, None);
    };
    std::thread::scope(|scope| {
        scope.spawn(|| half(0));
        scope.spawn(|| half(1));
    });
}

// ---------------------------------------------------------------------------
// The regression: every order is run.

/// For each order, 16 runs with ten timing bytes and 16 with eleven.
const RUNS: u64 = 32 * ORDERS;

/// A wrong rule must be found in an eighth of them.
const FEW_RUNS: u64 = RUNS / 8;

/// The policy file of an order as the library hands it out, which must be the model's.
fn fetched(target: Target, timing: &[u8]) -> Vec<u8> {
    let mut file = vec![0; needed(target.n, timing)];
    let answer = Library.order_file(target.n, target.place, timing, &mut file);
    assert_eq!(answer, (file.len(), 0), "{target:?}");
    assert_eq!(file, target.fields(timing.to_vec()).encode(), "{target:?}");
    file
}

/// The log of a run beside the model's, and every class's extract of it. The log and the extracts are counted.
fn check_run(
    calls: &impl Calls,
    file: &[u8],
    trace: &[u32],
    tally: &mut Tally,
) -> Result<(), String> {
    let policy = accepted(file);
    let log = model_log(file, trace).expect("the file is taken");
    let mut lent = Lent::with_room(log.len());
    lent.expected().copy_from_slice(&log);
    let status = calls.run(file, trace, lent.numbers());
    lent.compare((0, status), (0, 0), "a run")?;
    count_log(&policy, trace, &log, tally);
    for class in 0..policy.class_count() as u32 {
        let viewer = Viewer::Class(class);
        // More room than is kept, mostly.
        let mut lent = Lent::with_room(log.len());
        let model = Model(Planted::Nothing);
        let expected = model.extract(file, viewer, trace, &log, lent.expected());
        let made = calls.extract(file, viewer, trace, &log, lent.numbers());
        lent.compare(made, expected, &format!("the extract for {viewer}"))?;
        count_extract(&policy, class, trace, &log, tally);
    }
    Ok(())
}

/// What the runs must meet.
const RUN: [&str; 40] = [
    "runs of 1 class",
    "runs of 2 classes",
    "runs of 3 classes",
    "runs of 4 classes",
    "runs with ten timing bytes",
    "runs with eleven timing bytes",
    "runs with another least class than 0",
    "lines that are taken",
    "lines refused with 9",
    "lines refused with 10",
    "lines refused with 11",
    "lines refused with 14",
    "activates",
    "activates on another rank than 0",
    "column commands",
    "answers",
    "turns of the least class",
    "turns of other classes",
    "turns of class 0",
    "turns of class 1",
    "turns of class 2",
    "turns of class 3",
    "dead times dropped",
    "dead times kept",
    "starts of epochs after the first",
    "walks of 1 class",
    "walks of 2 classes",
    "walks of 3 classes",
    "walks of 4 classes",
    "extracts for a class that all may flow to",
    "extracts for a class that others are hidden from",
    "offers shown",
    "offers hidden",
    "malformed words and offers of missing classes left out",
    "commands shown",
    "commands hidden",
    "answers shown",
    "answers hidden",
    "turns shown",
    "turns hidden",
];

fn count_log(policy: &Policy, trace: &[u32], log: &[u32], tally: &mut Tally) {
    let n = policy.class_count();
    tally.met(RUN[n - 1]);
    tally.met(match policy.timing.rank_gap {
        None => "runs with ten timing bytes",
        Some(_) => "runs with eleven timing bytes",
    });
    let least = policy.least();
    tally.add(
        "runs with another least class than 0",
        u64::from(least != 0),
    );
    let mut turns = 0;
    for (_, line) in trace.iter().zip(log.chunks_exact(LINE)) {
        let &[status, command, answer, turn] = line else {
            unreachable!("a line has four numbers")
        };
        match status {
            0 => tally.met("lines that are taken"),
            number => tally.met(&format!("lines refused with {number}")),
        }
        let column = command & COLUMN_BIT != 0;
        let activate = u64::from(command != 0 && !column);
        tally.add("activates", activate);
        let on_another = u64::from(command >> 22 & 3 != 0);
        tally.add("activates on another rank than 0", activate * on_another);
        tally.add("column commands", u64::from(column));
        tally.add("answers", u64::from(answer != 0));
        if turn != 0 {
            count_turn(turn, turns, least, tally);
            turns += 1;
        }
    }
}

fn count_turn(turn: u32, number: u32, least: usize, tally: &mut Tally) {
    let owner = (turn & 0xFF) as usize - 1;
    tally.met(&format!("turns of class {owner}"));
    tally.met(match owner == least {
        true => "turns of the least class",
        false => "turns of other classes",
    });
    tally.met(match turn & ELIDED != 0 {
        true => "dead times dropped",
        false => "dead times kept",
    });
    tally.met(match tried(turn) {
        1 => "walks of 1 class",
        2 => "walks of 2 classes",
        3 => "walks of 3 classes",
        _ => "walks of 4 classes",
    });
    let epoch_starts = number > 0 && number % u32::from(orders::EPOCH) == 0;
    tally.add("starts of epochs after the first", u64::from(epoch_starts));
}

/// Counts what an extract for a class shows of a log and what not.
fn count_extract(policy: &Policy, class: u32, trace: &[u32], log: &[u32], tally: &mut Tally) {
    let sees = |other: usize| policy.flows(other, class as usize);
    let exists = |other: usize| other < policy.class_count();
    let sees_all = (0..policy.class_count()).all(sees);
    tally.met(match sees_all {
        true => "extracts for a class that all may flow to",
        false => "extracts for a class that others are hidden from",
    });
    for (&number, line) in trace.iter().zip(log.chunks_exact(LINE)) {
        match Word::of(number) {
            Word::Offer(request) if exists(usize::from(request.class)) => {
                let seen = sees(usize::from(request.class));
                tally.met(if seen {
                    "offers shown"
                } else {
                    "offers hidden"
                });
            }
            Word::Offer(_) | Word::Malformed => {
                tally.met("malformed words and offers of missing classes left out");
            }
            Word::Tick => {}
        }
        let of_word = |word: u32| (word >> 24 & 31) as usize;
        let owner = (line[3] & 0xFF) as usize;
        for (what, is, other) in [
            ("commands", line[1] != 0, of_word(line[1])),
            ("answers", line[2] != 0, of_word(line[2])),
            ("turns", line[3] != 0, owner.wrapping_sub(1)),
        ] {
            let shown = if sees(other) { "shown" } else { "hidden" };
            if is {
                tally.met(&format!("{what} {shown}"));
            }
        }
    }
}

/// Compares the runs of some seeds, up to the first difference, which is told.
fn compare_runs(
    calls: &impl Calls,
    seeds: Range<u64>,
    file: impl Fn(&Run) -> Vec<u8>,
    tally: &mut Tally,
) -> Option<String> {
    for seed in seeds {
        let run = generate_orders::run(seed);
        if let Err(why) = check_run(calls, &file(&run), &run.trace, tally) {
            return Some(format!("seed {seed}, {:?}: {why}", run.target));
        }
    }
    None
}

#[test]
fn every_order_runs_as_in_the_model() {
    let mut tally = Tally::new(RUN);
    let runs = seeds("VIGAMBUL_FOLDERS", RUNS);
    let by_library = |run: &Run| fetched(run.target, &run.timing);
    let found = compare_runs(&Library, runs.clone(), by_library, &mut tally);
    assert_eq!(found, None);
    tally.require_all_met();
    let orders: BTreeSet<_> = runs
        .map(|seed| generate_orders::run(seed).target)
        .map(|target| (target.n, target.place, target.ranks))
        .collect();
    println!("{} orders, with ten timing bytes or eleven", orders.len());
    assert_eq!(orders.len() as u64, 2 * ORDERS, "each with ten and eleven");
}

/// The model's own file.
fn of_model(run: &Run) -> Vec<u8> {
    run.target.fields(run.timing.clone()).encode()
}

/// Rules that are wrong in the log of a run, in the place of the library's.
#[test]
fn wrong_rules_are_found_in_the_runs_of_orders() {
    let few = || seeds("VIGAMBUL_FOLDERS", FEW_RUNS);
    let found = |planted| compare_runs(&Model(planted), few(), of_model, &mut Tally::new(RUN));
    for planted in [
        Planted::AlwaysElided,
        Planted::HigherAskedFirst,
        Planted::TurnReclaimed,
        Planted::MarkCarried,
        Planted::MarkMovedIfOthersWait,
        Planted::DeadTimeEarly,
        Planted::OldestAlone,
        Planted::YoungestFirst,
        Planted::LastMovesUp,
        Planted::SixteenPass,
        Planted::CountNeverReset,
        Planted::RankGapOnTheSameRank,
        Planted::BankForgottenForAnotherRank,
        Planted::HiddenTurnsShowTried,
        Planted::TriedOneTooMany,
        Planted::OwnerNotTried,
    ] {
        let found = found(planted);
        println!("{planted:?}: {found:?}");
        assert!(found.is_some(), "{planted:?} was not found");
    }
    assert_eq!(found(Planted::Nothing), None);
}

// ---------------------------------------------------------------------------
// The regression: every order is searched for leaks.

/// The pair of a seed, under the policy file that the library hands out.
fn pair_under_fetched(seed: u64) -> Pair {
    let pair = leaks::pair_of_order(seed);
    let target = generate_orders::target(seed);
    let timing = &pair.file[needed(target.n, &[])..];
    assert_eq!(fetched(target, timing), pair.file);
    pair
}

#[test]
fn the_library_shows_no_leak_under_any_order() {
    let mut met = Met::of_orders();
    let pairs = seeds("VIGAMBUL_PAIRS", ORDINARY_PAIRS_OF_ORDERS);
    let leak = search(&Library, pair_under_fetched, pairs.clone(), &mut met);
    assert_eq!(leak, None);
    println!("{}", met.report());
    assert_eq!(met.too_little(), [""; 0]);
    for name in NEVER_OF_ORDERS {
        assert_eq!(met.count(name), 0, "{name}");
    }
    let targets: BTreeSet<_> = pairs
        .map(generate_orders::target)
        .map(|target| (target.n, target.place, target.class, target.ranks))
        .collect();
    println!(
        "{} classes of orders, with ten timing bytes or eleven",
        targets.len()
    );
    assert_eq!(targets.len() as u64, 2 * ORDERS_BY_CLASS);
}

/// Of the model's leaks, those that a small order can show in an extract. A refused run of the library leaves no
/// state to go on from, and one count for all classes shows in no log.
#[test]
fn planted_leaks_are_found_under_the_orders() {
    let not_in_extracts = [Planted::RefusedRunMakesItsCalls, Planted::OneCount];
    for planted in LEAKS {
        if NOT_UNDER_SMALL_ORDERS.contains(&planted) || not_in_extracts.contains(&planted) {
            continue;
        }
        let pair = |seed| leaks::pair_of_order_planted(seed, planted);
        let pairs = seeds("VIGAMBUL_PAIRS", PAIRS_OF_ORDERS_ENOUGH);
        let mut met = Met::of_orders();
        let leak = search(&Model(planted), pair, pairs, &mut met);
        println!("{planted:?} after {} pairs: {leak:?}", met.pairs() + 1);
        let check = leak.map(|(check, _)| check);
        assert!(check.is_some(), "{planted:?} was not found");
        let by_the_run = planted == Planted::RunAnswersForItsLastWord;
        assert_eq!(check == Some(Check::Run), by_the_run, "{planted:?}");
    }
}
