//! W-212: the longest rising chain from a class, as the built library answers it, beside the model's, on
//! generated policy files; and the walks in the logs of its runs, none of which is above that.

mod common;

use common::*;
use vigambul_compare::library;
use vigambul_model::policy::{self, Policy};
use vigambul_model::program::read_trace;
use vigambul_model::trace::{tried, LINE};
use vigambul_model::walk::walk_bound_of_file;

/// The classes that are asked of each file: all that a policy can have, some that none has, and of those
/// some that would be one of its own in fewer bits.
fn classes() -> impl Iterator<Item = u32> {
    (0..=17).chain([31, 255, 256, u32::MAX])
}

/// What the files and classes must meet.
fn tally() -> Tally {
    let numbers = (1..=16).map(chain_name);
    let refusals = (1..=8).flat_map(|number| [refusal_name(number), before_9_name(number)]);
    let others = [
        "9, class n",
        "9, another class",
        "a least class that is not 0",
    ];
    let names: Vec<String> = numbers
        .chain(refusals)
        .chain(others.map(str::to_string))
        .collect();
    Tally::new(names.iter().map(String::as_str))
}

fn chain_name(number: u32) -> String {
    format!("a chain of {number:02}")
}

fn refusal_name(number: u32) -> String {
    format!("refusal {number}")
}

/// A refused file, asked for a class that no policy has.
fn before_9_name(number: u32) -> String {
    format!("{number} before 9")
}

fn count(tally: &mut Tally, policy: &Policy, class: u32, (number, status): (u32, u32)) {
    match status {
        0 => {
            tally.met(&chain_name(number));
            let of_least = class as usize == policy.least();
            tally.add(
                "a least class that is not 0",
                u64::from(of_least && class > 0),
            );
        }
        9 if class as usize == policy.class_count() => tally.met("9, class n"),
        9 => tally.met("9, another class"),
        refused => {
            tally.met(&refusal_name(refused));
            if class > 15 {
                tally.met(&before_9_name(refused));
            }
        }
    }
}

/// Compares bounds on every case, up to the first difference, which is told.
fn compare(bound: impl Fn(&[u8], u32) -> (u32, u32), tally: &mut Tally) -> Option<String> {
    for case in cases() {
        let file = case.policy_bytes();
        let (policy, _) = policy::read(file);
        for class in classes() {
            let expected = walk_bound_of_file(file, class);
            let answer = bound(file, class);
            if answer != expected {
                let (seed, change) = (case.seed, case.change);
                return Some(format!(
                    "seed {seed} ({change}), class {class}: {answer:?}, not {expected:?}"
                ));
            }
            count(tally, &policy, class, expected);
        }
    }
    None
}

#[test]
fn the_library_answers_the_models_bounds() {
    let mut tally = tally();
    assert_eq!(compare(library::walk_bound, &mut tally), None);
    tally.require_all_met();
}

/// The first class of the walk of each turn of a log, beside its turn number.
fn walks<'a>(policy: &'a Policy, log: &'a [u32]) -> impl Iterator<Item = (usize, u32)> + 'a {
    let turns = log.chunks_exact(LINE).map(|line| line[3]);
    let turns = turns.filter(|&turn| turn != 0);
    (0..)
        .zip(turns)
        .map(|(number, turn)| (policy.home(number).unwrap_or(policy.least()), turn))
}

/// "It is never above the number of classes on the longest rising chain from the walk's first class."
#[test]
fn no_walk_of_the_librarys_runs_is_longer_than_the_bound() {
    let mut counts = Counts::new(&["walks as long as the bound", "walks shorter than the bound"]);
    for case in cases() {
        counts.add(&case);
        let file = case.policy_bytes();
        let (policy, None) = policy::read(file) else {
            continue;
        };
        let trace = read_trace(case.trace_bytes()).numbers;
        let mut log = vec![0; LINE * trace.len()];
        assert_eq!(
            library::run(file, &trace, &mut log),
            0,
            "seed {}",
            case.seed
        );
        for (first, turn) in walks(&policy, &log) {
            let (bound, status) = library::walk_bound(file, first as u32);
            assert_eq!(status, 0, "seed {}, class {first}", case.seed);
            let tried = tried(turn);
            assert!(
                (1..=bound).contains(&tried),
                "seed {}, a walk from class {first}: {turn:08X}, not up to {bound}",
                case.seed
            );
            counts.met(match tried == bound {
                true => "walks as long as the bound",
                false => "walks shorter than the bound",
            });
        }
    }
    counts.require_all_met();
}

/// A bound that is wrong in one way.
type WrongBound = fn(&[u8], u32) -> (u32, u32);

/// Bounds of policies that are taken and classes that they have; of all others the right answer.
fn where_taken(file: &[u8], class: u32, bound: fn(&Policy, usize) -> u32) -> (u32, u32) {
    match walk_bound_of_file(file, class) {
        (_, 0) => (bound(&policy::read(file).0, class as usize), 0),
        refused => refused,
    }
}

/// Each must be found: the comparison asks enough files and classes.
const WRONG_BOUNDS: [(&str, WrongBound); 12] = [
    ("the class itself is not counted", |file, class| {
        let (number, status) = walk_bound_of_file(file, class);
        (number.saturating_sub(1), status)
    }),
    ("the classes above, in a row or not", |file, class| {
        where_taken(file, class, |policy, class| policy.rows[class].count_ones())
    }),
    ("the longest chain of the policy", |file, class| {
        let least = policy::read(file).0.least() as u32;
        where_taken_else(file, class, least)
    }),
    ("the way by the first children", |file, class| {
        where_taken(file, class, |policy, class| {
            way_up(policy, class, |children| children.first())
        })
    }),
    ("the way by the last children", |file, class| {
        where_taken(file, class, |policy, class| {
            way_up(policy, class, |children| children.last())
        })
    }),
    ("the shortest way to a top", |file, class| {
        where_taken(file, class, shortest)
    }),
    ("the number of classes less the class's", |file, class| {
        where_taken(file, class, |policy, class| {
            (policy.class_count() - class) as u32
        })
    }),
    ("at most fifteen", |file, class| {
        let (number, status) = walk_bound_of_file(file, class);
        (number.min(15), status)
    }),
    ("classes by their low four bits", |file, class| {
        walk_bound_of_file(file, class & 0xF)
    }),
    ("classes by their low byte", |file, class| {
        walk_bound_of_file(file, class & 0xFF)
    }),
    ("9 before the file's number", |file, class| {
        match class > 15 {
            true => (0, 9),
            false => walk_bound_of_file(file, class),
        }
    }),
    (
        "a number where it refuses",
        |file, class| match walk_bound_of_file(file, class) {
            (_, 9) => (1, 9),
            right => right,
        },
    ),
];

/// The bound of another class, where there is one of this.
fn where_taken_else(file: &[u8], class: u32, other: u32) -> (u32, u32) {
    match walk_bound_of_file(file, class) {
        (_, 0) => walk_bound_of_file(file, other),
        refused => refused,
    }
}

/// The classes on a way up, each by one of the children of the one before.
fn way_up(policy: &Policy, class: usize, child: fn(&[usize]) -> Option<&usize>) -> u32 {
    let next = child(policy.covers_of(class));
    1 + next.map_or(0, |&next| way_up(policy, next, child))
}

fn shortest(policy: &Policy, class: usize) -> u32 {
    let children = policy.covers_of(class).iter();
    let rest = children.map(|&child| shortest(policy, child)).min();
    1 + rest.unwrap_or(0)
}

#[test]
fn every_wrong_bound_is_found() {
    for (name, wrong) in WRONG_BOUNDS {
        let found = compare(wrong, &mut tally());
        println!("{name}: {found:?}");
        assert!(found.is_some(), "{name} was not found");
    }
}

#[test]
fn nothing_is_found_where_nothing_is_wrong() {
    let mut tally = tally();
    assert_eq!(compare(walk_bound_of_file, &mut tally), None);
    tally.require_all_met();
}
