//! W-212's cases, "How long a walk is": walks of each length in the turn numbers of runs, and the longest
//! rising chain from each class of a file.

use super::*;
use vigambul_model::generate::antichain_rows;
use vigambul_model::walk::{walk_bound, walk_bound_of_file};

/// Turns of 3, dead time 2, all gaps 1: an owner's request goes as its turn starts.
const SHORT: [u8; 10] = [3, 2, 1, 1, 1, 1, 1, 1, 1, 2];

/// Turns of 3 ticks, each with the offers that are made just before it.
fn turns_of_three(offers: &[&[u32]]) -> Vec<u32> {
    let turn = |offers: &&[u32]| [offers, &[0; 3][..]].concat();
    offers.iter().flat_map(turn).collect()
}

/// A read of bank 0 of each class in some, each just before a turn.
fn one_by_one(classes: std::ops::Range<u8>) -> Vec<u32> {
    let offers: Vec<[u32; 1]> = classes.map(|class| [read_word(class, 1)]).collect();
    let offers: Vec<&[u32]> = offers.iter().map(|offer| &offer[..]).collect();
    turns_of_three(&offers)
}

/// A run from the fresh state.
fn run_under(name: &str, policy: &Policy, list: &[u32]) -> String {
    listed_under(name, policy, &fresh(policy), list)
}

/// A chain of sixteen: one class waits at each turn's start, and all below it are passed; and home turns,
/// which are taken, passed on to a class that waits, and passed on to the top.
fn chain_of_sixteen() -> String {
    let rows = chain_rows(16);
    let plain = policy(&rows, 64, &[0; 16], SHORT);
    let homes = policy(&rows, 16, &[1; 16], SHORT);
    #[rustfmt::skip]
    let at_home = turns_of_three(&[
        &[], &[], &[0x8200_0001], &[], &[], &[0x8900_0002], &[], &[0x8200_0003], &[], &[], &[0x8F00_0004], &[],
    ]);
    [
        run_under("walks of 1 to 8 classes", &plain, &one_by_one(0..8)),
        run_under("walks of 9 to 16 classes", &plain, &one_by_one(8..16)),
        run_under("an idle walk of 16 classes", &plain, &[0; 3]),
        run_under("home turns of sixteen", &homes, &at_home),
    ]
    .concat()
}

/// A diamond: the class that a mark does not name is not tried; and home turns that are taken, passed on, and
/// idle at the top.
fn diamond_walks() -> String {
    let plain = policy(&DIAMOND, 8, &[0; 4], SHORT);
    let homes = policy(&DIAMOND, 4, &[1; 4], SHORT);
    #[rustfmt::skip]
    let waiting = turns_of_three(&[
        &[], &[], &[0x8000_0001], &[0x8100_0002], &[0x8100_0003], &[], &[0x8300_0004], &[0x8200_0005], &[],
    ]);
    #[rustfmt::skip]
    let at_home = turns_of_three(&[
        &[0x8200_0001], &[], &[0x8200_0002], &[], &[0x8000_0003], &[0x8300_0004], &[], &[0x8300_0005], &[],
    ]);
    run_under("walks of a diamond", &plain, &waiting)
        + &run_under("home turns of a diamond", &homes, &at_home)
}

/// Class 2 is the least, of an antichain and of a chain; and a tree whose ways up are of three lengths.
fn other_orders() -> String {
    let antichain = policy(&antichain_rows(4, 2), 8, &[0; 4], SHORT);
    let chain = policy(&DOWNWARD, 8, &[0; 3], SHORT);
    let tree = policy(&TREE, 8, &[0; 9], SHORT);
    let waiting = turns_of_three(&[&[], &[0x8100_0001], &[0x8200_0002], &[], &[0x8000_0003]]);
    let in_chain = turns_of_three(&[&[0x8200_0001], &[0x8100_0002], &[0x8000_0003], &[]]);
    [
        run_under("walks of an antichain", &antichain, &waiting),
        run_under("walks of a chain from class 2", &chain, &in_chain),
        run_under("walks of a tree", &tree, &[0; 27]),
    ]
    .concat()
}

/// Turns left that no list from fresh leads to: classes that wait without turns left are passed, and the
/// trial walk, dropped or kept, adds nothing.
fn without_turns_left() -> String {
    let policy = policy(&chain_rows(16), 64, &[0; 16], SHORT);
    let mut state = fresh(&policy);
    run_on(&policy, &mut state, &[0; 3]);
    let list = [0x8000_0001, 0x8700_0002, 0x8F00_0003, 0, 0, 0, 0, 0, 0];
    let below = |top: usize| {
        let mut state = state.clone();
        state.classes[..top].iter_mut().for_each(|own| own.left = 0);
        state
    };
    listed_under("seven without turns left", &policy, &below(7), &list)
        + &listed_under("fifteen without turns left", &policy, &below(15), &list)
}

/// 2 below 1, that below 0.
const DOWNWARD: [u16; 3] = [0b001, 0b011, 0b111];

/// 0 below 1, 5 and 7; 1, 2, 3 and 4 in a row; 5 below 6 and 8.
const TREE: [u16; 9] = [
    0b1_1111_1111,
    0b0_0001_1110,
    0b0_0001_1100,
    0b0_0001_1000,
    0b0_0001_0000,
    0b1_0110_0000,
    0b0_0100_0000,
    0b0_1000_0000,
    0b1_0000_0000,
];

/// 4 below 2 and 3; 2 below 0, that below 1; 3 below 1 too.
const TWO_WAYS: [u16; 5] = [0b00011, 0b00010, 0b00111, 0b01010, 0b11111];

/// A case's name with its class, and what is answered of a file: the status and the number.
fn bound(name: &str, file: &[u8], class: u32) -> String {
    let (number, status) = walk_bound_of_file(file, class);
    format!("{name}, class {class}: {status} {number}\n")
}

/// The same of some classes.
fn bounds(name: &str, file: &[u8], classes: impl IntoIterator<Item = u32>) -> String {
    let line = |class| bound(name, file, class);
    classes.into_iter().map(line).collect()
}

/// Classes of none of these orders.
const NO_CLASSES: [u32; 6] = [16, 17, 31, 255, 256, u32::MAX];

/// The longest rising chain from each class, and from numbers that are no class's.
fn of_orders() -> String {
    let ranked = PolicyFields::new(&DIAMOND, 4, &[1; 4], SHORT).with_rank_gap(2);
    let diamond = with_rows(&DIAMOND);
    let sixteen = with_rows(&chain_rows(16));
    let tree = with_rows(&TREE);
    [
        bounds("one class", &with_rows(&[1]), [0, 1]),
        bounds("a diamond", &diamond, 0..=4),
        bounds("a diamond", &diamond, NO_CLASSES),
        bounds("a diamond with a rank gap", &ranked.encode(), 0..=4),
        bounds("a chain of sixteen", &sixteen, 0..16),
        bounds("a chain of sixteen", &sixteen, NO_CLASSES),
        bounds("fifteen over 0", &with_rows(&antichain_rows(16, 0)), 0..=16),
        bounds("fifteen over 8", &with_rows(&antichain_rows(16, 8)), 0..=16),
        bounds("a chain from class 2", &with_rows(&DOWNWARD), 0..=3),
        bounds("a tree", &tree, 0..=9),
        bounds("two ways to one class", &with_rows(&TWO_WAYS), 0..=5),
    ]
    .concat()
}

/// A refused file's number comes before 9.
fn of_refused_files() -> String {
    let of = |name: &str, file: &[u8]| bounds(name, file, [0, 2, u32::MAX]);
    [
        of("the empty file", &[]),
        of("a file of n = 17", &changed(16, 17)),
        of("a file with a row that lacks its own", &changed(17, 2)),
        of("a file that flows both ways", &changed(19, 3)),
        of("a file that is not transitive", &with_rows(&[3, 6, 4])),
        of("a file with no least class", &changed(17, 1)),
        of("a file of E = 0", &changed(21, 0)),
        of("a file of dead time 1", &changed(25, 1)),
        of("the file as it is", &PRINTED_POLICY),
    ]
    .concat()
}

/// A policy out of range gets 13 before 9.
fn of_a_policy_out_of_range() -> String {
    let mut diamond = policy(&DIAMOND, 3, &[0; 4], TIMING);
    diamond.caps[0] += 1;
    let refused = |class| walk_bound(&diamond, class).expect_err("a cap that is not the order's");
    let line = |class| {
        let status = refused(class).number();
        format!("a diamond with another cap, class {class}: {status} 0\n")
    };
    [0, 3, 4, u32::MAX as usize].map(line).concat()
}

/// What goes by a policy alone.
pub fn policies() -> String {
    of_orders() + &of_refused_files() + &of_a_policy_out_of_range()
}

/// What goes by a state.
pub fn calls() -> String {
    [
        chain_of_sixteen(),
        diamond_walks(),
        other_orders(),
        without_turns_left(),
    ]
    .concat()
}

/// The runs have walks of each length, and the bounds are of each number and get 0 to 9, and 13.
#[test]
fn the_cases_of_walks_meet_every_length() {
    let last = |line: &str| line.rsplit(' ').next().and_then(|last| last.parse().ok());
    let runs = calls();
    let tried: Vec<u32> = runs
        .lines()
        .filter_map(last)
        .map(|turn: u32| turn >> 16)
        .collect();
    for length in 1..=16 {
        assert!(tried.contains(&length), "no walk of {length} classes");
    }
    let answers = policies();
    let ending = |ending: String| answers.lines().any(|line| line.ends_with(&ending));
    for number in 1..=16 {
        assert!(ending(format!(": 0 {number}")), "no chain of {number}");
    }
    for status in (1..=9).chain([13]) {
        assert!(ending(format!(": {status} 0")), "no {status}");
    }
    assert!(!runs.contains("changed, log") && !answers.contains(": 0 0\n"));
}
