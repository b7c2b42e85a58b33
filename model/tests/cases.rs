//! The proved test programs `cases_policies`, `cases_calls`, `cases_recordings` and `cases_orders`: what
//! each prints is stored beside it, and each stored line is held against the model's own answer for the
//! case that the line names.

mod common;
#[path = "cases/orders.rs"]
mod orders;
#[path = "cases/ranks.rs"]
mod ranks;
#[path = "cases/recordings.rs"]
mod recordings;
#[path = "cases/script.rs"]
mod script;
#[path = "cases/sets.rs"]
mod sets;
#[path = "cases/walk.rs"]
mod walk;

use std::fs;
use std::path::Path;

use common::*;
use vigambul_model::extract::extract;
use vigambul_model::generate::{chain_rows, PolicyFields};
use vigambul_model::masks::{below_mask, class_mask};
use vigambul_model::policy::Policy;
use vigambul_model::refusal::Refusal;
use vigambul_model::state::{self, Kind, Request, State};
use vigambul_model::tick::{offer, tick};
use vigambul_model::trace::{run, tick_line, Word, LINE};

/// The values that each byte of document 01's file is set to.
const VALUES: [u8; 12] = [0, 1, 2, 3, 4, 16, 17, 31, 32, 64, 65, 255];

/// A case's name, and the number that the model gives.
fn line(name: &str, file: &[u8]) -> String {
    format!("{name}: {}\n", file_number(file))
}

/// Document 01's file with one byte changed.
fn changed(at: usize, value: u8) -> [u8; 34] {
    let mut file = PRINTED_POLICY;
    file[at] = value;
    file
}

/// A file of these rows, with minimums of 0 and document 01's timing.
fn with_rows(rows: &[u16]) -> Vec<u8> {
    PolicyFields::new(rows, 3, &vec![0; rows.len()], TIMING).encode()
}

/// The table's examples, and the bounds that it names.
fn examples() -> String {
    [
        line("the empty file", &[]),
        line("n = 17", &changed(16, 17)),
        line("n = 0", &changed(16, 0)),
        line("n = 1, row 0", &with_rows(&[0])),
        line("a bit at n", &with_rows(&[3, 6])),
        line("n = 2, rows 3, 3", &with_rows(&[3, 3])),
        line("n = 3, rows 3, 6, 4", &with_rows(&[3, 6, 4])),
        line("n = 2, rows 1, 2", &with_rows(&[1, 2])),
        line("E = 0", &changed(21, 0)),
        line("E = 65", &changed(21, 65)),
        line("the sum of minimums is E", &changed(22, 1)),
        line("the sum of minimums is E + 1", &changed(22, 2)),
        line("dead time 1", &changed(25, 1)),
        line("the answer delay is the dead time", &changed(33, 2)),
        line(
            "the answer delay is one above the dead time",
            &changed(33, 3),
        ),
    ]
    .concat()
}

/// The shortest file and the longest.
fn sizes() -> String {
    let single = PolicyFields::new(&[1], 1, &[0], TIMING).encode();
    let sixteen = PolicyFields::new(
        &chain_rows(16),
        64,
        &[4; 16],
        [255, 31, 31, 31, 31, 31, 31, 31, 30, 31],
    )
    .encode();
    assert_eq!((single.len(), sixteen.len()), (31, 76));
    line("a file of 31 bytes", &single) + &line("a file of 76 bytes", &sixteen)
}

fn cuts() -> String {
    (0..=PRINTED_POLICY.len())
        .map(|length| line(&format!("cut to {length}"), &PRINTED_POLICY[..length]))
        .collect()
}

fn changes() -> String {
    (0..PRINTED_POLICY.len())
        .flat_map(|at| {
            VALUES.map(|value| line(&format!("byte {at} is {value}"), &changed(at, value)))
        })
        .collect()
}

/// A call's name and its four log numbers; of a refused one also whether it left the state as it was.
fn call_line(name: &str, line: [u32; LINE], before: &State, after: &State) -> String {
    let [status, command, response, turn] = line;
    let kept = match (status, before == after) {
        (0, _) => "",
        (_, true) => ", as it was",
        (_, false) => ", changed",
    };
    format!("{name}: {status} {command} {response} {turn}{kept}\n")
}

fn refused_line(refusal: Refusal) -> [u32; LINE] {
    [refusal.number(), 0, 0, 0]
}

/// An offer, made on the state.
fn offer_on(name: &str, policy: &Policy, state: &mut State, request: Request) -> String {
    let before = state.clone();
    let line = offer(policy, state, request).map_or_else(refused_line, |()| [0; LINE]);
    call_line(name, line, &before, state)
}

/// A tick, made on the state.
fn tick_on(name: &str, policy: &Policy, state: &mut State) -> String {
    let before = state.clone();
    let line = tick(policy, state).map_or_else(refused_line, |record| tick_line(&record));
    call_line(name, line, &before, state)
}

fn offer_case(name: &str, policy: &Policy, state: &State, request: Request) -> String {
    offer_on(name, policy, &mut state.clone(), request)
}

fn tick_case(name: &str, policy: &Policy, state: &State) -> String {
    tick_on(name, policy, &mut state.clone())
}

/// The calls of a list one by one, with a line for each.
fn run_case(name: &str, policy: &Policy, mut state: State, list: &[u32]) -> String {
    let lines = list.iter().enumerate().map(|(place, &number)| {
        let name = format!("{name} {place}");
        match Word::of(number) {
            Word::Tick => tick_on(&name, policy, &mut state),
            Word::Offer(request) => offer_on(&name, policy, &mut state, request),
            Word::Malformed => panic!("{name} is no call"),
        }
    });
    lines.collect()
}

/// Rows 9 and 10: the highest class, bank and kind, what lies above them, and what a word's fields
/// would not hold.
fn bounds() -> String {
    let policy = printed_policy();
    let state = fresh(&policy);
    let case = |name, class, kind, bank| {
        let request = request(class, kind, bank);
        offer_case(name, &policy, &state, request)
    };
    [
        case("class 1, a write, bank 7", 1, 1, 7),
        case("class 2 where n = 2", 2, 1, 7),
        case("class 16", 16, 1, 7),
        case("class 32", 32, 1, 7),
        case("class 255", 255, 1, 7),
        case("bank 8", 1, 1, 8),
        case("bank 16", 1, 1, 16),
        case("bank 255", 1, 1, 255),
        case("kind 2", 1, 2, 7),
        case("kind 4", 1, 4, 7),
        case("kind 255", 1, 255, 7),
    ]
    .concat()
}

/// A state with W-203's counts of some classes changed.
fn with_counts(state: &State, counts: &[(usize, u8)]) -> State {
    let mut state = state.clone();
    for &(class, passed) in counts {
        state.classes[class].passed = passed;
    }
    state
}

/// Offers 13, 9, 10, 11 and ticks 13, 12, each where the later ones apply too.
fn order() -> String {
    let policy = printed_policy();
    let mut full = fresh(&policy);
    run_on(&policy, &mut full, &[read_word(0, 0); 8]);
    let broken = State {
        owner: 2,
        ..full.clone()
    };
    let counted = with_counts(&full, &[(1, 16)]);
    let at_the_end = |state: &State| State {
        cycle: 16_777_215,
        ..state.clone()
    };
    let case = |name, state: &State, class, kind, bank| {
        let request = request(class, kind, bank);
        offer_case(name, &policy, state, request)
    };
    [
        case("13 before 9 and 10", &broken, 2, 2, 8),
        case("13 before 10 and 11", &broken, 0, 2, 8),
        case("13 before 11", &broken, 0, 0, 0),
        case("13 for a count, before 9 and 10", &counted, 2, 2, 8),
        case("13 for a count, before 11", &counted, 0, 0, 0),
        case("9 before 10", &full, 2, 2, 8),
        case("10 for the bank, before 11", &full, 0, 0, 8),
        case("10 for the kind, before 11", &full, 0, 2, 0),
        case("a ninth offer", &full, 0, 0, 0),
        case("a full queue of another class", &full, 1, 0, 0),
        case("an offer in the last cycle", &at_the_end(&full), 1, 0, 0),
        tick_case("a tick of a broken state", &policy, &broken),
        tick_case("13 before 12", &policy, &at_the_end(&broken)),
        tick_case("13 for a count, before 12", &policy, &at_the_end(&counted)),
        tick_case("one more tick", &policy, &at_the_end(&full)),
    ]
    .concat()
}

/// The eighth offer of a class is taken and the ninth is not, each class by itself; after an
/// activate one more is taken.
fn queue_limit() -> String {
    let policy = printed_policy();
    #[rustfmt::skip]
    let list = [
        0x8000_0001, 0x8001_0002, 0x8002_0003, 0x8003_0004, 0x8004_0005, 0x8005_0006, 0x8006_0007, 0x8007_0008,
        0x8000_0009, 0x8110_000A, 0, 0x8000_000B, 0x8000_000C, 0, 0, 0x8000_000D,
    ];
    run_case("queue limit", &policy, fresh(&policy), &list)
}

/// Ticks up to the last: four are left, and the second of them starts an epoch.
fn last_cycles() -> String {
    let policy = printed_policy();
    let near = State {
        cycle: 16_777_211,
        ..fresh(&policy)
    };
    let list = [0x8001_0007, 0x8112_0008, 0, 0, 0, 0, 0, 0x8000_0009, 0];
    run_case("last cycles", &policy, near, &list)
}

/// Two classes over two epochs and more: class 0's dead time is dropped, and class 1's is dropped in
/// one turn and kept in the next.
fn chain() -> String {
    let policy = printed_policy();
    #[rustfmt::skip]
    let list = [
        0x8000_0001, 0x8001_0002, 0x8012_0003, 0x8003_0004, 0x8014_0005, 0x8100_0006, 0x8117_FFFF,
        0, 0, 0, 0, 0, 0, 0, 0x8101_0007,
        0, 0, 0, 0, 0, 0, 0, 0, 0, 0, 0x8005_0008,
        0, 0, 0, 0, 0, 0, 0, 0, 0, 0,
    ];
    run_case("chain", &policy, fresh(&policy), &list)
}

/// Four classes over nine turns: some wait, some come late and one number is no class, with both
/// kinds and several banks.
fn diamond() -> String {
    let policy = policy(&DIAMOND, 5, &[1; 4], [7, 3, 1, 2, 3, 1, 2, 3, 1, 3]);
    #[rustfmt::skip]
    let list = [
        0x8000_0001, 0x8010_0002, 0x8001_0003, 0x8011_0004, 0x8100_0005, 0x8112_0006,
        0, 0, 0, 0, 0x8203_0007,
        0, 0, 0, 0, 0, 0x8314_0008, 0x8304_0009,
        0, 0, 0, 0x8000_000A,
        0, 0, 0, 0, 0x8110_000B, 0x8200_000C, 0x8216_000D,
        0, 0, 0, 0, 0, 0, 0, 0x8115_000E, 0x8105_000F, 0x8307_0010,
        0, 0, 0, 0, 0, 0, 0, 0x8010_0011, 0x8000_0012,
        0, 0, 0, 0, 0, 0, 0, 0, 0, 0, 0, 0, 0, 0, 0x8217_0013, 0x8400_0014,
        0, 0, 0, 0, 0, 0, 0, 0, 0, 0, 0, 0, 0, 0,
    ];
    run_case("diamond", &policy, fresh(&policy), &list)
}

/// A list after a first turn, with turns left that no list from fresh leads to.
fn with_turns_left_later(
    name: &str,
    policy: &Policy,
    left: &[(usize, u8)],
    list: &[u32],
) -> String {
    let mut state = fresh(policy);
    run_on(policy, &mut state, &[0; 4]);
    for &(class, turns) in left {
        state.classes[class].left = turns;
    }
    run_case(name, policy, state, list)
}

/// The trial walk passes classes without turns left, and fails at one that has some or that may not
/// flow to the owner; a home class without turns left takes its turn, and an idle one passes it up
/// or owns it.
fn used_up() -> String {
    let plain = policy(&DIAMOND, 8, &[0; 4], TIMING);
    let mut waiting = vec![0x8000_0001, 0x8101_0002, 0x8202_0003];
    waiting.extend([0; 16]);
    let homes = policy(&DIAMOND, 6, &[1, 1, 1, 2], TIMING);
    let mut list = vec![0x8100_0001, 0x8201_0002];
    list.extend([0; 12]);
    list.push(0x8302_0003);
    list.extend([0; 8]);
    let none = [(0, 0), (1, 0), (2, 0), (3, 0)];
    let sixteen = policy(&chain_rows(16), 64, &[0; 16], TIMING);
    let below_the_top: Vec<(usize, u8)> = (0..15).map(|class| (class, 0)).collect();
    let mut few = vec![0x8000_0001, 0x8E01_0002];
    few.extend([0; 8]);
    [
        with_turns_left_later("used up below the top", &plain, &none[..3], &waiting),
        with_turns_left_later(
            "used up but for class 1",
            &plain,
            &[(0, 0), (2, 0)],
            &waiting,
        ),
        with_turns_left_later("used up but for the children", &plain, &none[..1], &waiting),
        with_turns_left_later("home turns with none left", &homes, &none, &list),
        with_turns_left_later("used up below sixteen", &sixteen, &below_the_top, &few),
    ]
    .concat()
}

/// The timing of W-203's cases: turns of 8, dead time 5, gaps 1, 5, 4, 1, same-bank gaps 4 and 5.
const PASSING: [u8; 10] = [8, 5, 1, 5, 4, 1, 4, 5, 1, 3];

/// A list of two classes without minimums, after the calls of another, with W-203's counts changed.
fn passing(name: &str, before: &[u32], counts: &[(usize, u8)], list: &[u32]) -> String {
    let policy = policy(&CHAIN_OF_TWO, 8, &[0; 2], PASSING);
    let mut state = fresh(&policy);
    run_on(&policy, &mut state, before);
    run_case(name, &policy, with_counts(&state, counts), list)
}

/// Reads pass one of a bank that was just read, and a write one of a bank that was just written; a
/// due column command holds all back.
fn busy_banks() -> String {
    #[rustfmt::skip]
    let mut list = vec![
        0x8000_0001, 0x8000_0002, 0x8000_0003, 0x8001_0004, 0x8002_0005, 0x8013_0006, 0x8013_0007, 0x8014_0008,
    ];
    list.extend([0; 22]);
    passing("busy banks", &[], &[], &list)
}

/// A middle one of eight, the last of eight and the first of eight, and then the rest in its order.
fn of_eight() -> String {
    let writes = [0x8015_0001, 0x8016_0002, 0x8017_0003, 0, 0, 0, 0, 0];
    #[rustfmt::skip]
    let mut list = vec![
        0x8001_0004, 0x8002_0005, 0x8003_0006, 0x8014_0007, 0x8005_0008, 0x8006_0009, 0x8007_000A, 0x8000_000B,
        0, 0, 0x8010_000C, 0, 0, 0x8001_000D,
    ];
    list.extend([0; 21]);
    passing("of eight", &writes, &[], &list)
}

/// Reads pass a write until 15 have, whatever is offered; and once the oldest has gone, the count of the
/// next is 0, whatever it was.
fn near_fifteen() -> String {
    let read = [0x8000_0001, 0];
    #[rustfmt::skip]
    let mut list = vec![0x8011_0002, 0x8002_0003, 0x8003_0004, 0x8004_0005, 0x8015_0006];
    let mut longer = vec![0x8000_0001];
    longer.extend(&list);
    longer.extend([0; 14]);
    list.extend([0; 16]);
    [
        passing("one passes at a count of 14", &read, &[(0, 14)], &list),
        passing("none passes at a count of 15", &read, &[(0, 15)], &list),
        passing("the oldest goes at a count of 14", &[], &[(0, 14)], &longer),
    ]
    .concat()
}

/// Fifteen reads pass a write from a fresh state on, and the sixteenth waits until it has gone.
fn fifteen_pass() -> String {
    #[rustfmt::skip]
    let mut list = vec![
        0x8000_0001, 0x8017_0002, 0x8001_0003, 0x8002_0004, 0x8003_0005, 0x8004_0006, 0x8005_0007, 0x8006_0008,
        0, 0x8000_0009,
    ];
    list.extend([0; 14]);
    #[rustfmt::skip]
    list.extend([
        0x8001_000A, 0x8002_000B, 0x8003_000C, 0x8004_000D, 0x8005_000E, 0x8006_000F, 0x8000_0010,
    ]);
    list.extend([0; 14]);
    list.extend([0x8001_0011, 0x8002_0012]);
    list.extend([0; 12]);
    passing("fifteen pass", &[], &[], &list)
}

/// The dead time that class 1 keeps holds all back.
fn held_by_dead_time() -> String {
    let mut list = vec![0x8111_0002, 0x8102_0003, 0x8103_0004];
    list.extend([0; 16]);
    passing("dead time", &[0x8100_0001, 0], &[], &list)
}

/// What an offer of class 2 and what a tick answer.
fn both(name: &str, policy: &Policy, state: &State) -> String {
    let request = read_request(2, 9);
    offer_case(&format!("{name}, offer"), policy, state, request)
        + &tick_case(&format!("{name}, tick"), policy, state)
}

/// W-203's counts above 15: of class 1, of which one waits, and of class 2, of which none does.
const COUNTS_OF_16: [Change; 2] = [
    ("a count of 16", |state| state.classes[1].passed = 16),
    ("a count of 16 where none waits", |state| {
        state.classes[2].passed = 16
    }),
];

/// The last numbers in range.
const IN_RANGE: [Change; 11] = [
    ("the last owner", |state| state.owner = 2),
    ("a mark at the children", |state| {
        state.classes[0].pointer = 2
    }),
    ("turns left at the cap", |state| state.classes[0].left = 2),
    ("a queue length of 8", |state| {
        state.classes[0].queue = vec![request(0, 1, 7); 8].into()
    }),
    ("a last activate one before the cycle", |state| {
        state.last_activate = last(2, Kind::Write)
    }),
    ("a last activate of bank 7 one before the cycle", |state| {
        state.last_of_bank[7] = last(2, Kind::Write)
    }),
    ("no last activate of all", |state| {
        state.last_activate = None
    }),
    ("a column due one less than its delay after", |state| {
        state.columns[0].due = 4
    }),
    ("an answer due at the next tick", |state| {
        state.responses[0].due = 3
    }),
    ("a count of 15", |state| state.classes[1].passed = 15),
    ("a count of 15 where none waits", |state| {
        state.classes[2].passed = 15
    }),
];

/// A busy state with each change, handed to an offer and to a tick.
fn changed_states(changes: &[Change]) -> String {
    let cases = changes.iter().map(|(name, change)| {
        let mut state = busy();
        change(&mut state);
        both(name, &fork(), &state)
    });
    cases.collect()
}

/// What asking a fresh state of a policy answers, and what an offer and a tick under it answer.
fn unfit(name: &str, policy: &Policy, state: &State) -> String {
    let (made, refusal) = state::fresh(policy);
    let status = refusal.map_or(0, Refusal::number);
    let zeros = if made == State::of_zeros() {
        ", all zeros"
    } else {
        ""
    };
    format!("{name}, fresh: {status}{zeros}\n") + &both(name, policy, state)
}

/// A policy that 2 to 8 would refuse, or whose stored children or caps are not its order's.
fn policies() -> String {
    let changes: [(&str, fn(&mut Policy)); 8] = [
        ("a policy whose row lacks its own", |policy| {
            policy.rows = vec![7, 0, 4]
        }),
        ("a policy that flows both ways", |policy| {
            policy.rows = vec![7, 3, 4]
        }),
        ("a policy that is not transitive", |policy| {
            policy.rows = vec![3, 6, 4]
        }),
        ("a policy with no least class", |policy| {
            policy.rows = vec![5, 2, 4]
        }),
        ("a policy of E = 0", |policy| policy.epoch = 0),
        ("a policy of dead time 1", |policy| {
            policy.timing.dead_time = 1
        }),
        ("a policy with a child left out", |policy| {
            policy.covers[0] = vec![1]
        }),
        ("a policy with a cap raised", |policy| policy.caps[0] = 3),
    ];
    let changed = changes.iter().map(|(name, change)| {
        let mut policy = fork();
        change(&mut policy);
        unfit(name, &policy, &busy())
    });
    let none = Policy::of_no_classes();
    unfit("a fit policy", &fork(), &busy())
        + &unfit("a policy of no classes", &none, &State::of_zeros())
        + &changed.collect::<String>()
}

/// Numbers of a state that the proved program stores and the model does not: there is no state of
/// the model to ask, and 13 is what the proved program is to answer. A count of up to 15 it is to
/// take at a number that is no class too.
fn stored() -> String {
    let names = [
        "a queue that starts at place 8",
        "a waiting word that is no offer",
        "a waiting word with bit 29",
        "a column's word with bit 30",
        "a kind of a last activate that was not",
        "a rank of a last activate that was not",
        "a mark of a number that is no class",
        "turns left of a number that is no class",
        "a queue of a number that is no class",
        "a count of 256",
        "a count of 16 of a number that is no class",
    ];
    let lines = names
        .iter()
        .flat_map(|name| ["offer", "tick"].map(|call| (name, call)))
        .map(|(name, call)| format!("{name}, {call}: 13 0 0 0, as it was\n"));
    let taken = "a count of 15 of a number that is no class";
    lines.collect::<String>() + &both(taken, &fork(), &busy())
}

/// Stored policies, each by itself: whether it is in range. The proved policy has sixteen places for
/// rows, minimums, children and caps; the model has only those of its classes, and of a number that
/// stands past them "no" is what the proved program is to answer.
fn stored_policies() -> String {
    let changes: [(&str, fn(&mut Policy)); 6] = [
        ("as its file gives it", |_| ()),
        ("of 17 classes", |policy| policy.rows.resize(17, 0)),
        ("of 0 classes", |policy| policy.rows.clear()),
        ("with wrong covers", |policy| policy.covers[0] = vec![1]),
        ("with a cap one too large", |policy| policy.caps[0] += 1),
        ("with a cap one too small", |policy| policy.caps[0] -= 1),
    ];
    let (first, last) = changes.split_at(3);
    let answered = |(name, change): &(&str, fn(&mut Policy))| {
        let mut policy = fork();
        change(&mut policy);
        let answer = if policy.in_range() { "yes" } else { "no" };
        format!("a stored policy {name}: {answer}\n")
    };
    let past = ["a row", "a minimum", "covers", "a cap"]
        .iter()
        .flat_map(|what| [3, 15].map(|place| (what, place)))
        .map(|(what, place)| format!("a stored policy with {what} at {place}: no\n"));
    let first = first.iter().map(answered);
    first.chain(past).chain(last.iter().map(answered)).collect()
}

/// W-205's masks: of each class and of all classes below each number, and of numbers that are out of
/// range.
fn masks() -> String {
    let numbers = || (0..=17).chain([255, 65_536, 4_294_967_295]);
    let of_class = |number| format!("the mask of class {number}: {}\n", class_mask(number));
    let below = |number| {
        let mask = below_mask(number);
        format!("the mask of all classes below {number}: {mask}\n")
    };
    numbers()
        .map(of_class)
        .chain(numbers().map(below))
        .collect()
}

/// Chains of every class count, and the same with the lowest bit that is no class's in row 0. Where 3
/// is asked by W-205's mask of all classes below n, a mask that lacks its highest bit refuses the
/// chain, and one that has the next bit too does not give 3 to the other.
fn chains() -> String {
    let alone = |n| {
        let name = format!("a chain of {n} classes");
        line(&name, &with_rows(&chain_rows(n)))
    };
    let with_bit_n = |n| {
        let mut rows = chain_rows(n);
        rows[0] |= class_mask(n);
        let name = format!("a chain of {n} classes, with bit {n} in row 0");
        line(&name, &with_rows(&rows))
    };
    (1..=16)
        .map(alone)
        .chain((1..=15).map(with_bit_n))
        .collect()
}

/// What every number of a log is before a run.
const MARKER: u32 = 7777;

/// A run: its status, and whether the state is as it was.
fn ran(policy: &Policy, state: &State, list: &[u32], log: &mut [u32]) -> String {
    let mut after = state.clone();
    let status = run(policy, &mut after, list, log).map_or_else(Refusal::number, |()| 0);
    let kept = if *state == after {
        "as it was"
    } else {
        "changed"
    };
    format!("{status}, {kept}")
}

/// A log, four numbers to a line.
fn log_lines(name: &str, log: &[u32]) -> String {
    let lines = log.chunks_exact(LINE).enumerate();
    lines
        .map(|(place, line)| {
            let [status, command, response, turn] = line else {
                unreachable!("a line of four")
            };
            format!("{name} {place}: {status} {command} {response} {turn}\n")
        })
        .collect()
}

/// A run from document 01's fresh state, moved to a cycle, and its log by lines.
fn listed(name: &str, cycle: u32, list: &[u32]) -> String {
    let policy = printed_policy();
    let state = State {
        cycle,
        ..fresh(&policy)
    };
    listed_under(name, &policy, &state, list)
}

/// A run from a state, and its log by lines.
fn listed_under(name: &str, policy: &Policy, state: &State, list: &[u32]) -> String {
    let mut log = vec![MARKER; LINE * list.len()];
    let line = ran(policy, state, list, &mut log);
    format!("{name}: {line}\n") + &log_lines(name, &log)
}

/// Row 14: words of neither form beside good ones. Bit 31 clear, and other bits; bits 29 and 30 of an
/// offer. W-206: bits 22 and 23 are its rank, which with ten timing bytes gets 10.
const MALFORMED: [u32; 18] = [
    0x8001_0007,
    1,
    0,
    0x4000_0000,
    0xA001_0007,
    0xC001_0007,
    0,
    0x8041_0007,
    0x8081_0007,
    0x0001_0007,
    0x0100_0000,
    0x7FFF_FFFF,
    0xFFFF_FFFF,
    0x8110_0008,
    0,
    0x2000_0000,
    0,
    0,
];

/// Rows 9, 10 and 11 inside a run, and the order 9, 10, 11; after an activate one more is taken.
fn refused() -> String {
    #[rustfmt::skip]
    let list = [
        0x8200_0001, 0x9F00_0002, 0x8008_0003, 0x800F_0004, 0x8020_0005, 0x8030_0006, 0x8228_0007,
        0x8000_0008, 0x8001_0009, 0x8002_000A, 0x8003_000B, 0x8004_000C, 0x8005_000D, 0x8006_000E, 0x8007_000F,
        0x8000_0010, 0x8008_0011, 0x8100_0012, 0, 0x8000_0013, 0x8000_0014, 0, 0,
    ];
    listed("refused lines", 0, &list)
}

/// Row 12 inside a run, and ticks up to the last.
fn last_ticks() -> String {
    let refused = [0, 0x8200_0001, 0x8008_0002, 1, 0];
    let taken = [0, 0x8001_0003, 0, 1, 0x8100_0004];
    let list = [0x8001_0007, 0x8112_0008, 0, 0, 0, 0, 0, 0x8000_0009, 0];
    [
        listed("after the last tick", 16_777_215, &refused),
        listed("an offer after the last tick", 16_777_215, &taken),
        listed("last cycles of a run", 16_777_211, &list),
    ]
    .concat()
}

/// A run over the first numbers of a trace with a log of a length, and the whole log on its line.
fn whole(name: &str, policy: &Policy, state: &State, numbers: usize, length: usize) -> String {
    let list = &[0x8001_0007, 0, 0][..numbers];
    let mut log = vec![MARKER; length];
    let line = ran(policy, state, list, &mut log);
    let log: String = log.iter().map(|number| format!(" {number}")).collect();
    format!("{name}, trace of {numbers}, log of {length}: {line}, log{log}\n")
}

/// Row 15: document 01's example, and logs too short by some numbers, just long enough and longer;
/// and no numbers.
fn room() -> String {
    let policy = printed_policy();
    let case = |numbers, length| {
        let state = fresh(&policy);
        whole("a fresh state", &policy, &state, numbers, length)
    };
    [
        case(1, 3),
        case(1, 4),
        case(3, 8),
        case(3, 9),
        case(3, 10),
        case(3, 11),
        case(3, 12),
        case(3, 13),
        case(3, 16),
        case(0, 0),
        case(0, 5),
        case(1, 0),
    ]
    .concat()
}

/// Row 13: a state and a policy out of range, with room for the log, without (13 comes before 15),
/// and with nothing to run.
fn out_of_range() -> String {
    let mut nine = busy();
    nine.classes[0].queue = vec![request(0, 1, 7); 9].into();
    let mut unfit = fork();
    unfit.epoch = 0;
    let counted = with_counts(&busy(), &[(1, 16)]);
    let state = |numbers, length| whole("a queue length of 9", &fork(), &nine, numbers, length);
    let count = |numbers, length| whole("a count of 16", &fork(), &counted, numbers, length);
    let policy = |numbers, length| whole("a policy of E = 0", &unfit, &busy(), numbers, length);
    [
        state(2, 8),
        state(2, 7),
        state(0, 4),
        count(2, 8),
        count(2, 7),
        count(0, 4),
        policy(2, 8),
        policy(2, 7),
        policy(0, 4),
    ]
    .concat()
}

/// Offers of every class, refusals of each kind that a run goes on after but 12, and ticks over an
/// epoch's end.
#[rustfmt::skip]
const FORTY: [u32; 40] = [
    0x8000_0001, 0x8011_0002, 0x8002_0003, 0x8013_0004, 0x8000_0005, 0x8014_0006, 0x8005_0007, 0x8016_0008,
    0x8000_0009, 0x8110_000A, 0x8200_000B, 0, 0x8007_000C, 0x8400_000D, 0, 0x4000_0000, 0, 0x8108_000E,
    0, 0, 0x8320_000F, 0, 0, 0x8312_0010, 0, 0, 1, 0x8201_0011, 0, 0, 0, 0, 0x8103_0012, 0, 0, 0, 0,
    0xC000_0013, 0, 0,
];

/// Whether two ways to make the same calls lead to one state and one log.
fn agreement(name: &str, one: (&State, &[u32]), other: (&State, &[u32])) -> String {
    let state = if one.0 == other.0 {
        "the same"
    } else {
        "another"
    };
    let log = if one.1 == other.1 {
        "the same"
    } else {
        "another"
    };
    format!("{name}: {state} state, {log} log\n")
}

/// The four log numbers of a trace number's single call. One of neither form is no call, and a run
/// writes 14 for it.
fn single(policy: &Policy, state: &mut State, number: u32) -> [u32; LINE] {
    let line = match Word::of(number) {
        Word::Tick => tick(policy, state).map(|record| tick_line(&record)),
        Word::Offer(request) => offer(policy, state, request).map(|()| [0; LINE]),
        Word::Malformed => Err(Refusal::Malformed),
    };
    line.unwrap_or_else(refused_line)
}

/// The diamond with turns of 4 and E = 4.
fn quick_diamond() -> Policy {
    policy(&DIAMOND, 4, &[1; 4], [4, 3, 1, 2, 3, 1, 2, 3, 1, 3])
}

/// A run in one piece, cut in two at some places, and made by single calls. The names start alike.
fn in_pieces(
    start_of_name: &str,
    policy: &Policy,
    start: &State,
    list: &[u32],
    places: impl Iterator<Item = usize>,
) -> String {
    let mut end = start.clone();
    let log = run_on(policy, &mut end, list);
    let cuts = places.map(|place| {
        let (first, second) = list.split_at(place);
        let mut state = start.clone();
        let mut parts = run_on(policy, &mut state, first);
        parts.extend(run_on(policy, &mut state, second));
        let name = format!("{start_of_name}cut in two at {place}");
        agreement(&name, (&end, &log), (&state, &parts))
    });
    let mut state = start.clone();
    let calls = list
        .iter()
        .map(|&number| single(policy, &mut state, number));
    let calls = calls.collect::<Vec<_>>().concat();
    let whole = format!("{start_of_name}in one piece");
    let singly = format!("{start_of_name}by single calls");
    format!("{whole}: 0\n")
        + &log_lines(&whole, &log)
        + &cuts.collect::<String>()
        + &agreement(&singly, (&end, &log), (&state, &calls))
}

/// A run over a diamond in one piece, cut in two at every place, and made by single calls.
fn pieces() -> String {
    let policy = quick_diamond();
    let places = 0..=FORTY.len();
    in_pieces("", &policy, &fresh(&policy), &FORTY, places)
}

/// W-203's counts, each class's by itself, where class 1 has every second turn: two more of class 0 may
/// pass its oldest and one more of class 1 the oldest there; then none of class 1, and of class 0 all.
fn two_counts() -> String {
    let policy = policy(&CHAIN_OF_TWO, 2, &[0, 1], PASSING);
    #[rustfmt::skip]
    let mut list = vec![
        0x8011_0002, 0x8002_0003, 0x8003_0004, 0x8114_0005, 0x8105_0006, 0, 0, 0, 0, 0, 0x8006_0007,
        0, 0, 0, 0, 0x8107_0008, 0, 0, 0, 0, 0, 0, 0, 0x8010_0009,
    ];
    list.extend([0; 16]);
    let mut start = fresh(&policy);
    run_on(&policy, &mut start, &[0x8000_0001, 0]);
    let case = |start_of_name, counts, places: &[usize]| {
        let start = with_counts(&start, counts);
        let places = places.iter().copied();
        in_pieces(start_of_name, &policy, &start, &list, places)
    };
    case("counts of 13 and 14, ", &[(0, 13), (1, 14)], &[9, 14, 23])
        + &case("counts of 0 and 15, ", &[(1, 15)], &[])
}

/// An extract into a slice of some room: its status, its count and the slice after it.
fn drawn_by(
    room: usize,
    extract: impl FnOnce(&mut [u32]) -> (usize, Option<Refusal>),
) -> (String, Vec<u32>) {
    let mut out = vec![MARKER; room];
    let (count, refusal) = extract(&mut out);
    let status = refusal.map_or(0, Refusal::number);
    (format!("{status}, count {count}"), out)
}

/// An extract for a class.
fn drawn(
    policy: &Policy,
    class: usize,
    list: &[u32],
    log: &[u32],
    room: usize,
) -> (String, Vec<u32>) {
    drawn_by(room, |out| extract(policy, class, list, log, out))
}

/// An extract's answer, and the whole slice on its line.
fn on_a_line((answer, out): (String, Vec<u32>)) -> String {
    let out: String = out.iter().map(|number| format!(" {number}")).collect();
    format!("{answer}, out{out}\n")
}

/// How an extract is asked for: the class, how many numbers of the trace and of the log, and the room.
type Asked = (usize, usize, usize, usize);

/// A trace of a tick, an offer of class 1 and one of class 0, and a log that is longer than its.
const SIZED: [u32; 3] = [0, 0x8110_0008, 0x8001_0007];
#[rustfmt::skip]
const SIZED_LOG: [u32; 16] = [
    0, 0x8001_0001, 0x8100_0002, 258, 11, 1, 2, 3, 10, 4, 5, 6, 0, 0, 0, 0,
];

/// An extract of the first numbers of that trace with the first numbers of that log.
fn sized(name: &str, policy: &Policy, asked: Asked) -> String {
    let (class, numbers, length, room) = asked;
    let drawn = drawn(policy, class, &SIZED[..numbers], &SIZED_LOG[..length], room);
    let line = on_a_line(drawn);
    format!("{name}, class {class}, trace of {numbers}, log of {length}, room for {room}: {line}")
}

/// The extracts under document 01's policy.
fn under_printed(cases: &[Asked]) -> String {
    let line = |&asked| sized("two classes", &printed_policy(), asked);
    cases.iter().map(line).collect()
}

/// Document 01's policy with an E of 0.
fn unfit_policy() -> Policy {
    let mut unfit = printed_policy();
    unfit.epoch = 0;
    unfit
}

/// The extracts under it.
fn under_unfit(cases: &[Asked]) -> String {
    let line = |&asked| sized("two classes, E = 0", &unfit_policy(), asked);
    cases.iter().map(line).collect()
}

/// Row 16: document 01's example, and room that is short, enough, and more.
const EXTRACT_ROOM: [Asked; 12] = [
    (0, 1, 4, 3),
    (0, 1, 4, 0),
    (0, 1, 4, 4),
    (0, 1, 4, 5),
    (0, 3, 12, 4),
    (0, 3, 12, 7),
    (0, 3, 12, 8),
    (0, 3, 12, 16),
    (1, 3, 12, 8),
    (1, 3, 12, 11),
    (1, 3, 12, 12),
    (1, 3, 12, 13),
];

/// Row 17: document 01's example, and other logs that are not four times the trace.
const EXTRACT_LENGTHS: [Asked; 8] = [
    (0, 1, 5, 4),
    (0, 1, 3, 4),
    (0, 1, 0, 4),
    (0, 0, 1, 4),
    (0, 3, 8, 16),
    (0, 3, 11, 16),
    (0, 3, 13, 16),
    (0, 3, 16, 16),
];

/// Extracts 13, 9, 17, 16: those that get 13, and then those that get 9 and 17, each where later ones
/// apply too.
const UNFIT_ORDER: [Asked; 4] = [(2, 1, 5, 3), (2, 1, 4, 4), (0, 1, 3, 4), (0, 1, 4, 3)];
const EXTRACT_ORDER: [Asked; 5] = [
    (2, 1, 5, 3),
    (2, 1, 3, 4),
    (2, 1, 4, 3),
    (0, 1, 5, 3),
    (0, 1, 3, 3),
];

/// An empty trace, and one of which nothing is kept: a malformed word and an offer of class 1.
fn nothing_kept() -> String {
    let dropped = |room| {
        let drawn = drawn(&printed_policy(), 0, &[1, 0x8110_0008], &[5; 8], room);
        let line = on_a_line(drawn);
        format!("nothing kept, class 0, trace of 2, log of 8, room for {room}: {line}")
    };
    under_printed(&[(0, 0, 0, 0), (1, 0, 0, 4)]) + &dropped(0) + &dropped(4)
}

/// What each class of the diamond may see of a log, by lines.
fn seen(name: &str, list: &[u32], log: &[u32]) -> String {
    seen_under(name, &quick_diamond(), list, log)
}

/// What each class of a policy may see of a log, by lines.
fn seen_under(name: &str, policy: &Policy, list: &[u32], log: &[u32]) -> String {
    let classes = (0..policy.class_count()).map(|class| {
        let name = format!("{name} seen by class {class}");
        let (answer, out) = drawn(policy, class, list, log, log.len());
        format!("{name}: {answer}\n") + &log_lines(&name, &out)
    });
    classes.collect()
}

/// Trace numbers with log numbers that no run wrote: ticks with turn numbers and words of every class,
/// of none and with other bits set, malformed words, and offers.
#[rustfmt::skip]
const ANY: [(u32, [u32; LINE]); 26] = [
    (0, [0, 0, 0, 0]),
    (0, [0, 0x8101_0007, 0x8202_0008, 256]),
    (0, [0, 0x8212_0009, 0x8100_000A, 512]),
    (0, [12, 0x9F00_0001, 0, 1]),
    (0, [0, 0, 0x9F00_0002, 257]),
    (0, [0, 0xE1C0_0003, 0xE2C0_0004, 5]),
    (0, [0, 0x62FF_FFFF, 0x61FF_FFFF, 16]),
    (0, [0, 0x8300_0005, 0x8000_0006, 261]),
    (0, [0, 0xC300_0007, 5, 272]),
    (0, [0, 0x8400_0008, 0x8F00_0009, 2]),
    (0, [0, 0x9000_000A, 0x9100_000B, 259]),
    (0, [0, 0x1F00_0000, 0x1100_000C, 4]),
    (0, [0xFFFF_FFFF, 0xFFFF_FFFF, 0xE0FF_FFFF, 0xFFFF_FF01]),
    (0, [7, 0xC100_0008, 0xC200_0009, 514]),
    (0, [0, 0x0100_0000, 0x0200_0000, 255]),
    (0, [0, 0x8000_0000, 0x8300_0000, 17]),
    (1, [14, 0x8100_0001, 0x8000_0002, 1]),
    (0xA100_0010, [14, 1, 2, 3]),
    (0x8000_0011, [0, 0x8300_0003, 0x9F00_0004, 5]),
    (0x8100_0012, [10, 0x8200_0005, 0x9F00_0006, 512]),
    (0x813F_0013, [0, 4, 5, 6]),
    (0x8200_0014, [11, 7, 8, 9]),
    (0x8300_0015, [0, 10, 11, 12]),
    (0x8400_0016, [9, 13, 14, 15]),
    (0x9100_0017, [9, 16, 17, 18]),
    (0x9F00_0018, [9, 19, 20, 21]),
];

/// The cases of policy files.
fn files() -> String {
    examples() + &sizes() + &cuts() + &changes()
}

/// The cases of offers, ticks and fresh states.
fn calls() -> String {
    [
        bounds(),
        order(),
        queue_limit(),
        last_cycles(),
        chain(),
        diamond(),
        used_up(),
        busy_banks(),
        of_eight(),
        near_fifteen(),
        fifteen_pass(),
        held_by_dead_time(),
        changed_states(&OUT_OF_RANGE),
        changed_states(&COUNTS_OF_16),
        policies(),
        changed_states(&IN_RANGE),
        stored(),
    ]
    .concat()
}

/// The cases of runs.
fn runs() -> String {
    [
        listed("malformed words", 0, &MALFORMED),
        refused(),
        last_ticks(),
        room(),
        out_of_range(),
        pieces(),
        two_counts(),
    ]
    .concat()
}

/// The cases of extracts.
fn extracts() -> String {
    let (list, lines): (Vec<u32>, Vec<[u32; LINE]>) = ANY.into_iter().unzip();
    [
        under_printed(&EXTRACT_ROOM),
        under_printed(&EXTRACT_LENGTHS),
        under_printed(&[(2, 1, 4, 4), (16, 1, 4, 4), (4_294_967_295, 1, 4, 4)]),
        under_unfit(&[(0, 1, 4, 4), (0, 0, 0, 0)]),
        under_unfit(&UNFIT_ORDER),
        under_printed(&EXTRACT_ORDER),
        nothing_kept(),
        seen("a run", &FORTY, &run_fresh(&quick_diamond(), &FORTY)),
        seen("any log", &list, &lines.concat()),
    ]
    .concat()
}

/// Holds the stored output of a proved program against the model's answers, line by line and whole,
/// and counts its lines.
fn compare(program: &str, answers: &str) -> usize {
    let stored = Path::new(env!("CARGO_MANIFEST_DIR")).join(format!("../crates/{program}/stdout"));
    let stored = fs::read_to_string(stored).expect("a program's stored output");
    for (place, (proved, model)) in stored.lines().zip(answers.lines()).enumerate() {
        assert_eq!(proved, model, "{program}, line {}", place + 1);
    }
    assert_eq!(stored, answers, "{program}");
    stored.lines().count()
}

#[test]
fn the_proved_program_answers_as_the_model_does() {
    let policies = compare(
        "cases_policies",
        &[
            files(),
            extracts(),
            stored_policies(),
            masks(),
            chains(),
            ranks::policies(),
            walk::policies(),
            sets::policies(),
        ]
        .concat(),
    );
    let calls = compare(
        "cases_calls",
        &[calls(), runs(), ranks::calls(), walk::calls()].concat(),
    );
    let recordings = compare("cases_recordings", &recordings::recordings());
    let orders = compare("cases_orders", &orders::orders());
    assert_eq!((policies, calls, recordings, orders), (1513, 1435, 74, 184));
}

#[test]
fn the_cases_meet_every_file_number() {
    let answers = files();
    for number in 0..=8 {
        let ending = format!(": {number}");
        assert!(
            answers.lines().any(|answer| answer.ends_with(&ending)),
            "no case gets {number}"
        );
    }
}

#[test]
fn the_cases_meet_every_number_of_offers_and_ticks() {
    let answers = calls();
    for number in [0, 9, 10, 11, 12, 13] {
        let answer = format!(": {number} ");
        assert!(
            answers.lines().any(|line| line.contains(&answer)),
            "no case gets {number}"
        );
    }
    assert!(!answers.contains("changed"));
}

/// Runs meet each of their numbers and of their lines'; a refused one changes no state and writes no
/// number, and cut or made by single calls a run leads to the same.
#[test]
fn the_cases_meet_every_number_of_runs() {
    let answers = runs();
    for number in [0, 13, 15] {
        let answer = format!(": {number}, ");
        assert!(
            answers.lines().any(|line| line.contains(&answer)),
            "no run gets {number}"
        );
    }
    for number in [0, 9, 10, 11, 12, 14] {
        let answer = format!(": {number} ");
        assert!(
            answers.lines().any(|line| line.contains(&answer)),
            "no line of a run gets {number}"
        );
    }
    let refused = |line: &&str| line.contains(": 13, ") || line.contains(": 15, ");
    for line in answers.lines().filter(refused) {
        let (_, log) = line.split_once(", as it was, log").expect(line);
        assert!(log.split_whitespace().all(|number| number == "7777"));
    }
    assert!(!answers.contains("another"));
}

/// Extracts meet each of their numbers; a refused one hands back a count of 0 and writes no number.
#[test]
fn the_cases_meet_every_number_of_extracts() {
    let answers = extracts();
    for number in [0, 9, 13, 16, 17] {
        let answer = format!(": {number}, count ");
        assert!(
            answers.lines().any(|line| line.contains(&answer)),
            "no extract gets {number}"
        );
    }
    let asked = |line: &&str| line.contains(", count ") && !line.contains(": 0, count ");
    for line in answers.lines().filter(asked) {
        let (_, out) = line.split_once(", count 0, out").expect(line);
        assert!(out.split_whitespace().all(|number| number == "7777"));
    }
}

/// Extracts are refused with 13, 9, 17 and 16 in this order, and by each row's cases with its number.
#[test]
fn the_cases_of_extracts_are_refused_as_they_are_to_be() {
    let all = |answers: String, number: u32| {
        let answer = format!(": {number}, count 0, ");
        answers.lines().all(|line| line.contains(&answer))
    };
    assert!(all(under_printed(&EXTRACT_LENGTHS), 17));
    assert!(all(under_unfit(&UNFIT_ORDER), 13));
    assert!(all(under_printed(&EXTRACT_ORDER[..3]), 9));
    assert!(all(under_printed(&EXTRACT_ORDER[3..]), 17));
}

/// Of the stored policies the model itself takes the first, and no other.
#[test]
fn the_cases_of_stored_policies_take_one() {
    let answers = stored_policies();
    assert_eq!(answers.matches(": yes").count(), 1);
    assert_eq!(answers.matches(": no").count(), 13);
}

/// Every clause's case breaks it, by the model's own range check, and every case inside is taken.
#[test]
fn the_cases_break_what_they_name() {
    let refused = |changes: &[Change]| {
        changed_states(changes)
            .lines()
            .filter(|line| line.contains(": 13 "))
            .count()
    };
    assert_eq!(refused(&OUT_OF_RANGE), 2 * (OUT_OF_RANGE.len() - 1));
    assert_eq!(refused(&COUNTS_OF_16), 2 * COUNTS_OF_16.len());
    assert_eq!(refused(&IN_RANGE), 0);
}
