//! W-212, "How long a walk is": the turn number carries how many classes the walk tried, the owner
//! counted, and that is never above the longest rising chain from the walk's first class.

mod common;

use common::*;
use vigambul_model::extract::extract;
use vigambul_model::generate::{
    self, antichain_rows, chain_rows, sound_fields, PolicyFields, DAMAGES,
};
use vigambul_model::policy::{self, Policy, MOST_CLASSES};
use vigambul_model::program;
use vigambul_model::random::Random;
use vigambul_model::refusal::Refusal;
use vigambul_model::state::{State, QUEUE_LIMIT};
use vigambul_model::tick::{tick, Turn};
use vigambul_model::trace::{tick_line, tried, Word};
use vigambul_model::walk::{walk_bound, walk_bound_of_file};

/// Numbers that are no class's of any policy.
const NO_CLASSES: [u32; 6] = [16, 17, 31, 255, 256, u32::MAX];

/// What the next tick's record says of the turn that it starts. The log says the same.
fn next_turn(policy: &Policy, state: &mut State) -> Turn {
    let record = tick(policy, state).expect("the tick is taken");
    let turn = record.turn.expect("a turn starts");
    let dropped = if turn.elided { 256 } else { 0 };
    let number = 1 + turn.owner as u32 + dropped + 65_536 * turn.tried;
    assert_eq!(tick_line(&record)[3], number);
    turn
}

/// The owners and the classes tried of so many turns, in which no class has a request waiting but
/// the one named for each turn, if there is one.
fn walks(policy: &Policy, waiting: &[Option<u8>]) -> Vec<(usize, u32)> {
    let mut state = fresh(policy);
    let walk = |&waits: &Option<u8>| {
        if let Some(class) = waits {
            run_on(policy, &mut state, &[read_word(class, 0)]);
        }
        let turn = next_turn(policy, &mut state);
        let rest = usize::from(policy.timing.turn_length) - 1;
        run_on(policy, &mut state, &vec![0; rest]);
        // A class that the walk did not come to waits no longer.
        state.classes.iter_mut().for_each(|own| own.queue.clear());
        (turn.owner, turn.tried)
    };
    waiting.iter().map(walk).collect()
}

/// A policy without minimums: every turn starts at the least class.
fn without_minimums(rows: &[u16]) -> Policy {
    policy(rows, 8, &vec![0; rows.len()], TIMING)
}

#[test]
fn a_chain_of_three() {
    let policy = without_minimums(&CHAIN_OF_THREE);
    let waiting = [Some(0), Some(1), Some(2), None];
    assert_eq!(walks(&policy, &waiting), [(0, 1), (1, 2), (2, 3), (2, 3)]);
}

/// The class that the mark does not name is not tried, waiting or not.
#[test]
fn a_diamond() {
    let policy = without_minimums(&DIAMOND);
    let waiting = [None, None, Some(0), Some(1), Some(1), Some(1), Some(3)];
    let expected = [(3, 3), (3, 3), (0, 1), (1, 2), (3, 3), (1, 2), (3, 3)];
    assert_eq!(walks(&policy, &waiting), expected);
}

#[test]
fn an_antichain_above_a_least_class() {
    let policy = without_minimums(&antichain_rows(4, 0));
    let waiting = [None, Some(2), None, None, Some(0), Some(1)];
    let expected = [(1, 2), (2, 2), (3, 2), (1, 2), (0, 1), (2, 2)];
    assert_eq!(walks(&policy, &waiting), expected);
}

/// 2 below 0, that below 1.
#[test]
fn a_least_class_that_is_not_0() {
    let policy = without_minimums(&[0b011, 0b010, 0b111]);
    let waiting = [Some(2), Some(0), Some(1), None];
    assert_eq!(walks(&policy, &waiting), [(2, 1), (0, 2), (1, 3), (1, 3)]);
}

#[test]
fn a_class_alone() {
    let policy = without_minimums(&[1]);
    assert_eq!(walks(&policy, &[None, Some(0)]), [(0, 1), (0, 1)]);
}

/// Ways of two lengths lead up from class 0: past 1 and 2 to 3, and to 4 at once.
#[test]
fn ways_of_different_lengths() {
    let policy = without_minimums(&[0b11111, 0b01110, 0b01100, 0b01000, 0b10000]);
    let expected = [(3, 4), (4, 2), (3, 4), (4, 2)];
    assert_eq!(walks(&policy, &[None; 4]), expected);
}

/// "The home class in a home turn": case (d), where turn 1 is 1's and turn 2 is 2's.
#[test]
fn home_turns_count_from_their_class() {
    let policy = policy(&CHAIN_OF_THREE, 3, &[0, 1, 1], TIMING);
    let idle = [(2, 3), (2, 2), (2, 1)];
    assert_eq!(walks(&policy, &[None; 6]), [idle, idle].concat());
    let at_home = [Some(0), Some(1), Some(2)];
    assert_eq!(walks(&policy, &at_home), [(0, 1), (1, 1), (2, 1)]);
    // Class 0 waits at home turns of others: their walks do not come to it.
    assert_eq!(walks(&policy, &[Some(0); 3]), [(0, 1), (2, 2), (2, 1)]);
    // A home turn that is passed on to a class that waits.
    assert_eq!(walks(&policy, &[None, Some(2)]), [(2, 3), (2, 2)]);
}

/// A home class takes its turn "turns left or not", and is the one class that is tried.
#[test]
fn a_home_class_without_turns_left() {
    let policy = policy(&CHAIN_OF_THREE, 3, &[0, 1, 1], TIMING);
    let mut state = with_turns_left(&policy, &[(0, 0), (1, 0), (2, 0)]);
    waiting(&mut state, 1, read_request(1, 0));
    let turn = next_turn(&policy, &mut state);
    assert_eq!((turn.owner, turn.tried), (1, 1));
}

/// Classes that wait without turns left are tried and passed. No list of calls from a fresh state
/// leads there; a caller may hand in such a state.
#[test]
fn classes_that_wait_without_turns_left() {
    let policy = without_minimums(&CHAIN_OF_THREE);
    for (left, expected) in [
        ([0, 0, 0], (2, 3)),
        ([0, 0, 8], (2, 3)),
        ([0, 1, 0], (1, 2)),
        ([1, 0, 0], (0, 1)),
    ] {
        let left: Vec<(usize, u8)> = left.into_iter().enumerate().collect();
        let mut state = with_turns_left(&policy, &left);
        for class in 0..3 {
            waiting(&mut state, class, read_request(class as u8, 0));
        }
        let turn = next_turn(&policy, &mut state);
        assert_eq!((turn.owner, turn.tried), expected, "{left:?}");
    }
}

/// The trial walk tries none of the classes that are counted: neither where it reaches the owner, nor
/// in an epoch's last turn, where it fails by the caps.
#[test]
fn the_trial_walk_counts_nothing() {
    let policy = policy(&CHAIN_OF_THREE, 3, &[0; 3], TIMING);
    let mut state = with_turns_left(&policy, &[(0, 0), (1, 0)]);
    let number = turns(&run_on(&policy, &mut state, &[0; 4]));
    assert_eq!(number, [0x3_0103]);
    let last_of_epoch = turns(&run_on(&policy, &mut state, &[0; 4]));
    assert_eq!(last_of_epoch, [0x3_0003]);
}

/// The longest walk of all, and one from each height of the chain.
#[test]
fn an_idle_chain_of_sixteen() {
    let policy = without_minimums(&chain_rows(16));
    assert_eq!(turns(&run_fresh(&policy, &[0])), [0x10_0010]);
    let waiting: Vec<Option<u8>> = (0..16).map(Some).collect();
    let expected: Vec<(usize, u32)> = (0..16).zip(1..).collect();
    assert_eq!(walks(&policy, &waiting), expected);
    let homes = common::policy(&chain_rows(16), 16, &[1; 16], TIMING);
    let expected: Vec<(usize, u32)> = (1..=16).rev().map(|tried| (15, tried)).collect();
    assert_eq!(walks(&homes, &[None; 16]), expected);
}

/// Where no turn starts, and in the lines of offers and refusals, the number stays 0.
#[test]
fn other_lines_carry_nothing() {
    let policy = printed_policy();
    let log = run_fresh(&policy, &[0, 0, read_word(0, 1), 1, 0, 0, 0]);
    let numbers: Vec<u32> = log.chunks(4).map(|line| line[3]).collect();
    assert_eq!(numbers, [0x2_0102, 0, 0, 0, 0, 0, 0x1_0102]);
    let mut state = fresh(&policy);
    state.cycle = 16_777_215;
    assert_eq!(run_on(&policy, &mut state, &[0]), [12, 0, 0, 0]);
}

/// "Logs are compared with this field from now on: in case (h) the turn 00000101 becomes 00010101".
#[test]
fn case_h() {
    let trace: Vec<u8> = [0x8001_0007u32, 0, 0, 0]
        .iter()
        .flat_map(|number| number.to_le_bytes())
        .collect();
    let printed = program::output(&PRINTED_POLICY, &trace);
    let printed = String::from_utf8_lossy(&printed);
    let line = printed.lines().nth(2);
    assert_eq!(line, Some("00000000 80010007 00000000 00010101"));
}

/// "Extracts still show 512 for a turn that is not theirs": whatever its walk tried.
#[test]
fn extracts_show_a_walk_to_those_who_see_the_owner() {
    let policy = policy(&CHAIN_OF_THREE, 3, &[0, 1, 1], TIMING);
    let list = always_waiting(&policy, &[1], 3);
    let log = run_fresh(&policy, &list);
    assert_eq!(turns(&log), [0x2_0102, 0x1_0102, 0x1_0003]);
    let seen_by = |class| {
        let mut out = vec![0; log.len()];
        let (count, refusal) = extract(&policy, class, &list, &log, &mut out);
        assert_eq!(refusal, None);
        turns(&out[..count])
    };
    assert_eq!(seen_by(0), [512, 512, 512]);
    assert_eq!(seen_by(1), [0x2_0102, 0x1_0102, 512]);
    assert_eq!(seen_by(2), [0x2_0102, 0x1_0102, 0x1_0003]);
}

/// The bounds of all classes of an order.
fn bounds(rows: &[u16]) -> Vec<u32> {
    let policy = without_minimums(rows);
    let bound = |class| walk_bound(&policy, class).expect("a class of the policy");
    (0..rows.len()).map(bound).collect()
}

#[test]
fn the_longest_chains_of_some_orders() {
    assert_eq!(bounds(&[1]), [1]);
    assert_eq!(bounds(&CHAIN_OF_THREE), [3, 2, 1]);
    assert_eq!(bounds(&FORK), [2, 1, 1]);
    assert_eq!(bounds(&DIAMOND), [3, 2, 2, 1]);
    assert_eq!(bounds(&antichain_rows(5, 2)), [1, 1, 2, 1, 1]);
    let down_from_16: Vec<u32> = (1..=16).rev().collect();
    assert_eq!(bounds(&chain_rows(16)), down_from_16);
    // Class 0 below 1, 2 and 3 in a row, and below 4.
    let ways = [0b11111, 0b01110, 0b01100, 0b01000, 0b10000];
    assert_eq!(bounds(&ways), [4, 3, 2, 1, 1]);
    // 4 below 2 and 3; 2 below 0, and that below 1; 3 below 1 too.
    let two_ways_to_one = [0b00011, 0b00010, 0b00111, 0b01010, 0b11111];
    assert_eq!(bounds(&two_ways_to_one), [2, 1, 3, 2, 4]);
}

/// "the number of classes on the longest rising chain": of all sets of classes that are in a row, the
/// largest whose lowest is the class.
#[test]
fn the_bound_is_the_longest_chain_of_all() {
    let random = &mut Random::new(212);
    let mut policies = 0;
    while policies < 150 {
        let fields = sound_fields(random);
        if fields.rows.len() > 10 {
            continue;
        }
        let (policy, _) = policy::read(&fields.encode());
        let n = policy.class_count();
        let mut longest = vec![0; n];
        for set in 1u32..1 << n {
            let members: Vec<usize> = (0..n).filter(|&class| set >> class & 1 == 1).collect();
            let in_a_row = members.iter().all(|&one| {
                let comparable =
                    |&other: &usize| policy.flows(one, other) || policy.flows(other, one);
                members.iter().all(comparable)
            });
            let lowest = |&&class: &&usize| members.iter().all(|&other| policy.flows(class, other));
            if let Some(&lowest) = members.iter().find(lowest).filter(|_| in_a_row) {
                longest[lowest] = longest[lowest].max(set.count_ones());
            }
        }
        let bounds: Vec<u32> = (0..n)
            .map(|class| walk_bound(&policy, class).expect("a class of the policy"))
            .collect();
        assert_eq!(bounds, longest, "{:?}", policy.rows);
        policies += 1;
    }
}

/// 13 for a policy out of range, and then 9 for a class not below n.
#[test]
fn the_bound_is_refused_with_13_and_then_9() {
    let policy = without_minimums(&DIAMOND);
    for class in [4, 16, 255, 256, usize::MAX] {
        assert_eq!(walk_bound(&policy, class), Err(Refusal::Class), "{class}");
    }
    let mut unfit = [policy.clone(), policy.clone(), policy.clone(), policy];
    unfit[0].covers[0] = vec![1];
    unfit[1].caps[3] = 7;
    unfit[2].epoch = 0;
    unfit[3] = Policy::of_no_classes();
    for policy in unfit {
        for class in [0, 3, 4, usize::MAX] {
            let bound = walk_bound(&policy, class);
            assert_eq!(bound, Err(Refusal::OutOfRange), "{class}");
        }
    }
}

/// The library's call: the file's number comes before 9, and with either there is no number.
#[test]
fn the_bound_of_a_file() {
    let file = PolicyFields::new(&DIAMOND, 5, &[1; 4], TIMING).encode();
    let bounds = [0, 1, 2, 3].map(|class| walk_bound_of_file(&file, class));
    assert_eq!(bounds, [(3, 0), (2, 0), (2, 0), (1, 0)]);
    for class in [4, 5, 15].into_iter().chain(NO_CLASSES) {
        assert_eq!(walk_bound_of_file(&file, class), (0, 9), "{class}");
    }
    for damage in &DAMAGES {
        let file = (damage.file)(&mut Random::new(212));
        for class in [0, 1, 15].into_iter().chain(NO_CLASSES) {
            let answer = walk_bound_of_file(&file, class);
            assert_eq!(answer, (0, damage.number), "{}, {class}", damage.name);
        }
    }
}

/// A random order, in which every class has a home turn. Turns 0 and 1 start at the least class.
fn with_all_home_turns(random: &mut Random) -> Policy {
    let rows = sound_fields(random).rows;
    let n = rows.len();
    policy(&rows, n as u8 + 2, &vec![1; n], TIMING)
}

/// A state at the start of a turn whose walk starts at a class: of the least class turn 1, so that no
/// epoch starts; of any other its home turn.
fn at_first_class(policy: &Policy, class: usize) -> State {
    let turn = match class == policy.least() {
        true => 1,
        false => 2 + class,
    };
    let mut state = fresh(policy);
    state.cycle = (turn * usize::from(policy.timing.turn_length)) as u32;
    state
}

/// The bound is met, from any class: where nobody is to take the turn before the top of a longest chain
/// and each mark is about to name the next class on it.
#[test]
fn the_bound_is_met_from_every_class() {
    let random = &mut Random::new(212);
    let mut met = [0; MOST_CLASSES + 1];
    for _ in 0..500 {
        let policy = with_all_home_turns(random);
        for first in 0..policy.class_count() {
            let bound = walk_bound(&policy, first).expect("a class of the policy");
            let mut state = at_first_class(&policy, first);
            let mut class = first;
            for left in (1..bound).rev() {
                let next = |&cover: &usize| walk_bound(&policy, cover) == Ok(left);
                let covers = policy.covers_of(class);
                let place = covers.iter().position(next).expect("the chain goes on");
                // It moves first, and then names the child at its place, counted from 1.
                state.classes[class].pointer = place;
                // Some wait without turns left; a home class would take its turn all the same.
                let at_home = class == first && first != policy.least();
                if !at_home && random.below(2) == 0 {
                    state.classes[class].left = 0;
                    waiting(&mut state, class, read_request(class as u8, 1));
                }
                class = covers[place];
            }
            let turn = next_turn(&policy, &mut state);
            assert_eq!((turn.owner, turn.tried), (class, bound), "from {first}");
            met[bound as usize] += 1;
        }
    }
    println!("{met:?}");
    assert!(met[1..].iter().all(|&count| count > 0), "{met:?}");
}

/// From any state in range, with any queues, turns left and marks.
#[test]
fn no_walk_from_a_state_in_range_is_longer_than_the_bound() {
    let random = &mut Random::new(213);
    let (mut at_bound, mut below) = (0, 0);
    for _ in 0..3_000 {
        let policy = with_all_home_turns(random);
        let first = random.below(policy.class_count());
        let mut state = at_first_class(&policy, first);
        for (class, own) in state.classes.iter_mut().enumerate() {
            own.left = random.below(usize::from(own.left) + 1) as u8 * random.below(2) as u8;
            own.pointer = random.below(policy.covers_of(class).len() + 1);
            if random.below(4) == 0 {
                let count = 1 + random.below(QUEUE_LIMIT);
                own.queue = vec![read_request(class as u8, 2); count].into();
            }
        }
        let bound = walk_bound(&policy, first).expect("a class of the policy");
        let turn = next_turn(&policy, &mut state);
        assert!((1..=bound).contains(&turn.tried), "{turn:?}, not {bound}");
        assert!(policy.flows(first, turn.owner));
        assert_eq!(turn.tried == 1, turn.owner == first);
        at_bound += u32::from(turn.tried == bound && bound > 1);
        below += u32::from(turn.tried < bound);
    }
    assert!(at_bound > 500 && below > 500, "{at_bound}, {below}");
}

/// "W-206's ten-byte logs gain this field alone": without it, turn numbers are those that they were.
#[test]
fn the_field_is_all_that_a_log_gains() {
    for seed in 0..400 {
        let folder = generate::folder(seed);
        let (policy, None) = policy::read(&folder.policy) else {
            continue;
        };
        let list = program::read_trace(&folder.trace).numbers;
        let mut state = fresh(&policy);
        for &number in &list {
            let started = number == 0 && state.cycle < 16_777_215;
            let started = started && state.cycle % u32::from(policy.timing.turn_length) == 0;
            let line = run_on(&policy, &mut state, &[number]);
            let before = match started {
                true => 1 + state.owner as u32 + if state.elided { 256 } else { 0 },
                false => 0,
            };
            assert_eq!(line[3] & 0xFFFF, before, "seed {seed}");
            assert_eq!(line[3] >> 16, tried(line[3]), "seed {seed}");
            let counted = (1..=16).contains(&tried(line[3]));
            assert_eq!(counted, started, "seed {seed}");
            assert!(Word::of(number) == Word::Tick || line[1..] == [0; 3]);
        }
    }
}
