//! Sizes that short lists do not reach: many children, long epochs, high turn
//! numbers, great ages and late cycles.

mod common;

use common::*;
use vigambul_model::generate::{antichain_rows, sound_fields, trace_of_length};
use vigambul_model::masks::{below_mask, class_mask};
use vigambul_model::policy::{self, Policy};
use vigambul_model::random::Random;
use vigambul_model::state::{InFlight, Kind, State, LAST_CYCLE};

const DROPPED: bool = true;
const KEPT: bool = false;

/// The ticks of some turns in which nobody asks.
fn idle(policy: &Policy, turns: usize) -> Vec<u32> {
    vec![0; turns * usize::from(policy.timing.turn_length)]
}

#[test]
fn a_mark_counts_through_one_to_fifteen_children() {
    for children in 1..=15u32 {
        // The least class is the last.
        let least = children as usize;
        let rows = antichain_rows(least + 1, least);
        let policy = policy(&rows, 64, &vec![0; rows.len()], TIMING);
        let turns = 3 * children as usize + 2;
        let expected: Vec<u32> = (0..turns as u32).map(|turn| turn % children).collect();
        assert_eq!(picked(&policy, &idle(&policy, turns)), expected);
        let mut state = fresh(&policy);
        for turn in 0..turns {
            run_on(&policy, &mut state, &idle(&policy, 1));
            let mark = turn % children as usize + 1;
            assert_eq!(state.classes[least].pointer, mark);
        }
    }
}

/// Class 0 below k middle classes, all of those below class k + 1, and one of
/// them also below class k + 2. Where class 0 and that one alone have no turns left,
/// a trial walk can come through at that one alone.
fn one_way_up(middles: usize, open: usize) -> Policy {
    let [top, other] = [middles + 1, middles + 2].map(class_mask);
    let mut rows = vec![below_mask(middles + 3)];
    for middle in 1..=middles {
        let above_open = if middle == open { other } else { 0 };
        rows.push(class_mask(middle) | top | above_open);
    }
    rows.extend([top, other]);
    policy(&rows, 64, &vec![0; rows.len()], TIMING)
}

#[test]
fn the_trial_walk_moves_a_mark_back_to_1_after_two_to_thirteen_children() {
    for middles in 2..=13u32 {
        for open in [1, middles] {
            let policy = one_way_up(middles as usize, open as usize);
            let (top, other) = (middles + 1, middles + 2);
            // The open class is tried in every turn of this place and passes each
            // of them on, so its own mark goes to and fro between the two classes
            // above it.
            let tried = |turn: u32| turn % middles + 1 == open;
            let visits = |turns: u32| (0..turns).filter(|&turn| tried(turn)).count();
            let expected: Vec<(u32, bool)> = (0..4 * middles + 1)
                .map(|turn| {
                    let to_other = tried(turn) && visits(turn + 1) % 2 == 0;
                    let owner = if to_other { other } else { top };
                    let next_to_top = tried(turn + 1) && visits(turn + 2) % 2 == 1;
                    (owner, owner == top && next_to_top)
                })
                .collect();
            // All within one epoch, so that nothing sets the turns left back.
            let turns = expected.len();
            assert!(turns < 60);
            let mut state = with_turns_left(&policy, &[(0, 0), (open as usize, 0)]);
            let log = run_on(&policy, &mut state, &idle(&policy, turns));
            assert_eq!(owners(&log), expected, "{middles} middles, {open} open");
        }
    }
}

/// Turns of one epoch of a chain of two in which class 0 always waits and has so
/// many turns: it owns those, class 1 the rest, and class 1 keeps its dead time
/// in the last one only, since class 0 has turns again after it.
fn epoch_of_two(epoch: u8, cap: u8) -> Vec<(u32, bool)> {
    (0..epoch)
        .map(|turn| match turn {
            _ if turn < cap => (0, DROPPED),
            _ if turn + 1 == epoch => (1, if cap > 0 { KEPT } else { DROPPED }),
            _ => (1, DROPPED),
        })
        .collect()
}

#[test]
fn an_epochs_end_is_met_with_every_e_and_every_cap() {
    for epoch in 1..=64u8 {
        for cap in [0, 1, epoch / 2, epoch - 1, epoch] {
            let policy = policy(&CHAIN_OF_TWO, epoch, &[0, epoch - cap], TIMING);
            assert_eq!(policy.caps, [cap, epoch]);
            let turns = 2 * usize::from(epoch) + 1;
            let log = run_fresh(&policy, &always_waiting(&policy, &[0], turns));
            let mut expected = epoch_of_two(epoch, cap).repeat(3);
            expected.truncate(turns);
            assert_eq!(owners(&log), expected, "E = {epoch}, cap {cap}");
        }
    }
}

#[test]
fn epochs_go_on_in_turns_past_4095_and_65535() {
    // No power of two is a multiple of 3, 7 or 63, so a turn number that is cut
    // off to some bits puts the epochs out of step.
    for (epoch, turns) in [(3, 70_000), (7, 70_000), (63, 9_000)] {
        let policy = policy(&CHAIN_OF_TWO, epoch, &[0, epoch - 1], TIMING);
        // One request before each turn is enough: class 0 goes in one of E turns.
        let turn = [read_word(0, 1), 0, 0, 0, 0];
        let log = run_fresh(&policy, &turn.repeat(turns));
        let one = epoch_of_two(epoch, 1);
        let expected: Vec<(u32, bool)> = one.iter().copied().cycle().take(turns).collect();
        assert!(owners(&log) == expected, "E = {epoch}");
    }
}

/// A state with every cycle in it moved on by so many ticks.
fn moved_on(state: &State, ticks: u32) -> State {
    let mut moved = state.clone();
    moved.cycle += ticks;
    let flights = moved.columns.iter_mut().chain(&mut moved.responses);
    flights.for_each(|item: &mut InFlight| item.due += ticks);
    let banks = moved.last_of_bank.iter_mut();
    let last_ones = banks.chain([&mut moved.last_activate]).flatten();
    last_ones.for_each(|last| last.cycle += ticks);
    moved
}

/// Rules ask for a tick's place in its turn, a turn's place in its epoch, and
/// how long ago something was. So whole epochs earlier or later the same list
/// gives the same log, up to the last cycle.
#[test]
fn late_cycles_are_as_early_ones() {
    let random = &mut Random::new(5);
    for _ in 0..300 {
        let (policy, _) = policy::read(&sound_fields(random).encode());
        let list = trace_of_length(random, &policy, 400);
        let ticks = list.iter().filter(|&&number| number == 0).count() as u32;
        let epoch = u32::from(policy.timing.turn_length) * u32::from(policy.epoch);
        let mut early = fresh(&policy);
        let log = run_on(&policy, &mut early, &list);
        for near in [256, 4_096, 65_536, 1 << 20, LAST_CYCLE - ticks] {
            // The first epochs that start before this cycle, and just after it.
            for ahead in [near / epoch * epoch, near / epoch * epoch + epoch] {
                if ahead + ticks > LAST_CYCLE {
                    continue;
                }
                let mut late = moved_on(&fresh(&policy), ahead);
                assert!(run_on(&policy, &mut late, &list) == log, "{ahead} ahead");
                assert_eq!(late, moved_on(&early, ahead));
            }
        }
    }
}

#[test]
fn the_last_tick_of_all_is_as_any_other_and_then_comes_12() {
    // Class 1 owns every turn, with its dead time dropped. 16,777,215 is a
    // multiple of 5: a turn would start with the tick after the last.
    let policy = policy(&CHAIN_OF_TWO, 1, &[0, 1], [5, 2, 1, 1, 1, 1, 1, 1, 1, 2]);
    let mut state = fresh(&policy);
    state.cycle = LAST_CYCLE - 5;
    let word = read_word(1, 9);
    let column = word | 0x4000_0000;
    // An answer would come with the tick after the last as well.
    let log = run_on(&policy, &mut state, &[0, 0, 0, word, 0, 0, 0, word, 0]);
    let lines: Vec<&[u32]> = log.chunks(4).collect();
    assert_eq!(lines[0], [0, 0, 0, 0x1_0102]);
    assert_eq!(lines[4], [0, word, 0, 0]);
    assert_eq!(lines[5], [0, column, 0, 0]);
    assert_eq!(lines[6..], [[12, 0, 0, 0], [0; 4], [12, 0, 0, 0]]);
    assert_eq!(state.cycle, LAST_CYCLE);
    assert_eq!(state.classes[1].queue.len(), 1);
    assert_eq!(state.responses.len(), 1);
}

#[test]
fn gaps_are_met_at_every_age_from_the_gap_on() {
    // One class, whose dead time is always dropped, with all gaps at their most.
    let policy = policy(&[1], 1, &[0], [255, 31, 31, 31, 31, 31, 31, 31, 1, 2]);
    let near = |age: u32| age.saturating_sub(40)..age + 40;
    let powers = (6..24).flat_map(|power| near(1 << power));
    for age in (1..40).chain(powers).filter(|&age| age + 1 < LAST_CYCLE) {
        // Of all, of the same bank, and both.
        for (of_all, of_bank) in [(true, false), (false, true), (true, true)] {
            let mut state = fresh(&policy);
            state.cycle = age;
            state.elided = true;
            let last = last(0, Kind::Write);
            state.last_activate = last.filter(|_| of_all);
            state.last_of_bank[0] = last.filter(|_| of_bank);
            let log = run_on(&policy, &mut state, &[read_word(0, 3), 0]);
            let expected = if age >= 31 { read_word(0, 3) } else { 0 };
            assert_eq!(log[5], expected, "age {age}");
        }
    }
}
