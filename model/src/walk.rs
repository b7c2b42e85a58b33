//! "The walk": who owns a turn, and W-212: how many classes were tried for it, and how many can be. The
//! standard word for it is a lattice traversal.

use crate::planted::Planted;
use crate::policy::{self, Policy};
use crate::refusal::{status, Refusal};
use crate::state::State;

/// Where a walk ended.
#[derive(Clone, Copy, Debug, PartialEq, Eq)]
pub(crate) struct Walk {
    pub(crate) owner: usize,
    /// W-212: "how many classes the walk tried, the owner counted".
    pub(crate) tried: u32,
}

/// "The walk picks the owner" of a turn. It moves the pointers of the classes it
/// passes on from and takes one of the owner's turns left, unless it is the home
/// class and takes its home turn.
pub(crate) fn walk(policy: &Policy, state: &mut State, turn: u32, planted: Planted) -> Walk {
    let first = match home(policy, turn, planted) {
        // W-202: "A home turn's walk starts at its class, which takes it if a
        // request waits, turns left or not, and is not charged".
        Some(home) if takes_home_turn(state, home, planted) => {
            // Not a rule: a leak that tests plant.
            if planted == Planted::HomeChargedIfHigherWaits && a_higher_waits(policy, state, home) {
                charge(state, home);
            }
            let taken = taken_by(policy, state, home, planted);
            return match planted {
                // Not a rule: a wrong count that tests plant.
                Planted::HomeClassNotTried => Walk { tried: 0, ..taken },
                _ => taken,
            };
        }
        // "otherwise the walk ascends as usual and charges. An idle home class with
        // nothing above it owns the turn and is charged." That is what becomes of any
        // class that is tried while nothing waits there.
        Some(home) => home,
        // "Other turns start at the least class": "It tries the least class first."
        None => policy.least(),
    };
    let walked = try_class(policy, state, first, planted);
    // Not rules: wrong charges that tests plant.
    let free = match planted {
        Planted::HomeTurnsForAnyone => policy.home(turn).is_some(),
        Planted::AscentNotCharged => walked.owner != first,
        _ => false,
    };
    if !free {
        charge(state, walked.owner);
    }
    walked
}

/// A class that takes the turn is the last that the walk tries, and counts itself.
fn taken_by(policy: &Policy, state: &State, class: usize, planted: Planted) -> Walk {
    let tried = match planted {
        // Not rules: leaks and wrong counts that tests plant.
        Planted::TriedWithWaitingAbove => 1 + waiting_above(policy, state, class),
        Planted::TriedToTheTop => way_to_the_top(policy, state, class),
        Planted::TriedOneTooMany => 2,
        Planted::OwnerNotTried => 0,
        _ => 1,
    };
    Walk {
        owner: class,
        tried,
    }
}

/// W-212: "the number of classes on the longest rising chain from the walk's first class", of a
/// policy and any class that is asked for. Order: 13, 9.
pub fn walk_bound(policy: &Policy, class: usize) -> Result<u32, Refusal> {
    if !policy.in_range() {
        return Err(Refusal::OutOfRange);
    }
    if class >= policy.class_count() {
        return Err(Refusal::Class);
    }
    Ok(longest_chain(policy, class))
}

/// The same of a policy file's bytes, with the answers of the library's call: the number and the
/// status, which is 0; or no number, and 1 to 8 where the file is refused, or 9.
pub fn walk_bound_of_file(bytes: &[u8], class: u32) -> (u32, u32) {
    let bound = match policy::read(bytes) {
        (policy, None) => walk_bound(&policy, class as usize),
        (_, Some(refusal)) => Err(refusal),
    };
    (bound.unwrap_or(0), status(&bound))
}

/// The number of classes on the longest rising chain from a class, itself counted. A longest one
/// leaves out nothing between two of its classes: it rises from child to child.
pub(crate) fn longest_chain(policy: &Policy, class: usize) -> u32 {
    let covers = policy.covers_of(class).iter();
    let above = covers.map(|&cover| longest_chain(policy, cover)).max();
    1 + above.unwrap_or(0)
}

/// The plan of home turns that the walk and the dead time go by.
pub(crate) fn home(policy: &Policy, turn: u32, planted: Planted) -> Option<usize> {
    let home = policy.home(turn);
    let epoch = u32::from(policy.epoch);
    match planted {
        // Not rules: broken promises that tests plant.
        Planted::HomeTurnsStartAtLeast | Planted::HomeTurnsForAnyone => None,
        Planted::PlanOneShort if turn % epoch == epoch - policy.sum_of_minimums() => None,
        _ => home,
    }
}

/// Whether the home class takes its turn: "if a request waits, turns left or not".
fn takes_home_turn(state: &State, home: usize, planted: Planted) -> bool {
    match planted {
        // Not a rule: a wrong condition that tests plant.
        Planted::HomeNeedsTurnsLeft => waits_with_turns_left(state, home),
        _ => waits(state, home),
    }
}

/// "The owner's turns left fall by 1, not below 0."
fn charge(state: &mut State, owner: usize) {
    let left = &mut state.classes[owner].left;
    *left = left.saturating_sub(1);
}

/// Document 01: a class is tried. Each try is strictly above the one before, so
/// there are at most as many as there are classes.
fn try_class(policy: &Policy, state: &mut State, class: usize, planted: Planted) -> Walk {
    // Not a rule: a leak that tests plant.
    if planted == Planted::HigherAskedFirst {
        let asked = named_cover(policy, class, moved_pointer(policy, state, class));
        if asked.is_some_and(|higher| waits_with_turns_left(state, higher)) {
            return ascend(policy, state, class, planted);
        }
    }
    // "The class takes the turn if it has a request waiting and turns left, or
    // if nothing is above it." Its mark stays as it is (W-201).
    if waits_with_turns_left(state, class) || policy.covers_of(class).is_empty() {
        // Not a rule: a leak that tests plant.
        if planted == Planted::MarkMovedIfOthersWait && another_waits(state, class) {
            state.classes[class].pointer = moved_pointer(policy, state, class);
        }
        taken_by(policy, state, class, planted)
    } else {
        ascend(policy, state, class, planted)
    }
}

/// "If not, the turn ascends to the child that its mark names, and that child
/// is tried in the same way."
fn ascend(policy: &Policy, state: &mut State, class: usize, planted: Planted) -> Walk {
    // W-201: "From now on a mark moves only when the walk passes on from the
    // class: it moves first and then names the child."
    state.classes[class].pointer = moved_pointer(policy, state, class);
    match named_cover(policy, class, state.classes[class].pointer) {
        Some(cover) => {
            let before = state.classes[cover].pointer;
            let rest = try_class(policy, state, cover, planted);
            // Not a rule: a leak that tests plant. A mark that stays at 1, since
            // the cover takes the turn, does not go back to it.
            let moved = rest.owner != cover;
            let back_to_1 = moved && before > 0 && state.classes[cover].pointer == 1;
            if planted == Planted::MarkCarried && back_to_1 {
                state.classes[class].pointer = moved_pointer(policy, state, class);
            }
            // This class was tried too.
            Walk {
                tried: 1 + rest.tried,
                ..rest
            }
        }
        // Not met: a class with a cover has just moved its pointer to one.
        None => taken_by(policy, state, class, planted),
    }
}

/// "it has a request waiting and turns left"
pub(crate) fn waits_with_turns_left(state: &State, class: usize) -> bool {
    waits(state, class) && state.classes[class].left > 0
}

fn waits(state: &State, class: usize) -> bool {
    !state.classes[class].queue.is_empty()
}

/// The pointer of a class once it is moved "on by 1, from the number of its
/// children back to 1; marks start at 0, and a class without children has
/// none": there it stays 0.
pub(crate) fn moved_pointer(policy: &Policy, state: &State, class: usize) -> usize {
    let covers = policy.covers_of(class).len();
    let pointer = state.classes[class].pointer;
    if covers == 0 {
        0
    } else if pointer >= covers {
        1
    } else {
        pointer + 1
    }
}

/// The cover of a class that a pointer names; they are "numbered from 1".
pub(crate) fn named_cover(policy: &Policy, class: usize, pointer: usize) -> Option<usize> {
    let place = pointer.checked_sub(1)?;
    policy.covers_of(class).get(place).copied()
}

/// For [`Planted::MarkMovedIfOthersWait`] only.
fn another_waits(state: &State, class: usize) -> bool {
    let mut others = (0..state.classes.len()).filter(|&other| other != class);
    others.any(|other| waits(state, other))
}

/// For [`Planted::HomeChargedIfHigherWaits`] only.
fn a_higher_waits(policy: &Policy, state: &State, class: usize) -> bool {
    (0..state.classes.len())
        .any(|higher| policy.strictly_below(class, higher) && waits(state, higher))
}

/// For [`Planted::TriedWithWaitingAbove`] only.
fn waiting_above(policy: &Policy, state: &State, class: usize) -> u32 {
    let above = (0..state.classes.len()).filter(|&higher| policy.strictly_below(class, higher));
    above.filter(|&higher| waits(state, higher)).count() as u32
}

/// For [`Planted::TriedToTheTop`] only: the classes from the owner up to one with nothing above
/// it, by the marks as they would move.
fn way_to_the_top(policy: &Policy, state: &State, class: usize) -> u32 {
    let next = named_cover(policy, class, moved_pointer(policy, state, class));
    1 + next.map_or(0, |cover| way_to_the_top(policy, state, cover))
}
