//! "Dead time": when it is dropped, and what that allows.

use crate::planted::Planted;
use crate::policy::Policy;
use crate::state::State;
use crate::tick::set_to_caps;
use crate::walk::{home, moved_pointer, named_cover, walk};

/// How the lookahead (document 01: trial walk) ends.
#[derive(Clone, Copy, Debug, PartialEq, Eq)]
pub(crate) enum Lookahead {
    /// The owner is reached: the dead time is dropped.
    ReachesOwner,
    /// A class that may not flow to the owner comes before it: kept.
    MeetsClassThatMayNotFlow,
    /// A class with turns left comes before the owner: kept.
    MeetsClassWithTurnsLeft,
}

/// The turns left that a lookahead goes by.
#[derive(Clone, Copy, Debug, PartialEq, Eq)]
pub(crate) enum TurnsLeft {
    OfThisEpoch,
    /// The caps, from which the next epoch starts.
    AtTheCaps,
}

/// Whether the dead time of a turn is dropped, which what comes next decides.
///
/// Asked at a turn's start, after the walk: the state holds the pointers and
/// turns left from which the next turn's walk will go on.
pub(crate) fn is_elided(policy: &Policy, state: &State, turn: u32, planted: Planted) -> bool {
    // No rules, but leaks that tests plant.
    match planted {
        Planted::AlwaysElided => return true,
        Planted::AlwaysElidedInLongTurns if policy.timing.turn_length >= 240 => return true,
        Planted::Document000Elision => return document_000_elides(policy, state),
        _ => {}
    }
    match home(policy, turn + 1, planted) {
        // Not a rule: a leak that tests plant.
        Some(_) if planted == Planted::TrialBeforeHomeTurns => {}
        Some(home) => return is_elided_before_home(policy, state, turn, home, planted),
        None => {}
    }
    // W-202: "The trial walk serves only before those" turns that start at the least
    // class. "It is dropped when a trial walk, by the marks as they would move and
    // the turns left (the caps, in an epoch's last turn), reaches the owner".
    let by = match planted {
        // Not rules: leaks that tests plant.
        Planted::EpochEndForgotten => TurnsLeft::OfThisEpoch,
        Planted::EpochEndForgottenAboveFive if policy.epoch > 5 => TurnsLeft::OfThisEpoch,
        _ => turns_left_before_next(policy, turn),
    };
    lookahead(policy, state, by, planted) == Lookahead::ReachesOwner
}

/// W-202: "before a home turn the dead time is dropped if and only if the owner may
/// flow to the home class." Nothing else is asked, at an epoch's end neither.
fn is_elided_before_home(
    policy: &Policy,
    state: &State,
    turn: u32,
    home: usize,
    planted: Planted,
) -> bool {
    let may_flow = policy.flows(state.owner, home);
    match planted {
        // Not rules: leaks that tests plant.
        Planted::IncomparableForgottenForOwner15 if state.owner == 15 => {
            may_flow || !policy.flows(home, state.owner)
        }
        Planted::HomeElisionByNextOwner => {
            policy.flows(state.owner, next_owner_by_now(policy, state, turn))
        }
        _ => may_flow,
    }
}

/// "(the caps, in an epoch's last turn)": the next turn then starts an epoch.
pub(crate) fn turns_left_before_next(policy: &Policy, turn: u32) -> TurnsLeft {
    if (turn + 1) % u32::from(policy.epoch) == 0 {
        TurnsLeft::AtTheCaps
    } else {
        TurnsLeft::OfThisEpoch
    }
}

/// Document 01: the trial walk. "It starts at the least class; at each class
/// before the owner it fails if that class may not flow to the owner or has
/// turns left. The trial changes nothing."
///
/// W-201: "The trial walk follows." It passes on from each class before the
/// owner, so from each it goes to the child that the pointer names once it is
/// moved. No class is met twice, so one move of each pointer is all there is to
/// remember of "the marks as they would move".
pub(crate) fn lookahead(
    policy: &Policy,
    state: &State,
    by: TurnsLeft,
    planted: Planted,
) -> Lookahead {
    let mut class = policy.least();
    while class != state.owner {
        if !policy.flows(class, state.owner) {
            return Lookahead::MeetsClassThatMayNotFlow;
        }
        let left = match by {
            TurnsLeft::OfThisEpoch => state.classes[class].left,
            TurnsLeft::AtTheCaps => policy.caps[class],
        };
        if left > 0 {
            return Lookahead::MeetsClassWithTurnsLeft;
        }
        let pointer = match planted {
            // Not a rule: a leak that tests plant.
            Planted::TrialByUnmovedMarks => state.classes[class].pointer,
            _ => moved_pointer(policy, state, class),
        };
        class = match named_cover(policy, class, pointer) {
            Some(cover) => cover,
            // Not met by the rules: the owner lies above this class, so it has a
            // cover, and a moved pointer names one. An unmoved one may be 0.
            None => return Lookahead::MeetsClassThatMayNotFlow,
        };
    }
    Lookahead::ReachesOwner
}

/// "The owner may activate at offsets below turn length less dead time; if the
/// dead time is dropped, at all offsets."
pub(crate) fn offset_allows(policy: &Policy, elided: bool, offset: u32) -> bool {
    let timing = &policy.timing;
    elided || offset + u32::from(timing.dead_time) < u32::from(timing.turn_length)
}

/// For [`Planted::Document000Elision`] only: "it is not used".
fn document_000_elides(policy: &Policy, state: &State) -> bool {
    !(0..policy.class_count())
        .any(|class| policy.strictly_below(class, state.owner) && state.classes[class].left > 0)
}

/// For [`Planted::HomeElisionByNextOwner`] only.
fn next_owner_by_now(policy: &Policy, state: &State, turn: u32) -> usize {
    let mut next = state.clone();
    if turns_left_before_next(policy, turn) == TurnsLeft::AtTheCaps {
        set_to_caps(policy, &mut next);
    }
    walk(policy, &mut next, turn + 1, Planted::Nothing).owner
}
