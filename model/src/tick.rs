//! "A tick": ticks and offers.

use crate::dead_time::{is_elided, offset_allows};
use crate::planted::Planted;
use crate::policy::Policy;
use crate::refusal::Refusal;
use crate::state::{
    check_range_planted, ClassState, InFlight, LastActivate, Request, State, BANKS, LAST_CYCLE,
    MOST_PASSES, QUEUE_LIMIT,
};
use crate::walk::{waits_with_turns_left, walk};

/// "What the command wires carried: nothing, an activate or a column command,
/// with the request inside it."
#[derive(Clone, Copy, Debug, PartialEq, Eq)]
pub enum Wires {
    Nothing,
    Activate(Request),
    /// Document 01: column command.
    Column(Request),
}

/// A turn that starts.
#[derive(Clone, Copy, Debug, PartialEq, Eq)]
pub struct Turn {
    pub owner: usize,
    pub elided: bool,
    /// W-212: "how many classes the walk tried, the owner counted". The state does not hold it.
    pub tried: u32,
}

/// What one tick showed.
#[derive(Clone, Copy, Debug, PartialEq, Eq)]
pub struct TickRecord {
    pub wires: Wires,
    /// Document 01: answer.
    pub response: Option<Request>,
    /// The turn, if one starts with this tick.
    pub turn: Option<Turn>,
}

/// One tick, as a call of its own. "Order: ticks 13, 12"; "a refused call hands
/// back the state it was given": it is left as it was.
pub fn tick(policy: &Policy, state: &mut State) -> Result<TickRecord, Refusal> {
    tick_planted(policy, state, Planted::Nothing)
}

pub(crate) fn tick_planted(
    policy: &Policy,
    state: &mut State,
    planted: Planted,
) -> Result<TickRecord, Refusal> {
    check_range_planted(policy, state, planted)?;
    tick_in_range(policy, state, planted)
}

/// One offer, as a call of its own. "Order: offers 13, 9, 10, 11".
pub fn offer(policy: &Policy, state: &mut State, request: Request) -> Result<(), Refusal> {
    offer_planted(policy, state, request, Planted::Nothing)
}

pub(crate) fn offer_planted(
    policy: &Policy,
    state: &mut State,
    request: Request,
    planted: Planted,
) -> Result<(), Refusal> {
    check_range_planted(policy, state, planted)?;
    offer_in_range(policy, state, request, planted)
}

/// An offer on a state that 13 does not refuse. "An offer that is not turned
/// down goes to the end of its class's queue as it is, and changes nothing else
/// in the state."
pub(crate) fn offer_in_range(
    policy: &Policy,
    state: &mut State,
    request: Request,
    planted: Planted,
) -> Result<(), Refusal> {
    if let Some(refusal) = request.refused_by(policy) {
        return Err(refusal);
    }
    // Not a rule: a leak that tests plant.
    if planted == Planted::SharedPoolOf120 && waiting_of_all(state) >= 120 {
        return Err(Refusal::QueueFull);
    }
    // Each class has a limit of its own: a full queue says nothing of others.
    let own = &mut state.classes[usize::from(request.class)];
    if own.queue.len() >= QUEUE_LIMIT {
        return Err(Refusal::QueueFull);
    }
    own.queue.push_back(request);
    // Not a rule: a broken promise that tests plant.
    if planted == Planted::CountForgottenAtOffer {
        own.passed = 0;
    }
    Ok(())
}

/// A tick on a state that 13 does not refuse. "Tick number t does, in order:"
/// 1, 2 and 3.
pub(crate) fn tick_in_range(
    policy: &Policy,
    state: &mut State,
    planted: Planted,
) -> Result<TickRecord, Refusal> {
    if state.cycle >= LAST_CYCLE {
        return Err(Refusal::NoMoreTicks);
    }
    let turn = start_turn(policy, state, planted);
    // Not a rule: a leak that tests plant.
    if planted == Planted::TurnReclaimed && turn.is_none() {
        reclaim_turn(policy, state);
    }
    let wires = drive_wires(policy, state, planted);
    // "3. If an answer is due, it goes out."
    let response = take_due(&mut state.responses, state.cycle);
    state.cycle += 1;
    Ok(TickRecord {
        wires,
        response,
        turn,
    })
}

/// "1. If t is a multiple of the turn length, a turn starts."
fn start_turn(policy: &Policy, state: &mut State, planted: Planted) -> Option<Turn> {
    if offset(policy, state.cycle) != 0 {
        return None;
    }
    let turn = turn_number(policy, state.cycle);
    // "If the turn's number, t over the turn length, is a multiple of E, all
    // turns left are set to the caps."
    if turn % u32::from(policy.epoch) == 0 {
        set_to_caps(policy, state);
    }
    // "Then the walk picks the owner." "An owner keeps its turn, idle or not":
    // nothing else sets it.
    let walked = walk(policy, state, turn, planted);
    state.owner = walked.owner;
    state.elided = is_elided(policy, state, turn, planted);
    // Not a rule: a broken promise that tests plant.
    if planted == Planted::CountsForgottenAtTurnStart {
        set_counts(state, 0);
    }
    Some(Turn {
        owner: state.owner,
        elided: state.elided,
        tried: walked.tried,
    })
}

/// "all turns left are set to the caps"
pub(crate) fn set_to_caps(policy: &Policy, state: &mut State) {
    for (class, &cap) in state.classes.iter_mut().zip(&policy.caps) {
        class.left = cap;
    }
}

/// "2. If a column command is due, it goes out. Otherwise" a request of the owner's is
/// activated and leaves its queue, "if the offset in the turn allows it".
fn drive_wires(policy: &Policy, state: &mut State, planted: Planted) -> Wires {
    if let Some(request) = take_due(&mut state.columns, state.cycle) {
        return Wires::Column(request);
    }
    // One cycle early is not a rule: a broken promise that tests plant.
    let early = u32::from(planted == Planted::DeadTimeEarly);
    if !offset_allows(policy, state.elided, offset(policy, state.cycle) + early) {
        return Wires::Nothing;
    }
    let place = first_that_can_go(policy, state, planted);
    let Some(request) = place.and_then(|place| leave_queue(state, place, planted)) else {
        return Wires::Nothing;
    };
    activate(policy, state, request, planted);
    Wires::Activate(request)
}

/// W-203: "The owner now activates its oldest request whose gaps are met." This is its
/// place in the owner's queue, where the oldest of all has place 0.
fn first_that_can_go(policy: &Policy, state: &State, planted: Planted) -> Option<usize> {
    let own = &state.classes[state.owner];
    let can_go = |request: &Request| {
        gaps_met(policy, state, request, state.cycle, planted)
            // Not a rule: a leak that tests plant.
            && (planted != Planted::BankAgeInEightBits
                || bank_gap_met_in_8_bits(policy, state, request))
    };
    let asked = own.queue.iter().take(asked_of(own, planted)).enumerate();
    let mut can_go = asked.filter(|(_, request)| can_go(request));
    // Not rules, but for the last: leaks and broken promises that tests plant.
    let found = match planted {
        Planted::YoungestFirst => can_go.next_back(),
        Planted::LastKindFirst | Planted::LastRankFirst => {
            let like_last = |request: &Request| {
                state.last_activate.is_some_and(|last| match planted {
                    Planted::LastKindFirst => last.kind == request.kind(),
                    _ => last.rank == request.rank,
                })
            };
            let mut alike = can_go.clone().filter(|(_, request)| like_last(request));
            alike.next().or(can_go.next())
        }
        Planted::LastBankLast => {
            let of_last_bank = |request: &Request| {
                let last = state.last_of_bank[request.bank_place()];
                last.is_some() && last == state.last_activate
            };
            let mut of_others = can_go.clone().filter(|(_, request)| !of_last_bank(request));
            of_others.next().or(can_go.next())
        }
        _ => can_go.next(),
    };
    found.map(|(place, _)| place)
}

/// How many requests of a queue may go, from the oldest on. "A request that has been the
/// oldest while 15 others passed it goes next, and nothing passes it again."
fn asked_of(own: &ClassState, planted: Planted) -> usize {
    let most_passes = match planted {
        // Not rules: the one before W-203, and a broken promise that tests plant.
        Planted::OldestAlone => 0,
        Planted::SixteenPass => MOST_PASSES + 1,
        _ => MOST_PASSES,
    };
    if own.passed >= most_passes {
        1
    } else {
        QUEUE_LIMIT
    }
}

/// Takes the request at a place out of the owner's queue. "The rest of the queue closes up
/// in its order."
fn leave_queue(state: &mut State, place: usize, planted: Planted) -> Option<Request> {
    let own = &mut state.classes[state.owner];
    let request = match planted {
        // Not a rule: a broken promise that tests plant.
        Planted::LastMovesUp if place > 0 => own.queue.swap_remove_back(place),
        _ => own.queue.remove(place),
    };
    own.passed = passed_after(own.passed, place, planted);
    // Not rules: leaks that tests plant.
    if matches!(planted, Planted::OneCount | Planted::OneCountUpTo15) {
        let passed = own.passed;
        set_counts(state, passed);
    }
    request
}

/// The owner's count after the activate of the request at a place. One of the oldest makes
/// another the oldest, which nothing has passed yet; one of any other passes the oldest.
fn passed_after(passed: u8, place: usize, planted: Planted) -> u8 {
    match (place, planted) {
        // Not rules: leaks and wrong counts that tests plant.
        (0, Planted::CountNeverReset) => passed,
        (0, Planted::CountKeptBelow15 | Planted::OneCountUpTo15) if passed < MOST_PASSES => passed,
        (0, _) => 0,
        // At 15 none but the oldest is asked.
        _ => passed + 1,
    }
}

/// "An activate at t brings its column command at t plus the column delay and
/// its answer at t plus the answer delay."
fn activate(policy: &Policy, state: &mut State, request: Request, planted: Planted) {
    let cycle = state.cycle;
    state.columns.push(InFlight {
        due: cycle + u32::from(policy.timing.column_delay),
        request,
    });
    state.responses.push(InFlight {
        due: cycle + u32::from(policy.timing.response_delay),
        request,
    });
    let last = Some(LastActivate {
        cycle,
        kind: request.kind(),
        rank: request.rank,
    });
    // Not a rule: a broken promise that tests plant.
    if planted == Planted::BankForgottenForAnotherRank {
        let same_number = state
            .last_of_bank
            .iter_mut()
            .skip(usize::from(request.bank));
        same_number.step_by(BANKS).for_each(|last| *last = None);
    }
    state.last_activate = last;
    state.last_of_bank[request.bank_place()] = last;
}

/// Whether "all gaps are met": W-203's request "whose gaps are met".
pub(crate) fn gaps_met(
    policy: &Policy,
    state: &State,
    request: &Request,
    cycle: u32,
    planted: Planted,
) -> bool {
    gap_of_all_met(policy, state, request, cycle)
        && rank_gap_met(policy, state, request, cycle, planted)
        && bank_gap_met(policy, state, request, cycle)
}

/// "Gaps run from the last activate of all (by the two kinds)": the earlier
/// one's, and that of the request which is to follow it.
pub(crate) fn gap_of_all_met(
    policy: &Policy,
    state: &State,
    request: &Request,
    cycle: u32,
) -> bool {
    state.last_activate.is_none_or(|last| {
        let gap = policy.timing.gaps[last.kind as usize][request.kind() as usize];
        gap_met(last.cycle, gap, cycle)
    })
}

/// W-206: "the rank gap (1 to the dead time), kept from the last activate of all where that
/// was on another rank, besides the other gaps".
pub(crate) fn rank_gap_met(
    policy: &Policy,
    state: &State,
    request: &Request,
    cycle: u32,
    planted: Planted,
) -> bool {
    let Some((gap, last)) = policy.timing.rank_gap.zip(state.last_activate) else {
        return true;
    };
    let kept = match planted {
        // Not a rule: a broken promise that tests plant.
        Planted::RankGapOnTheSameRank => last.rank == request.rank,
        _ => last.rank != request.rank,
    };
    !kept || gap_met(last.cycle, gap, cycle)
}

/// "and from the last activate of the same bank (by that one's kind)". W-206: "a bank is
/// then known by rank and bank".
pub(crate) fn bank_gap_met(policy: &Policy, state: &State, request: &Request, cycle: u32) -> bool {
    state.last_of_bank[request.bank_place()].is_none_or(|last| {
        let gap = policy.timing.bank_gaps[last.kind as usize];
        gap_met(last.cycle, gap, cycle)
    })
}

/// "A gap of g is met from g cycles after that activate on, and where there was
/// none."
fn gap_met(last: u32, gap: u8, cycle: u32) -> bool {
    cycle >= last + u32::from(gap)
}

/// Takes out what is due at a tick. At most one is: two in one cycle get 13,
/// and there is at most one activate in a cycle.
fn take_due(flight: &mut Vec<InFlight>, cycle: u32) -> Option<Request> {
    let place = flight.iter().position(|item| item.due == cycle)?;
    Some(flight.remove(place).request)
}

/// The offset of a tick in its turn.
pub(crate) fn offset(policy: &Policy, cycle: u32) -> u32 {
    cycle % u32::from(policy.timing.turn_length)
}

/// "the turn's number, t over the turn length"
pub(crate) fn turn_number(policy: &Policy, cycle: u32) -> u32 {
    cycle / u32::from(policy.timing.turn_length)
}

/// For [`Planted::TurnReclaimed`] only. The least class was passed over at the
/// turn's start; if it waits with turns left now, its request came later.
fn reclaim_turn(policy: &Policy, state: &mut State) {
    let least = policy.least();
    let owner_idle = state.classes[state.owner].queue.is_empty();
    if least != state.owner && owner_idle && waits_with_turns_left(state, least) {
        state.owner = least;
        state.classes[least].left -= 1;
    }
}

/// For [`Planted::OneCount`], [`Planted::OneCountUpTo15`] and
/// [`Planted::CountsForgottenAtTurnStart`] only.
fn set_counts(state: &mut State, passed: u8) {
    for class in &mut state.classes {
        class.passed = passed;
    }
}

/// For [`Planted::SharedPoolOf120`] only.
fn waiting_of_all(state: &State) -> usize {
    state.classes.iter().map(|class| class.queue.len()).sum()
}

/// For [`Planted::BankAgeInEightBits`] only.
fn bank_gap_met_in_8_bits(policy: &Policy, state: &State, request: &Request) -> bool {
    state.last_of_bank[request.bank_place()].is_none_or(|last| {
        let age = (state.cycle - last.cycle) as u8;
        age >= policy.timing.bank_gaps[last.kind as usize]
    })
}
