//! "A tick": what a state holds, the fresh state, and "out of range in 13".

use std::collections::VecDeque;

use crate::planted::Planted;
use crate::policy::Policy;
use crate::refusal::Refusal;

/// 11: "8 requests of that class wait".
pub const QUEUE_LIMIT: usize = 8;
/// W-203: "while 15 others passed it".
pub const MOST_PASSES: u8 = 15;
/// 10: "bank above 7".
pub const BANKS: usize = 8;
/// W-206: "four ranks of eight banks".
pub const RANKS: usize = 4;
/// 12: "a tick after 16,777,215 ticks". A state's cycle is the number of ticks
/// made, which is also the number of the next one.
pub const LAST_CYCLE: u32 = 16_777_215;

/// The kind of an activate that was made.
#[derive(Clone, Copy, Debug, PartialEq, Eq)]
pub enum Kind {
    Read = 0,
    Write = 1,
}

/// The number of ranks that requests may name, from rank 0 on. W-206: "With ten bytes a
/// rank other than 0 is refused with 10."
pub fn ranks(policy: &Policy) -> usize {
    match policy.timing.rank_gap {
        Some(_) => RANKS,
        None => 1,
    }
}

/// What an offer asks for. The numbers are as they came, so that 9 and 10 have
/// something to refuse.
#[derive(Clone, Copy, Debug, PartialEq, Eq)]
pub struct Request {
    pub class: u8,
    /// 0 read, 1 write.
    pub kind: u8,
    pub rank: u8,
    pub bank: u8,
    pub tag: u16,
}

impl Request {
    /// The kind, for a request that 10 does not refuse.
    pub fn kind(&self) -> Kind {
        if self.kind == 0 {
            Kind::Read
        } else {
            Kind::Write
        }
    }

    /// The place of its bank among those of all ranks. W-206: "a bank is then known by rank
    /// and bank". Asked of requests that 10 does not refuse.
    pub fn bank_place(&self) -> usize {
        BANKS * usize::from(self.rank) + usize::from(self.bank)
    }

    /// 9, then 10: "class not below n", "bank above 7 or kind above 1", and W-206's ranks. No
    /// trace number has a rank above 3; a single offer may, and is refused too.
    pub fn refused_by(&self, policy: &Policy) -> Option<Refusal> {
        if usize::from(self.class) >= policy.class_count() {
            Some(Refusal::Class)
        } else if usize::from(self.bank) >= BANKS
            || self.kind > 1
            || usize::from(self.rank) >= ranks(policy)
        {
            Some(Refusal::BankOrKind)
        } else {
            None
        }
    }
}

/// A request whose column command, or whose response (document 01: answer), is
/// still to come.
#[derive(Clone, Copy, Debug, PartialEq, Eq)]
pub struct InFlight {
    /// The tick at which it goes out.
    pub due: u32,
    pub request: Request,
}

/// When the last activate was, of which kind and on which rank: all that gaps ask about it.
/// Of a bank's last one the rank is that of its place, and is not asked.
#[derive(Clone, Copy, Debug, PartialEq, Eq)]
pub struct LastActivate {
    pub cycle: u32,
    pub kind: Kind,
    pub rank: u8,
}

/// What a state holds for one class.
#[derive(Clone, Debug, Default, PartialEq, Eq)]
pub struct ClassState {
    /// Waiting requests, oldest first.
    pub queue: VecDeque<Request>,
    /// Turns left in this epoch.
    pub left: u8,
    /// The round-robin pointer (document 01: mark): the number of the cover
    /// that the class last passed a turn on to, counted from 1, or 0 before it
    /// ever passed one on.
    pub pointer: usize,
    /// W-203's "stored count": how many others have passed the oldest of the queue
    /// while it was the oldest. An offer does not change it, to an empty queue neither.
    pub passed: u8,
}

/// A state between two calls. The fields are open so that a caller can hand in
/// a wrong one: it is refused with 13.
#[derive(Clone, Debug, Default, PartialEq, Eq)]
pub struct State {
    /// The number of the next tick.
    pub cycle: u32,
    /// One entry for each class; their number is the state's class count.
    pub classes: Vec<ClassState>,
    pub owner: usize,
    /// Whether the owner's dead time is dropped.
    pub elided: bool,
    /// Column commands in flight.
    pub columns: Vec<InFlight>,
    /// Responses (document 01: answers) in flight.
    pub responses: Vec<InFlight>,
    /// The last activate of all.
    pub last_activate: Option<LastActivate>,
    /// The last activate of each bank, by [`Request::bank_place`].
    pub last_of_bank: [Option<LastActivate>; RANKS * BANKS],
}

impl State {
    /// The state of all zeros, with no classes.
    pub fn of_zeros() -> State {
        State::default()
    }
}

/// "A fresh state is at cycle 0, with empty queues, nothing in flight, no
/// activate yet, turns left at the caps, marks 0, owner 0 and its dead time
/// kept." "A fresh state asked of an unfit policy is all zeros, with 13."
///
/// W-203: nothing has passed anything yet, so the counts are 0.
pub fn fresh(policy: &Policy) -> (State, Option<Refusal>) {
    fresh_planted(policy, Planted::Nothing)
}

/// The same with a wrong rule in place. For tests.
pub fn fresh_planted(policy: &Policy, planted: Planted) -> (State, Option<Refusal>) {
    if !policy.in_range_planted(planted) {
        return (State::of_zeros(), Some(Refusal::OutOfRange));
    }
    let class_at_its_cap = |&cap: &u8| ClassState {
        queue: VecDeque::new(),
        left: cap,
        pointer: 0,
        passed: 0,
    };
    let state = State {
        classes: policy.caps.iter().map(class_at_its_cap).collect(),
        ..State::of_zeros()
    };
    (state, None)
}

/// 13: "a state or policy handed in has numbers out of range".
pub fn check_range(policy: &Policy, state: &State) -> Result<(), Refusal> {
    check_range_planted(policy, state, Planted::Nothing)
}

pub(crate) fn check_range_planted(
    policy: &Policy,
    state: &State,
    planted: Planted,
) -> Result<(), Refusal> {
    if policy.in_range_planted(planted) && in_range(policy, state) {
        Ok(())
    } else {
        Err(Refusal::OutOfRange)
    }
}

/// The state's part of 13, clause by clause, under a policy in range.
fn in_range(policy: &Policy, state: &State) -> bool {
    let n = policy.class_count();
    // "a class count other than the policy's"
    state.classes.len() == n
        // "an owner not below n"
        && state.owner < n
        && (0..n).all(|class| class_in_range(policy, state, class))
        // "a cycle above 16,777,215"
        && state.cycle <= LAST_CYCLE
        // "a last activate not before the cycle": of all, or of a bank
        && state.last_activate.iter().all(|last| last.cycle < state.cycle)
        && state.last_of_bank.iter().flatten().all(|last| last.cycle < state.cycle)
        && flight_in_range(policy, state.cycle, &state.columns, policy.timing.column_delay)
        && flight_in_range(policy, state.cycle, &state.responses, policy.timing.response_delay)
}

fn class_in_range(policy: &Policy, state: &State, class: usize) -> bool {
    let own = &state.classes[class];
    // "a mark above the number of children"
    own.pointer <= policy.covers_of(class).len()
        // "a queue length above 8"
        && own.queue.len() <= QUEUE_LIMIT
        // "turns left above the cap"
        && own.left <= policy.caps[class]
        // W-203: "A stored count above 15 gets 13."
        && own.passed <= MOST_PASSES
        // "a waiting request that 9 or 10 would refuse, or that waits in
        // another class's queue"
        && own.queue.iter().all(|request| {
            request.refused_by(policy).is_none() && usize::from(request.class) == class
        })
}

/// The clauses on what is in flight, for a cycle that is itself in range.
fn flight_in_range(policy: &Policy, cycle: u32, flight: &[InFlight], delay: u8) -> bool {
    // "an in-flight request that 9 or 10 would refuse"
    let request_sound = |item: &InFlight| item.request.refused_by(policy).is_none();
    // "a pending column or answer due before the next tick, or its delay or
    // more after it"
    let due_sound = |item: &InFlight| item.due >= cycle && item.due - cycle < u32::from(delay);
    // "two columns or two answers due in one cycle"
    let due_once = |place: usize| {
        flight[..place]
            .iter()
            .all(|other| other.due != flight[place].due)
    };
    flight
        .iter()
        .all(|item| request_sound(item) && due_sound(item))
        && (0..flight.len()).all(due_once)
}
