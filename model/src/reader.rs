//! W-203 as someone sees it who has a policy, a trace and its log, and no state: which
//! request each activate took out of its class's queue, how often the oldest had been
//! passed, and which request had to go, by the gaps of document 01 and of W-206.

use std::collections::VecDeque;

use crate::dead_time::offset_allows;
use crate::policy::Policy;
use crate::state::{Request, BANKS, MOST_PASSES, RANKS};
use crate::tick::offset;
use crate::trace::{Word, ELIDED};

/// A trace and its log, read number by number from the fresh state on.
pub struct Reader<'a> {
    policy: &'a Policy,
    /// The number of the next tick.
    cycle: u32,
    /// Owner of the turn that goes on, and whether its dead time is dropped.
    owner: usize,
    elided: bool,
    /// The offers of each class that were taken and not activated, oldest first.
    waiting: Vec<VecDeque<Request>>,
    /// How many others of each class were activated while its oldest was the oldest.
    passes: Vec<u32>,
    /// The last activate of all, and of each bank of each rank.
    last: Option<(u32, Request)>,
    last_of_bank: [[Option<(u32, Request)>; BANKS]; RANKS],
    /// The cycles at which columns are to come.
    columns: VecDeque<u32>,
}

/// What a tick showed of its owner's requests.
#[derive(Clone, Debug, PartialEq, Eq)]
pub struct SeenTick {
    pub owner: usize,
    /// The owner's waiting requests before the tick, oldest first.
    pub waiting: VecDeque<Request>,
    /// How often the oldest of them had been passed.
    pub passes: u32,
    /// The place of the request that goes by the rule, the oldest's being 0.
    pub due: Option<usize>,
    /// The same without a limit on passes.
    pub due_without_limit: Option<usize>,
    /// The request that the log says went, with its place among the owner's waiting ones,
    /// unless it is none of them.
    pub activated: Option<(Request, Option<usize>)>,
}

impl SeenTick {
    /// Whether the tick showed what the rule gives.
    pub fn is_by_the_rule(&self) -> bool {
        match self.activated {
            None => self.due.is_none(),
            Some((_, place)) => place.is_some() && place == self.due,
        }
    }
}

impl Reader<'_> {
    /// Begins at the fresh state of a policy, or at one that differs from it in its cycle.
    pub fn new(policy: &Policy, cycle: u32) -> Reader<'_> {
        let n = policy.class_count();
        Reader {
            policy,
            cycle,
            owner: 0,
            elided: false,
            waiting: vec![VecDeque::new(); n],
            passes: vec![0; n],
            last: None,
            last_of_bank: [[None; BANKS]; RANKS],
            columns: VecDeque::new(),
        }
    }

    /// Reads a number of the trace and its log line. Tells of each tick that is not refused.
    pub fn read(&mut self, number: u32, line: &[u32]) -> Option<SeenTick> {
        if line[0] != 0 {
            return None;
        }
        match Word::of(number) {
            Word::Tick => Some(self.read_tick(line)),
            Word::Offer(request) => {
                // A right log has no other that is taken.
                if request.refused_by(self.policy).is_none() {
                    self.waiting[usize::from(request.class)].push_back(request);
                }
                None
            }
            Word::Malformed => None,
        }
    }

    fn read_tick(&mut self, line: &[u32]) -> SeenTick {
        let (command, turn) = (line[1], line[3]);
        let named = (turn & 0xFF) as usize;
        if (1..=self.policy.class_count()).contains(&named) {
            self.owner = named - 1;
            self.elided = turn & ELIDED != 0;
        }
        let owner = self.owner;
        let passes = self.passes[owner];
        let due_without_limit = self.oldest_that_can_go();
        let at_limit = passes >= u32::from(MOST_PASSES);
        let mut seen = SeenTick {
            owner,
            waiting: self.waiting[owner].clone(),
            passes,
            due: due_without_limit.filter(|&place| place == 0 || !at_limit),
            due_without_limit,
            activated: None,
        };
        if self.columns.front() == Some(&self.cycle) {
            self.columns.pop_front();
        }
        // A column command has a bit more, and none is the word of a tick.
        if let Word::Offer(request) = Word::of(command) {
            let place = self.take_out(request);
            let own = usize::from(request.class) == owner;
            seen.activated = Some((request, place.filter(|_| own)));
        }
        self.cycle += 1;
        seen
    }

    /// The place of the owner's oldest request whose gaps are met, if the owner may activate.
    fn oldest_that_can_go(&self) -> Option<usize> {
        let column_due = self.columns.front() == Some(&self.cycle);
        let offset = offset(self.policy, self.cycle);
        if column_due || !offset_allows(self.policy, self.elided, offset) {
            return None;
        }
        let timing = &self.policy.timing;
        let ready = |last: Option<(u32, Request)>, gap: &dyn Fn(Request) -> u8| {
            last.is_none_or(|(cycle, last)| self.cycle - cycle >= u32::from(gap(last)))
        };
        self.waiting[self.owner].iter().position(|request| {
            let later = request.kind() as usize;
            let by_kinds = |last: Request| timing.gaps[last.kind() as usize][later];
            let by_bank = |last: Request| timing.bank_gaps[last.kind() as usize];
            // A gap of 0 is met at once.
            let by_rank = |last: Request| match timing.rank_gap {
                Some(gap) if last.rank != request.rank => gap,
                _ => 0,
            };
            let [rank, bank] = [request.rank, request.bank].map(usize::from);
            ready(self.last, &by_kinds)
                && ready(self.last, &by_rank)
                && ready(self.last_of_bank[rank][bank], &by_bank)
        })
    }

    /// Takes an activated request out of its class's queue. Of equal ones it is the oldest:
    /// nobody can tell them apart.
    fn take_out(&mut self, request: Request) -> Option<usize> {
        let class = usize::from(request.class);
        let waiting = self.waiting.get_mut(class)?;
        let place = waiting.iter().position(|&other| other == request)?;
        waiting.remove(place);
        self.passes[class] = if place == 0 {
            0
        } else {
            self.passes[class] + 1
        };
        let [rank, bank] = [request.rank, request.bank].map(usize::from);
        let last = Some((self.cycle, request));
        self.last = last;
        self.last_of_bank[rank][bank] = last;
        let delay = u32::from(self.policy.timing.column_delay);
        self.columns.push_back(self.cycle + delay);
        Some(place)
    }
}
