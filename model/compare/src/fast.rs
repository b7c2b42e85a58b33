//! The rules of document 01, with requests W-201, W-202, W-203, W-206 and W-212 of document 02,
//! written for speed: the measure of what a run could cost.
//!
//! One struct holds policy and state in fixed arrays and is changed in place.
//! Nothing is allocated after [`Controller::new`], and a tick that starts no
//! turn neither divides nor looks at any class but the owner. Ticks are still
//! made one by one: no stretch of idle ticks is skipped. The owner's requests are
//! looked through once for each time that one of them could go, and not at each tick.

use vigambul_model::masks::class_mask;
use vigambul_model::policy::{self, Policy, Timing, LONGEST_EPOCH, MOST_CLASSES};
use vigambul_model::state::{LAST_CYCLE, MOST_PASSES, QUEUE_LIMIT};
use vigambul_model::trace::{COLUMN_BIT, ELIDED, LINE, OFFER_BIT, TRIED_SHIFT};

/// Commands and answers in flight lie in rings by the cycle they are due at.
/// No delay is above 31, so the slot of the current cycle is never one that an
/// activate of this cycle fills.
const SLOTS: usize = 32;

/// Bits 29 and 30, which are 0 in an offer.
const UNUSED_BITS: u32 = 0x6000_0000;

/// The upper bit of the kind and that of the bank: kind above 1, or bank above 7.
const KIND_AND_BANK_TOO_HIGH: u32 = 1 << 21 | 1 << 19;
/// Bits 22 and 23.
const RANK_BITS: u32 = 3 << 22;

/// Kind and rank as a word has them, in bits 20 to 23.
const KINDS_AND_RANKS: usize = 16;
/// A kind of 2, of which there is no request: in its place of a row stands the shortest gap.
const SHORTEST: usize = 2;

/// Bank and rank as a word has them, in bits 16 to 23, of which two are the kind. The banks are
/// told apart by these bits as they stand: to move them together takes longer.
const BANK_PLACES: usize = 256;
const BANK_AND_RANK: usize = 0xC7;

/// Marks a home turn in the plan; the bits below it are the class.
const HOME: u8 = 1 << 4;

/// One tried class, as the turn number counts it.
const ONE_TRIED: u32 = 1 << TRIED_SHIFT;

// Numbers of document 01's table.
const CLASS: u32 = 9;
const BANK_OR_KIND: u32 = 10;
const QUEUE_FULL: u32 = 11;
const NO_MORE_TICKS: u32 = 12;
const MALFORMED: u32 = 14;
const LOG_TOO_SHORT: u32 = 15;

/// A policy and a state under it. Sets of classes are masks of 16 bits.
pub struct Controller {
    // What the policy says; it stays as it is.
    class_count: usize,
    least: usize,
    /// For each class those that it may flow to.
    rows: [u16; MOST_CLASSES],
    children: [[u8; MOST_CLASSES]; MOST_CLASSES],
    child_count: [u8; MOST_CLASSES],
    /// The classes with nothing above them.
    tops: u16,
    caps: [u8; MOST_CLASSES],
    /// The classes with a cap above 0.
    with_caps: u16,
    /// The class that the walk of each turn of an epoch starts at, with a bit set where
    /// that is its home turn.
    plan: [u8; LONGEST_EPOCH as usize],
    epoch: u32,
    turn_length: u32,
    dead_time: u32,
    /// From the last activate of all, in a row for the earlier kind and rank, by the later.
    gaps: [[u8; KINDS_AND_RANKS]; KINDS_AND_RANKS],
    bank_gaps: [u32; 2],
    /// The bits for which 10 refuses an offer.
    refused_bits: u32,
    column_delay: u32,
    answer_delay: u32,

    // The state.
    /// The number of the next tick.
    cycle: u32,
    /// The cycle at which the next turn starts, kept so that no tick divides.
    next_turn: u32,
    /// The next turn's number in its epoch, for the same reason.
    turn_in_epoch: u32,
    owner: usize,
    /// The owner may activate at cycles below this.
    window_end: u32,
    /// Offers' words as they came, in a ring for each class.
    queues: [[u32; QUEUE_LIMIT]; MOST_CLASSES],
    heads: [u8; MOST_CLASSES],
    lengths: [u8; MOST_CLASSES],
    /// How often the oldest request of each class has been passed.
    passed: [u8; MOST_CLASSES],
    /// The classes with a request waiting.
    waiting: u16,
    turns_left: [u8; MOST_CLASSES],
    /// The classes with turns left.
    with_turns: u16,
    marks: [u8; MOST_CLASSES],
    /// The word that is due at each cycle to come, by the cycle modulo 32.
    columns: [u32; SLOTS],
    answers: [u32; SLOTS],
    /// The cycle of the last activate, and its row of gaps; of none yet they are 0.
    last_activate: u32,
    last_gaps: [u8; KINDS_AND_RANKS],
    /// The first cycle at which the last activate of a bank lets another out.
    bank_ready: [u32; BANK_PLACES],
    /// Before this cycle none of the owner's waiting requests can go.
    none_before: u32,
}

/// Reads a policy file and runs a trace from its fresh state into a log, with
/// the answers of the library's call: 0, 1 to 8, or 15.
pub fn run(policy_file: &[u8], trace: &[u32], log: &mut [u32]) -> u32 {
    let (policy, refusal) = policy::read(policy_file);
    if let Some(refusal) = refusal {
        return refusal.number();
    }
    if log.len() < LINE * trace.len() {
        return LOG_TOO_SHORT;
    }
    Controller::new(&policy).run(trace, log);
    0
}

impl Controller {
    /// The fresh state of a policy that was read from a file.
    pub fn new(policy: &Policy) -> Controller {
        let timing = &policy.timing;
        let n = policy.class_count();
        let mut controller = Controller {
            class_count: n,
            least: policy.least(),
            rows: [0; MOST_CLASSES],
            children: [[0; MOST_CLASSES]; MOST_CLASSES],
            child_count: [0; MOST_CLASSES],
            tops: 0,
            caps: [0; MOST_CLASSES],
            with_caps: 0,
            plan: [0; LONGEST_EPOCH as usize],
            epoch: u32::from(policy.epoch),
            turn_length: u32::from(timing.turn_length),
            dead_time: u32::from(timing.dead_time),
            gaps: [[0; KINDS_AND_RANKS]; KINDS_AND_RANKS],
            bank_gaps: timing.bank_gaps.map(u32::from),
            refused_bits: match timing.rank_gap {
                Some(_) => KIND_AND_BANK_TOO_HIGH,
                None => KIND_AND_BANK_TOO_HIGH | RANK_BITS,
            },
            column_delay: u32::from(timing.column_delay),
            answer_delay: u32::from(timing.response_delay),
            cycle: 0,
            next_turn: 0,
            turn_in_epoch: 0,
            owner: 0,
            window_end: 0,
            queues: [[0; QUEUE_LIMIT]; MOST_CLASSES],
            heads: [0; MOST_CLASSES],
            lengths: [0; MOST_CLASSES],
            passed: [0; MOST_CLASSES],
            waiting: 0,
            turns_left: [0; MOST_CLASSES],
            with_turns: 0,
            marks: [0; MOST_CLASSES],
            columns: [0; SLOTS],
            answers: [0; SLOTS],
            last_activate: 0,
            last_gaps: [0; KINDS_AND_RANKS],
            bank_ready: [0; BANK_PLACES],
            none_before: 0,
        };
        controller.set_gaps(timing);
        controller.rows[..n].copy_from_slice(&policy.rows);
        controller.caps[..n].copy_from_slice(&policy.caps);
        for class in 0..n {
            let children = policy.covers_of(class);
            for (place, &child) in children.iter().enumerate() {
                controller.children[class][place] = child as u8;
            }
            controller.child_count[class] = children.len() as u8;
            if children.is_empty() {
                controller.tops |= class_mask(class);
            }
            if policy.caps[class] > 0 {
                controller.with_caps |= class_mask(class);
            }
        }
        // The last turns of an epoch, as many as the minimums sum up to.
        let others = usize::from(policy.epoch - policy.minimums.iter().sum::<u8>());
        controller.plan[..others].fill(controller.least as u8);
        let mut place = others;
        for (class, &minimum) in policy.minimums.iter().enumerate() {
            let end = place + usize::from(minimum);
            controller.plan[place..end].fill(class as u8 | HOME);
            place = end;
        }
        // Turns left and window are set when the first tick starts an epoch.
        controller
    }

    /// Of each two kinds and ranks the gap by kinds or, if that is longer and the ranks
    /// differ, the rank gap.
    fn set_gaps(&mut self, timing: &Timing) {
        let kinds_and_ranks = || (0..KINDS_AND_RANKS).filter(|both| both & SHORTEST == 0);
        for earlier in kinds_and_ranks() {
            for later in kinds_and_ranks() {
                let by_kinds = timing.gaps[earlier & 1][later & 1];
                let same_rank = earlier >> 2 == later >> 2;
                let by_ranks = timing.rank_gap.filter(|_| !same_rank).unwrap_or(0);
                self.gaps[earlier][later] = by_kinds.max(by_ranks);
            }
            let [to_read, to_write] = timing.gaps[earlier & 1];
            self.gaps[earlier][SHORTEST] = to_read.min(to_write);
        }
    }

    /// Runs a trace into a log of at least four times its length.
    pub fn run(&mut self, trace: &[u32], log: &mut [u32]) {
        for (&number, line) in trace.iter().zip(log.chunks_exact_mut(LINE)) {
            line.copy_from_slice(&self.call(number));
        }
    }

    /// One trace number's four log numbers.
    // Always inlined: handed back through memory, the four numbers are stored one by one and read
    // as one, which costs more than the tick itself.
    #[inline(always)]
    pub fn call(&mut self, number: u32) -> [u32; LINE] {
        if number == 0 {
            self.tick()
        } else {
            [self.offer(number), 0, 0, 0]
        }
    }

    /// The status of a number other than 0.
    #[inline]
    fn offer(&mut self, word: u32) -> u32 {
        if word & (OFFER_BIT | UNUSED_BITS) != OFFER_BIT {
            return MALFORMED;
        }
        let class = (word >> 24 & 0x1F) as usize;
        if class >= self.class_count {
            return CLASS;
        }
        if word & self.refused_bits != 0 {
            return BANK_OR_KIND;
        }
        let length = self.lengths[class];
        if usize::from(length) >= QUEUE_LIMIT {
            return QUEUE_FULL;
        }
        let place = usize::from(self.heads[class] + length) % QUEUE_LIMIT;
        self.queues[class][place] = word;
        self.lengths[class] = length + 1;
        self.waiting |= class_mask(class);
        // It may be the owner's, and may go before those that were looked at.
        self.none_before = self.any_ready();
        0
    }

    #[inline(always)]
    fn tick(&mut self) -> [u32; LINE] {
        let cycle = self.cycle;
        if cycle >= LAST_CYCLE {
            return [NO_MORE_TICKS, 0, 0, 0];
        }
        let turn = if cycle == self.next_turn {
            self.start_turn()
        } else {
            0
        };
        let slot = cycle as usize % SLOTS;
        let column = take(&mut self.columns[slot]);
        let command = if column != 0 {
            column | COLUMN_BIT
        } else if cycle < self.window_end
            && cycle >= self.none_before
            && self.waiting >> self.owner & 1 == 1
        {
            self.activate_first()
        } else {
            0
        };
        let answer = take(&mut self.answers[slot]);
        self.cycle = cycle + 1;
        [0, command, answer, turn]
    }

    /// Activates the oldest request of the owner's queue, which is not empty, whose gaps are
    /// met. Gives its word, or 0 if none goes out.
    fn activate_first(&mut self) -> u32 {
        let owner = self.owner % MOST_CLASSES;
        let head = usize::from(self.heads[owner]) % QUEUE_LIMIT;
        let oldest = self.queues[owner][head];
        if self.cycle < self.ready(oldest) {
            return self.activate_younger(owner, head);
        }
        self.passed[owner] = 0;
        self.activate(owner, oldest)
    }

    /// The same where the oldest, which is at the ring's start, cannot go.
    #[inline(never)]
    fn activate_younger(&mut self, owner: usize, head: usize) -> u32 {
        let place_of = |age: usize| (head + age) % QUEUE_LIMIT;
        let mut first_ready = self.ready(self.queues[owner][head]);
        // "A request that has been the oldest while 15 others passed it goes next".
        if self.passed[owner] < MOST_PASSES {
            for age in 1..usize::from(self.lengths[owner]) {
                let word = self.queues[owner][place_of(age)];
                let ready = self.ready(word);
                if self.cycle < ready {
                    first_ready = first_ready.min(ready);
                    continue;
                }
                // "The rest of the queue closes up in its order": the older ones move by one
                // place into the gap, and the ring starts after the place that is left.
                for older in (0..age).rev() {
                    self.queues[owner][place_of(older + 1)] = self.queues[owner][place_of(older)];
                }
                self.passed[owner] += 1;
                return self.activate(owner, word);
            }
        }
        self.none_before = first_ready;
        0
    }

    /// Activates a request whose place was at the ring's start, or is filled up.
    #[inline]
    fn activate(&mut self, owner: usize, word: u32) -> u32 {
        let cycle = self.cycle;
        let kind = (word >> 20 & 1) as usize;
        self.heads[owner] = (self.heads[owner] + 1) % QUEUE_LIMIT as u8;
        self.lengths[owner] -= 1;
        if self.lengths[owner] == 0 {
            self.waiting &= !class_mask(owner);
        }
        self.last_activate = cycle;
        self.last_gaps = self.gaps[kind_and_rank(word)];
        self.bank_ready[bank_place(word)] = cycle + self.bank_gaps[kind];
        self.none_before = self.any_ready();
        self.columns[(cycle + self.column_delay) as usize % SLOTS] = word;
        self.answers[(cycle + self.answer_delay) as usize % SLOTS] = word;
        word
    }

    /// The first cycle at which all gaps of a request are met.
    #[inline]
    fn ready(&self, word: u32) -> u32 {
        let gap = self.last_gaps[kind_and_rank(word)];
        let ready = self.last_activate + u32::from(gap);
        ready.max(self.bank_ready[bank_place(word)])
    }

    /// The first cycle at which the last activate lets any other out.
    #[inline]
    fn any_ready(&self) -> u32 {
        let gap = self.last_gaps[SHORTEST];
        self.last_activate + u32::from(gap)
    }

    /// Starts a turn and gives its number in the log.
    fn start_turn(&mut self) -> u32 {
        if self.turn_in_epoch == 0 {
            self.turns_left = self.caps;
            self.with_turns = self.with_caps;
        }
        let tried = self.walk(self.plan[self.turn_in_epoch as usize]);
        // What was looked at were another owner's requests.
        self.none_before = self.any_ready();
        self.turn_in_epoch += 1;
        if self.turn_in_epoch == self.epoch {
            self.turn_in_epoch = 0;
        }
        let next = self.plan[self.turn_in_epoch as usize];
        let elided = if next & HOME != 0 {
            self.rows[self.owner] >> (next ^ HOME) & 1 == 1
        } else {
            self.trial_reaches_owner()
        };
        self.next_turn = self.cycle + self.turn_length;
        self.window_end = if elided {
            self.next_turn
        } else {
            self.next_turn - self.dead_time
        };
        1 + self.owner as u32 + if elided { ELIDED } else { 0 } + tried
    }

    /// Picks the owner from a place of the plan, moves the marks of the classes that
    /// pass the turn on, and takes one of the owner's turns left, unless it is a home
    /// class whose request waits. Gives the tried classes as the turn number has them.
    fn walk(&mut self, first: u8) -> u32 {
        let mut class = usize::from(first & !HOME);
        if first & HOME != 0 && self.waiting >> class & 1 == 1 {
            self.owner = class;
            return ONE_TRIED;
        }
        let mut tried = ONE_TRIED;
        let takers = self.waiting & self.with_turns | self.tops;
        while takers >> class & 1 == 0 {
            // W-201: "it moves first and then names the child". A class that does
            // not take the turn has children, so the moved mark is not 0.
            let mark = self.moved_mark(class);
            self.marks[class] = mark;
            class = self.child(class, mark);
            tried += ONE_TRIED;
        }
        self.owner = class;
        if self.turns_left[class] > 0 {
            self.turns_left[class] -= 1;
            if self.turns_left[class] == 0 {
                self.with_turns &= !class_mask(class);
            }
        }
        tried
    }

    /// Whether the next turn's walk, as far as can be told now, leads to the
    /// owner past classes that may flow to it and have no turns left. If the
    /// next turn starts an epoch, the turns left are the caps.
    fn trial_reaches_owner(&self) -> bool {
        let with_turns = if self.turn_in_epoch == 0 {
            self.with_caps
        } else {
            self.with_turns
        };
        let mut class = self.least;
        while class != self.owner {
            let may_flow = self.rows[class] >> self.owner & 1 == 1;
            if !may_flow || with_turns >> class & 1 == 1 {
                return false;
            }
            class = self.child(class, self.moved_mark(class));
        }
        true
    }

    /// The mark of a class with children once it is moved on. No other class is
    /// asked: it takes every turn that reaches it.
    #[inline]
    fn moved_mark(&self, class: usize) -> u8 {
        let mark = self.marks[class];
        if mark < self.child_count[class] {
            mark + 1
        } else {
            1
        }
    }

    /// The child that a mark above 0 names.
    #[inline]
    fn child(&self, class: usize, mark: u8) -> usize {
        usize::from(self.children[class][usize::from(mark) - 1])
    }
}

/// The kind and the rank of an offer's word.
#[inline]
fn kind_and_rank(word: u32) -> usize {
    (word >> 20) as usize % KINDS_AND_RANKS
}

/// The place of an offer's bank among those of all ranks.
#[inline]
fn bank_place(word: u32) -> usize {
    (word >> 16) as usize & BANK_AND_RANK
}

/// Empties a slot and gives what was in it. Most are empty, and are left alone.
#[inline]
fn take(slot: &mut u32) -> u32 {
    let word = *slot;
    if word != 0 {
        *slot = 0;
    }
    word
}
