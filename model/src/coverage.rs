//! Counts of what generated folders exercise, taken by running them through the
//! model: a generator that misses a case shows a count of 0.

use std::collections::BTreeMap;

use crate::class_set::{kinds, kinds_of_offers, OFFER_KINDS, REFUSED_KINDS, TAKEN_KINDS};
use crate::dead_time::{lookahead, offset_allows, turns_left_before_next, Lookahead, TurnsLeft};
use crate::generate::{Folder, DAMAGES};
use crate::planted::Planted;
use crate::policy::{self, Policy, LONGEST_EPOCH, LONGEST_FILE, MOST_CLASSES, SHORTEST_FILE};
use crate::program::read_trace;
use crate::refusal::Refusal;
use crate::state::{self, ranks, Kind, Request, State, MOST_PASSES, QUEUE_LIMIT, RANKS};
use crate::tick::{
    bank_gap_met, gap_of_all_met, gaps_met, offer_in_range, offset, rank_gap_met, tick_in_range,
    turn_number, TickRecord, Turn, Wires,
};
use crate::trace::{Word, OFFER_BIT, STRAY_BITS};
use crate::walk::longest_chain;

/// The refusals that a folder can give. 12 needs 16,777,215 ticks, and 13, 15 to
/// 18 and 20 need calls that the program does not make.
const REFUSALS: [u32; 12] = [1, 2, 3, 4, 5, 6, 7, 8, 9, 10, 11, 14];

/// Each kind of damage, of set and of offer by sets must be met so often: once may be by luck.
const FAIR: u64 = 5;

/// Everything else that is counted.
const CASES: [&str; 102] = [
    "file under 17 bytes",
    "file above 65,535 bytes",
    "least class not 0",
    "E = 1",
    "E = 64",
    "minimums 0",
    "minimums equal to E",
    "minimums one less than E",
    "minimums above 0 and below E",
    "a least class with a minimum",
    "turn length one above the dead time",
    "turn length 255",
    "dead time 2",
    "dead time 31",
    "a gap of 1",
    "a gap of the dead time",
    "answer delay 2",
    "answer delay of the dead time",
    "column delay 1",
    "column delay one less than the answer delay",
    "turn starts",
    "epoch starts after the first",
    "the end of an epoch of 7 to 16 turns",
    "the end of an epoch of 17 to 64 turns",
    "a chain of sixteen walked to its top",
    "dropped before a home turn of the top of a chain of sixteen",
    "a mark that goes back to 1 from fifteen children",
    // By a class with two or more children.
    "taken while the mark stays 0, and a later turn passed on",
    "taken while the mark stays above 0, and a later turn passed on",
    "home turns taken by a waiting request",
    "home turns so taken by a least class",
    "home turns so taken with one turn left",
    "home turns so taken, the second of a class in an epoch",
    "home turns so taken in an epoch's first turn",
    "home turns ascended from",
    "home turns ascended from by a class with two or more children",
    "home turns ascended from to a class that waits",
    "home turns idle at a class with nothing above",
    "dropped before a home turn of the owner",
    "dropped before a home turn of a higher class",
    "kept before a home turn of a lower class",
    "kept before a home turn of an incomparable class",
    "dropped before a home turn, at an epoch's end",
    "kept before a home turn, at an epoch's end",
    "dropped, the owner is the least class",
    "kept, a class has turns left",
    "kept by the caps of the next epoch alone",
    "dropped by document 000's test alone",
    "offers taken",
    "offers taken just before a turn starts",
    "offers taken just after a turn has started",
    "offers of a bank above 7 alone",
    "offers of a kind above 1 alone",
    "9 before 10",
    "10 before 11",
    "a queue filled up",
    "50 ticks in a row",
    "100 numbers without a tick",
    "activates",
    "activates in a dead time that is dropped",
    "columns",
    "answers",
    "columns in the turn of another owner",
    "held back by a due column alone",
    "held back by the gap read-read alone",
    "held back by the gap read-write alone",
    "held back by the gap write-read alone",
    "held back by the gap write-write alone",
    "held back by the same-bank gap after a read alone",
    "held back by the same-bank gap after a write alone",
    "held back by the dead time alone",
    // W-203, of the owner's queue.
    "the first of eight goes",
    "a middle one of eight goes",
    "the last of eight goes",
    "the oldest is passed for its bank alone",
    "the oldest is passed by one of the other kind",
    "a count that reaches 15",
    "the oldest goes at a count of 15",
    "a younger one held back by a count of 15 alone",
    "a full queue held back by one busy bank alone",
    "a turn of a class starts with its count above 0",
    "a turn of another class starts with a count above 0",
    // W-206.
    "ten timing bytes",
    "eleven timing bytes",
    "a rank gap of 1",
    "a rank gap of the dead time",
    "offers of a rank other than 0 alone, with ten timing bytes",
    "9 before 10 for the rank alone",
    "10 for the rank alone before 11",
    "held back by the rank gap alone",
    "held back by a gap by kinds alone, after one on another rank",
    "the oldest is passed for its rank alone",
    "one bank number on two ranks back to back, closer than the same-bank gap",
    "a bank again, after others of its number on other ranks",
    // W-212, by the longest rising chain from the walk's first class.
    "walks as long as the longest chain",
    "walks of two classes or more as long as the longest chain",
    "walks shorter than the longest chain",
    "walks shorter than the longest chain, to a class with nothing above",
    "walks of two classes or more from a home class",
    "walks of two classes or more from a home class that is not the least",
    "walks of two classes or more to a class with others above",
    "walks of two classes or more from a least class that is not 0",
];

/// How often each case was met.
pub struct Coverage {
    counts: BTreeMap<String, Count>,
}

/// How often a case was met.
#[derive(Clone, Copy, Debug, PartialEq, Eq)]
pub struct Count {
    pub met: u64,
    /// How often it must be met.
    pub needed: u64,
}

impl Default for Coverage {
    fn default() -> Coverage {
        Coverage::new()
    }
}

impl Coverage {
    /// Every case, met 0 times.
    pub fn new() -> Coverage {
        let once = (REFUSALS.iter().map(|&number| refusal_name(number)))
            .chain((1..=MOST_CLASSES).map(classes_name))
            .chain((0..4).map(left_over_name))
            .chain((1..=7).map(second_fault_name))
            .chain((0..31).map(lone_bit_name))
            .chain(STRAY_BITS.iter().map(|&bit| stray_bit_name(bit)))
            .chain((16..32).map(high_class_name))
            .chain((0..RANKS).map(rank_name))
            .chain((1..=MOST_CLASSES as u32).map(walk_name))
            .chain(neighbours().map(|(seen, hidden)| neighbours_name(seen, hidden)))
            .chain(CASES.iter().map(|name| name.to_string()))
            .map(|name| (name, Count { met: 0, needed: 1 }));
        let of_sets = TAKEN_KINDS.into_iter().chain(REFUSED_KINDS);
        let of_sets = of_sets.chain(OFFER_KINDS).map(str::to_string);
        let fairly_often = (DAMAGES.iter().map(|damage| damage_name(damage.name)))
            .chain(of_sets)
            .map(|name| {
                let needed = FAIR;
                (name, Count { met: 0, needed })
            });
        Coverage {
            counts: once.chain(fairly_often).collect(),
        }
    }

    /// Each case with its count.
    pub fn counts(&self) -> impl Iterator<Item = (&str, Count)> {
        self.counts
            .iter()
            .map(|(name, &count)| (name.as_str(), count))
    }

    /// Counts a case. One that [`Coverage::new`] does not name would be counted
    /// and never required.
    fn met(&mut self, name: &str) {
        match self.counts.get_mut(name) {
            Some(count) => count.met += 1,
            None => panic!("`{name}` is not among the cases"),
        }
    }

    fn met_if(&mut self, condition: bool, name: &str) {
        if condition {
            self.met(name);
        }
    }

    /// Runs a folder and counts what it met.
    pub fn add(&mut self, folder: &Folder) {
        let length = folder.policy.len();
        self.met_if(length < SHORTEST_FILE, "file under 17 bytes");
        self.met_if(length > LONGEST_FILE, "file above 65,535 bytes");
        if let Some(damage) = folder.damage {
            self.met(&damage_name(damage));
        }
        let (policy, refusal) = policy::read(&folder.policy);
        if let Some(refusal) = refusal {
            let number = refusal.number();
            let several = policy::all_refusals(&folder.policy).len() > 1;
            self.met_if(several, &second_fault_name(number));
            return self.met(&refusal_name(number));
        }
        self.add_policy(&policy);
        let trace = read_trace(&folder.trace);
        self.met(&left_over_name(trace.left_over));
        self.add_neighbours(&policy, &trace.numbers);
        self.add_sets(&policy, folder, &trace.numbers);
        let (mut state, _) = state::fresh(&policy);
        let mut taken = vec![Taken::default(); policy.class_count()];
        for &number in &trace.numbers {
            self.add_call(&policy, &mut state, &mut taken, number);
        }
        let in_a_row = |length: usize, tick: bool| {
            let mut windows = trace.numbers.windows(length);
            windows.any(|window| window.iter().all(|&n| (n == 0) == tick))
        };
        self.met_if(in_a_row(50, true), "50 ticks in a row");
        self.met_if(in_a_row(100, false), "100 numbers without a tick");
    }

    fn add_policy(&mut self, policy: &Policy) {
        let timing = &policy.timing;
        let sum: u8 = policy.minimums.iter().sum();
        let gaps: Vec<u8> = timing
            .gaps
            .iter()
            .flatten()
            .chain(&timing.bank_gaps)
            .copied()
            .collect();
        self.met(&classes_name(policy.class_count()));
        self.met_if(policy.least() != 0, "least class not 0");
        self.met_if(policy.epoch == 1, "E = 1");
        self.met_if(policy.epoch == LONGEST_EPOCH, "E = 64");
        self.met_if(sum == 0, "minimums 0");
        self.met_if(sum == policy.epoch, "minimums equal to E");
        self.met_if(sum + 1 == policy.epoch, "minimums one less than E");
        let between = sum > 0 && sum < policy.epoch;
        self.met_if(between, "minimums above 0 and below E");
        let of_least = policy.minimums[policy.least()];
        self.met_if(of_least > 0, "a least class with a minimum");
        self.met_if(
            timing.turn_length == timing.dead_time + 1,
            "turn length one above the dead time",
        );
        self.met_if(timing.turn_length == 255, "turn length 255");
        self.met_if(timing.dead_time == 2, "dead time 2");
        self.met_if(timing.dead_time == 31, "dead time 31");
        self.met_if(gaps.contains(&1), "a gap of 1");
        self.met_if(gaps.contains(&timing.dead_time), "a gap of the dead time");
        self.met_if(timing.response_delay == 2, "answer delay 2");
        self.met_if(
            timing.response_delay == timing.dead_time,
            "answer delay of the dead time",
        );
        self.met_if(timing.column_delay == 1, "column delay 1");
        self.met_if(
            timing.column_delay + 1 == timing.response_delay,
            "column delay one less than the answer delay",
        );
        self.met(match timing.rank_gap {
            None => "ten timing bytes",
            Some(_) => "eleven timing bytes",
        });
        self.met_if(timing.rank_gap == Some(1), "a rank gap of 1");
        self.met_if(
            timing.rank_gap == Some(timing.dead_time),
            "a rank gap of the dead time",
        );
    }

    /// Counts neighbouring classes of which one may flow to some third class, and the other may
    /// not and has offers in the trace: an extract for the third would keep those if W-205's
    /// mask of the one had the other's bit too.
    fn add_neighbours(&mut self, policy: &Policy, trace: &[u32]) {
        let offered = |class: usize| {
            let of_class = |&number: &u32| match Word::of(number) {
                Word::Offer(request) => usize::from(request.class) == class,
                _ => false,
            };
            trace.iter().any(of_class)
        };
        let n = policy.class_count();
        for (seen, hidden) in neighbours().filter(|&(seen, hidden)| seen.max(hidden) < n) {
            let mut others = (0..n).filter(|&class| class != seen);
            let told =
                others.any(|class| policy.flows(seen, class) && !policy.flows(hidden, class));
            self.met_if(told && offered(hidden), &neighbours_name(seen, hidden));
        }
    }

    /// Counts the sets of classes that extracts are asked for, and what the members see.
    fn add_sets(&mut self, policy: &Policy, folder: &Folder, trace: &[u32]) {
        for &classes in &folder.sets {
            for kind in kinds(policy, classes) {
                self.met(kind);
            }
            if classes.is_of(policy) {
                for kind in kinds_of_offers(policy, classes, trace) {
                    self.met(kind);
                }
            }
        }
    }

    fn add_call(&mut self, policy: &Policy, state: &mut State, taken: &mut [Taken], number: u32) {
        match Word::of(number) {
            Word::Tick => {
                let before = state.clone();
                match tick_in_range(policy, state, Planted::Nothing) {
                    Ok(record) => {
                        self.add_tick(policy, state, &record);
                        self.add_first_that_can_go(policy, &before, state, &record);
                        if let Wires::Activate(request) = record.wires {
                            self.add_rank(policy, &before, &request);
                        }
                        if let Some(turn) = record.turn {
                            self.add_walk(policy, before.cycle, turn);
                            self.add_counts(&before, state.owner);
                            self.add_marks(policy, &before, state, taken);
                            self.add_home_turn(policy, &before, state);
                        }
                    }
                    Err(refusal) => self.met(&refusal_name(refusal.number())),
                }
            }
            Word::Offer(request) => {
                match offer_in_range(policy, state, request, Planted::Nothing) {
                    Ok(()) => self.add_taken(policy, state, &request),
                    Err(refusal) => self.add_refused(policy, state, &request, refusal),
                }
            }
            Word::Malformed => {
                self.met(&refusal_name(14));
                self.add_malformed(policy, number);
            }
        }
    }

    fn add_refused(&mut self, policy: &Policy, state: &State, request: &Request, by: Refusal) {
        self.met(&refusal_name(by.number()));
        let [bank, kind] = [request.bank > 7, request.kind > 1];
        let rank = usize::from(request.rank) >= ranks(policy);
        let rank_alone = rank && !bank && !kind;
        if by == Refusal::Class {
            self.met_if(bank || kind, "9 before 10");
            self.met_if(rank_alone, "9 before 10 for the rank alone");
            // In four bits it would be a class.
            let high =
                request.class >= 16 && usize::from(request.class - 16) < policy.class_count();
            let sound = !bank && !kind && !rank;
            self.met_if(high && sound, &high_class_name(request.class));
            return;
        }
        self.met_if(bank && !kind && !rank, "offers of a bank above 7 alone");
        self.met_if(kind && !bank && !rank, "offers of a kind above 1 alone");
        self.met_if(
            rank_alone,
            "offers of a rank other than 0 alone, with ten timing bytes",
        );
        let waiting = state.classes[usize::from(request.class)].queue.len();
        let full = waiting == QUEUE_LIMIT;
        self.met_if(by == Refusal::BankOrKind && full, "10 before 11");
        self.met_if(rank_alone && full, "10 for the rank alone before 11");
    }

    /// Counts a malformed word that one bit makes so.
    fn add_malformed(&mut self, policy: &Policy, number: u32) {
        self.met_if(
            number.is_power_of_two(),
            &lone_bit_name(number.trailing_zeros()),
        );
        for bit in STRAY_BITS {
            // Without the bit it would be an offer that is not refused for itself.
            let sound = match Word::of(number ^ 1 << bit) {
                Word::Offer(request) => request.refused_by(policy).is_none(),
                _ => false,
            };
            self.met_if(number & OFFER_BIT != 0 && sound, &stray_bit_name(bit));
        }
    }

    /// Counts an offer by the state after it.
    fn add_taken(&mut self, policy: &Policy, state: &State, request: &Request) {
        let next_offset = offset(policy, state.cycle);
        let waiting = state.classes[usize::from(request.class)].queue.len();
        self.met("offers taken");
        self.met_if(next_offset == 0, "offers taken just before a turn starts");
        self.met_if(
            next_offset == 1,
            "offers taken just after a turn has started",
        );
        self.met_if(waiting == QUEUE_LIMIT, "a queue filled up");
    }

    /// Counts a tick by its record and the state after it.
    fn add_tick(&mut self, policy: &Policy, state: &State, record: &TickRecord) {
        let cycle = state.cycle - 1;
        if record.turn.is_some() {
            self.add_turn(policy, state, turn_number(policy, cycle));
        }
        let offset = offset(policy, cycle);
        match record.wires {
            Wires::Nothing => {}
            Wires::Activate(_) => {
                self.met("activates");
                self.met_if(
                    !offset_allows(policy, false, offset),
                    "activates in a dead time that is dropped",
                );
            }
            Wires::Column(request) => {
                self.met("columns");
                self.met_if(
                    usize::from(request.class) != state.owner,
                    "columns in the turn of another owner",
                );
            }
        }
        self.met_if(record.response.is_some(), "answers");
        if !matches!(record.wires, Wires::Activate(_)) {
            self.add_held_back(policy, state, record, cycle);
        }
    }

    /// Counts an activate by the owner's requests before it, and by the count after it; or
    /// what a count of 15 or one bank held back.
    fn add_first_that_can_go(
        &mut self,
        policy: &Policy,
        before: &State,
        state: &State,
        record: &TickRecord,
    ) {
        let cycle = before.cycle;
        let (waiting, own) = (&before.classes[state.owner], &state.classes[state.owner]);
        let Some(&oldest) = waiting.queue.front() else {
            return;
        };
        let request = match record.wires {
            Wires::Activate(request) => request,
            Wires::Nothing if offset_allows(policy, state.elided, offset(policy, cycle)) => {
                // No activate went out, so the state still has what the tick asked.
                let younger = own.queue.iter().skip(1);
                let mut free = younger
                    .filter(|request| gaps_met(policy, state, request, cycle, Planted::Nothing));
                let at_15 = own.passed == MOST_PASSES && free.next().is_some();
                self.met_if(at_15, "a younger one held back by a count of 15 alone");
                let mut banks = own.queue.iter().map(Request::bank_place);
                let of_one_bank = banks.all(|place| place == oldest.bank_place());
                self.met_if(
                    own.queue.len() == QUEUE_LIMIT
                        && of_one_bank
                        && UnmetGaps::of(policy, state, &oldest, cycle) == UnmetGaps::BANK,
                    "a full queue held back by one busy bank alone",
                );
                return;
            }
            _ => return,
        };
        // Of equal ones the oldest goes: their gaps are the same.
        let place = waiting.queue.iter().position(|&other| other == request);
        let first = place == Some(0);
        if waiting.queue.len() == QUEUE_LIMIT {
            let last = place == Some(QUEUE_LIMIT - 1);
            self.met_if(first, "the first of eight goes");
            self.met_if(!first && !last, "a middle one of eight goes");
            self.met_if(last, "the last of eight goes");
        }
        let at_15 = waiting.passed == MOST_PASSES;
        self.met_if(first && at_15, "the oldest goes at a count of 15");
        if !first {
            let unmet = UnmetGaps::of(policy, before, &oldest, cycle);
            self.met_if(
                unmet == UnmetGaps::BANK,
                "the oldest is passed for its bank alone",
            );
            self.met_if(
                unmet == UnmetGaps::RANK,
                "the oldest is passed for its rank alone",
            );
            self.met_if(
                request.kind != oldest.kind,
                "the oldest is passed by one of the other kind",
            );
            self.met_if(own.passed == MOST_PASSES, "a count that reaches 15");
        }
    }

    /// Counts an activate of a file with a rank gap by the state before it.
    fn add_rank(&mut self, policy: &Policy, before: &State, request: &Request) {
        if policy.timing.rank_gap.is_none() {
            return;
        }
        self.met(&rank_name(usize::from(request.rank)));
        // Of the other ranks, the last activates of the bank with this number.
        let others = (0..RANKS as u8).filter(|&rank| rank != request.rank);
        let of_number = others.map(|rank| Request { rank, ..*request });
        let of_number = of_number.filter_map(|other| before.last_of_bank[other.bank_place()]);
        let last_of_number = of_number.max_by_key(|last| last.cycle);
        let back_to_back = last_of_number.filter(|&last| Some(last) == before.last_activate);
        let too_soon_on_one = back_to_back.is_some_and(|last| {
            let gap = policy.timing.bank_gaps[last.kind as usize];
            before.cycle < last.cycle + u32::from(gap)
        });
        self.met_if(
            too_soon_on_one,
            "one bank number on two ranks back to back, closer than the same-bank gap",
        );
        let own = before.last_of_bank[request.bank_place()];
        let others_since = own.zip(last_of_number);
        self.met_if(
            others_since.is_some_and(|(own, other)| own.cycle < other.cycle),
            "a bank again, after others of its number on other ranks",
        );
    }

    /// Counts a turn's start by the counts before its first tick.
    fn add_counts(&mut self, before: &State, owner: usize) {
        for (class, own) in before.classes.iter().enumerate() {
            let name = match class == owner {
                true => "a turn of a class starts with its count above 0",
                false => "a turn of another class starts with a count above 0",
            };
            self.met_if(own.passed > 0, name);
        }
    }

    /// Counts an owner's oldest request that was not activated, nor any other, where
    /// there is one reason only. No activate went out, so the state still has what the
    /// tick asked.
    fn add_held_back(&mut self, policy: &Policy, state: &State, record: &TickRecord, cycle: u32) {
        let Some(oldest) = state.classes[state.owner].queue.front() else {
            return;
        };
        let column = matches!(record.wires, Wires::Column(_));
        let dead_time = !offset_allows(policy, state.elided, offset(policy, cycle));
        let gaps = UnmetGaps::of(policy, state, oldest, cycle);
        match (column, gaps, dead_time) {
            (true, UnmetGaps::NONE, false) => self.met("held back by a due column alone"),
            (false, UnmetGaps::KINDS, false) => {
                let kinds = state.last_activate.map(|last| (last.kind, oldest.kind()));
                self.met(match kinds {
                    Some((Kind::Read, Kind::Read)) => "held back by the gap read-read alone",
                    Some((Kind::Read, Kind::Write)) => "held back by the gap read-write alone",
                    Some((Kind::Write, Kind::Read)) => "held back by the gap write-read alone",
                    _ => "held back by the gap write-write alone",
                });
                let other_rank = state.last_activate.map(|last| last.rank) != Some(oldest.rank);
                self.met_if(
                    other_rank,
                    "held back by a gap by kinds alone, after one on another rank",
                );
            }
            (false, UnmetGaps::RANK, false) => self.met("held back by the rank gap alone"),
            (false, UnmetGaps::BANK, false) => {
                let last = state.last_of_bank[oldest.bank_place()];
                self.met(match last.map(|last| last.kind) {
                    Some(Kind::Read) => "held back by the same-bank gap after a read alone",
                    _ => "held back by the same-bank gap after a write alone",
                });
            }
            (false, UnmetGaps::NONE, true) => self.met("held back by the dead time alone"),
            _ => {}
        }
    }

    /// Counts what a turn's walk did with the marks, by the states before its first
    /// tick and after it.
    ///
    /// Where there are two children or more, a mark that moves is another one, so
    /// the class passed the turn on if and only if its mark is another.
    fn add_marks(&mut self, policy: &Policy, before: &State, state: &State, taken: &mut [Taken]) {
        for (class, own) in before.classes.iter().enumerate() {
            let mark = own.pointer;
            let children = policy.covers_of(class).len();
            if children < 2 {
                continue;
            }
            let after = state.classes[class].pointer;
            if after != mark {
                self.met_if(
                    children == 15 && mark == 15 && after == 1,
                    "a mark that goes back to 1 from fifteen children",
                );
                let Taken { at_0, above_0 } = std::mem::take(&mut taken[class]);
                for _ in 0..at_0 {
                    self.met("taken while the mark stays 0, and a later turn passed on");
                }
                for _ in 0..above_0 {
                    self.met("taken while the mark stays above 0, and a later turn passed on");
                }
            } else if class == state.owner {
                taken[class].at_0 += u64::from(mark == 0);
                taken[class].above_0 += u64::from(mark > 0);
            }
        }
    }

    /// Counts a walk by how many classes it tried.
    fn add_walk(&mut self, policy: &Policy, cycle: u32, turn: Turn) {
        let tried = turn.tried;
        self.met(&walk_name(tried));
        let home = policy.home(turn_number(policy, cycle));
        let least = policy.least();
        let bound = longest_chain(policy, home.unwrap_or(least));
        let others_above = !policy.covers_of(turn.owner).is_empty();
        self.met_if(tried == bound, "walks as long as the longest chain");
        self.met_if(tried < bound, "walks shorter than the longest chain");
        self.met_if(
            tried < bound && !others_above,
            "walks shorter than the longest chain, to a class with nothing above",
        );
        if tried < 2 {
            return;
        }
        self.met_if(
            tried == bound,
            "walks of two classes or more as long as the longest chain",
        );
        self.met_if(
            home.is_some(),
            "walks of two classes or more from a home class",
        );
        self.met_if(
            home.is_some_and(|home| home != least),
            "walks of two classes or more from a home class that is not the least",
        );
        self.met_if(
            others_above,
            "walks of two classes or more to a class with others above",
        );
        self.met_if(
            home.is_none() && least != 0,
            "walks of two classes or more from a least class that is not 0",
        );
    }

    /// Counts a home turn by the states before its first tick and after it.
    fn add_home_turn(&mut self, policy: &Policy, before: &State, state: &State) {
        let turn = turn_number(policy, before.cycle);
        let Some(home) = policy.home(turn) else {
            return;
        };
        let waits = |class: usize| !before.classes[class].queue.is_empty();
        let children = policy.covers_of(home).len();
        if waits(home) {
            self.met("home turns taken by a waiting request");
            let least = home == policy.least();
            self.met_if(least, "home turns so taken by a least class");
            let epoch_start = turn % u32::from(policy.epoch) == 0;
            self.met_if(epoch_start, "home turns so taken in an epoch's first turn");
            // Such a turn is not charged, so this is what its walk met; at an epoch's
            // start too, where the state before it may have none left.
            let one_left = state.classes[home].left == 1;
            self.met_if(one_left, "home turns so taken with one turn left");
            let second = !epoch_start && policy.home(turn - 1) == Some(home);
            self.met_if(
                second,
                "home turns so taken, the second of a class in an epoch",
            );
        } else if children == 0 {
            self.met("home turns idle at a class with nothing above");
        } else {
            self.met("home turns ascended from");
            self.met_if(
                children > 1,
                "home turns ascended from by a class with two or more children",
            );
            self.met_if(
                waits(state.owner),
                "home turns ascended from to a class that waits",
            );
        }
    }

    /// Counts a turn's start by the state after its first tick, which has the
    /// owner, pointers and turns left that the dead time went by.
    fn add_turn(&mut self, policy: &Policy, state: &State, turn: u32) {
        self.met("turn starts");
        if turn > 0 && turn % u32::from(policy.epoch) == 0 {
            self.met("epoch starts after the first");
            match policy.epoch {
                0..=6 => {}
                7..=16 => self.met("the end of an epoch of 7 to 16 turns"),
                _ => self.met("the end of an epoch of 17 to 64 turns"),
            }
        }
        let at_top = policy.covers_of(state.owner).is_empty();
        let chain_walked = is_chain_of_sixteen(policy) && at_top;
        self.met_if(chain_walked, "a chain of sixteen walked to its top");
        match policy.home(turn + 1) {
            Some(home) => {
                self.add_before_home(policy, state, turn, home);
                self.met_if(
                    chain_walked && home == state.owner,
                    "dropped before a home turn of the top of a chain of sixteen",
                );
            }
            None => self.add_trial(policy, state, turn),
        }
        let none_below_has_turns = (0..policy.class_count())
            .filter(|&class| policy.strictly_below(class, state.owner))
            .all(|class| state.classes[class].left == 0);
        self.met_if(
            !state.elided && none_below_has_turns,
            "dropped by document 000's test alone",
        );
    }

    /// Counts a turn before a home turn.
    fn add_before_home(&mut self, policy: &Policy, state: &State, turn: u32, home: usize) {
        let owner = state.owner;
        self.met(if home == owner {
            "dropped before a home turn of the owner"
        } else if policy.flows(owner, home) {
            "dropped before a home turn of a higher class"
        } else if policy.flows(home, owner) {
            "kept before a home turn of a lower class"
        } else {
            "kept before a home turn of an incomparable class"
        });
        if turns_left_before_next(policy, turn) == TurnsLeft::AtTheCaps {
            self.met(if state.elided {
                "dropped before a home turn, at an epoch's end"
            } else {
                "kept before a home turn, at an epoch's end"
            });
        }
    }

    /// Counts a turn before one that starts at the least class.
    fn add_trial(&mut self, policy: &Policy, state: &State, turn: u32) {
        let trial = |by| lookahead(policy, state, by, Planted::Nothing);
        let outcome = trial(turns_left_before_next(policy, turn));
        let least = state.owner == policy.least();
        match outcome {
            Lookahead::ReachesOwner if least => self.met("dropped, the owner is the least class"),
            Lookahead::MeetsClassWithTurnsLeft => self.met("kept, a class has turns left"),
            // W-202's plan gives each class at most as many turns as its cap, whatever is
            // charged, so a list of calls never leaves the least class without turns left
            // before such a turn. What a trial walk past it does, tests ask of states that
            // are handed in.
            _ => panic!("a trial walk passes the least class"),
        }
        self.met_if(
            outcome != Lookahead::ReachesOwner
                && trial(TurnsLeft::OfThisEpoch) == Lookahead::ReachesOwner,
            "kept by the caps of the next epoch alone",
        );
    }
}

/// The gaps of a request that are not met.
#[derive(PartialEq, Eq)]
struct UnmetGaps {
    kinds: bool,
    rank: bool,
    bank: bool,
}

impl UnmetGaps {
    const NONE: UnmetGaps = UnmetGaps {
        kinds: false,
        rank: false,
        bank: false,
    };
    // Of each of the three, that gap alone.
    const KINDS: UnmetGaps = UnmetGaps {
        kinds: true,
        ..UnmetGaps::NONE
    };
    const RANK: UnmetGaps = UnmetGaps {
        rank: true,
        ..UnmetGaps::NONE
    };
    const BANK: UnmetGaps = UnmetGaps {
        bank: true,
        ..UnmetGaps::NONE
    };

    fn of(policy: &Policy, state: &State, request: &Request, cycle: u32) -> UnmetGaps {
        UnmetGaps {
            kinds: !gap_of_all_met(policy, state, request, cycle),
            rank: !rank_gap_met(policy, state, request, cycle, Planted::Nothing),
            bank: !bank_gap_met(policy, state, request, cycle),
        }
    }
}

/// The turns that a class with two or more children has taken since it last
/// passed one on, by the mark that stayed.
#[derive(Clone, Copy, Default)]
struct Taken {
    at_0: u64,
    above_0: u64,
}

/// With a least class and one child at most, all are in a row.
fn is_chain_of_sixteen(policy: &Policy) -> bool {
    policy.class_count() == MOST_CLASSES
        && (0..MOST_CLASSES).all(|class| policy.covers_of(class).len() <= 1)
}

fn refusal_name(number: u32) -> String {
    format!("refusal {number:02}")
}

fn classes_name(n: usize) -> String {
    format!("classes {n:02}")
}

fn left_over_name(count: usize) -> String {
    format!("left-over bytes {count}")
}

/// A file that this number refuses, and a later one too.
fn second_fault_name(number: u32) -> String {
    format!("{number} before another")
}

fn damage_name(name: &str) -> String {
    format!("damage: {name}")
}

/// A number of this bit alone.
fn lone_bit_name(bit: u32) -> String {
    format!("bit {bit:02} alone")
}

/// An offer that this bit alone makes malformed.
fn stray_bit_name(bit: u32) -> String {
    format!("an offer with bit {bit}")
}

/// Class numbers side by side, both ways round.
fn neighbours() -> impl Iterator<Item = (usize, usize)> {
    (1..MOST_CLASSES).flat_map(|class| [(class - 1, class), (class, class - 1)])
}

/// A class that another one sees, beside one that it does not see.
fn neighbours_name(seen: usize, hidden: usize) -> String {
    format!("class {seen:02} seen beside class {hidden:02} hidden")
}

/// An activate of a file with a rank gap.
fn rank_name(rank: usize) -> String {
    format!("activates on rank {rank}")
}

/// A walk that tries so many classes.
fn walk_name(tried: u32) -> String {
    format!("walks of {tried:02} classes")
}

/// An offer of a class that no policy has, but sound apart from it.
fn high_class_name(class: u8) -> String {
    format!("class number {class}")
}
