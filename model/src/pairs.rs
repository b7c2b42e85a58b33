//! "Two lists side by side": pairs of lists that agree for a class L, or for W-211's
//! set of classes, made from a seed for the search in [`crate::leaks`].
//!
//! Each list is performed while it is made, so that its offers can aim at what
//! happens in it: at the owner's turn, at the bank that a waiting request needs,
//! at a queue that is nearly full. Offers of classes that may flow to L, or to a
//! member of the set, stand in both lists, so they aim by the first list alone; all
//! others are each list's own and aim by that list.

use crate::class_set::ClassSet;
use crate::extract::{extract_set_planted, Seen};
use crate::generate::{
    any_set, busy_bank_offer, malformed_word, missing_class_word, offer_that_10_refuses, on_rank,
    quick_kind_offer, sound_offer, sound_rows, sound_timing, with_missing_class,
    with_rank_gap_at_times, PolicyFields,
};
use crate::generate_orders;
use crate::planted::Planted;
use crate::policy::{self, Policy, LONGEST_EPOCH, MOST_CLASSES, TIMING_LENGTH};
use crate::random::Random;
use crate::refusal::Refusal;
use crate::state::{self, ranks, Request, State, BANKS, MOST_PASSES, QUEUE_LIMIT, RANKS};
use crate::tick::{offset, turn_number};
use crate::trace::{offer_word, run_line, LINE};

/// How a list is made into calls.
#[derive(Clone, Copy, Debug, PartialEq, Eq)]
pub enum Cut {
    OneRun,
    Runs,
    SingleCalls,
}

/// Two lists that agree for a set of classes, under one policy.
pub struct Pair {
    /// The policy's file, and the policy itself.
    pub file: Vec<u8>,
    pub policy: Policy,
    /// The set; where the lists agree for a class L, that of L alone.
    pub classes: ClassSet,
    /// What the set sees.
    pub seen: Seen,
    /// Of lists that agree for a set, the same set with classes that the policy does not have:
    /// the extracts of both must be refused alike.
    pub refused: Option<ClassSet>,
    /// The state that both lists go on from.
    pub start: State,
    pub lists: [Vec<u32>; 2],
    pub cuts: [Cut; 2],
}

impl Pair {
    /// Whether a class may flow to L, or to a member of the set.
    pub fn sees(&self, class: usize) -> bool {
        self.seen.has(class)
    }

    pub(crate) fn extract(
        &self,
        classes: ClassSet,
        side: usize,
        log: &[u32],
        out: &mut [u32],
        planted: Planted,
    ) -> Result<usize, Refusal> {
        let list = &self.lists[side];
        extract_set_planted(&self.policy, classes, list, log, out, planted)
    }

    /// The log lines of ticks. Both lists have the same number of them.
    pub(crate) fn ticks_of<'a>(
        &'a self,
        side: usize,
        log: &'a [u32],
    ) -> impl Iterator<Item = &'a [u32]> {
        self.lists[side]
            .iter()
            .zip(log.chunks_exact(LINE))
            .filter(|&(&number, _)| number == 0)
            .map(|(_, line)| line)
    }

    /// The number of ticks in each of the two lists.
    pub fn ticks(&self) -> usize {
        self.lists[0].iter().filter(|&&number| number == 0).count()
    }
}

/// Document 01: what is left of a list once malformed words and offers whose
/// class does not exist or may not flow to L are struck out. "Two lists agree if
/// the same numbers in the same order are left". W-211: "equal once malformed words and offers
/// that may flow to no member are struck".
pub fn purge(seen: Seen, list: &[u32]) -> Vec<u32> {
    list.iter()
        .copied()
        .filter(|&number| seen.keeps(number))
        .collect()
}

/// Lists of at most so many ticks may be made by single calls. Each of those
/// asks 13 anew, of the policy and the state, which takes far longer than a tick.
const MOST_TICKS_OF_SINGLE_CALLS: usize = 240;

/// Quiet lists are longer than this many ticks.
const LONG_SINCE: usize = 256;

/// The pair of a seed, of lists that agree for one class. They go on from the fresh state.
pub fn pair(seed: u64) -> Pair {
    pair_planted(seed, Planted::Nothing)
}

/// The same for a search with a wrong rule in place: where that takes more policies, the
/// pair's is one of those.
pub fn pair_planted(seed: u64, planted: Planted) -> Pair {
    pair_from_fresh(seed, searched_class, planted)
}

/// The pair of a seed, of lists that agree for a set of classes.
pub fn pair_of_set(seed: u64) -> Pair {
    pair_of_set_planted(seed, Planted::Nothing)
}

/// The same for a search with a wrong rule in place.
pub fn pair_of_set_planted(seed: u64, planted: Planted) -> Pair {
    let pair = pair_from_fresh(seed, searched_set, planted);
    // Any other seed would do; the pair's own would repeat its numbers.
    let random = &mut Random::new(!seed);
    Pair {
        refused: Some(with_missing_class(random, &pair.policy, pair.classes)),
        ..pair
    }
}

/// How the set is chosen that two lists are to agree for.
type Chosen = fn(&mut Random, &Policy) -> ClassSet;

fn pair_from_fresh(seed: u64, chosen: Chosen, planted: Planted) -> Pair {
    let fresh = |policy: &Policy, _: &mut Random| state::fresh_planted(policy, planted).0;
    pair_from(seed, chosen, fresh, planted)
}

/// The same from a state in which turns are used up as no list of calls uses them up:
/// W-202's plan gives a class at most as many turns as its cap. Demand 3 says nothing of
/// such states, and yet the rules for turns left must not leak in them.
pub(crate) fn pair_from_used_up(seed: u64, planted: Planted) -> Pair {
    pair_from(seed, searched_class, used_up, planted)
}

/// A state at a turn's start, with any marks, any counts, which are often 15, and any turns
/// left, which are often 0.
fn used_up(policy: &Policy, random: &mut Random) -> State {
    let (mut state, _) = state::fresh(policy);
    let turn = random.below(usize::from(policy.epoch));
    state.cycle = (turn * usize::from(policy.timing.turn_length)) as u32;
    for (class, own) in state.classes.iter_mut().enumerate() {
        if random.percent(70) {
            own.left = random.below(usize::from(own.left) + 1) as u8 * random.below(2) as u8;
        }
        own.pointer = random.below(policy.covers_of(class).len() + 1);
        let most = usize::from(MOST_PASSES);
        own.passed = random.below(2 * most).min(most) as u8;
    }
    state
}

fn pair_from(
    seed: u64,
    chosen: Chosen,
    start: impl Fn(&Policy, &mut Random) -> State,
    planted: Planted,
) -> Pair {
    let random = &mut Random::new(seed);
    // Many short pairs and few long ones: a short one shows most leaks, and the
    // long ones are for what takes long turns, long epochs or great ages.
    let most_ticks = match random.below(100) {
        0 | 1 => 4_000,
        2..=11 => 1_000,
        _ => 240,
    };
    let file = searched_file(random, most_ticks, planted);
    let (policy, _) = policy::read_planted(&file, planted);
    let classes = chosen(random, &policy);
    pair_under(random, (file, policy), classes, most_ticks, start)
}

/// A pair under a policy, which stands with its file, of lists that agree for a set of classes.
fn pair_under(
    random: &mut Random,
    (file, policy): (Vec<u8>, Policy),
    classes: ClassSet,
    most_ticks: usize,
    start: impl Fn(&Policy, &mut Random) -> State,
) -> Pair {
    let seen = Seen::by(&policy, classes);
    let ticks = searched_ticks(random, &policy, most_ticks);
    let cuts = [0, 1].map(|_| match random.below(20) {
        0 | 1 => Cut::Runs,
        2 if ticks <= MOST_TICKS_OF_SINGLE_CALLS => Cut::SingleCalls,
        _ => Cut::OneRun,
    });
    let start = start(&policy, random);
    let lists = agreeing_lists(random, &policy, &start, classes, ticks);
    Pair {
        file,
        policy,
        classes,
        seen,
        refused: None,
        start,
        lists,
        cuts,
    }
}

/// W-208: the pair of a seed, of lists that agree for one class, under the policy of a small order.
/// Each class of each order has its turn ([`generate_orders::target`]).
pub fn pair_of_order(seed: u64) -> Pair {
    pair_of_order_planted(seed, Planted::Nothing)
}

/// The same for a search with a wrong rule in place.
pub fn pair_of_order_planted(seed: u64, planted: Planted) -> Pair {
    let random = &mut Random::new(seed);
    let most_ticks = *random.pick(&[240, 240, 240, 240, 1_000]);
    let target = generate_orders::target(seed);
    let timing = searched_timing(random, most_ticks);
    let timing = match planted {
        // As in other pairs.
        Planted::RankGapAboveDeadTime => [&timing[..], &[timing[1] + 2]].concat(),
        _ if target.ranks => generate_orders::with_rank_gap(random, timing),
        _ => timing.to_vec(),
    };
    let file = target.fields(timing).encode();
    let (policy, _) = policy::read_planted(&file, planted);
    let fresh = |policy: &Policy, _: &mut Random| state::fresh_planted(policy, planted).0;
    let classes = ClassSet::of(target.class);
    pair_under(random, (file, policy), classes, most_ticks, fresh)
}

/// Mostly few classes, so that each has a part in the lists, and sixteen in a
/// fair share, since the highest class number is an edge.
fn searched_file(random: &mut Random, most_ticks: usize, planted: Planted) -> Vec<u8> {
    let n = match random.below(10) {
        0 | 1 => MOST_CLASSES,
        2 => random.between(1, MOST_CLASSES),
        _ => random.between(2, 5),
    };
    let rows = sound_rows(random, n);
    let timing = searched_timing(random, most_ticks);
    let epoch = searched_epoch(random, most_ticks / usize::from(timing[0]));
    // Mostly many home turns, and often no others.
    let sum = match random.below(8) {
        0 => 0,
        1 | 2 => epoch - 1,
        3 => epoch.saturating_sub(2),
        4 => random.below(epoch + 1),
        _ => epoch,
    };
    let mut minimums = vec![0; n];
    // Spread over the classes, or all with one of them.
    let only = random.percent(40).then(|| random.below(n));
    for _ in 0..sum {
        minimums[only.unwrap_or_else(|| random.below(n))] += 1;
    }
    let fields = PolicyFields::new(&rows, epoch as u8, &minimums, timing);
    let fields = match planted {
        // Two more than the dead time is the shortest that can show: a turn starts one cycle
        // more than the dead time after the last cycle for activates of the one before.
        Planted::RankGapAboveDeadTime => fields.with_rank_gap(timing[1] + 2),
        _ => with_rank_gap_at_times(random, fields),
    };
    fields.encode()
}

/// Short turns, so that a list has many of them; in long lists also longer ones
/// and the longest.
pub(crate) fn searched_timing(random: &mut Random, most_ticks: usize) -> [u8; TIMING_LENGTH] {
    let mut timing = sound_timing(random);
    // Of some timings, the one with the shortest dead time.
    for _ in 0..random.below(4) {
        let other = sound_timing(random);
        if other[1] < timing[1] {
            timing = other;
        }
    }
    let dead = usize::from(timing[1]);
    let long_list = most_ticks > MOST_TICKS_OF_SINGLE_CALLS;
    let turn_length = match random.below(10) {
        0 => usize::from(timing[0]),
        1 if long_list => 255,
        2 | 3 if long_list => random.between(240, 255),
        4 | 5 if long_list => random.between(dead + 1, 255),
        // The dead time's share of a turn is small or great.
        _ => dead + random.between(1, 8),
    };
    timing[0] = turn_length as u8;
    timing
}

/// Mostly short epochs, so that a list has many of them; else any that ends
/// within a list of so many turns, and at times any at all or the longest.
fn searched_epoch(random: &mut Random, most_turns: usize) -> usize {
    let longest = usize::from(LONGEST_EPOCH);
    match random.below(20) {
        0 => random.between(1, longest),
        1 => longest,
        2 | 3 if most_turns > longest => longest,
        2..=9 => random.between(1, most_turns.saturating_sub(2).clamp(1, longest)),
        _ => random.between(1, 5),
    }
}

/// Any class, though one that may not see all others if chance allows. Often one with
/// a minimum: what is in flight as its home turns start must not show.
fn searched_class(random: &mut Random, policy: &Policy) -> ClassSet {
    let n = policy.class_count();
    let sees_all = |class: usize| (0..n).all(|other| policy.flows(other, class));
    let mut classes: Vec<usize> = (0..n).collect();
    if policy.sum_of_minimums() > 0 && random.percent(40) {
        classes.retain(|&class| policy.minimums[class] > 0);
    }
    let class = *random.pick(&classes);
    ClassSet::of(match sees_all(class) {
        true => random.below(n),
        false => class,
    })
}

/// Any set of classes, though one that does not see all others if chance allows.
fn searched_set(random: &mut Random, policy: &Policy) -> ClassSet {
    let classes = any_set(random, policy);
    let seen = Seen::by(policy, classes);
    match (0..policy.class_count()).all(|class| seen.has(class)) {
        true => any_set(random, policy),
        false => classes,
    }
}

/// Mostly past an epoch's end, and not always whole turns.
fn searched_ticks(random: &mut Random, policy: &Policy, most_ticks: usize) -> usize {
    let turn_length = usize::from(policy.timing.turn_length);
    let epoch = usize::from(policy.epoch);
    let fewest = if random.percent(60) { epoch + 1 } else { 2 };
    let turns = random.between(fewest, 3 * epoch + 2);
    let cut_off = if random.percent(50) {
        random.below(turn_length)
    } else {
        0
    };
    (turns * turn_length - cut_off).min(most_ticks)
}

/// When a class makes its offers.
#[derive(Clone, Copy, Debug, PartialEq, Eq)]
enum Habit {
    Silent,
    /// So often that a request nearly always waits.
    Busy,
    Sparse,
    /// So seldom that most banks are left alone for hundreds of cycles.
    Rare,
    /// Just before a turn starts.
    BeforeTurnStart,
    /// Just after a turn has started.
    AfterTurnStart,
    /// Just before the last tick of a turn.
    TurnEnd,
    /// Just before and just after the dead time begins.
    DeadTimeEdge,
    /// At both of these edges, in turns that the class owns.
    OwnTurnEdge,
    /// At the edges of an epoch's last turn.
    EpochEnd,
    /// Its queue is filled up again before each tick, and at times past that.
    KeepFull,
    /// Its queue is filled before the first tick, and that is all.
    FullOnce,
    /// Its queue is kept full, for the most part on one bank: others go before those.
    BusyBank,
    /// Its queue is kept full, nearly all of one kind: those go before the few of the other.
    QuickKind,
}

const HABITS: [Habit; 19] = [
    Habit::Silent,
    Habit::Silent,
    Habit::Busy,
    Habit::Busy,
    Habit::Busy,
    Habit::Sparse,
    Habit::Rare,
    Habit::BeforeTurnStart,
    Habit::AfterTurnStart,
    Habit::TurnEnd,
    Habit::DeadTimeEdge,
    Habit::OwnTurnEdge,
    Habit::OwnTurnEdge,
    Habit::EpochEnd,
    Habit::KeepFull,
    Habit::FullOnce,
    Habit::BusyBank,
    Habit::QuickKind,
    Habit::QuickKind,
];

/// Of lists in which banks are left alone for hundreds of cycles.
const QUIET_HABITS: [Habit; 4] = [Habit::Silent, Habit::Rare, Habit::Rare, Habit::Sparse];

/// A habit for each class, out of some.
fn habits(random: &mut Random, n: usize, out_of: &[Habit]) -> Vec<Habit> {
    (0..n).map(|_| *random.pick(out_of)).collect()
}

/// How many banks and ranks the offers of a pair use, from number 0 on. With ten timing bytes
/// there is but one rank.
#[derive(Clone, Copy)]
struct InUse {
    banks: usize,
    ranks: usize,
}

/// One of the two lists, and where it has led.
struct Side<'a> {
    policy: &'a Policy,
    list: Vec<u32>,
    state: State,
}

impl Side<'_> {
    /// Puts a number at the end of the list and performs it.
    fn push(&mut self, number: u32) {
        self.list.push(number);
        run_line(self.policy, &mut self.state, number, Planted::Nothing);
    }

    /// How many offers a class makes before the next tick.
    fn offers_of(&self, random: &mut Random, habit: Habit, class: usize) -> usize {
        let timing = &self.policy.timing;
        let cycle = self.state.cycle;
        let offset = offset(self.policy, cycle);
        let turn_length = u32::from(timing.turn_length);
        let dead_time_begins = turn_length - u32::from(timing.dead_time);
        let dead_time_edge = offset == dead_time_begins || offset + 1 == dead_time_begins;
        let last_tick = offset + 1 == turn_length;
        let full = self.state.classes[class].queue.len() == QUEUE_LIMIT;
        match habit {
            Habit::Silent => 0,
            // Some offers to a full queue are enough.
            Habit::Busy => usize::from(random.percent(if full { 5 } else { 40 })),
            Habit::Sparse => usize::from(random.percent(6)),
            Habit::Rare => usize::from(random.percent(1)),
            Habit::BeforeTurnStart if offset == 0 => random.between(1, 3),
            Habit::AfterTurnStart if offset == 1 => random.between(1, 3),
            Habit::TurnEnd if last_tick => random.between(1, 3),
            Habit::DeadTimeEdge if dead_time_edge => random.between(1, 2),
            Habit::OwnTurnEdge if dead_time_edge || last_tick => {
                // The owner is still that of the turn which goes on.
                usize::from(offset > 0 && self.state.owner == class) * random.between(1, 2)
            }
            Habit::EpochEnd if offset <= 1 || last_tick => {
                let place = turn_number(self.policy, cycle) % u32::from(self.policy.epoch);
                let last_turn = place + 1 == u32::from(self.policy.epoch);
                usize::from(last_turn || place + offset == 0) * random.between(1, 2)
            }
            Habit::KeepFull | Habit::BusyBank | Habit::QuickKind => {
                let room = QUEUE_LIMIT - self.state.classes[class].queue.len();
                room + usize::from(random.percent(5))
            }
            Habit::FullOnce if cycle == 0 => QUEUE_LIMIT + random.below(2),
            _ => 0,
        }
    }

    /// An offer of a class, on any of the ranks in use. At times its bank, rank and kind are
    /// those of a request that waits, or of the bank that was activated last or has been left
    /// alone longest: gaps then come to bear, or must not.
    fn offer(&self, random: &mut Random, habit: Habit, class: usize, in_use: InUse) -> u32 {
        let word = match habit {
            // Of all classes it is the same bank.
            Habit::BusyBank => busy_bank_offer(random, class as u8, 0, 70),
            Habit::QuickKind => quick_kind_offer(random, self.policy, class as u8),
            _ => sound_offer(random, class as u8, in_use.banks),
        };
        let word = on_rank(word, random.aside().below(in_use.ranks));
        if matches!(habit, Habit::BusyBank | Habit::QuickKind) || !random.percent(30) {
            return word;
        }
        let aimed = |rank: u8, bank: u8, kind: u8| {
            offer_word(&Request {
                class: class as u8,
                kind,
                rank,
                bank,
                tag: word as u16,
            })
        };
        let waiting = self.state.classes[random.below(self.state.classes.len())]
            .queue
            .front();
        if let Some(head) = waiting {
            return aimed(head.rank, head.bank, head.kind);
        }
        let used = (0u8..).zip(&self.state.last_of_bank);
        let used = used.filter_map(|(place, last)| last.map(|last| (place, last)));
        let bank = match random.below(2) {
            0 => used.max_by_key(|(_, last)| last.cycle),
            _ => used.min_by_key(|(_, last)| last.cycle),
        };
        bank.map_or(word, |(place, last)| {
            aimed(last.rank, place % BANKS as u8, last.kind as u8)
        })
    }

    /// The offers that some classes make before the next tick.
    fn offers(
        &self,
        random: &mut Random,
        classes: &[usize],
        habits: &[Habit],
        in_use: InUse,
    ) -> Vec<u32> {
        let mut offers = Vec::new();
        for &class in classes {
            for _ in 0..self.offers_of(random, habits[class], class) {
                offers.push(self.offer(random, habits[class], class, in_use));
            }
        }
        if !classes.is_empty() && random.percent(2) {
            let class = *random.pick(classes) as u8;
            offers.push(offer_that_10_refuses(random, self.policy, class));
        }
        offers
    }
}

/// Two lists with the same ticks and the same offers of classes that a set sees; all
/// other numbers are each list's own.
fn agreeing_lists(
    random: &mut Random,
    policy: &Policy,
    start: &State,
    classes: ClassSet,
    ticks: usize,
) -> [Vec<u32>; 2] {
    let n = policy.class_count();
    let is_seen = Seen::by(policy, classes);
    let (seen, hidden): (Vec<usize>, Vec<usize>) = (0..n).partition(|&other| is_seen.has(other));
    let quiet = ticks > LONG_SINCE && random.percent(50);
    let habits =
        |random: &mut Random| habits(random, n, if quiet { &QUIET_HABITS } else { &HABITS });
    let mut seen_habits = habits(random);
    let hidden_habits = match random.below(10) {
        // Silence against whatever the neighbours do.
        0..=2 => [vec![Habit::Silent; n], habits(random)],
        // Silence against a crowd: every queue is full, but that of L, or of each member, at
        // times.
        3 => {
            let own = std::mem::replace(&mut seen_habits, vec![Habit::KeepFull; n]);
            if random.percent(50) {
                for member in classes.members() {
                    seen_habits[member] = own[member];
                }
            }
            [vec![Habit::Silent; n], vec![Habit::KeepFull; n]]
        }
        // The same neighbours, who only draw other banks, kinds and times.
        4 => {
            let both = habits(random);
            [both.clone(), both]
        }
        // Silence against neighbours who all aim at the ends of their turns.
        5 => [vec![Habit::Silent; n], vec![Habit::OwnTurnEdge; n]],
        _ => [habits(random), habits(random)],
    };
    let banks = if quiet {
        BANKS
    } else {
        *random.pick(&[1, 2, BANKS])
    };
    let some_ranks = *random.aside().pick(&[1, 2, 2, RANKS]);
    let in_use = InUse {
        banks,
        ranks: some_ranks.min(ranks(policy)),
    };
    let mut sides = [(); 2].map(|()| Side {
        policy,
        list: Vec::new(),
        state: start.clone(),
    });
    // Some lists end in offers and malformed words, and not in a tick; at times
    // one of the two alone.
    let open_end = random.percent(30);
    for tick in 0..ticks + usize::from(open_end) {
        let shared = sides[0].offers(random, &seen, &seen_habits, in_use);
        for (side, habits) in sides.iter_mut().zip(&hidden_habits) {
            let mut own = side.offers(random, &hidden, habits, in_use);
            if random.percent(if tick < ticks { 3 } else { 60 }) {
                let mut noise = [malformed_word(random), missing_class_word(random, policy)];
                // Either may be the last number of a list.
                random.shuffle(&mut noise);
                own.extend(noise);
            }
            interleave(random, side, &shared, &own);
            if tick < ticks {
                side.push(0);
            }
        }
    }
    sides.map(|side| side.list)
}

/// Puts two short lists at the end of another, each in its own order.
fn interleave(random: &mut Random, side: &mut Side, shared: &[u32], own: &[u32]) {
    let (mut shared, mut own) = (shared.iter(), own.iter());
    while shared.len() + own.len() > 0 {
        let next = if random.below(shared.len() + own.len()) < shared.len() {
            shared.next()
        } else {
            own.next()
        };
        next.iter().for_each(|&&number| side.push(number));
    }
}
