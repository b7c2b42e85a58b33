//! What W-202, W-203, W-206, W-209 and W-212 promise of every accepted policy and every list of calls from
//! fresh: a search for lists in which a promise is broken. The lists are those of the search for leaks
//! ([`crate::pairs`]), and what happens in them is taken from the ticks' records and the states between
//! them; W-203's, W-206's and W-212's promises are held against the lists and their logs alone
//! ([`crate::reader`]).

use std::collections::BTreeMap;

use crate::pairs::{pair, pair_planted};
use crate::planted::Planted;
use crate::policy::{Policy, LONGEST_EPOCH, MOST_CLASSES};
use crate::reader::{Reader, SeenTick};
use crate::state::{Request, State, MOST_PASSES, QUEUE_LIMIT};
use crate::tick::{offer_in_range, offset, tick_in_range, turn_number, Wires};
use crate::trace::{run_line, tried, Word};
use crate::walk::longest_chain;

/// What is held against each list.
#[derive(Clone, Copy, Debug, PartialEq, Eq, PartialOrd, Ord)]
pub enum Promise {
    /// "A class with a request waiting at all its home turns owns at least its minimum in that epoch";
    /// the epoch's turns have all started.
    Minimum,
    /// "every class owns at most its cap"
    Cap,
    /// W-209: "a least class with a request waiting at every turn start of an epoch owns exactly its cap
    /// in that epoch"; the epoch's turns have all started.
    FullCap,
    /// The same of a least class that has home turns and a request waiting at each of them, but not at
    /// every turn start. It is not promised: there the search must find it broken.
    FullCapByHomeTurns,
    /// "If a class with a minimum of 1 or more has a request waiting at a turn's start, a turn of its own
    /// starts within E turns, that one counted, if so many start, or the request has gone before."
    Wait,
    /// "With a turn length of at least twice the dead time, the head at that start is activated in that
    /// turn, if it is ticked to its end." W-203: "In W-202's last sentence on activation, read "some request
    /// of the class" for the head."
    Activate,
    /// The same of shorter turns, where it is not promised: there the search must find it broken.
    ActivateInShortTurns,
    /// W-202 does not say this, but it follows from the plan: in a list of calls from fresh, a class that
    /// a turn's walk can come to has turns left. Of E turns it can come to all but the home turns of
    /// classes that may not flow to it, and to no more than its cap is.
    TurnsLeft,
    /// W-203: "The owner now activates its oldest request whose gaps are met. A request that has been the
    /// oldest while 15 others passed it goes next, and nothing passes it again." At each tick, of what the
    /// trace and the log have shown so far; "the rest of the queue closes up in its order".
    FirstThatCanGo,
    /// Of two waiting requests of one class with the same rank, bank and kind, the older is activated
    /// first. It follows from W-203: their gaps are the same.
    OrderOfRankBankAndKind,
    /// While a request is its class's oldest, at most 15 others of that class are activated before it. It
    /// follows from W-203 too.
    AtMost15Pass,
    /// W-206: "the rank gap ..., kept from the last activate of all where that was on another rank". Of two
    /// activates of a log with none in between, on different ranks, the later comes at least the rank gap
    /// after the other.
    RankGap,
    /// "from the last activate of the same bank (by that one's kind)", and W-206: "a bank is then known by
    /// rank and bank". Of two activates of a log on the same rank and bank, the later comes at least the
    /// same-bank gap after the other.
    BankGap,
    /// W-212: "It is never above the number of classes on the longest rising chain from the walk's first
    /// class."
    WalkBound,
    /// What W-212's count says of the walk besides: "how many classes the walk tried, the owner counted". A
    /// way of just so many classes leads from the walk's first class to the turn's owner, from child to
    /// child.
    WalkWay,
}

/// A broken promise.
#[derive(Clone, Debug, PartialEq, Eq)]
pub struct Broken {
    /// The seed of the pair, and which of its lists it is.
    pub seed: u64,
    pub side: usize,
    pub what: String,
}

/// How often the promises came to bear, and in what way.
const COUNTED: [&str; 62] = [
    "minimums owed",
    "minimums owed to classes that are not least",
    "minimums owed to a least class",
    "minimums owed where S is E",
    "minimums owed of 2 or more",
    "minimums owed to classes with a lower one waiting at each turn's start",
    "minimums owned and no turn more",
    "caps of whole epochs",
    "caps of epochs that have begun",
    "caps below E that are owned whole",
    "caps below E that classes other than the least own whole",
    "full caps owed",
    "full caps owed to one class alone",
    "full caps owed where another class waits at each turn's start too",
    "full caps owed where another class is idle at a home turn of its own",
    "full caps owed to classes with a minimum",
    "full caps below E owed to classes without a minimum",
    "full caps owed where S is E",
    "full caps of 0 turns",
    "full caps owed where E is 64",
    "full caps owed among sixteen classes",
    "full caps owed to classes that are not number 0",
    "full caps owed in epochs after the first",
    "waits",
    "waits of classes that are not least",
    "waits where S is E",
    "waits that the last of E turns ends",
    "waits over an epoch's end",
    "activates owed",
    "activates owed to owners that are not least",
    "activates owed to owners in their home turns",
    "activates owed where turns are just twice the dead time",
    "activates owed that come as late as one less than the dead time",
    "activates owed of which the first passes the head",
    "one turn left to classes that a walk can come to",
    "one turn left to such classes that are not least",
    "one turn left to such classes, of a cap above 1 and below E",
    "oldest requests that go",
    "oldest requests passed",
    "oldest requests passed by one of the other kind",
    "oldest requests passed in two turns",
    "activates of the older of two of one rank, bank and kind",
    "activates of the older of two of one rank, bank and kind, neither the oldest",
    "oldest requests passed 15 times",
    "oldest requests passed 15 times that go",
    "ticks at which being passed 15 times holds a younger one back",
    "ticks at which none of eight can go",
    "activates after one on another rank",
    "activates just the rank gap after one on another rank",
    "activates of a bank again",
    "activates just the same-bank gap after one of that bank",
    "activates of one bank number on two ranks, closer than the same-bank gap",
    "walks",
    "walks of one class",
    "walks of sixteen classes",
    "walks as long as the longest chain",
    "walks of two classes or more as long as the longest chain",
    "walks shorter than the longest chain",
    "walks of two classes or more from a home class",
    "walks of two classes or more from a least class that is not number 0",
    "walks of two classes or more to a class with others above",
    "walks to owners that ways of different lengths lead to",
];

/// What a search found and how often the promises came to bear.
#[derive(Clone, Debug)]
pub struct Search {
    /// The first list in which each was broken.
    pub broken: BTreeMap<Promise, Broken>,
    counts: BTreeMap<&'static str, u64>,
}

impl Search {
    /// What never came to bear.
    pub fn missed(&self) -> Vec<&'static str> {
        let never = |name: &&str| self.counts[name] == 0;
        COUNTED.into_iter().filter(never).collect()
    }

    /// Each count in a line.
    pub fn report(&self) -> String {
        let line = |name| format!("{name}: {}\n", self.counts[name]);
        COUNTED.into_iter().map(line).collect()
    }

    /// Counts what is in the list of names above, and nothing else.
    fn met_if(&mut self, condition: bool, name: &'static str) {
        match self.counts.get_mut(name) {
            Some(count) => *count += u64::from(condition),
            None => panic!("`{name}` is not counted"),
        }
    }
}

/// Searches the pairs of seeds 0, 1, 2 and so on.
pub fn search(count: u64) -> Search {
    search_planted(count, Planted::Nothing)
}

/// The same search with a wrong rule in place. For tests.
pub fn search_planted(count: u64, planted: Planted) -> Search {
    let mut search = Search {
        broken: BTreeMap::new(),
        counts: COUNTED.iter().map(|&name| (name, 0)).collect(),
    };
    for seed in 0..count {
        let pair = pair_planted(seed, planted);
        // The promises are held against the same caps that turns left are set to.
        let policy = with_caps_by(planted, &pair.policy);
        for (side, list) in pair.lists.iter().enumerate() {
            let turns = perform(&policy, pair.start.clone(), list, planted);
            let mut check = Check {
                policy: &policy,
                turns: &turns,
                place: (seed, side),
                search: &mut search,
            };
            check.minimums();
            check.caps();
            check.full_caps();
            check.waits();
            check.activates();
            check.turns_left();
            check.log(pair.start.clone(), list, planted);
        }
    }
    search
}

/// A policy with its caps as the rule in place counts them: all that goes by caps goes by the stored
/// ones, but for 13, which is not asked here.
fn with_caps_by(planted: Planted, policy: &Policy) -> Policy {
    let mut policy = policy.clone();
    // Not a rule: a broken promise that tests plant. The minimums sum up to at most E, so a cap is
    // never below its class's own.
    if planted == Planted::CapLessOwnMinimum {
        for (cap, minimum) in policy.caps.iter_mut().zip(&policy.minimums) {
            *cap -= minimum;
        }
    }
    policy
}

/// A turn that started.
struct Turn {
    owner: usize,
    /// What each class had as it started.
    classes: Vec<AtStart>,
    /// The ticks that were made in it.
    ticks: u32,
    /// The first activate of its owner in it, with its offset.
    first: Option<(Request, u32)>,
}

impl Turn {
    /// Whether a class had a request waiting as it started.
    fn finds_waiting(&self, class: usize) -> bool {
        self.classes[class].head.is_some()
    }
}

/// Whether a class had a request waiting as each of some turns started.
fn waits_throughout(turns: &[Turn], class: usize) -> bool {
    turns.iter().all(|turn| turn.finds_waiting(class))
}

/// How many of some turns a class owns.
fn owned_by(turns: &[Turn], class: usize) -> usize {
    turns.iter().filter(|turn| turn.owner == class).count()
}

/// What a class had at a turn's start.
struct AtStart {
    head: Option<Request>,
    left: u8,
    /// How many of its requests had been activated.
    gone: u64,
}

/// Performs a list and gives the turns that its ticks start.
fn perform(policy: &Policy, mut state: State, list: &[u32], planted: Planted) -> Vec<Turn> {
    let mut turns: Vec<Turn> = Vec::new();
    let mut gone = vec![0; policy.class_count()];
    for &number in list {
        match Word::of(number) {
            Word::Malformed => continue,
            Word::Offer(request) => {
                let _ = offer_in_range(policy, &mut state, request, planted);
                continue;
            }
            Word::Tick => {}
        }
        let offset = offset(policy, state.cycle);
        // The tick that starts a turn changes what there is at its start.
        let classes = (offset == 0).then(|| at_start(policy, &state, &gone));
        // A list that goes on after the last tick shows nothing more.
        let Ok(record) = tick_in_range(policy, &mut state, planted) else {
            break;
        };
        if let Some((turn, classes)) = record.turn.zip(classes) {
            turns.push(Turn {
                owner: turn.owner,
                classes,
                ticks: 0,
                first: None,
            });
        }
        let Some(turn) = turns.last_mut() else {
            continue;
        };
        turn.ticks += 1;
        if let Wires::Activate(request) = record.wires {
            let class = usize::from(request.class);
            gone[class] += 1;
            if class == turn.owner {
                turn.first = turn.first.or(Some((request, offset)));
            }
        }
    }
    turns
}

/// What each class has as the next tick starts a turn, given how many of its requests are gone.
fn at_start(policy: &Policy, state: &State, gone: &[u64]) -> Vec<AtStart> {
    let starts_epoch = turn_number(policy, state.cycle) % u32::from(policy.epoch) == 0;
    let of_class = |class: usize| AtStart {
        head: state.classes[class].queue.front().copied(),
        left: match starts_epoch {
            true => policy.caps[class],
            false => state.classes[class].left,
        },
        gone: gone[class],
    };
    (0..policy.class_count()).map(of_class).collect()
}

/// In how many lists a wrong rule changes something.
#[derive(Clone, Copy, Debug, Default, PartialEq, Eq)]
pub struct Changed {
    /// The log.
    pub logs: u64,
    /// The turns left in the state after the list.
    pub turns_left: u64,
    /// Anything else in that state.
    pub other_parts: u64,
}

/// What a wrong rule changes in the lists of so many pairs. For tests.
pub fn changed_by(count: u64, planted: Planted) -> Changed {
    let mut changed = Changed::default();
    for pair in (0..count).map(pair) {
        let wrong_policy = with_caps_by(planted, &pair.policy);
        for list in &pair.lists {
            let mut right = pair.start.clone();
            let mut wrong = pair.start.clone();
            let mut log_differs = false;
            for &number in list {
                let line = run_line(&pair.policy, &mut right, number, Planted::Nothing);
                log_differs |= line != run_line(&wrong_policy, &mut wrong, number, planted);
            }
            let left = |state: &mut State| -> Vec<u8> {
                let classes = state.classes.iter_mut();
                classes
                    .map(|class| std::mem::take(&mut class.left))
                    .collect()
            };
            changed.logs += u64::from(log_differs);
            changed.turns_left += u64::from(left(&mut right) != left(&mut wrong));
            // The turns left are taken out of both.
            changed.other_parts += u64::from(right != wrong);
        }
    }
    changed
}

/// Numbers of classes, each as the bit of that number.
type Lengths = u32;

/// For each class how many classes are on the ways to it from another one, both counted, that lead from
/// child to child.
fn ways_from(policy: &Policy, first: usize) -> Vec<Lengths> {
    let n = policy.class_count();
    let mut ways = vec![0; n];
    ways[first] = 1 << 1;
    // A way has at most n classes, so after n rounds all are found.
    for _ in 0..n {
        for class in 0..n {
            for &cover in policy.covers_of(class) {
                ways[cover] |= ways[class] << 1;
            }
        }
    }
    ways
}

/// The turns of one list, held against the promises.
struct Check<'a> {
    policy: &'a Policy,
    turns: &'a [Turn],
    place: (u64, usize),
    search: &'a mut Search,
}

impl Check<'_> {
    fn hold(&mut self, promise: Promise, holds: bool, what: impl Fn() -> String) {
        let (seed, side) = self.place;
        if !holds {
            let broken = || Broken {
                seed,
                side,
                what: what(),
            };
            self.search.broken.entry(promise).or_insert_with(broken);
        }
    }

    /// The classes, each with its minimum.
    fn minimum_of(&self) -> Vec<(usize, usize)> {
        let minimums = self.policy.minimums.iter();
        minimums.map(|&m| usize::from(m)).enumerate().collect()
    }

    fn epoch(&self) -> usize {
        usize::from(self.policy.epoch)
    }

    fn home_turns_alone(&self) -> bool {
        self.policy.sum_of_minimums() == u32::from(self.policy.epoch)
    }

    /// Whether a class has home turns, and a request waiting at all those of an epoch.
    fn waits_at_home(&self, epoch: &[Turn], class: usize) -> bool {
        let is_home = |place: usize| self.policy.home(place as u32) == Some(class);
        let mut home_turns = (0..epoch.len()).filter(|&place| is_home(place));
        self.policy.minimums[class] > 0 && home_turns.all(|place| epoch[place].finds_waiting(class))
    }

    fn minimums(&mut self) {
        let (least, home_turns_alone) = (self.policy.least(), self.home_turns_alone());
        for (number, epoch) in self.turns.chunks_exact(self.epoch()).enumerate() {
            for (class, minimum) in self.minimum_of() {
                if !self.waits_at_home(epoch, class) {
                    continue;
                }
                let owned = owned_by(epoch, class);
                self.hold(Promise::Minimum, owned >= minimum, || {
                    format!("class {class} owns {owned} of {minimum} turns of epoch {number}")
                });
                let lower_wait = (0..self.policy.class_count())
                    .filter(|&lower| self.policy.strictly_below(lower, class))
                    .any(|lower| waits_throughout(epoch, lower));
                let search = &mut *self.search;
                search.met_if(true, "minimums owed");
                search.met_if(
                    class != least,
                    "minimums owed to classes that are not least",
                );
                search.met_if(class == least, "minimums owed to a least class");
                search.met_if(home_turns_alone, "minimums owed where S is E");
                search.met_if(minimum > 1, "minimums owed of 2 or more");
                search.met_if(
                    lower_wait,
                    "minimums owed to classes with a lower one waiting at each turn's start",
                );
                search.met_if(owned == minimum, "minimums owned and no turn more");
            }
        }
    }

    fn caps(&mut self) {
        let least = self.policy.least();
        for (number, epoch) in self.turns.chunks(self.epoch()).enumerate() {
            let whole = epoch.len() == self.epoch();
            self.search.met_if(whole, "caps of whole epochs");
            self.search.met_if(!whole, "caps of epochs that have begun");
            for (class, &cap) in self.policy.caps.iter().enumerate() {
                let owned = owned_by(epoch, class);
                self.hold(Promise::Cap, owned <= usize::from(cap), || {
                    format!(
                        "class {class} owns {owned} turns of epoch {number}, and its cap is {cap}"
                    )
                });
                let all = cap > 0 && cap < self.policy.epoch && owned == usize::from(cap);
                self.search.met_if(all, "caps below E that are owned whole");
                self.search.met_if(
                    all && class != least,
                    "caps below E that classes other than the least own whole",
                );
            }
        }
    }

    fn full_caps(&mut self) {
        let (least, home_turns_alone) = (self.policy.least(), self.home_turns_alone());
        let (minimum, cap) = (self.policy.minimums[least], self.policy.caps[least]);
        let n = self.policy.class_count();
        for (number, epoch) in self.turns.chunks_exact(self.epoch()).enumerate() {
            let promise = match waits_throughout(epoch, least) {
                true => Promise::FullCap,
                false if self.waits_at_home(epoch, least) => Promise::FullCapByHomeTurns,
                false => continue,
            };
            let owned = owned_by(epoch, least);
            self.hold(promise, owned == usize::from(cap), || {
                format!(
                    "{least}, the least, owns {owned} turns of epoch {number}, and its cap is {cap}"
                )
            });
            if promise == Promise::FullCapByHomeTurns {
                continue;
            }
            let mut others = (0..n).filter(|&class| class != least);
            let other_idle_at_home = others
                .clone()
                .any(|class| self.policy.minimums[class] > 0 && !self.waits_at_home(epoch, class));
            let other_waits = others.any(|class| waits_throughout(epoch, class));
            let e = self.policy.epoch;
            let search = &mut *self.search;
            search.met_if(true, "full caps owed");
            search.met_if(n == 1, "full caps owed to one class alone");
            search.met_if(
                other_waits,
                "full caps owed where another class waits at each turn's start too",
            );
            search.met_if(
                other_idle_at_home,
                "full caps owed where another class is idle at a home turn of its own",
            );
            search.met_if(minimum > 0, "full caps owed to classes with a minimum");
            search.met_if(
                minimum == 0 && cap < e,
                "full caps below E owed to classes without a minimum",
            );
            search.met_if(home_turns_alone, "full caps owed where S is E");
            search.met_if(cap == 0, "full caps of 0 turns");
            search.met_if(e == LONGEST_EPOCH, "full caps owed where E is 64");
            search.met_if(n == MOST_CLASSES, "full caps owed among sixteen classes");
            search.met_if(least > 0, "full caps owed to classes that are not number 0");
            search.met_if(number > 0, "full caps owed in epochs after the first");
        }
    }

    fn waits(&mut self) {
        let (least, home_turns_alone) = (self.policy.least(), self.home_turns_alone());
        for (number, within) in self.turns.windows(self.epoch()).enumerate() {
            let Some((last, before)) = within.split_last() else {
                continue;
            };
            let classes = self.minimum_of().into_iter();
            for (class, _) in classes.filter(|&(_, minimum)| minimum > 0) {
                let at_start = |turn: &Turn| turn.classes[class].gone;
                if !within[0].finds_waiting(class) {
                    continue;
                }
                let sooner = before.iter().any(|turn| turn.owner == class);
                let gone = at_start(last) > at_start(&within[0]);
                let owned = sooner || last.owner == class;
                self.hold(Promise::Wait, owned || gone, || {
                    format!("class {class} waits at turn {number} and owns none of E turns")
                });
                let search = &mut *self.search;
                search.met_if(true, "waits");
                search.met_if(class != least, "waits of classes that are not least");
                search.met_if(home_turns_alone, "waits where S is E");
                search.met_if(owned && !sooner, "waits that the last of E turns ends");
                let over_end = number % within.len() > 0;
                search.met_if(over_end, "waits over an epoch's end");
            }
        }
    }

    fn activates(&mut self) {
        let timing = &self.policy.timing;
        let turn_length = u32::from(timing.turn_length);
        let dead_time = u32::from(timing.dead_time);
        let promise = match turn_length >= 2 * dead_time {
            true => Promise::Activate,
            false => Promise::ActivateInShortTurns,
        };
        for (number, turn) in self.turns.iter().enumerate() {
            let owner = turn.owner;
            let Some(head) = turn.classes[owner].head else {
                continue;
            };
            if turn.ticks < turn_length {
                continue;
            }
            let first = turn.first;
            self.hold(promise, first.is_some(), || {
                format!("turn {number} of class {owner} activates none of its requests")
            });
            if promise == Promise::Activate {
                let home = self.policy.home(number as u32) == Some(owner);
                let least = self.policy.least();
                let late = first.is_some_and(|(_, offset)| offset + 1 == dead_time);
                let passes = first.is_some_and(|(request, _)| request != head);
                let search = &mut *self.search;
                search.met_if(true, "activates owed");
                search.met_if(
                    owner != least,
                    "activates owed to owners that are not least",
                );
                search.met_if(home, "activates owed to owners in their home turns");
                search.met_if(
                    turn_length == 2 * dead_time,
                    "activates owed where turns are just twice the dead time",
                );
                search.met_if(
                    late,
                    "activates owed that come as late as one less than the dead time",
                );
                search.met_if(passes, "activates owed of which the first passes the head");
            }
        }
    }

    /// Holds W-206's promises against an activate and those that the log has shown before it, each with its
    /// cycle.
    fn gaps(&mut self, shown: &[(u32, Request)], cycle: u32, request: Request) {
        let timing = &self.policy.timing;
        let after = |&(at, _): &(u32, Request)| cycle - at;
        let what = |last| format!("{request:?} is activated at {cycle}, after {last:?}");
        let last = shown.last().filter(|(_, last)| last.rank != request.rank);
        if let Some((gap, last)) = timing.rank_gap.map(u32::from).zip(last) {
            self.hold(Promise::RankGap, after(last) >= gap, || what(last));
            let search = &mut *self.search;
            search.met_if(true, "activates after one on another rank");
            search.met_if(
                after(last) == gap,
                "activates just the rank gap after one on another rank",
            );
        }
        // No gap is longer than the longest dead time.
        let within = shown.iter().rev().take_while(|last| after(last) <= 31);
        for last in within.filter(|(_, last)| last.bank == request.bank) {
            let gap = u32::from(timing.bank_gaps[last.1.kind() as usize]);
            if last.1.rank == request.rank {
                self.hold(Promise::BankGap, after(last) >= gap, || what(last));
                let just = after(last) == gap;
                let search = &mut *self.search;
                search.met_if(true, "activates of a bank again");
                search.met_if(
                    just,
                    "activates just the same-bank gap after one of that bank",
                );
            } else {
                self.search.met_if(
                    after(last) < gap,
                    "activates of one bank number on two ranks, closer than the same-bank gap",
                );
            }
        }
    }

    /// Holds W-212's promises against a turn number.
    fn walk(&mut self, ways: &[Vec<Lengths>], number: u32, turn: u32) {
        let policy = self.policy;
        let (least, home) = (policy.least(), policy.home(number));
        let first = home.unwrap_or(least);
        let (tried, owner) = (tried(turn), (turn & 0xFF) as usize - 1);
        let bound = longest_chain(policy, first);
        let what = || format!("turn {number}: {turn:08X}, and the longest chain has {bound}");
        self.hold(Promise::WalkBound, tried <= bound, what);
        let lengths = ways[first][owner];
        self.hold(Promise::WalkWay, lengths >> tried & 1 == 1, what);
        let others_above = !policy.covers_of(owner).is_empty();
        let search = &mut *self.search;
        search.met_if(true, "walks");
        search.met_if(tried == 1, "walks of one class");
        search.met_if(tried == 16, "walks of sixteen classes");
        search.met_if(tried == bound, "walks as long as the longest chain");
        search.met_if(tried < bound, "walks shorter than the longest chain");
        search.met_if(
            lengths.count_ones() > 1,
            "walks to owners that ways of different lengths lead to",
        );
        if tried < 2 {
            return;
        }
        search.met_if(
            tried == bound,
            "walks of two classes or more as long as the longest chain",
        );
        search.met_if(
            home.is_some(),
            "walks of two classes or more from a home class",
        );
        search.met_if(
            home.is_none() && least > 0,
            "walks of two classes or more from a least class that is not number 0",
        );
        search.met_if(
            others_above,
            "walks of two classes or more to a class with others above",
        );
    }

    /// Holds W-203's, W-206's and W-212's promises against the list and its log.
    fn log(&mut self, mut state: State, list: &[u32], planted: Planted) {
        let policy = self.policy;
        let ways: Vec<Vec<Lengths>> = (0..policy.class_count())
            .map(|first| ways_from(policy, first))
            .collect();
        let mut reader = Reader::new(policy, state.cycle);
        // The turn in which the oldest of each class was last passed.
        let mut passed_in: Vec<Option<u32>> = vec![None; policy.class_count()];
        let mut shown = Vec::new();
        for (place, &number) in list.iter().enumerate() {
            let cycle = state.cycle;
            let turn = turn_number(policy, cycle);
            let line = run_line(policy, &mut state, number, planted);
            let Some(tick) = reader.read(number, &line) else {
                continue;
            };
            if line[3] != 0 {
                self.walk(&ways, turn, line[3]);
            }
            self.hold(Promise::FirstThatCanGo, tick.is_by_the_rule(), || {
                format!("number {place} of the list: {tick:?}")
            });
            if let Some((request, _)) = tick.activated {
                self.gaps(&shown, cycle, request);
                shown.push((cycle, request));
            }
            let Some((request, Some(taken))) = tick.activated else {
                self.count_held_back(&tick);
                continue;
            };
            let mut older = tick.waiting.range(..taken);
            let mut younger = tick.waiting.range(taken + 1..);
            let of = |request: &Request| (request.rank, request.bank, request.kind);
            let alike = |other: &Request| of(other) == of(&request);
            let in_order = !older.any(alike);
            self.hold(Promise::OrderOfRankBankAndKind, in_order, || {
                format!("number {place} of the list: {tick:?}")
            });
            let passes = if taken == 0 { 0 } else { tick.passes + 1 };
            let most = u32::from(MOST_PASSES);
            self.hold(Promise::AtMost15Pass, passes <= most, || {
                format!("number {place} of the list: {tick:?}")
            });
            let before = match taken {
                0 => passed_in[tick.owner].take(),
                _ => passed_in[tick.owner].replace(turn),
            };
            let later = taken > 0 && before.is_some_and(|before| before != turn);
            let other_kind = request.kind != tick.waiting[0].kind;
            let alike_waits = younger.any(alike);
            let search = &mut *self.search;
            search.met_if(taken == 0, "oldest requests that go");
            search.met_if(taken > 0, "oldest requests passed");
            search.met_if(
                taken > 0 && other_kind,
                "oldest requests passed by one of the other kind",
            );
            search.met_if(later, "oldest requests passed in two turns");
            search.met_if(
                alike_waits,
                "activates of the older of two of one rank, bank and kind",
            );
            search.met_if(
                alike_waits && taken > 0,
                "activates of the older of two of one rank, bank and kind, neither the oldest",
            );
            search.met_if(passes == most, "oldest requests passed 15 times");
            search.met_if(
                taken == 0 && tick.passes == most,
                "oldest requests passed 15 times that go",
            );
        }
    }

    fn count_held_back(&mut self, tick: &SeenTick) {
        let by_count = tick.due.is_none() && tick.due_without_limit.is_some();
        self.search.met_if(
            by_count,
            "ticks at which being passed 15 times holds a younger one back",
        );
        let none_of_eight = tick.waiting.len() == QUEUE_LIMIT && tick.due_without_limit.is_none();
        self.search
            .met_if(none_of_eight, "ticks at which none of eight can go");
    }

    fn turns_left(&mut self) {
        let least = self.policy.least();
        for (number, turn) in self.turns.iter().enumerate() {
            let first = self.policy.home(number as u32).unwrap_or(least);
            for (class, at_start) in turn.classes.iter().enumerate() {
                if !self.policy.flows(first, class) {
                    continue;
                }
                self.hold(Promise::TurnsLeft, at_start.left > 0, || {
                    format!("turn {number} may come to class {class}, which has no turns left")
                });
                let one = at_start.left == 1;
                let cap = self.policy.caps[class];
                let search = &mut *self.search;
                search.met_if(one, "one turn left to classes that a walk can come to");
                search.met_if(
                    one && class != least,
                    "one turn left to such classes that are not least",
                );
                // A cap of E lasts by itself: no turn is charged twice. One below E lasts by
                // the plan alone, and here all of it but one turn is charged.
                search.met_if(
                    one && cap > 1 && cap < self.policy.epoch,
                    "one turn left to such classes, of a cap above 1 and below E",
                );
            }
        }
    }
}
