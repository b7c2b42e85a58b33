//! What a search for leaks met: pairs that are all alike, or in which nothing
//! happens, show nothing.

use std::collections::BTreeMap;

use crate::class_set::{kinds, kinds_of_offers, OFFER_KINDS, REFUSED_KINDS, TAKEN_KINDS};
use crate::extract::HIDDEN_TURN;
use crate::pairs::{Cut, Pair};
use crate::policy::MOST_CLASSES;
use crate::reader::Reader;
use crate::refusal::Refusal;
use crate::state::{Request, MOST_PASSES};
use crate::tick::turn_number;
use crate::trace::{tried, Word, COLUMN_BIT, ELIDED, LINE, OFFER_BIT};
use crate::walk::longest_chain;

/// What is counted, and how much of it so many pairs must have met.
type Counted = (&'static str, fn(u64) -> u64);

const COUNTED: [Counted; 60] = [
    ("pairs compared", |pairs| pairs),
    ("pairs of different lists", |pairs| pairs / 2),
    ("pairs with lists of different lengths", |pairs| pairs / 2),
    ("pairs with different logs of ticks", |pairs| pairs / 2),
    // Nothing to hide but what is struck out of every list.
    ("pairs in which all classes may flow to L", |_| 1),
    ("pairs of sixteen classes", |pairs| pairs / 6),
    ("pairs with another least class than 0", |pairs| pairs / 2),
    ("pairs without home turns", |pairs| pairs / 20),
    ("pairs with home turns and others", |pairs| pairs / 5),
    ("pairs with home turns alone", |pairs| pairs / 5),
    ("home turns that their class owns", |pairs| pairs),
    ("home turns passed on", |pairs| pairs),
    ("dead times dropped before a home turn", |pairs| pairs),
    ("dead times kept before a home turn", |pairs| pairs),
    // There, with home turns alone, the epoch's end makes no difference.
    ("epochs' ends before a home turn", |pairs| pairs),
    ("pairs past the end of an epoch above 5", |pairs| pairs / 20),
    ("pairs past the end of an epoch above 16", |pairs| {
        pairs / 100
    }),
    ("pairs past the end of an epoch of 64", |pairs| pairs / 500),
    // With two turns of them at least.
    ("pairs with turns above 239", |pairs| pairs / 100),
    ("pairs with turns of 255", |pairs| pairs / 500),
    ("lists of 4,000 ticks", |pairs| pairs / 1_000),
    ("lists whose last number is an offer", |pairs| pairs / 10),
    ("lists whose last number is malformed", |pairs| pairs / 20),
    ("lists to be cut into runs", |pairs| pairs / 10),
    ("lists to be cut into single calls", |pairs| pairs / 20),
    ("calls", |pairs| 100 * pairs),
    ("offers of hidden classes", |pairs| 10 * pairs),
    // W-205: they would be seen too if the mask of the seen class had its neighbour's bit.
    ("offers of hidden classes beside a seen one", |pairs| {
        10 * pairs
    }),
    ("offers of missing classes", |pairs| pairs),
    ("malformed words", |pairs| pairs),
    // Hidden or seen.
    ("offers to full queues", |pairs| pairs),
    ("numbers of extracts", |pairs| 100 * pairs),
    ("activates seen", |pairs| 8 * pairs),
    ("columns seen", |pairs| 8 * pairs),
    ("answers seen", |pairs| 8 * pairs),
    ("turns seen", |pairs| pairs),
    ("turns hidden", |pairs| pairs),
    ("offers seen that 10 refuses", |pairs| pairs / 10),
    ("offers seen that 11 refuses", |pairs| pairs),
    // W-203, of classes that may flow to L and of others.
    ("oldest requests passed, seen", |pairs| pairs),
    ("oldest requests passed, hidden", |pairs| pairs),
    ("oldest requests passed 15 times, seen", |pairs| pairs / 50),
    ("oldest requests passed 15 times, hidden", |pairs| {
        pairs / 200
    }),
    // W-206.
    ("pairs with ten timing bytes", |pairs| pairs / 3),
    ("pairs with a rank gap", |pairs| pairs / 3),
    ("pairs with a rank gap of 1", |pairs| pairs / 20),
    ("pairs with a rank gap of the dead time", |pairs| pairs / 20),
    ("activates after one on another rank, seen", |pairs| pairs),
    ("activates after one on another rank, hidden", |pairs| pairs),
    // Here a rank gap could tell L of what it may not see.
    (
        "seen activates after a hidden one on another rank",
        |pairs| pairs / 5,
    ),
    ("offers seen that 10 refuses for their rank", |pairs| {
        pairs / 20
    }),
    // W-212, in the log, of turns that L may see and of others.
    ("walks of two classes or more, seen", |pairs| pairs),
    ("walks of two classes or more, hidden", |pairs| pairs),
    ("walks of eight classes or more, seen", |pairs| {
        pairs / 1_000
    }),
    ("walks of eight classes or more, hidden", |pairs| pairs / 50),
    ("walks of sixteen classes", |pairs| pairs / 500),
    ("walks as long as the longest chain", |pairs| pairs),
    ("walks shorter than the longest chain", |pairs| pairs),
    ("walks of two classes or more from a home class", |pairs| {
        pairs
    }),
    // Here a hidden turn's count could tell L of what it may not see.
    (
        "turns hidden in both lists, after walks of different lengths",
        |pairs| pairs / 5,
    ),
];

/// W-211: what is counted besides in pairs for sets of classes.
fn counted_of_sets() -> impl Iterator<Item = Counted> {
    let sets = TAKEN_KINDS.into_iter().chain(REFUSED_KINDS);
    let sets = sets.map(|name| -> Counted { (name, |pairs| pairs / 100) });
    sets.chain(OFFER_KINDS.map(|name| -> Counted { (name, |pairs| pairs) }))
}

/// W-208: what no pair under the policy of a small order meets. It has four classes at most, its
/// minimums are 0 and its epochs of four turns; and no list is so long.
pub const NEVER_OF_ORDERS: [&str; 16] = [
    "pairs of sixteen classes",
    "pairs with home turns and others",
    "pairs with home turns alone",
    "home turns that their class owns",
    "home turns passed on",
    "dead times dropped before a home turn",
    "dead times kept before a home turn",
    "epochs' ends before a home turn",
    "pairs past the end of an epoch above 5",
    "pairs past the end of an epoch above 16",
    "pairs past the end of an epoch of 64",
    "lists of 4,000 ticks",
    "walks of eight classes or more, seen",
    "walks of eight classes or more, hidden",
    "walks of sixteen classes",
    "walks of two classes or more from a home class",
];

/// What such pairs meet less often: of four classes or fewer, L mostly sees all but one or two.
const FEWER_OF_ORDERS: [Counted; 4] = [
    ("pairs with different logs of ticks", |pairs| pairs / 3),
    ("oldest requests passed, hidden", |pairs| pairs / 3),
    ("oldest requests passed 15 times, hidden", |pairs| {
        pairs / 1_000
    }),
    (
        "seen activates after a hidden one on another rank",
        |pairs| pairs / 20,
    ),
];

/// How much a search met of all that is counted.
#[derive(Clone, Debug, PartialEq, Eq)]
pub struct Met {
    counts: BTreeMap<&'static str, u64>,
    counted: Vec<Counted>,
}

impl Default for Met {
    /// Of pairs for one class.
    fn default() -> Met {
        Met::of(COUNTED.to_vec())
    }
}

impl Met {
    /// Of pairs for sets of classes.
    pub fn of_sets() -> Met {
        Met::of(COUNTED.into_iter().chain(counted_of_sets()).collect())
    }

    /// Of pairs under the policies of W-208's small orders.
    pub fn of_orders() -> Met {
        let never = NEVER_OF_ORDERS.map(|name| -> Counted { (name, |_| 0) });
        let others = never.into_iter().chain(FEWER_OF_ORDERS);
        let others: BTreeMap<_, _> = others.collect();
        let counted = COUNTED.map(|(name, least)| (name, *others.get(name).unwrap_or(&least)));
        Met::of(counted.to_vec())
    }

    fn of(counted: Vec<Counted>) -> Met {
        Met {
            counts: counted.iter().map(|&(name, _)| (name, 0)).collect(),
            counted,
        }
    }

    /// The pairs that were compared, one with a leak counted.
    pub fn pairs(&self) -> u64 {
        self.count("pairs compared")
    }

    /// How often one thing was met.
    pub fn count(&self, name: &str) -> u64 {
        self.counts[name]
    }

    /// What was met less than so many pairs must meet it.
    pub fn too_little(&self) -> Vec<&'static str> {
        let enough = |&(name, least): &Counted| self.counts[name] >= least(self.pairs());
        let few = self.counted.iter().filter(|counted| !enough(counted));
        few.map(|&(name, _)| name).collect()
    }

    /// Each count in a line.
    pub fn report(&self) -> String {
        let line = |&(name, _): &Counted| format!("{name}: {}\n", self.counts[name]);
        self.counted.iter().map(line).collect()
    }

    /// Counts what is in the list of names above, and nothing else.
    fn add(&mut self, name: &'static str, times: usize) {
        match self.counts.get_mut(name) {
            Some(count) => *count += times as u64,
            None => panic!("`{name}` is not counted"),
        }
    }

    fn add_if(&mut self, condition: bool, name: &'static str) {
        self.add(name, usize::from(condition));
    }

    /// Counts a pair, by its logs and by what the extract of the first of them
    /// wrote.
    pub fn add_pair(&mut self, pair: &Pair, logs: [&[u32]; 2], extract: &[u32]) {
        self.add("pairs compared", 1);
        self.add_sets(pair);
        self.add_policy(pair);
        self.add_lists(pair);
        let [left, right] = [0, 1].map(|side| pair.ticks_of(side, logs[side]));
        self.add_if(left.ne(right), "pairs with different logs of ticks");
        for log in logs {
            self.add("offers to full queues", refused(log, Refusal::QueueFull));
            self.add_home_turns(pair, log);
            self.add_walks(pair, log);
        }
        self.add_hidden_walks(pair, logs);
        for (side, log) in logs.into_iter().enumerate() {
            self.add_passes(pair, side, log);
        }
        self.add_seen(extract);
    }

    /// Counts a pair for a set by its kinds, and by what its members see of the first list.
    fn add_sets(&mut self, pair: &Pair) {
        let Some(refused) = pair.refused else {
            return;
        };
        let (policy, classes) = (&pair.policy, pair.classes);
        for set in [classes, refused] {
            for kind in kinds(policy, set) {
                self.add(kind, 1);
            }
        }
        for kind in kinds_of_offers(policy, classes, &pair.lists[0]) {
            self.add(kind, 1);
        }
    }

    /// Counts the activates of requests that were not the oldest of their class, and those
    /// after one on another rank.
    fn add_passes(&mut self, pair: &Pair, side: usize, log: &[u32]) {
        let mut reader = Reader::new(&pair.policy, pair.start.cycle);
        let mut last = None;
        for (&number, line) in pair.lists[side].iter().zip(log.chunks_exact(LINE)) {
            let Some(tick) = reader.read(number, line) else {
                continue;
            };
            let Some((request, place)) = tick.activated else {
                continue;
            };
            self.add_rank(pair, last.replace(request), request);
            let passed = place.is_some_and(|place| place > 0);
            let fifteenth = passed && tick.passes + 1 == u32::from(MOST_PASSES);
            let (name, name_of_15) = match pair.sees(usize::from(request.class)) {
                true => (
                    "oldest requests passed, seen",
                    "oldest requests passed 15 times, seen",
                ),
                false => (
                    "oldest requests passed, hidden",
                    "oldest requests passed 15 times, hidden",
                ),
            };
            self.add_if(passed, name);
            self.add_if(fifteenth, name_of_15);
        }
    }

    /// Counts an activate by the one before it.
    fn add_rank(&mut self, pair: &Pair, last: Option<Request>, request: Request) {
        let Some(last) = last.filter(|last| last.rank != request.rank) else {
            return;
        };
        let sees = |request: Request| pair.sees(usize::from(request.class));
        let name = match sees(request) {
            true => "activates after one on another rank, seen",
            false => "activates after one on another rank, hidden",
        };
        self.add(name, 1);
        self.add_if(
            sees(request) && !sees(last),
            "seen activates after a hidden one on another rank",
        );
    }

    fn add_policy(&mut self, pair: &Pair) {
        let policy = &pair.policy;
        let timing = &policy.timing;
        let ten_bytes = timing.rank_gap.is_none();
        self.add_if(ten_bytes, "pairs with ten timing bytes");
        self.add_if(!ten_bytes, "pairs with a rank gap");
        let shortest = timing.rank_gap == Some(1);
        self.add_if(shortest, "pairs with a rank gap of 1");
        let longest = timing.rank_gap == Some(timing.dead_time);
        self.add_if(longest, "pairs with a rank gap of the dead time");
        let n = policy.class_count();
        let sees_all = (0..n).all(|class| pair.sees(class));
        self.add_if(sees_all, "pairs in which all classes may flow to L");
        self.add_if(n == MOST_CLASSES, "pairs of sixteen classes");
        let sum = policy.sum_of_minimums();
        self.add_if(sum == 0, "pairs without home turns");
        let all = sum == u32::from(policy.epoch);
        self.add_if(all, "pairs with home turns alone");
        self.add_if(sum > 0 && !all, "pairs with home turns and others");
        let least = policy.least();
        self.add_if(least != 0, "pairs with another least class than 0");
        let ticks = pair.ticks();
        let turn_length = usize::from(policy.timing.turn_length);
        let epoch = usize::from(policy.epoch);
        if ticks > epoch * turn_length {
            self.add_if(epoch > 5, "pairs past the end of an epoch above 5");
            self.add_if(epoch > 16, "pairs past the end of an epoch above 16");
            self.add_if(epoch == 64, "pairs past the end of an epoch of 64");
        }
        if ticks > turn_length {
            self.add_if(turn_length > 239, "pairs with turns above 239");
            self.add_if(turn_length == 255, "pairs with turns of 255");
        }
        self.add("lists of 4,000 ticks", 2 * usize::from(ticks >= 4_000));
    }

    /// Counts the turns of a log by what the plan says of them and of those after.
    fn add_home_turns(&mut self, pair: &Pair, log: &[u32]) {
        let policy = &pair.policy;
        for (number, turn) in (turn_number(policy, pair.start.cycle)..).zip(turns(log)) {
            if let Some(home) = policy.home(number) {
                let owned = owner(turn) == home;
                self.add_if(owned, "home turns that their class owns");
                self.add_if(!owned, "home turns passed on");
            }
            if policy.home(number + 1).is_some() {
                let dropped = turn & ELIDED != 0;
                self.add_if(dropped, "dead times dropped before a home turn");
                self.add_if(!dropped, "dead times kept before a home turn");
                let end = (number + 1) % u32::from(policy.epoch) == 0;
                self.add_if(end, "epochs' ends before a home turn");
            }
        }
    }

    /// Counts the turns of a log by how many classes their walks tried.
    fn add_walks(&mut self, pair: &Pair, log: &[u32]) {
        let policy = &pair.policy;
        let (least, n) = (policy.least(), policy.class_count());
        let bounds: Vec<u32> = (0..n).map(|class| longest_chain(policy, class)).collect();
        for (number, turn) in (turn_number(policy, pair.start.cycle)..).zip(turns(log)) {
            let tried = tried(turn);
            let home = policy.home(number);
            let bound = bounds[home.unwrap_or(least)];
            self.add_if(tried == bound, "walks as long as the longest chain");
            self.add_if(tried < bound, "walks shorter than the longest chain");
            self.add_if(tried == 16, "walks of sixteen classes");
            if tried < 2 {
                continue;
            }
            let (name, name_of_eight) = match pair.sees(owner(turn)) {
                true => (
                    "walks of two classes or more, seen",
                    "walks of eight classes or more, seen",
                ),
                false => (
                    "walks of two classes or more, hidden",
                    "walks of eight classes or more, hidden",
                ),
            };
            self.add(name, 1);
            self.add_if(tried >= 8, name_of_eight);
            self.add_if(
                home.is_some(),
                "walks of two classes or more from a home class",
            );
        }
    }

    /// Counts the turns that are hidden in both logs, and whose walks differ in length.
    fn add_hidden_walks(&mut self, pair: &Pair, [left, right]: [&[u32]; 2]) {
        let both = turns(left).zip(turns(right));
        let hidden = |turn: u32| !pair.sees(owner(turn));
        let differ = |&(left, right): &(u32, u32)| {
            hidden(left) && hidden(right) && tried(left) != tried(right)
        };
        self.add(
            "turns hidden in both lists, after walks of different lengths",
            both.filter(differ).count(),
        );
    }

    fn add_lists(&mut self, pair: &Pair) {
        let [left, right] = &pair.lists;
        self.add_if(left != right, "pairs of different lists");
        let lengths = left.len() != right.len();
        self.add_if(lengths, "pairs with lists of different lengths");
        for (list, cut) in pair.lists.iter().zip(pair.cuts) {
            self.add("calls", list.len());
            match list.last().map(|&number| Word::of(number)) {
                Some(Word::Offer(_)) => self.add("lists whose last number is an offer", 1),
                Some(Word::Malformed) => self.add("lists whose last number is malformed", 1),
                Some(Word::Tick) | None => {}
            }
            self.add_if(cut == Cut::Runs, "lists to be cut into runs");
            let single = cut == Cut::SingleCalls;
            self.add_if(single, "lists to be cut into single calls");
        }
        let [mut hidden, mut beside_seen, mut missing, mut malformed] = [0; 4];
        let mut seen_of_no_rank = 0;
        for &number in left.iter().chain(right) {
            match Word::of(number) {
                Word::Offer(request) => {
                    let class = usize::from(request.class);
                    let exists = class < pair.policy.class_count();
                    let on_rank_0 = Request { rank: 0, ..request };
                    let [refused, otherwise] =
                        [request, on_rank_0].map(|request| request.refused_by(&pair.policy));
                    let by_rank = refused.is_some() && otherwise.is_none();
                    seen_of_no_rank += usize::from(by_rank && pair.sees(class));
                    if exists && !pair.sees(class) {
                        hidden += 1;
                        let below = class.checked_sub(1).is_some_and(|below| pair.sees(below));
                        beside_seen += usize::from(below || pair.sees(class + 1));
                    }
                    missing += usize::from(!exists);
                }
                Word::Malformed => malformed += 1,
                Word::Tick => {}
            }
        }
        self.add("offers of hidden classes", hidden);
        self.add("offers of hidden classes beside a seen one", beside_seen);
        self.add("offers of missing classes", missing);
        self.add("malformed words", malformed);
        self.add(
            "offers seen that 10 refuses for their rank",
            seen_of_no_rank,
        );
    }

    fn add_seen(&mut self, extract: &[u32]) {
        let count = |is: fn(&[u32]) -> bool| extract.chunks_exact(LINE).filter(|&l| is(l)).count();
        let column = |line: &[u32]| line[1] & COLUMN_BIT != 0;
        let activate = |line: &[u32]| line[1] & (OFFER_BIT | COLUMN_BIT) == OFFER_BIT;
        self.add("numbers of extracts", extract.len());
        self.add("activates seen", count(activate));
        self.add("columns seen", count(column));
        self.add("answers seen", count(|line| line[2] != 0));
        self.add("turns seen", count(|line| line[3] & 0xFF != 0));
        self.add("turns hidden", count(|line| line[3] == HIDDEN_TURN));
        let [of_bank_or_kind, of_queue] =
            [Refusal::BankOrKind, Refusal::QueueFull].map(|number| refused(extract, number));
        self.add("offers seen that 10 refuses", of_bank_or_kind);
        self.add("offers seen that 11 refuses", of_queue);
    }
}

/// The turn numbers of a log, of turns that start.
fn turns(log: &[u32]) -> impl Iterator<Item = u32> + '_ {
    let turns = log.chunks_exact(LINE).map(|line| line[3]);
    turns.filter(|&turn| turn != 0)
}

/// The owner that a turn number names. Where the low byte is 0 it is no class.
fn owner(turn: u32) -> usize {
    ((turn & 0xFF) as usize).wrapping_sub(1)
}

/// The lines that a number refuses.
fn refused(log: &[u32], by: Refusal) -> usize {
    let lines = log.chunks_exact(LINE);
    lines.filter(|line| line[0] == by.number()).count()
}
