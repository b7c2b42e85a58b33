//! "Two lists side by side": a search for pairs of lists that agree for a class
//! L, or for W-211's set of classes, and yet differ in what is seen. The field's word for
//! demand 3 is noninterference.

use crate::altered::Altered;
use crate::class_set::ClassSet;
use crate::generate_orders::ORDERS_BY_CLASS;
use crate::met::Met;
use crate::pairs::pair_from_used_up;
use crate::planted::Planted;
use crate::policy::Policy;
use crate::random::Random;
use crate::refusal::Refusal;
use crate::state::State;
use crate::tick::{offer_planted, tick_planted};
use crate::trace::{run_planted, tick_line, Word, LINE};

pub use crate::pairs::{
    pair, pair_of_order, pair_of_order_planted, pair_of_set, pair_of_set_planted, pair_planted,
    purge, Cut, Pair,
};

/// The number of pairs in which the model as it is must show no leak, nor the
/// library.
pub const ORDINARY_PAIRS: u64 = 50_000;

/// Every planted leak must show in so many pairs: far fewer than those in which
/// nothing else shows one.
pub const PAIRS_ENOUGH: u64 = ORDINARY_PAIRS / 10;

/// The same of pairs for sets of classes. What a tick and an offer may leak, the others show.
pub const ORDINARY_PAIRS_OF_SETS: u64 = 20_000;
pub const PAIRS_OF_SETS_ENOUGH: u64 = ORDINARY_PAIRS_OF_SETS / 10;

/// The same under the policies of W-208's small orders: for each class of each of them, 30 pairs with
/// ten timing bytes and 30 with eleven. In a sixth of them each planted leak must show that can.
pub const ORDINARY_PAIRS_OF_ORDERS: u64 = 60 * ORDERS_BY_CLASS;
pub const PAIRS_OF_ORDERS_ENOUGH: u64 = ORDINARY_PAIRS_OF_ORDERS / 6;

/// A leak: a pair of lists that agree for a set of classes, and what differs.
#[derive(Clone, Debug, PartialEq, Eq)]
pub struct Leak {
    /// The seed of the pair: [`pair_planted`] or [`pair_of_set_planted`] makes it again.
    pub seed: u64,
    pub classes: ClassSet,
    /// The comparison that told.
    pub check: Check,
    pub what: String,
}

/// What a search found and what it met.
#[derive(Clone, Debug, Default, PartialEq, Eq)]
pub struct Search {
    pub met: Met,
    pub leak: Option<Leak>,
}

impl Search {
    /// The search in words.
    pub fn report(&self) -> String {
        let found = match &self.leak {
            None => "no leak found\n".to_string(),
            Some(leak) => format!(
                "LEAK: seed {}, classes {}: {}\n",
                leak.seed, leak.classes, leak.what
            ),
        };
        self.met.report() + &found
    }
}

/// Searches the pairs of seeds 0, 1, 2 and so on, up to the first leak.
pub fn search(count: u64) -> Search {
    search_planted(count, Planted::Nothing)
}

/// The same search with a wrong rule in place. For tests.
pub fn search_planted(count: u64, planted: Planted) -> Search {
    search_pairs(count, planted, pair_planted, Met::default())
}

/// The same over lists that agree for sets of classes.
pub fn search_sets(count: u64) -> Search {
    search_sets_planted(count, Planted::Nothing)
}

/// That search with a wrong rule in place. For tests.
pub fn search_sets_planted(count: u64, planted: Planted) -> Search {
    search_pairs(count, planted, pair_of_set_planted, Met::of_sets())
}

/// The search for one class under the policies of W-208's small orders, with a wrong rule in place
/// or none.
pub fn search_orders_planted(count: u64, planted: Planted) -> Search {
    search_pairs(count, planted, pair_of_order_planted, Met::of_orders())
}

/// The search for one class from states in which turns are used up and counts are any. For
/// tests.
pub fn search_used_up(count: u64, planted: Planted) -> Search {
    search_pairs(count, planted, pair_from_used_up, Met::default())
}

/// Every leak that this search would find if it went on, with a wrong rule in place. For tests.
pub fn all_leaks_to_sets(count: u64, planted: Planted) -> impl Iterator<Item = Leak> {
    let mut met = Met::of_sets();
    (0..count).filter_map(move |seed| leak_of(seed, planted, pair_of_set_planted, &mut met))
}

fn search_pairs(count: u64, planted: Planted, pair: fn(u64, Planted) -> Pair, met: Met) -> Search {
    let mut search = Search { met, leak: None };
    search.leak = (0..count).find_map(|seed| leak_of(seed, planted, pair, &mut search.met));
    search
}

/// The leak of a seed's pair, if it shows one; what the pair met is counted.
fn leak_of(
    seed: u64,
    planted: Planted,
    pair: fn(u64, Planted) -> Pair,
    met: &mut Met,
) -> Option<Leak> {
    let pair = pair(seed, planted);
    let done = [0, 1].map(|side| perform(&pair, side, planted));
    let outcomes = outcomes(&pair, &done, planted);
    let extract = &outcomes[0].extract;
    let logs = [&done[0].log, &done[1].log].map(Vec::as_slice);
    let numbers = &extract.out[..extract.count];
    met.add_pair(&pair, logs, numbers);
    let (check, what) = difference(&pair, &done, &outcomes)?;
    Some(Leak {
        seed,
        classes: pair.classes,
        check,
        what,
    })
}

/// Which comparison tells the changed outcome of one of a pair's lists from the
/// other's, if any does; nothing where the pair has nothing to be so changed.
/// For tests.
pub fn check_altered(pair: &Pair, seed: u64, altered: Altered) -> Option<Option<Check>> {
    let mut done = [0, 1].map(|side| perform(pair, side, Planted::Nothing));
    // Either list's outcome must be looked at.
    let (side, place) = ((seed % 2) as usize, seed / 2);
    let in_performed = altered.change_performed(pair, side, place, &mut done[side]);
    let mut outcomes = outcomes(pair, &done, Planted::Nothing);
    let in_outcome = altered.change_outcome(&mut outcomes[side]);
    let fired = difference(pair, &done, &outcomes).map(|(check, _)| check);
    (in_performed || in_outcome).then_some(fired)
}

// ---------------------------------------------------------------------------
// Comparing one pair.

/// What stands in a slice before an extract writes into it. No log has it.
const UNWRITTEN: u32 = u32::MAX;

/// An extract: what it handed back, and the whole slice after it.
#[derive(Clone, Debug, PartialEq, Eq)]
pub(crate) struct Extract {
    pub(crate) count: usize,
    pub(crate) refusal: Option<Refusal>,
    pub(crate) out: Vec<u32>,
}

/// What the extracts of one list's log gave, each in a room that is the same for
/// both lists.
pub(crate) struct Outcome {
    /// With more room than either log fills.
    pub(crate) extract: Extract,
    /// With room for just what the first list's extract wrote.
    pub(crate) just_room: Extract,
    /// With one number less, if there is one less.
    pub(crate) short_room: Option<Extract>,
    /// For the set that 9 refuses, if the pair has one.
    pub(crate) refused: Option<Extract>,
}

/// The extracts of two performed lists.
fn outcomes(pair: &Pair, done: &[Performed; 2], planted: Planted) -> [Outcome; 2] {
    let extract_for = |classes: ClassSet, side: usize, room: usize| {
        let mut out = vec![UNWRITTEN; room];
        let outcome = pair.extract(classes, side, &done[side].log, &mut out, planted);
        Extract {
            count: outcome.unwrap_or(0),
            refusal: outcome.err(),
            out,
        }
    };
    let extract = |side: usize, room: usize| extract_for(pair.classes, side, room);
    let plenty = done[0].log.len().max(done[1].log.len()) + 1;
    let extracts = [0, 1].map(|side| extract(side, plenty));
    let just = extracts[0].count;
    let mut side = 0..2;
    extracts.map(|with_plenty| {
        let side = side.next().unwrap_or(0);
        Outcome {
            extract: with_plenty,
            just_room: extract(side, just),
            short_room: just.checked_sub(1).map(|short| extract(side, short)),
            refused: pair.refused.map(|set| extract_for(set, side, just)),
        }
    })
}

/// The comparison that tells two lists apart.
#[derive(Clone, Copy, Debug, PartialEq, Eq)]
pub enum Check {
    /// A run was not answered as a run is, whatever is in its list.
    Run,
    /// An extract with room enough was refused.
    Refusal,
    /// How many numbers the extracts wrote.
    Count,
    /// The four numbers of a line of the extracts.
    Status,
    Command,
    Answer,
    Turn,
    /// What stands past the count.
    PastTheCount,
    /// An extract with just enough room, or with one number less.
    Room,
    /// An extract for a set with a class that does not exist.
    RefusedSet,
    /// The waiting requests, turns left, mark and count of a class that may flow to L.
    Queue,
    TurnsLeft,
    Mark,
    Passed,
}

impl Check {
    /// The comparison of a number of two extracts with the same count.
    pub fn of_number(place: usize, count: usize) -> Check {
        match place % LINE {
            _ if place >= count => Check::PastTheCount,
            0 => Check::Status,
            1 => Check::Command,
            2 => Check::Answer,
            _ => Check::Turn,
        }
    }
}

/// What differs for L, or for a set of classes, between two lists that agree for it.
fn difference(
    pair: &Pair,
    done: &[Performed; 2],
    outcomes: &[Outcome; 2],
) -> Option<(Check, String)> {
    difference_of_runs(done)
        .or_else(|| difference_of_extracts(outcomes))
        .or_else(|| difference_of_rooms(outcomes))
        .or_else(|| difference_of_refused_sets(outcomes))
        .or_else(|| difference_of_states(pair, done))
}

/// A run's own status goes by its room alone, and so is the same for both.
fn difference_of_runs([left, right]: &[Performed; 2]) -> Option<(Check, String)> {
    let refusal = left.run_refused.or(right.run_refused)?;
    Some((Check::Run, format!("a run got {}", refusal.number())))
}

/// "the extracts of the two logs for L hand back the same count and write the
/// same numbers"
fn difference_of_extracts([left, right]: &[Outcome; 2]) -> Option<(Check, String)> {
    let (left, right) = (&left.extract, &right.extract);
    if let Some(refusal) = left.refusal.or(right.refusal) {
        let what = format!("an extract with room enough got {}", refusal.number());
        return Some((Check::Refusal, what));
    }
    if left.count != right.count {
        let what = format!("the counts are {} and {}", left.count, right.count);
        return Some((Check::Count, what));
    }
    let place = (0..left.out.len()).find(|&place| left.out[place] != right.out[place])?;
    let check = Check::of_number(place, left.count);
    let what = format!(
        "number {place} of the extracts is {:08X} and {:08X}",
        left.out[place], right.out[place]
    );
    Some((check, what))
}

/// "given equal room, 16 meets both or neither": with just enough room neither,
/// and with one number less both.
fn difference_of_rooms([left, right]: &[Outcome; 2]) -> Option<(Check, String)> {
    let found = |what: &str| Some((Check::Room, what.to_string()));
    if left.just_room.refusal.is_some() || left.just_room != right.just_room {
        return found("with just enough room the extracts differ or are refused");
    }
    let short = left.short_room.as_ref();
    let refused = short.is_none_or(|short| short.refusal == Some(Refusal::ExtractTooShort));
    if !refused || left.short_room != right.short_room {
        return found("one number short the extracts differ or are taken");
    }
    None
}

/// W-211: "A set with a class not below n is refused with 9." It is so whatever the list, and
/// nothing is written.
fn difference_of_refused_sets([left, right]: &[Outcome; 2]) -> Option<(Check, String)> {
    let (left, right) = (left.refused.as_ref()?, right.refused.as_ref()?);
    let refused = left.refusal.is_some() && left.count == 0;
    let kept = left.out.iter().all(|&number| number == UNWRITTEN);
    (!refused || !kept || left != right).then(|| {
        let what = "of a set with a missing class the extracts differ or are taken";
        (Check::RefusedSet, what.to_string())
    })
}

/// "For each class that may flow to L, equal in the states after the two lists
/// are its waiting requests, oldest first, its turns left and its mark". W-203: "and so
/// do the counts of each class that may flow to it." W-211: "and equal stored parts of the
/// classes kept."
fn difference_of_states(pair: &Pair, [left, right]: &[Performed; 2]) -> Option<(Check, String)> {
    for class in (0..pair.policy.class_count()).filter(|&class| pair.sees(class)) {
        let (left, right) = (&left.state.classes[class], &right.state.classes[class]);
        let found = |check, what| Some((check, format!("the {what} of class {class} differ")));
        if left.queue != right.queue {
            return found(Check::Queue, "waiting requests");
        }
        if left.left != right.left {
            return found(Check::TurnsLeft, "turns left");
        }
        if left.pointer != right.pointer {
            return found(Check::Mark, "marks");
        }
        if left.passed != right.passed {
            return found(Check::Passed, "counts");
        }
    }
    None
}

/// A list that was performed: the state after it, and its log.
pub(crate) struct Performed {
    /// What the first run got that was not answered as it must be: with room
    /// enough 0, and else 15.
    pub(crate) run_refused: Option<Refusal>,
    pub(crate) state: State,
    pub(crate) log: Vec<u32>,
}

/// Performs a list from the pair's state: "ticks and offers, made singly or inside
/// one run or several, and malformed words, which get 14 inside a run".
fn perform(pair: &Pair, side: usize, planted: Planted) -> Performed {
    let list = &pair.lists[side];
    let mut performer = Performer {
        policy: &pair.policy,
        planted,
        state: pair.start.clone(),
        run_refused: None,
    };
    let mut log = vec![0; LINE * list.len()];
    match pair.cuts[side] {
        Cut::OneRun => performer.run(list, &mut log),
        Cut::Runs => {
            let random = &mut Random::new(list.len() as u64);
            let mut start = 0;
            while start < list.len() {
                let end = random.between(start + 1, list.len().min(start + 60));
                let (part, lines) = (&list[start..end], &mut log[LINE * start..LINE * end]);
                // "A run refused with 15 makes none": it may come in between.
                let short = lines.len() - 1;
                performer.run(part, &mut lines[..short]);
                performer.run(part, lines);
                start = end;
            }
        }
        Cut::SingleCalls => {
            for (&number, line) in list.iter().zip(log.chunks_exact_mut(LINE)) {
                performer.single_call(number, line);
            }
        }
    }
    Performed {
        run_refused: performer.run_refused,
        state: performer.state,
        log,
    }
}

/// A list that is being performed.
struct Performer<'a> {
    policy: &'a Policy,
    planted: Planted,
    state: State,
    run_refused: Option<Refusal>,
}

impl Performer<'_> {
    /// A run, whose status is 15 if its log is too short and else 0.
    fn run(&mut self, part: &[u32], log: &mut [u32]) {
        let refusal = run_planted(self.policy, &mut self.state, part, log, self.planted).err();
        let room = log.len() >= LINE * part.len();
        let expected = (!room).then_some(Refusal::LogTooShort);
        if refusal != expected {
            self.run_refused = self.run_refused.or(refusal).or(expected);
        }
    }

    /// One trace number as a call of its own. Its log line is the one that a run
    /// over the whole list writes.
    fn single_call(&mut self, number: u32, line: &mut [u32]) {
        let (policy, state, planted) = (self.policy, &mut self.state, self.planted);
        let outcome = match Word::of(number) {
            Word::Tick => tick_planted(policy, state, planted).map(|record| tick_line(&record)),
            Word::Offer(request) => {
                offer_planted(policy, state, request, planted).map(|()| [0; LINE])
            }
            Word::Malformed => return self.run(&[number], line),
        };
        let refused = |refusal: Refusal| [refusal.number(), 0, 0, 0];
        line.copy_from_slice(&outcome.unwrap_or_else(refused));
    }
}
