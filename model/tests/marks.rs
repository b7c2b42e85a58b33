//! W-201, "Marks that stick": "From now on a mark moves only when the walk passes
//! on from the class: it moves first and then names the child. The trial walk
//! follows."

mod common;

use common::*;
use vigambul_model::generate::{antichain_rows, sound_fields, trace_of_length};
use vigambul_model::policy::{self, Policy};
use vigambul_model::random::Random;
use vigambul_model::state::State;
use vigambul_model::tick::{offer, tick};
use vigambul_model::trace::Word;

const DROPPED: bool = true;
const KEPT: bool = false;

/// The marks of all classes.
fn marks(state: &State) -> Vec<usize> {
    state.classes.iter().map(|class| class.pointer).collect()
}

/// A turn of 4 ticks before which some classes offer one request each.
fn turn(policy: &Policy, state: &mut State, offering: &[u8]) -> (u32, bool) {
    let mut list: Vec<u32> = offering.iter().map(|&class| read_word(class, 1)).collect();
    list.extend([0; 4]);
    owners(&run_on(policy, state, &list))[0]
}

/// "A customer's least class has two children and sends on every second turn.
/// Its mark moves each time the class is reached, so the same child gets every
/// turn that is passed up." No longer: the two take turns.
#[test]
fn the_customers_least_class_sends_on_every_second_turn() {
    let policy = policy(&FORK, 8, &[0; 3], TIMING);
    let mut state = fresh(&policy);
    let mut picked = Vec::new();
    let mut marked = Vec::new();
    for number in 0..16 {
        let offering: &[u8] = if number % 2 == 0 { &[0] } else { &[] };
        picked.push(turn(&policy, &mut state, offering).0);
        marked.push(state.classes[0].pointer);
    }
    // The second epoch goes on as the first did: it ends with a turn of 2.
    assert_eq!(picked, [0, 1, 0, 2, 0, 1, 0, 2].repeat(2));
    assert_eq!(marked[..8], [0, 1, 1, 2, 2, 1, 1, 2]);
    assert_eq!(marked[8..], [2, 1, 1, 2, 2, 1, 1, 2]);
}

/// The same with more children, and with other numbers of turns taken in between.
#[test]
fn turns_that_a_class_takes_leave_the_next_child_as_it_was() {
    for children in 2..=15u32 {
        let rows = antichain_rows(children as usize + 1, 0);
        let policy = policy(&rows, 64, &vec![0; rows.len()], TIMING);
        let mut state = fresh(&policy);
        for passed_on in 0..2 * children {
            for _ in 0..passed_on % (children + 2) {
                let before = marks(&state);
                assert_eq!(turn(&policy, &mut state, &[0]), (0, DROPPED));
                assert_eq!(marks(&state), before);
            }
            let (owner, _) = turn(&policy, &mut state, &[]);
            assert_eq!(owner, passed_on % children + 1, "{children} children");
        }
    }
}

#[test]
fn marks_stay_as_they_are_where_an_epoch_starts() {
    // Three children, epochs of two turns, all of which class 0 passes on: each epoch
    // goes on where the one before ended.
    let policy = policy(&[0b1111, 0b0010, 0b0100, 0b1000], 2, &[0; 4], TIMING);
    let mut state = fresh(&policy);
    let picked: Vec<u32> = (0..7).map(|_| turn(&policy, &mut state, &[]).0).collect();
    assert_eq!(picked, [1, 2, 3, 1, 2, 3, 1]);
}

/// 0 below 1, which is below 2 and 3: a middle class takes a turn with its mark
/// staying, and the trial walk goes by the mark that it would move once more.
#[test]
fn the_trial_walk_goes_by_the_mark_that_stayed() {
    let rows = [0b1111, 0b1110, 0b0100, 0b1000];
    let policy = policy(&rows, 64, &[0; 4], TIMING);
    // Class 0 has no turns left, class 1 one.
    let mut state = with_turns_left(&policy, &[(0, 0), (1, 1)]);
    // Class 1 takes its turn; the trial walk reaches it past class 0 without
    // asking its own mark, which stays 0.
    assert_eq!(turn(&policy, &mut state, &[1]), (1, DROPPED));
    assert_eq!(marks(&state), [1, 0, 0, 0]);
    // Its next turn is passed on to its first child, the one after to its second.
    assert_eq!(turn(&policy, &mut state, &[1]), (2, KEPT));
    assert_eq!(marks(&state), [1, 1, 0, 0]);
    assert_eq!(turn(&policy, &mut state, &[1]), (3, KEPT));
    assert_eq!(marks(&state), [1, 2, 0, 0]);
    // With one turn more it takes that, and then the first child is next again.
    state.classes[1].left = 1;
    assert_eq!(turn(&policy, &mut state, &[1]), (1, DROPPED));
    assert_eq!(turn(&policy, &mut state, &[1]), (2, KEPT));
}

/// 0 below 1 and 2, both below 3, and 4 above 1 alone. Class 3 drops its dead time
/// where the trial walk comes to it through class 1: that rests on 1's mark, which
/// stays when 1 takes the one turn that it has left.
#[test]
fn a_mark_that_stays_decides_the_dead_time() {
    let rows = [0b11111, 0b11010, 0b01100, 0b01000, 0b10000];
    let policy = policy(&rows, 64, &[0; 5], TIMING);
    assert_eq!(policy.covers[1], [3, 4]);
    let mut state = with_turns_left(&policy, &[(0, 0), (1, 1)]);
    assert_eq!(turn(&policy, &mut state, &[1]), (1, KEPT));
    assert_eq!(marks(&state), [1, 0, 0, 0, 0]);
    // Up through 2. Class 1 would be next and pass its first turn on, to 3.
    assert_eq!(turn(&policy, &mut state, &[]), (3, DROPPED));
    assert_eq!(marks(&state), [2, 0, 1, 0, 0]);
    // As foretold. Then 2 would be next, with turns left; then 1 once more, which
    // would pass its second turn on, to 4.
    assert_eq!(turn(&policy, &mut state, &[]), (3, KEPT));
    assert_eq!(marks(&state), [1, 1, 1, 0, 0]);
    assert_eq!(turn(&policy, &mut state, &[]), (3, KEPT));
    // The same once class 1 has had another turn of its own.
    state.classes[1].left = 1;
    assert_eq!(turn(&policy, &mut state, &[1]), (1, KEPT));
    assert_eq!(turn(&policy, &mut state, &[]), (3, KEPT));
    assert_eq!(marks(&state), [2, 1, 1, 0, 0]);
    assert_eq!(turn(&policy, &mut state, &[]), (4, KEPT));
}

/// How many turns each class has passed on since the fresh state: all that the
/// round robin rests on.
struct PassedOn<'a> {
    policy: &'a Policy,
    counts: Vec<usize>,
    /// The home class of each turn of an epoch; none where it starts at the least.
    plan: Vec<Option<usize>>,
}

impl PassedOn<'_> {
    fn new(policy: &Policy) -> PassedOn<'_> {
        let classes = policy.minimums.iter().enumerate();
        let homes = classes.flat_map(|(class, &minimum)| vec![Some(class); minimum.into()]);
        let mut plan: Vec<Option<usize>> = homes.collect();
        let others = usize::from(policy.epoch) - plan.len();
        plan.splice(0..0, vec![None; others]);
        PassedOn {
            policy,
            counts: vec![0; policy.covers.len()],
            plan,
        }
    }

    /// The class whose home turn a turn is.
    fn home(&self, turn: u32) -> Option<usize> {
        self.plan[turn as usize % self.plan.len()]
    }

    /// The number of the child that the m-th turn goes to which a class passes
    /// on; 0 where m is 0.
    fn number(&self, class: usize, m: usize) -> usize {
        let children = self.policy.covers[class].len();
        m.checked_sub(1).map_or(0, |before| before % children + 1)
    }

    /// The child that the m-th turn goes to.
    fn child(&self, class: usize, m: usize) -> usize {
        self.policy.covers[class][self.number(class, m) - 1]
    }

    /// The marks that the counts give.
    fn marks(&self) -> Vec<usize> {
        (0..self.counts.len())
            .map(|class| self.number(class, self.counts[class]))
            .collect()
    }

    /// The owner of the turn that starts in this state, with these turns left, of
    /// which it takes one unless it takes its home turn.
    fn owner(&mut self, state: &State, turn: u32, left: &mut [u8]) -> usize {
        let home = self.home(turn);
        let mut class = home.unwrap_or(self.policy.least());
        loop {
            let waits = !state.classes[class].queue.is_empty();
            if waits && home == Some(class) {
                return class;
            }
            if waits && left[class] > 0 || self.policy.covers[class].is_empty() {
                left[class] = left[class].saturating_sub(1);
                return class;
            }
            self.counts[class] += 1;
            class = self.child(class, self.counts[class]);
        }
    }

    /// Whether the walk of the next turn must come to the owner or pass it: each
    /// class before it may flow to it, has no turns left, and would pass its next
    /// turn on towards it.
    fn next_reaches(&self, owner: usize, left: &[u8]) -> bool {
        let mut class = self.policy.least();
        while class != owner {
            if !self.policy.flows(class, owner) || left[class] > 0 {
                return false;
            }
            class = self.child(class, self.counts[class] + 1);
        }
        true
    }
}

/// What the generated runs met.
#[derive(Debug, Default)]
struct Met {
    turns: usize,
    /// Epochs after the first that start with a mark above 0.
    epochs: usize,
    /// Turns that a class with two or more children takes with a mark above 0.
    taken: usize,
    /// Turns passed on by a class with two or more children, past the last one.
    rounds: usize,
    dropped: usize,
    kept: usize,
    /// Turns that are dropped since a trial walk passes classes without turns left.
    past_used_up: usize,
    /// Home turns that their class takes, and that it passes on.
    home_taken: usize,
    home_passed_on: usize,
}

/// Runs a list from a state with marks of 0 and holds every turn against the counts.
fn check_round_robin(policy: &Policy, mut state: State, list: &[u32], met: &mut Met) {
    let mut passed_on = PassedOn::new(policy);
    let mut before: Option<(usize, bool)> = None;
    for &number in list {
        match Word::of(number) {
            Word::Offer(request) => {
                let marks_before = marks(&state);
                let _ = offer(policy, &mut state, request);
                assert_eq!(marks(&state), marks_before);
            }
            Word::Malformed => {}
            Word::Tick => {
                let turn_length = u32::from(policy.timing.turn_length);
                let (starts, turn) = (state.cycle % turn_length == 0, state.cycle / turn_length);
                let epoch = u32::from(policy.epoch);
                let at_start = state.clone();
                let record = tick(policy, &mut state).expect("a tick is taken");
                assert_eq!(record.turn.is_some(), starts);
                let Some(started) = record.turn else {
                    assert_eq!(marks(&state), marks(&at_start));
                    continue;
                };
                let left_of = |state: &State| -> Vec<u8> {
                    state.classes.iter().map(|class| class.left).collect()
                };
                let mut left = match turn % epoch {
                    0 => policy.caps.clone(),
                    _ => left_of(&at_start),
                };
                let counts_before = passed_on.counts.clone();
                let owner = passed_on.owner(&at_start, turn, &mut left);
                assert_eq!(started.owner, owner, "turn {turn}");
                assert_eq!(marks(&state), passed_on.marks(), "turn {turn}");
                assert_eq!(left_of(&state), left, "turn {turn}");
                if (turn + 1) % epoch == 0 {
                    left = policy.caps.clone();
                }
                let dropped = match passed_on.home(turn + 1) {
                    Some(home) => policy.flows(owner, home),
                    None => passed_on.next_reaches(owner, &left),
                };
                assert_eq!(started.elided, dropped, "turn {turn}");
                // Where the dead time was dropped, what is in flight is of a
                // class that may flow to the next owner.
                if let Some((last_owner, true)) = before {
                    assert!(policy.flows(last_owner, owner), "turn {turn}");
                }
                before = Some((owner, dropped));

                met.turns += 1;
                let any_mark = counts_before.iter().any(|&count| count > 0);
                met.epochs += usize::from(turn > 0 && turn % epoch == 0 && any_mark);
                let several = |class: usize| policy.covers[class].len() > 1;
                met.taken += usize::from(several(owner) && passed_on.counts[owner] > 0);
                met.rounds += (0..passed_on.counts.len())
                    .filter(|&class| several(class))
                    .filter(|&class| passed_on.counts[class] > counts_before[class])
                    .filter(|&class| passed_on.counts[class] > policy.covers[class].len())
                    .count();
                met.dropped += usize::from(dropped && owner != policy.least());
                met.kept += usize::from(!dropped);
                let trial = passed_on.home(turn + 1).is_none();
                met.past_used_up += usize::from(trial && dropped && owner != policy.least());
                if let Some(home) = passed_on.home(turn) {
                    met.home_taken += usize::from(home == owner);
                    met.home_passed_on += usize::from(home != owner);
                }
            }
        }
    }
}

/// A class with k children that has passed on m turns since the start has the
/// mark 0 if m is 0, and else ((m - 1) mod k) + 1; the m-th turn that it passes on
/// goes to the child with that number. Nothing else moves a mark: no turn taken,
/// no epoch's start, no offer and no trial walk.
#[test]
fn turns_passed_on_go_round_the_children() {
    let random = &mut Random::new(201);
    let mut met = Met::default();
    for _ in 0..600 {
        let (policy, _) = policy::read(&sound_fields(random).encode());
        let list = trace_of_length(random, &policy, 1_000);
        check_round_robin(&policy, fresh(&policy), &list, &mut met);
        // The same with turns used up, as no list of calls uses them up.
        let mut used_up = Vec::new();
        for class in (0..policy.covers.len()).filter(|_| random.below(4) > 0) {
            used_up.push((class, 0));
        }
        let state = with_turns_left(&policy, &used_up);
        check_round_robin(&policy, state, &list, &mut met);
        // And with nobody asking, so that many turns are passed on.
        let turns = 40 * usize::from(policy.timing.turn_length);
        let idle = vec![0; turns.min(2_000)];
        check_round_robin(&policy, fresh(&policy), &idle, &mut met);
    }
    println!("{met:?}");
    assert!(met.turns > 10_000, "{met:?}");
    assert!(met.epochs > 500, "{met:?}");
    assert!(met.taken > 500, "{met:?}");
    assert!(met.rounds > 500, "{met:?}");
    assert!(met.dropped > 500, "{met:?}");
    assert!(met.kept > 500, "{met:?}");
    assert!(met.past_used_up > 200, "{met:?}");
    assert!(met.home_taken > 500, "{met:?}");
    assert!(met.home_passed_on > 500, "{met:?}");
}
