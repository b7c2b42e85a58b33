//! Pairs of W-204's recordings made from a seed, the kinds that they are counted by, and runs whose
//! logs recordings are made of.
//!
//! Most pairs are made so that all events have partners, and are then damaged in one way or two;
//! the others are made by chance.

use crate::generate::{self, any_log, sound_offer};
use crate::planted::Planted;
use crate::policy::{self, Policy, MOST_CLASSES};
use crate::program::read_trace;
use crate::random::Random;
use crate::recordings::Recording::{self, Cores, Wires};
use crate::recordings::{are_partners, events, match_recordings, Event, EVENT};
use crate::state::{self, BANKS, LAST_CYCLE};
use crate::trace::{run_line, Word, LINE};

/// Two recordings, and the delay under which they are held together.
#[derive(Clone, Debug, PartialEq, Eq)]
pub struct Pair {
    pub wires: Vec<u32>,
    pub cores: Vec<u32>,
    pub delay: u8,
    /// The name in [`DAMAGES`] of what was done to it first, if it was.
    pub damage: Option<&'static str>,
}

impl Pair {
    pub fn numbers(&self, of: Recording) -> &[u32] {
        match of {
            Recording::Wires => &self.wires,
            Recording::Cores => &self.cores,
        }
    }

    fn numbers_mut(&mut self, of: Recording) -> &mut Vec<u32> {
        match of {
            Recording::Wires => &mut self.wires,
            Recording::Cores => &mut self.cores,
        }
    }

    /// The events of a recording.
    pub fn events(&self, of: Recording) -> Vec<Event> {
        events(of, self.numbers(of), self.delay)
    }
}

/// A pair made from a seed. Of eight pairs one matches, one is of recordings made each by itself,
/// one is of any numbers and five are damaged; each kind of damage has its turn.
pub fn pair(seed: u64) -> Pair {
    let random = &mut Random::new(seed);
    match seed % 8 {
        0 => matched(random, 0),
        1 => by_themselves(random),
        2 => any_numbers(random),
        place => {
            let mut pair = matched(random, 2);
            let turn = 5 * (seed / 8) + place - 3;
            let (name, damage) = DAMAGES[turn as usize % DAMAGES.len()];
            damage(random, &mut pair);
            pair.damage = Some(name);
            if random.percent(20) {
                let (_, another) = random.pick(&DAMAGES);
                another(random, &mut pair);
            }
            pair
        }
    }
}

// ---------------------------------------------------------------------------
// Pairs that are not damaged.

/// A delay, often at an edge of its byte or of what timings have.
fn any_delay(random: &mut Random) -> u8 {
    match random.below(8) {
        0 => 0,
        1 => 255,
        2 => 1,
        3..=5 => random.between(2, 31) as u8,
        _ => random.next() as u8,
    }
}

/// Words to draw from. Where there are few, many events have the same.
fn some_words(random: &mut Random) -> Vec<u32> {
    let count = *random.pick(&[1, 2, 3, 40]);
    let word = |_| match random.below(10) {
        // A word is never looked at, but for whether it is another one's.
        0 => *random.pick(&[0, 1, 1 << 30, u32::MAX]),
        1 => random.next() as u32,
        _ => {
            let class = random.below(MOST_CLASSES) as u8;
            sound_offer(random, class, BANKS)
        }
    };
    (0..count).map(word).collect()
}

/// A pair in which each event has a partner, of so many events at least.
fn matched(random: &mut Random, least: usize) -> Pair {
    let delay = any_delay(random);
    let words = some_words(random);
    let count = match random.below(10) {
        0 => least,
        1 => random.between(60, 120),
        2..=4 => random.between(2, 4).max(least),
        _ => random.between(2, 30).max(least),
    };
    let longest_step = *random.pick(&[1, 2, 3, 3, 40, 300]);
    let steps: Vec<u32> = (0..count)
        .map(|_| random.between(1, longest_step) as u32)
        .collect();
    // The first cycle is a step above this one, and the last cycle's answer is due in 32 bits.
    let span: u32 = steps.iter().sum();
    let highest = u32::MAX - u32::from(delay) - span;
    let mut cycle = match random.below(6) {
        0 => highest,
        1 => highest - random.below(3) as u32,
        2 => LAST_CYCLE - random.below(400) as u32,
        3 => random.next() as u32 % highest,
        _ => random.below(200) as u32,
    };
    let mut pair = Pair {
        wires: Vec::new(),
        cores: Vec::new(),
        delay,
        damage: None,
    };
    for step in steps {
        cycle += step;
        let word = *random.pick(&words);
        pair.wires.extend([cycle, word]);
        pair.cores.extend([cycle + u32::from(delay), word]);
    }
    pair
}

/// Two sound recordings made each by itself, of few cycles and few words: some events have
/// partners, and others do not.
fn by_themselves(random: &mut Random) -> Pair {
    let words = random.between(1, 3);
    let chance = *random.pick(&[10, 30, 50, 90]);
    let mut recorded = |cycles: std::ops::Range<u32>| {
        let mut numbers = Vec::new();
        for cycle in cycles {
            if random.percent(chance) {
                numbers.extend([cycle, random.below(words) as u32]);
            }
        }
        numbers
    };
    let (wires, cores) = (recorded(0..12), recorded(0..14));
    Pair {
        wires,
        cores,
        delay: random.below(4) as u8,
        damage: None,
    }
}

/// Few numbers, and any: often small, or at the end of 32 bits.
fn any_numbers(random: &mut Random) -> Pair {
    let mut some = || -> Vec<u32> {
        let count = random.below(7);
        let number = |_| match random.below(4) {
            0 => random.next() as u32,
            1 => u32::MAX - random.below(300) as u32,
            _ => random.below(12) as u32,
        };
        (0..count).map(number).collect()
    };
    let (wires, cores) = (some(), some());
    Pair {
        wires,
        cores,
        delay: any_delay(random),
        damage: None,
    }
}

// ---------------------------------------------------------------------------
// Damage.

/// A way to damage a pair.
type Damage = fn(&mut Random, &mut Pair);

/// Every way to damage a pair. Not each does so to every pair: where there are too few events,
/// nothing is done.
pub const DAMAGES: [(&str, Damage); 29] = [
    ("an activate dropped", |random, pair| {
        drop_event(random, pair, Wires)
    }),
    ("an answer dropped", |random, pair| {
        drop_event(random, pair, Cores)
    }),
    ("an activate with another word", |random, pair| {
        other_word(random, pair, Wires)
    }),
    ("an answer with another word", |random, pair| {
        other_word(random, pair, Cores)
    }),
    ("an activate early or late", |random, pair| {
        other_cycle(random, pair, Wires)
    }),
    ("an answer early or late", |random, pair| {
        other_cycle(random, pair, Cores)
    }),
    ("an activate too many", |random, pair| {
        one_more(random, pair, Wires)
    }),
    ("an answer too many", |random, pair| {
        one_more(random, pair, Cores)
    }),
    ("two words of the wires exchanged", |random, pair| {
        exchange(random, pair, Wires)
    }),
    ("two words of the cores exchanged", |random, pair| {
        exchange(random, pair, Cores)
    }),
    ("the wires begin late", |random, pair| {
        cut_head(random, pair, Wires)
    }),
    ("the cores begin late", |random, pair| {
        cut_head(random, pair, Cores)
    }),
    ("the wires end early", |random, pair| {
        cut_tail(random, pair, Wires)
    }),
    ("the cores end early", |random, pair| {
        cut_tail(random, pair, Cores)
    }),
    ("no wires", |_, pair| pair.wires.clear()),
    ("no cores", |_, pair| pair.cores.clear()),
    ("neither", |_, pair| {
        pair.wires.clear();
        pair.cores.clear();
    }),
    ("wires of odd length", |random, pair| {
        odd_length(random, pair, Wires)
    }),
    ("cores of odd length", |random, pair| {
        odd_length(random, pair, Cores)
    }),
    ("a cycle of the wires repeated", |random, pair| {
        not_above(random, pair, Wires, 0)
    }),
    ("a cycle of the cores repeated", |random, pair| {
        not_above(random, pair, Cores, 0)
    }),
    ("a cycle of the wires too small", |random, pair| {
        let by = random.between(1, 50) as u32;
        not_above(random, pair, Wires, by)
    }),
    ("a cycle of the cores too small", |random, pair| {
        let by = random.between(1, 50) as u32;
        not_above(random, pair, Cores, by)
    }),
    ("an activate due at 2^32", |_, pair| last_due(pair, 1 << 32)),
    ("an activate due past 2^32", |random, pair| {
        let past = random.below(255) as u64;
        last_due(pair, (1 << 32) + past)
    }),
    ("an activate due at 2^32 - 1", |_, pair| {
        last_due(pair, (1 << 32) - 1)
    }),
    ("an answer at 2^32 - 1", |_, pair| {
        if let Some(place) = last_place(&pair.cores) {
            pair.cores[place] = u32::MAX;
        }
    }),
    ("both unsound", |random, pair| {
        for of in Recording::BOTH {
            match random.below(3) {
                0 => odd_length(random, pair, of),
                1 => not_above(random, pair, of, 0),
                _ => not_above(random, pair, of, 7),
            }
        }
    }),
    ("another delay", |random, pair| {
        pair.delay = match random.below(3) {
            0 => pair.delay.saturating_add(1),
            1 => pair.delay.saturating_sub(1),
            _ => any_delay(random),
        }
    }),
];

/// The place of a recording's last event.
fn last_place(numbers: &[u32]) -> Option<usize> {
    (numbers.len() / EVENT * EVENT).checked_sub(EVENT)
}

/// The place of an event from so many events on, often the first or the last of these.
fn place_from(random: &mut Random, numbers: &[u32], first: usize) -> Option<usize> {
    let last = (numbers.len() / EVENT).checked_sub(1)?;
    if last < first {
        return None;
    }
    Some(match random.below(4) {
        0 => EVENT * first,
        1 => EVENT * last,
        _ => EVENT * random.between(first, last),
    })
}

fn drop_event(random: &mut Random, pair: &mut Pair, of: Recording) {
    let numbers = pair.numbers_mut(of);
    if let Some(place) = place_from(random, numbers, 0) {
        numbers.drain(place..place + EVENT);
    }
}

fn other_word(random: &mut Random, pair: &mut Pair, of: Recording) {
    let numbers = pair.numbers_mut(of);
    if let Some(place) = place_from(random, numbers, 0) {
        // A bit more or less, or the word of another event.
        numbers[place + 1] = match random.percent(50) {
            true => numbers[place + 1] ^ 1 << random.below(32),
            false => numbers[EVENT * random.below(numbers.len() / EVENT) + 1],
        };
    }
}

fn other_cycle(random: &mut Random, pair: &mut Pair, of: Recording) {
    let numbers = pair.numbers_mut(of);
    if let Some(place) = place_from(random, numbers, 0) {
        let by = random.between(1, 2) as u32;
        numbers[place] = match random.percent(50) {
            true => numbers[place].saturating_add(by),
            false => numbers[place].saturating_sub(by),
        };
    }
}

/// An event more, in the cycle after another one. Where that has an event already, the recording
/// becomes unsound.
fn one_more(random: &mut Random, pair: &mut Pair, of: Recording) {
    let numbers = pair.numbers_mut(of);
    if let Some(place) = place_from(random, numbers, 0) {
        let (cycle, word) = (numbers[place].saturating_add(1), numbers[place + 1]);
        let next = place + EVENT;
        numbers.splice(next..next, [cycle, word]);
    }
}

fn exchange(random: &mut Random, pair: &mut Pair, of: Recording) {
    let numbers = pair.numbers_mut(of);
    let places = [0; 2].map(|_| place_from(random, numbers, 0));
    if let [Some(one), Some(other)] = places {
        numbers.swap(one + 1, other + 1);
    }
}

fn cut_head(random: &mut Random, pair: &mut Pair, of: Recording) {
    let numbers = pair.numbers_mut(of);
    if let Some(place) = place_from(random, numbers, 1) {
        numbers.drain(..place);
    }
}

fn cut_tail(random: &mut Random, pair: &mut Pair, of: Recording) {
    let numbers = pair.numbers_mut(of);
    if let Some(place) = place_from(random, numbers, 0) {
        numbers.truncate(place);
    }
}

/// The last word lost, or a cycle more.
fn odd_length(random: &mut Random, pair: &mut Pair, of: Recording) {
    let numbers = pair.numbers_mut(of);
    match last_place(numbers) {
        Some(place) if random.percent(50) => numbers.truncate(place + 1),
        Some(place) => numbers.push(numbers[place].saturating_add(1)),
        None => numbers.push(random.next() as u32),
    }
}

/// A cycle so much below the one before it.
fn not_above(random: &mut Random, pair: &mut Pair, of: Recording, by: u32) {
    let numbers = pair.numbers_mut(of);
    if let Some(place) = place_from(random, numbers, 1) {
        numbers[place] = numbers[place - EVENT].saturating_sub(by);
    }
}

/// The last activate's answer due at a cycle, if the delay reaches so far, and the last answer there
/// too, if 32 bits do.
fn last_due(pair: &mut Pair, due: u64) {
    if due > u64::from(u32::MAX) {
        pair.delay = pair.delay.max(1);
    }
    let cycle = due - u64::from(pair.delay);
    if let Some(place) = last_place(&pair.wires) {
        pair.wires[place] = u32::try_from(cycle).unwrap_or(u32::MAX);
    }
    if let (Some(place), Ok(due)) = (last_place(&pair.cores), u32::try_from(due)) {
        pair.cores[place] = due;
    }
}

// ---------------------------------------------------------------------------
// Kinds, for counts of what was met.

/// Every kind of pair, and whether this one is of it.
pub fn kinds(pair: &Pair) -> Vec<(String, bool)> {
    let faults = Recording::BOTH.map(|of| Faults::of(pair, of));
    let [wires, cores] = &faults;
    let mut kinds = kinds_of_pair(pair);
    match faults.iter().any(Faults::any) {
        // Of an unsound recording the check has nothing to say.
        true => kinds.extend(kinds_of_rest(&NOTHING).map(|(name, _)| (name, false))),
        false => kinds.extend(kinds_of_rest(pair)),
    }
    kinds.extend(wires.kinds("wires"));
    kinds.extend(cores.kinds("cores"));
    let past = wires.past;
    let both = wires.any() && cores.any();
    kinds.extend([
        ("wires due past 32 bits".into(), past),
        (
            "wires due past 32 bits alone".into(),
            past && wires.count() == 1,
        ),
        ("both unsound".into(), both),
    ]);
    kinds
}

/// Two recordings without events.
const NOTHING: Pair = Pair {
    wires: Vec::new(),
    cores: Vec::new(),
    delay: 2,
    damage: None,
};

/// What is asked of all pairs, sound or not.
fn kinds_of_pair(pair: &Pair) -> Vec<(String, bool)> {
    let [no_wires, no_cores] = [pair.wires.is_empty(), pair.cores.is_empty()];
    let activates = pair.events(Wires);
    let answers = pair.events(Cores);
    let due = |cycle: u64| activates.iter().any(|event| event.due == cycle);
    let end = 1 << 32;
    let kinds = [
        ("no wires, and cores", no_wires && !no_cores),
        ("wires, and no cores", !no_wires && no_cores),
        ("neither wires nor cores", no_wires && no_cores),
        ("the delay 0", pair.delay == 0),
        ("the delay 255", pair.delay == 255),
        (
            "an answer in a cycle below the delay",
            answers
                .iter()
                .any(|event| event.due < u64::from(pair.delay)),
        ),
        ("an activate due at 2^32 - 1", due(end - 1)),
        (
            "an answer at 2^32 - 1",
            answers.iter().any(|event| event.due == end - 1),
        ),
        ("an activate due at 2^32", due(end)),
        (
            "an activate due past 2^32",
            activates.iter().any(|event| event.due > end),
        ),
    ];
    kinds.map(|(name, is)| (name.to_string(), is)).to_vec()
}

/// What the check says of a sound pair.
fn kinds_of_rest(pair: &Pair) -> [(String, bool); 20] {
    let activates = pair.events(Wires);
    let answers = pair.events(Cores);
    let matched = match_recordings(&pair.wires, &pair.cores, pair.delay);
    let first = matched.which.map(|of| (of, matched.at));
    let full = first.is_none();
    let shares = |one: &Event, other: &Event| one.due == other.due && one.word != other.word;
    let shared = |one: &Event| answers.iter().any(|other| shares(one, other));
    let begins_at = |event: &Event| first == Some((event.of, event.at));
    let begins = activates
        .iter()
        .chain(&answers)
        .find(|event| begins_at(event));
    let is_of = |of: Recording| begins.is_some_and(|event| event.of == of);
    let others = |event: &Event| match event.of {
        Wires => &answers,
        Cores => &activates,
    };
    // The place of the rest, of a recording of several events.
    let place = |of: Recording, is: fn(usize, usize) -> bool| {
        let last = last_place(pair.numbers(of)).filter(|&last| last > 0);
        is_of(of) && last.is_some_and(|last| is(matched.at, last))
    };
    let at_first = |at: usize, _: usize| at == 0;
    let between = |at: usize, last: usize| at > 0 && at < last;
    let at_last = |at: usize, last: usize| at == last;
    let after_all_others = |of: Recording| {
        let later = |event: &Event| others(event).iter().all(|other| other.due < event.due);
        is_of(of) && begins.is_some_and(|event| !others(event).is_empty() && later(event))
    };
    let end = (1 << 32) - 1;
    let partnered_at_end =
        |event: &Event| event.due == end && answers.iter().any(|other| are_partners(event, other));
    let words = activates.iter().map(|event| event.word);
    let repeated = |word: u32| words.clone().filter(|&other| other == word).count() > 4;
    let kinds = [
        ("all have partners", full && !activates.is_empty()),
        (
            "all have partners, 20 events or more in each",
            full && activates.len() >= 20,
        ),
        (
            "all have partners, one word many times",
            full && words.clone().any(repeated),
        ),
        ("an unpartnered activate", is_of(Wires)),
        ("an unpartnered answer", is_of(Cores)),
        (
            "a shared due cycle with other words",
            activates.iter().any(shared),
        ),
        (
            "the rest begins at an activate that shares its due cycle with other words",
            begins.is_some_and(|event| event.of == Wires && shared(event)),
        ),
        (
            "the rest begins at an event whose word is due in another cycle in the other recording",
            begins.is_some_and(|event| others(event).iter().any(|other| other.word == event.word)),
        ),
        (
            "the rest of the wires begins at the first event",
            place(Wires, at_first),
        ),
        (
            "the rest of the wires begins in the middle",
            place(Wires, between),
        ),
        (
            "the rest of the wires begins at the last event",
            place(Wires, at_last),
        ),
        (
            "the rest of the cores begins at the first event",
            place(Cores, at_first),
        ),
        (
            "the rest of the cores begins in the middle",
            place(Cores, between),
        ),
        (
            "the rest of the cores begins at the last event",
            place(Cores, at_last),
        ),
        (
            "the rest of the wires begins after all answers",
            after_all_others(Wires),
        ),
        (
            "the rest of the cores begins after all activates",
            after_all_others(Cores),
        ),
        (
            "the delay 0, all have partners",
            full && pair.delay == 0 && !activates.is_empty(),
        ),
        (
            "the delay 255, all have partners",
            full && pair.delay == 255 && !activates.is_empty(),
        ),
        (
            "the delays 0 and 255, an event without a partner",
            !full && [0, 255].contains(&pair.delay),
        ),
        (
            "an activate due at 2^32 - 1 that has a partner",
            activates.iter().any(partnered_at_end),
        ),
    ];
    kinds.map(|(name, is)| (name.to_string(), is))
}

/// What is wrong with a recording.
struct Faults {
    /// "an odd length"
    odd: bool,
    /// It has one number alone.
    lone: bool,
    /// "a cycle not above the one before": the same, or one below.
    equal: bool,
    below: bool,
    /// Whether the second cycle alone, or the last alone, is not above the one before.
    second: bool,
    last: bool,
    /// "a due cycle past 32 bits"
    past: bool,
}

impl Faults {
    fn of(pair: &Pair, of: Recording) -> Faults {
        let numbers = pair.numbers(of);
        let cycles: Vec<u32> = numbers.iter().copied().step_by(EVENT).collect();
        let steps = || cycles.windows(2).enumerate();
        let wrong: Vec<usize> = steps()
            .filter(|(_, step)| step[1] <= step[0])
            .map(|(place, _)| place)
            .collect();
        let even = numbers.len() % EVENT == 0;
        let several = cycles.len() > 3;
        Faults {
            odd: !even,
            lone: numbers.len() == 1,
            equal: steps().any(|(_, step)| step[1] == step[0]),
            below: steps().any(|(_, step)| step[1] < step[0]),
            second: even && several && wrong == [0],
            last: even && several && wrong == [cycles.len() - 2],
            past: of == Wires
                && cycles
                    .iter()
                    .any(|&cycle| u64::from(cycle) + u64::from(pair.delay) >= 1 << 32),
        }
    }

    fn count(&self) -> usize {
        let faults = [self.odd, self.equal, self.below, self.past];
        faults.into_iter().filter(|&fault| fault).count()
    }

    fn any(&self) -> bool {
        self.count() > 0
    }

    /// The kinds that either recording can be of.
    fn kinds(&self, name: &str) -> [(String, bool); 9] {
        let alone = self.count() == 1;
        let kinds = [
            ("of odd length", self.odd),
            ("of odd length alone", self.odd && alone),
            ("of one number", self.lone),
            ("with a cycle equal to the one before", self.equal),
            (
                "with a cycle equal to the one before alone",
                self.equal && alone,
            ),
            ("with a cycle below the one before", self.below),
            (
                "with a cycle below the one before alone",
                self.below && alone,
            ),
            ("with a wrong cycle second of several", self.second),
            ("with a wrong cycle last of several", self.last),
        ];
        kinds.map(|(what, is)| (format!("{name} {what}"), is))
    }
}

// ---------------------------------------------------------------------------
// Runs.

/// A run, and where it can be cut.
pub struct Run {
    pub policy: Policy,
    pub trace: Vec<u32>,
    pub log: Vec<u32>,
    /// What holds before each trace number, and after the last.
    pub moments: Vec<Moment>,
}

/// What a cut between two calls goes by.
#[derive(Clone, Copy, Debug, PartialEq, Eq)]
pub struct Moment {
    /// How many ticks were made.
    pub cycle: u32,
    /// "where nothing is in flight": no answer is to come. Its column command comes before it.
    pub nothing_in_flight: bool,
}

/// Part of a run's trace and log, and the cycle at which it begins.
#[derive(Clone, Copy, Debug, PartialEq, Eq)]
pub struct Stretch<'a> {
    pub trace: &'a [u32],
    pub log: &'a [u32],
    pub start: u32,
}

/// Long traces show no more of recordings than shorter ones.
const LONGEST_TRACE: usize = 500;

/// So many ticks are enough for all that waits to go, or for what cannot go to be alone.
const LONGEST_DRAIN: usize = 100_000;

impl Run {
    /// The run of a generated folder, unless its policy is refused. One in eight begins so late that
    /// its ticks likely run out.
    pub fn of_seed(seed: u64) -> Option<Run> {
        let folder = generate::folder(seed);
        let (policy, None) = policy::read(&folder.policy) else {
            return None;
        };
        let mut trace = read_trace(&folder.trace).numbers;
        trace.truncate(LONGEST_TRACE);
        // Any other seed would do; the folder's own would repeat its numbers.
        let random = &mut Random::new(!seed);
        let ticks = trace.iter().filter(|&&number| number == 0).count();
        let start = match random.below(8) {
            0 => LAST_CYCLE - random.below(ticks + 40) as u32,
            _ => 0,
        };
        Some(Run::new(policy, start, trace))
    }

    /// A run from a state that is fresh but for its cycle. Ticks are added to the trace until
    /// nothing is in flight, or no more are made.
    pub fn new(policy: Policy, cycle: u32, trace: Vec<u32>) -> Run {
        let (mut state, _) = state::fresh(&policy);
        state.cycle = cycle;
        let mut run = Run {
            policy,
            trace: Vec::new(),
            log: Vec::new(),
            moments: Vec::new(),
        };
        let drain = vec![0; LONGEST_DRAIN];
        for (place, &number) in trace.iter().chain(&drain).enumerate() {
            let moment = Moment {
                cycle: state.cycle,
                nothing_in_flight: state.responses.is_empty(),
            };
            run.moments.push(moment);
            let done = moment.nothing_in_flight || moment.cycle == LAST_CYCLE;
            if place >= trace.len() && done {
                break;
            }
            run.trace.push(number);
            let line = run_line(&run.policy, &mut state, number, Planted::Nothing);
            run.log.extend(line);
        }
        run
    }

    /// The part from one moment to another.
    pub fn stretch(&self, from: usize, to: usize) -> Stretch<'_> {
        Stretch {
            trace: &self.trace[from..to],
            log: &self.log[LINE * from..LINE * to],
            start: self.moments[from].cycle,
        }
    }

    /// The moments at which nothing is in flight.
    pub fn cuts(&self) -> Vec<usize> {
        let moments = self.moments.iter().enumerate();
        let cuts = moments.filter(|(_, moment)| moment.nothing_in_flight);
        cuts.map(|(place, _)| place).collect()
    }
}

/// A log like a run's in which some numbers are others, mostly those of ticks.
pub fn damaged_log(random: &mut Random, trace: &[u32], log: &[u32]) -> Vec<u32> {
    let any = any_log(random, trace);
    let mut damaged = log.to_vec();
    let chance = *random.pick(&[2, 10, 40]);
    for (place, number) in damaged.iter_mut().enumerate() {
        let tick = Word::of(trace[place / LINE]) == Word::Tick;
        if random.percent(if tick { chance } else { chance / 2 }) {
            *number = any[place];
        }
    }
    damaged
}
