//! W-204, "Wires against cores": two recordings held together, and the two recordings of a log.
//!
//! The check lists the events of both recordings, puts them into the order in which they are taken,
//! and looks for the partner of each in the whole of the other recording.

use crate::planted::Planted;
use crate::refusal::Refusal;
use crate::state::LAST_CYCLE;
use crate::trace::{Word, COLUMN_BIT, LINE};

/// "each as pairs of cycle and word": an event has so many numbers.
pub const EVENT: usize = 2;

/// "Labs record activates on the command wires and answers at the cores". The order is the one in
/// which the two are asked, and in which their events are taken.
#[derive(Clone, Copy, Debug, PartialEq, Eq, PartialOrd, Ord)]
pub enum Recording {
    Wires = 1,
    Cores = 2,
}

impl Recording {
    pub const BOTH: [Recording; 2] = [Recording::Wires, Recording::Cores];

    /// The number by which the library for C names it.
    pub fn number(self) -> u32 {
        self as u32
    }
}

// ---------------------------------------------------------------------------
// Whether recordings are sound.

/// The answer to the question which recording is unsound, if one is.
#[derive(Clone, Copy, Debug, PartialEq, Eq)]
pub enum Soundness {
    Sound,
    Unsound(Recording),
}

impl Soundness {
    /// "18 for such a recording, ...; 0 where both are sound"
    pub fn status(self) -> u32 {
        match self {
            Soundness::Sound => 0,
            Soundness::Unsound(_) => Refusal::Recording.number(),
        }
    }
}

/// "A recording with an odd length, a cycle not above the one before, or a due cycle past 32 bits
/// is named by a question of its own". "18 for such a recording, with which one it is, the wires
/// first; 0 where both are sound."
pub fn soundness(wires: &[u32], cores: &[u32], delay: u8) -> Soundness {
    soundness_planted(wires, cores, delay, Planted::Nothing)
}

/// The same with a wrong rule in place. For tests.
pub fn soundness_planted(wires: &[u32], cores: &[u32], delay: u8, planted: Planted) -> Soundness {
    let mut asked = Recording::BOTH;
    // Not the order: a wrong one that tests plant.
    if planted == Planted::CoresNamedFirst {
        asked.reverse();
    }
    let numbers = |of: Recording| match of {
        Recording::Wires => wires,
        Recording::Cores => cores,
    };
    let mut asked = asked.into_iter();
    match asked.find(|&of| !is_sound(of, numbers(of), delay, planted)) {
        None => Soundness::Sound,
        Some(of) => Soundness::Unsound(of),
    }
}

/// Whether a recording has none of the three faults. Words are not looked at.
fn is_sound(of: Recording, numbers: &[u32], delay: u8, planted: Planted) -> bool {
    let cycles: Vec<u32> = numbers.iter().copied().step_by(EVENT).collect();
    let rises = |before: u32, after: u32| match planted {
        // Not a rule: a wrong one that tests plant.
        Planted::CyclesMayRepeat => before <= after,
        _ => before < after,
    };
    // "an odd length"
    numbers.len() % EVENT == 0
        // "a cycle not above the one before"
        && cycles.windows(2).all(|pair| rises(pair[0], pair[1]))
        // "a due cycle past 32 bits"; an answer is due at its own cycle, which is never past them.
        && cycles.iter().all(|&cycle| due(of, cycle, delay) <= u64::from(u32::MAX))
}

// ---------------------------------------------------------------------------
// The check.

/// An activate that was recorded on the wires, or an answer that was recorded at the cores.
#[derive(Clone, Copy, Debug, PartialEq, Eq)]
pub struct Event {
    pub of: Recording,
    /// The place of its cycle in the recording.
    pub at: usize,
    /// "the cycle their answer is due", which may need more than 32 bits.
    pub due: u64,
    pub word: u32,
}

/// "the cycle their answer is due": an activate's answer is due the delay after it, and an answer
/// at its own cycle.
fn due(of: Recording, cycle: u32, delay: u8) -> u64 {
    match of {
        Recording::Wires => u64::from(cycle) + u64::from(delay),
        Recording::Cores => u64::from(cycle),
    }
}

/// The events of a recording, as they stand in it. A number left over at its end is none.
pub fn events(of: Recording, numbers: &[u32], delay: u8) -> Vec<Event> {
    let pairs = numbers.chunks_exact(EVENT).enumerate();
    let event = |(place, pair): (usize, &[u32])| Event {
        of,
        at: EVENT * place,
        due: due(of, pair[0], delay),
        word: pair[1],
    };
    pairs.map(event).collect()
}

/// "An activate and an answer are partners if the words are equal and the answer comes the answer
/// delay (a byte handed in) later": just when the activate's is due.
pub fn are_partners(one: &Event, other: &Event) -> bool {
    one.of != other.of && one.word == other.word && one.due == other.due
}

/// The first event without a partner. "Events are taken in the order of the cycle their answer is
/// due, an activate before an answer where a due cycle is shared but the words differ." Where the
/// words are equal too, the two are partners, and it does not matter which is taken first.
fn first_without_partner(
    wires: &[u32],
    cores: &[u32],
    delay: u8,
    planted: Planted,
) -> Option<Event> {
    let activates = events(Recording::Wires, wires, delay);
    let answers = events(Recording::Cores, cores, delay);
    let mut taken = match planted {
        // Not the order: a wrong one that tests plant.
        Planted::AnswerTakenFirst => [&answers[..], &activates].concat(),
        _ => [&activates[..], &answers].concat(),
    };
    // What is due in one cycle stays in the order in which it stands here.
    taken.sort_by_key(|event| event.due);
    let others = |event: &Event| match event.of {
        Recording::Wires => &answers,
        Recording::Cores => &activates,
    };
    let has_partner = |event: &Event| others(event).iter().any(|other| are_partners(event, other));
    taken.into_iter().find(|event| !has_partner(event))
}

/// What the check and the question say of two recordings.
#[derive(Clone, Copy, Debug, PartialEq, Eq)]
pub struct Matched {
    /// 0, or 18 where a recording is unsound.
    pub status: u32,
    /// The unsound recording, or the one that holds the first event without a partner; none where
    /// all have partners.
    pub which: Option<Recording>,
    /// The place in that recording where the rest begins; the length of the wires' where the rest
    /// is the empty one of theirs.
    pub at: usize,
}

/// "The check hands back the rest of whichever recording holds the first event without a partner,
/// beginning at it; if all have partners, an empty rest of the wires'." An unsound recording "gets
/// that empty rest".
pub fn match_recordings(wires: &[u32], cores: &[u32], delay: u8) -> Matched {
    match_planted(wires, cores, delay, Planted::Nothing)
}

/// The same with a wrong rule in place. For tests.
pub fn match_planted(wires: &[u32], cores: &[u32], delay: u8, planted: Planted) -> Matched {
    let empty_rest = wires.len();
    let soundness = soundness_planted(wires, cores, delay, planted);
    let status = soundness.status();
    if let Soundness::Unsound(of) = soundness {
        return Matched {
            status,
            which: Some(of),
            at: empty_rest,
        };
    }
    match first_without_partner(wires, cores, delay, planted) {
        None => Matched {
            status,
            which: None,
            at: empty_rest,
        },
        Some(event) => Matched {
            status,
            which: Some(event.of),
            at: match planted {
                // Not a rule: a wrong one that tests plant.
                Planted::RestOneEventLate => event.at + EVENT,
                _ => event.at,
            },
        },
    }
}

/// The rest that the check hands back: a part of one of the two recordings.
pub fn rest<'a>(wires: &'a [u32], cores: &'a [u32], delay: u8) -> &'a [u32] {
    let matched = match_recordings(wires, cores, delay);
    match matched.which {
        Some(Recording::Cores) if matched.status == 0 => &cores[matched.at..],
        _ => &wires[matched.at..],
    }
}

// ---------------------------------------------------------------------------
// The recordings of a log.

/// One of the two recordings of a trace's log that begins at a cycle, written to the start of
/// `out`, with the count of numbers written. Refused with 17, 12 or 16, asked in this order, it
/// hands back a count of 0 and writes nothing. Numbers past the count stay.
///
/// The log may be any numbers; nothing asks that a run wrote it.
pub fn recording(
    of: Recording,
    trace: &[u32],
    log: &[u32],
    start: u32,
    out: &mut [u32],
) -> (usize, Option<Refusal>) {
    match recording_planted(of, trace, log, start, out, Planted::Nothing) {
        Ok(count) => (count, None),
        Err(refusal) => (0, Some(refusal)),
    }
}

/// The same with a wrong rule in place. For tests.
pub fn recording_planted(
    of: Recording,
    trace: &[u32],
    log: &[u32],
    start: u32,
    out: &mut [u32],
    planted: Planted,
) -> Result<usize, Refusal> {
    // 17: "log to extract not 4 times the trace".
    if log.len() != LINE * trace.len() {
        return Err(Refusal::LogNotOfTrace);
    }
    let ticks = ticks_made(trace, log, planted);
    // 12: "a tick after 16,777,215 ticks".
    if u64::from(start) + ticks.len() as u64 > u64::from(LAST_CYCLE) {
        return Err(Refusal::NoMoreTicks);
    }
    let mut numbers = Vec::new();
    for (cycle, line) in (start..).zip(ticks) {
        if let Some(word) = recorded_word(of, line, planted) {
            numbers.extend([cycle, word]);
        }
    }
    // 16: "extract shorter than what is kept".
    if out.len() < numbers.len() {
        return Err(Refusal::ExtractTooShort);
    }
    out[..numbers.len()].copy_from_slice(&numbers);
    Ok(numbers.len())
}

/// The lines of the ticks that were made, in order. A line does not say whether it is a tick's: the
/// trace does. A tick that is refused is not made, and "a refused call hands back the state it was
/// given", with its cycle.
fn ticks_made<'a>(trace: &[u32], log: &'a [u32], planted: Planted) -> Vec<&'a [u32]> {
    let lines = trace.iter().zip(log.chunks_exact(LINE));
    let made = lines.filter(|&(&number, line)| {
        let taken = line[0] == 0;
        match planted {
            // Not rules: wrong ones that tests plant.
            Planted::RefusedTicksCounted => Word::of(number) == Word::Tick,
            Planted::OffersCountedAsTicks => taken && Word::of(number) != Word::Malformed,
            _ => taken && Word::of(number) == Word::Tick,
        }
    });
    made.map(|(_, line)| line).collect()
}

/// What a recording has of a tick: "activates on the command wires and answers at the cores".
/// "A command or answer is the offer's word, with bit 30 set for a column command; 0 is none."
fn recorded_word(of: Recording, line: &[u32], planted: Planted) -> Option<u32> {
    let (command, response) = (line[1], line[2]);
    let column = command & COLUMN_BIT != 0;
    let word = match of {
        // Not a rule: a wrong one that tests plant.
        Recording::Wires if planted == Planted::ColumnsAsActivates => command,
        Recording::Wires if column => 0,
        Recording::Wires => command,
        Recording::Cores => response,
    };
    Some(word).filter(|&word| word != 0)
}
