//! Wrong checks of W-204's recordings, and wrong recordings of logs. They exist so that the tests can
//! show that they find them.

use vigambul_model::recordings::Recording::{self, Cores, Wires};
use vigambul_model::trace::{Word, COLUMN_BIT, LINE, OFFER_BIT};

use crate::calls::RecordingCalls;

/// Where a call departs from W-204.
#[derive(Clone, Copy, Debug, PartialEq, Eq)]
pub enum Wrong {
    /// Nowhere.
    Nothing,

    // Which recordings are sound, and what is said of one that is not.
    /// A number left over at the end is not looked at.
    TakesOddLengths,
    /// Of the cores neither the length nor the cycles are asked.
    AsksWiresAlone,
    /// Each cycle is to be above the first, and not above the one before.
    AsksCyclesByTheFirst,
    /// The last cycle is not asked.
    LeavesOutTheLastCycle,
    /// The recording is asked up to the first event without a partner.
    AsksUpToTheRest,
    /// A due cycle is kept in 32 bits, and none is past them.
    WrapsDueCycles,
    /// A due cycle of 2^32 - 1 counts as past 32 bits.
    RefusesTheLastDueCycle,
    /// The delay is added to the cycles of the cores too, where they are asked.
    AddsTheDelayToCores,
    RefusesEmptyRecordings,
    RefusesWordsOfZero,
    NamesNoUnsoundRecording,
    /// 3 where both are unsound.
    NamesBothUnsound,
    /// The empty rest of cores that are unsound is their own.
    EndsUnsoundCoresAtTheirEnd,
    BeginsUnsoundAtTheStart,

    // The check.
    /// Words alone make partners.
    IgnoresCycles,
    /// Cycles alone make partners.
    IgnoresWords,
    /// The tags of words alone are compared.
    ComparesTags,
    DelayInSevenBits,
    /// An activate comes the delay after its answer.
    DelayTheOtherWay,
    /// Events are taken in the order of their own cycles.
    TakesByCycles,
    AsksActivatesAlone,
    AsksAnswersAlone,
    /// `at` is the number of events before the rest.
    CountsEventsBefore,
    /// The rest begins at the word of the event.
    BeginsAtTheWord,
    /// Where all have partners, the rest is the cores' empty one.
    EndsInTheCores,
    /// Where all have partners, the wires are named.
    NamesWiresWhereAllHavePartners,

    // Recordings of a log.
    /// Each call writes the other's recording.
    Exchanges,
    /// A word in an offer's line is recorded too, at the cycle of the next tick.
    LooksAtLinesOfOffers,
    /// Only a status of 12 is a refused tick's.
    TakesOtherStatuses,
    CyclesFromZero,
    CyclesFromOne,
    /// A cycle is the number of the line.
    CyclesByLines,
    LeavesOutWordsWithoutBit31,
    /// A column command's word is left out of the cores' recording too.
    LeavesOutAnswersWithBit30,
    /// Bits 22 and 23 are cut from words: so they were before W-206.
    CutsRanks,
    /// The count is of events.
    CountsEvents,
    WritesPastTheCount,
    WritesBeforeItRefuses,
    CountsWhereItRefuses,
    TakesLogsTooLong,
    /// 12 where the start itself is too large, whatever the ticks.
    AsksTheStartAlone,
    /// 12 where the last tick would be number 16,777,214 already.
    RefusesTheLastTick,
    /// 12 not before there are two ticks too many.
    TakesOneTickMore,
    /// The start and the ticks are added in 32 bits.
    WrapsTheSum,
    AsksTicksBeforeLog,
    AsksRoomBeforeTicks,
    AsksRoomBeforeLog,
    /// 16 where there is not room for two numbers for each trace number.
    AsksRoomForAll,
    /// 16 where there is not room for two numbers for each tick.
    AsksRoomForTicks,
}

/// Wrong checks, which a comparison of pairs of recordings must find.
pub const CHECKS: [Wrong; 26] = [
    Wrong::TakesOddLengths,
    Wrong::AsksWiresAlone,
    Wrong::AsksCyclesByTheFirst,
    Wrong::LeavesOutTheLastCycle,
    Wrong::AsksUpToTheRest,
    Wrong::WrapsDueCycles,
    Wrong::RefusesTheLastDueCycle,
    Wrong::AddsTheDelayToCores,
    Wrong::RefusesEmptyRecordings,
    Wrong::RefusesWordsOfZero,
    Wrong::NamesNoUnsoundRecording,
    Wrong::NamesBothUnsound,
    Wrong::EndsUnsoundCoresAtTheirEnd,
    Wrong::BeginsUnsoundAtTheStart,
    Wrong::IgnoresCycles,
    Wrong::IgnoresWords,
    Wrong::ComparesTags,
    Wrong::DelayInSevenBits,
    Wrong::DelayTheOtherWay,
    Wrong::TakesByCycles,
    Wrong::AsksActivatesAlone,
    Wrong::AsksAnswersAlone,
    Wrong::CountsEventsBefore,
    Wrong::BeginsAtTheWord,
    Wrong::EndsInTheCores,
    Wrong::NamesWiresWhereAllHavePartners,
];

/// Wrong recordings, which a comparison of logs must find.
pub const RECORDINGS: [Wrong; 23] = [
    Wrong::Exchanges,
    Wrong::LooksAtLinesOfOffers,
    Wrong::TakesOtherStatuses,
    Wrong::CyclesFromZero,
    Wrong::CyclesFromOne,
    Wrong::CyclesByLines,
    Wrong::LeavesOutWordsWithoutBit31,
    Wrong::LeavesOutAnswersWithBit30,
    Wrong::CutsRanks,
    Wrong::CountsEvents,
    Wrong::WritesPastTheCount,
    Wrong::WritesBeforeItRefuses,
    Wrong::CountsWhereItRefuses,
    Wrong::TakesLogsTooLong,
    Wrong::AsksTheStartAlone,
    Wrong::RefusesTheLastTick,
    Wrong::TakesOneTickMore,
    Wrong::WrapsTheSum,
    Wrong::AsksTicksBeforeLog,
    Wrong::AsksRoomBeforeTicks,
    Wrong::AsksRoomBeforeLog,
    Wrong::AsksRoomForAll,
    Wrong::AsksRoomForTicks,
];

/// Calls that are wrong in one way.
pub struct WithWrongRecordings(pub Wrong);

/// An event by its due cycle, its recording, its place, its own cycle and its word.
type Event = (u64, Recording, usize, u32, u32);

impl WithWrongRecordings {
    fn is(&self, wrong: Wrong) -> bool {
        self.0 == wrong
    }

    fn delay(&self, delay: u8) -> u64 {
        match self.0 {
            Wrong::DelayInSevenBits => u64::from(delay & 0x7F),
            _ => u64::from(delay),
        }
    }

    fn events(&self, of: Recording, numbers: &[u32], delay: u8) -> Vec<Event> {
        let delayed = match self.0 {
            Wrong::DelayTheOtherWay => of == Cores,
            _ => of == Wires,
        };
        let event = |(place, pair): (usize, &[u32])| {
            let added = if delayed { self.delay(delay) } else { 0 };
            let due = u64::from(pair[0]) + added;
            let due = match self.0 {
                Wrong::WrapsDueCycles => due & 0xFFFF_FFFF,
                _ => due,
            };
            (due, of, 2 * place, pair[0], pair[1])
        };
        numbers.chunks_exact(2).enumerate().map(event).collect()
    }

    /// Whether a recording is sound, asked up to a place.
    fn is_sound(&self, of: Recording, numbers: &[u32], delay: u8, end: usize) -> bool {
        if of == Cores && self.is(Wrong::AsksWiresAlone) {
            return true;
        }
        if numbers.is_empty() {
            return !self.is(Wrong::RefusesEmptyRecordings);
        }
        if numbers.len() % 2 != 0 && !self.is(Wrong::TakesOddLengths) {
            return false;
        }
        let last = match self.0 {
            Wrong::RefusesTheLastDueCycle => u64::from(u32::MAX) - 1,
            _ => u64::from(u32::MAX),
        };
        let added = of == Wires || self.is(Wrong::AddsTheDelayToCores);
        let mut places = (0..numbers.len() / 2 * 2).step_by(2);
        places.all(|place| {
            let before = match self.0 {
                Wrong::AsksCyclesByTheFirst => 0,
                _ => place.saturating_sub(2),
            };
            let unasked = self.is(Wrong::LeavesOutTheLastCycle) && place + 2 >= numbers.len();
            let rises = place == 0 || numbers[before] < numbers[place] || unasked;
            let due = u64::from(numbers[place]) + if added { u64::from(delay) } else { 0 };
            let fits = due <= last || self.is(Wrong::WrapsDueCycles);
            let word = numbers[place + 1] != 0 || !self.is(Wrong::RefusesWordsOfZero);
            place > end || rises && fits && word
        })
    }

    fn are_partners(&self, one: &Event, other: &Event) -> bool {
        let words = match self.0 {
            Wrong::IgnoresWords => true,
            Wrong::ComparesTags => one.4 as u16 == other.4 as u16,
            _ => one.4 == other.4,
        };
        words && (one.0 == other.0 || self.is(Wrong::IgnoresCycles))
    }

    /// The recording and the place of the first event without a partner.
    fn first(&self, wires: &[u32], cores: &[u32], delay: u8) -> Option<(Recording, usize)> {
        let activates = self.events(Wires, wires, delay);
        let answers = self.events(Cores, cores, delay);
        let mut taken = [&activates[..], &answers].concat();
        match self.0 {
            Wrong::TakesByCycles => taken.sort_by_key(|event| event.3),
            _ => taken.sort_by_key(|event| event.0),
        }
        let alone = |event: &&Event| {
            let others = match event.1 {
                Wires => &answers,
                Cores => &activates,
            };
            !others.iter().any(|other| self.are_partners(event, other))
        };
        let asked = |event: &&Event| match self.0 {
            Wrong::AsksActivatesAlone => event.1 == Wires,
            Wrong::AsksAnswersAlone => event.1 == Cores,
            _ => true,
        };
        let first = taken.iter().filter(asked).find(alone);
        first.map(|event| (event.1, event.2))
    }

    /// What is recorded of a tick.
    fn word(&self, of: Recording, line: &[u32]) -> Option<u32> {
        let of = match (self.0, of) {
            (Wrong::Exchanges, Wires) => Cores,
            (Wrong::Exchanges, Cores) => Wires,
            _ => of,
        };
        let word = match of {
            Wires => line[1],
            Cores => line[2],
        };
        let column = word & COLUMN_BIT != 0;
        let left_out = match self.0 {
            Wrong::LeavesOutAnswersWithBit30 => column,
            Wrong::LeavesOutWordsWithoutBit31 if word & OFFER_BIT == 0 => true,
            _ => of == Wires && column,
        };
        let word = match self.0 {
            Wrong::CutsRanks => word & !(3 << 22),
            _ => word,
        };
        Some(word).filter(|&word| word != 0 && !left_out)
    }

    /// The numbers of a recording, and the number of ticks.
    fn recorded(&self, of: Recording, trace: &[u32], log: &[u32], start: u32) -> (Vec<u32>, usize) {
        let (mut numbers, mut ticks) = (Vec::new(), 0);
        let first = match self.0 {
            Wrong::CyclesFromZero => 0,
            Wrong::CyclesFromOne => start.wrapping_add(1),
            _ => start,
        };
        for (place, (&number, line)) in trace.iter().zip(log.chunks_exact(LINE)).enumerate() {
            let made = match self.0 {
                Wrong::TakesOtherStatuses => line[0] != 12,
                _ => line[0] == 0,
            };
            let tick = Word::of(number) == Word::Tick && made;
            let offer = matches!(Word::of(number), Word::Offer(_));
            let looked_at = tick || offer && self.is(Wrong::LooksAtLinesOfOffers);
            if !looked_at {
                continue;
            }
            let after = match self.0 {
                Wrong::CyclesByLines => place,
                _ => ticks,
            };
            if let Some(word) = self.word(of, line) {
                numbers.extend([first.wrapping_add(after as u32), word]);
            }
            ticks += usize::from(tick);
        }
        (numbers, ticks)
    }
}

impl RecordingCalls for WithWrongRecordings {
    fn match_recordings(&self, wires: &[u32], cores: &[u32], delay: u8) -> (u32, u32, usize) {
        let first = self.first(wires, cores, delay);
        let end = |of: Recording| match first {
            Some((other, at)) if self.is(Wrong::AsksUpToTheRest) && other == of => at,
            _ => usize::MAX,
        };
        let sound = [(Wires, wires), (Cores, cores)]
            .map(|(of, numbers)| self.is_sound(of, numbers, delay, end(of)));
        if sound != [true, true] {
            let which = match (self.0, sound) {
                (Wrong::NamesNoUnsoundRecording, _) => 0,
                (Wrong::NamesBothUnsound, [false, false]) => 3,
                (_, [false, _]) => 1,
                _ => 2,
            };
            let at = match self.0 {
                Wrong::EndsUnsoundCoresAtTheirEnd if which == 2 => cores.len(),
                Wrong::BeginsUnsoundAtTheStart => 0,
                _ => wires.len(),
            };
            return (18, which, at);
        }
        match (first, self.0) {
            (None, Wrong::EndsInTheCores) => (0, 2, cores.len()),
            (None, Wrong::NamesWiresWhereAllHavePartners) => (0, 1, wires.len()),
            (None, _) => (0, 0, wires.len()),
            (Some((of, at)), Wrong::CountsEventsBefore) => (0, of.number(), at / 2),
            (Some((of, at)), Wrong::BeginsAtTheWord) => (0, of.number(), at + 1),
            (Some((of, at)), _) => (0, of.number(), at),
        }
    }

    fn recording(
        &self,
        of: Recording,
        trace: &[u32],
        log: &[u32],
        start: u32,
        out: &mut [u32],
    ) -> (usize, u32) {
        let (numbers, ticks) = self.recorded(of, trace, log, start);
        let count = numbers.len();
        let lines = LINE * trace.len();
        let wrong_log = match self.0 {
            Wrong::TakesLogsTooLong => log.len() < lines,
            _ => log.len() != lines,
        };
        let sum = match self.0 {
            Wrong::AsksTheStartAlone => u64::from(start),
            Wrong::WrapsTheSum => u64::from(start.wrapping_add(ticks as u32)),
            _ => u64::from(start) + ticks as u64,
        };
        let last = match self.0 {
            Wrong::RefusesTheLastTick => 16_777_214,
            Wrong::TakesOneTickMore => 16_777_216,
            _ => 16_777_215,
        };
        let needed = match self.0 {
            Wrong::AsksRoomForAll => 2 * trace.len(),
            Wrong::AsksRoomForTicks => 2 * ticks,
            _ => count,
        };
        let log_number = wrong_log.then_some(17);
        let ticks_number = (sum > last).then_some(12);
        let room_number = (out.len() < needed).then_some(16);
        let refused = match self.0 {
            Wrong::AsksTicksBeforeLog => ticks_number.or(log_number).or(room_number),
            Wrong::AsksRoomBeforeTicks => log_number.or(room_number).or(ticks_number),
            Wrong::AsksRoomBeforeLog => room_number.or(log_number).or(ticks_number),
            _ => log_number.or(ticks_number).or(room_number),
        };
        if let Some(number) = refused {
            if number == 16 && self.is(Wrong::WritesBeforeItRefuses) {
                let room = out.len();
                out.copy_from_slice(&numbers[..room]);
            }
            return match self.0 {
                Wrong::CountsWhereItRefuses => (count, number),
                _ => (0, number),
            };
        }
        out[..count].copy_from_slice(&numbers);
        if self.is(Wrong::WritesPastTheCount) {
            out[count..].fill(0);
        }
        match self.0 {
            Wrong::CountsEvents => (count / 2, 0),
            _ => (count, 0),
        }
    }
}
