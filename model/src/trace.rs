//! "Trace, log and extract": trace numbers, log numbers and the run.

use crate::planted::Planted;
use crate::policy::Policy;
use crate::refusal::Refusal;
use crate::state::{check_range_planted, Request, State};
use crate::tick::{offer_in_range, tick_in_range, TickRecord, Turn, Wires};

/// "Each trace number gives four log numbers: status, command, answer, turn".
pub const LINE: usize = 4;
/// "An offer has bit 31 set".
pub const OFFER_BIT: u32 = 1 << 31;
/// "with bit 30 set for a column command"
pub const COLUMN_BIT: u32 = 1 << 30;
/// "plus 256 if the dead time is dropped"
pub const ELIDED: u32 = 256;
/// W-212: "The turn number in the log carries in bits 16 to 20 how many classes the walk tried".
pub const TRIED_SHIFT: u32 = 16;
pub const TRIED_BITS: u32 = 31 << TRIED_SHIFT;

/// "other bits 0": those that no field of an offer takes. W-206: "A trace number is no
/// longer malformed for its bits 22 and 23."
pub(crate) const STRAY_BITS: [u32; 2] = [29, 30];
const UNUSED_BITS: u32 = 1 << STRAY_BITS[0] | 1 << STRAY_BITS[1];

/// The three forms of a trace number.
#[derive(Clone, Copy, Debug, PartialEq, Eq)]
pub enum Word {
    Tick,
    Offer(Request),
    /// "a trace number of neither form"
    Malformed,
}

impl Word {
    /// "0 is a tick. An offer has bit 31 set, class in bits 24 to 28, kind in 20
    /// and 21, bank in 16 to 19, tag in 0 to 15, other bits 0." W-206: "Trace, command
    /// and answer words carry the rank in bits 22 and 23".
    ///
    /// Whether the class exists, and bank, kind and rank are in range, is not a
    /// matter of form: 9 and 10 ask that.
    pub fn of(number: u32) -> Word {
        if number == 0 {
            Word::Tick
        } else if number & OFFER_BIT != 0 && number & UNUSED_BITS == 0 {
            Word::Offer(Request {
                class: class_bits(number),
                kind: (number >> 20 & 0x3) as u8,
                rank: (number >> 22 & 0x3) as u8,
                bank: (number >> 16 & 0xF) as u8,
                tag: (number & 0xFFFF) as u16,
            })
        } else {
            Word::Malformed
        }
    }
}

/// "class in bits 24 to 28"
pub fn class_bits(number: u32) -> u8 {
    (number >> 24 & 0x1F) as u8
}

/// The trace number of an offer.
pub fn offer_word(request: &Request) -> u32 {
    OFFER_BIT
        | u32::from(request.class) << 24
        | u32::from(request.rank) << 22
        | u32::from(request.kind) << 20
        | u32::from(request.bank) << 16
        | u32::from(request.tag)
}

/// "Status (0 or the number below)"; "after an offer or a refusal the last
/// three are 0".
fn status_line(status: u32) -> [u32; LINE] {
    [status, 0, 0, 0]
}

/// The four log numbers of a tick that is not refused.
pub fn tick_line(record: &TickRecord) -> [u32; LINE] {
    [
        0,
        command_number(&record.wires),
        record.response.as_ref().map_or(0, offer_word),
        record.turn.as_ref().map_or(0, turn_word),
    ]
}

/// "A command or answer is the offer's word, with bit 30 set for a column
/// command; 0 is none."
fn command_number(wires: &Wires) -> u32 {
    match wires {
        Wires::Nothing => 0,
        Wires::Activate(request) => offer_word(request),
        Wires::Column(request) => offer_word(request) | COLUMN_BIT,
    }
}

/// "Turn is 0 unless a turn starts, then 1 + owner, plus 256 if the dead time is
/// dropped." W-212: "in bits 16 to 20 how many classes the walk tried, the owner counted".
/// That is 1 to 16, so that no bit is lost.
fn turn_word(turn: &Turn) -> u32 {
    let elided = if turn.elided { ELIDED } else { 0 };
    1 + turn.owner as u32 + elided + (turn.tried << TRIED_SHIFT)
}

/// How many classes were tried, of a turn number other than 0.
pub fn tried(turn: u32) -> u32 {
    (turn & TRIED_BITS) >> TRIED_SHIFT
}

/// A run over a trace. "Order: runs 13, 15"; refused, it makes no call and
/// writes nothing. Log numbers past four times the trace stay.
pub fn run(
    policy: &Policy,
    state: &mut State,
    trace: &[u32],
    log: &mut [u32],
) -> Result<(), Refusal> {
    run_planted(policy, state, trace, log, Planted::Nothing)
}

/// The same run with a wrong rule in place. For tests.
pub fn run_planted(
    policy: &Policy,
    state: &mut State,
    trace: &[u32],
    log: &mut [u32],
    planted: Planted,
) -> Result<(), Refusal> {
    // 13 is asked once: a tick or offer on a state in range leaves one.
    check_range_planted(policy, state, planted)?;
    // 15: "log shorter than 4 times the trace".
    if log.len() < LINE * trace.len() {
        // Not a rule: a leak that tests plant.
        if planted == Planted::RefusedRunMakesItsCalls {
            for &number in trace {
                run_line(policy, state, number, planted);
            }
        }
        return Err(Refusal::LogTooShort);
    }
    for (&number, line) in trace.iter().zip(log.chunks_exact_mut(LINE)) {
        line.copy_from_slice(&run_line(policy, state, number, planted));
    }
    // Not a rule: a leak that tests plant.
    if planted == Planted::TriedOfTheTurnBefore {
        carry_tried_over(&mut log[..LINE * trace.len()]);
    }
    // Not a rule: a leak that tests plant.
    let last = trace.last().map(|&number| Word::of(number));
    if planted == Planted::RunAnswersForItsLastWord && last == Some(Word::Malformed) {
        return Err(Refusal::Malformed);
    }
    Ok(())
}

/// One trace number of a run. "A run goes on after a refused line"; "9 to 12 and
/// 14 inside a run write their log line".
pub(crate) fn run_line(
    policy: &Policy,
    state: &mut State,
    number: u32,
    planted: Planted,
) -> [u32; LINE] {
    let line = match Word::of(number) {
        Word::Tick => tick_in_range(policy, state, planted).map(|record| tick_line(&record)),
        Word::Offer(request) => {
            offer_in_range(policy, state, request, planted).map(|()| status_line(0))
        }
        Word::Malformed => Err(Refusal::Malformed),
    };
    line.unwrap_or_else(|refusal| status_line(refusal.number()))
}

/// For [`Planted::TriedOfTheTurnBefore`] only.
fn carry_tried_over(log: &mut [u32]) {
    let mut before = 0;
    let turns = log.chunks_exact_mut(LINE).map(|line| &mut line[3]);
    for turn in turns.filter(|turn| **turn != 0) {
        let own = *turn & TRIED_BITS;
        *turn = *turn - own + before;
        before = own;
    }
}
