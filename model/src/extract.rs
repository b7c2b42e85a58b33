//! "The extract for class L", and W-211's for a set of classes: what they may learn from a log.

use crate::class_set::ClassSet;
use crate::masks::class_mask;
use crate::planted::Planted;
use crate::policy::{Policy, MOST_CLASSES};
use crate::refusal::Refusal;
use crate::trace::{class_bits, Word, LINE, TRIED_BITS};

/// "such an owner's turn number becomes 512"
pub const HIDDEN_TURN: u32 = 512;

/// The extract of a trace's log for a class, with the count of numbers written. W-211: "A set of
/// one class gives the extract as it was."
pub fn extract(
    policy: &Policy,
    class: usize,
    trace: &[u32],
    log: &[u32],
    out: &mut [u32],
) -> (usize, Option<Refusal>) {
    extract_set(policy, ClassSet::of(class), trace, log, out)
}

/// W-211: "An extract can now be had for a set of classes".
/// "Order: extracts 13, 9, 17, 16"; "a refused extract hands back a count of 0"
/// and writes nothing. Numbers past the count stay.
///
/// The log may be any numbers; nothing asks that a run wrote it.
pub fn extract_set(
    policy: &Policy,
    classes: ClassSet,
    trace: &[u32],
    log: &[u32],
    out: &mut [u32],
) -> (usize, Option<Refusal>) {
    match extract_set_planted(policy, classes, trace, log, out, Planted::Nothing) {
        Ok(count) => (count, None),
        Err(refusal) => (0, Some(refusal)),
    }
}

/// The same extract, with a wrong rule in place or none.
pub fn extract_set_planted(
    policy: &Policy,
    classes: ClassSet,
    trace: &[u32],
    log: &[u32],
    out: &mut [u32],
    planted: Planted,
) -> Result<usize, Refusal> {
    // The policy is all that 13 can ask of an extract: no state is handed in.
    if !policy.in_range_planted(planted) {
        return Err(Refusal::OutOfRange);
    }
    let seen = Seen::by_planted(policy, classes, planted);
    // 16: "extract shorter than what is kept". Counted first, since a refused
    // extract writes nothing.
    let count = LINE * trace.iter().filter(|&&number| seen.keeps(number)).count();
    let room = match out.len() < count {
        true => Err(Refusal::ExtractTooShort),
        false => Ok(count),
    };
    // W-211: "A set with a class not below n is refused with 9."
    if !classes.is_of(policy) {
        // Not the order: a wrong one that tests plant.
        if planted == Planted::RoomBeforeClass {
            room?;
        }
        return Err(Refusal::Class);
    }
    // 17: "log to extract not 4 times the trace".
    if log.len() != LINE * trace.len() {
        return Err(Refusal::LogNotOfTrace);
    }
    room?;
    let kept_lines = trace
        .iter()
        .zip(log.chunks_exact(LINE))
        .filter(|&(&number, _)| seen.keeps(number));
    for ((&number, line), place) in kept_lines.zip(out.chunks_exact_mut(LINE)) {
        place.copy_from_slice(&shown_line(seen, number, line, planted));
    }
    Ok(count)
}

/// The classes that a set of classes may see, as bits of a row.
#[derive(Clone, Copy, Debug, PartialEq, Eq)]
pub struct Seen(u16);

impl Seen {
    /// W-211: "kept is whatever may flow to at least one of them." By this rule lists are struck
    /// and states compared, whatever is planted.
    pub fn by(policy: &Policy, classes: ClassSet) -> Seen {
        Seen::by_planted(policy, classes, Planted::Nothing)
    }

    fn by_planted(policy: &Policy, classes: ClassSet, planted: Planted) -> Seen {
        let seen = (0..MOST_CLASSES).filter(|&other| is_seen(policy, classes, other, planted));
        Seen(seen.map(class_mask).sum())
    }

    /// Whether a class is seen; one that does not exist is not.
    pub fn has(self, class: usize) -> bool {
        self.0 & class_mask(class) != 0
    }

    /// Whether the four numbers of a trace number are kept. "The extract for class L drops the
    /// four numbers of malformed words and of offers whose class may not flow to L or does not
    /// exist." Ticks, refused ones too, are kept. W-211: "The empty set keeps the ticks".
    pub fn keeps(self, number: u32) -> bool {
        match Word::of(number) {
            Word::Tick => true,
            Word::Offer(request) => self.has(usize::from(request.class)),
            Word::Malformed => false,
        }
    }
}

/// Whether a class may flow to at least one member of a set.
fn is_seen(policy: &Policy, classes: ClassSet, other: usize, planted: Planted) -> bool {
    let flows_to = |member: usize| flows(policy, other, member, planted);
    let to_one = classes.members().any(flows_to);
    let exists = other < policy.class_count();
    match planted {
        // Not rules: wrong ones that tests plant.
        Planted::KeptForEveryMember => exists && classes.members().all(flows_to),
        Planted::LeastAlwaysKept => to_one || other == policy.least(),
        Planted::EmptySetAsAll => to_one || classes.is_empty() && exists,
        Planted::SetAsItsJoin => join(policy, classes).map_or(to_one, flows_to),
        _ => to_one,
    }
}

/// Whether one class may flow to another, by the policy or by W-205's masks gone wrong.
fn flows(policy: &Policy, from: usize, to: usize, planted: Planted) -> bool {
    let flows = |from: usize| policy.flows(from, to);
    match (planted, from) {
        // Not rules: leaks that tests plant.
        (Planted::MaskOf5With6, 6) => flows(6) || flows(5),
        (Planted::MasksOf9And10Swapped, 9) => flows(10),
        (Planted::MasksOf9And10Swapped, 10) => flows(9),
        _ => flows(from),
    }
}

/// For [`Planted::SetAsItsJoin`] only: of the classes that all members may flow to, the one that
/// is below the others, if the set has members and there is such a class.
fn join(policy: &Policy, classes: ClassSet) -> Option<usize> {
    let above_all = |&upper: &usize| classes.members().all(|member| policy.flows(member, upper));
    let uppers = || (0..policy.class_count()).filter(above_all);
    let below_others = |&lower: &usize| uppers().all(|upper| policy.flows(lower, upper));
    let lowest = uppers().find(below_others);
    lowest.filter(|_| !classes.is_empty())
}

/// The four numbers of a kept line, as they are seen. Only ticks are changed: an
/// offer that is kept belongs to a class that is seen, status and all.
fn shown_line(seen: Seen, number: u32, line: &[u32], planted: Planted) -> [u32; LINE] {
    let [status, command, response, turn] = [line[0], line[1], line[2], line[3]];
    if Word::of(number) == Word::Tick {
        [
            status,
            shown_word(seen, command),
            shown_word(seen, response),
            shown_turn(seen, turn, planted),
        ]
    } else {
        [status, command, response, turn]
    }
}

/// "On ticks, a command or answer of another such class becomes 0"; W-211: "The empty set keeps
/// the ticks, with no commands or answers". The class is read from its bits, whatever the other
/// bits hold, so that every number a log may have is decided.
fn shown_word(seen: Seen, word: u32) -> u32 {
    match seen.has(usize::from(class_bits(word))) {
        true => word,
        false => 0,
    }
}

/// "such an owner's turn number becomes 512; a turn number of 0 stays 0. The
/// owner is the turn number's low 8 bits less 1; a nonzero turn number that so
/// names no class below n becomes 512 too." W-211, of the empty set: "and 512 at each turn
/// start". W-212: "Extracts still show 512 for a turn that is not theirs"; one that is theirs
/// they show whole.
fn shown_turn(seen: Seen, turn: u32, planted: Planted) -> u32 {
    let owner = ((turn & 0xFF) as usize).checked_sub(1);
    let theirs = owner.is_some_and(|owner| seen.has(owner));
    match planted {
        _ if turn == 0 || theirs => turn,
        // Not a rule: a leak that tests plant.
        Planted::HiddenTurnsShowTried => HIDDEN_TURN | turn & TRIED_BITS,
        _ => HIDDEN_TURN,
    }
}
