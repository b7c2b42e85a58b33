//! "The policy file": reading it, what follows from it, and writing it.

use crate::planted::Planted;
use crate::refusal::Refusal;

/// "up to 16 security classes"
pub const MOST_CLASSES: usize = 16;
/// "epoch length E in turns (1 to 64)"
pub const LONGEST_EPOCH: u8 = 64;
/// "file under 17 or above 65,535 bytes" gets 1.
pub const SHORTEST_FILE: usize = 17;
pub const LONGEST_FILE: usize = 65_535;
/// "Timing, 10 bytes". W-206: "The timing body may have an eleventh byte".
pub const TIMING_LENGTH: usize = 10;

/// "The bodies follow from byte 16": the contents table is the count and three
/// entries of five bytes.
const FIRST_BODY: usize = 16;
const ENTRY_LENGTH: usize = 5;
/// "kind (1 order, 2 turns, 3 timing, in that order)"
const BODY_KINDS: [u8; 3] = [1, 2, 3];

/// The timing body. All times are in cycles.
#[derive(Clone, Debug, Default, PartialEq, Eq)]
pub struct Timing {
    pub turn_length: u8,
    pub dead_time: u8,
    /// The gap from the last activate of all, as `[earlier kind][later kind]`.
    pub gaps: [[u8; 2]; 2],
    /// The gap from the last activate of the same bank, by that one's kind.
    pub bank_gaps: [u8; 2],
    pub column_delay: u8,
    /// Document 01: answer delay.
    pub response_delay: u8,
    /// W-206: the gap from the last activate of all where that was on another rank. There
    /// is none where the file has ten timing bytes.
    pub rank_gap: Option<u8>,
}

/// A policy as it is handed to ticks, offers, runs and extracts. The fields are
/// open so that a caller can hand in a wrong one: it is refused with 13.
#[derive(Clone, Debug, Default, PartialEq, Eq)]
pub struct Policy {
    /// One row for each class; "bit j of row i is set if class i may flow to
    /// class j". The number of rows is n.
    pub rows: Vec<u16>,
    /// E, the number of turns in an epoch.
    pub epoch: u8,
    pub minimums: Vec<u8>,
    pub timing: Timing,
    /// For each class its covers (document 01: children), by rising class
    /// number. Stored, since every walk asks for them.
    pub covers: Vec<Vec<usize>>,
    /// For each class its cap. Stored, since every epoch starts from them.
    pub caps: Vec<u8>,
}

/// A number of the table, and what holds of the policies that it does not refuse.
type Condition = (Refusal, fn(&Policy) -> bool);

impl Policy {
    /// "A refused file gives the policy of no classes, all zeros".
    pub fn of_no_classes() -> Policy {
        Policy::default()
    }

    /// n, the number of classes.
    pub fn class_count(&self) -> usize {
        self.rows.len()
    }

    /// Whether information may flow from one class to another. False where
    /// either does not exist.
    pub fn flows(&self, from: usize, to: usize) -> bool {
        to < self.class_count()
            && to < MOST_CLASSES
            && self.rows.get(from).is_some_and(|row| row >> to & 1 == 1)
    }

    /// Whether one class lies strictly below another.
    pub fn strictly_below(&self, lower: usize, upper: usize) -> bool {
        lower != upper && self.flows(lower, upper)
    }

    /// The class that may flow to all. A policy in range has exactly one; where
    /// there is none the answer is class 0, which nothing relies on.
    pub fn least(&self) -> usize {
        self.classes()
            .find(|&class| self.flows_to_all(class))
            .unwrap_or(0)
    }

    /// The covers of a class; none where the class does not exist.
    pub fn covers_of(&self, class: usize) -> &[usize] {
        self.covers.get(class).map_or(&[], Vec::as_slice)
    }

    /// The class whose home turn a turn is, if it is one. W-202: "Let S be the sum
    /// of minimums. The last S turns of each epoch become home turns, class by class
    /// in rising number, each as often as its minimum." Where S is E, every turn is
    /// one; where the policy is out of range, none is.
    pub fn home(&self, turn: u32) -> Option<usize> {
        let epoch = u32::from(self.epoch);
        let others = epoch.checked_sub(self.sum_of_minimums())?;
        let mut place = turn.checked_rem(epoch)?.checked_sub(others)?;
        for (class, &minimum) in self.minimums.iter().enumerate() {
            match place.checked_sub(u32::from(minimum)) {
                Some(later) => place = later,
                None => return Some(class),
            }
        }
        // Not met: there are as many places as the minimums sum up to.
        None
    }

    /// S.
    pub fn sum_of_minimums(&self) -> u32 {
        let minimums = self.minimums.iter();
        minimums.map(|&minimum| u32::from(minimum)).sum()
    }

    /// The policy's part of 13: "a policy that 2 to 8 would refuse, or whose
    /// stored children or caps are not its order's".
    pub fn in_range(&self) -> bool {
        self.in_range_planted(Planted::Nothing)
    }

    pub(crate) fn in_range_planted(&self, planted: Planted) -> bool {
        self.first_refusal(planted).is_none()
            && self.covers == covers_of_order(self)
            && self.caps == caps_of_order(self)
    }

    /// The same policy with the children and caps of its order.
    pub(crate) fn completed(mut self) -> Policy {
        self.covers = covers_of_order(&self);
        self.caps = caps_of_order(&self);
        self
    }

    /// The first of 2 to 8 that refuses these numbers.
    fn first_refusal(&self, planted: Planted) -> Option<Refusal> {
        self.refusals(planted).next()
    }

    /// Every one of 2 to 8 that refuses these numbers, by rising number. After 2
    /// no more may be asked: the later ones go by n.
    pub(crate) fn refusals(&self, planted: Planted) -> impl Iterator<Item = Refusal> + '_ {
        let timing_is_sound: fn(&Policy) -> bool = match planted {
            // Not a rule: a leak that tests plant.
            Planted::RankGapAboveDeadTime => |policy| policy.timing.with_rank_gap_cut().in_range(),
            _ => |policy| policy.timing.in_range(),
        };
        let conditions: [Condition; 7] = [
            (Refusal::Lengths, Policy::lengths_are_sound),
            (Refusal::Rows, Policy::rows_are_sound),
            (Refusal::FlowBothWays, Policy::is_antisymmetric),
            (Refusal::NotTransitive, Policy::is_transitive),
            (Refusal::NoLeastClass, Policy::has_least),
            (Refusal::Turns, Policy::turns_are_sound),
            (Refusal::Timing, timing_is_sound),
        ];
        let fails = |(_, holds): &Condition| !holds(self);
        conditions
            .into_iter()
            .filter(fails)
            .map(|(number, _)| number)
    }

    fn classes(&self) -> std::ops::Range<usize> {
        0..self.class_count()
    }

    /// 2: "n not 1 to 16, or a body's length does not fit it".
    fn lengths_are_sound(&self) -> bool {
        let n = self.class_count();
        (1..=MOST_CLASSES).contains(&n) && self.minimums.len() == n
    }

    /// 3: "a row has a bit at n or above, or lacks its own".
    fn rows_are_sound(&self) -> bool {
        let n = self.class_count();
        let below_n = |row: u16| (n..MOST_CLASSES).all(|class| row >> class & 1 == 0);
        self.classes()
            .all(|class| below_n(self.rows[class]) && self.flows(class, class))
    }

    /// 4: "two classes flow to each other".
    fn is_antisymmetric(&self) -> bool {
        self.classes().all(|a| {
            self.classes()
                .all(|b| a == b || !(self.flows(a, b) && self.flows(b, a)))
        })
    }

    /// 5: "not transitive". Where a may flow to b, all that b may flow to, a
    /// may flow to as well.
    fn is_transitive(&self) -> bool {
        self.classes().all(|a| {
            self.classes()
                .filter(|&b| self.flows(a, b))
                .all(|b| self.rows[b] & !self.rows[a] == 0)
        })
    }

    /// 6: "no least class".
    fn has_least(&self) -> bool {
        self.classes().any(|class| self.flows_to_all(class))
    }

    fn flows_to_all(&self, class: usize) -> bool {
        self.classes().all(|other| self.flows(class, other))
    }

    /// 7: "E or the sum of minimums out of range".
    fn turns_are_sound(&self) -> bool {
        (1..=LONGEST_EPOCH).contains(&self.epoch) && self.sum_of_minimums() <= u32::from(self.epoch)
    }
}

impl Timing {
    /// 8: "a timing byte out of range". "Turn length 2 to 255, dead time 2 to 31
    /// and below the turn length, each gap 1 to the dead time, answer delay 2 to
    /// the dead time, column delay 1 to the answer delay less 1." W-206: "the rank gap
    /// (1 to the dead time)".
    pub fn in_range(&self) -> bool {
        let gap_in_range = |gap: &u8| (1..=self.dead_time).contains(gap);
        self.turn_length >= 2
            && (2..=31).contains(&self.dead_time)
            && self.dead_time < self.turn_length
            && self.gaps.iter().flatten().all(gap_in_range)
            && self.bank_gaps.iter().all(gap_in_range)
            && self.rank_gap.iter().all(gap_in_range)
            && (2..=self.dead_time).contains(&self.response_delay)
            && (1..self.response_delay).contains(&self.column_delay)
    }

    /// "turn length; dead time; gaps read-read, read-write, write-read,
    /// write-write (earlier kind first); same-bank gap after a read, after a
    /// write; column delay; answer delay". W-206: "an eleventh byte, the rank gap". No other
    /// length is a timing body's.
    pub(crate) fn from_bytes(body: &[u8]) -> Option<Timing> {
        let (ten, more) = body.split_first_chunk::<TIMING_LENGTH>()?;
        let [turn_length, dead_time, rr, rw, wr, ww, after_read, after_write, column, response] =
            *ten;
        let rank_gap = match *more {
            [] => None,
            [rank_gap] => Some(rank_gap),
            _ => return None,
        };
        Some(Timing {
            turn_length,
            dead_time,
            gaps: [[rr, rw], [wr, ww]],
            bank_gaps: [after_read, after_write],
            column_delay: column,
            response_delay: response,
            rank_gap,
        })
    }

    /// The timing body of which these are the numbers.
    fn to_bytes(&self) -> Vec<u8> {
        let first = [self.turn_length, self.dead_time];
        let last = [self.column_delay, self.response_delay];
        let bodies = [&first, &self.gaps[0], &self.gaps[1], &self.bank_gaps, &last];
        let ten = bodies.into_iter().flatten().copied();
        ten.chain(self.rank_gap).collect()
    }

    /// For [`Planted::RankGapAboveDeadTime`] only.
    fn with_rank_gap_cut(&self) -> Timing {
        let cut = |gap: u8| gap.min(self.dead_time);
        Timing {
            rank_gap: self.rank_gap.map(cut),
            ..self.clone()
        }
    }
}

/// "The children of a class are those directly above it (nothing lies
/// between), numbered from 1 by rising class number." The list of child k is
/// place k - 1.
fn covers_of_order(policy: &Policy) -> Vec<Vec<usize>> {
    let directly_above = |lower: usize, upper: usize| {
        policy.strictly_below(lower, upper)
            && !policy.classes().any(|between| {
                policy.strictly_below(lower, between) && policy.strictly_below(between, upper)
            })
    };
    policy
        .classes()
        .map(|class| {
            policy
                .classes()
                .filter(|&other| directly_above(class, other))
                .collect()
        })
        .collect()
}

/// "A class's cap is E less the minimums of all classes strictly above it."
/// Asked only where the sum of minimums is at most E, so nothing is cut off.
fn caps_of_order(policy: &Policy) -> Vec<u8> {
    let cap = |class: usize| {
        policy
            .classes()
            .filter(|&above| policy.strictly_below(class, above))
            .fold(policy.epoch, |cap, above| {
                cap.saturating_sub(policy.minimums[above])
            })
    };
    policy.classes().map(cap).collect()
}

/// Reads a policy file, any bytes. "Order: files 1 to 8"; "a refused file gives
/// the policy of no classes, all zeros".
pub fn read(bytes: &[u8]) -> (Policy, Option<Refusal>) {
    read_planted(bytes, Planted::Nothing)
}

/// The same reader with a wrong rule in place. For tests.
pub fn read_planted(bytes: &[u8], planted: Planted) -> (Policy, Option<Refusal>) {
    match read_or_refuse(bytes, planted) {
        Ok(policy) => (policy, None),
        Err(refusal) => (Policy::of_no_classes(), Some(refusal)),
    }
}

fn read_or_refuse(bytes: &[u8], planted: Planted) -> Result<Policy, Refusal> {
    let bodies = read_contents(bytes)?;
    let policy = read_bodies(&bodies)?;
    match policy.first_refusal(planted) {
        Some(refusal) => Err(refusal),
        None => Ok(policy.completed()),
    }
}

/// Every number that refuses a file, by rising number, as far as it can be told:
/// past 1 where the file is but a byte too long, and past 2 of what n has no part
/// in. For [`crate::coverage`].
pub(crate) fn all_refusals(bytes: &[u8]) -> Vec<Refusal> {
    let Ok(bodies) = read_contents(bytes) else {
        let shorter = bytes.split_last().map_or(bytes, |(_, shorter)| shorter);
        let later = match read_contents(shorter) {
            Ok(_) => all_refusals(shorter),
            Err(_) => Vec::new(),
        };
        return [vec![Refusal::Contents], later].concat();
    };
    if let Ok(policy) = read_bodies(&bodies) {
        return policy.refusals(Planted::Nothing).collect();
    }
    let epoch = bodies.turns.first();
    let timing = Timing::from_bytes(bodies.timing);
    let later = [
        epoch
            .is_some_and(|epoch| !(1..=LONGEST_EPOCH).contains(epoch))
            .then_some(Refusal::Turns),
        timing
            .is_some_and(|timing| !timing.in_range())
            .then_some(Refusal::Timing),
    ];
    [Some(Refusal::Lengths)]
        .into_iter()
        .chain(later)
        .flatten()
        .collect()
}

/// The three bodies, as the contents table cuts them out of the file.
struct Bodies<'a> {
    order: &'a [u8],
    turns: &'a [u8],
    timing: &'a [u8],
}

/// 1: "file under 17 or above 65,535 bytes, or contents not as above, lengths
/// apart". Whether a length fits n is not asked here (that is 2); that the
/// bodies abut and the last ends the file is.
fn read_contents(bytes: &[u8]) -> Result<Bodies<'_>, Refusal> {
    if !(SHORTEST_FILE..=LONGEST_FILE).contains(&bytes.len()) {
        return Err(Refusal::Contents);
    }
    // "Byte 0 is 3."
    if bytes[0] != 3 {
        return Err(Refusal::Contents);
    }
    // "Then three entries of 5 bytes: kind, start (16 bits), length (16 bits),
    // low byte first. The bodies follow from byte 16, abutting".
    let mut ends = [FIRST_BODY; 3];
    let mut next_start = FIRST_BODY;
    for (place, kind) in BODY_KINDS.into_iter().enumerate() {
        let entry = &bytes[1 + place * ENTRY_LENGTH..][..ENTRY_LENGTH];
        let start = usize::from(u16::from_le_bytes([entry[1], entry[2]]));
        let length = usize::from(u16::from_le_bytes([entry[3], entry[4]]));
        if entry[0] != kind || start != next_start {
            return Err(Refusal::Contents);
        }
        next_start = start + length;
        ends[place] = next_start;
    }
    // "and the last ends the file"; so all ends lie inside it.
    if ends[2] != bytes.len() {
        return Err(Refusal::Contents);
    }
    Ok(Bodies {
        order: &bytes[FIRST_BODY..ends[0]],
        turns: &bytes[ends[0]..ends[1]],
        timing: &bytes[ends[1]..ends[2]],
    })
}

/// 2: "n not 1 to 16, or a body's length does not fit it". Beyond that the
/// numbers are taken as they stand.
fn read_bodies(bodies: &Bodies) -> Result<Policy, Refusal> {
    // An order body without even its n fits no n.
    let (&n, rows) = bodies.order.split_first().ok_or(Refusal::Lengths)?;
    let n = usize::from(n);
    // "Length 1 + 2n." "Length 1 + n." "Timing, 10 bytes", or W-206's eleven.
    if !(1..=MOST_CLASSES).contains(&n) || rows.len() != 2 * n {
        return Err(Refusal::Lengths);
    }
    let (&epoch, minimums) = bodies.turns.split_first().ok_or(Refusal::Lengths)?;
    if minimums.len() != n {
        return Err(Refusal::Lengths);
    }
    let timing = Timing::from_bytes(bodies.timing).ok_or(Refusal::Lengths)?;
    Ok(Policy {
        rows: rows
            .chunks_exact(2)
            .map(|row| u16::from_le_bytes([row[0], row[1]]))
            .collect(),
        epoch,
        minimums: minimums.to_vec(),
        timing,
        covers: Vec::new(),
        caps: Vec::new(),
    })
}

/// Writes the policy file of a policy to the start of `file`, and hands back its number of bytes.
/// Refused with 13 where the policy is out of range, then with 16 where there is too little room,
/// it hands back 0 and writes nothing. Bytes past the file stay.
///
/// A file that is taken is the one written of the policy that it gives: nothing in it is free.
pub fn write(policy: &Policy, file: &mut [u8]) -> (usize, Option<Refusal>) {
    match write_or_refuse(policy, file) {
        Ok(count) => (count, None),
        Err(refusal) => (0, Some(refusal)),
    }
}

fn write_or_refuse(policy: &Policy, file: &mut [u8]) -> Result<usize, Refusal> {
    // 13: "a state or policy handed in has numbers out of range".
    if !policy.in_range() {
        return Err(Refusal::OutOfRange);
    }
    put(&policy.to_file(), file)
}

/// 16: puts bytes at the start of a room, if it has room for them.
pub(crate) fn put(bytes: &[u8], room: &mut [u8]) -> Result<usize, Refusal> {
    let start = room.get_mut(..bytes.len());
    let start = start.ok_or(Refusal::ExtractTooShort)?;
    start.copy_from_slice(bytes);
    Ok(bytes.len())
}

impl Policy {
    /// The policy's three bodies as a file. That of a policy out of range may be refused, or be
    /// another's.
    pub(crate) fn to_file(&self) -> Vec<u8> {
        // "Order: n, then n rows of 16 bits, low byte first."
        let mut order = vec![self.class_count() as u8];
        order.extend(self.rows.iter().flat_map(|row| row.to_le_bytes()));
        // "Turns: epoch length E in turns, then n minimums, one byte each".
        let turns = [&[self.epoch], self.minimums.as_slice()].concat();
        encode_bodies(&order, &turns, &self.timing.to_bytes())
    }
}

/// A file whose contents table fits its bodies, whatever those hold: "a contents table, then the
/// bodies", which abut.
pub fn encode_bodies(order: &[u8], turns: &[u8], timing: &[u8]) -> Vec<u8> {
    let bodies = [order, turns, timing];
    let mut file = vec![3];
    let mut start = FIRST_BODY as u16;
    for (kind, body) in BODY_KINDS.into_iter().zip(bodies) {
        file.push(kind);
        file.extend_from_slice(&start.to_le_bytes());
        file.extend_from_slice(&(body.len() as u16).to_le_bytes());
        start = start.wrapping_add(body.len() as u16);
    }
    file.extend_from_slice(&bodies.concat());
    file
}
