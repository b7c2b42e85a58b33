//! Wrong small orders (W-208). They exist so that the tests can show that they find them.

use std::collections::BTreeSet;

use vigambul_model::generate::PolicyFields;

use crate::calls::OrderCalls;

/// Where a call departs from W-208.
#[derive(Clone, Copy, Debug, PartialEq, Eq)]
pub enum Wrong {
    /// Nowhere.
    Nothing,

    // Which orders are listed.
    TakesClassesThatFlowBothWays,
    TakesWhatIsNotTransitive,
    TakesWhatHasNoLeastClass,
    /// Class 0 is the least.
    ListsLeastClass0Alone,
    /// Orders with a greatest class.
    ListsGreatestClassesAlone,
    /// One of all that differ by the numbers of their classes alone.
    ListsShapes,
    ListsOneTwice,
    LeavesOutTheLast,
    LeavesOutOneInTheMiddle,

    // The order in which they come.
    Falls,
    /// Bit 0 of a row is its most significant.
    ReadsBitsTheOtherWay,
    /// After row 0 comes the last.
    ReadsLaterRowsTheOtherWay,
    /// Bit j of row i is read as that of class j that may flow to i.
    ReadsColumns,

    // Places.
    PlacesInEightBits,
    PlacesInSixteenBits,
    PlacesInThirtyOneBits,
    /// After the last comes the first.
    PlacesGoRound,
    /// Past the last is the last.
    StaysAtTheLast,
    RefusesPlacesPastTheLast,
    /// The last place is past the last.
    EndsOnePlaceEarly,

    // The number of classes.
    ClassesInEightBits,
    ClassesInSixteenBits,
    ClassesInThirtyOneBits,
    TakesFiveClasses,
    /// 0 classes have no orders, and no number.
    TakesNoClasses,
    RefusesFourClasses,
    /// As in a file.
    RefusesClassesWith2,

    // The timing.
    LengthsInFourBits,
    LengthsInEightBits,
    LengthsInSixteenBits,
    TakesNineBytes,
    TakesTwelveBytes,
    RefusesElevenBytes,
    RefusesTenBytes,
    RefusesLengthsWith8,
    RefusesBytesWith2,
    TakesAnyBytes,
    TakesAnyRankGap,
    TakesAnyTurnLength,
    TakesLongDeadTimes,
    TakesGapsOfZero,
    TakesGapsAboveTheDeadTime,
    TakesAnswerDelaysAboveTheDeadTime,
    TakesColumnDelaysOfZero,
    TakesColumnDelaysOfTheAnswerDelay,
    RefusesTheLongestDeadTime,
    RefusesGapsOfTheDeadTime,

    // The order of the questions.
    AsksLengthsBeforeClasses,
    AsksBytesBeforeClasses,
    AsksPlacesBeforeLengths,
    AsksPlacesBeforeBytes,
    AsksRoomBeforeClasses,
    AsksRoomBeforeLengths,
    AsksRoomBeforeBytes,
    AsksRoomBeforePlaces,

    // The file, its room and its length.
    /// E is the number of classes.
    EpochsOfTheClasses,
    MinimumsOfOne,
    HighByteFirst,
    CutsRankGaps,
    AddsRankGaps,
    /// The contents table has a timing body of ten bytes.
    TablesOfTenBytes,
    AsksRoomForTheLongest,
    AsksRoomForOneMore,
    TakesOtherRoomsForNone,
    WritesPastTheFile,
    WritesBeforeItRefuses,
    ClearsWhereItRefuses,
    ClearsPastTheLast,
    CountsWhereItRefuses,
    CountsPastTheLast,
    CountsTheRoom,
}

/// Wrong orders, which a comparison of places and calls must find.
pub const ORDERS: [Wrong; 71] = [
    Wrong::TakesClassesThatFlowBothWays,
    Wrong::TakesWhatIsNotTransitive,
    Wrong::TakesWhatHasNoLeastClass,
    Wrong::ListsLeastClass0Alone,
    Wrong::ListsGreatestClassesAlone,
    Wrong::ListsShapes,
    Wrong::ListsOneTwice,
    Wrong::LeavesOutTheLast,
    Wrong::LeavesOutOneInTheMiddle,
    Wrong::Falls,
    Wrong::ReadsBitsTheOtherWay,
    Wrong::ReadsLaterRowsTheOtherWay,
    Wrong::ReadsColumns,
    Wrong::PlacesInEightBits,
    Wrong::PlacesInSixteenBits,
    Wrong::PlacesInThirtyOneBits,
    Wrong::PlacesGoRound,
    Wrong::StaysAtTheLast,
    Wrong::RefusesPlacesPastTheLast,
    Wrong::EndsOnePlaceEarly,
    Wrong::ClassesInEightBits,
    Wrong::ClassesInSixteenBits,
    Wrong::ClassesInThirtyOneBits,
    Wrong::TakesFiveClasses,
    Wrong::TakesNoClasses,
    Wrong::RefusesFourClasses,
    Wrong::RefusesClassesWith2,
    Wrong::LengthsInFourBits,
    Wrong::LengthsInEightBits,
    Wrong::LengthsInSixteenBits,
    Wrong::TakesNineBytes,
    Wrong::TakesTwelveBytes,
    Wrong::RefusesElevenBytes,
    Wrong::RefusesTenBytes,
    Wrong::RefusesLengthsWith8,
    Wrong::RefusesBytesWith2,
    Wrong::TakesAnyBytes,
    Wrong::TakesAnyRankGap,
    Wrong::TakesAnyTurnLength,
    Wrong::TakesLongDeadTimes,
    Wrong::TakesGapsOfZero,
    Wrong::TakesGapsAboveTheDeadTime,
    Wrong::TakesAnswerDelaysAboveTheDeadTime,
    Wrong::TakesColumnDelaysOfZero,
    Wrong::TakesColumnDelaysOfTheAnswerDelay,
    Wrong::RefusesTheLongestDeadTime,
    Wrong::RefusesGapsOfTheDeadTime,
    Wrong::AsksLengthsBeforeClasses,
    Wrong::AsksBytesBeforeClasses,
    Wrong::AsksPlacesBeforeLengths,
    Wrong::AsksPlacesBeforeBytes,
    Wrong::AsksRoomBeforeClasses,
    Wrong::AsksRoomBeforeLengths,
    Wrong::AsksRoomBeforeBytes,
    Wrong::AsksRoomBeforePlaces,
    Wrong::EpochsOfTheClasses,
    Wrong::MinimumsOfOne,
    Wrong::HighByteFirst,
    Wrong::CutsRankGaps,
    Wrong::AddsRankGaps,
    Wrong::TablesOfTenBytes,
    Wrong::AsksRoomForTheLongest,
    Wrong::AsksRoomForOneMore,
    Wrong::TakesOtherRoomsForNone,
    Wrong::WritesPastTheFile,
    Wrong::WritesBeforeItRefuses,
    Wrong::ClearsWhereItRefuses,
    Wrong::ClearsPastTheLast,
    Wrong::CountsWhereItRefuses,
    Wrong::CountsPastTheLast,
    Wrong::CountsTheRoom,
];

/// A listing that is wrong in one way.
pub struct WithWrongOrders {
    wrong: Wrong,
    /// The rows of each order by its place, of no classes to five.
    lists: Vec<Vec<Vec<u16>>>,
}

/// What is asked, in any order.
#[derive(Clone, Copy, PartialEq, Eq)]
enum Question {
    Classes,
    Length,
    Bytes,
    Place,
    Room,
}

/// What an order is asked by, with the upper bits of numbers lost where that is wrong.
struct Asked<'a> {
    n: usize,
    place: usize,
    timing: &'a [u8],
    room: usize,
}

impl WithWrongOrders {
    pub fn new(wrong: Wrong) -> WithWrongOrders {
        let most = match wrong {
            Wrong::TakesFiveClasses => 5,
            _ => 4,
        };
        let mut lists = vec![Vec::new()];
        lists.extend((1..=most).map(|n| listed(n, wrong)));
        WithWrongOrders { wrong, lists }
    }

    fn is(&self, wrong: Wrong) -> bool {
        self.wrong == wrong
    }

    /// The number that a question refuses with; 0 where it answers without a file.
    fn refuses(&self, question: Question, asked: &Asked) -> Option<u32> {
        match question {
            Question::Classes => self.classes(asked.n),
            Question::Length => self.length(asked.timing.len()),
            Question::Bytes => self.bytes(asked.timing),
            Question::Place => self.place(asked),
            Question::Room => self.room(asked),
        }
    }

    fn classes(&self, n: usize) -> Option<u32> {
        let refused = match self.wrong {
            Wrong::RefusesFourClasses => !(1..=3).contains(&n),
            _ => n == 0 || n >= self.lists.len(),
        };
        let number = match (self.wrong, n) {
            (Wrong::RefusesClassesWith2, _) => 2,
            (Wrong::TakesNoClasses, 0) => 0,
            _ => 20,
        };
        refused.then_some(number)
    }

    fn length(&self, length: usize) -> Option<u32> {
        let length = match self.wrong {
            Wrong::LengthsInFourBits => length % 16,
            Wrong::LengthsInEightBits => length % 256,
            Wrong::LengthsInSixteenBits => length % 65_536,
            _ => length,
        };
        let taken = match self.wrong {
            Wrong::TakesNineBytes => 9..=11,
            Wrong::TakesTwelveBytes => 10..=12,
            Wrong::RefusesElevenBytes => 10..=10,
            Wrong::RefusesTenBytes => 11..=11,
            _ => 10..=11,
        };
        let number = match self.wrong {
            Wrong::RefusesLengthsWith8 => 8,
            _ => 2,
        };
        (!taken.contains(&length)).then_some(number)
    }

    fn bytes(&self, timing: &[u8]) -> Option<u32> {
        // Of a length that no timing body has, as far as it goes.
        let mut body = [2; 11];
        body[10] = 1;
        let length = timing.len().min(11);
        body[..length].copy_from_slice(&timing[..length]);
        let number = match self.wrong {
            Wrong::RefusesBytesWith2 => 2,
            _ => 8,
        };
        (!self.in_range(body)).then_some(number)
    }

    fn in_range(&self, body: [u8; 11]) -> bool {
        let [turn, dead, gaps @ .., column, answer, rank_gap] = body;
        let longest = match self.wrong {
            Wrong::TakesLongDeadTimes => 255,
            Wrong::RefusesTheLongestDeadTime => 30,
            _ => 31,
        };
        let gap_in_range = |gap: u8| {
            let first = u8::from(!self.is(Wrong::TakesGapsOfZero));
            let last = match self.wrong {
                Wrong::TakesGapsAboveTheDeadTime => 255,
                Wrong::RefusesGapsOfTheDeadTime => dead - 1,
                _ => dead,
            };
            (first..=last).contains(&gap)
        };
        let column_delays = match self.wrong {
            Wrong::TakesColumnDelaysOfZero => 0..answer,
            Wrong::TakesColumnDelaysOfTheAnswerDelay => 1..answer.saturating_add(1),
            _ => 1..answer,
        };
        let holds = (2..=longest).contains(&dead)
            && (turn > dead || self.is(Wrong::TakesAnyTurnLength))
            && gaps.into_iter().all(gap_in_range)
            && (gap_in_range(rank_gap) || self.is(Wrong::TakesAnyRankGap))
            && answer >= 2
            && (answer <= dead || self.is(Wrong::TakesAnswerDelaysAboveTheDeadTime))
            && column_delays.contains(&column);
        holds || self.is(Wrong::TakesAnyBytes)
    }

    /// The orders that there are of n classes.
    fn orders(&self, n: usize) -> &[Vec<u16>] {
        self.lists.get(n).map_or(&[], Vec::as_slice)
    }

    fn rows(&self, asked: &Asked) -> Option<&Vec<u16>> {
        let orders = self.orders(asked.n);
        let place = match self.wrong {
            Wrong::PlacesGoRound => asked.place % orders.len().max(1),
            Wrong::StaysAtTheLast => asked.place.min(orders.len().saturating_sub(1)),
            Wrong::EndsOnePlaceEarly if asked.place + 1 >= orders.len() => return None,
            _ => asked.place,
        };
        orders.get(place)
    }

    fn place(&self, asked: &Asked) -> Option<u32> {
        let number = match self.wrong {
            Wrong::RefusesPlacesPastTheLast => 20,
            _ => 0,
        };
        self.rows(asked).is_none().then_some(number)
    }

    fn room(&self, asked: &Asked) -> Option<u32> {
        let needed = self.needed(asked);
        let short = match self.wrong {
            Wrong::AsksRoomForTheLongest => asked.room < 41,
            Wrong::AsksRoomForOneMore => asked.room <= needed,
            Wrong::TakesOtherRoomsForNone => asked.room != needed,
            _ => asked.room < needed,
        };
        short.then_some(16)
    }

    fn needed(&self, asked: &Asked) -> usize {
        let n = match asked.n {
            1..=5 => asked.n,
            _ => 4,
        };
        18 + 3 * n + self.written_timing(asked.timing).len()
    }

    fn written_timing(&self, timing: &[u8]) -> Vec<u8> {
        match self.wrong {
            Wrong::CutsRankGaps => timing[..timing.len().min(10)].to_vec(),
            Wrong::AddsRankGaps if timing.len() == 10 => [timing, &[1]].concat(),
            _ => timing.to_vec(),
        }
    }

    fn file(&self, rows: &[u16], timing: &[u8]) -> Vec<u8> {
        let mut rows = rows.to_vec();
        if self.is(Wrong::HighByteFirst) {
            rows.iter_mut().for_each(|row| *row = row.swap_bytes());
        }
        let fields = PolicyFields {
            n: rows.len() as u8,
            epoch: match self.wrong {
                Wrong::EpochsOfTheClasses => rows.len() as u8,
                _ => 4,
            },
            minimums: vec![u8::from(self.is(Wrong::MinimumsOfOne)); rows.len()],
            rows,
            timing: self.written_timing(timing),
        };
        let mut file = fields.encode();
        if self.is(Wrong::TablesOfTenBytes) {
            file[14] = 10;
        }
        file
    }

    /// The questions in the order in which they are asked.
    fn questions(&self) -> [Question; 5] {
        use Question::*;
        match self.wrong {
            Wrong::AsksLengthsBeforeClasses => [Length, Classes, Bytes, Place, Room],
            Wrong::AsksBytesBeforeClasses => [Bytes, Classes, Length, Place, Room],
            Wrong::AsksPlacesBeforeLengths => [Classes, Place, Length, Bytes, Room],
            Wrong::AsksPlacesBeforeBytes => [Classes, Length, Place, Bytes, Room],
            Wrong::AsksRoomBeforeClasses => [Room, Classes, Length, Bytes, Place],
            Wrong::AsksRoomBeforeLengths => [Classes, Room, Length, Bytes, Place],
            Wrong::AsksRoomBeforeBytes => [Classes, Length, Room, Bytes, Place],
            Wrong::AsksRoomBeforePlaces => [Classes, Length, Bytes, Room, Place],
            _ => [Classes, Length, Bytes, Place, Room],
        }
    }

    /// What is answered where there is no file.
    fn no_file(&self, number: u32, asked: &Asked, file: &mut [u8]) -> (usize, u32) {
        match (self.wrong, number) {
            (Wrong::WritesBeforeItRefuses, 16) => {
                let rows = self.rows(asked).map(Vec::as_slice).unwrap_or_default();
                let bytes = self.file(rows, asked.timing);
                let room = file.len().min(bytes.len());
                file[..room].copy_from_slice(&bytes[..room]);
            }
            (Wrong::ClearsPastTheLast, 0) => file.fill(0),
            (Wrong::ClearsWhereItRefuses, 1..) => file.fill(0),
            (Wrong::CountsWhereItRefuses, 16) => return (self.needed(asked), number),
            (Wrong::CountsPastTheLast, 0) => return (self.needed(asked), number),
            _ => {}
        }
        (0, number)
    }
}

impl OrderCalls for WithWrongOrders {
    fn order_file(&self, n: u32, place: u32, timing: &[u8], file: &mut [u8]) -> (usize, u32) {
        let n = match self.wrong {
            Wrong::ClassesInEightBits => n & 0xFF,
            Wrong::ClassesInSixteenBits => n & 0xFFFF,
            Wrong::ClassesInThirtyOneBits => n & 0x7FFF_FFFF,
            _ => n,
        };
        let place = match self.wrong {
            Wrong::PlacesInEightBits => place & 0xFF,
            Wrong::PlacesInSixteenBits => place & 0xFFFF,
            Wrong::PlacesInThirtyOneBits => place & 0x7FFF_FFFF,
            _ => place,
        };
        let asked = Asked {
            n: n as usize,
            place: place as usize,
            timing,
            room: file.len(),
        };
        let mut questions = self.questions().into_iter();
        if let Some(number) = questions.find_map(|question| self.refuses(question, &asked)) {
            return self.no_file(number, &asked, file);
        }
        let rows = self.rows(&asked).expect("the place is not past the last");
        let bytes = self.file(rows, timing);
        file[..bytes.len()].copy_from_slice(&bytes);
        if self.is(Wrong::WritesPastTheFile) {
            file[bytes.len()..].fill(0);
        }
        match self.wrong {
            Wrong::CountsTheRoom => (file.len(), 0),
            _ => (bytes.len(), 0),
        }
    }
}

// ---------------------------------------------------------------------------
// The listing, by what holds of each two classes.

/// The orders of n classes, each two of which may flow one way, the other way or neither; and both
/// ways, where that is taken.
fn listed(n: usize, wrong: Wrong) -> Vec<Vec<u16>> {
    let pairs: Vec<(usize, usize)> = (0..n)
        .flat_map(|a| (a + 1..n).map(move |b| (a, b)))
        .collect();
    let choices = match wrong {
        Wrong::TakesClassesThatFlowBothWays => 4,
        _ => 3u32,
    };
    let rows_of = |number: u32| {
        let mut rows: Vec<u16> = (0..n).map(|class| 1 << class).collect();
        for (place, &(a, b)) in (0..).zip(&pairs) {
            let choice = number / choices.pow(place) % choices;
            rows[a] |= u16::from(choice & 1 == 1) << b;
            rows[b] |= u16::from(choice & 2 == 2) << a;
        }
        rows
    };
    let all = (0..choices.pow(pairs.len() as u32)).map(rows_of);
    let mut orders: Vec<Vec<u16>> = all.filter(|rows| is_taken(rows, wrong)).collect();
    orders.sort_by_key(|rows| value(rows, wrong));
    as_listed(orders, wrong)
}

fn flows(rows: &[u16], from: usize, to: usize) -> bool {
    rows[from] >> to & 1 == 1
}

fn is_taken(rows: &[u16], wrong: Wrong) -> bool {
    let classes = || 0..rows.len();
    let is_below_all = |class: usize| classes().all(|other| flows(rows, class, other));
    let is_above_all = |class: usize| classes().all(|other| flows(rows, other, class));
    let passes = |a: usize, b: usize| !flows(rows, a, b) || rows[b] & !rows[a] == 0;
    let transitive = classes().all(|a| classes().all(|b| passes(a, b)));
    let least = match wrong {
        Wrong::TakesWhatHasNoLeastClass => true,
        Wrong::ListsLeastClass0Alone => is_below_all(0),
        Wrong::ListsGreatestClassesAlone => {
            classes().any(is_below_all) && classes().any(is_above_all)
        }
        _ => classes().any(is_below_all),
    };
    least && (transitive || wrong == Wrong::TakesWhatIsNotTransitive)
}

/// By what orders are sorted.
fn value(rows: &[u16], wrong: Wrong) -> Vec<u16> {
    let first = rows.iter().take(1);
    match wrong {
        Wrong::ReadsBitsTheOtherWay => rows.iter().map(|row| row.reverse_bits()).collect(),
        Wrong::ReadsLaterRowsTheOtherWay => {
            let later = rows.iter().skip(1).rev();
            first.chain(later).copied().collect()
        }
        Wrong::Falls => rows.iter().map(|row| !row).collect(),
        Wrong::ReadsColumns => columns(rows),
        _ => rows.to_vec(),
    }
}

/// Rows with what may flow to a class in place of what it may flow to.
fn columns(rows: &[u16]) -> Vec<u16> {
    let n = rows.len();
    let bit = |from: usize, to: usize| u16::from(flows(rows, from, to)) << from;
    let column = |to: usize| (0..n).map(|from| bit(from, to)).sum();
    (0..n).map(column).collect()
}

/// A list that is wrong as a whole.
fn as_listed(mut orders: Vec<Vec<u16>>, wrong: Wrong) -> Vec<Vec<u16>> {
    let middle = orders.len() / 2;
    match wrong {
        Wrong::ListsOneTwice => orders.insert(middle, orders[middle].clone()),
        Wrong::LeavesOutTheLast => orders.truncate(orders.len() - 1),
        Wrong::LeavesOutOneInTheMiddle => drop(orders.remove(middle)),
        Wrong::ListsShapes => {
            let mut met = BTreeSet::new();
            orders.retain(|rows| met.insert(shape(rows)));
        }
        _ => {}
    }
    orders
}

/// How many classes each class may flow to and may be reached from, whatever its number.
fn shape(rows: &[u16]) -> Vec<(u32, u32)> {
    let both = rows.iter().zip(columns(rows));
    let mut counts: Vec<_> = both
        .map(|(row, column)| (row.count_ones(), column.count_ones()))
        .collect();
    counts.sort();
    counts
}
