//! W-208, "Every small order": each legal order of 1 to 4 classes as a policy, fetched by its place.
//!
//! The listing tries every square of yes and no, keeps those that a policy file may have as its
//! order, and puts them into the order of their values.

use std::ops::RangeInclusive;
use std::sync::OnceLock;

use crate::planted::Planted;
use crate::policy::{put, Policy, Timing};
use crate::refusal::Refusal;

/// "each legal order of n classes, n from 1 to 4"
pub const CLASS_COUNTS: RangeInclusive<u32> = 1..=4;
/// "with E = 4"
pub const EPOCH: u8 = 4;
/// "16 bits a row"
const ROW_BITS: u32 = 16;

/// Every legal order of each number of classes.
pub struct Orders {
    planted: Planted,
    /// The rows of each order by its place, of 1 to 4 classes.
    lists: Vec<Vec<Vec<u16>>>,
}

/// The listing, which is made once.
pub fn all() -> &'static Orders {
    static ALL: OnceLock<Orders> = OnceLock::new();
    ALL.get_or_init(|| Orders::planted(Planted::Nothing))
}

impl Orders {
    /// A listing with a wrong rule in place, or none.
    pub fn planted(planted: Planted) -> Orders {
        Orders {
            planted,
            lists: CLASS_COUNTS.map(|n| legal_orders(n, planted)).collect(),
        }
    }

    /// The rows of every order of n classes, by place; nothing where n is not 1 to 4.
    pub fn of(&self, n: u32) -> Option<&[Vec<u16>]> {
        let place = n.checked_sub(*CLASS_COUNTS.start())?;
        self.lists.get(place as usize).map(Vec::as_slice)
    }

    /// "Each is fetched by its place, from 0; a refusal gives the policy of no classes, and so, with
    /// no number, does a place past the last."
    pub fn order(&self, n: u32, place: u32, timing: &[u8]) -> (Policy, Option<Refusal>) {
        match self.order_or_refuse(n, place, timing) {
            Ok(policy) => (policy.unwrap_or_else(Policy::of_no_classes), None),
            Err(refusal) => (Policy::of_no_classes(), Some(refusal)),
        }
    }

    /// The same as a policy file, which is written to the start of `file`, with its number of bytes:
    /// 0 where there is none, and nothing is written then. 16, for too little room, is asked last.
    /// Bytes past the file stay.
    pub fn file(
        &self,
        n: u32,
        place: u32,
        timing: &[u8],
        file: &mut [u8],
    ) -> (usize, Option<Refusal>) {
        let policy = self.order_or_refuse(n, place, timing);
        let written = policy.and_then(|policy| match policy {
            None => Ok(0),
            Some(policy) => put(&policy.to_file(), file),
        });
        match written {
            Ok(count) => (count, None),
            Err(refusal) => (0, Some(refusal)),
        }
    }

    /// "20 for n outside 1 to 4, asked first; then 2 or 8 for the timing, then the place."
    fn order_or_refuse(
        &self,
        n: u32,
        place: u32,
        timing: &[u8],
    ) -> Result<Option<Policy>, Refusal> {
        let orders = self.of(n).ok_or(Refusal::SmallOrder);
        let timing = sound_timing(timing);
        // Not the order: wrong ones that tests plant.
        match (self.planted, &orders, &timing) {
            (Planted::TimingBeforeClasses, _, Err(refusal)) => return Err(*refusal),
            (Planted::PlaceBeforeTiming, Ok(orders), _) if place as usize >= orders.len() => {
                return Ok(None);
            }
            _ => {}
        }
        let (orders, timing) = (orders?, timing?);
        let place = match self.planted {
            // Not a rule: a wrong one that tests plant.
            Planted::PlacesFromOne => place.checked_sub(1),
            _ => Some(place),
        };
        let rows = place.and_then(|place| orders.get(place as usize));
        Ok(rows.map(|rows| policy_of(rows, timing).completed()))
    }
}

/// 2: a length that no timing body has. 8: "a timing byte out of range".
fn sound_timing(body: &[u8]) -> Result<Timing, Refusal> {
    let timing = Timing::from_bytes(body).ok_or(Refusal::Lengths)?;
    match timing.in_range() {
        true => Ok(timing),
        false => Err(Refusal::Timing),
    }
}

/// "as policies with E = 4, minimums 0 and a given timing body"
fn policy_of(rows: &[u16], timing: Timing) -> Policy {
    Policy {
        rows: rows.to_vec(),
        epoch: EPOCH,
        minimums: vec![0; rows.len()],
        timing,
        ..Policy::default()
    }
}

/// "They come by rising value of the rows read as one number, row 0 most significant, 16 bits a
/// row."
fn legal_orders(n: u32, planted: Planted) -> Vec<Vec<u16>> {
    let squares = 0..1u32 << (n * n);
    let rows = squares.map(|square| rows_of(n, square));
    let mut orders: Vec<Vec<u16>> = rows.filter(|rows| is_legal(rows, planted)).collect();
    match planted {
        // Not the order: a wrong one that tests plant.
        Planted::RowZeroLeastSignificant => orders.sort_by_key(|rows| value(rows.iter().rev())),
        _ => orders.sort_by_key(|rows| value(rows.iter())),
    }
    orders
}

/// The rows of a square of n by n marks, which are the bits of a number. Every square has one.
fn rows_of(n: u32, square: u32) -> Vec<u16> {
    let mark = |class: u32, other: u32| (square >> (n * class + other) & 1) as u16;
    let row = |class: u32| (0..n).map(|other| mark(class, other) << other).sum();
    (0..n).map(row).collect()
}

/// Rows read as one number, the first of them most significant.
fn value<'a>(rows: impl Iterator<Item = &'a u16>) -> u64 {
    rows.fold(0, |value, &row| value << ROW_BITS | u64::from(row))
}

/// Whether a policy file may have these rows: 3 to 6 are the numbers that refuse an order. The
/// timing is not asked.
fn is_legal(rows: &[u16], planted: Planted) -> bool {
    let policy = policy_of(rows, Timing::default());
    let mut refusals = policy.refusals(Planted::Nothing);
    let refuses = |refusal: Refusal| match refusal {
        // Not a rule: a wrong one that tests plant.
        Refusal::NoLeastClass => planted != Planted::NoLeastClassListed,
        Refusal::Rows | Refusal::FlowBothWays | Refusal::NotTransitive => true,
        _ => false,
    };
    !refusals.any(refuses)
}
