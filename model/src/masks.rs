//! W-205's masks: sets of classes as a row holds them, class j in bit j.
//!
//! The proved code reads both out of tables. Here each is a formula, so that a table is not
//! held against another table.

use crate::policy::MOST_CLASSES;

/// "The mask of a class (its bit alone, as in a row)". A number above 15 is no class's: its
/// mask is the empty set.
#[inline]
pub fn class_mask(class: usize) -> u16 {
    if class < MOST_CLASSES {
        1 << class
    } else {
        0
    }
}

/// "the mask of all classes below a number (a number of 1 to 16)". Below 0 there is none, and
/// below a number above 16 are all sixteen.
#[inline]
pub fn below_mask(number: usize) -> u16 {
    if number < MOST_CLASSES {
        class_mask(number) - 1
    } else {
        u16::MAX
    }
}
