//! W-205's masks, bit by bit: which classes are in each.

use vigambul_model::masks::{below_mask, class_mask};

/// The classes that a set of them may have.
const CLASSES: std::ops::Range<usize> = 0..16;

/// 16, which is no class and is the last number of the second table, and numbers above it.
const ABOVE: [usize; 4] = [16, 17, 255, usize::MAX];

/// Whether a class is in a set.
fn holds(set: u16, class: usize) -> bool {
    set >> class & 1 == 1
}

/// "entry i holds bit i alone"; the mask of a number that is no class's holds none.
#[test]
fn the_mask_of_a_class_holds_the_class_alone() {
    for class in CLASSES.chain(ABOVE) {
        for other in CLASSES {
            let held = holds(class_mask(class), other);
            assert_eq!(held, other == class, "{other} in the mask of {class}");
        }
    }
}

/// "for number i + 1, bits 0 to i and no other"; below 0 there is none, and below a number
/// above 16 are all.
#[test]
fn the_mask_below_a_number_holds_every_lower_class_and_no_other() {
    for number in CLASSES.chain(ABOVE) {
        for class in CLASSES {
            let held = holds(below_mask(number), class);
            assert_eq!(held, class < number, "{class} in the mask below {number}");
        }
    }
}
