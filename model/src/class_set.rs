//! W-211's sets of classes: "An extract can now be had for a set of classes".

use std::fmt::{self, Display, Formatter};
use std::ops::BitOr;
use std::str::FromStr;

use crate::policy::{Policy, MOST_CLASSES};
use crate::trace::Word;

/// A set of classes as a call is handed it, class c in bit c. There are more bits than any policy
/// has classes, so that 9 has something to refuse.
#[derive(Clone, Copy, Debug, Default, PartialEq, Eq)]
pub struct ClassSet(pub u32);

/// The highest class that a set has a bit for.
pub const LAST_BIT: usize = 31;

impl ClassSet {
    pub const EMPTY: ClassSet = ClassSet(0);

    /// The set of one class. No policy has a class above 15, so the last bit stands for all
    /// that have none of their own: 9 refuses each of them.
    pub fn of(class: usize) -> ClassSet {
        ClassSet(1 << class.min(LAST_BIT))
    }

    /// All classes below a number.
    pub fn below(number: usize) -> ClassSet {
        (0..number).map(ClassSet::of).collect()
    }

    pub fn is_empty(self) -> bool {
        self.0 == 0
    }

    /// The number of members.
    pub fn count(self) -> usize {
        self.0.count_ones() as usize
    }

    pub fn has(self, class: usize) -> bool {
        class <= LAST_BIT && self.0 >> class & 1 == 1
    }

    /// The members, by rising class number.
    pub fn members(self) -> impl DoubleEndedIterator<Item = usize> {
        let end = (u32::BITS - self.0.leading_zeros()) as usize;
        (0..end).filter(move |&class| self.has(class))
    }

    /// Whether 9 does not refuse it. W-211: "A set with a class not below n is refused with 9."
    pub fn is_of(self, policy: &Policy) -> bool {
        self.members().all(|member| member < policy.class_count())
    }
}

impl BitOr for ClassSet {
    type Output = ClassSet;

    fn bitor(self, other: ClassSet) -> ClassSet {
        ClassSet(self.0 | other.0)
    }
}

impl FromIterator<ClassSet> for ClassSet {
    /// What is in any of some sets.
    fn from_iter<T: IntoIterator<Item = ClassSet>>(sets: T) -> ClassSet {
        sets.into_iter().fold(ClassSet::EMPTY, ClassSet::bitor)
    }
}

/// The empty set in words.
const NONE: &str = "none";

impl Display for ClassSet {
    /// As the command line takes it: `none`, `2` or `1,2`.
    fn fmt(&self, formatter: &mut Formatter) -> fmt::Result {
        if self.is_empty() {
            return formatter.write_str(NONE);
        }
        let members: Vec<String> = self.members().map(|member| member.to_string()).collect();
        formatter.write_str(&members.join(","))
    }
}

impl FromStr for ClassSet {
    type Err = std::num::ParseIntError;

    fn from_str(text: &str) -> Result<ClassSet, Self::Err> {
        match text {
            NONE => Ok(ClassSet::EMPTY),
            _ => text
                .split(',')
                .map(|class| class.parse().map(ClassSet::of))
                .collect(),
        }
    }
}

// ---------------------------------------------------------------------------
// Kinds of sets and of offers, for counts of what was met.

const EMPTY_SET: &str = "the empty set";
const ONE_CLASS: &str = "a set of one class";
const TWO_INCOMPARABLE: &str = "a set of two incomparable classes";
const ONE_BELOW: &str = "a set of a class and one below it";
const SOME: &str = "a set of three classes or more, but not of all";
const ALL: &str = "a set of all classes, of two or more";
const CLASS_N: &str = "a set with class n, and none above";
const CLASS_N_OF_16: &str = "a set with class n of sixteen classes, and none above";
const ABOVE_N: &str = "a set with a class above n and below 16";
const ABOVE_15: &str = "a set with a class above 15";
const ONLY_ABOVE_15: &str = "a set with all its classes above 15";
const CLASS_31: &str = "a set with class 31";

/// The kinds of sets that 9 does not refuse.
pub const TAKEN_KINDS: [&str; 6] = [EMPTY_SET, ONE_CLASS, TWO_INCOMPARABLE, ONE_BELOW, SOME, ALL];

/// The kinds of those that it refuses.
pub const REFUSED_KINDS: [&str; 6] = [
    CLASS_N,
    CLASS_N_OF_16,
    ABOVE_N,
    ABOVE_15,
    ONLY_ABOVE_15,
    CLASS_31,
];

/// A kind, and whether something is of it.
type Kind = (&'static str, bool);

fn those(kinds: &[Kind]) -> Vec<&'static str> {
    let those = kinds.iter().filter(|(_, is)| *is);
    those.map(|&(name, _)| name).collect()
}

/// The kinds that a set is of, under a policy.
pub fn kinds(policy: &Policy, classes: ClassSet) -> Vec<&'static str> {
    let n = policy.class_count();
    let members: Vec<usize> = classes.members().collect();
    if !classes.is_of(policy) {
        let (first, last) = (members.first(), members.last());
        let above_n = n + 1..MOST_CLASSES;
        return those(&[
            (CLASS_N, last == Some(&n)),
            (CLASS_N_OF_16, last == Some(&n) && n == MOST_CLASSES),
            (
                ABOVE_N,
                members.iter().any(|member| above_n.contains(member)),
            ),
            (ABOVE_15, last >= Some(&MOST_CLASSES)),
            (ONLY_ABOVE_15, first >= Some(&MOST_CLASSES)),
            (CLASS_31, last == Some(&LAST_BIT)),
        ]);
    }
    let comparable = |a: usize, b: usize| policy.flows(a, b) || policy.flows(b, a);
    those(&[
        (EMPTY_SET, members.is_empty()),
        (ONE_CLASS, members.len() == 1),
        (
            TWO_INCOMPARABLE,
            matches!(*members, [a, b] if !comparable(a, b)),
        ),
        (ONE_BELOW, matches!(*members, [a, b] if comparable(a, b))),
        (SOME, members.len() > 2 && members.len() < n),
        (ALL, members.len() > 1 && members.len() == n),
    ])
}

const SEEN_BY_SOME: &str = "offers that some members see and others do not";
const BY_A_MIDDLE_ONE: &str = "offers seen, and by neither the lowest nor the highest member";
const NOT_BY_LOWEST: &str = "offers seen, and not by the lowest member";
const NOT_BY_HIGHEST: &str = "offers seen, and not by the highest member";
const BELOW_ONE_ABOVE_ALL: &str = "offers hidden, of a class below one above all members";
const LEAST_HIDDEN: &str = "offers of the least class hidden from the empty set";

/// The kinds of offers by which extracts for wrong sets would be told.
pub const OFFER_KINDS: [&str; 6] = [
    // From one that keeps what every member sees.
    SEEN_BY_SOME,
    // From one for a single member.
    NOT_BY_LOWEST,
    NOT_BY_HIGHEST,
    BY_A_MIDDLE_ONE,
    // From one for a class above all members.
    BELOW_ONE_ABOVE_ALL,
    LEAST_HIDDEN,
];

/// The kinds that each offer of a list is of, under a policy and for a set of its classes.
pub fn kinds_of_offers<'a>(
    policy: &Policy,
    classes: ClassSet,
    list: &'a [u32],
) -> impl Iterator<Item = &'static str> + 'a {
    let of_class = |class: usize| kinds_of_class(policy, classes, class);
    let kinds: Vec<_> = (0..policy.class_count()).map(of_class).collect();
    let offers = list.iter().filter_map(|&number| match Word::of(number) {
        Word::Offer(request) => Some(usize::from(request.class)),
        _ => None,
    });
    offers.flat_map(move |class| kinds.get(class).cloned().unwrap_or_default())
}

/// The kinds that the offers of a class are of.
fn kinds_of_class(policy: &Policy, classes: ClassSet, class: usize) -> Vec<&'static str> {
    let sees = |member: &usize| policy.flows(class, *member);
    let members: Vec<usize> = classes.members().collect();
    let (Some(lowest), Some(highest)) = (members.first(), members.last()) else {
        return those(&[(LEAST_HIDDEN, class == policy.least())]);
    };
    let seen = members.iter().any(sees);
    let above_all = |upper: &usize| members.iter().all(|&member| policy.flows(member, *upper));
    let mut uppers = (0..policy.class_count()).filter(above_all);
    those(&[
        (SEEN_BY_SOME, seen && !members.iter().all(sees)),
        (NOT_BY_LOWEST, seen && !sees(lowest)),
        (NOT_BY_HIGHEST, seen && !sees(highest)),
        (BY_A_MIDDLE_ONE, seen && !sees(lowest) && !sees(highest)),
        (
            BELOW_ONE_ABOVE_ALL,
            !seen && uppers.any(|upper| policy.flows(class, upper)),
        ),
    ])
}
