//! Wrong rules. Most of them leak or break a promise in a list of calls from a fresh
//! state; they exist so that tests can show that the searches for those find them. Of
//! each other one it is said here where it shows. Nothing but tests asks for one.

/// Which wrong rule is in place.
#[derive(Clone, Copy, Debug, Default, PartialEq, Eq)]
pub enum Planted {
    /// None: the rules of document 01 with W-201 to W-204, W-206, W-208, W-211 and W-212. Every tick,
    /// run, extract, recording, order and program uses this.
    #[default]
    Nothing,
    /// The dead time is always dropped.
    AlwaysElided,
    /// Document 000's own test (its Algorithm 2): the dead time is dropped if
    /// and only if no class strictly below the owner has turns left.
    Document000Elision,
    /// The trial walk of an epoch's last turn goes by the turns left of the
    /// epoch that ends, not by the caps.
    EpochEndForgotten,
    /// A higher class is asked first, and a lower one is given the turn if the
    /// higher is idle.
    HigherAskedFirst,
    /// A lower class whose request comes after the turn's start takes the turn
    /// back from an idle owner.
    TurnReclaimed,
    /// As [`Planted::EpochEndForgotten`], but only where E is above 5.
    EpochEndForgottenAboveFive,
    /// The dead time is always dropped where turns are of 240 ticks or more.
    AlwaysElidedInLongTurns,
    /// The age of a bank's last activate is kept in 8 bits, so that after 256
    /// cycles its gap counts as not met once more.
    BankAgeInEightBits,
    /// Where class 15 owns the turn, it is forgotten that the home class of the next
    /// turn may be incomparable: only one below keeps the dead time.
    IncomparableForgottenForOwner15,
    /// Besides its own limit of 8, each class draws on one pool of 120 requests.
    SharedPoolOf120,
    /// A mark that goes back to 1 moves on the mark of the class below, from
    /// which the walk came, as in a row of counting wheels.
    MarkCarried,
    /// A run whose last word is malformed answers with 14, though all its calls
    /// are made: a run's own status tells of a word that is struck out.
    RunAnswersForItsLastWord,
    /// A run refused with 15 makes its calls.
    RefusedRunMakesItsCalls,
    /// The trial walk goes to the children that the marks name as they are, not
    /// as they would move: it takes the way of the turn's own walk once more. It
    /// leaks where turns are used up as no list of calls from a fresh state uses
    /// them up.
    TrialByUnmovedMarks,
    /// The mark of a class that takes the turn moves if a request of another
    /// class waits.
    MarkMovedIfOthersWait,
    /// The trial walk, which starts at the least class, serves before home turns
    /// too.
    TrialBeforeHomeTurns,
    /// Before a home turn the dead time is dropped if the owner may flow to the
    /// class that the walk would end at by the requests that wait now.
    HomeElisionByNextOwner,
    /// A home class that takes its turn is charged if a request of a class strictly
    /// above it waits.
    HomeChargedIfHigherWaits,
    /// The plan begins one turn late: the first class in it has one home turn fewer
    /// than its minimum, and the walk of that turn starts at the least class.
    PlanOneShort,
    /// A home turn's walk starts at the least class, as if there were no plan.
    HomeTurnsStartAtLeast,
    /// The same, and whoever takes a home turn is not charged.
    HomeTurnsForAnyone,
    /// A home class takes its turn only if it has turns left. In a list of calls from a
    /// fresh state it always has some: this shows only from states that are handed in.
    HomeNeedsTurnsLeft,
    /// An owner that the walk ascends to is not charged. After a list of calls from a
    /// fresh state this shows in its turns left, and never in the log.
    AscentNotCharged,
    /// Where the dead time is kept, it begins one cycle early.
    DeadTimeEarly,
    /// A class's cap is E less the minimums of all classes strictly above it and less its
    /// own. After a list of calls from a fresh state this shows in the turns left, and never
    /// in the log; the promises on caps and turns left, held against these caps, are broken.
    CapLessOwnMinimum,
    /// The rule before W-203: the oldest of the owner's requests goes, or none. The count
    /// stays 0.
    OldestAlone,
    /// One count is shared by all classes. Wherever a turn follows that of a class which
    /// may not flow to its owner, the dead time was kept, so the first activate in it is of
    /// the oldest and sets the count to 0: it leaks in the stored counts, and never in the
    /// log.
    OneCount,
    /// The same, and an activate of the oldest sets the count to 0 only where it stands
    /// at 15.
    OneCountUpTo15,
    /// Of the requests whose gaps are met, one of the kind of the last activate of all goes
    /// first, however long ago that was and whoever made it.
    LastKindFirst,
    /// Of the requests whose gaps are met, one of the bank that was activated last goes
    /// last, however long ago that was and whoever did it.
    LastBankLast,
    /// The owner activates its youngest request whose gaps are met.
    YoungestFirst,
    /// A request that leaves from behind the oldest leaves its place to the youngest.
    LastMovesUp,
    /// Sixteen others may pass the oldest.
    SixteenPass,
    /// An activate of the oldest leaves the count as it is. Then no more others pass than
    /// may, so no promise of W-203 is broken but that the oldest goes whose gaps are met.
    CountNeverReset,
    /// An activate of the oldest leaves the count as it is unless it stands at 15: the next
    /// oldest goes on with the count of one that left. The same holds of it.
    CountKeptBelow15,
    /// All counts are set to 0 as a turn starts.
    CountsForgottenAtTurnStart,
    /// A class's count is set to 0 by each offer of the class that is taken.
    CountForgottenAtOffer,
    /// L sees what it would see by a set of classes made of W-205's masks out of a table in
    /// which the mask of class 5 has the bit of class 6 too.
    MaskOf5With6,
    /// L sees what it would see by a set of classes made of W-205's masks out of a table in
    /// which the masks of classes 9 and 10 are swapped. The set is asked by the bits
    /// themselves: if the swapped masks asked it too, it would be as if nothing were swapped.
    MasksOf9And10Swapped,
    /// A rank gap longer than the dead time is taken, in a file and in a policy that is handed
    /// in. It leaks: an activate of a hidden class may hold one back that L sees. The pairs of
    /// this search have such rank gaps.
    RankGapAboveDeadTime,
    /// Of the requests whose gaps are met, one on the rank of the last activate of all goes
    /// first, however long ago that was and whoever made it.
    LastRankFirst,
    /// The rank gap is kept from the last activate of all where that was on the same rank, and
    /// not where it was on another. It does not leak, since a gap of at most the dead time is
    /// over wherever a turn follows that of a class which may not flow to its owner: it is a
    /// wrong rule, and breaks promises.
    RankGapOnTheSameRank,
    /// A bank's last activate is kept by the bank's number alone, with its rank: one on another
    /// rank takes its place, and the same-bank gap is not kept from what was there. It does not
    /// leak, for the same reason.
    BankForgottenForAnotherRank,
    /// An extract shows 512 for a turn that is not L's with W-212's count of tried classes, as
    /// the log has it.
    HiddenTurnsShowTried,
    /// W-212's count has the classes above the owner too that have a request waiting.
    TriedWithWaitingAbove,
    /// W-212's count goes on from the owner to a class with nothing above it, by the marks as
    /// they would move.
    TriedToTheTop,
    /// A turn number carries W-212's count of the turn before it in the same run; the first of a
    /// run carries 0.
    TriedOfTheTurnBefore,
    /// W-212's count is one too large. It tells nothing more than the right one: it is a wrong
    /// rule, and breaks a promise.
    TriedOneTooMany,
    /// W-212's count leaves the owner out. It leaks as little.
    OwnerNotTried,
    /// A home class that takes its home turn counts 0 tried classes. It leaks as little.
    HomeClassNotTried,
    /// An extract for a set of classes keeps what may flow to every member. To the empty set it
    /// shows everything, which leaks. Of a set with members it hides too much and leaks nothing:
    /// there only a comparison with the right extract tells.
    KeptForEveryMember,
    /// An extract for a set of classes keeps the least class, whatever the set. The least class
    /// may flow to every class, so that this is right for each set with a member: it shows, and
    /// leaks, for the empty set alone.
    LeastAlwaysKept,
    /// The empty set is taken for the set of all classes.
    EmptySetAsAll,
    /// An extract for a set of classes is that for one class: the lowest to which all members may
    /// flow, where there is one. For one class, and for one with others below it, that is right;
    /// of two that are incomparable it shows what neither may see.
    SetAsItsJoin,
    /// An extract for a set with a class not below n gets 16 if what the others keep has no room,
    /// and then 9. Two lists that agree for those others get the same: it is a wrong order, and
    /// no leak. A comparison of the refusals tells.
    RoomBeforeClass,
    /// Where an activate's answer is due in the cycle of an answer with another word, W-204's check
    /// takes the answer first.
    AnswerTakenFirst,
    /// In a sound recording of W-204's a cycle may be the one before.
    CyclesMayRepeat,
    /// Where both of W-204's recordings are unsound, the cores' is named.
    CoresNamedFirst,
    /// The rest that W-204's check hands back begins after the first event without a partner.
    RestOneEventLate,
    /// W-204's recording of the wires has column commands too.
    ColumnsAsActivates,
    /// In W-204's recordings of a log a tick that was refused has a cycle, as if it were made.
    RefusedTicksCounted,
    /// In W-204's recordings of a log an offer that was taken has a cycle, as if it were a tick.
    OffersCountedAsTicks,
    /// W-208's orders come by rising value of the rows read as one number with row 0 least
    /// significant.
    RowZeroLeastSignificant,
    /// Among W-208's orders are those without a least class.
    NoLeastClassListed,
    /// W-208's places count from 1.
    PlacesFromOne,
    /// Of W-208's questions the place is asked before 2 and 8: past the last, no timing is refused.
    PlaceBeforeTiming,
    /// Of W-208's questions 2 and 8 are asked before 20.
    TimingBeforeClasses,
}

/// Every wrong rule of W-208's orders. A search of all places and of generated calls finds them.
pub const WRONG_ORDERS: [Planted; 5] = [
    Planted::RowZeroLeastSignificant,
    Planted::NoLeastClassListed,
    Planted::PlacesFromOne,
    Planted::PlaceBeforeTiming,
    Planted::TimingBeforeClasses,
];

/// Every wrong rule of W-204's check. A search of pairs of recordings finds them.
pub const WRONG_CHECKS: [Planted; 4] = [
    Planted::AnswerTakenFirst,
    Planted::CyclesMayRepeat,
    Planted::CoresNamedFirst,
    Planted::RestOneEventLate,
];

/// Every wrong rule of W-204's recordings of a log. A search of runs finds them.
pub const WRONG_RECORDINGS: [Planted; 3] = [
    Planted::ColumnsAsActivates,
    Planted::RefusedTicksCounted,
    Planted::OffersCountedAsTicks,
];

/// Every wrong rule of W-211's that leaks. For one class each of them is right: only pairs of lists
/// that agree for a set show it.
pub const LEAKS_OF_SETS: [Planted; 4] = [
    Planted::KeptForEveryMember,
    Planted::LeastAlwaysKept,
    Planted::EmptySetAsAll,
    Planted::SetAsItsJoin,
];

/// Every other wrong rule that leaks in a list of calls from a fresh state.
pub const LEAKS: [Planted; 29] = [
    Planted::AlwaysElided,
    Planted::Document000Elision,
    Planted::EpochEndForgotten,
    Planted::HigherAskedFirst,
    Planted::TurnReclaimed,
    Planted::EpochEndForgottenAboveFive,
    Planted::AlwaysElidedInLongTurns,
    Planted::BankAgeInEightBits,
    Planted::IncomparableForgottenForOwner15,
    Planted::SharedPoolOf120,
    Planted::MarkCarried,
    Planted::RunAnswersForItsLastWord,
    Planted::RefusedRunMakesItsCalls,
    Planted::MarkMovedIfOthersWait,
    Planted::TrialBeforeHomeTurns,
    Planted::HomeElisionByNextOwner,
    Planted::HomeChargedIfHigherWaits,
    Planted::OneCount,
    Planted::OneCountUpTo15,
    Planted::LastKindFirst,
    Planted::LastBankLast,
    Planted::MaskOf5With6,
    Planted::MasksOf9And10Swapped,
    Planted::RankGapAboveDeadTime,
    Planted::LastRankFirst,
    Planted::HiddenTurnsShowTried,
    Planted::TriedWithWaitingAbove,
    Planted::TriedToTheTop,
    Planted::TriedOfTheTurnBefore,
];

/// Those of [`LEAKS`] that no policy of W-208's small orders shows: E is 4, minimums are 0, and there
/// are four classes at most.
pub const NOT_UNDER_SMALL_ORDERS: [Planted; 11] = [
    // They go by home turns.
    Planted::TrialBeforeHomeTurns,
    Planted::HomeElisionByNextOwner,
    Planted::HomeChargedIfHigherWaits,
    // Wherever another class owns a turn, the least class has turns left, of the epoch that ends too:
    // the dead time is kept by each of these rules, as it is by the right one.
    Planted::Document000Elision,
    Planted::EpochEndForgotten,
    Planted::EpochEndForgottenAboveFive,
    // They go by classes above 3, or by more requests than four queues hold.
    Planted::IncomparableForgottenForOwner15,
    Planted::SharedPoolOf120,
    Planted::MaskOf5With6,
    Planted::MasksOf9And10Swapped,
    // A class below a hidden one, from which ways of different lengths lead up, makes five.
    Planted::TriedToTheTop,
];
