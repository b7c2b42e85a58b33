//! Wrong extracts. They exist so that the tests can show that they find them;
//! the runs beside them are the model's.

use vigambul_model::extract::HIDDEN_TURN;
use vigambul_model::planted::Planted;
use vigambul_model::policy::{self, Policy};
use vigambul_model::refusal::Refusal;
use vigambul_model::trace::{class_bits, Word, COLUMN_BIT, ELIDED, LINE, OFFER_BIT, TRIED_BITS};

use crate::calls::{Calls, Model, Viewer};

/// Where an extract departs from document 01.
#[derive(Clone, Copy, Debug, PartialEq, Eq)]
pub enum Wrong {
    /// Nowhere.
    Nothing,

    // Those that leak.
    KeepsMalformedWords,
    KeepsOffersOfHiddenClasses,
    KeepsOffersOfMissingClasses,
    ShowsHiddenCommands,
    ShowsHiddenAnswers,
    ShowsHiddenOwners,
    /// 512, and 256 more where the hidden owner's dead time is dropped.
    ShowsHiddenDeadTimes,
    /// 512, with how many classes the walk to the hidden owner tried.
    ShowsHiddenWalks,
    /// A hidden command leaves its bits 30 and 31.
    ShowsThatWiresAreBusy,
    /// The order is read the wrong way round: L sees what is above it.
    SeesClassesAbove,
    /// 16 where the extract is shorter than the log.
    AsksRoomForAll,

    // Those that only give other numbers.
    DropsRefusedOffers,
    DropsRefusedTicks,
    HidesInLinesOfOffers,
    HidesStatuses,
    HidesOwnersAsNothing,
    ShowsTurnsOfNoClass,
    ShowsTurnsOfLowByteZero,
    ReadsOwnersFromFiveBits,
    /// Bits 9 to 15 and above 20 are cut from turn numbers: they are no field's.
    CutsTurnNumbers,
    /// Bits 16 to 20 are cut from turn numbers: so they were before W-212.
    CutsWalks,
    ReadsClassesFromFourBits,
    ShowsWordsWithoutBit31,
    HidesWordsThatAreNoOffers,
    CutsWords,
    /// Bits 22 and 23 are cut from words alone.
    CutsRanks,
    /// Offers with bit 22 or 23 are dropped, as malformed words are: so it was before W-206.
    DropsOffersOfOtherRanks,
    WritesPastTheCount,
    WritesBeforeItRefuses,
    CountsWhereItRefuses,
    TakesLogsTooLong,
    TakesClassesByTheirLowByte,
    AsksLogBeforeClass,
    AsksRoomBeforeLog,
    AsksClassBeforeFile,

    // W-211's, which are for extracts for sets. Those that leak.
    /// Kept is what may flow to every member: to the empty set, everything.
    KeepsForEveryMember,
    /// The least class is kept, whatever the set. It may flow to every class, so that this is
    /// wrong for the empty set alone.
    KeepsTheLeastClass,
    TakesTheEmptySetForAll,
    /// The rows of the members are intersected: seen is what all of them may flow to.
    SeesClassesAboveAll,

    // Those that hide too much, or refuse wrongly.
    /// Kept is what may flow to every member, if there is one.
    KeepsForEveryMemberOfSome,
    SeesByTheLowestMember,
    SeesByTheHighestMember,
    /// Kept is what is a member's own.
    SeesMembersAlone,
    /// 9 is asked of no bit.
    IgnoresMissingClasses,
    /// The set is cut to 16 bits.
    IgnoresBitsAbove15,
    /// 9 is asked of bits above n.
    IgnoresBitN,
    /// 9 for the empty set.
    RefusesTheEmptySet,
    AsksRoomBeforeClass,
}

/// Wrong extracts for sets of classes that leak what may flow to no member.
pub const LEAKS_OF_SETS: [Wrong; 4] = [
    Wrong::KeepsForEveryMember,
    Wrong::KeepsTheLeastClass,
    Wrong::TakesTheEmptySetForAll,
    Wrong::SeesClassesAboveAll,
];

/// Wrong extracts for sets of classes that only a comparison with right ones finds.
pub const OTHERS_OF_SETS: [Wrong; 9] = [
    Wrong::KeepsForEveryMemberOfSome,
    Wrong::SeesByTheLowestMember,
    Wrong::SeesByTheHighestMember,
    Wrong::SeesMembersAlone,
    Wrong::IgnoresMissingClasses,
    Wrong::IgnoresBitsAbove15,
    Wrong::IgnoresBitN,
    Wrong::RefusesTheEmptySet,
    Wrong::AsksRoomBeforeClass,
];

/// Wrong extracts that leak what may not flow to L.
pub const LEAKS: [Wrong; 11] = [
    Wrong::KeepsMalformedWords,
    Wrong::KeepsOffersOfHiddenClasses,
    Wrong::KeepsOffersOfMissingClasses,
    Wrong::ShowsHiddenCommands,
    Wrong::ShowsHiddenAnswers,
    Wrong::ShowsHiddenOwners,
    Wrong::ShowsHiddenDeadTimes,
    Wrong::ShowsHiddenWalks,
    Wrong::ShowsThatWiresAreBusy,
    Wrong::SeesClassesAbove,
    Wrong::AsksRoomForAll,
];

/// Wrong extracts that only a comparison with right ones finds.
pub const OTHERS: [Wrong; 24] = [
    Wrong::DropsRefusedOffers,
    Wrong::DropsRefusedTicks,
    Wrong::HidesInLinesOfOffers,
    Wrong::HidesStatuses,
    Wrong::HidesOwnersAsNothing,
    Wrong::ShowsTurnsOfNoClass,
    Wrong::ShowsTurnsOfLowByteZero,
    Wrong::ReadsOwnersFromFiveBits,
    Wrong::CutsTurnNumbers,
    Wrong::CutsWalks,
    Wrong::ReadsClassesFromFourBits,
    Wrong::ShowsWordsWithoutBit31,
    Wrong::HidesWordsThatAreNoOffers,
    Wrong::CutsWords,
    Wrong::CutsRanks,
    Wrong::DropsOffersOfOtherRanks,
    Wrong::WritesPastTheCount,
    Wrong::WritesBeforeItRefuses,
    Wrong::CountsWhereItRefuses,
    Wrong::TakesLogsTooLong,
    Wrong::TakesClassesByTheirLowByte,
    Wrong::AsksLogBeforeClass,
    Wrong::AsksRoomBeforeLog,
    Wrong::AsksClassBeforeFile,
];

/// The model's runs, and extracts that are wrong in one way.
pub struct WithWrongExtract(pub Wrong);

impl Calls for WithWrongExtract {
    fn run(&self, policy: &[u8], trace: &[u32], log: &mut [u32]) -> u32 {
        Model(Planted::Nothing).run(policy, trace, log)
    }

    fn extract(
        &self,
        policy: &[u8],
        viewer: Viewer,
        trace: &[u32],
        log: &[u32],
        out: &mut [u32],
    ) -> (usize, u32) {
        let (policy, refusal) = policy::read(policy);
        let view = View::new(&policy, viewer, self.0);
        let kept = view.kept(trace, log);
        if let Some(refusal) = view.refused(refusal, trace, log, kept.len(), out.len()) {
            if self.0 == Wrong::WritesBeforeItRefuses && refusal == Refusal::ExtractTooShort {
                let room = out.len();
                out.copy_from_slice(&kept[..room]);
            }
            let count = match self.0 {
                Wrong::CountsWhereItRefuses => kept.len(),
                _ => 0,
            };
            return (count, refusal.number());
        }
        // Shorter than what is kept only where the room is asked for wrongly.
        let count = kept.len().min(out.len());
        out[..count].copy_from_slice(&kept[..count]);
        if self.0 == Wrong::WritesPastTheCount {
            out[count..].fill(0);
        }
        (count, 0)
    }
}

/// What a class or a set of classes sees, wrongly.
struct View<'a> {
    policy: &'a Policy,
    /// The class, or the members of the set, by rising number; those that 9 refuses too.
    members: Vec<usize>,
    wrong: Wrong,
}

impl<'a> View<'a> {
    fn new(policy: &'a Policy, viewer: Viewer, wrong: Wrong) -> View<'a> {
        let n = policy.class_count();
        let members = match viewer {
            Viewer::Class(class) if wrong == Wrong::TakesClassesByTheirLowByte => {
                vec![class as usize & 0xFF]
            }
            Viewer::Class(class) => vec![class as usize],
            Viewer::Set(classes) => {
                let members = (0..32).filter(|&class| classes >> class & 1 == 1);
                let taken = members.filter(|&class| match wrong {
                    Wrong::IgnoresMissingClasses => class < n,
                    Wrong::IgnoresBitsAbove15 => class < 16,
                    Wrong::IgnoresBitN => class != n,
                    _ => true,
                });
                taken.collect()
            }
        };
        View {
            policy,
            members,
            wrong,
        }
    }

    fn is(&self, wrong: Wrong) -> bool {
        self.wrong == wrong
    }

    /// "Order: files 1 to 8; extracts 13, 9, 17, 16", or another one.
    fn refused(
        &self,
        file: Option<Refusal>,
        trace: &[u32],
        log: &[u32],
        kept: usize,
        room: usize,
    ) -> Option<Refusal> {
        let needed = LINE * trace.len();
        let wrong_log = match self.wrong {
            Wrong::TakesLogsTooLong => log.len() < needed,
            _ => log.len() != needed,
        };
        let needed_room = match self.wrong {
            Wrong::AsksRoomForAll => log.len(),
            _ => kept,
        };
        let mut members = self.members.iter();
        let no_class = members.any(|&member| member >= self.policy.class_count())
            || self.members.is_empty() && self.is(Wrong::RefusesTheEmptySet);
        let class = no_class.then_some(Refusal::Class);
        let log = wrong_log.then_some(Refusal::LogNotOfTrace);
        let extract = (room < needed_room).then_some(Refusal::ExtractTooShort);
        match self.wrong {
            // A refused file leaves no class: 9 would meet all of them, and is
            // asked here of those that no file has.
            Wrong::AsksClassBeforeFile if self.members.last() >= Some(&16) => class.or(file),
            Wrong::AsksLogBeforeClass => file.or(log).or(class).or(extract),
            Wrong::AsksRoomBeforeLog => file.or(class).or(extract).or(log),
            Wrong::AsksRoomBeforeClass if no_class => file.or(extract).or(class),
            _ => file.or(class).or(log).or(extract),
        }
    }

    /// The numbers of the kept lines as they are shown. A log that ends too
    /// early has fewer.
    fn kept(&self, trace: &[u32], log: &[u32]) -> Vec<u32> {
        trace
            .iter()
            .zip(log.chunks_exact(LINE))
            .filter(|&(&number, line)| self.keeps(number, line))
            .flat_map(|(&number, line)| self.shown_line(number, line))
            .collect()
    }

    fn keeps(&self, number: u32, line: &[u32]) -> bool {
        let refused = line[0] != 0;
        match Word::of(number) {
            Word::Tick => !(refused && self.is(Wrong::DropsRefusedTicks)),
            Word::Malformed => self.is(Wrong::KeepsMalformedWords),
            Word::Offer(request) => {
                let class = usize::from(request.class);
                let exists = class < self.policy.class_count();
                if !exists {
                    self.is(Wrong::KeepsOffersOfMissingClasses)
                } else if !self.sees(class) {
                    self.is(Wrong::KeepsOffersOfHiddenClasses)
                } else if request.rank != 0 && self.is(Wrong::DropsOffersOfOtherRanks) {
                    false
                } else {
                    !(refused && self.is(Wrong::DropsRefusedOffers))
                }
            }
        }
    }

    fn sees(&self, other: usize) -> bool {
        let members = &self.members;
        let flows_to = |&member: &usize| self.policy.flows(other, member);
        let flows_from = |&member: &usize| self.policy.flows(member, other);
        let to_one = members.iter().any(flows_to);
        let exists = other < self.policy.class_count();
        match self.wrong {
            Wrong::SeesClassesAbove => members.iter().any(flows_from),
            Wrong::KeepsForEveryMember => exists && members.iter().all(flows_to),
            Wrong::KeepsForEveryMemberOfSome => to_one && members.iter().all(flows_to),
            Wrong::KeepsTheLeastClass => to_one || other == self.policy.least(),
            Wrong::TakesTheEmptySetForAll => to_one || members.is_empty() && exists,
            Wrong::SeesClassesAboveAll => exists && members.iter().all(flows_from),
            Wrong::SeesByTheLowestMember => members.first().is_some_and(flows_to),
            Wrong::SeesByTheHighestMember => members.last().is_some_and(flows_to),
            Wrong::SeesMembersAlone => members.contains(&other),
            _ => to_one,
        }
    }

    fn shown_line(&self, number: u32, line: &[u32]) -> [u32; LINE] {
        let [status, command, answer, turn] = [line[0], line[1], line[2], line[3]];
        if number != 0 && !self.is(Wrong::HidesInLinesOfOffers) {
            return [status, command, answer, turn];
        }
        [
            match self.wrong {
                Wrong::HidesStatuses => 0,
                _ => status,
            },
            match self.wrong {
                Wrong::ShowsHiddenCommands => command,
                Wrong::ShowsThatWiresAreBusy => match self.shown_word(command) {
                    0 => command & (OFFER_BIT | COLUMN_BIT),
                    shown => shown,
                },
                _ => self.shown_word(command),
            },
            match self.wrong {
                Wrong::ShowsHiddenAnswers => answer,
                _ => self.shown_word(answer),
            },
            self.shown_turn(turn),
        ]
    }

    fn shown_word(&self, word: u32) -> u32 {
        let bits = usize::from(class_bits(word));
        let class = match self.wrong {
            Wrong::ReadsClassesFromFourBits => bits & 0xF,
            _ => bits,
        };
        let no_offer = word & OFFER_BIT == 0;
        if no_offer && self.is(Wrong::ShowsWordsWithoutBit31) {
            word
        } else if (no_offer && self.is(Wrong::HidesWordsThatAreNoOffers)) || !self.sees(class) {
            0
        } else if self.is(Wrong::CutsWords) {
            word & 0xDF3F_FFFF
        } else if self.is(Wrong::CutsRanks) {
            word & !(3 << 22)
        } else {
            word
        }
    }

    fn shown_turn(&self, turn: u32) -> u32 {
        let low = match self.wrong {
            Wrong::ReadsOwnersFromFiveBits => turn & 0x1F,
            _ => turn & 0xFF,
        };
        let owner = (low as usize).checked_sub(1);
        let names_class = owner.is_some_and(|owner| owner < self.policy.class_count());
        let shown = match (turn, owner) {
            (0, _) => true,
            (_, Some(owner)) if names_class => {
                self.sees(owner) || self.is(Wrong::ShowsHiddenOwners)
            }
            (_, Some(_)) => self.is(Wrong::ShowsTurnsOfNoClass),
            (_, None) => self.is(Wrong::ShowsTurnsOfLowByteZero),
        };
        match self.wrong {
            Wrong::CutsTurnNumbers if shown => turn & (TRIED_BITS | 0x1FF),
            Wrong::CutsWalks if shown => turn & !TRIED_BITS,
            _ if shown => turn,
            Wrong::HidesOwnersAsNothing => 0,
            Wrong::ShowsHiddenDeadTimes => HIDDEN_TURN | turn & ELIDED,
            Wrong::ShowsHiddenWalks => HIDDEN_TURN | turn & TRIED_BITS,
            _ => HIDDEN_TURN,
        }
    }
}
