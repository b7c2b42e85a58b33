//! Faults in what the search for leaks compares. No rule is wrong here: after
//! both lists of a pair are performed, one thing is changed in the outcome of
//! one of them, in one place. They exist so that tests can show that each
//! comparison is made and that it alone tells the difference.

use crate::leaks::{Outcome, Performed};
use crate::pairs::Pair;
use crate::refusal::Refusal;
use crate::state::ClassState;
use crate::trace::{class_bits, Word, ELIDED, LINE, TRIED_SHIFT};

/// What is changed in the outcome of one of a pair's lists.
#[derive(Clone, Copy, Debug, Default, PartialEq, Eq)]
pub enum Altered {
    #[default]
    Nothing,
    /// A run of the list was refused.
    RunRefused,
    /// The extract with room enough was refused.
    ExtractRefused,
    /// The extract's count is four less; what it wrote stays.
    Count,
    /// The status in the log line of a kept number.
    Status,
    /// A command of a class that may flow to L.
    Command,
    /// An answer to such a class.
    Answer,
    /// Whether the dead time of such a class's turn is dropped.
    SeenTurn,
    /// How many classes the walk of such a turn tried.
    SeenWalk,
    /// A turn of another class: its start is missing.
    HiddenTurn,
    /// A number past the extract's count was written.
    PastTheCount,
    /// An extract with one number too little room was not refused.
    ShortRoomTaken,
    /// An extract with one number too little room was refused, but wrote.
    ShortRoomWritten,
    /// An extract with just enough room was refused.
    JustRoomRefused,
    /// An extract for a set with a missing class was not refused.
    RefusedSetTaken,
    /// A request less waits in a class that may flow to L.
    QueueLength,
    /// The oldest and the newest of such a class's requests are swapped.
    QueueOrder,
    /// Tag, bank, kind or rank of the newest one.
    QueuedRequest,
    TurnsLeft,
    Mark,
    /// How many requests have passed such a class's oldest.
    Passed,
    /// Whatever L may not see: queues, turns left, marks, counts and commands of other
    /// classes, the walks of their turns, the owner and what is in flight. No comparison may
    /// tell.
    HiddenParts,
}

/// One of the places at which a change can be made; which one goes by the seed.
fn one_of<T: Copy>(places: &[T], seed: u64) -> Option<T> {
    let place = seed.checked_rem(places.len() as u64)?;
    places.get(place as usize).copied()
}

/// Whether L may see the owner of a turn number other than 0.
fn sees_owner(pair: &Pair, turn: u32) -> bool {
    pair.sees(((turn & 0xFF) as usize).wrapping_sub(1))
}

impl Altered {
    /// Changes the log or the state of a performed list. Tells whether there was
    /// anything to change.
    pub(crate) fn change_performed(
        self,
        pair: &Pair,
        side: usize,
        seed: u64,
        done: &mut Performed,
    ) -> bool {
        self.change_whole(pair, seed, done).is_some()
            || self.change_log(pair, side, seed, done).is_some()
            || self.change_class(pair, seed, done).is_some()
    }

    fn change_whole(self, pair: &Pair, seed: u64, done: &mut Performed) -> Option<()> {
        match self {
            Altered::RunRefused => done.run_refused = Some(Refusal::OutOfRange),
            Altered::HiddenParts => {
                let n = pair.policy.class_count();
                let hidden: Vec<usize> = (0..n).filter(|&class| !pair.sees(class)).collect();
                let class = one_of(&hidden, seed)?;
                let own = &mut done.state.classes[class];
                own.left ^= 1;
                own.pointer ^= 1;
                own.passed ^= 1;
                own.queue.pop_front();
                done.state.owner = class;
                done.state.elided ^= true;
                done.state.columns.clear();
                done.state.responses.clear();
                done.state.last_activate = None;
                for line in done.log.chunks_exact_mut(LINE) {
                    for word in &mut line[1..3] {
                        if !pair.sees(usize::from(class_bits(*word))) {
                            *word = 0;
                        }
                    }
                    if line[3] != 0 && !sees_owner(pair, line[3]) {
                        line[3] ^= 1 << TRIED_SHIFT;
                    }
                }
            }
            _ => return None,
        }
        Some(())
    }

    fn change_log(self, pair: &Pair, side: usize, seed: u64, done: &mut Performed) -> Option<()> {
        let seen_word = |word: u32| word != 0 && pair.sees(usize::from(class_bits(word)));
        let list = &pair.lists[side];
        let fits = |place: usize| {
            let line = &done.log[LINE * place..][..LINE];
            let tick = Word::of(list[place]) == Word::Tick;
            match self {
                Altered::Status => pair.seen.keeps(list[place]),
                Altered::Command => tick && seen_word(line[1]),
                Altered::Answer => tick && seen_word(line[2]),
                Altered::SeenTurn | Altered::SeenWalk => line[3] != 0 && sees_owner(pair, line[3]),
                Altered::HiddenTurn => line[3] != 0 && !sees_owner(pair, line[3]),
                _ => false,
            }
        };
        let places: Vec<usize> = (0..list.len()).filter(|&place| fits(place)).collect();
        let line = &mut done.log[LINE * one_of(&places, seed)?..][..LINE];
        match self {
            Altered::Status => line[0] ^= 1,
            Altered::Command => line[1] ^= 1,
            Altered::Answer => line[2] ^= 1,
            Altered::SeenTurn => line[3] ^= ELIDED,
            Altered::SeenWalk => line[3] ^= 1 << TRIED_SHIFT,
            _ => line[3] = 0,
        }
        Some(())
    }

    fn change_class(self, pair: &Pair, seed: u64, done: &mut Performed) -> Option<()> {
        let fits = |own: &ClassState| match self {
            Altered::TurnsLeft | Altered::Mark | Altered::Passed => true,
            Altered::QueueLength | Altered::QueuedRequest => !own.queue.is_empty(),
            Altered::QueueOrder => own.queue.front() != own.queue.back(),
            _ => false,
        };
        let classes: Vec<usize> = (0..pair.policy.class_count())
            .filter(|&class| pair.sees(class) && fits(&done.state.classes[class]))
            .collect();
        let own = &mut done.state.classes[one_of(&classes, seed)?];
        match self {
            Altered::TurnsLeft => own.left ^= 1,
            Altered::Mark => own.pointer ^= 1,
            Altered::Passed => own.passed ^= 1,
            Altered::QueueLength => {
                own.queue.pop_back()?;
            }
            Altered::QueueOrder => {
                let last = own.queue.len().checked_sub(1)?;
                own.queue.swap(0, last);
            }
            _ => {
                let newest = own.queue.back_mut()?;
                match seed % 4 {
                    0 => newest.tag ^= 1,
                    1 => newest.bank ^= 1,
                    2 => newest.kind ^= 1,
                    _ => newest.rank ^= 1,
                }
            }
        }
        Some(())
    }

    /// Changes what the extracts of a performed list handed back and wrote.
    pub(crate) fn change_outcome(self, outcome: &mut Outcome) -> bool {
        let short_room = outcome.short_room.as_mut();
        match (self, short_room) {
            (Altered::ExtractRefused, _) => {
                outcome.extract.count = 0;
                outcome.extract.refusal = Some(Refusal::ExtractTooShort);
            }
            (Altered::Count, _) if outcome.extract.count > 0 => outcome.extract.count -= LINE,
            (Altered::PastTheCount, _) => match outcome.extract.out.last_mut() {
                Some(last) => *last ^= 1,
                None => return false,
            },
            (Altered::JustRoomRefused, _) => {
                outcome.just_room.count = 0;
                outcome.just_room.refusal = Some(Refusal::ExtractTooShort);
            }
            (Altered::RefusedSetTaken, _) => match outcome.refused.as_mut() {
                Some(refused) => refused.refusal = None,
                None => return false,
            },
            (Altered::ShortRoomTaken, Some(short)) => {
                short.count = short.out.len();
                short.refusal = None;
            }
            (Altered::ShortRoomWritten, Some(short)) => match short.out.first_mut() {
                Some(first) => *first ^= 1,
                None => return false,
            },
            _ => return false,
        }
        true
    }
}
