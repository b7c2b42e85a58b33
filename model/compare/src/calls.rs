//! The calls of the library for C, of the library itself or of something in its
//! place: so the tests can show that they find what is wrong.

use std::fmt::{self, Display, Formatter};

use vigambul_model::class_set::ClassSet;
use vigambul_model::extract::extract_set_planted;
use vigambul_model::orders::Orders;
use vigambul_model::planted::Planted;
use vigambul_model::recordings::{match_planted, recording_planted, Recording};
use vigambul_model::refusal::Refusal;
use vigambul_model::trace::run_planted;
use vigambul_model::{policy, refusal, state};

use crate::library;

/// Whom an extract is for. The library has a function for each.
#[derive(Clone, Copy, Debug, PartialEq, Eq)]
pub enum Viewer {
    /// A class by its number, which may be any.
    Class(u32),
    /// A set of classes, class c in bit c.
    Set(u32),
}

impl Viewer {
    /// The set that the model is asked for.
    pub fn classes(self) -> ClassSet {
        match self {
            Viewer::Class(class) => ClassSet::of(class as usize),
            Viewer::Set(classes) => ClassSet(classes),
        }
    }
}

impl Display for Viewer {
    fn fmt(&self, formatter: &mut Formatter) -> fmt::Result {
        match self {
            Viewer::Class(class) => write!(formatter, "class {class}"),
            Viewer::Set(_) => write!(formatter, "the set {}", self.classes()),
        }
    }
}

/// What the library for C does.
pub trait Calls {
    /// The run of a trace from the fresh state of a policy file: the status.
    fn run(&self, policy: &[u8], trace: &[u32], log: &mut [u32]) -> u32;

    /// The extract of a trace's log for a class or a set of classes: the count and the status.
    fn extract(
        &self,
        policy: &[u8],
        viewer: Viewer,
        trace: &[u32],
        log: &[u32],
        out: &mut [u32],
    ) -> (usize, u32);
}

/// The built library.
pub struct Library;

impl Calls for Library {
    fn run(&self, policy: &[u8], trace: &[u32], log: &mut [u32]) -> u32 {
        library::run(policy, trace, log)
    }

    fn extract(
        &self,
        policy: &[u8],
        viewer: Viewer,
        trace: &[u32],
        log: &[u32],
        out: &mut [u32],
    ) -> (usize, u32) {
        match viewer {
            Viewer::Class(class) => library::extract(policy, class, trace, log, out),
            Viewer::Set(classes) => library::extract_set(policy, classes, trace, log, out),
        }
    }
}

/// The model, with a wrong rule in place or none.
pub struct Model(pub Planted);

impl Calls for Model {
    fn run(&self, policy: &[u8], trace: &[u32], log: &mut [u32]) -> u32 {
        let (policy, refusal) = policy::read_planted(policy, self.0);
        let (mut state, _) = state::fresh_planted(&policy, self.0);
        let run = || run_planted(&policy, &mut state, trace, log, self.0);
        refusal
            .map_or_else(run, Err)
            .map_or_else(|refusal| refusal.number(), |()| 0)
    }

    fn extract(
        &self,
        policy: &[u8],
        viewer: Viewer,
        trace: &[u32],
        log: &[u32],
        out: &mut [u32],
    ) -> (usize, u32) {
        let (policy, refusal) = policy::read_planted(policy, self.0);
        if let Some(refusal) = refusal {
            return (0, refusal.number());
        }
        let classes = viewer.classes();
        let outcome = extract_set_planted(&policy, classes, trace, log, out, self.0);
        (outcome.unwrap_or(0), refusal::status(&outcome))
    }
}

/// What the library for C does with W-204's recordings.
pub trait RecordingCalls {
    /// The check of two recordings: the status, which recording, and where its rest begins.
    fn match_recordings(&self, wires: &[u32], cores: &[u32], delay: u8) -> (u32, u32, usize);

    /// One of the two recordings of a trace's log that begins at a cycle: the count and the status.
    fn recording(
        &self,
        of: Recording,
        trace: &[u32],
        log: &[u32],
        start: u32,
        out: &mut [u32],
    ) -> (usize, u32);
}

impl RecordingCalls for Library {
    fn match_recordings(&self, wires: &[u32], cores: &[u32], delay: u8) -> (u32, u32, usize) {
        library::match_recordings(wires, cores, delay)
    }

    fn recording(
        &self,
        of: Recording,
        trace: &[u32],
        log: &[u32],
        start: u32,
        out: &mut [u32],
    ) -> (usize, u32) {
        match of {
            Recording::Wires => library::wires(trace, log, start, out),
            Recording::Cores => library::cores(trace, log, start, out),
        }
    }
}

impl RecordingCalls for Model {
    fn match_recordings(&self, wires: &[u32], cores: &[u32], delay: u8) -> (u32, u32, usize) {
        let matched = match_planted(wires, cores, delay, self.0);
        let which = matched.which.map_or(0, Recording::number);
        (matched.status, which, matched.at)
    }

    fn recording(
        &self,
        of: Recording,
        trace: &[u32],
        log: &[u32],
        start: u32,
        out: &mut [u32],
    ) -> (usize, u32) {
        let outcome = recording_planted(of, trace, log, start, out, self.0);
        (outcome.unwrap_or(0), refusal::status(&outcome))
    }
}

/// What the library for C does with W-208's orders.
pub trait OrderCalls {
    /// The policy file of the order of n classes at a place: its number of bytes and the status.
    fn order_file(&self, n: u32, place: u32, timing: &[u8], file: &mut [u8]) -> (usize, u32);
}

impl OrderCalls for Library {
    fn order_file(&self, n: u32, place: u32, timing: &[u8], file: &mut [u8]) -> (usize, u32) {
        library::order(n, place, timing, file)
    }
}

/// The model's listing, which holds its wrong rule itself.
impl OrderCalls for Orders {
    fn order_file(&self, n: u32, place: u32, timing: &[u8], file: &mut [u8]) -> (usize, u32) {
        let (count, refusal) = self.file(n, place, timing, file);
        (count, refusal.map_or(0, Refusal::number))
    }
}
