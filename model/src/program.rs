//! The program: what it prints for a policy file and a trace file.

use std::io::Write;

use crate::class_set::ClassSet;
use crate::extract::extract_set;
use crate::policy::{self, Policy};
use crate::recordings::{match_recordings, recording, rest, Recording, EVENT};
use crate::refusal::Refusal;
use crate::state;
use crate::trace::{self, LINE};

/// The line above the log.
pub const HEADER: &[u8] = b"status command answer turn\n";
/// "1 to 3 left-over bytes add the line".
pub const ENDS_INSIDE_WORD: &[u8] = b"trace ends inside a word\n";
/// "A refused policy prints only `policy refused` and the number".
const POLICY_REFUSED: &str = "policy refused";
const EXTRACT_REFUSED: &str = "extract refused";
/// The lines above what W-204's check says, and above events.
const MATCH_HEADER: &str = "status which at";
const EVENTS_HEADER: &str = "cycle word";

/// A trace file: its numbers, "low byte first", and the count of left-over
/// bytes.
pub struct TraceFile {
    pub numbers: Vec<u32>,
    pub left_over: usize,
}

/// Cuts a trace file into numbers.
pub fn read_trace(bytes: &[u8]) -> TraceFile {
    let words = bytes.chunks_exact(4);
    let left_over = words.remainder().len();
    let number = |word: &[u8]| u32::from_le_bytes([word[0], word[1], word[2], word[3]]);
    TraceFile {
        numbers: words.map(number).collect(),
        left_over,
    }
}

/// Exactly what the program prints: "a header and a line for each trace number,
/// in hexadecimal of 8 digits"; the line on left-over bytes comes last. "A
/// refused policy prints only" its refusal, left-over bytes or not.
pub fn output(policy_bytes: &[u8], trace_bytes: &[u8]) -> Vec<u8> {
    let (policy, refusal) = policy::read(policy_bytes);
    if let Some(refusal) = refusal {
        return refused(POLICY_REFUSED, refusal);
    }
    let trace = read_trace(trace_bytes);
    match run_from_fresh(&policy, &trace.numbers) {
        Ok(log) => print_lines(&log, trace.left_over),
        // Not met: a policy that was read is in range, and the log is as long
        // as it must be.
        Err(refusal) => refused("run refused", refusal),
    }
}

/// The extract of that run's log for a set of classes, in the same form.
pub fn extract_output(classes: ClassSet, policy_bytes: &[u8], trace_bytes: &[u8]) -> Vec<u8> {
    let (policy, refusal) = policy::read(policy_bytes);
    if let Some(refusal) = refusal {
        return refused(POLICY_REFUSED, refusal);
    }
    let trace = read_trace(trace_bytes);
    match run_from_fresh(&policy, &trace.numbers) {
        Ok(log) => {
            let mut out = vec![0; log.len()];
            match extract_set(&policy, classes, &trace.numbers, &log, &mut out) {
                (count, None) => print_lines(&out[..count], trace.left_over),
                (_, Some(refusal)) => refused(EXTRACT_REFUSED, refusal),
            }
        }
        Err(refusal) => refused("run refused", refusal),
    }
}

/// What W-204's check says of two recordings, which lie in files like a trace: the status, which
/// recording and where in it the rest begins, and the rest. The numbers are printed as a log's are.
pub fn match_output(delay: u8, wires_bytes: &[u8], cores_bytes: &[u8]) -> Vec<u8> {
    let files = [wires_bytes, cores_bytes].map(read_trace);
    let [wires, cores] = files.each_ref().map(|file| file.numbers.as_slice());
    let matched = match_recordings(wires, cores, delay);
    let which = matched.which.map_or(0, Recording::number);
    let (status, at) = (matched.status, matched.at);
    let mut text = format!("{MATCH_HEADER}\n{status:08X} {which:08X} {at:08X}\n");
    text += &print_events(rest(wires, cores, delay));
    for (file, name) in files.iter().zip(["wires", "cores"]) {
        if file.left_over > 0 {
            text += &format!("{name} end inside a word\n");
        }
    }
    text.into_bytes()
}

/// The two recordings of that run's log, if it begins at a cycle.
pub fn recordings_output(start: u32, policy_bytes: &[u8], trace_bytes: &[u8]) -> Vec<u8> {
    let (policy, refusal) = policy::read(policy_bytes);
    if let Some(refusal) = refusal {
        return refused(POLICY_REFUSED, refusal);
    }
    let trace = read_trace(trace_bytes);
    let log = match run_from_fresh(&policy, &trace.numbers) {
        Ok(log) => log,
        Err(refusal) => return refused("run refused", refusal),
    };
    let mut text = String::new();
    for (of, name) in Recording::BOTH.into_iter().zip(["wires", "cores"]) {
        let mut out = vec![0; EVENT * trace.numbers.len()];
        match recording(of, &trace.numbers, &log, start, &mut out) {
            (count, None) => text += &format!("{name}\n{}", print_events(&out[..count])),
            (_, Some(refusal)) => return refused("recordings refused", refusal),
        }
    }
    let mut text = text.into_bytes();
    if trace.left_over > 0 {
        text.extend_from_slice(ENDS_INSIDE_WORD);
    }
    text
}

fn print_events(numbers: &[u32]) -> String {
    let line = |event: &[u32]| format!("{:08X} {:08X}\n", event[0], event[1]);
    let lines: String = numbers.chunks_exact(EVENT).map(line).collect();
    format!("{EVENTS_HEADER}\n{lines}")
}

fn run_from_fresh(policy: &Policy, trace: &[u32]) -> Result<Vec<u32>, Refusal> {
    let (mut state, refusal) = state::fresh(policy);
    if let Some(refusal) = refusal {
        return Err(refusal);
    }
    let mut log = vec![0; LINE * trace.len()];
    trace::run(policy, &mut state, trace, &mut log)?;
    Ok(log)
}

fn refused(what: &str, refusal: Refusal) -> Vec<u8> {
    format!("{what} {}\n", refusal.number()).into_bytes()
}

fn print_lines(log: &[u32], left_over: usize) -> Vec<u8> {
    let mut text = HEADER.to_vec();
    for line in log.chunks_exact(LINE) {
        let [status, command, response, turn] = [line[0], line[1], line[2], line[3]];
        // Writing into a list of bytes has no way to fail.
        let _ = writeln!(text, "{status:08X} {command:08X} {response:08X} {turn:08X}");
    }
    if left_over > 0 {
        text.extend_from_slice(ENDS_INSIDE_WORD);
    }
    text
}
