//! The calls of the built library, covered so that no caller needs unsafe code.
//!
//! Every call that the library exports is declared here and nowhere else.

#![allow(unsafe_code)]

extern "C" {
    fn vigambul_run(
        policy: *const u8,
        policy_len: usize,
        trace: *const u32,
        trace_len: usize,
        log: *mut u32,
        log_len: usize,
    ) -> u32;

    fn vigambul_extract(
        policy: *const u8,
        policy_len: usize,
        class: u32,
        trace: *const u32,
        trace_len: usize,
        log: *const u32,
        log_len: usize,
        out: *mut u32,
        out_len: usize,
        status: *mut u32,
    ) -> usize;

    fn vigambul_extract_set(
        policy: *const u8,
        policy_len: usize,
        classes: u32,
        trace: *const u32,
        trace_len: usize,
        log: *const u32,
        log_len: usize,
        out: *mut u32,
        out_len: usize,
        status: *mut u32,
    ) -> usize;

    fn vigambul_walk_bound(
        policy: *const u8,
        policy_len: usize,
        class: u32,
        status: *mut u32,
    ) -> u32;

    fn vigambul_match(
        wires: *const u32,
        wires_len: usize,
        cores: *const u32,
        cores_len: usize,
        delay: u8,
        which: *mut u32,
        at: *mut usize,
    ) -> u32;

    fn vigambul_wires(
        trace: *const u32,
        trace_len: usize,
        log: *const u32,
        log_len: usize,
        start: u32,
        wires: *mut u32,
        wires_len: usize,
        count: *mut usize,
    ) -> u32;

    fn vigambul_cores(
        trace: *const u32,
        trace_len: usize,
        log: *const u32,
        log_len: usize,
        start: u32,
        cores: *mut u32,
        cores_len: usize,
        count: *mut usize,
    ) -> u32;

    fn vigambul_order(
        n: u32,
        place: u32,
        timing: *const u8,
        timing_len: usize,
        file: *mut u8,
        file_len: usize,
        len: *mut usize,
    ) -> u32;
}

/// What a status, or which recording it is, holds before the call: no call leaves it.
const NO_STATUS: u32 = 0x5AA5_5AA5;

/// What a place or a count holds before the call. No slice is so long, so that none is left.
const NO_COUNT: usize = usize::MAX - 0x5AA5;

/// Reads a policy file's bytes, makes its fresh state and runs the trace into
/// the log. Answers 0, 1 to 8 where the file is refused, or 15 where the log is
/// shorter than 4 times the trace; refused, it writes nothing.
pub fn run(policy: &[u8], trace: &[u32], log: &mut [u32]) -> u32 {
    // SAFETY: each pointer and length is that of a slice which lives for the
    // whole call, and only the log, which is lent for writing, is written.
    unsafe {
        vigambul_run(
            policy.as_ptr(),
            policy.len(),
            trace.as_ptr(),
            trace.len(),
            log.as_mut_ptr(),
            log.len(),
        )
    }
}

/// Reads a policy file's bytes and writes what a class may see of a trace's log
/// to the start of `out`. Answers how many numbers it wrote, and the status: 0,
/// 1 to 8 where the file is refused, or 9, 17 or 16; refused, the count is 0 and
/// nothing is written.
pub fn extract(
    policy: &[u8],
    class: u32,
    trace: &[u32],
    log: &[u32],
    out: &mut [u32],
) -> (usize, u32) {
    extract_by(vigambul_extract, policy, class, trace, log, out)
}

/// The same of what may be seen by at least one class of a set, class c in bit c.
pub fn extract_set(
    policy: &[u8],
    classes: u32,
    trace: &[u32],
    log: &[u32],
    out: &mut [u32],
) -> (usize, u32) {
    extract_by(vigambul_extract_set, policy, classes, trace, log, out)
}

/// A call that extracts for a class or for a set of classes.
type Extract = unsafe extern "C" fn(
    *const u8,
    usize,
    u32,
    *const u32,
    usize,
    *const u32,
    usize,
    *mut u32,
    usize,
    *mut u32,
) -> usize;

fn extract_by(
    call: Extract,
    policy: &[u8],
    number: u32,
    trace: &[u32],
    log: &[u32],
    out: &mut [u32],
) -> (usize, u32) {
    let mut status = NO_STATUS;
    // SAFETY: each pointer and length is that of a slice which lives for the
    // whole call, as does the status; only the status and `out`, which is lent
    // for writing, are written.
    let count = unsafe {
        call(
            policy.as_ptr(),
            policy.len(),
            number,
            trace.as_ptr(),
            trace.len(),
            log.as_ptr(),
            log.len(),
            out.as_mut_ptr(),
            out.len(),
            &mut status,
        )
    };
    (count, status)
}

/// Reads a policy file's bytes and counts the classes on the longest rising chain from a class,
/// itself counted. Answers the number and the status: 0, 1 to 8 where the file is refused, or 9;
/// refused, the number is 0.
pub fn walk_bound(policy: &[u8], class: u32) -> (u32, u32) {
    let mut status = NO_STATUS;
    // SAFETY: the pointer and the length are those of a slice which lives for the whole call,
    // as does the status, and only the status is written.
    let number = unsafe { vigambul_walk_bound(policy.as_ptr(), policy.len(), class, &mut status) };
    (number, status)
}

/// Holds two recordings together. Answers the status, 0 or 18, which recording is unsound or holds
/// the first event without a partner, and where in it the rest begins.
pub fn match_recordings(wires: &[u32], cores: &[u32], delay: u8) -> (u32, u32, usize) {
    let (mut which, mut at) = (NO_STATUS, NO_COUNT);
    // SAFETY: each pointer and length is that of a slice which lives for the whole call, as do the
    // two numbers, and only these are written.
    let status = unsafe {
        vigambul_match(
            wires.as_ptr(),
            wires.len(),
            cores.as_ptr(),
            cores.len(),
            delay,
            &mut which,
            &mut at,
        )
    };
    (status, which, at)
}

/// Writes the wires' recording of a trace's log that begins at a cycle to the start of `out`.
/// Answers how many numbers it wrote, and the status: 0, 17, 12 or 16; refused, the count is 0 and
/// nothing is written.
pub fn wires(trace: &[u32], log: &[u32], start: u32, out: &mut [u32]) -> (usize, u32) {
    record_by(vigambul_wires, trace, log, start, out)
}

/// The same of the cores' recording.
pub fn cores(trace: &[u32], log: &[u32], start: u32, out: &mut [u32]) -> (usize, u32) {
    record_by(vigambul_cores, trace, log, start, out)
}

/// A call that makes one of the two recordings.
type Record = unsafe extern "C" fn(
    *const u32,
    usize,
    *const u32,
    usize,
    u32,
    *mut u32,
    usize,
    *mut usize,
) -> u32;

fn record_by(
    call: Record,
    trace: &[u32],
    log: &[u32],
    start: u32,
    out: &mut [u32],
) -> (usize, u32) {
    let mut count = NO_COUNT;
    // SAFETY: each pointer and length is that of a slice which lives for the whole call, as does the
    // count; only the count and `out`, which is lent for writing, are written.
    let status = unsafe {
        call(
            trace.as_ptr(),
            trace.len(),
            log.as_ptr(),
            log.len(),
            start,
            out.as_mut_ptr(),
            out.len(),
            &mut count,
        )
    };
    (count, status)
}

/// Writes the policy file of the legal order of n classes at a place to the start of `file`. Answers
/// how many bytes it wrote, and the status: 0, 20, 2, 8 or 16; refused, or where the place is past the
/// last, it is 0 bytes and nothing is written.
pub fn order(n: u32, place: u32, timing: &[u8], file: &mut [u8]) -> (usize, u32) {
    let mut len = NO_COUNT;
    // SAFETY: each pointer and length is that of a slice which lives for the whole call, as does the
    // length; only the length and `file`, which is lent for writing, are written.
    let status = unsafe {
        vigambul_order(
            n,
            place,
            timing.as_ptr(),
            timing.len(),
            file.as_mut_ptr(),
            file.len(),
            &mut len,
        )
    };
    (len, status)
}
