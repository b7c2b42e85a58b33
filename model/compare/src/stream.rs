//! The program over [`crate::fast`]: it streams, so that a trace of any length
//! runs in constant memory.

use std::fs::File;
use std::io::{self, ErrorKind, Read, Write};
use std::os::fd::AsFd;
use std::path::Path;

use vigambul_model::policy::{self, LONGEST_FILE};
use vigambul_model::program::{ENDS_INSIDE_WORD, HEADER};
use vigambul_model::trace::LINE;

use crate::fast::Controller;

/// Trace numbers in a block. Its log and its text stay in a processor's cache.
const BLOCK: usize = 4096;
/// The bytes of a trace number.
const WORD: usize = 4;
/// The bytes of a printed line: four numbers of 8 digits, each with a space or
/// the line's end after it.
pub const TEXT_LINE: usize = LINE * 9;

/// The digits of every byte.
const PAIRS: [[u8; 2]; 256] = pairs();

const fn pairs() -> [[u8; 2]; 256] {
    let digits = b"0123456789ABCDEF";
    let mut pairs = [[0; 2]; 256];
    let mut byte = 0;
    while byte < 256 {
        pairs[byte] = [digits[byte >> 4], digits[byte & 0xF]];
        byte += 1;
    }
    pairs
}

/// The program: policy.bin and trace.bin of the working folder, to standard
/// output. That is written to as a file, since it needs no second buffer.
pub fn program() -> io::Result<()> {
    let mut out = File::from(io::stdout().as_fd().try_clone_to_owned()?);
    print_log(Path::new(""), &mut out)
}

/// Reads policy.bin and trace.bin of a folder and prints the log.
pub fn print_log(folder: &Path, out: &mut impl Write) -> io::Result<()> {
    let mut file = Vec::new();
    if let Some(policy) = open(&folder.join("policy.bin"))? {
        // One byte past the longest file shows that it is too long.
        policy
            .take(LONGEST_FILE as u64 + 1)
            .read_to_end(&mut file)?;
    }
    let (policy, refusal) = policy::read(&file);
    if let Some(refusal) = refusal {
        return writeln!(out, "policy refused {}", refusal.number());
    }
    out.write_all(HEADER)?;
    if let Some(trace) = open(&folder.join("trace.bin"))? {
        let left_over = print_lines(&mut Controller::new(&policy), trace, out)?;
        if left_over > 0 {
            out.write_all(ENDS_INSIDE_WORD)?;
        }
    }
    out.flush()
}

/// "A missing file is read as empty."
fn open(path: &Path) -> io::Result<Option<File>> {
    match File::open(path) {
        Ok(file) => Ok(Some(file)),
        Err(error) if error.kind() == ErrorKind::NotFound => Ok(None),
        Err(error) => Err(error),
    }
}

/// Prints a line for each trace number and gives the count of left-over bytes.
fn print_lines(
    controller: &mut Controller,
    mut trace: impl Read,
    out: &mut impl Write,
) -> io::Result<usize> {
    let mut bytes = vec![0; BLOCK * WORD];
    let mut text = vec![0; BLOCK * TEXT_LINE];
    // Bytes of a number that a read has cut in two stand at the front.
    let mut held = 0;
    loop {
        let count = match trace.read(&mut bytes[held..]) {
            Ok(0) => return Ok(held),
            Ok(count) => count,
            Err(error) if error.kind() == ErrorKind::Interrupted => continue,
            Err(error) => return Err(error),
        };
        let end = held + count;
        held = end % WORD;
        let mut printed = 0;
        for word in bytes[..end - held].chunks_exact(WORD) {
            let number = u32::from_le_bytes([word[0], word[1], word[2], word[3]]);
            let line = &mut text[printed..printed + TEXT_LINE];
            put_line(line, &controller.call(number));
            printed += TEXT_LINE;
        }
        out.write_all(&text[..printed])?;
        bytes.copy_within(end - held..end, 0);
    }
}

/// The text of four log numbers, into as many bytes as it takes.
pub fn put_line(text: &mut [u8], line: &[u32; LINE]) {
    for (place, number) in text.chunks_exact_mut(9).zip(line) {
        for (digits, byte) in place.chunks_exact_mut(2).zip(number.to_be_bytes()) {
            digits.copy_from_slice(&PAIRS[usize::from(byte)]);
        }
        place[8] = b' ';
    }
    text[TEXT_LINE - 1] = b'\n';
}
