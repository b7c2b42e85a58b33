//! Files longer than any buffer, and lengths just around likely ones.

mod common;

use std::fs::OpenOptions;
use std::io::Write;
use std::process::Command;
use std::thread;
use std::time::Duration;

use common::*;
use vigambul_model::generate::encode_bodies;
use vigambul_model::program;
use vigambul_model::random::Random;

/// Sizes that a buffer may well have, in bytes or in numbers.
const LIKELY_SIZES: [usize; 3] = [4_096, 16_384, 65_536];

#[test]
fn a_trace_much_longer_than_any_buffer() {
    let file = diamond();
    let trace = trace_file(&generated_trace(3, &file, 300_000));
    let folder = Folder::new("long");
    folder.put_both(&file, &trace);
    assert_eq!(
        check_program(&folder, &program::output(&file, &trace)),
        Ok(())
    );
}

#[test]
fn traces_of_lengths_around_likely_buffers() {
    let file = diamond();
    let longest = LIKELY_SIZES[2] + 3;
    let trace = trace_file(&generated_trace(4, &file, longest + 1));
    let mut lengths = Vec::new();
    for size in LIKELY_SIZES {
        // In bytes, which ends inside a word in three of four cases.
        lengths.extend(size - 3..=size + 3);
        // In numbers, with and without left-over bytes.
        for (place, numbers) in (size - 3..=size + 3).enumerate() {
            lengths.extend([4 * numbers, 4 * numbers + 1 + place % 3]);
        }
    }
    let folder = Folder::new("lengths");
    for length in lengths {
        let trace = &trace[..length];
        folder.put_both(&file, trace);
        let checked = check_program(&folder, &program::output(&file, trace));
        assert_eq!(checked, Ok(()), "a trace of {length} bytes");
    }
}

#[test]
fn a_trace_that_arrives_in_pieces_of_any_length() {
    // A read may give less than was asked for, and may end inside a number: here
    // trace.bin is a pipe with a name, into which pieces are written.
    for seed in 0..4 {
        let file = diamond();
        let mut trace = trace_file(&generated_trace(seed, &file, 40_000));
        trace.extend(vec![1; seed as usize]);
        let folder = Folder::new(&format!("pieces-{seed}"));
        folder.put("policy.bin", Some(&file));
        let pipe = folder.path().join("trace.bin");
        let made = Command::new("mkfifo").arg(&pipe).status();
        assert!(made.expect("mkfifo runs").success());
        let mut child = start_program(&folder);
        let expected = program::output(&file, &trace);
        let mut stdout = child.stdout.take().expect("its output");
        let reader = thread::spawn(move || {
            let mut printed = Vec::new();
            std::io::Read::read_to_end(&mut stdout, &mut printed).map(|_| printed)
        });
        // Not waited for: a program that stops reading must not stop the test.
        thread::spawn(move || write_in_pieces(&pipe, &trace, seed));
        wait_for_end(&mut child);
        let printed = reader.join().expect("the reader ends").expect("a read");
        assert_eq!(same_text(&printed, &expected), Ok(()), "seed {seed}");
    }
}

fn write_in_pieces(pipe: &std::path::Path, bytes: &[u8], seed: u64) -> std::io::Result<()> {
    let random = &mut Random::new(seed);
    let mut out = OpenOptions::new().write(true).open(pipe)?;
    let mut rest = bytes;
    while !rest.is_empty() {
        let longest = [1, 7, 300, 9_000][random.below(4)];
        let (piece, later) = rest.split_at((1 + random.below(longest)).min(rest.len()));
        out.write_all(piece)?;
        rest = later;
        // At times the reader catches up, so that its read ends with a piece.
        if random.below(40) == 0 {
            thread::sleep(Duration::from_micros(300));
        }
    }
    Ok(())
}

#[test]
fn policy_files_around_the_longest() {
    // The contents table fits the bodies, which are far too long for any n.
    let with_lengths = |order: usize, turns: usize, timing: usize| {
        encode_bodies(&vec![1; order], &vec![1; turns], &vec![2; timing])
    };
    // It does not: the last body ends before the file does.
    let padded = |length: usize| {
        let mut file = diamond();
        file.resize(length, 0);
        file
    };
    let files = [
        (with_lengths(3, 2, 65_535 - 21), 2),
        (with_lengths(30_000, 30_000, 65_535 - 60_016), 2),
        (padded(65_535), 1),
        (with_lengths(3, 2, 65_536 - 21), 1),
        (padded(65_536), 1),
        (with_lengths(60_000, 5_000, 70_000 - 65_016), 1),
        (padded(70_000), 1),
        (padded(1_000_000), 1),
        // A sound policy and then 65,536 bytes: its length in 16 bits is right.
        (padded(diamond().len() + 65_536), 1),
    ];
    let folder = Folder::new("policies");
    for (file, number) in files {
        folder.put_both(&file, &[0; 8]);
        let expected = format!("policy refused {number}\n").into_bytes();
        assert_eq!(program::output(&file, &[0; 8]), expected, "{}", file.len());
        let checked = check_program(&folder, &expected);
        assert_eq!(checked, Ok(()), "{} bytes, {number}", file.len());
    }
}
