//! Files that cannot be read and outputs that cannot be written: the program
//! says so on standard error and stops.

mod common;

use std::fs::{self, OpenOptions};
use std::io::Read;
use std::os::unix::process::ExitStatusExt;
use std::process::{Command, Stdio};

use common::*;
use vigambul_compare::built;
use vigambul_model::program::HEADER;

/// The signal of a pipe that nobody reads.
const SIGPIPE: i32 = 13;

/// A command that must end by itself and say these words on standard error, and
/// nothing else. What it printed is given, where that was kept.
///
/// The exit status is 0 whatever happened: the proved program has no other.
fn says(mut command: Command, expected: &str) -> Vec<u8> {
    // What the system calls the trouble, in its own language.
    command.env("LC_ALL", "C").stderr(Stdio::piped());
    let mut child = command.spawn().expect("the program starts");
    let status = wait_for_end(&mut child);
    assert_eq!(words_of(&mut child), expected);
    assert_eq!(status.code(), Some(0), "{status}");
    let mut printed = Vec::new();
    if let Some(stdout) = child.stdout.as_mut() {
        stdout.read_to_end(&mut printed).expect("its output");
    }
    printed
}

/// A folder whose output is much longer than any buffer.
fn long_folder(name: &str) -> Folder {
    let file = diamond();
    let trace = trace_file(&generated_trace(5, &file, 200_000));
    let folder = Folder::new(name);
    folder.put_both(&file, &trace);
    folder
}

#[test]
fn a_full_device_is_told() {
    let full = || {
        OpenOptions::new()
            .write(true)
            .open("/dev/full")
            .expect("/dev/full")
    };
    let long = long_folder("full");
    let short = Folder::new("full-short");
    short.put_both(&diamond(), &[0; 16]);
    let refused = Folder::new("full-refused");
    for folder in [&long, &short, &refused] {
        let mut command = command_in(built::program(), folder);
        command.stdout(full());
        says(command, "standard output: No space left on device\n");
    }
}

#[test]
fn a_closed_standard_output_is_told() {
    let long = long_folder("closed");
    let refused = Folder::new("closed-refused");
    for folder in [&long, &refused] {
        let mut command = command_in("sh", folder);
        command
            .args(["-c", "exec \"$0\" >&-"])
            .arg(built::program())
            .stdout(Stdio::null());
        says(command, "standard output: Bad file descriptor\n");
    }
}

#[test]
fn a_reader_that_goes_away_ends_the_program() {
    // The system itself may end the program here; else it says why it ends.
    let folder = long_folder("reader");
    let mut command = command_in(built::program(), &folder);
    let mut child = command
        .env("LC_ALL", "C")
        .stdout(Stdio::piped())
        .stderr(Stdio::piped())
        .spawn()
        .expect("the program starts");
    let mut first = [0; 100];
    let mut stdout = child.stdout.take().expect("its output");
    stdout.read_exact(&mut first).expect("the first lines");
    drop(stdout);
    let status = wait_for_end(&mut child);
    assert!(first.starts_with(HEADER));
    let words = words_of(&mut child);
    match status.signal() {
        Some(signal) => assert_eq!((signal, words.as_str()), (SIGPIPE, "")),
        None => assert_eq!(words, "standard output: Broken pipe\n"),
    }
}

#[test]
fn a_trace_that_cannot_be_read_is_told() {
    let folder = Folder::new("trace-folder");
    folder.put("policy.bin", Some(&diamond()));
    fs::create_dir_all(folder.path().join("trace.bin")).expect("a folder in place of the trace");
    let mut command = command_in(built::program(), &folder);
    command.stdout(Stdio::piped());
    let printed = says(command, "trace.bin: Is a directory\n");
    // The header may be out by then; a line of the log may not.
    assert!(HEADER.starts_with(&printed), "{} bytes", printed.len());
}

#[test]
fn a_policy_that_cannot_be_read_is_told() {
    let folder = Folder::new("policy-folder");
    folder.put("trace.bin", Some(&[0; 16]));
    fs::create_dir_all(folder.path().join("policy.bin")).expect("a folder in place of the policy");
    let mut command = command_in(built::program(), &folder);
    command.stdout(Stdio::piped());
    let printed = says(command, "policy.bin: Is a directory\n");
    // It is not missing, so it is not read as empty.
    assert_eq!(String::from_utf8_lossy(&printed), "");
}

#[test]
fn arguments_are_told_and_change_nothing() {
    const WORDS: &str =
        "vigambul takes no arguments: it reads policy.bin and trace.bin in the folder it runs in\n";
    let accepted = Folder::new("arguments");
    accepted.put_both(&diamond(), &[0; 16]);
    let refused = Folder::new("arguments-refused");
    for folder in [&accepted, &refused] {
        let printed_with = |arguments: &[&str], expected: &str| {
            let mut command = command_in(built::program(), folder);
            command.args(arguments).stdout(Stdio::piped());
            says(command, expected)
        };
        let printed = printed_with(&[], "");
        assert!(!printed.is_empty());
        let folder_of_another = accepted.path().to_str().expect("a name that is text");
        for arguments in [&["--help"][..], &[""], &[folder_of_another], &["a", "b"]] {
            assert_eq!(printed_with(arguments, WORDS), printed, "{arguments:?}");
        }
    }
}

#[test]
fn a_trace_is_not_asked_for_where_the_policy_is_refused() {
    let folder = Folder::new("refused-and-folder");
    fs::create_dir_all(folder.path().join("trace.bin")).expect("a folder in place of the trace");
    let mut command = command_in(built::program(), &folder);
    command.stdout(Stdio::piped());
    assert_eq!(says(command, ""), b"policy refused 1\n");
}
