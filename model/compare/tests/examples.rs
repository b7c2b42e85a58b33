//! The example folders, through the built program.

mod common;

use std::fs;
use std::os::unix::fs::PermissionsExt;
use std::path::{Path, PathBuf};
use std::process::{Command, Output, Stdio};

use common::*;

/// The folder of the examples.
fn examples() -> PathBuf {
    Path::new(env!("CARGO_MANIFEST_DIR")).join("../../examples")
}

/// `examples/run` with these arguments. What it calls to prove the program is a stand-in that says
/// these lines and ends with this status, so that nothing is proved here; the program is the built one.
fn run_example(arguments: &[&Path], lines: &str, status: u8) -> Output {
    let folder = Folder::new(&format!("stand-in-{status}"));
    let stand_in = folder.path().join("rt");
    fs::write(
        &stand_in,
        format!("#!/bin/sh\nprintf '{lines}'\nexit {status}\n"),
    )
    .expect("a stand-in");
    fs::set_permissions(&stand_in, fs::Permissions::from_mode(0o755)).expect("a stand-in to run");
    let path = std::env::var("PATH").expect("a path");
    Command::new("bash")
        .arg(examples().join("run"))
        .args(arguments)
        .env("PATH", format!("{}:{path}", folder.path().display()))
        .stdin(Stdio::null())
        .output()
        .expect("bash starts")
}

fn text(bytes: &[u8]) -> String {
    String::from_utf8_lossy(bytes).into_owned()
}

/// What rt says where all is proved and built, and of the program, which it runs.
const UNCHANGED: &str = "rt: nothing has changed since the last proved build, by out/vigambul.stamp, so nothing is checked now\\npolicy refused 1\\n";

/// One after the other: each has a folder for its stand-in, and all write one log.
#[test]
fn the_script_that_runs_an_example_says_how_it_went() {
    // Taken, and refused: what it prints is the program's.
    for (example, status) in [("two-tenants", 0), ("refused", 1)] {
        let folder = examples().join(example);
        let output = run_example(&[&folder], UNCHANGED, 0);
        let expected = fs::read(folder.join("expected.txt")).expect("what is expected");
        assert_eq!(text(&output.stdout), text(&expected), "{example}");
        assert_eq!(text(&output.stderr), "", "{example}");
        assert_eq!(output.status.code(), Some(status), "{example}");
    }

    // How far the proofs are is told beside that.
    let folder = examples().join("two-tenants");
    let lines = "rt: chose --jobs 2 for policy\\nfn policy::cap: proved\\nlogic=proved functions=1\\npolicy refused 1\\n";
    let output = run_example(&[&folder], lines, 0);
    let told = text(&output.stderr);
    assert!(told.starts_with("proved policy, 1 of at most "), "{told}");
    assert!(told.ends_with(" s so far)\n"), "{told}");
    assert_eq!(told.lines().count(), 1, "{told}");
    assert_eq!(output.status.code(), Some(0));

    // A proof that fails.
    let failed = "rt: the library policy did not build, so nothing above it was checked\\n";
    let output = run_example(&[&folder], failed, 1);
    assert_eq!(text(&output.stdout), "");
    assert!(text(&output.stderr).starts_with("rt: the library policy did not build"));
    assert_eq!(output.status.code(), Some(3));

    // Wrong usage, and what is missing, by its name.
    let nothing = Folder::new("example-without-files");
    let half = Folder::new("example-without-a-trace");
    half.put("policy.bin", Some(&diamond()));
    let missing = nothing.path().join("missing");
    let refused = |arguments: &[&Path], words: &str| {
        let output = run_example(arguments, UNCHANGED, 0);
        assert_eq!(text(&output.stdout), "");
        assert_eq!(text(&output.stderr), format!("examples/run: {words}\n"));
        assert_eq!(output.status.code(), Some(2));
    };
    let usage = "usage: bash examples/run FOLDER (one of examples/, or your own)";
    refused(&[], usage);
    refused(&[&folder, &folder], usage);
    refused(
        &[&missing],
        &format!("there is no folder {}", missing.display()),
    );
    let no_policy = nothing.path().join("policy.bin");
    refused(
        &[nothing.path()],
        &format!("there is no file {}", no_policy.display()),
    );
    let no_trace = half.path().join("trace.bin");
    refused(
        &[half.path()],
        &format!("there is no file {}", no_trace.display()),
    );
}

#[test]
fn the_program_prints_what_stands_beside_every_example() {
    let mut count = 0;
    for entry in fs::read_dir(examples()).expect("the folder of examples") {
        let example = entry.expect("an example").path();
        // Beside the folders stand what to read first and the script that runs one.
        if !example.is_dir() {
            continue;
        }
        let read = |name: &str| {
            fs::read(example.join(name))
                .unwrap_or_else(|error| panic!("{}: {error}", example.join(name).display()))
        };
        // A copy, so that a run can never change the example itself.
        let folder = Folder::new(&format!("example-{count}"));
        folder.put_both(&read("policy.bin"), &read("trace.bin"));
        if let Err(why) = check_program(&folder, &read("expected.txt")) {
            panic!("{}: {why}", example.display());
        }
        count += 1;
    }
    assert!(count >= 5, "{count} examples");
}
