//! The command line itself: what the binary prints, and its exit status.

mod common;

use std::fs;
use std::path::{Path, PathBuf};
use std::process::{Command, Output};

use common::*;
use vigambul_model::class_set::ClassSet;
use vigambul_model::generate::{self, PolicyFields};
use vigambul_model::program;

/// A folder of its own for one test, gone when the test is over.
struct Folder(PathBuf);

impl Folder {
    fn new(name: &str) -> Folder {
        let path =
            std::env::temp_dir().join(format!("vigambul-model-{}-{name}", std::process::id()));
        fs::create_dir_all(&path).expect("a folder for the test");
        Folder(path)
    }

    fn with(self, name: &str, bytes: &[u8]) -> Folder {
        fs::write(self.0.join(name), bytes).expect("a file for the test");
        self
    }

    fn path(&self) -> &Path {
        &self.0
    }
}

impl Drop for Folder {
    fn drop(&mut self) {
        let _ = fs::remove_dir_all(&self.0);
    }
}

fn call(arguments: &[&str], folder: Option<&Path>) -> Output {
    Command::new(env!("CARGO_BIN_EXE_vigambul-model"))
        .args(arguments)
        .args(folder)
        .output()
        .expect("the binary runs")
}

fn text(bytes: &[u8]) -> String {
    String::from_utf8_lossy(bytes).into_owned()
}

/// What a call prints that must succeed and say nothing on standard error.
fn printed(arguments: &[&str], folder: &Folder) -> String {
    let output = call(arguments, Some(folder.path()));
    assert_eq!(output.status.code(), Some(0));
    assert_eq!(text(&output.stderr), "");
    text(&output.stdout)
}

fn trace_bytes(numbers: &[u32]) -> Vec<u8> {
    numbers
        .iter()
        .flat_map(|number| number.to_le_bytes())
        .collect()
}

const PRINTED_TRACE: [u32; 4] = [0x8001_0007, 0, 0, 0];
const PRINTED_LOG: &str = "\
status command answer turn
00000000 00000000 00000000 00000000
00000000 80010007 00000000 00010101
00000000 C0010007 00000000 00000000
00000000 00000000 80010007 00000000
";

#[test]
fn run_prints_document_01s_log() {
    let folder = Folder::new("log")
        .with("policy.bin", &PRINTED_POLICY)
        .with("trace.bin", &trace_bytes(&PRINTED_TRACE));
    assert_eq!(printed(&["run"], &folder), PRINTED_LOG);
}

/// What the program prints for a missing file is what it prints for an empty one.
#[test]
fn a_missing_policy_file_is_read_as_empty() {
    let trace = trace_bytes(&PRINTED_TRACE);
    assert_eq!(text(&program::output(&[], &trace)), "policy refused 1\n");
    assert_eq!(text(&program::output(&[], &[])), "policy refused 1\n");
    assert_eq!(
        text(&program::extract_output(ClassSet::of(0), &[], &trace)),
        "policy refused 1\n"
    );
    let folder = Folder::new("empty-policy")
        .with("policy.bin", &[])
        .with("trace.bin", &trace);
    assert_eq!(printed(&["run"], &folder), "policy refused 1\n");
    assert_eq!(printed(&["extract", "0"], &folder), "policy refused 1\n");
}

#[test]
fn a_missing_trace_file_is_read_as_empty() {
    let header = "status command answer turn\n";
    assert_eq!(text(&program::output(&PRINTED_POLICY, &[])), header);
    let folder = Folder::new("empty-trace")
        .with("policy.bin", &PRINTED_POLICY)
        .with("trace.bin", &[]);
    assert_eq!(printed(&["run"], &folder), header);
}

/// The command line itself refuses what is missing, and names it.
#[test]
fn a_missing_folder_or_file_is_told() {
    let none = Folder::new("no-files");
    let no_policy = Folder::new("no-policy").with("trace.bin", &trace_bytes(&PRINTED_TRACE));
    let no_trace = Folder::new("no-trace").with("policy.bin", &PRINTED_POLICY);
    let missing = none.path().join("missing");
    let policy_of = |folder: &Folder| folder.path().join("policy.bin");
    for (folder, words, what) in [
        (missing.as_path(), "folder", missing.clone()),
        (none.path(), "file", policy_of(&none)),
        (no_policy.path(), "file", policy_of(&no_policy)),
        (no_trace.path(), "file", no_trace.path().join("trace.bin")),
    ] {
        for command in [&["run"][..], &["extract", "0"], &["recordings", "0"]] {
            let output = call(command, Some(folder));
            assert_eq!(output.status.code(), Some(2), "{command:?}");
            assert_eq!(text(&output.stdout), "");
            let told = format!("vigambul-model: there is no {words} {}\n", what.display());
            assert_eq!(text(&output.stderr), told, "{command:?}");
        }
    }
}

#[test]
fn a_refused_policy_prints_only_its_number() {
    let mut file = PRINTED_POLICY;
    file[21] = 0; // E
                  // Left-over bytes add no line to it.
    let folder = Folder::new("refused")
        .with("policy.bin", &file)
        .with("trace.bin", &[0, 0, 0, 0, 0]);
    assert_eq!(printed(&["run"], &folder), "policy refused 7\n");
}

#[test]
fn left_over_bytes_add_a_line() {
    for left_over in 0..4 {
        let mut trace = trace_bytes(&PRINTED_TRACE);
        trace.extend(vec![0xFF; left_over]);
        let folder = Folder::new(&format!("left-over-{left_over}"))
            .with("policy.bin", &PRINTED_POLICY)
            .with("trace.bin", &trace);
        let line = match left_over {
            0 => "",
            _ => "trace ends inside a word\n",
        };
        assert_eq!(printed(&["run"], &folder), format!("{PRINTED_LOG}{line}"));
    }
    let folder = Folder::new("left-over-only")
        .with("policy.bin", &PRINTED_POLICY)
        .with("trace.bin", &[0]);
    assert_eq!(
        printed(&["run"], &folder),
        "status command answer turn\ntrace ends inside a word\n"
    );
}

#[test]
fn statuses_are_printed_in_hexadecimal() {
    let folder = Folder::new("statuses")
        .with("policy.bin", &PRINTED_POLICY)
        .with("trace.bin", &trace_bytes(&[1, 0x8008_0000]));
    assert_eq!(
        printed(&["run"], &folder),
        "status command answer turn\n\
         0000000E 00000000 00000000 00000000\n\
         0000000A 00000000 00000000 00000000\n"
    );
}

#[test]
fn extract_prints_what_a_class_sees() {
    let folder = Folder::new("extract")
        .with("policy.bin", &PRINTED_POLICY)
        .with("trace.bin", &trace_bytes(&[read_word(1, 7), 1, 0, 0]));
    assert_eq!(
        printed(&["extract", "0"], &folder),
        "status command answer turn\n\
         00000000 00000000 00000000 00000200\n\
         00000000 00000000 00000000 00000000\n"
    );
    assert_eq!(
        printed(&["extract", "1"], &folder),
        "status command answer turn\n\
         00000000 00000000 00000000 00000000\n\
         00000000 81000007 00000000 00020102\n\
         00000000 C1000007 00000000 00000000\n"
    );
    assert_eq!(printed(&["extract", "2"], &folder), "extract refused 9\n");
    assert_eq!(printed(&["extract", "32"], &folder), "extract refused 9\n");
}

/// Two tenants, 1 and 2, over a base. Of the three offers each misses one alone, and the two of them none.
#[test]
fn extract_prints_what_a_set_of_classes_sees() {
    let file = PolicyFields::new(&FORK, 3, &[0, 1, 1], TIMING).encode();
    let trace = [read_word(0, 5), read_word(1, 7), read_word(2, 8), 0];
    let folder = Folder::new("extract-set")
        .with("policy.bin", &file)
        .with("trace.bin", &trace_bytes(&trace));
    let offer = "00000000 00000000 00000000 00000000\n";
    let tick = "00000000 80000005 00000000 00010101\n";
    let hidden = "00000000 00000000 00000000 00000200\n";
    let lines = |offers: usize, tick: &str| {
        let offers = offer.repeat(offers);
        format!("status command answer turn\n{offers}{tick}")
    };
    for (set, expected) in [
        ("none", lines(0, hidden)),
        ("0", lines(1, tick)),
        ("1", lines(2, tick)),
        ("2", lines(2, tick)),
        ("1,2", lines(3, tick)),
        ("2,1", lines(3, tick)),
        ("0,1,2", lines(3, tick)),
        ("1,1", lines(2, tick)),
        ("1,3", "extract refused 9\n".to_string()),
        ("1,15", "extract refused 9\n".to_string()),
        ("16", "extract refused 9\n".to_string()),
        ("1,2,31", "extract refused 9\n".to_string()),
        ("1,4294967296", "extract refused 9\n".to_string()),
    ] {
        assert_eq!(printed(&["extract", set], &folder), expected, "{set}");
    }
}

#[test]
fn a_refused_policy_is_told_before_a_set() {
    let folder = Folder::new("refused-set")
        .with("policy.bin", &[3])
        .with("trace.bin", &[]);
    for set in ["none", "0,1", "31"] {
        assert_eq!(printed(&["extract", set], &folder), "policy refused 1\n");
    }
}

/// Document 01's log has one activate, at its first tick, and its answer two ticks later.
#[test]
fn recordings_prints_both_of_a_log() {
    let mut trace = trace_bytes(&PRINTED_TRACE);
    trace.push(0);
    let folder = Folder::new("recordings")
        .with("policy.bin", &PRINTED_POLICY)
        .with("trace.bin", &trace);
    let expected = |cycles: [&str; 2]| {
        let [wires, cores] = cycles;
        format!(
            "wires\ncycle word\n{wires} 80010007\ncores\ncycle word\n{cores} 80010007\n\
             trace ends inside a word\n"
        )
    };
    for (start, cycles) in [
        ("0", ["00000000", "00000002"]),
        ("100", ["00000064", "00000066"]),
        ("16777212", ["00FFFFFC", "00FFFFFE"]),
    ] {
        assert_eq!(
            printed(&["recordings", start], &folder),
            expected(cycles),
            "{start}"
        );
    }
    for start in ["16777213", "4294967295"] {
        let refused = "recordings refused 12\n";
        assert_eq!(printed(&["recordings", start], &folder), refused, "{start}");
    }
    let no_policy = Folder::new("recordings-refused")
        .with("policy.bin", &[3])
        .with("trace.bin", &[]);
    assert_eq!(
        printed(&["recordings", "0"], &no_policy),
        "policy refused 1\n"
    );
}

#[test]
fn match_prints_where_the_rest_begins_and_the_rest() {
    let word = 0x8001_0007;
    let wires = trace_bytes(&[0, word, 4, word, 9, word]);
    // The second answer was dropped.
    let cores = trace_bytes(&[2, word, 11, word]);
    let dropped = "status which at\n\
        00000000 00000001 00000002\n\
        cycle word\n\
        00000004 80010007\n\
        00000009 80010007\n";
    let both = Folder::new("match")
        .with("wires.bin", &wires)
        .with("cores.bin", &cores);
    assert_eq!(printed(&["match", "2"], &both), dropped);
    // The first answer comes before the first activate's would.
    let early = "status which at\n\
        00000000 00000002 00000000\n\
        cycle word\n\
        00000002 80010007\n\
        0000000B 80010007\n";
    assert_eq!(printed(&["match", "255"], &both), early);

    let full = "status which at\n00000000 00000000 00000006\ncycle word\n";
    let late = trace_bytes(&[2, word, 6, word, 11, word]);
    let both = both.with("cores.bin", &late);
    assert_eq!(printed(&["match", "2"], &both), full);
    // Left-over bytes are told of each file, after everything else.
    let cut = |bytes: &[u8]| [bytes, &[1, 2, 3][..]].concat();
    let both = both.with("cores.bin", &cut(&late));
    let told = format!("{full}cores end inside a word\n");
    assert_eq!(printed(&["match", "2"], &both), told);
    let both = both.with("wires.bin", &cut(&wires));
    let told = format!("{full}wires end inside a word\ncores end inside a word\n");
    assert_eq!(printed(&["match", "2"], &both), told);

    // An odd count of numbers: 18, and the empty rest.
    let odd = both.with("wires.bin", &trace_bytes(&[0, word, 4]));
    assert_eq!(
        printed(&["match", "2"], &odd),
        "status which at\n00000012 00000001 00000003\ncycle word\ncores end inside a word\n"
    );
}

/// Of the policy and the trace the check asks nothing: they need not be there.
#[test]
fn match_reads_a_missing_recording_as_empty() {
    let event = trace_bytes(&[5, 9]);
    let line = |which: u32| {
        format!(
            "status which at\n00000000 0000000{which} 00000000\ncycle word\n00000005 00000009\n"
        )
    };
    let wires = Folder::new("match-wires").with("wires.bin", &event);
    assert_eq!(printed(&["match", "3"], &wires), line(1));
    let cores = Folder::new("match-cores").with("cores.bin", &event);
    assert_eq!(printed(&["match", "3"], &cores), line(2));
    let none = Folder::new("match-none");
    assert_eq!(
        printed(&["match", "3"], &none),
        "status which at\n00000000 00000000 00000000\ncycle word\n"
    );
    let missing = none.path().join("missing");
    let output = call(&["match", "3"], Some(&missing));
    assert_eq!(output.status.code(), Some(2));
    assert!(text(&output.stderr).contains("there is no folder"));
    // A recording that is there and cannot be read is no missing one.
    fs::create_dir(none.path().join("cores.bin")).unwrap();
    let output = call(&["match", "3"], Some(none.path()));
    assert_eq!(output.status.code(), Some(1));
    assert!(text(&output.stderr).contains("cannot read"));
}

#[test]
fn generate_writes_the_bytes_of_its_seed() {
    let folder = Folder::new("generate");
    let inner = folder.path().join("a").join("b");
    let output = call(&["generate", "12345"], Some(&inner));
    assert_eq!(output.status.code(), Some(0));
    assert_eq!(text(&output.stdout), "");
    let expected = generate::folder(12345);
    assert_eq!(fs::read(inner.join("policy.bin")).unwrap(), expected.policy);
    assert_eq!(fs::read(inner.join("trace.bin")).unwrap(), expected.trace);
    let output = call(&["run"], Some(&inner));
    assert_eq!(
        output.stdout,
        program::output(&expected.policy, &expected.trace)
    );
}

#[test]
fn leaks_reports_what_it_covered() {
    let output = call(&["leaks", "50"], None);
    assert_eq!(output.status.code(), Some(0));
    let report = text(&output.stdout);
    let (of_classes, of_sets) = report
        .split_once("\nsets of classes:\n")
        .expect("both searches");
    for report in [of_classes, of_sets] {
        assert!(report.starts_with("pairs compared: 50\n"), "{report}");
        assert!(report.ends_with("no leak found\n"), "{report}");
    }
    assert!(of_sets.contains("\nthe empty set: "), "{of_sets}");
    assert!(!of_classes.contains("set of"), "{of_classes}");
}

#[test]
fn a_file_that_cannot_be_read_is_an_error() {
    let folder = Folder::new("unreadable").with("policy.bin", &PRINTED_POLICY);
    fs::create_dir(folder.path().join("trace.bin")).unwrap();
    for arguments in [&["run"][..], &["extract", "0"]] {
        let output = call(arguments, Some(folder.path()));
        assert_eq!(output.status.code(), Some(1));
        assert_eq!(text(&output.stdout), "");
        assert!(text(&output.stderr).contains("cannot read"));
    }
}

#[test]
fn a_folder_that_cannot_be_written_is_an_error() {
    let folder = Folder::new("unwritable").with("file", &[]);
    let output = call(&["generate", "1"], Some(&folder.path().join("file")));
    assert_eq!(output.status.code(), Some(1));
    assert!(text(&output.stderr).contains("cannot create"));
}

#[test]
fn help_is_printed_when_asked_for() {
    let output = call(&["--help"], None);
    assert_eq!(output.status.code(), Some(0));
    let usage = text(&output.stdout);
    for command in [
        "run DIR",
        "extract SET DIR",
        "recordings START DIR",
        "match DELAY DIR",
        "generate SEED DIR",
        "leaks COUNT",
    ] {
        assert!(usage.contains(command), "{command}");
    }
}

#[test]
fn wrong_arguments_are_told_with_the_usage() {
    let wrong: [&[&str]; 27] = [
        &[],
        &["walk"],
        &["run"],
        &["run", "a", "b"],
        &["extract"],
        &["extract", "0"],
        &["extract", "x", "a"],
        &["extract", "-1", "a"],
        &["extract", "", "a"],
        &["extract", "1,", "a"],
        &["extract", "1,,2", "a"],
        &["extract", "1, 2", "a"],
        &["extract", "1,none", "a"],
        &["extract", "1", "2", "a"],
        &["recordings", "0"],
        &["recordings", "-1", "a"],
        &["recordings", "4294967296", "a"],
        &["match", "a"],
        &["match", "256", "a"],
        &["match", "two", "a"],
        &["match", "2", "a", "b"],
        &["generate", "1"],
        &["generate", "one", "a"],
        &["leaks"],
        &["leaks", "many"],
        &["leaks", "0"],
        &["--help", "run"],
    ];
    for arguments in wrong {
        let output = call(arguments, None);
        assert_eq!(output.status.code(), Some(2), "{arguments:?}");
        assert_eq!(text(&output.stdout), "", "{arguments:?}");
        let told = text(&output.stderr);
        assert!(told.contains("usage:"), "{arguments:?}");
        assert!(!told.contains("panicked"), "{arguments:?}");
    }
}
