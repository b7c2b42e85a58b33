//! What the tests share: folders on disk, runs of the program, generated cases.

#![allow(dead_code)] // each test file uses its own part

pub mod lists;
pub mod long;

use std::collections::BTreeMap;
use std::fmt::UpperHex;
use std::fs;
use std::io::Read;
use std::ops::Range;
use std::path::{Path, PathBuf};
use std::process::{Child, Command, ExitStatus, Output, Stdio};
use std::sync::mpsc::{self, RecvTimeoutError};
use std::thread;
use std::time::{Duration, Instant};

use vigambul_compare::{built, stream};
use vigambul_model::class_set::ClassSet;
use vigambul_model::coverage::{Count, Coverage};
use vigambul_model::generate::{self, PolicyFields};
use vigambul_model::policy::{self, Policy};
use vigambul_model::program::HEADER;
use vigambul_model::random::Random;
use vigambul_model::state;
use vigambul_model::trace::{self, LINE};

/// The first seed and the number of generated folders, unless the environment
/// says otherwise.
const FIRST_SEED: u64 = 1_000_000;
const FOLDERS: u64 = 2_500;

/// In KiB, what no run of the program may need.
pub const MOST_MEMORY: u64 = 64 * 1024;

/// No run of the program in a test takes nearly as long.
pub const LONGEST_RUN: Duration = Duration::from_secs(30);

// ---------------------------------------------------------------------------
// Generated cases.

/// The two files of a folder; None is a missing one.
pub struct Case {
    pub seed: u64,
    pub policy: Option<Vec<u8>>,
    pub trace: Option<Vec<u8>>,
    /// Sets of classes to ask extracts for.
    pub sets: Vec<ClassSet>,
    /// What was done to the generated folder.
    pub change: &'static str,
    /// What was done to its policy, which is in that folder still.
    pub damage: Option<&'static str>,
}

const CHANGES: [&str; 7] = [
    "policy.bin missing",
    "trace.bin missing",
    "both files missing",
    "any bytes as the trace",
    "a bit of the trace flipped",
    "the trace cut short",
    "as generated",
];

impl Case {
    /// The case of a seed: the generator's folder, at times with a file missing
    /// or the trace damaged.
    pub fn new(seed: u64) -> Case {
        let folder = generate::folder(seed);
        // Any other seed would do; the folder's own would repeat its numbers.
        let random = &mut Random::new(!seed);
        // Each change to one folder in forty; the rest stay as they are.
        let change = CHANGES[random.below(40).min(CHANGES.len() - 1)];
        let (mut policy, mut trace) = (Some(folder.policy), Some(folder.trace));
        match change {
            "policy.bin missing" => policy = None,
            "trace.bin missing" => trace = None,
            "both files missing" => (policy, trace) = (None, None),
            "any bytes as the trace" => {
                let length = random.below(2_000);
                trace = Some((0..length).map(|_| random.next() as u8).collect());
            }
            "a bit of the trace flipped" => {
                let bytes = trace.as_mut().expect("the generated trace");
                if !bytes.is_empty() {
                    let place = random.below(bytes.len());
                    bytes[place] ^= 1 << random.below(8);
                }
            }
            "the trace cut short" => {
                let bytes = trace.as_mut().expect("the generated trace");
                bytes.truncate(random.below(40));
            }
            _ => {}
        }
        Case {
            seed,
            damage: folder.damage.filter(|_| policy.is_some()),
            policy,
            trace,
            sets: folder.sets,
            change,
        }
    }

    /// "A missing file is read as empty."
    pub fn policy_bytes(&self) -> &[u8] {
        self.policy.as_deref().unwrap_or_default()
    }

    pub fn trace_bytes(&self) -> &[u8] {
        self.trace.as_deref().unwrap_or_default()
    }

    /// Both files as the model's generator has them.
    pub fn folder(&self) -> generate::Folder {
        generate::Folder {
            policy: self.policy_bytes().to_vec(),
            trace: self.trace_bytes().to_vec(),
            sets: self.sets.clone(),
            damage: self.damage,
        }
    }
}

/// Every generated case. `VIGAMBUL_FOLDERS` sets how many.
pub fn cases() -> impl Iterator<Item = Case> {
    seeds("VIGAMBUL_FOLDERS", FOLDERS).map(Case::new)
}

/// So many seeds, unless the environment sets another number under a name.
/// `VIGAMBUL_FIRST_SEED` sets the first.
pub fn seeds(name: &str, count: u64) -> Range<u64> {
    let first = number_in_environment("VIGAMBUL_FIRST_SEED").unwrap_or(FIRST_SEED);
    first..first + number_in_environment(name).unwrap_or(count)
}

fn number_in_environment(name: &str) -> Option<u64> {
    let text = std::env::var(name).ok()?;
    Some(text.parse().unwrap_or_else(|_| panic!("{name}={text}")))
}

/// How long the traces of accepted policies are.
const LENGTHS: [&str; 4] = [
    "a trace of no number",
    "a trace of 1 to 9 numbers",
    "a trace of 10 to 1,999 numbers",
    "a trace of 2,000 numbers or more",
];

/// How often each thing was met that a test must meet.
pub struct Tally(BTreeMap<String, u64>);

impl Tally {
    pub fn new<'a>(names: impl IntoIterator<Item = &'a str>) -> Tally {
        Tally(
            names
                .into_iter()
                .map(|name| (name.to_string(), 0))
                .collect(),
        )
    }

    pub fn met(&mut self, name: &str) {
        self.add(name, 1);
    }

    /// Counts what was met so many times. Only what must be met is counted.
    pub fn add(&mut self, name: &str, times: u64) {
        match self.0.get_mut(name) {
            Some(count) => *count += times,
            None => panic!("`{name}` is not among what must be met"),
        }
    }

    /// What must be met, must be met once at least.
    fn counts(&self) -> impl Iterator<Item = (&str, Count)> {
        let once = |&met: &u64| Count { met, needed: 1 };
        self.0
            .iter()
            .map(move |(name, met)| (name.as_str(), once(met)))
    }

    /// A generator that never produces a case tests nothing.
    pub fn require_all_met(&self) {
        require_all_met(self.counts());
    }
}

fn require_all_met<'a>(counts: impl Iterator<Item = (&'a str, Count)>) {
    let mut missed = Vec::new();
    for (name, count) in counts {
        println!("{:>9} {name}", count.met);
        if count.met < count.needed {
            missed.push((name, count));
        }
    }
    assert!(missed.is_empty(), "met too seldom: {missed:?}");
}

/// What generated folders met.
pub struct Counts {
    coverage: Coverage,
    others: Tally,
}

impl Counts {
    /// All that the model's coverage counts, every change of a case, every
    /// length of a trace, and what a test adds to them.
    pub fn new(others: &[&str]) -> Counts {
        let names = CHANGES.iter().chain(&LENGTHS).chain(others);
        Counts {
            coverage: Coverage::new(),
            others: Tally::new(names.copied()),
        }
    }

    pub fn add(&mut self, case: &Case) {
        self.coverage.add(&case.folder());
        self.met(case.change);
        if policy::read(case.policy_bytes()).1.is_none() {
            self.met(match case.trace_bytes().len() / 4 {
                0 => LENGTHS[0],
                1..=9 => LENGTHS[1],
                10..=1_999 => LENGTHS[2],
                _ => LENGTHS[3],
            });
        }
    }

    pub fn met(&mut self, name: &str) {
        self.others.met(name);
    }

    pub fn require_all_met(&self) {
        require_all_met(self.coverage.counts().chain(self.others.counts()));
    }
}

// ---------------------------------------------------------------------------
// The model's part.

/// The model's log of a trace under a policy file, or the number that refuses
/// the file.
pub fn model_log(policy_file: &[u8], numbers: &[u32]) -> Result<Vec<u32>, u32> {
    let (policy, refusal) = policy::read(policy_file);
    if let Some(refusal) = refusal {
        return Err(refusal.number());
    }
    let (mut state, refusal) = state::fresh(&policy);
    assert_eq!(refusal, None, "a policy that was read is fit");
    let mut log = vec![0; LINE * numbers.len()];
    assert_eq!(
        trace::run(&policy, &mut state, numbers, &mut log),
        Ok(()),
        "the log is long enough"
    );
    Ok(log)
}

/// A policy file that must be accepted, as the model reads it.
pub fn accepted(policy_file: &[u8]) -> Policy {
    let (policy, refusal) = policy::read(policy_file);
    assert_eq!(refusal, None, "the file must be accepted");
    policy
}

/// 2 below 0 and 3, both below 1. Turns of 17 and epochs of 7 put whatever goes
/// by cycles or turns out of step with every power of two.
pub fn diamond() -> Vec<u8> {
    let rows = [0b0011, 0b0010, 0b1111, 0b1010];
    let timing = [17, 6, 2, 3, 3, 2, 4, 6, 2, 5];
    PolicyFields::new(&rows, 7, &[2, 1, 1, 2], timing).encode()
}

/// A generated trace of exactly so many numbers for a policy file.
pub fn generated_trace(seed: u64, policy_file: &[u8], length: usize) -> Vec<u32> {
    let policy = accepted(policy_file);
    generate::trace_of_length(&mut Random::new(seed), &policy, length)
}

/// Numbers as a trace file has them.
pub fn trace_file(numbers: &[u32]) -> Vec<u8> {
    numbers
        .iter()
        .flat_map(|number| number.to_le_bytes())
        .collect()
}

// ---------------------------------------------------------------------------
// The program's part.

/// A folder of its own for one test. It is left where it is if the test fails.
pub struct Folder(PathBuf);

impl Folder {
    pub fn new(name: &str) -> Folder {
        let path =
            std::env::temp_dir().join(format!("vigambul-compare-{}-{name}", std::process::id()));
        fs::create_dir_all(&path).expect("a folder for the test");
        Folder(path)
    }

    pub fn path(&self) -> &Path {
        &self.0
    }

    /// Writes a file, or removes it where there is to be none.
    pub fn put(&self, name: &str, bytes: Option<&[u8]>) -> &Folder {
        let path = self.0.join(name);
        match bytes {
            Some(bytes) => fs::write(&path, bytes).expect("a file for the test"),
            None => {
                let _ = fs::remove_file(&path);
            }
        }
        self
    }

    pub fn put_both(&self, policy: &[u8], trace: &[u8]) -> &Folder {
        self.put("policy.bin", Some(policy))
            .put("trace.bin", Some(trace))
    }
}

impl Drop for Folder {
    fn drop(&mut self) {
        if !thread::panicking() {
            let _ = fs::remove_dir_all(&self.0);
        }
    }
}

/// A command that runs a program in a folder, without standard input.
pub fn command_in(program: impl AsRef<Path>, folder: &Folder) -> Command {
    let mut command = Command::new(program.as_ref());
    command.current_dir(folder.path()).stdin(Stdio::null());
    command
}

/// Ends a program that does not end by itself, so that a test that reads from it
/// does not wait for ever.
struct Watch {
    ended: Option<mpsc::Sender<()>>,
    thread: Option<thread::JoinHandle<()>>,
}

impl Watch {
    fn new(child: &Child) -> Watch {
        let id = child.id().to_string();
        let (ended, still_runs) = mpsc::channel::<()>();
        let thread = thread::spawn(move || {
            if still_runs.recv_timeout(LONGEST_RUN) == Err(RecvTimeoutError::Timeout) {
                let _ = Command::new("kill").args(["-KILL", &id]).status();
            }
        });
        Watch {
            ended: Some(ended),
            thread: Some(thread),
        }
    }
}

impl Drop for Watch {
    fn drop(&mut self) {
        self.ended.take();
        if let Some(thread) = self.thread.take() {
            let _ = thread.join();
        }
    }
}

/// Starts the built program in a folder, with its output and its words kept.
pub fn start_program(folder: &Folder) -> Child {
    command_in(built::program(), folder)
        .stdout(Stdio::piped())
        .stderr(Stdio::piped())
        .spawn()
        .expect("the program starts")
}

/// Runs the built program in a folder. One that does not end is ended.
pub fn run_program(folder: &Folder) -> Output {
    let child = start_program(folder);
    let _watch = Watch::new(&child);
    child.wait_with_output().expect("the program's output")
}

/// Runs the built program on a long trace, compares every line on the way with
/// the model's, and gives the most memory that the program held, in KiB.
pub fn stream_program(name: &str, policy_file: &[u8], numbers: &[u32]) -> u64 {
    let folder = Folder::new(name);
    folder.put_both(policy_file, &trace_file(numbers));
    let mut child = start_program(&folder);
    let watch = Watch::new(&child);
    let mut printed = child.stdout.take().expect("its output");
    let mut header = vec![0; HEADER.len()];
    printed.read_exact(&mut header).expect("the header");
    assert_eq!(header, HEADER);

    let policy = accepted(policy_file);
    let (mut state, _) = state::fresh(&policy);
    let block = 4_096;
    let mut log = vec![0; block * LINE];
    let mut text = vec![0; block * stream::TEXT_LINE];
    let mut expected = text.clone();
    let mut peak = 0;
    for (place, numbers) in numbers.chunks(block).enumerate() {
        // The pipe holds far less than a block, so the program waits to write
        // while it is asked how much memory it holds: it has not ended yet.
        peak = peak.max(memory_of(child.id()).unwrap_or(0));
        let text = &mut text[..numbers.len() * stream::TEXT_LINE];
        printed.read_exact(text).expect("a line for each number");
        let log = &mut log[..numbers.len() * LINE];
        assert_eq!(trace::run(&policy, &mut state, numbers, log), Ok(()));
        let expected = &mut expected[..text.len()];
        let lines = expected.chunks_exact_mut(stream::TEXT_LINE);
        for (line, numbers) in lines.zip(log.chunks_exact(LINE)) {
            let numbers = numbers.try_into().expect("a line's numbers");
            stream::put_line(line, numbers);
        }
        let first_line = place * block;
        assert_eq!(same_text(text, expected), Ok(()), "after line {first_line}");
    }
    let mut rest = Vec::new();
    printed.read_to_end(&mut rest).expect("the end");
    assert_eq!(rest, b"", "nothing after the last line");
    drop(watch);
    assert!(wait_for_end(&mut child).success());
    assert_eq!(words_of(&mut child), "", "nothing on standard error");
    assert!(peak > 0, "the memory of the program was never seen");
    println!("{} numbers: {peak} KiB", numbers.len());
    peak
}

/// What a program that has ended wrote to standard error, which was kept.
pub fn words_of(child: &mut Child) -> String {
    let mut words = String::new();
    let stderr = child.stderr.as_mut().expect("its standard error");
    stderr.read_to_string(&mut words).expect("words");
    words
}

/// The most memory that a running program has held, in KiB.
fn memory_of(id: u32) -> Option<u64> {
    let status = fs::read_to_string(format!("/proc/{id}/status")).ok()?;
    let line = status.lines().find(|line| line.starts_with("VmHWM:"))?;
    line.split_whitespace().nth(1)?.parse().ok()
}

/// Whether the built program prints exactly what is expected in a folder, and
/// nothing on standard error.
pub fn check_program(folder: &Folder, expected: &[u8]) -> Result<(), String> {
    check_output(&run_program(folder), expected)
        .map_err(|why| format!("{why}\nthe folder is {}", folder.path().display()))
}

pub fn check_output(output: &Output, expected: &[u8]) -> Result<(), String> {
    let words = String::from_utf8_lossy(&output.stderr);
    if output.status.code().is_none() {
        return Err(format!("it ended by {}: {words}", output.status));
    }
    if !words.is_empty() {
        return Err(format!("it wrote to standard error: {words}"));
    }
    same_text(&output.stdout, expected)?;
    // What a refused policy exits with is open; a run that did its work says so.
    if expected.starts_with(HEADER) && !output.status.success() {
        return Err(format!("it ended by {}", output.status));
    }
    Ok(())
}

/// Compares texts, and says where they part rather than printing them whole.
pub fn same_text(printed: &[u8], expected: &[u8]) -> Result<(), String> {
    if printed == expected {
        return Ok(());
    }
    let mut lines = printed.split(|&byte| byte == b'\n');
    let mut expected_lines = expected.split(|&byte| byte == b'\n');
    for number in 1.. {
        let pair = (lines.next(), expected_lines.next());
        if pair.0 != pair.1 {
            let show = |line: Option<&[u8]>| {
                line.map_or("(no line)".into(), |line| {
                    String::from_utf8_lossy(&line[..line.len().min(80)]).into_owned()
                })
            };
            return Err(format!(
                "line {number} is `{}`, not `{}` ({} bytes printed, {} expected)",
                show(pair.0),
                show(pair.1),
                printed.len(),
                expected.len()
            ));
        }
    }
    unreachable!("texts that differ have a line that differs")
}

/// Waits for a program to end by itself. One that does not is ended, and the
/// test fails.
pub fn wait_for_end(child: &mut Child) -> ExitStatus {
    let start = Instant::now();
    loop {
        if let Some(status) = child.try_wait().expect("the program can be waited for") {
            return status;
        }
        if start.elapsed() > LONGEST_RUN {
            let _ = child.kill();
            let _ = child.wait();
            panic!("the program does not end");
        }
        thread::sleep(Duration::from_millis(2));
    }
}

/// How many numbers stand around a slice that a call is lent, to see that they stay.
const GUARD: usize = 8;

/// What a lent slice is made of.
pub trait Number: Copy + Eq + UpperHex {
    /// What stands at a place before a call. A number that a call writes may look like one of these, but not
    /// all of them do.
    fn filler(place: usize) -> Self;
}

impl Number for u32 {
    fn filler(place: usize) -> u32 {
        0x5AA5_0000 ^ place as u32
    }
}

impl Number for u8 {
    fn filler(place: usize) -> u8 {
        0xA5 ^ place as u8
    }
}

/// A slice that a call is lent for writing, twice: as what is compared writes it, and as the model does.
pub struct Lent<T> {
    room: usize,
    numbers: Vec<T>,
    expected: Vec<T>,
}

impl<T: Number> Lent<T> {
    pub fn with_room(room: usize) -> Lent<T> {
        let numbers: Vec<T> = (0..GUARD + room + GUARD).map(T::filler).collect();
        Lent {
            room,
            expected: numbers.clone(),
            numbers,
        }
    }

    /// The slice for what is compared.
    pub fn numbers(&mut self) -> &mut [T] {
        &mut self.numbers[GUARD..GUARD + self.room]
    }

    /// The slice for the model.
    pub fn expected(&mut self) -> &mut [T] {
        &mut self.expected[GUARD..GUARD + self.room]
    }

    /// Compares the counts, the statuses, and every number in the room and around it.
    pub fn compare(
        &self,
        made: (usize, u32),
        expected: (usize, u32),
        asked: &str,
    ) -> Result<(), String> {
        if made != expected {
            return Err(format!(
                "count {}, status {}, not {} and {}: {asked}, room for {}",
                made.0, made.1, expected.0, expected.1, self.room
            ));
        }
        let differs = |&place: &usize| self.numbers[place] != self.expected[place];
        match (0..self.expected.len()).find(differs) {
            None => Ok(()),
            Some(place) => Err(format!(
                "number {} is {:08X}, not {:08X}: {asked}, room for {}",
                place as i64 - GUARD as i64,
                self.numbers[place],
                self.expected[place],
                self.room
            )),
        }
    }
}
