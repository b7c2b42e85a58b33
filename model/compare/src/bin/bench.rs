//! Measures the built library and the built program beside the model and the
//! rules written for speed, in one run and on the same inputs.

use std::fs::{self, File};
use std::hint::black_box;
use std::io::{self, Write};
use std::path::{Path, PathBuf};
use std::process::{Command, ExitCode, Stdio};
use std::time::{Duration, Instant};

use vigambul_compare::workloads::{self, Workload};
use vigambul_compare::{built, fast, library, stream};
use vigambul_model::program::HEADER;
use vigambul_model::{policy, state, trace};

/// Trace numbers of a run. Trace and log, 20 bytes a number, are 4 MB.
const RUN_LENGTH: usize = 200_000;
const RUN_REPETITIONS: usize = 60;
/// Runs over no numbers that are timed together.
const EMPTY_RUNS: u128 = 500;
/// Lines that a program prints: 72 MB.
const PROGRAM_LENGTH: usize = 2_000_000;
const PROGRAM_REPETITIONS: usize = 15;

/// The argument with which this binary is the program over the fast rules: so
/// it is there without a build of its own.
const AS_PROGRAM: &str = "--as-fast-program";

fn main() -> ExitCode {
    let outcome = match std::env::args().nth(1).as_deref() {
        None => measure(),
        Some(AS_PROGRAM) => stream::program(),
        Some(_) => {
            eprintln!("usage: bench (no arguments)");
            return ExitCode::from(2);
        }
    };
    match outcome {
        Ok(()) => ExitCode::SUCCESS,
        Err(error) => {
            eprintln!("bench: {error}");
            ExitCode::FAILURE
        }
    }
}

fn measure() -> io::Result<()> {
    println!("Runs: nanoseconds for each trace number, policy file read and fresh state included.");
    println!(
        "{RUN_LENGTH} numbers; the best of {RUN_REPETITIONS} repetitions, in an order that alternates. Trace and log are the"
    );
    println!("same for all and are written once before, so no page is touched for the first time.");
    run_table(&workloads::main_workloads(RUN_LENGTH));
    let [library, model, fast] = time_empty_runs();
    println!("A run over no numbers, a policy of 16 classes: {library} ns in the library,");
    println!("{model} ns in the model, {fast} ns in the fast rules.");
    println!();
    println!("Ticks of which one in 255 starts a turn, by the number of classes:");
    run_table(&workloads::long_turn_workloads(RUN_LENGTH));
    println!("Programs: millions of lines for each second, from start to end of the process.");
    println!(
        "{PROGRAM_LENGTH} lines of 36 bytes; the best of {PROGRAM_REPETITIONS} repetitions, in an order that alternates. The trace"
    );
    println!("is in the system's cache. A file is emptied before, and not synced to the disk.");
    program_table(&workloads::main_workloads(PROGRAM_LENGTH))
}

// ---------------------------------------------------------------------------
// Runs.

/// A run from a policy file's bytes, as the library's call makes it.
type Run = fn(&[u8], &[u32], &mut [u32]) -> u32;

const RUNS: [Run; 3] = [library::run, model_run, fast::run];

/// The literal model, asked in the same way as the library.
fn model_run(policy_file: &[u8], numbers: &[u32], log: &mut [u32]) -> u32 {
    let (policy, refusal) = policy::read(policy_file);
    if let Some(refusal) = refusal {
        return refusal.number();
    }
    let (mut state, _) = state::fresh(&policy);
    match trace::run(&policy, &mut state, numbers, log) {
        Ok(()) => 0,
        Err(refusal) => refusal.number(),
    }
}

fn run_table(workloads: &[Workload]) {
    println!(
        "  {:<36} {:>8} {:>8} {:>8} {:>14} {:>13}",
        "workload", "library", "model", "fast", "library/model", "library/fast"
    );
    for (workload, best) in workloads.iter().zip(time_runs(workloads)) {
        let length = workload.trace.len() as f64;
        let [library, model, fast] = best.map(|time| time.as_nanos() as f64 / length);
        println!(
            "  {:<36} {library:>8.2} {model:>8.2} {fast:>8.2} {:>14.2} {:>13.2}",
            workload.name,
            library / model,
            library / fast
        );
    }
    println!();
}

/// For each workload the best time of each run, all into one log. Every
/// repetition takes all workloads, so that a slow moment of the machine does not
/// hit all repetitions of one of them.
fn time_runs(workloads: &[Workload]) -> Vec<[Duration; 3]> {
    let mut log = vec![1; 4 * RUN_LENGTH];
    for workload in workloads {
        require_equal_logs(workload, &mut log);
    }
    let mut best = vec![[Duration::MAX; 3]; workloads.len()];
    for repetition in 0..RUN_REPETITIONS {
        for (workload, best) in workloads.iter().zip(&mut best) {
            for place in 0..RUNS.len() {
                let which = (place + repetition) % RUNS.len();
                let start = Instant::now();
                let status = RUNS[which](
                    black_box(&workload.policy),
                    black_box(&workload.trace),
                    black_box(&mut log),
                );
                best[which] = best[which].min(start.elapsed());
                assert_eq!(status, 0, "{}", workload.name);
            }
        }
    }
    best
}

/// The nanoseconds that a run takes before its first number.
fn time_empty_runs() -> [u128; 3] {
    let policy = workloads::policy_of_sixteen();
    RUNS.map(|run| {
        let time = |_| {
            let start = Instant::now();
            for _ in 0..EMPTY_RUNS {
                assert_eq!(run(black_box(&policy), &[], &mut []), 0);
            }
            start.elapsed().as_nanos() / EMPTY_RUNS
        };
        (0..RUN_REPETITIONS).map(time).min().unwrap_or(0)
    })
}

/// What is measured is worth nothing if the results differ.
fn require_equal_logs(workload: &Workload, log: &mut [u32]) {
    let mut first: Option<Vec<u32>> = None;
    for run in RUNS {
        log.fill(1);
        assert_eq!(run(&workload.policy, &workload.trace, log), 0);
        match &first {
            None => first = Some(log.to_vec()),
            Some(first) => assert!(first == log, "{}: the logs differ", workload.name),
        }
    }
}

// ---------------------------------------------------------------------------
// Programs.

/// A program, with its arguments.
type Program = (PathBuf, &'static [&'static str]);

fn program_table(workloads: &[Workload]) -> io::Result<()> {
    let folder = std::env::temp_dir().join(format!("vigambul-bench-{}", std::process::id()));
    fs::create_dir_all(&folder)?;
    let done = print_program_table(workloads, &folder);
    fs::remove_dir_all(&folder)?;
    done
}

fn print_program_table(workloads: &[Workload], folder: &Path) -> io::Result<()> {
    let programs: [Program; 2] = [
        (built::program(), &[]),
        (std::env::current_exe()?, &[AS_PROGRAM]),
    ];
    println!(
        "  {:<36} {:>10} {:>10} {:>13}   {:>10} {:>10} {:>13}",
        "", "/dev/null", "", "", "a file", "", ""
    );
    println!(
        "  {:<36} {:>10} {:>10} {:>13}   {:>10} {:>10} {:>13}",
        "workload", "program", "in Rust", "program/Rust", "program", "in Rust", "program/Rust"
    );
    for workload in workloads {
        fs::write(folder.join("policy.bin"), &workload.policy)?;
        let mut bytes = Vec::with_capacity(4 * workload.trace.len());
        for number in &workload.trace {
            bytes.extend_from_slice(&number.to_le_bytes());
        }
        fs::write(folder.join("trace.bin"), &bytes)?;
        let file = folder.join("output.txt");
        require_equal_outputs(workload, &programs, folder, &file)?;
        let mut cells = Vec::new();
        for output in [Path::new("/dev/null"), &file] {
            let [program, rust] = time_programs(&programs, folder, output)?
                .map(|best| workload.trace.len() as f64 / best.as_secs_f64() / 1e6);
            cells.push(format!(
                "{program:>10.1} {rust:>10.1} {:>13.2}",
                program / rust
            ));
        }
        println!("  {:<36} {}   {}", workload.name, cells[0], cells[1]);
        io::stdout().flush()?;
    }
    Ok(())
}

/// The best time of each program with its output to a file.
fn time_programs(
    programs: &[Program; 2],
    folder: &Path,
    output: &Path,
) -> io::Result<[Duration; 2]> {
    let mut best = [Duration::MAX; 2];
    for repetition in 0..PROGRAM_REPETITIONS {
        for place in 0..programs.len() {
            let which = (place + repetition) % programs.len();
            let time = time_program(&programs[which], folder, output)?;
            best[which] = best[which].min(time);
        }
    }
    Ok(best)
}

/// The time of one program with its output to a file.
fn time_program(program: &Program, folder: &Path, output: &Path) -> io::Result<Duration> {
    let (path, arguments) = program;
    let mut command = Command::new(path);
    command
        .args(*arguments)
        .current_dir(folder)
        .stdin(Stdio::null())
        .stdout(File::create(output)?);
    let start = Instant::now();
    let status = command.status()?;
    let time = start.elapsed();
    match status.success() {
        true => Ok(time),
        false => Err(io::Error::other(format!("{}: {status}", path.display()))),
    }
}

/// What is measured is worth nothing if the programs print different lines, or
/// not all of them.
fn require_equal_outputs(
    workload: &Workload,
    programs: &[Program; 2],
    folder: &Path,
    output: &Path,
) -> io::Result<()> {
    let mut printed = Vec::new();
    for program in programs {
        time_program(program, folder, output)?;
        printed.push(fs::read(output)?);
    }
    let length = HEADER.len() + stream::TEXT_LINE * workload.trace.len();
    assert_eq!(printed[0].len(), length, "{}", workload.name);
    let equal = printed[0] == printed[1];
    assert!(equal, "{}: the programs' lines differ", workload.name);
    Ok(())
}
