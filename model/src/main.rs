//! The command line.

use std::ffi::OsString;
use std::fs;
use std::io::{self, BufWriter, ErrorKind, Write};
use std::path::{Path, PathBuf};
use std::process::ExitCode;

use vigambul_model::class_set::ClassSet;
use vigambul_model::{generate, leaks, program};

const USAGE: &str = "\
A model of the lattice priority controller, cycle by cycle.

usage:
  vigambul-model run DIR          print the log of DIR/trace.bin under DIR/policy.bin
  vigambul-model extract SET DIR  print the extract of that log for a class or a set of classes:
                                  a class (2), several with commas between (1,2), or none
  vigambul-model recordings START DIR
                                  print the two recordings of that log, if it begins at cycle START
  vigambul-model match DELAY DIR  hold DIR/wires.bin against DIR/cores.bin, a missing one as empty, and
                                  print status, which recording and where the rest begins, and the rest
  vigambul-model generate SEED DIR
                                  write a policy.bin and a trace.bin made from SEED into DIR
  vigambul-model leaks COUNT      search COUNT pairs of lists for leaks to a class, and as many
                                  for leaks to a set of classes
  vigambul-model --help           print this text

The exit status is 0 if the command did its work (a refusal that is printed is
part of it), 1 if a file cannot be read or written or a leak is found, and 2 if
the arguments are wrong or DIR or a file of it that is to be read is missing
(a recording apart).
";

/// What the arguments ask for.
enum Command {
    Help,
    Run { dir: PathBuf },
    Extract { classes: ClassSet, dir: PathBuf },
    Recordings { start: u32, dir: PathBuf },
    Match { delay: u8, dir: PathBuf },
    Generate { seed: u64, dir: PathBuf },
    Leaks { count: u64 },
}

fn main() -> ExitCode {
    let arguments: Vec<OsString> = std::env::args_os().skip(1).collect();
    let command = match parse(&arguments) {
        Ok(command) => command,
        Err(message) => {
            eprint!("vigambul-model: {message}\n\n{USAGE}");
            return ExitCode::from(2);
        }
    };
    match perform(command) {
        Ok(code) => code,
        Err(trouble) => {
            eprintln!("vigambul-model: {}", trouble.message);
            ExitCode::from(trouble.status)
        }
    }
}

/// Why a command did not do its work, and the exit status that says so.
struct Trouble {
    status: u8,
    message: String,
}

impl Trouble {
    fn missing(message: String) -> Trouble {
        Trouble { status: 2, message }
    }
}

impl From<String> for Trouble {
    fn from(message: String) -> Trouble {
        Trouble { status: 1, message }
    }
}

fn parse(arguments: &[OsString]) -> Result<Command, String> {
    // The name of a folder need not be text; commands and numbers are.
    let words: Vec<&str> = arguments
        .iter()
        .map(|argument| argument.to_str().unwrap_or("(not text)"))
        .collect();
    let dir = || arguments.last().map(PathBuf::from).unwrap_or_default();
    match words.as_slice() {
        ["--help" | "-h"] => Ok(Command::Help),
        ["run", _] => Ok(Command::Run { dir: dir() }),
        ["extract", classes, _] => Ok(Command::Extract {
            classes: value(
                "SET",
                "a class, classes as in 1,2 or the word none",
                classes,
            )?,
            dir: dir(),
        }),
        ["recordings", start, _] => Ok(Command::Recordings {
            start: value("START", "a whole number of 32 bits", start)?,
            dir: dir(),
        }),
        ["match", delay, _] => Ok(Command::Match {
            delay: value("DELAY", "a whole number from 0 to 255", delay)?,
            dir: dir(),
        }),
        ["generate", seed, _] => Ok(Command::Generate {
            seed: number("SEED", seed)?,
            dir: dir(),
        }),
        ["leaks", count] => match number("COUNT", count)? {
            0 => Err("COUNT must be at least 1: a search of no pairs shows nothing".to_string()),
            count => Ok(Command::Leaks { count }),
        },
        [] => Err("a command is missing".to_string()),
        ["run" | "extract" | "recordings" | "match" | "generate" | "leaks", ..] => {
            Err(format!("wrong number of arguments for {}", words[0]))
        }
        [other, ..] => Err(format!("unknown command {other}")),
    }
}

fn number(what: &str, text: &str) -> Result<u64, String> {
    value(what, "a whole number", text)
}

fn value<T: std::str::FromStr>(what: &str, is: &str, text: &str) -> Result<T, String> {
    text.parse()
        .map_err(|_| format!("{what} must be {is}, not {text}"))
}

fn perform(command: Command) -> Result<ExitCode, Trouble> {
    match command {
        Command::Help => Ok(print(USAGE.as_bytes())?),
        Command::Run { dir } => {
            let (policy, trace) = read_folder(&dir)?;
            Ok(print(&program::output(&policy, &trace))?)
        }
        Command::Extract { classes, dir } => {
            let (policy, trace) = read_folder(&dir)?;
            Ok(print(&program::extract_output(classes, &policy, &trace))?)
        }
        Command::Recordings { start, dir } => {
            let (policy, trace) = read_folder(&dir)?;
            Ok(print(&program::recordings_output(start, &policy, &trace))?)
        }
        Command::Match { delay, dir } => {
            let [wires, cores] = read_recordings(&dir)?;
            Ok(print(&program::match_output(delay, &wires, &cores))?)
        }
        Command::Generate { seed, dir } => {
            let folder = generate::folder(seed);
            fs::create_dir_all(&dir)
                .map_err(|error| format!("cannot create {}: {error}", dir.display()))?;
            write(&dir, "policy.bin", &folder.policy)?;
            write(&dir, "trace.bin", &folder.trace)?;
            Ok(ExitCode::SUCCESS)
        }
        Command::Leaks { count } => {
            let searches = [leaks::search(count), leaks::search_sets(count)];
            let [of_classes, of_sets] = searches.each_ref().map(leaks::Search::report);
            print(format!("{of_classes}\nsets of classes:\n{of_sets}").as_bytes())?;
            Ok(match searches.iter().all(|search| search.leak.is_none()) {
                true => ExitCode::SUCCESS,
                false => ExitCode::FAILURE,
            })
        }
    }
}

/// Document 01's program reads a missing file as empty. Here the folder is named by the user, so what
/// is missing is more likely a slip, and is told.
fn read_folder(dir: &Path) -> Result<(Vec<u8>, Vec<u8>), Trouble> {
    has_folder(dir)?;
    Ok((read(dir, "policy.bin")?, read(dir, "trace.bin")?))
}

/// A lab may have made one recording alone, and what is missing in the other is what it asks: a
/// missing file is read as empty. A missing folder is told here too.
fn read_recordings(dir: &Path) -> Result<[Vec<u8>; 2], Trouble> {
    has_folder(dir)?;
    let read_if_there = |name: &str| match dir.join(name).exists() {
        true => read(dir, name),
        false => Ok(Vec::new()),
    };
    Ok([read_if_there("wires.bin")?, read_if_there("cores.bin")?])
}

fn has_folder(dir: &Path) -> Result<(), Trouble> {
    match dir.exists() {
        true => Ok(()),
        false => {
            let message = format!("there is no folder {}", dir.display());
            Err(Trouble::missing(message))
        }
    }
}

fn read(dir: &Path, name: &str) -> Result<Vec<u8>, Trouble> {
    let path = dir.join(name);
    fs::read(&path).map_err(|error| match error.kind() {
        ErrorKind::NotFound => Trouble::missing(format!("there is no file {}", path.display())),
        _ => Trouble::from(format!("cannot read {}: {error}", path.display())),
    })
}

fn write(dir: &Path, name: &str, bytes: &[u8]) -> Result<(), String> {
    let path = dir.join(name);
    fs::write(&path, bytes).map_err(|error| format!("cannot write {}: {error}", path.display()))
}

fn print(text: &[u8]) -> Result<ExitCode, String> {
    let mut out = BufWriter::new(io::stdout().lock());
    out.write_all(text)
        .and_then(|()| out.flush())
        .map_err(|error| format!("cannot write the output: {error}"))?;
    Ok(ExitCode::SUCCESS)
}
