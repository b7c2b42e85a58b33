//! The program, in Rust, over the rules written for speed. It reads policy.bin
//! and trace.bin of its working folder, as the built program does.

use std::process::ExitCode;

use vigambul_compare::stream;

fn main() -> ExitCode {
    match stream::program() {
        Ok(()) => ExitCode::SUCCESS,
        Err(error) => {
            eprintln!("fast_program: {error}");
            ExitCode::FAILURE
        }
    }
}
