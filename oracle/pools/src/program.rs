//! What the programs share that answer frames, and hold other programs to the answers.

use std::env;
use std::error::Error;
use std::io::{self, BufWriter, StdinLock, Write};
use std::process::ExitCode;

/// Runs a program on its arguments: it fails where something differs, and tells an error.
pub fn run_main(
    name: &str,
    run: impl FnOnce(&[String]) -> Result<bool, Box<dyn Error>>,
) -> ExitCode {
    let arguments: Vec<String> = env::args().skip(1).collect();
    match run(&arguments) {
        Ok(true) => ExitCode::SUCCESS,
        Ok(false) => ExitCode::FAILURE,
        Err(error) => {
            eprintln!("{name}: {error}");
            ExitCode::FAILURE
        }
    }
}

/// Prints the answers to the frames of the standard input; `next` reads a frame and answers it.
pub fn serve(next: fn(&mut StdinLock) -> io::Result<Option<Vec<u8>>>) -> io::Result<()> {
    let mut input = io::stdin().lock();
    let mut output = BufWriter::new(io::stdout().lock());
    while let Some(answer) = next(&mut input)? {
        output.write_all(&answer)?;
    }
    output.flush()
}
