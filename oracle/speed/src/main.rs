//! Times and counts ours and the Rust's module on the same jobs, and draws what came out.
//!
//! `speed time FILE` and `speed count FILE FOLDER` put figures into the file, `speed tables FILE` prints them as tables,
//! `speed draw FILE PICTURE` draws them. `speed once SIDE FAMILY SIZE` is what `count` runs under callgrind.

mod clock;
mod count;
mod draw;
mod figures;
mod sets;
mod sides;
mod stages;
mod tables;
mod times;
mod worst;

use figures::Figures;
use std::env;
use std::error::Error;
use std::fs;
use std::path::Path;
use std::process::ExitCode;

const USAGE: &str = "usage: speed time FILE | speed count FILE FOLDER | speed tables FILE
       speed draw FILE PICTURE | speed once SIDE FAMILY SIZE";

fn main() -> ExitCode {
    let arguments: Vec<String> = env::args().skip(1).collect();
    let arguments: Vec<&str> = arguments.iter().map(String::as_str).collect();
    match run(&arguments) {
        Ok(()) => ExitCode::SUCCESS,
        Err(error) => {
            eprintln!("speed: {error}");
            ExitCode::FAILURE
        }
    }
}

fn run(arguments: &[&str]) -> Result<(), Box<dyn Error>> {
    match arguments {
        ["time", file] => {
            let mut figures = so_far(file)?;
            times::families(&mut figures);
            times::small(&mut figures);
            times::blocks(&mut figures);
            times::colliding(&mut figures);
            worst::generators(&mut figures);
            figures.write(file)?;
        }
        ["count", file, folder] => {
            let mut figures = so_far(file)?;
            count::all(&mut figures, folder)?;
            figures.write(file)?;
        }
        ["tables", file] => print!("{}", tables::all(&Figures::read(file)?)),
        ["draw", file, picture] => fs::write(picture, draw::picture(&Figures::read(file)?))?,
        ["once", side, family, size] => count::once(side, family, size).ok_or(USAGE)?,
        _ => return Err(USAGE.into()),
    }
    Ok(())
}

fn so_far(file: &str) -> Result<Figures, Box<dyn Error>> {
    if Path::new(file).exists() {
        Ok(Figures::read(file)?)
    } else {
        Ok(Figures::default())
    }
}
