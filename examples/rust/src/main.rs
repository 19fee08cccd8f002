//! Judges the picture in a block file, then prints the matrix of mode 0 and its first-match list:
//!
//!     cargo run --offline --quiet -- ../../samples/J.blk

use rights::{Arrow, Cell, Matrix, Mode, Picture, Refusal, Sign};
use std::error::Error;
use std::process::ExitCode;

fn main() -> ExitCode {
    let Some(path) = std::env::args_os().nth(1) else {
        eprintln!("usage: rights-example FILE");
        return ExitCode::from(2);
    };
    match show(std::path::Path::new(&path)) {
        Ok(()) => ExitCode::SUCCESS,
        Err(why) => {
            eprintln!("{}: {why}", path.to_string_lossy());
            ExitCode::FAILURE
        }
    }
}

fn show(path: &std::path::Path) -> Result<(), Box<dyn Error>> {
    let picture = Picture::read(&std::fs::read(path)?)?;
    match picture.judge() {
        Ok(()) => println!("clear in every mode"),
        // Its matrix can be shown all the same.
        Err(Refusal::UnclearPair { mode, user, file }) => {
            println!("unclear first in mode {mode}, for user {user} and file {file}")
        }
        Err(refusal) => return Err(refusal.into()),
    }
    let mode = Mode::new(0)?;
    print_matrix(&picture.matrix(mode)?, mode);
    print_list(&picture, mode)?;
    Ok(())
}

fn print_matrix(matrix: &Matrix, mode: Mode) {
    let line = |first: String, cells: Vec<String>| {
        let cells: Vec<String> = cells.iter().map(|cell| format!("  {cell:<20}")).collect();
        println!("{}", format!("{first:<8}{}", cells.concat()).trim_end());
    };
    let files = matrix.files().iter();
    let columns = files.map(|file| format!("file {file}")).collect();
    println!();
    line(format!("mode {}", mode.number()), columns);
    for (user, cells) in matrix.rows() {
        line(format!("user {user}"), cells.iter().map(says).collect());
    }
}

fn says(cell: &Cell) -> String {
    match cell {
        Cell::Granted { arrow } => format!("granted by arrow {arrow}"),
        Cell::Denied { arrow } => format!("denied by arrow {arrow}"),
        Cell::DeniedByDefault => "denied by default".to_string(),
        Cell::Unclear => "unclear".to_string(),
    }
}

fn print_list(picture: &Picture, mode: Mode) -> Result<(), Refusal> {
    println!("\nfirst-match list of mode {}", mode.number());
    match picture.list(mode) {
        Ok(list) => {
            for number in list {
                let Arrow {
                    tail, head, sign, ..
                } = picture.arrows[usize::from(number)];
                let says = match sign {
                    Sign::Positive => "grants",
                    Sign::Negative => "denies",
                };
                println!("arrow {number}: {says} box {head} to box {tail}");
            }
            println!("all else is denied");
        }
        Err(Refusal::NoOrder { user, file, .. }) => {
            println!(
                "there is none: no list can grant user {user} file {file}, as the picture does"
            )
        }
        Err(Refusal::UnclearPair { user, file, .. }) => {
            println!("there is none: user {user} and file {file} are unclear")
        }
        Err(refusal) => return Err(refusal),
    }
    Ok(())
}
