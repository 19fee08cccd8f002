//! What both programs have around their work: argument, input, output and exit status.

use std::ffi::OsStr;
use std::fs::File;
use std::io::{self, Read, Write};
use std::os::fd::AsFd;
use std::process::ExitCode;

/// The text or the file is refused.
const REFUSED: u8 = 1;
/// The system failed, or the program was called in a wrong way.
const FAILED: u8 = 2;

/// Makes the output from the input's name and bytes, or says why they are refused.
pub type Make = fn(&str, &[u8]) -> Result<Vec<u8>, String>;

/// Runs a program. Its exit status is 0 exactly if the whole output was written; nothing is written
/// before all of it is made.
pub fn run(program: &str, make: Make) -> ExitCode {
    match convert(program, make) {
        Ok(()) => ExitCode::SUCCESS,
        Err((status, message)) => {
            // Where standard error fails too, the exit status alone tells.
            let _ = writeln!(io::stderr(), "{message}");
            ExitCode::from(status)
        }
    }
}

fn convert(program: &str, make: Make) -> Result<(), (u8, String)> {
    let mut arguments = std::env::args_os().skip(1);
    let path = arguments.next();
    if arguments.next().is_some() || path.as_deref() == Some(OsStr::new("--help")) {
        let usage = format!("usage: {program} [FILE]; without FILE, standard input is read");
        return Err((FAILED, usage));
    }
    let name = path.as_deref().unwrap_or(OsStr::new("standard input"));
    let name = name.to_string_lossy();
    let input = read(path.as_deref())
        .map_err(|why| (FAILED, format!("{program}: cannot read {name}: {why}")))?;
    let output = make(&name, &input).map_err(|why| (REFUSED, format!("{program}: {why}")))?;
    write(&output).map_err(|why| (FAILED, format!("{program}: cannot write: {why}")))
}

// Standard input and output are used as files: `Stdin` and `Stdout` pass over the error of a
// descriptor that is not open for reading or writing.

fn read(path: Option<&OsStr>) -> io::Result<Vec<u8>> {
    let mut file = match path {
        Some(path) => File::open(path)?,
        None => File::from(io::stdin().as_fd().try_clone_to_owned()?),
    };
    let mut input = Vec::new();
    file.read_to_end(&mut input)?;
    Ok(input)
}

fn write(output: &[u8]) -> io::Result<()> {
    File::from(io::stdout().as_fd().try_clone_to_owned()?).write_all(output)
}
