//! Makes a block file of a picture that is written as text:
//!
//!     text2blk [FILE] > picture.blk
//!
//! `docs/USING.md` describes the text. Exit status 0: the block file is written whole. 1: the text
//! is refused. 2: the system failed, or the program was called in a wrong way. Standard error says
//! why.

mod text {
    mod kinds;
    mod line;
    mod names;
    pub mod parse;
    pub mod program;
}

use std::process::ExitCode;
use text::{parse::parse, program::run};

fn main() -> ExitCode {
    run("text2blk", |file, text| {
        let picture = parse(text).map_err(|fault| format!("{file}:{fault}"))?;
        let packed = picture.pack();
        packed.map_err(|refusal| format!("{file}: {refusal}"))
    })
}
