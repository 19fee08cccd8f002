//! Writes the picture in a block file as text, for `text2blk` and for people:
//!
//!     blk2text [FILE] > picture.txt
//!
//! `docs/USING.md` describes the text. Exit status 0: the text is written whole. 1: the block file
//! is refused. 2: the system failed, or the program was called in a wrong way. Standard error says
//! why.

mod text {
    mod kinds;
    pub mod program;
    pub mod write;
}

use rights::Picture;
use std::process::ExitCode;
use text::{program::run, write::write};

fn main() -> ExitCode {
    run("blk2text", |name, file| {
        let picture = Picture::read(file).map_err(|refusal| format!("{name}: {refusal}"))?;
        Ok(write(&picture).into_bytes())
    })
}
