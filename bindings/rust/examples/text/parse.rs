//! Reads the text of a picture.

use super::line::{statement, Statement};
use super::names::{one_more, Names};
use rights::{Picture, Table};
use std::fmt;

/// What is wrong with a text.
#[derive(Debug, PartialEq, Eq)]
pub struct Fault {
    /// The line, from 1.
    pub line: usize,
    /// What is wrong there.
    pub message: String,
}

impl fmt::Display for Fault {
    fn fmt(&self, f: &mut fmt::Formatter) -> fmt::Result {
        write!(f, "{}: {}", self.line, self.message)
    }
}

/// The picture that a text says.
///
/// Names may be used before the lines that give them, so all lines are read for names first. Of
/// several faults the first is told: those in the form of a line, and in the names that are given,
/// come before those in containments and arrows.
pub fn parse(text: &[u8]) -> Result<Picture, Fault> {
    // Some editors begin a file with the mark of UTF-8.
    let text = text.strip_prefix(b"\xef\xbb\xbf").unwrap_or(text);
    let mut names = Names::default();
    let mut statements = Vec::new();
    for (line, bytes) in (1..).zip(text.split(|byte| *byte == b'\n')) {
        let fault = |message| Fault { line, message };
        if let Some(statement) = statement(bytes).map_err(fault)? {
            names.take(&statement, line).map_err(fault)?;
            statements.push((line, statement));
        }
    }
    let mut picture = Picture {
        boxes: names.kinds(),
        ..Picture::default()
    };
    for (line, statement) in statements {
        let fault = |message| Fault { line, message };
        add_row(&mut picture, &names, statement).map_err(fault)?;
    }
    Ok(picture)
}

/// Adds the containment or the arrow that a statement says.
fn add_row(picture: &mut Picture, names: &Names, statement: Statement) -> Result<(), String> {
    match statement {
        Statement::Box(..) | Statement::Mode(..) => {}
        Statement::Inside(inner, outer) => {
            one_more(Table::Containments, picture.containments.len())?;
            picture.containments.push(names.containment(inner, outer)?);
        }
        Statement::Arrow(words, sign) => {
            one_more(Table::Arrows, picture.arrows.len())?;
            picture.arrows.push(names.arrow(words, sign)?);
        }
    }
    Ok(())
}
