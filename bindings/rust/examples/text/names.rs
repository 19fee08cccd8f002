//! The names that a text gives, and the rows that it says with them.

use super::kinds::KINDS;
use super::line::{mode, number, quoted, shown, Statement};
use rights::{Arrow, BoxKind, Mode, Side, Sign, Table};

/// Whether a table with so many rows takes one more.
pub fn one_more(table: Table, count: usize) -> Result<(), String> {
    let limit = table.limit();
    if count < limit {
        return Ok(());
    }
    Err(format!("one too many: there may be {limit} {table}"))
}

/// What a line names: a box of some kind, or a mode.
struct Named<'a, T> {
    what: T,
    name: &'a str,
    line: usize,
}

impl<T> Named<'_, T> {
    fn already(&self, what: &str, number: usize) -> String {
        let (name, line) = (quoted(self.name), self.line);
        format!("{what} {number} is called {name} already, in line {line}")
    }
}

/// The boxes, by number, and the modes that have a name. A box and a mode may have the same name.
#[derive(Default)]
pub struct Names<'a> {
    boxes: Vec<Named<'a, BoxKind>>,
    modes: Vec<Named<'a, Mode>>,
}

impl<'a> Names<'a> {
    /// Takes the name that a statement gives, if it gives one.
    pub fn take(&mut self, statement: &Statement<'a>, line: usize) -> Result<(), String> {
        match *statement {
            Statement::Box(what, name) => {
                one_more(Table::Boxes, self.boxes.len())?;
                if let Some(at) = self.boxes.iter().position(|known| known.name == name) {
                    return Err(self.boxes[at].already("box", at));
                }
                self.boxes.push(Named { what, name, line });
            }
            Statement::Mode(what, name) => {
                let taken = |known: &&Named<Mode>| known.name == name || known.what == what;
                if let Some(known) = self.modes.iter().find(taken) {
                    return Err(known.already("mode", known.what.number().into()));
                }
                self.modes.push(Named { what, name, line });
            }
            Statement::Inside(..) | Statement::Arrow(..) => {}
        }
        Ok(())
    }

    /// The kinds of the boxes, by number.
    pub fn kinds(&self) -> Vec<BoxKind> {
        self.boxes.iter().map(|named| named.what).collect()
    }

    /// The outer and the inner box of a containment.
    pub fn containment(&self, inner: &str, outer: &str) -> Result<(u16, u16), String> {
        let (inner, outer) = (self.find(inner)?, self.find(outer)?);
        if self.side(inner) == self.side(outer) {
            return Ok((outer, inner));
        }
        let (inner, outer) = (self.says(inner), self.says(outer));
        Err(format!(
            "{inner} and {outer}: a box of one side can't be inside one of the other"
        ))
    }

    /// An arrow from its tail, head and mode.
    pub fn arrow(&self, [tail, head, mode]: [&str; 3], sign: Sign) -> Result<Arrow, String> {
        let (tail, head) = (self.find(tail)?, self.find(head)?);
        let mode = self.mode(mode)?;
        if self.side(tail) != Side::User {
            let tail = self.says(tail);
            return Err(format!("an arrow starts on the user side, and {tail}"));
        }
        if self.side(head) != Side::File {
            let head = self.says(head);
            return Err(format!("an arrow ends on the file side, and {head}"));
        }
        Ok(Arrow {
            tail,
            head,
            mode,
            sign,
        })
    }

    /// The number of a box that is given by its name or its number.
    fn find(&self, word: &str) -> Result<u16, String> {
        let place = match number(word) {
            Some(number) => (number < self.boxes.len()).then_some(number),
            None => self.boxes.iter().position(|named| named.name == word),
        };
        let place = place.and_then(|place| u16::try_from(place).ok());
        place.ok_or_else(|| match (number(word), self.boxes.len()) {
            (None, _) => format!("no box is called {}", quoted(word)),
            (_, 0) => format!("there is no box {}: the text has no boxes", shown(word)),
            (_, count) => format!("there is no box {}: the last is {}", shown(word), count - 1),
        })
    }

    /// A mode that is given by its name or its number.
    fn mode(&self, word: &str) -> Result<Mode, String> {
        if number(word).is_some() {
            return mode(word);
        }
        let named = self.modes.iter().find(|named| named.name == word);
        let named = named.ok_or_else(|| format!("no mode is called {}", quoted(word)))?;
        Ok(named.what)
    }

    fn side(&self, number: u16) -> Side {
        self.boxes[usize::from(number)].what.side()
    }

    /// A box and its kind in words.
    fn says(&self, number: u16) -> String {
        let Named { what, name, .. } = self.boxes[usize::from(number)];
        format!("{} is a {}", quoted(name), KINDS[what as usize])
    }
}
