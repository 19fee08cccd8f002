//! The calls on each side: the proved library, the twin, and the limit if one is given.

use super::files;
use super::limited;
use super::pictures::Picture;
use super::twin;
use rights::lent;
use std::collections::HashSet;

#[derive(Clone, Copy, PartialEq, Eq, Debug)]
pub enum Call {
    /// Checks 1 to 10 and the scratch: an entry whose user isn't there is refused behind these.
    Fill,
    Entry,
    Judge,
    Matrix,
    List,
    /// Users go into the list's buffer and files into the rows', which both suffice.
    Atoms,
    Read,
    Pack,
}

use Call::*;

impl Call {
    pub fn name(self) -> &'static str {
        match self {
            Fill => "fill",
            Entry => "entry",
            Judge => "judge",
            Matrix => "matrix",
            List => "list",
            Atoms => "atoms",
            Read => "read",
            Pack => "pack",
        }
    }

    pub fn of(name: &str) -> Option<Call> {
        [Fill, Entry, Judge, Matrix, List, Atoms, Read, Pack]
            .into_iter()
            .find(|c| c.name() == name)
    }
}

#[derive(Clone, Copy, PartialEq, Eq)]
pub enum Side {
    Library,
    Twin,
    Limit,
}

impl Side {
    pub const ALL: [Side; 3] = [Side::Library, Side::Twin, Side::Limit];

    pub fn name(self) -> &'static str {
        match self {
            Side::Library => "library",
            Side::Twin => "twin",
            Side::Limit => "limit",
        }
    }

    pub fn of(name: &str) -> Option<Side> {
        Side::ALL.into_iter().find(|s| s.name() == name)
    }

    /// Whether the side has the call.
    pub fn has(self, call: Call) -> bool {
        match self {
            Side::Library | Side::Twin => true,
            Side::Limit => limited::GIVEN && matches!(call, Fill | Entry | Judge | Matrix | List),
        }
    }
}

/// All that a call may write to.
#[derive(Clone, PartialEq, Eq)]
pub struct Buffers {
    pub scratch: Vec<u8>,
    pub bytes: Vec<u8>,
    pub numbers: Vec<u16>,
    pub list: Vec<u16>,
    pub work: Vec<u8>,
    pub boxes: Vec<u8>,
    pub rows: Vec<u16>,
    pub arrows: Vec<u16>,
    pub file: Vec<u8>,
}

impl Buffers {
    pub fn new() -> Buffers {
        Buffers {
            scratch: vec![170; 65536],
            bytes: vec![170; 16384],
            numbers: vec![43690; 16384],
            list: vec![43690; 512],
            work: vec![170; 16384],
            boxes: vec![170; 256],
            rows: vec![43690; 2048],
            arrows: vec![43690; 2048],
            file: vec![170; 8800],
        }
    }
}

/// A picture, its block file, the pair that an entry asks about, and the limit's tables and room.
pub struct Case {
    pub key: &'static str,
    pub picture: Picture,
    pub file: Vec<u8>,
    user: u16,
    head: u16,
    limited: limited::Given,
}

/// What a call answered: three numbers, or a refusal with its three.
pub type Outcome = Result<[u64; 3], (u32, [u64; 3])>;

impl Case {
    pub fn new(key: &'static str, picture: Picture, blocks: usize) -> Case {
        let atomic = |side: u8| {
            let outer: HashSet<u16> = picture.rows.chunks(2).map(|r| r[0]).collect();
            let mut atoms = (0..picture.boxes.len() as u16).rev();
            atoms
                .find(|b| picture.boxes[*b as usize] == side && !outer.contains(b))
                .unwrap_or(65535)
        };
        Case {
            user: atomic(0),
            head: atomic(1),
            file: files::block_file(&picture, blocks.max(files::fewest_blocks(&picture))),
            limited: limited::Given::new(&picture),
            key,
            picture,
        }
    }

    /// The user that a call asks for: for a fill, one that isn't there.
    fn user(&self, call: Call) -> u16 {
        if call == Fill {
            65535
        } else {
            self.user
        }
    }

    pub fn run(&mut self, side: Side, call: Call, b: &mut Buffers) -> Outcome {
        match side {
            Side::Library => self.library(call, b),
            Side::Twin => self.twin(call, b),
            Side::Limit => {
                let asked = (self.user(call), self.head, self.picture.mode);
                self.limited.run(&self.picture, asked, call, b)
            }
        }
    }

    fn library(&self, call: Call, b: &mut Buffers) -> Outcome {
        let p = lent::Tables {
            boxes: &self.picture.boxes,
            containments: &self.picture.rows,
            arrows: &self.picture.arrows,
        };
        let mode = self.picture.mode;
        let entry = |answer| match answer {
            rights::Answer::Denied { arrow } => [0, arrow as u64, 0],
            rights::Answer::Granted { arrow } => [1, arrow as u64, 0],
            rights::Answer::Unclear { positive, negative } => [2, positive as u64, negative as u64],
            rights::Answer::DeniedByDefault => [3, 0, 0],
        };
        let outcome = match call {
            Fill | Entry => p
                .entry(self.user(call), self.head, mode, &mut b.scratch)
                .map(entry),
            Judge => p.judge(&mut b.scratch).map(|()| [0; 3]),
            Matrix => p
                .matrix(mode, &mut b.scratch, &mut b.bytes, &mut b.numbers)
                .map(|()| [0; 3]),
            List => p
                .list(mode, &mut b.scratch, &mut b.list, &mut b.work)
                .map(|count| [count as u64, 0, 0]),
            Atoms => p
                .atoms(&mut b.list, &mut b.rows)
                .map(|c| [c.users as u64, c.files as u64, 0]),
            Read => lent::read(&self.file, &mut b.boxes, &mut b.rows, &mut b.arrows)
                .map(|c| [c.boxes, c.containments, c.arrows].map(|x| x as u64)),
            Pack => p.pack(&mut b.file).map(|length| [length as u64, 0, 0]),
        };
        outcome.map_err(|refusal| refusal.numbers())
    }

    fn twin(&self, call: Call, b: &mut Buffers) -> Outcome {
        let t = self.picture.tables();
        let mode = self.picture.mode;
        let entry = |answer| match answer {
            twin::Entry::Denied(k) => [0, k as u64, 0],
            twin::Entry::Granted(k) => [1, k as u64, 0],
            twin::Entry::Unclear(p, n) => [2, p as u64, n as u64],
            twin::Entry::Default => [3, 0, 0],
        };
        let outcome = match call {
            Fill | Entry => {
                twin::entry(t, self.user(call), self.head, mode, &mut b.scratch).map(entry)
            }
            Judge => twin::judge(t, &mut b.scratch).map(|()| [0; 3]),
            Matrix => {
                twin::matrix(t, mode, &mut b.scratch, &mut b.bytes, &mut b.numbers).map(|()| [0; 3])
            }
            List => twin::list(t, mode, &mut b.scratch, &mut b.list, &mut b.work)
                .map(|count| [count as u64, 0, 0]),
            Atoms => twin::atoms(t, &mut b.list, &mut b.rows).map(|[u, f]| [u as u64, f as u64, 0]),
            Read => twin::read(&self.file, &mut b.boxes, &mut b.rows, &mut b.arrows)
                .map(|c| [c.boxes, c.rows, c.arrows].map(|x| x as u64)),
            Pack => twin::pack(t, &mut b.file).map(|length| [length as u64, 0, 0]),
        };
        outcome.map_err(|r| (r.number, r.places.map(|x| x as u64)))
    }

    /// Runs the call on every side and compares answers and all buffers. The limit's scratch is left
    /// out: it does not say what is drawn directly.
    pub fn agree(&mut self, call: Call) -> Result<(), String> {
        let mut left = Buffers::new();
        let answer = self.run(Side::Library, call, &mut left);
        for side in [Side::Twin, Side::Limit] {
            if !side.has(call) {
                continue;
            }
            let (mut other_left, name) = (Buffers::new(), side.name());
            let other = self.run(side, call, &mut other_left);
            if answer != other {
                return Err(format!("library {answer:?}, {name} {other:?}"));
            }
            if side == Side::Limit {
                other_left.scratch.clone_from(&left.scratch);
            }
            if left != other_left {
                return Err(format!("what {name} leaves in memory differs"));
            }
        }
        Ok(())
    }
}
