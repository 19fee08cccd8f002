//! Pictures that own their rows, and the calls on them, which allocate what they need.

use crate::lent::{self, Tables, PACKED_ROOM};
use crate::{Answer, Arrow, Atoms, BoxKind, Cell, Matrix, Mode, Refusal, Sign, Table};

/// A picture: boxes, nested in each other, and arrows.
///
/// It may be faulty (a containment or an arrow may name a box that isn't there, a box may contain
/// itself): every call checks it and refuses what is wrong. User 0 is granted file 3 against its
/// group, box 2:
///
/// ```
/// use rights::{Arrow, BoxKind, Mode, Picture, Sign};
///
/// let mode = Mode::new(0)?;
/// let picture = Picture {
///     boxes: vec![BoxKind::User, BoxKind::User, BoxKind::Group, BoxKind::File],
///     containments: vec![(2, 0), (2, 1)],
///     arrows: vec![
///         Arrow { tail: 0, head: 3, mode, sign: Sign::Positive },
///         Arrow { tail: 2, head: 3, mode, sign: Sign::Negative },
///     ],
/// };
/// picture.judge()?;
/// assert!(picture.entry(0, 3, mode)?.is_granted());
/// assert!(!picture.entry(1, 3, mode)?.is_granted());
/// # Ok::<(), rights::Refusal>(())
/// ```
#[derive(Clone, Debug, Default, PartialEq, Eq)]
pub struct Picture {
    /// The boxes. A box's number is its place.
    pub boxes: Vec<BoxKind>,
    /// Which box holds which: outer box, inner box.
    pub containments: Vec<(u16, u16)>,
    /// The arrows. An arrow's number is its place.
    pub arrows: Vec<Arrow>,
}

/// A picture's tables as plain numbers.
struct Numbers {
    boxes: Vec<u8>,
    containments: Vec<u16>,
    arrows: Vec<u16>,
}

impl Numbers {
    fn of(picture: &Picture) -> Numbers {
        let row = |a: &Arrow| [a.tail, a.head, a.mode.number(), a.sign as u16];
        let pair = |&(outer, inner): &(u16, u16)| [outer, inner];
        Numbers {
            boxes: picture.boxes.iter().map(|kind| *kind as u8).collect(),
            containments: picture.containments.iter().flat_map(pair).collect(),
            arrows: picture.arrows.iter().flat_map(row).collect(),
        }
    }

    fn lend(&self) -> Tables<'_> {
        Tables {
            boxes: &self.boxes,
            containments: &self.containments,
            arrows: &self.arrows,
        }
    }

    /// Scratch that suffices. With more boxes than there may be, no call comes to need any.
    fn scratch(&self) -> Vec<u8> {
        let boxes = self.boxes.len().min(Table::Boxes.limit());
        vec![0; boxes * boxes]
    }

    fn atoms(&self) -> Result<Atoms, Refusal> {
        let mut users = vec![0; self.boxes.len()];
        let mut files = vec![0; self.boxes.len()];
        let counts = self.lend().atoms(&mut users, &mut files)?;
        users.truncate(counts.users);
        files.truncate(counts.files);
        Ok(Atoms { users, files })
    }

    /// The atomic boxes for a call that comes next. What refuses them here refuses that call too,
    /// which then answers with its own first refusal.
    fn atoms_or_none(&self) -> Atoms {
        self.atoms().unwrap_or_default()
    }
}

impl Picture {
    /// Reads the picture in a block file, given whole, and makes checks 1 to 7 on what it read: a
    /// file is refused by 14 to 17 or 2, its rows by 3 to 7. The longest file has 32,768 bytes.
    ///
    /// No block says how many there are: a file that is cut at the end of a block is a good file
    /// with fewer rows. Know its length, or hold the three lengths of the picture against your own.
    ///
    /// ```
    /// use rights::{Picture, Refusal};
    ///
    /// let file = std::fs::read("../../samples/J.blk").unwrap();
    /// let picture = Picture::read(&file)?;
    /// assert_eq!(picture.boxes.len(), 12);
    /// assert_eq!(picture.containments[0], (2, 0));
    /// assert_eq!(picture.arrows.len(), 4);
    ///
    /// let cut = Picture::read(&file[..511]);
    /// assert_eq!(cut, Err(Refusal::FileLength { length: 511 }));
    /// # Ok::<(), Refusal>(())
    /// ```
    pub fn read(file: &[u8]) -> Result<Picture, Refusal> {
        let most = |table: Table| table.limit() * table.width();
        let mut boxes = vec![0; most(Table::Boxes)];
        let mut containments = vec![0; most(Table::Containments)];
        let mut arrows = vec![0; most(Table::Arrows)];
        let counts = lent::read(file, &mut boxes, &mut containments, &mut arrows)?;
        Picture::try_from(Tables {
            boxes: &boxes[..counts.boxes],
            containments: &containments[..counts.containments * Table::Containments.width()],
            arrows: &arrows[..counts.arrows * Table::Arrows.width()],
        })
    }

    /// Clear, or refused; [`Refusal::UnclearPair`] names the first unclear pair by mode, user, file.
    /// A picture with an unclear pair still has entries and matrices, and lists in its other modes.
    ///
    /// ```
    /// # use rights::Picture;
    /// let file = std::fs::read("../../samples/J.blk").unwrap();
    /// assert_eq!(Picture::read(&file)?.judge(), Ok(()));
    /// # Ok::<(), rights::Refusal>(())
    /// ```
    pub fn judge(&self) -> Result<(), Refusal> {
        let numbers = Numbers::of(self);
        numbers.lend().judge(&mut numbers.scratch())
    }

    /// The answer for an atomic user, an atomic file and a mode.
    ///
    /// ```
    /// # use rights::{Answer, Mode, Picture, Refusal};
    /// let file = std::fs::read("../../samples/J.blk").unwrap();
    /// let picture = Picture::read(&file)?;
    /// let mode = Mode::new(0)?;
    /// assert_eq!(picture.entry(0, 7, mode)?, Answer::Granted { arrow: 0 });
    /// assert_eq!(picture.entry(0, 6, mode)?, Answer::Denied { arrow: 1 });
    /// let group = picture.entry(2, 6, mode);
    /// assert_eq!(group, Err(Refusal::NotAtomic { user: 2, file: 6 }));
    /// # Ok::<(), Refusal>(())
    /// ```
    pub fn entry(&self, user: u16, file: u16, mode: Mode) -> Result<Answer, Refusal> {
        let numbers = Numbers::of(self);
        let mut scratch = numbers.scratch();
        numbers
            .lend()
            .entry(user, file, mode.number(), &mut scratch)
    }

    /// The answers for all pairs of a mode. Unclear pairs don't refuse it; they are cells too.
    ///
    /// ```
    /// # use rights::{Cell, Mode, Picture};
    /// let file = std::fs::read("../../samples/B.blk").unwrap();
    /// let matrix = Picture::read(&file)?.matrix(Mode::new(0)?)?;
    /// assert_eq!((matrix.users(), matrix.files()), (&[0, 1][..], &[3][..]));
    /// assert_eq!(matrix.cell(0, 3), Some(Cell::Granted { arrow: 0 }));
    /// assert_eq!(matrix.cell(1, 3), Some(Cell::Denied { arrow: 1 }));
    /// # Ok::<(), rights::Refusal>(())
    /// ```
    pub fn matrix(&self, mode: Mode) -> Result<Matrix, Refusal> {
        let numbers = Numbers::of(self);
        let atoms = numbers.atoms_or_none();
        let pairs = atoms.users.len() * atoms.files.len();
        let (mut bytes, mut arrows) = (vec![0; pairs], vec![0; pairs]);
        let mut scratch = numbers.scratch();
        let tables = numbers.lend();
        tables.matrix(mode.number(), &mut scratch, &mut bytes, &mut arrows)?;
        let places = bytes.into_iter().zip(arrows);
        let cells = places.map(|(byte, arrow)| Cell::new(byte, arrow));
        Ok(Matrix::new(atoms, cells.collect()))
    }

    /// The first-match list of a mode, for controllers that take the first line that reaches a pair
    /// and deny what no line reaches. It holds numbers of the mode's arrows (places in
    /// [`Picture::arrows`]), none twice; each pair that it reaches gets the picture's answer from
    /// the first arrow that reaches it (the list is honest), and every granted pair is reached.
    ///
    /// At each place stands the lowest-numbered arrow that can follow while the list stays honest
    /// and that reaches a pair nothing earlier reached; the list ends when there is none. So a mode
    /// of one picture has one list, on every machine.
    ///
    /// Refused by [`Refusal::UnclearPair`] if the mode has an unclear pair, and by
    /// [`Refusal::NoOrder`] if there is no such list. In picture J there is none:
    ///
    /// ```
    /// # use rights::{Mode, Picture, Refusal};
    /// let file = std::fs::read("../../samples/J.blk").unwrap();
    /// let none = Picture::read(&file)?.list(Mode::new(0)?);
    /// assert_eq!(none, Err(Refusal::NoOrder { mode: 0, user: 0, file: 7 }));
    ///
    /// let file = std::fs::read("../../samples/B.blk").unwrap();
    /// let list = Picture::read(&file)?.list(Mode::new(0)?)?;
    /// assert_eq!(list, [0, 1]);
    /// # Ok::<(), Refusal>(())
    /// ```
    pub fn list(&self, mode: Mode) -> Result<Vec<u16>, Refusal> {
        let numbers = Numbers::of(self);
        let atoms = numbers.atoms_or_none();
        let mut work = vec![0; atoms.users.len() * atoms.files.len()];
        let mut list = vec![0; self.arrows.len()];
        let mut scratch = numbers.scratch();
        let tables = numbers.lend();
        let count = tables.list(mode.number(), &mut scratch, &mut list, &mut work)?;
        list.truncate(count);
        Ok(list)
    }

    /// The atomic users and the atomic files. Arrows are not looked at, and a box that contains
    /// itself is no fault here. A box of kind group is not among them, also when it has emptied:
    ///
    /// ```
    /// # use rights::{BoxKind, Picture};
    /// let file = std::fs::read("../../samples/J.blk").unwrap();
    /// let atoms = Picture::read(&file)?.atoms()?;
    /// assert_eq!((atoms.users, atoms.files), (vec![0, 1], vec![6, 7]));
    ///
    /// let boxes = vec![BoxKind::User, BoxKind::Group, BoxKind::File];
    /// let atoms = Picture { boxes, ..Picture::default() }.atoms()?;
    /// assert_eq!((atoms.users, atoms.files), (vec![0], vec![2]));
    /// # Ok::<(), rights::Refusal>(())
    /// ```
    pub fn atoms(&self) -> Result<Atoms, Refusal> {
        Numbers::of(self).atoms()
    }

    /// Packs the picture into a block file: box blocks, then containment blocks, then arrow blocks,
    /// those of each kind full but the last, none empty, except that a picture without boxes has one
    /// box block of count 0. [`Picture::read`] gives the same picture back, and two pictures have the
    /// same packed bytes only if they are equal. Refused by 2 and 4 to 6; a box that contains itself
    /// is no fault here.
    ///
    /// ```
    /// # use rights::Picture;
    /// let file = std::fs::read("../../samples/J.blk").unwrap();
    /// let picture = Picture::read(&file)?;
    /// assert_eq!(picture.pack()?, file);
    /// assert_eq!(Picture::default().pack()?.len(), 512);
    /// # Ok::<(), rights::Refusal>(())
    /// ```
    pub fn pack(&self) -> Result<Vec<u8>, Refusal> {
        let mut file = vec![0; PACKED_ROOM];
        let length = Numbers::of(self).lend().pack(&mut file)?;
        file.truncate(length);
        Ok(file)
    }
}

/// Makes checks 1 to 7, since a picture can't hold all that they refuse, and copies the rows.
///
/// ```
/// use rights::{lent::Tables, Picture, Refusal};
///
/// let tables = Tables { boxes: &[0, 4], ..Tables::default() };
/// assert_eq!(Picture::try_from(tables), Err(Refusal::BoxByte { box_number: 1 }));
/// ```
impl TryFrom<Tables<'_>> for Picture {
    type Error = Refusal;

    fn try_from(tables: Tables) -> Result<Picture, Refusal> {
        // Without scratch, judging gets no further than 9, and a picture without boxes is clear.
        match tables.judge(&mut []) {
            Err(refusal) if refusal.numbers().0 <= 7 => return Err(refusal),
            _ => {}
        }
        let kind = |byte: &u8| BoxKind::ALL[usize::from(*byte)];
        let pairs = tables
            .containments
            .chunks_exact(Table::Containments.width());
        let rows = tables.arrows.chunks_exact(Table::Arrows.width());
        let arrow = |row: &[u16]| Arrow {
            tail: row[0],
            head: row[1],
            mode: Mode::ALL[usize::from(row[2])],
            sign: [Sign::Negative, Sign::Positive][usize::from(row[3])],
        };
        Ok(Picture {
            boxes: tables.boxes.iter().map(kind).collect(),
            containments: pairs.map(|row| (row[0], row[1])).collect(),
            arrows: rows.map(arrow).collect(),
        })
    }
}
