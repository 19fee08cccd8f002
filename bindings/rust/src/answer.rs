//! Answers for pairs of an atomic user and an atomic file.

use crate::lent::{DENIED, GRANTED, NO_ARROW, UNCLEAR};

/// The answer for one atomic user, atomic file and mode.
#[derive(Clone, Copy, Debug, PartialEq, Eq, Hash)]
pub enum Answer {
    /// Granted.
    Granted {
        /// The lowest-numbered certificate, a positive arrow.
        arrow: u16,
    },
    /// Denied.
    Denied {
        /// The lowest-numbered certificate, a negative arrow.
        arrow: u16,
    },
    /// Denied, since no arrow of the mode reaches the pair.
    DeniedByDefault,
    /// Unclear: arrows of both signs reach the pair, and neither side decides.
    Unclear {
        /// The lowest positive arrow that reaches the pair.
        positive: u16,
        /// The lowest negative arrow that reaches the pair.
        negative: u16,
    },
}

impl Answer {
    /// Whether the pair is granted; a pair that is unclear isn't.
    ///
    /// ```
    /// use rights::Answer;
    ///
    /// assert!(Answer::Granted { arrow: 0 }.is_granted());
    /// assert!(!Answer::Unclear { positive: 0, negative: 1 }.is_granted());
    /// ```
    pub fn is_granted(self) -> bool {
        matches!(self, Answer::Granted { .. })
    }
}

/// The answer for a pair as a matrix gives it: as an [`Answer`], but without the two arrows where it
/// is unclear. [`Picture::entry`](crate::Picture::entry) gives them.
#[derive(Clone, Copy, Debug, PartialEq, Eq, Hash)]
pub enum Cell {
    /// Granted.
    Granted {
        /// The lowest-numbered certificate, a positive arrow.
        arrow: u16,
    },
    /// Denied.
    Denied {
        /// The lowest-numbered certificate, a negative arrow.
        arrow: u16,
    },
    /// Denied, since no arrow of the mode reaches the pair.
    DeniedByDefault,
    /// Unclear: arrows of both signs reach the pair, and neither side decides.
    Unclear,
}

impl Cell {
    /// Whether the pair is granted; a pair that is unclear isn't.
    ///
    /// ```
    /// use rights::Cell;
    ///
    /// assert!(Cell::Granted { arrow: 0 }.is_granted());
    /// assert!(!Cell::Unclear.is_granted());
    /// ```
    pub fn is_granted(self) -> bool {
        matches!(self, Cell::Granted { .. })
    }

    /// The cell of a matrix byte and number.
    pub(crate) fn new(byte: u8, number: u16) -> Cell {
        match (byte, number) {
            (GRANTED, arrow) if arrow != NO_ARROW => Cell::Granted { arrow },
            (DENIED, NO_ARROW) => Cell::DeniedByDefault,
            (DENIED, arrow) => Cell::Denied { arrow },
            (UNCLEAR, NO_ARROW) => Cell::Unclear,
            _ => panic!("a matrix place that the header rules out: {byte}, {number}"),
        }
    }
}

/// The atomic boxes of a picture: those of kind user or file that are the outer one of no
/// containment.
#[derive(Clone, Debug, Default, PartialEq, Eq)]
pub struct Atoms {
    /// The atomic users, by rising number.
    pub users: Vec<u16>,
    /// The atomic files, by rising number.
    pub files: Vec<u16>,
}

/// The answers of one mode: a row for each atomic user, a column for each atomic file.
#[derive(Clone, Debug, PartialEq, Eq)]
pub struct Matrix {
    atoms: Atoms,
    cells: Vec<Cell>,
}

impl Matrix {
    pub(crate) fn new(atoms: Atoms, cells: Vec<Cell>) -> Matrix {
        Matrix { atoms, cells }
    }

    /// The users of the rows, by rising number.
    ///
    /// ```
    /// # use rights::{Mode, Picture};
    /// # let file = std::fs::read("../../samples/J.blk").unwrap();
    /// let matrix = Picture::read(&file)?.matrix(Mode::new(0)?)?;
    /// assert_eq!(matrix.users(), [0, 1]);
    /// # Ok::<(), rights::Refusal>(())
    /// ```
    pub fn users(&self) -> &[u16] {
        &self.atoms.users
    }

    /// The files of the columns, by rising number.
    ///
    /// ```
    /// # use rights::{Mode, Picture};
    /// # let file = std::fs::read("../../samples/J.blk").unwrap();
    /// let matrix = Picture::read(&file)?.matrix(Mode::new(0)?)?;
    /// assert_eq!(matrix.files(), [6, 7]);
    /// # Ok::<(), rights::Refusal>(())
    /// ```
    pub fn files(&self) -> &[u16] {
        &self.atoms.files
    }

    /// The cell of a user and a file; none if one of them is no atomic box of its side.
    ///
    /// ```
    /// # use rights::{Cell, Mode, Picture};
    /// # let file = std::fs::read("../../samples/J.blk").unwrap();
    /// let matrix = Picture::read(&file)?.matrix(Mode::new(0)?)?;
    /// assert_eq!(matrix.cell(1, 6), Some(Cell::Granted { arrow: 2 }));
    /// assert_eq!(matrix.cell(2, 6), None); // box 2 is a group
    /// # Ok::<(), rights::Refusal>(())
    /// ```
    pub fn cell(&self, user: u16, file: u16) -> Option<Cell> {
        let row = self.atoms.users.binary_search(&user).ok()?;
        let column = self.atoms.files.binary_search(&file).ok()?;
        Some(self.cells[row * self.atoms.files.len() + column])
    }

    /// The rows, each with its user; the cells stand in the order of [`Matrix::files`].
    ///
    /// ```
    /// # use rights::{Mode, Picture};
    /// # let file = std::fs::read("../../samples/J.blk").unwrap();
    /// let matrix = Picture::read(&file)?.matrix(Mode::new(0)?)?;
    /// for (user, cells) in matrix.rows() {
    ///     for (file, cell) in matrix.files().iter().zip(cells) {
    ///         println!("user {user}, file {file}: {cell:?}");
    ///     }
    /// }
    /// # Ok::<(), rights::Refusal>(())
    /// ```
    pub fn rows(&self) -> impl Iterator<Item = (u16, &[Cell])> {
        let columns = self.atoms.files.len();
        let row = move |(k, &user)| (user, &self.cells[k * columns..(k + 1) * columns]);
        self.atoms.users.iter().enumerate().map(row)
    }
}
