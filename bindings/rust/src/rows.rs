//! What the rows of a picture are made of.

use crate::Refusal;

/// The side of a box.
#[derive(Clone, Copy, Debug, PartialEq, Eq, Hash)]
pub enum Side {
    /// Persons and groups: arrows start here.
    User,
    /// Runs and folders: arrows end here.
    File,
}

/// What a box is; the number is its byte.
#[derive(Clone, Copy, Debug, PartialEq, Eq, Hash)]
pub enum BoxKind {
    /// A box of the user side: atomic, so a user, unless it is the outer box of a containment.
    User = 0,
    /// A box of the file side: atomic, so a file, unless it is the outer box of a containment.
    File = 1,
    /// A user group: never atomic, also with nothing in it.
    Group = 2,
    /// A folder: never atomic, also with nothing in it.
    Folder = 3,
}

impl BoxKind {
    /// All kinds, each at the place of its byte.
    pub const ALL: [BoxKind; 4] = [
        BoxKind::User,
        BoxKind::File,
        BoxKind::Group,
        BoxKind::Folder,
    ];

    /// The side that a box of this kind is on.
    ///
    /// ```
    /// use rights::{BoxKind, Side};
    ///
    /// assert_eq!(BoxKind::Group.side(), Side::User);
    /// assert_eq!(BoxKind::Folder.side(), Side::File);
    /// ```
    pub fn side(self) -> Side {
        match self {
            BoxKind::User | BoxKind::Group => Side::User,
            BoxKind::File | BoxKind::Folder => Side::File,
        }
    }
}

/// Whether an arrow grants or denies.
#[derive(Clone, Copy, Debug, PartialEq, Eq, Hash)]
pub enum Sign {
    /// It denies.
    Negative = 0,
    /// It grants.
    Positive = 1,
}

/// A mode of use, 0 to 7. What each stands for is between the store and whoever draws the pictures;
/// no mode has a bearing on another.
#[derive(Clone, Copy, Debug, PartialEq, Eq, PartialOrd, Ord, Hash)]
pub struct Mode(u16);

impl Mode {
    /// All modes, by rising number.
    pub const ALL: [Mode; 8] = [
        Mode(0),
        Mode(1),
        Mode(2),
        Mode(3),
        Mode(4),
        Mode(5),
        Mode(6),
        Mode(7),
    ];

    /// The mode of a number; one above 7 is refused.
    ///
    /// ```
    /// use rights::{Mode, Refusal};
    ///
    /// assert_eq!(Mode::new(7)?.number(), 7);
    /// assert_eq!(Mode::new(8), Err(Refusal::AskedMode { mode: 8 }));
    /// # Ok::<(), Refusal>(())
    /// ```
    pub fn new(number: u16) -> Result<Mode, Refusal> {
        let mode = Mode::ALL.get(usize::from(number)).copied();
        mode.ok_or(Refusal::AskedMode { mode: number })
    }

    /// The mode's number.
    ///
    /// ```
    /// assert_eq!(rights::Mode::ALL.map(|mode| mode.number()), [0, 1, 2, 3, 4, 5, 6, 7]);
    /// ```
    pub fn number(self) -> u16 {
        self.0
    }
}

/// An arrow of a picture.
#[derive(Clone, Copy, Debug, PartialEq, Eq, Hash)]
pub struct Arrow {
    /// The box it starts from, of the user side.
    pub tail: u16,
    /// The box it leads to, of the file side.
    pub head: u16,
    /// The mode of use it is about.
    pub mode: Mode,
    /// Whether it grants or denies.
    pub sign: Sign,
}
