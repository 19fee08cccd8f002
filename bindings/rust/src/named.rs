//! The tables and buffers that refusals name.

use std::fmt;

/// One of the three tables of a picture, as refusals 1 and 2 name it.
#[derive(Clone, Copy, Debug, PartialEq, Eq, Hash)]
pub enum Table {
    /// 0: the boxes.
    Boxes = 0,
    /// 1: the containments.
    Containments = 1,
    /// 2: the arrows.
    Arrows = 2,
}

impl Table {
    pub(crate) const ALL: [Table; 3] = [Table::Boxes, Table::Containments, Table::Arrows];

    /// How many rows the table may have.
    ///
    /// ```
    /// use rights::Table;
    ///
    /// assert_eq!(Table::Boxes.limit(), 256);
    /// assert_eq!(Table::Containments.limit(), 1024);
    /// assert_eq!(Table::Arrows.limit(), 512);
    /// ```
    pub const fn limit(self) -> usize {
        match self {
            Table::Boxes => 256,
            Table::Containments => 1024,
            Table::Arrows => 512,
        }
    }

    /// How many numbers make up a row.
    pub(crate) const fn width(self) -> usize {
        match self {
            Table::Boxes => 1,
            Table::Containments => 2,
            Table::Arrows => 4,
        }
    }
}

impl fmt::Display for Table {
    fn fmt(&self, f: &mut fmt::Formatter) -> fmt::Result {
        f.write_str(match self {
            Table::Boxes => "boxes",
            Table::Containments => "containments",
            Table::Arrows => "arrows",
        })
    }
}

/// A buffer lent to a call, as refusal 9 names it. The calls on a [`Picture`](crate::Picture) lend
/// their own and are never refused for one.
#[derive(Clone, Copy, Debug, PartialEq, Eq, Hash)]
#[non_exhaustive]
pub enum Buffer {
    /// 0: scratch, n * n bytes for n boxes.
    Scratch = 0,
    /// 1: the matrix's bytes, one for each pair.
    MatrixBytes = 1,
    /// 2: the matrix's arrow numbers, one for each pair.
    MatrixNumbers = 2,
    /// 3: the list, a place for each arrow of the mode.
    List = 3,
    /// 4: work bytes of the list call, one for each pair.
    Work = 4,
    /// 5: the boxes to be read.
    Boxes = 5,
    /// 6: the containments to be read, two numbers each.
    Containments = 6,
    /// 7: the arrows to be read, four numbers each.
    Arrows = 7,
    /// 8: the packed file, 512 bytes a block.
    PackedFile = 8,
    /// 11: the atomic users.
    Users = 11,
    /// 12: the atomic files.
    Files = 12,
}

impl Buffer {
    pub(crate) const ALL: [Buffer; 11] = [
        Buffer::Scratch,
        Buffer::MatrixBytes,
        Buffer::MatrixNumbers,
        Buffer::List,
        Buffer::Work,
        Buffer::Boxes,
        Buffer::Containments,
        Buffer::Arrows,
        Buffer::PackedFile,
        Buffer::Users,
        Buffer::Files,
    ];
}

impl fmt::Display for Buffer {
    fn fmt(&self, f: &mut fmt::Formatter) -> fmt::Result {
        f.write_str(match self {
            Buffer::Scratch => "scratch",
            Buffer::MatrixBytes => "matrix bytes",
            Buffer::MatrixNumbers => "matrix numbers",
            Buffer::List => "list",
            Buffer::Work => "work",
            Buffer::Boxes => "boxes",
            Buffer::Containments => "containments",
            Buffer::Arrows => "arrows",
            Buffer::PackedFile => "packed file",
            Buffer::Users => "users",
            Buffer::Files => "files",
        })
    }
}
