//! Why a call was refused, and where.

use crate::{Buffer, Table};
use std::fmt;

/// A value that stands for one of a refusal's three numbers.
trait Place: Sized {
    fn to_number(self) -> u64;
    fn from_number(number: u64) -> Option<Self>;
}

impl Place for u16 {
    fn to_number(self) -> u64 {
        self.into()
    }
    fn from_number(number: u64) -> Option<u16> {
        number.try_into().ok()
    }
}

impl Place for usize {
    fn to_number(self) -> u64 {
        self as u64
    }
    fn from_number(number: u64) -> Option<usize> {
        number.try_into().ok()
    }
}

impl Place for Table {
    fn to_number(self) -> u64 {
        self as u64
    }
    fn from_number(number: u64) -> Option<Table> {
        Table::ALL.into_iter().find(|table| *table as u64 == number)
    }
}

impl Place for Buffer {
    fn to_number(self) -> u64 {
        self as u64
    }
    fn from_number(number: u64) -> Option<Buffer> {
        Buffer::ALL.into_iter().find(|name| *name as u64 == number)
    }
}

/// Makes the enum, both ways between it and its numbers, and what it prints from one table: number,
/// name, sentence, and what the three numbers stand for, in order.
macro_rules! refusals {
    ($($(#[$says:meta])* $number:literal $name:ident $sentence:literal {
        $($(#[$tells:meta])* $place:ident: $type:ty,)*
    })*) => {
        /// Why a call was refused, and where. A lower number wins, and within it the lower table,
        /// row, box or buffer; the file's own, 14 to 17, come before all others of a read.
        ///
        /// It prints as a sentence:
        ///
        /// ```
        /// use rights::Refusal;
        ///
        /// let refusal = Refusal::NoOrder { mode: 0, user: 0, file: 7 };
        /// assert_eq!(
        ///     refusal.to_string(),
        ///     "refusal 13: no list of mode 0 can grant user 0 file 7, as the picture does"
        /// );
        /// ```
        #[derive(Clone, Copy, Debug, PartialEq, Eq, Hash)]
        #[non_exhaustive]
        pub enum Refusal {
            $($(#[$says])* $name { $($(#[$tells])* $place: $type,)* },)*
        }

        impl Refusal {
            /// The refusal's number and its three numbers, 0 where nothing is named, as the C
            /// boundary and the program's `refused` line give them.
            ///
            /// ```
            /// use rights::Refusal;
            ///
            /// let refusal = Refusal::NoOrder { mode: 0, user: 0, file: 7 };
            /// assert_eq!(refusal.numbers(), (13, [0, 0, 7]));
            /// ```
            pub fn numbers(self) -> (u32, [u64; 3]) {
                match self {
                    $(Refusal::$name { $($place,)* } => {
                        let mut numbers = [$($place.to_number(),)*].into_iter();
                        ($number, [(); 3].map(|()| numbers.next().unwrap_or(0)))
                    })*
                }
            }

            /// The refusal of these numbers. None if there is no such number, if a number fits its
            /// place in no way, or if one that stands for nothing isn't 0.
            pub(crate) fn from_numbers(number: u32, numbers: [u64; 3]) -> Option<Refusal> {
                let mut left = numbers.into_iter();
                let refusal = match number {
                    $($number => Refusal::$name {
                        $($place: Place::from_number(left.next()?)?,)*
                    },)*
                    _ => return None,
                };
                left.all(|number| number == 0).then_some(refusal)
            }
        }

        impl fmt::Display for Refusal {
            fn fmt(&self, f: &mut fmt::Formatter) -> fmt::Result {
                write!(f, "refusal {}: ", self.numbers().0)?;
                match self {
                    $(Refusal::$name { $($place,)* } => write!(f, $sentence),)*
                }
            }
        }
    };
}

refusals! {
    /// 1: a table whose numbers make up no whole rows.
    1 Ragged "{length} numbers make up no whole rows of {table}" {
        /// Which table.
        table: Table,
        /// How many numbers it has.
        length: usize,
    }
    /// 2: a table with more rows than it may have.
    2 TooManyRows "{count} {table} are more than there may be" {
        /// Which table.
        table: Table,
        /// How many rows it has.
        count: usize,
    }
    /// 3: a box byte above 3.
    3 BoxByte "the byte of box {box_number} is above 3" {
        /// The box.
        box_number: u16,
    }
    /// 4: a containment that names a box that isn't there.
    4 NoSuchBox "containment {row} names a box that is not there" {
        /// The containment.
        row: u16,
    }
    /// 5: a containment between boxes of two sides.
    5 AcrossSides "containment {row} is between a box of the user side and one of the file side" {
        /// The containment.
        row: u16,
    }
    /// 6: an arrow whose tail is not on the user side or whose head is not on the file side.
    6 ArrowEnds "arrow {row} does not lead from the user side to the file side" {
        /// The arrow.
        row: u16,
    }
    /// 7: an arrow whose mode is above 7 or whose sign is above 1.
    7 ModeOrSign "arrow {row} has a mode above 7 or a sign above 1" {
        /// The arrow.
        row: u16,
    }
    /// 8: the asked mode is above 7.
    8 AskedMode "mode {mode} is above 7" {
        /// The asked mode.
        mode: u16,
    }
    /// 9: a buffer is too short.
    9 BufferShort "buffer {buffer} is too short, {needed} places are needed" {
        /// Which buffer.
        buffer: Buffer,
        /// The length that it needs.
        needed: usize,
    }
    /// 10: a box contains itself.
    10 ContainsItself "box {box_number} contains itself" {
        /// The lowest such box.
        box_number: u16,
    }
    /// 11: the asked user or file is no atomic box of its side.
    11 NotAtomic "user {user} or file {file} is no atomic box of its side" {
        /// The asked user.
        user: u16,
        /// The asked file.
        file: u16,
    }
    /// 12: a pair is unclear. Whoever drew the picture must settle it.
    12 UnclearPair "mode {mode} is unclear for user {user} and file {file}" {
        /// The first mode with such a pair, or the asked one.
        mode: u16,
        /// The user of the first such pair, by user, then file.
        user: u16,
        /// Its file.
        file: u16,
    }
    /// 13: no first-match list gives every granted pair what the picture says.
    13 NoOrder "no list of mode {mode} can grant user {user} file {file}, as the picture does" {
        /// The asked mode.
        mode: u16,
        /// The user of the first granted pair, by user, then file, that no such list reaches.
        user: u16,
        /// Its file.
        file: u16,
    }
    /// 14: the length of a file is 0, no multiple of 512 or above 32,768.
    14 FileLength "a file of {length} bytes is not 1 to 64 blocks of 512 bytes" {
        /// The length in bytes.
        length: usize,
    }
    /// 15: the check of a block is wrong.
    15 BlockCheck "the check of block {block} is wrong" {
        /// The block, from 0.
        block: u16,
    }
    /// 16: the head of a block is wrong.
    16 BlockHead "the head of block {block} is wrong" {
        /// The block, from 0.
        block: u16,
    }
    /// 17: a block's filler isn't zero.
    17 Filler "the filler of block {block} is not zero" {
        /// The block, from 0.
        block: u16,
    }
}

impl std::error::Error for Refusal {}

#[cfg(test)]
mod tests {
    use super::*;

    #[test]
    fn numbers_and_back() {
        for number in 1..=17 {
            let named = (0..=3).rev().find_map(|named| {
                let mut numbers = [0; 3];
                numbers[..named].fill(1);
                Some((numbers, Refusal::from_numbers(number, numbers)?))
            });
            let (numbers, refusal) = named.expect("a refusal of this number");
            assert_eq!(refusal.numbers(), (number, numbers));
            assert!(refusal
                .to_string()
                .starts_with(&format!("refusal {number}: ")));
        }
    }

    #[test]
    fn numbers_of_no_refusal() {
        assert_eq!(Refusal::from_numbers(0, [0; 3]), None);
        assert_eq!(Refusal::from_numbers(18, [0; 3]), None);
        assert_eq!(Refusal::from_numbers(1, [3, 1, 0]), None);
        assert_eq!(Refusal::from_numbers(9, [10, 1, 0]), None);
        assert_eq!(Refusal::from_numbers(10, [65_536, 0, 0]), None);
        assert_eq!(Refusal::from_numbers(10, [0, 0, 1]), None);
    }
}
