//! The calls on memory that the caller lends: tables and buffers are slices, nothing is allocated.
//!
//! These are the calls of `include/rights.h`, which says for each what it asks, answers and leaves
//! in the buffers, refusals included. Longer buffers than needed are fine: places beyond the needed
//! length stay as they were.

use crate::ffi;
use crate::{Answer, Refusal};

/// A matrix byte: denied, by an arrow or by default.
pub const DENIED: u8 = ffi::DENIED as u8;
/// A matrix byte: granted.
pub const GRANTED: u8 = ffi::GRANTED as u8;
/// A matrix byte: unclear.
pub const UNCLEAR: u8 = ffi::UNCLEAR as u8;
/// A byte of the scratch: box a doesn't contain box b. Byte a * n + b is about boxes a and b.
pub const NOT_CONTAINED: u8 = 0;
/// A byte of the scratch: a contains b, through others only.
pub const CONTAINED_THROUGH_OTHERS: u8 = 1;
/// A byte of the scratch: a containment has a as outer box and b as inner.
pub const CONTAINED_DIRECTLY: u8 = 2;
/// Stands for "no arrow" in the matrix numbers, and in the list after refusal 13.
pub const NO_ARROW: u16 = 65_535;
/// The bytes of the longest packed file, 17 blocks.
pub const PACKED_ROOM: usize = 8_704;

/// The three tables of a picture as plain numbers, good or bad; faults are refused.
#[derive(Clone, Copy, Debug, Default, PartialEq, Eq)]
pub struct Tables<'a> {
    /// One byte each: 0 user side, 1 file side, 2 user group, 3 folder ([`BoxKind`](crate::BoxKind)).
    /// A box's number is its place.
    pub boxes: &'a [u8],
    /// Two numbers each: outer box, inner box.
    pub containments: &'a [u16],
    /// Four numbers each: tail (a box of the user side), head (one of the file side), mode 0 to 7,
    /// sign (1 positive, 0 negative). An arrow's number is its row.
    pub arrows: &'a [u16],
}

/// How many atomic boxes a picture has on each side.
#[derive(Clone, Copy, Debug, PartialEq, Eq)]
pub struct AtomCounts {
    /// Atomic users.
    pub users: usize,
    /// Atomic files.
    pub files: usize,
}

/// The row counts of a file that was read.
#[derive(Clone, Copy, Debug, PartialEq, Eq)]
pub struct Counts {
    /// Boxes, one byte each.
    pub boxes: usize,
    /// Containments, two numbers each.
    pub containments: usize,
    /// Arrows, four numbers each.
    pub arrows: usize,
}

// SAFETY of every call below: each pointer comes with the length of the slice it was taken from.
// Slices are never null and always aligned, also where they are empty, and those lent for writing
// overlap no other.

impl Tables<'_> {
    /// Clear, or refused, an unclear pair included. `scratch` needs n * n bytes for n boxes, and
    /// ends, as with every call that takes it, with what contains what and which of it is drawn:
    /// [`CONTAINED_DIRECTLY`], [`CONTAINED_THROUGH_OTHERS`] or [`NOT_CONTAINED`].
    ///
    /// ```
    /// use rights::lent::{Tables, CONTAINED_DIRECTLY};
    ///
    /// let picture = Tables {
    ///     boxes: &[0, 0, 0, 1],
    ///     containments: &[2, 0, 2, 1],
    ///     arrows: &[0, 3, 0, 1, 2, 3, 0, 0],
    /// };
    /// let mut scratch = [0; 16];
    /// assert_eq!(picture.judge(&mut scratch), Ok(()));
    ///
    /// // The steps up from user 0: the boxes that it is drawn in.
    /// let up: Vec<usize> = (0..4).filter(|a| scratch[a * 4 + 0] == CONTAINED_DIRECTLY).collect();
    /// assert_eq!(up, [2]);
    /// ```
    pub fn judge(&self, scratch: &mut [u8]) -> Result<(), Refusal> {
        let reply = unsafe {
            ffi::rights_judge(
                self.boxes.as_ptr(),
                self.boxes.len(),
                self.containments.as_ptr(),
                self.containments.len(),
                self.arrows.as_ptr(),
                self.arrows.len(),
                scratch.as_mut_ptr(),
                scratch.len(),
            )
        };
        reply.done()
    }

    /// The answer for one user, file and mode. `scratch` needs n * n bytes for n boxes.
    ///
    /// ```
    /// use rights::{lent::Tables, Answer};
    ///
    /// let picture = Tables {
    ///     boxes: &[0, 0, 0, 1],
    ///     containments: &[2, 0, 2, 1],
    ///     arrows: &[0, 3, 0, 1, 2, 3, 0, 0],
    /// };
    /// let answer = picture.entry(0, 3, 0, &mut [0; 16]);
    /// assert_eq!(answer, Ok(Answer::Granted { arrow: 0 }));
    /// ```
    pub fn entry(
        &self,
        user: u16,
        file: u16,
        mode: u16,
        scratch: &mut [u8],
    ) -> Result<Answer, Refusal> {
        let reply = unsafe {
            ffi::rights_entry(
                self.boxes.as_ptr(),
                self.boxes.len(),
                self.containments.as_ptr(),
                self.containments.len(),
                self.arrows.as_ptr(),
                self.arrows.len(),
                user,
                file,
                mode,
                scratch.as_mut_ptr(),
                scratch.len(),
            )
        };
        reply.answer()
    }

    /// Fills the matrix of a mode: for each pair, by user, then file, a byte ([`DENIED`],
    /// [`GRANTED`], [`UNCLEAR`]) and the arrow of the answer ([`NO_ARROW`] for default and
    /// unclear). `bytes` and `numbers` need a place for each pair, `scratch` n * n bytes.
    ///
    /// ```
    /// use rights::lent::{Tables, DENIED, GRANTED};
    ///
    /// let picture = Tables {
    ///     boxes: &[0, 0, 0, 1],
    ///     containments: &[2, 0, 2, 1],
    ///     arrows: &[0, 3, 0, 1, 2, 3, 0, 0],
    /// };
    /// let (mut bytes, mut numbers) = ([0; 2], [0; 2]);
    /// picture.matrix(0, &mut [0; 16], &mut bytes, &mut numbers)?;
    /// assert_eq!(bytes, [GRANTED, DENIED]);
    /// assert_eq!(numbers, [0, 1]);
    /// # Ok::<(), rights::Refusal>(())
    /// ```
    pub fn matrix(
        &self,
        mode: u16,
        scratch: &mut [u8],
        bytes: &mut [u8],
        numbers: &mut [u16],
    ) -> Result<(), Refusal> {
        let reply = unsafe {
            ffi::rights_matrix(
                self.boxes.as_ptr(),
                self.boxes.len(),
                self.containments.as_ptr(),
                self.containments.len(),
                self.arrows.as_ptr(),
                self.arrows.len(),
                mode,
                scratch.as_mut_ptr(),
                scratch.len(),
                bytes.as_mut_ptr(),
                bytes.len(),
                numbers.as_mut_ptr(),
                numbers.len(),
            )
        };
        reply.done()
    }

    /// Writes the first-match list of a mode and answers how many places of `list` it takes. `list`
    /// needs a place for each arrow of the mode, `work` a byte for each pair, `scratch` n * n bytes.
    /// Which arrow stands at each place: [`Picture::list`](crate::Picture::list).
    ///
    /// ```
    /// use rights::lent::Tables;
    ///
    /// let picture = Tables {
    ///     boxes: &[0, 0, 0, 1],
    ///     containments: &[2, 0, 2, 1],
    ///     arrows: &[0, 3, 0, 1, 2, 3, 0, 0],
    /// };
    /// let mut list = [0; 2];
    /// let count = picture.list(0, &mut [0; 16], &mut list, &mut [0; 2])?;
    /// assert_eq!(list[..count], [0, 1]);
    /// # Ok::<(), rights::Refusal>(())
    /// ```
    pub fn list(
        &self,
        mode: u16,
        scratch: &mut [u8],
        list: &mut [u16],
        work: &mut [u8],
    ) -> Result<usize, Refusal> {
        let reply = unsafe {
            ffi::rights_list(
                self.boxes.as_ptr(),
                self.boxes.len(),
                self.containments.as_ptr(),
                self.containments.len(),
                self.arrows.as_ptr(),
                self.arrows.len(),
                mode,
                scratch.as_mut_ptr(),
                scratch.len(),
                list.as_mut_ptr(),
                list.len(),
                work.as_mut_ptr(),
                work.len(),
            )
        };
        reply.count()
    }

    /// Writes the atomic users and the atomic files, each by rising number, and answers how many
    /// there are: the rows and columns of every matrix. Arrows are not looked at, and a box that
    /// contains itself is no fault here. As many places as there are boxes always suffice.
    ///
    /// ```
    /// use rights::lent::{AtomCounts, Tables};
    ///
    /// let picture = Tables {
    ///     boxes: &[0, 0, 0, 1],
    ///     containments: &[2, 0, 2, 1],
    ///     arrows: &[],
    /// };
    /// let (mut users, mut files) = ([9; 4], [9; 4]);
    /// let counts = picture.atoms(&mut users, &mut files)?;
    /// assert_eq!(counts, AtomCounts { users: 2, files: 1 });
    /// assert_eq!((users, files), ([0, 1, 9, 9], [3, 9, 9, 9]));
    /// # Ok::<(), rights::Refusal>(())
    /// ```
    pub fn atoms(&self, users: &mut [u16], files: &mut [u16]) -> Result<AtomCounts, Refusal> {
        let reply = unsafe {
            ffi::rights_atoms(
                self.boxes.as_ptr(),
                self.boxes.len(),
                self.containments.as_ptr(),
                self.containments.len(),
                users.as_mut_ptr(),
                users.len(),
                files.as_mut_ptr(),
                files.len(),
            )
        };
        let [users, files] = reply.two_counts()?;
        Ok(AtomCounts { users, files })
    }

    /// Packs the picture into a block file and answers the file's length in bytes; bytes beyond it
    /// stay. [`PACKED_ROOM`] bytes always suffice. What the packing is: [`Picture::pack`](crate::Picture::pack).
    ///
    /// ```
    /// use rights::lent::{Tables, PACKED_ROOM};
    ///
    /// let picture = Tables {
    ///     boxes: &[0, 0, 0, 1],
    ///     containments: &[2, 0, 2, 1],
    ///     arrows: &[0, 3, 0, 1, 2, 3, 0, 0],
    /// };
    /// let mut file = [0; PACKED_ROOM];
    /// let length = picture.pack(&mut file)?;
    /// assert_eq!(file[..length], std::fs::read("../../samples/B.blk").unwrap());
    /// # Ok::<(), rights::Refusal>(())
    /// ```
    pub fn pack(&self, file: &mut [u8]) -> Result<usize, Refusal> {
        let reply = unsafe {
            ffi::rights_pack(
                self.boxes.as_ptr(),
                self.boxes.len(),
                self.containments.as_ptr(),
                self.containments.len(),
                self.arrows.as_ptr(),
                self.arrows.len(),
                file.as_mut_ptr(),
                file.len(),
            )
        };
        reply.count()
    }
}

/// Reads a block file into three tables; 256, 2,048 and 2,048 places always suffice. What the rows
/// say is not checked here.
///
/// The counts are of rows, while [`Tables`] holds numbers, two for a containment and four for an
/// arrow: a count taken for a length stands for a picture with fewer rows.
///
/// No block says how many there are: a file that is cut at the end of a block is a good file with
/// fewer rows. Know its length, or hold the three counts against your own.
///
/// ```
/// use rights::lent::{read, Counts, Tables};
///
/// let file = std::fs::read("../../samples/B.blk").unwrap();
/// let (mut boxes, mut containments, mut arrows) = ([9; 256], [9; 2048], [9; 2048]);
/// let counts = read(&file, &mut boxes, &mut containments, &mut arrows)?;
/// assert_eq!(counts, Counts { boxes: 4, containments: 2, arrows: 2 });
/// let picture = Tables {
///     boxes: &boxes[..counts.boxes],
///     containments: &containments[..2 * counts.containments],
///     arrows: &arrows[..4 * counts.arrows],
/// };
/// assert_eq!(picture.boxes, [0, 0, 0, 1]);
/// assert_eq!(picture.containments, [2, 0, 2, 1]);
/// assert_eq!(picture.arrows, [0, 3, 0, 1, 2, 3, 0, 0]);
/// # Ok::<(), rights::Refusal>(())
/// ```
pub fn read(
    file: &[u8],
    boxes: &mut [u8],
    containments: &mut [u16],
    arrows: &mut [u16],
) -> Result<Counts, Refusal> {
    let reply = unsafe {
        ffi::rights_read(
            file.as_ptr(),
            file.len(),
            boxes.as_mut_ptr(),
            boxes.len(),
            containments.as_mut_ptr(),
            containments.len(),
            arrows.as_mut_ptr(),
            arrows.len(),
        )
    };
    let [boxes, containments, arrows] = reply.counts()?;
    Ok(Counts {
        boxes,
        containments,
        arrows,
    })
}
