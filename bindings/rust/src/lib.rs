//! The rights checker of the run store, for Rust.
//!
//! An administrator draws who may use which folder: boxes for people and groups (the user side) and
//! for runs and folders (the file side), nested in each other, and signed arrows from the user side
//! to the file side, each for one of eight modes of use. The checker says for every atomic user,
//! atomic file and mode what the picture means. It is proved; this package only carries questions and
//! answers across its C boundary, `include/rights.h`.
//!
//! ```
//! use rights::{Mode, Picture, Refusal};
//!
//! let file = std::fs::read("../../samples/J.blk").unwrap();
//! let picture = Picture::read(&file)?;
//! picture.judge()?; // no pair is unclear in any mode
//!
//! let mode = Mode::new(0)?;
//! let matrix = picture.matrix(mode)?;
//! for (user, cells) in matrix.rows() {
//!     let granted = matrix.files().iter().zip(cells).filter(|(_, cell)| cell.is_granted());
//!     println!("user {user}: {:?}", granted.map(|(file, _)| file).collect::<Vec<_>>());
//! }
//!
//! match picture.list(mode) {
//!     Ok(list) => println!("first-match list: {list:?}"),
//!     Err(Refusal::NoOrder { user, file, .. }) => println!("no list grants {user} file {file}"),
//!     Err(refusal) => return Err(refusal),
//! }
//! # Ok::<(), Refusal>(())
//! ```
//!
//! # Words
//!
//! - A **box** has a number, its place from 0, and so has an **arrow**. At most 256 boxes, 1,024
//!   containments and 512 arrows.
//! - A box of kind user or file that is the outer one of no containment is **atomic**: a single user
//!   or file. Groups and folders never are, also with nothing in them ([`BoxKind`]); an arrow at an
//!   empty one is no fault and reaches nothing. Pairs are of an atomic user and an atomic file.
//! - A call that doesn't answer is **refused**: [`Refusal`] says why and where.
//! - A **block file** is the format that drawing tools write: blocks of 512 bytes. [`Picture::read`]
//!   reads and [`Picture::pack`] writes it. `samples/` in the repository has some.
//!
//! # Two layers
//!
//! [`Picture`] owns its rows, and its calls allocate what they need. [`lent`] has the calls of the C
//! boundary on slices that the caller lends, for callers that mustn't allocate; it takes tables of
//! plain numbers, wrong ones too.
//!
//! # Threads and stack
//!
//! Calls keep no state and may run at the same time. 16 KiB of stack suffice for the atomic boxes,
//! for reading and for packing, 40 KiB for an entry, judge and matrix, 48 KiB for the list.
//!
//! # Building
//!
//! The build script links `librights_c.a`. `RIGHTS_LIB_DIR` names the folder that holds it; without
//! that variable, `tools/build library` is run in the repository. A dependency is one line,
//! `rights = { path = "../../bindings/rust" }`; there are no others. The archive is for x86-64 Linux.
//!
//! # Panics
//!
//! A reply that the header rules out would be a fault of the library and panics. Nothing else does.

#![deny(missing_docs)]

mod answer;
mod ffi;
pub mod lent;
mod named;
mod picture;
mod refusal;
mod reply;
mod rows;

pub use answer::{Answer, Atoms, Cell, Matrix};
pub use named::{Buffer, Table};
pub use picture::Picture;
pub use refusal::Refusal;
pub use rows::{Arrow, BoxKind, Mode, Side, Sign};

/// The library's version: major, minor, patch.
///
/// ```
/// assert_eq!(rights::version(), (4, 0, 0));
/// ```
pub fn version() -> (u8, u8, u8) {
    // SAFETY: the call takes nothing and keeps nothing.
    let [_, major, minor, patch] = unsafe { ffi::rights_version() }.to_be_bytes();
    (major, minor, patch)
}
