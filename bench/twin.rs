//! The same algorithms as the proved library, in ordinary safe Rust without a proof. Only the
//! benchmark uses it: it is what the proved code is measured against.
//!
//! Box numbers that passed the checks are bytes, and a table has a place for each byte, so that most
//! indices need no check.

mod blocks;
mod calls;
mod containment;
mod lists;
mod rows;
mod sets;
mod tables;

pub use blocks::{block_check, pack, read};
pub use calls::{entry, judge, matrix};
pub use lists::list;
pub use tables::atoms;

pub const BOXES: usize = 256;
pub const ROWS: usize = 1024;
pub const ARROWS: usize = 512;
pub const NO_ARROW: u16 = 65535;

/// A refusal's number and its three numbers.
#[derive(Clone, Copy, Debug, PartialEq, Eq)]
pub struct Refusal {
    pub number: u32,
    pub places: [usize; 3],
}

fn refuse<T>(number: u32, first: usize, second: usize, third: usize) -> Result<T, Refusal> {
    Err(Refusal {
        number,
        places: [first, second, third],
    })
}

#[derive(Clone, Copy, Debug, PartialEq, Eq)]
pub enum Entry {
    Granted(u16),
    Denied(u16),
    Default,
    Unclear(u16, u16),
}

/// The lent tables of a picture.
#[derive(Clone, Copy)]
pub struct Tables<'a> {
    pub boxes: &'a [u8],
    pub rows: &'a [u16],
    pub arrows: &'a [u16],
}
