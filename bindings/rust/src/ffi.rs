//! The C boundary, as `include/rights.h` has it.

use std::mem::size_of;

/// What a call answers. `kind` tells which of the other fields speak; those that don't are 0.
#[repr(C)]
#[derive(Clone, Copy, Debug, PartialEq, Eq)]
pub struct Reply {
    pub kind: u32,
    pub number: u32,
    pub a: u64,
    pub b: u64,
    pub c: u64,
}

const _: () = assert!(size_of::<Reply>() == 32 && size_of::<usize>() == 8);

pub const DENIED: u32 = 0;
pub const GRANTED: u32 = 1;
pub const UNCLEAR: u32 = 2;
pub const DENIED_BY_DEFAULT: u32 = 3;
pub const REFUSED: u32 = 4;
pub const DONE: u32 = 5;

extern "C" {
    pub fn rights_version() -> u32;
    pub fn rights_judge(
        boxes: *const u8,
        boxes_len: usize,
        rows: *const u16,
        rows_len: usize,
        arrows: *const u16,
        arrows_len: usize,
        scratch: *mut u8,
        scratch_len: usize,
    ) -> Reply;
    pub fn rights_entry(
        boxes: *const u8,
        boxes_len: usize,
        rows: *const u16,
        rows_len: usize,
        arrows: *const u16,
        arrows_len: usize,
        user: u16,
        file: u16,
        mode: u16,
        scratch: *mut u8,
        scratch_len: usize,
    ) -> Reply;
    pub fn rights_matrix(
        boxes: *const u8,
        boxes_len: usize,
        rows: *const u16,
        rows_len: usize,
        arrows: *const u16,
        arrows_len: usize,
        mode: u16,
        scratch: *mut u8,
        scratch_len: usize,
        bytes: *mut u8,
        bytes_len: usize,
        numbers: *mut u16,
        numbers_len: usize,
    ) -> Reply;
    pub fn rights_list(
        boxes: *const u8,
        boxes_len: usize,
        rows: *const u16,
        rows_len: usize,
        arrows: *const u16,
        arrows_len: usize,
        mode: u16,
        scratch: *mut u8,
        scratch_len: usize,
        list: *mut u16,
        list_len: usize,
        work: *mut u8,
        work_len: usize,
    ) -> Reply;
    pub fn rights_atoms(
        boxes: *const u8,
        boxes_len: usize,
        rows: *const u16,
        rows_len: usize,
        users: *mut u16,
        users_len: usize,
        files: *mut u16,
        files_len: usize,
    ) -> Reply;
    pub fn rights_read(
        file: *const u8,
        file_len: usize,
        boxes: *mut u8,
        boxes_len: usize,
        rows: *mut u16,
        rows_len: usize,
        arrows: *mut u16,
        arrows_len: usize,
    ) -> Reply;
    pub fn rights_pack(
        boxes: *const u8,
        boxes_len: usize,
        rows: *const u16,
        rows_len: usize,
        arrows: *const u16,
        arrows_len: usize,
        file: *mut u8,
        file_len: usize,
    ) -> Reply;
}
