//! Block files: reading and packing.

use super::tables::{check, check_counts, check_room};
use super::{refuse, Refusal, Tables};

const BLOCK: usize = 512;
const COVERED: usize = 508;

#[derive(Clone, Copy, Debug, PartialEq, Eq)]
pub struct Counts {
    pub boxes: usize,
    pub rows: usize,
    pub arrows: usize,
}

/// Size of a record and capacity of a block, by kind.
const KINDS: [(usize, usize); 3] = [(1, 500), (4, 125), (6, 83)];

fn number_at(bytes: &[u8], at: usize) -> u16 {
    u16::from_le_bytes([bytes[at], bytes[at + 1]])
}

/// FNV-1a.
pub fn block_check(bytes: &[u8]) -> u32 {
    bytes.iter().fold(2166136261, |state, &b| {
        (state ^ b as u32).wrapping_mul(16777619)
    })
}

/// Refusals 15 to 17 of a block; its record count.
fn check_block(block: &[u8], place: usize, before: u8) -> Result<usize, Refusal> {
    let stored = u32::from_le_bytes([block[508], block[509], block[510], block[511]]);
    if block_check(&block[..COVERED]) != stored {
        return refuse(15, place, 0, 0);
    }
    let kind = block[0];
    let count = number_at(block, 4) as usize;
    if !(1..=3).contains(&kind)
        || kind < before
        || block[1] != 0
        || block[6] != 0
        || block[7] != 0
        || number_at(block, 2) as usize != place
    {
        return refuse(16, place, 0, 0);
    }
    let (size, capacity) = KINDS[kind as usize - 1];
    if count > capacity {
        return refuse(16, place, 0, 0);
    }
    if block[8 + size * count..COVERED].iter().any(|&b| b != 0) {
        return refuse(17, place, 0, 0);
    }
    Ok(count)
}

pub fn read(
    file: &[u8],
    boxes: &mut [u8],
    rows: &mut [u16],
    arrows: &mut [u16],
) -> Result<Counts, Refusal> {
    if file.is_empty() || file.len() % BLOCK != 0 || file.len() > 64 * BLOCK {
        return refuse(14, file.len(), 0, 0);
    }
    let mut totals = [0; 3];
    let mut before = 0;
    for (place, block) in file.chunks_exact(BLOCK).enumerate() {
        let count = check_block(block, place, before)?;
        before = block[0];
        totals[before as usize - 1] += count;
    }
    let counts = Counts {
        boxes: totals[0],
        rows: totals[1],
        arrows: totals[2],
    };
    check_counts(counts.boxes, counts.rows, counts.arrows)?;
    check_room(5, boxes.len(), counts.boxes)?;
    check_room(6, rows.len(), 2 * counts.rows)?;
    check_room(7, arrows.len(), 4 * counts.arrows)?;
    let (mut b, mut r, mut a) = (0, 0, 0);
    for block in file.chunks_exact(BLOCK) {
        let count = number_at(block, 4) as usize;
        let records = &block[8..COVERED];
        match block[0] {
            1 => {
                boxes[b..b + count].copy_from_slice(&records[..count]);
                b += count;
            }
            2 => {
                let to = rows[2 * r..2 * (r + count)].chunks_exact_mut(2);
                for (row, record) in to.zip(records.chunks_exact(4)) {
                    row[0] = number_at(record, 0);
                    row[1] = number_at(record, 2);
                }
                r += count;
            }
            _ => {
                let to = arrows[4 * a..4 * (a + count)].chunks_exact_mut(4);
                for (row, record) in to.zip(records.chunks_exact(6)) {
                    row[0] = number_at(record, 0);
                    row[1] = number_at(record, 2);
                    row[2] = record[4] as u16;
                    row[3] = record[5] as u16;
                }
                a += count;
            }
        }
    }
    Ok(counts)
}

/// Head, filler and check around a block's records.
fn finish_block(block: &mut [u8], kind: u8, number: usize, count: usize) {
    block[..2].copy_from_slice(&[kind, 0]);
    block[2..4].copy_from_slice(&(number as u16).to_le_bytes());
    block[4..6].copy_from_slice(&(count as u16).to_le_bytes());
    block[6..8].fill(0);
    block[8 + KINDS[kind as usize - 1].0 * count..COVERED].fill(0);
    let check = block_check(&block[..COVERED]);
    block[COVERED..].copy_from_slice(&check.to_le_bytes());
}

pub fn pack(t: Tables, file: &mut [u8]) -> Result<usize, Refusal> {
    check(t)?;
    let blocks = 1 + (t.rows.len() / 2).div_ceil(125) + (t.arrows.len() / 4).div_ceil(83);
    check_room(8, file.len(), BLOCK * blocks)?;
    let (first, rest) = file.split_at_mut(BLOCK);
    first[8..8 + t.boxes.len()].copy_from_slice(t.boxes);
    finish_block(first, 1, 0, t.boxes.len());
    let mut rest = rest.chunks_exact_mut(BLOCK).zip(1..);
    for (part, (block, number)) in t.rows.chunks(2 * 125).zip(&mut rest) {
        for (record, row) in block[8..].chunks_exact_mut(4).zip(part.chunks_exact(2)) {
            record[..2].copy_from_slice(&row[0].to_le_bytes());
            record[2..].copy_from_slice(&row[1].to_le_bytes());
        }
        finish_block(block, 2, number, part.len() / 2);
    }
    for (part, (block, number)) in t.arrows.chunks(4 * 83).zip(&mut rest) {
        for (record, row) in block[8..].chunks_exact_mut(6).zip(part.chunks_exact(4)) {
            record[..2].copy_from_slice(&row[0].to_le_bytes());
            record[2..4].copy_from_slice(&row[1].to_le_bytes());
            record[4] = row[2] as u8;
            record[5] = row[3] as u8;
        }
        finish_block(block, 3, number, part.len() / 4);
    }
    Ok(BLOCK * blocks)
}
