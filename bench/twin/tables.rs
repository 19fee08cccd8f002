//! The checks on the tables, and which boxes are atomic.

use super::{refuse, Refusal, Tables, ARROWS, BOXES, ROWS};

/// 0 users, 1 files, 2 user groups, 3 folders.
fn side_of(byte: u8) -> u8 {
    byte % 2
}

fn on_side(boxes: &[u8], side: u8, b: u16) -> bool {
    boxes
        .get(b as usize)
        .is_some_and(|&byte| side_of(byte) == side)
}

pub fn check_counts(boxes: usize, rows: usize, arrows: usize) -> Result<(), Refusal> {
    if boxes > BOXES {
        return refuse(2, 0, boxes, 0);
    }
    if rows > ROWS {
        return refuse(2, 1, rows, 0);
    }
    if arrows > ARROWS {
        return refuse(2, 2, arrows, 0);
    }
    Ok(())
}

pub fn check_room(buffer: usize, have: usize, need: usize) -> Result<(), Refusal> {
    if have < need {
        return refuse(9, buffer, need, 0);
    }
    Ok(())
}

pub fn check_mode(mode: u16) -> Result<(), Refusal> {
    if mode > 7 {
        return refuse(8, mode as usize, 0, 0);
    }
    Ok(())
}

/// Checks 1 to 7.
pub fn check(t: Tables) -> Result<(), Refusal> {
    let Tables {
        boxes,
        rows,
        arrows,
    } = t;
    if rows.len() % 2 != 0 {
        return refuse(1, 1, rows.len(), 0);
    }
    if arrows.len() % 4 != 0 {
        return refuse(1, 2, arrows.len(), 0);
    }
    check_counts(boxes.len(), rows.len() / 2, arrows.len() / 4)?;
    if let Some(b) = boxes.iter().position(|&b| b > 3) {
        return refuse(3, b, 0, 0);
    }
    let n = boxes.len();
    for (k, row) in rows.chunks_exact(2).enumerate() {
        if row[0] as usize >= n || row[1] as usize >= n {
            return refuse(4, k, 0, 0);
        }
    }
    for (k, row) in rows.chunks_exact(2).enumerate() {
        if side_of(boxes[row[0] as usize]) != side_of(boxes[row[1] as usize]) {
            return refuse(5, k, 0, 0);
        }
    }
    for (k, row) in arrows.chunks_exact(4).enumerate() {
        if !on_side(boxes, 0, row[0]) || !on_side(boxes, 1, row[1]) {
            return refuse(6, k, 0, 0);
        }
    }
    for (k, row) in arrows.chunks_exact(4).enumerate() {
        if row[2] > 7 || row[3] > 1 {
            return refuse(7, k, 0, 0);
        }
    }
    Ok(())
}

/// Whether b is an atomic box of the side.
pub fn is_atom(t: Tables, side: u8, b: u16) -> bool {
    t.boxes.get(b as usize) == Some(&side) && !t.rows.chunks_exact(2).any(|row| row[0] == b)
}

/// Writes the atomic boxes of a side and answers them.
pub fn atoms_of<'a, B: From<u8>>(t: Tables, side: u8, out: &'a mut [B; BOXES]) -> &'a [B] {
    let mut outer = [false; BOXES];
    for row in t.rows.chunks_exact(2) {
        outer[row[0] as u8 as usize] = true;
    }
    let atomic = (0..=255u8)
        .zip(t.boxes)
        .filter(|&(b, &byte)| byte == side && !outer[b as usize]);
    let mut count = 0;
    for (place, (b, _)) in out.iter_mut().zip(atomic) {
        *place = b.into();
        count += 1;
    }
    &out[..count]
}

/// Checks 1 to 7 as without arrows, 9, then the atomic users and files.
pub fn atoms(t: Tables, users: &mut [u16], files: &mut [u16]) -> Result<[usize; 2], Refusal> {
    check(Tables { arrows: &[], ..t })?;
    let mut atoms = [[0; BOXES]; 2];
    let [u, f] = &mut atoms;
    let (u, f) = (atoms_of(t, 0, u), atoms_of(t, 1, f));
    check_room(11, users.len(), u.len())?;
    check_room(12, files.len(), f.len())?;
    users[..u.len()].copy_from_slice(u);
    files[..f.len()].copy_from_slice(f);
    Ok([u.len(), f.len()])
}
