//! One entry, the judge, the matrix of a mode.

use super::containment::{check_scratch, contain, Closure};
use super::rows::{Mode, Notes, Rows};
use super::sets::Set;
use super::tables::{atoms_of, check, check_mode, check_room, is_atom};
use super::{refuse, Entry, Refusal, Tables, BOXES, NO_ARROW};

/// The modes that have arrows of both signs, a bit each: another one has no unclear pair.
fn clashing(arrows: &[u16]) -> u8 {
    let mut signs = [0u8; 2];
    for row in arrows.chunks_exact(4) {
        signs[(row[3] & 1) as usize] |= 1 << (row[2] & 7);
    }
    signs[0] & signs[1]
}

/// Check 12 for a mode.
fn judge_mode(
    t: Tables,
    closure: &Closure,
    m: u16,
    users: &[u8],
    files: Set,
) -> Result<(), Refusal> {
    let mut mode = Mode::new();
    mode.take(t.arrows, m);
    let rows = Rows {
        closure,
        mode: &mode,
    };
    let mut notes = Notes::new();
    for (i, &u) in users.iter().enumerate() {
        if rows.alike(users, i, &mut notes) < i {
            continue;
        }
        if let Some(f) = rows.sort(u, files).unclear.lowest() {
            return refuse(12, m as usize, u as usize, f as usize);
        }
    }
    Ok(())
}

pub fn judge(t: Tables, scratch: &mut [u8]) -> Result<(), Refusal> {
    check(t)?;
    check_scratch(t, scratch)?;
    let mut closure = Closure::EMPTY;
    contain(t, scratch, &mut closure)?;
    let (mut users, mut files) = ([0; BOXES], [0; BOXES]);
    let users = atoms_of(t, 0, &mut users);
    let files = atoms_of(t, 1, &mut files).iter().copied().collect();
    let both = clashing(t.arrows);
    (0..8)
        .filter(|m| both >> m & 1 == 1)
        .try_for_each(|m| judge_mode(t, &closure, m, users, files))
}

/// The answer for a pair: a row with one file.
fn answer_pair(t: Tables, closure: &Closure, m: u16, user: u8, file: u8) -> Entry {
    let mut mode = Mode::new();
    mode.take(t.arrows, m);
    let rows = Rows {
        closure,
        mode: &mode,
    };
    let mut numbers = [NO_ARROW; BOXES];
    let row = rows.answer(user, Set::from_iter([file]), &mut numbers);
    let number = numbers[file as usize];
    if !row.granted.is_empty() {
        Entry::Granted(number)
    } else if !row.unclear.is_empty() {
        let [n, p] = [false, true].map(|positive| rows.first_hit(positive, user, file));
        Entry::Unclear(p, n)
    } else if number != NO_ARROW {
        Entry::Denied(number)
    } else {
        Entry::Default
    }
}

pub fn entry(
    t: Tables,
    user: u16,
    file: u16,
    mode: u16,
    scratch: &mut [u8],
) -> Result<Entry, Refusal> {
    check(t)?;
    check_mode(mode)?;
    check_scratch(t, scratch)?;
    let mut closure = Closure::EMPTY;
    contain(t, scratch, &mut closure)?;
    if !is_atom(t, 0, user) || !is_atom(t, 1, file) {
        return refuse(11, user as usize, file as usize, 0);
    }
    Ok(answer_pair(t, &closure, mode, user as u8, file as u8))
}

/// Writes the matrix of a mode, row by row.
fn fill_matrix(rows: Rows, users: &[u8], files: &[u8], bytes: &mut [u8], numbers: &mut [u16]) {
    if files.is_empty() {
        return;
    }
    let asked = files.iter().copied().collect();
    let n = files.len();
    let mut notes = Notes::new();
    for (i, &u) in users.iter().enumerate() {
        let j = rows.alike(users, i, &mut notes);
        if j < i {
            bytes.copy_within(j * n..(j + 1) * n, i * n);
            numbers.copy_within(j * n..(j + 1) * n, i * n);
            continue;
        }
        let mut found = [NO_ARROW; BOXES];
        let row = rows.answer(u, asked, &mut found);
        let bytes = bytes[i * n..].iter_mut();
        for (&f, (byte, number)) in files.iter().zip(bytes.zip(&mut numbers[i * n..])) {
            *byte = row.granted.has(f) as u8 + 2 * row.unclear.has(f) as u8;
            *number = found[f as usize];
        }
    }
}

pub fn matrix(
    t: Tables,
    mode: u16,
    scratch: &mut [u8],
    bytes: &mut [u8],
    numbers: &mut [u16],
) -> Result<(), Refusal> {
    check(t)?;
    check_mode(mode)?;
    check_scratch(t, scratch)?;
    let (mut users, mut files) = ([0; BOXES], [0; BOXES]);
    let users = atoms_of(t, 0, &mut users);
    let files = atoms_of(t, 1, &mut files);
    check_room(1, bytes.len(), users.len() * files.len())?;
    check_room(2, numbers.len(), users.len() * files.len())?;
    let mut closure = Closure::EMPTY;
    contain(t, scratch, &mut closure)?;
    let mut own = Mode::new();
    own.take(t.arrows, mode);
    let rows = Rows {
        closure: &closure,
        mode: &own,
    };
    fill_matrix(rows, users, files, bytes, numbers);
    Ok(())
}
