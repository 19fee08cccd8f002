//! What holds of user groups and folders by itself: seen by the bytes and rows of a picture and by
//! what the library answers for two pictures that differ in bytes only, however the model finds
//! atomic boxes.

use super::checker::{Picture, Tables};
use super::generator::{self, Random};
use rights::lent::{self, AtomCounts};
use rights::{Answer, Refusal};

/// What a picture that passes checks 1 to 7 can show.
pub const SHOWN: [&str; 10] = [
    "bytes 0 and 1 only",
    "groups and folders only",
    "a group with members",
    "a folder with members",
    "an empty group",
    "an empty folder",
    "an arrow from an empty group",
    "an arrow to an empty folder",
    "a box of byte 0 around empty groups only",
    "a box of byte 1 around empty folders only",
];

/// Which of `SHOWN` a picture shows.
pub fn shown(t: &Tables) -> [bool; 10] {
    let n = t.boxes.len();
    let mut holds = vec![Vec::new(); n];
    for row in t.rows.chunks(2) {
        holds[row[0] as usize].push(row[1] as usize);
    }
    let empty = |b: usize, byte: u8| t.boxes[b] == byte && holds[b].is_empty();
    let members = |byte: u8| (0..n).any(|b| t.boxes[b] == byte && !holds[b].is_empty());
    let around = |byte: u8| {
        let only_empty = |b: usize| holds[b].iter().all(|&inner| empty(inner, byte + 2));
        (0..n).any(|b| t.boxes[b] == byte && !holds[b].is_empty() && only_empty(b))
    };
    let mut arrows = t.arrows.chunks(4);
    [
        t.boxes.iter().all(|&byte| byte < 2),
        n > 0 && t.boxes.iter().all(|&byte| byte >= 2),
        members(2),
        members(3),
        (0..n).any(|b| empty(b, 2)),
        (0..n).any(|b| empty(b, 3)),
        arrows.clone().any(|row| empty(row[0] as usize, 2)),
        arrows.any(|row| empty(row[1] as usize, 3)),
        around(0),
        around(1),
    ]
}

/// That no box named as atomic is a user group, a folder or the outer box of a row, and that each
/// is of its side.
pub fn atoms_named(t: &Tables, users: &[u16], files: &[u16]) -> Result<(), String> {
    for (byte, atoms) in [(0, users), (1, files)] {
        for &b in atoms {
            let outer = t.rows.chunks(2).any(|row| row[0] == b);
            if t.boxes[b as usize] != byte || outer {
                return Err(format!("box {b} is named among those of byte {byte}"));
            }
        }
    }
    Ok(())
}

/// What is asked, and how long the buffers are: scratch, matrix bytes and numbers, list, work,
/// atomic users and files.
struct Asked {
    user: u16,
    file: u16,
    mode: u16,
    lengths: [usize; 7],
}

/// What each call answers and leaves in its buffers.
struct Told {
    judge: (Result<(), Refusal>, Vec<u8>),
    entry: (Result<Answer, Refusal>, Vec<u8>),
    matrix: (Result<(), Refusal>, Vec<u8>, Vec<u8>, Vec<u16>),
    list: (Result<usize, Refusal>, Vec<u8>, Vec<u16>, Vec<u8>),
    atoms: (Result<AtomCounts, Refusal>, Vec<u16>, Vec<u16>),
}

fn lend(t: &Tables) -> lent::Tables<'_> {
    lent::Tables {
        boxes: &t.boxes,
        containments: &t.rows,
        arrows: &t.arrows,
    }
}

/// Buffers hold what no call writes, so that it shows what was left alone.
fn bytes(length: usize) -> Vec<u8> {
    vec![170; length]
}

fn words(length: usize) -> Vec<u16> {
    vec![43_690; length]
}

fn told(t: &Tables, asked: &Asked) -> Told {
    let picture = lend(t);
    let &Asked {
        user,
        file,
        mode,
        lengths: [scratch, cells, numbers, list, work, users, files],
    } = asked;
    let filled = || bytes(scratch);
    let mut judge = (Ok(()), filled());
    judge.0 = picture.judge(&mut judge.1);
    let mut entry = (Ok(Answer::DeniedByDefault), filled());
    entry.0 = picture.entry(user, file, mode, &mut entry.1);
    let mut matrix = (Ok(()), filled(), bytes(cells), words(numbers));
    matrix.0 = picture.matrix(mode, &mut matrix.1, &mut matrix.2, &mut matrix.3);
    let mut listed = (Ok(0), filled(), words(list), bytes(work));
    listed.0 = picture.list(mode, &mut listed.1, &mut listed.2, &mut listed.3);
    let mut atoms = (Ok(AtomCounts { users, files }), words(users), words(files));
    atoms.0 = picture.atoms(&mut atoms.1, &mut atoms.2);
    Told {
        judge,
        entry,
        matrix,
        list: listed,
        atoms,
    }
}

/// Groups that hold something may be said or not: where boxes that are the outer one of a row go
/// from byte 0 to 2, from 1 to 3 or back, every call answers and leaves the same, whatever is asked
/// and lent.
fn said_or_not(r: &mut Random, t: &Tables, p: &Picture, mode: u16) -> Result<(), String> {
    let mut other = t.clone();
    let all = r.percent(50);
    for b in 0..p.n {
        let outer = t.rows.chunks(2).any(|row| row[0] as usize == b);
        if outer && (all || r.percent(50)) {
            other.boxes[b] ^= 2;
        }
    }
    let of_mode = p.of_mode(mode).len();
    let (pairs, users, files) = (p.pairs(), p.users.len(), p.files.len());
    let needed = [p.n * p.n, pairs, pairs, of_mode, pairs, users, files];
    let (user, file) = generator::asked_beside(r, t, &p.users, &p.files).unwrap_or((0, 0));
    let lengths = generator::lengths(r, &needed);
    let asked = Asked {
        user,
        file,
        mode,
        lengths: lengths.try_into().expect("as many as needed"),
    };
    let (one, two) = (told(t, &asked), told(&other, &asked));
    let calls = [
        ("judge", one.judge == two.judge),
        ("entry", one.entry == two.entry),
        ("matrix", one.matrix == two.matrix),
        ("list", one.list == two.list),
        ("atoms", one.atoms == two.atoms),
    ];
    match calls.iter().find(|(_, same)| !same) {
        None => Ok(()),
        Some((call, _)) => Err(format!(
            "{call}: not the same where the bytes are {:?}",
            other.boxes
        )),
    }
}

/// An atomic box that becomes a group, or a folder, takes its row, or column, out of the matrix and
/// changes no other cell; an entry that asks for it is refused.
fn one_line_less(r: &mut Random, t: &Tables, p: &Picture, mode: u16) -> Result<(), String> {
    let atoms = [&p.users[..], &p.files[..]].concat();
    if atoms.is_empty() {
        return Ok(());
    }
    let gone = r.pick(&atoms);
    let mut other = t.clone();
    other.boxes[gone] += 2;
    let stays = |&place: &usize| p.pair(place).0 != gone && p.pair(place).1 != gone;
    let kept: Vec<usize> = (0..p.pairs()).filter(stays).collect();

    let (mut scratch, mut cells, mut numbers) =
        (bytes(p.n * p.n), bytes(p.pairs()), words(p.pairs()));
    let before = lend(t).matrix(mode, &mut scratch, &mut cells, &mut numbers);
    let cells: Vec<u8> = kept.iter().map(|&place| cells[place]).collect();
    let numbers: Vec<u16> = kept.iter().map(|&place| numbers[place]).collect();
    let (mut scratch_then, mut cells_then, mut numbers_then) =
        (bytes(p.n * p.n), bytes(kept.len()), words(kept.len()));
    let then = lend(&other).matrix(mode, &mut scratch_then, &mut cells_then, &mut numbers_then);
    let what = format!("matrix of mode {mode} where box {gone} is a group or folder");
    if then != before {
        return Err(format!("{what}: {then:?}, not {before:?}"));
    }
    if (scratch_then, cells_then, numbers_then) != (scratch, cells, numbers) {
        return Err(format!("{what}: another difference than its own pairs"));
    }
    let first = |atoms: &[usize]| atoms.first().map_or(0, |&b| b as u16);
    let (user, file) = if p.users.contains(&gone) {
        (gone as u16, first(&p.files))
    } else {
        (first(&p.users), gone as u16)
    };
    let entry = lend(&other).entry(user, file, mode, &mut bytes(p.n * p.n));
    if then.is_ok() && entry != Err(Refusal::NotAtomic { user, file }) {
        return Err(format!("entry {user}, {file}: {entry:?}, one is a group"));
    }
    Ok(())
}

/// What holds of groups in a picture that passes checks 1 to 7, for one mode.
pub fn compare(r: &mut Random, t: &Tables, p: &Picture, mode: u16) -> Result<(), String> {
    said_or_not(r, t, p, mode).map_err(|why| format!("groups said or not: {why}"))?;
    one_line_less(r, t, p, mode).map_err(|why| format!("one atomic box less: {why}"))
}
