//! The first-match list of a mode.

use super::containment::{check_scratch, contain, Closure};
use super::rows::{Arrow, Mode, Notes, Rows};
use super::sets::Set;
use super::tables::{atoms_of, check, check_mode, check_room};
use super::{refuse, Refusal, Tables, ARROWS, BOXES, NO_ARROW};

/// How an arrow stands to a list: it would give a pair the wrong answer, it reaches nothing new, or
/// it may follow.
enum Standing {
    Blocked,
    Spent,
    Free,
}

/// For each atomic user the files that are granted, and those that the list doesn't reach yet;
/// nothing for other boxes.
struct Order<'a> {
    closure: &'a Closure,
    granted: [Set; BOXES],
    left: [Set; BOXES],
}

impl Order<'_> {
    fn standing(&self, a: Arrow) -> Standing {
        let users = self.closure.within[a.tail as usize];
        let files = self.closure.within[a.head as usize];
        let open = |u: u8| files & self.left[u as usize];
        if !users.any(|u| !open(u).is_empty()) {
            return Standing::Spent;
        }
        let blocked = if a.positive {
            users.any(|u| !(open(u) - self.granted[u as usize]).is_empty())
        } else {
            users.any(|u| !(open(u) & self.granted[u as usize]).is_empty())
        };
        if blocked {
            Standing::Blocked
        } else {
            Standing::Free
        }
    }

    /// The first place whose arrow is free. What is spent stays so: it is not looked at again, and
    /// the places before `from` are not even read.
    fn next_free(&self, own: &[Arrow], spent: &mut [bool], from: usize) -> Option<usize> {
        for (i, (&a, spent)) in own.iter().zip(spent).enumerate().skip(from) {
            if !*spent {
                match self.standing(a) {
                    Standing::Free => return Some(i),
                    Standing::Spent => *spent = true,
                    Standing::Blocked => {}
                }
            }
        }
        None
    }

    /// Writes the list and answers its length.
    fn write(&mut self, own: &[Arrow], out: &mut [u16]) -> usize {
        let mut spent = [false; ARROWS];
        let mut from = 0;
        let mut count = 0;
        for place in out {
            let Some(i) = self.next_free(own, &mut spent, from) else {
                break;
            };
            let a = own[i];
            *place = a.number;
            count += 1;
            let files = self.closure.within[a.head as usize];
            self.closure.within[a.tail as usize].each(|u| self.left[u as usize] -= files);
            spent[i] = true;
            while from < own.len() && spent[from] {
                from += 1;
            }
        }
        count
    }
}

pub fn list(
    t: Tables,
    m: u16,
    scratch: &mut [u8],
    out: &mut [u16],
    work: &mut [u8],
) -> Result<usize, Refusal> {
    check(t)?;
    check_mode(m)?;
    check_scratch(t, scratch)?;
    let need = t.arrows.chunks_exact(4).filter(|row| row[2] == m).count();
    let (mut users, mut files) = ([0; BOXES], [0; BOXES]);
    let users = atoms_of(t, 0, &mut users);
    let files = atoms_of(t, 1, &mut files);
    let pairs = users.len() * files.len();
    check_room(3, out.len(), need)?;
    check_room(4, work.len(), pairs)?;
    let mut closure = Closure::EMPTY;
    contain(t, scratch, &mut closure)?;

    let mut mode = Mode::new();
    mode.take(t.arrows, m);
    let mut order = Order {
        closure: &closure,
        granted: [Set::EMPTY; BOXES],
        left: [Set::EMPTY; BOXES],
    };
    let rows = Rows {
        closure: &closure,
        mode: &mode,
    };
    let asked = files.iter().copied().collect();
    let mut notes = Notes::new();
    for (i, &u) in users.iter().enumerate() {
        let j = rows.alike(users, i, &mut notes);
        order.left[u as usize] = asked;
        if j < i {
            order.granted[u as usize] = order.granted[users[j] as usize];
            continue;
        }
        let row = rows.sort(u, asked);
        if let Some(f) = row.unclear.lowest() {
            return refuse(12, m as usize, u as usize, f as usize);
        }
        order.granted[u as usize] = row.granted;
    }
    let count = order.write(mode.own(), &mut out[..need]);
    work[..pairs].fill(0);
    for &u in users {
        let missed = order.left[u as usize] & order.granted[u as usize];
        if let Some(f) = missed.lowest() {
            out[..need].fill(NO_ARROW);
            return refuse(13, m as usize, u as usize, f as usize);
        }
    }
    Ok(count)
}
