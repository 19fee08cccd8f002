//! Which box contains which, as sets and as bytes of the scratch.

use super::sets::Set;
use super::tables::check_room;
use super::{refuse, Refusal, Tables, BOXES};

/// For each box a set of the boxes that it is or contains, and one of those that are it or contain
/// it. While it is filled, a box is in its own sets only by a loop.
pub struct Closure {
    pub within: [Set; BOXES],
    pub above: [Set; BOXES],
}

impl Closure {
    pub const EMPTY: Closure = Closure {
        within: [Set::EMPTY; BOXES],
        above: [Set::EMPTY; BOXES],
    };

    /// The rows, then the ways through each box in turn.
    fn close(&mut self, t: Tables) {
        for row in t.rows.chunks_exact(2) {
            let (outer, inner) = (row[0] as u8, row[1] as u8);
            self.within[outer as usize].add(inner);
            self.above[inner as usize].add(outer);
        }
        for k in 0..t.boxes.len().min(BOXES) {
            let (down, up) = (self.within[k], self.above[k]);
            if !down.is_empty() && !up.is_empty() {
                up.each(|a| self.within[a as usize] |= down);
                down.each(|b| self.above[b as usize] |= up);
            }
        }
    }

    /// Check 10.
    fn check_loops(&self, n: usize) -> Result<(), Refusal> {
        for (b, set) in self.within[..n].iter().enumerate() {
            if set.has(b as u8) {
                return refuse(10, b, 0, 0);
            }
        }
        Ok(())
    }

    fn add_selves(&mut self, n: usize) {
        for b in 0..n.min(BOXES) {
            self.within[b].add(b as u8);
            self.above[b].add(b as u8);
        }
    }

    /// Nesting is said here and in `nesting` alone: the boxes that are nested in b.
    #[inline]
    pub fn nested_in(&self, b: u8) -> Set {
        self.within[b as usize] - self.above[b as usize]
    }

    /// The boxes in which b is nested.
    #[inline]
    pub fn nesting(&self, b: u8) -> Set {
        self.above[b as usize] - self.within[b as usize]
    }
}

/// Byte a × n + b is 2 where a row joins the boxes, 1 where a contains b through others, else 0.
fn fill_scratch(t: Tables, closure: &Closure, scratch: &mut [u8]) {
    let n = t.boxes.len();
    let scratch = &mut scratch[..n * n];
    scratch.fill(0);
    if n == 0 {
        return;
    }
    for (bytes, inner) in scratch.chunks_exact_mut(n).zip(&closure.within) {
        inner.mark(bytes);
    }
    for row in t.rows.chunks_exact(2) {
        scratch[row[0] as usize * n + row[1] as usize] = 2;
    }
}

/// Check 9 for the scratch.
pub fn check_scratch(t: Tables, scratch: &[u8]) -> Result<(), Refusal> {
    check_room(0, scratch.len(), t.boxes.len() * t.boxes.len())
}

/// Fills the empty closure and the scratch, then check 10.
pub fn contain(t: Tables, scratch: &mut [u8], closure: &mut Closure) -> Result<(), Refusal> {
    let n = t.boxes.len();
    closure.close(t);
    fill_scratch(t, closure, scratch);
    closure.check_loops(n)?;
    closure.add_selves(n);
    Ok(())
}
