//! The answers of one user for many files at once.

use super::containment::Closure;
use super::sets::Set;
use super::{ARROWS, BOXES, NO_ARROW};

/// How many notes there are: a prime by which the powers of 2 in a word leave different remainders.
const NOTES: usize = 107;

#[derive(Clone, Copy, Default)]
pub struct Arrow {
    pub number: u16,
    pub tail: u8,
    pub head: u8,
    pub positive: bool,
}

/// The arrows of a mode, rising, without those whose ends and sign an earlier one has: these change
/// no answer. And as sets: of each sign the heads from each tail, and the tails.
pub struct Mode {
    own: [Arrow; ARROWS],
    count: usize,
    heads: [[Set; BOXES]; 2],
    tails: [Set; 2],
}

impl Mode {
    pub fn new() -> Mode {
        Mode {
            own: [Arrow::default(); ARROWS],
            count: 0,
            heads: [[Set::EMPTY; BOXES]; 2],
            tails: [Set::EMPTY; 2],
        }
    }

    /// Takes a mode's arrows into the empty sets.
    pub fn take(&mut self, arrows: &[u16], mode: u16) {
        let mut own = self.own.iter_mut();
        let rows = arrows.chunks_exact(4).zip(0..);
        for (row, number) in rows.filter(|(row, _)| row[2] == mode) {
            let (tail, head, positive) = (row[0] as u8, row[1] as u8, row[3] == 1);
            let heads = &mut self.heads[positive as usize][tail as usize];
            if heads.has(head) {
                continue;
            }
            heads.add(head);
            self.tails[positive as usize].add(tail);
            if let Some(place) = own.next() {
                *place = Arrow {
                    number,
                    tail,
                    head,
                    positive,
                };
            }
        }
        self.count = ARROWS - own.len();
    }

    pub fn own(&self) -> &[Arrow] {
        &self.own[..self.count]
    }

    /// The heads of the arrows of a sign from the tails.
    #[inline]
    fn heads_of(&self, positive: bool, tails: Set) -> Set {
        let mut found = Set::EMPTY;
        tails.each(|t| found |= self.heads[positive as usize][t as usize]);
        found
    }
}

/// The arrows of a sign around a user: their tails, their heads, and the asked files they reach.
#[derive(Clone, Copy)]
struct Near {
    positive: bool,
    tails: Set,
    heads: Set,
    files: Set,
}

/// The asked files that are granted, and those that are unclear.
#[derive(Clone, Copy)]
pub struct Row {
    pub granted: Set,
    pub unclear: Set,
}

/// Each note has the place behind that of the last user who had it, or 0. Which note is a user's goes by the
/// tails of the mode's arrows around them.
pub struct Notes([u16; NOTES]);

impl Notes {
    pub fn new() -> Notes {
        Notes([0; NOTES])
    }
}

/// What rows are answered by.
#[derive(Clone, Copy)]
pub struct Rows<'a> {
    pub closure: &'a Closure,
    pub mode: &'a Mode,
}

impl Rows<'_> {
    /// The files that are in none of the boxes. What a box has is done with it, boxes and files.
    #[inline]
    fn outside_all(self, files: Set, boxes: Set) -> Set {
        let (mut left, mut rest) = (files, boxes);
        while !left.is_empty() {
            let Some(b) = rest.lowest() else { break };
            let gone = self.closure.within[b as usize];
            rest -= gone;
            left -= gone;
        }
        left
    }

    fn near(self, positive: bool, user: u8, asked: Set) -> Near {
        let tails = self.closure.above[user as usize] & self.mode.tails[positive as usize];
        let heads = self.mode.heads_of(positive, tails);
        Near {
            positive,
            tails,
            heads,
            files: asked - self.outside_all(asked, heads),
        }
    }

    /// The files that no opposite arrow reaches which this one does not override. It does not
    /// override an arrow whose head is nested in its own, one whose tail is nested in its own, and
    /// one neither of whose ends has its own nested in it.
    fn unblocked(self, opposite: &Near, a: Arrow, files: Set) -> Set {
        let (c, mode) = (self.closure, self.mode);
        let by_head = self.outside_all(files, opposite.heads & c.nested_in(a.head));
        if by_head.is_empty() {
            return by_head;
        }
        let inner = mode.heads_of(opposite.positive, opposite.tails & c.nested_in(a.tail));
        let by_tail = self.outside_all(by_head, inner);
        if by_tail.is_empty() {
            return by_tail;
        }
        let level = mode.heads_of(opposite.positive, opposite.tails - c.nesting(a.tail));
        self.outside_all(by_tail, level - c.nesting(a.head))
    }

    /// The files at which an arrow around the user is a certificate. One that no opposite arrow
    /// reaches needs no look at those.
    #[inline]
    fn certified(self, opposite: &Near, a: Arrow, files: Set) -> Set {
        let hit = self.closure.within[a.head as usize] & files;
        let met = hit & opposite.files;
        if met.is_empty() {
            return hit;
        }
        (hit - met) | self.unblocked(opposite, a, met)
    }

    /// Takes from the files those of each arrow's certificate in turn, and answers what is left.
    #[inline]
    fn walk(self, user: u8, near: &[Near; 2], files: Set, mut take: impl FnMut(Arrow, Set)) -> Set {
        let above = &self.closure.above[user as usize];
        let mut left = files;
        for &a in self.mode.own() {
            if left.is_empty() {
                break;
            }
            if above.has(a.tail) {
                let hit = self.certified(&near[!a.positive as usize], a, left);
                left -= hit;
                take(a, hit);
            }
        }
        left
    }

    fn around(self, user: u8, asked: Set) -> [Near; 2] {
        [false, true].map(|positive| self.near(positive, user, asked))
    }

    /// The row of a user. A file that arrows of one sign only reach is settled without a look at
    /// them one by one.
    pub fn sort(self, user: u8, asked: Set) -> Row {
        let near = self.around(user, asked);
        let clash = near[0].files & near[1].files;
        let mut granted = near[1].files - clash;
        let unclear = self.walk(user, &near, clash, |a, hit| {
            if a.positive {
                granted |= hit;
            }
        });
        Row { granted, unclear }
    }

    /// The same, and the number of each file's arrow, by box number.
    pub fn answer(self, user: u8, asked: Set, numbers: &mut [u16; BOXES]) -> Row {
        let near = self.around(user, asked);
        let mut granted = Set::EMPTY;
        let unclear = self.walk(user, &near, near[0].files | near[1].files, |a, hit| {
            hit.each(|f| numbers[f as usize] = a.number);
            if a.positive {
                granted |= hit;
            }
        });
        Row { granted, unclear }
    }

    fn tails_near(self, user: u8) -> Set {
        let [negative, positive] = self.mode.tails;
        self.closure.above[user as usize] & (negative | positive)
    }

    /// The place of a user before place i around whom the same tails are, and who has the same row, or i.
    #[inline]
    pub fn alike(self, users: &[u8], i: usize, notes: &mut Notes) -> usize {
        let tails = self.tails_near(users[i]);
        let note = &mut notes.0[tails.remainder(NOTES as u64) as usize];
        let behind = *note as usize;
        *note = i as u16 + 1;
        if behind != 0 && tails == self.tails_near(users[behind - 1]) {
            return behind - 1;
        }
        i
    }

    /// The lowest arrow of a sign that reaches the pair.
    pub fn first_hit(self, positive: bool, user: u8, file: u8) -> u16 {
        let [users, files] = [user, file].map(|b| &self.closure.above[b as usize]);
        let mut own = self.mode.own().iter();
        own.find(|a| a.positive == positive && users.has(a.tail) && files.has(a.head))
            .map_or(NO_ARROW, |a| a.number)
    }
}
