//! The pictures that the benchmark runs on. All are fixed: random ones are seeded.

use super::twin;

pub struct Picture {
    pub name: String,
    pub boxes: Vec<u8>,
    pub rows: Vec<u16>,
    pub arrows: Vec<u16>,
    /// The mode with the most arrows.
    pub mode: u16,
}

impl Picture {
    fn new(name: &str) -> Picture {
        Picture {
            name: name.to_string(),
            boxes: Vec::new(),
            rows: Vec::new(),
            arrows: Vec::new(),
            mode: 0,
        }
    }

    /// Adds boxes of a byte (0 users, 1 files, 2 groups, 3 folders) and answers the first one's number.
    fn add(&mut self, byte: u8, count: usize) -> usize {
        let first = self.boxes.len();
        self.boxes.resize(first + count, byte);
        first
    }

    fn put(&mut self, outer: usize, inner: usize) {
        self.rows.extend([outer as u16, inner as u16]);
    }

    fn put_all(&mut self, outer: usize, first: usize, count: usize) {
        for inner in first..first + count {
            self.put(outer, inner);
        }
    }

    fn arrow(&mut self, tail: usize, head: usize, sign: u16) {
        self.arrows.extend([tail as u16, head as u16, 0, sign]);
    }

    pub fn tables(&self) -> twin::Tables<'_> {
        twin::Tables {
            boxes: &self.boxes,
            rows: &self.rows,
            arrows: &self.arrows,
        }
    }
}

/// A small generator of random numbers (splitmix64).
struct Random(u64);

impl Random {
    fn below(&mut self, n: usize) -> usize {
        self.0 = self.0.wrapping_add(0x9e3779b97f4a7c15);
        let mut x = self.0;
        x = (x ^ (x >> 30)).wrapping_mul(0xbf58476d1ce4e5b9);
        x = (x ^ (x >> 27)).wrapping_mul(0x94d049bb133111eb);
        ((x ^ (x >> 31)) % n as u64) as usize
    }

    fn of(&mut self, from: usize, count: usize) -> usize {
        from + self.below(count)
    }
}

/// A core facility: 120 users in 40 groups (all, 10 labs, 29 teams), 60 files in 36 folders (all,
/// 8 instruments, 27 runs), some of them in two, and arrows over 4 modes. An arrow that would
/// make a pair unclear is drawn again, so that every call does its whole work.
pub fn typical(arrows: usize) -> Picture {
    let mut p = Picture::new(&format!("core facility, {arrows} arrows over 4 modes"));
    let mut random = Random(5);
    let users = p.add(0, 120);
    let groups = p.add(2, 40);
    let files = p.add(1, 60);
    let folders = p.add(3, 36);
    let (labs, teams) = (groups + 1, groups + 11);
    let (instruments, runs) = (folders + 1, folders + 9);
    p.put_all(groups, labs, 10);
    p.put_all(folders, instruments, 8);
    for t in 0..29 {
        p.put(labs + t % 10, teams + t);
    }
    for r in 0..27 {
        p.put(instruments + r % 8, runs + r);
    }
    for u in 0..120 {
        p.put(teams + u % 29, users + u);
        if u % 4 == 0 {
            p.put(random.of(teams, 29), users + u);
        }
    }
    for f in 0..60 {
        p.put(runs + f % 27, files + f);
        if f % 5 == 0 {
            p.put(random.of(runs, 27), files + f);
        }
    }

    let mut scratch = vec![0; p.boxes.len() * p.boxes.len()];
    while p.arrows.len() < 4 * arrows {
        let mode = (p.arrows.len() / 4 % 4) as u16;
        let tail = match random.below(8) {
            0 => random.of(groups, 11),
            1..=4 => random.of(teams, 29),
            _ => random.of(users, 120),
        };
        let head = match random.below(8) {
            0 => random.of(folders, 9),
            1..=4 => random.of(runs, 27),
            _ => random.of(files, 60),
        };
        let sign = (random.below(5) < 3) as u16;
        p.arrows.extend([tail as u16, head as u16, mode, sign]);
        if twin::judge(p.tables(), &mut scratch).is_err() {
            p.arrows.truncate(p.arrows.len() - 4);
        }
    }
    p
}

/// All users in a chain of groups, all files in a chain of folders, all arrows between these, so
/// that each reaches every pair. Each positive arrow but the last overrides all negative ones but
/// the last; the last one overrides all.
pub fn every_pair(side: usize, depth: usize, arrows: usize) -> Picture {
    let mut p = Picture::new(&format!(
        "{side}x{side} pairs, {arrows} arrows reach each, nested {depth} deep"
    ));
    let users = p.add(0, side);
    let groups = p.add(0, depth);
    let files = p.add(1, side);
    let folders = p.add(1, depth);
    let last = depth - 1;
    for (atoms, boxes) in [(users, groups), (files, folders)] {
        for d in 0..last {
            p.put(boxes + d, boxes + d + 1);
        }
        p.put_all(boxes + last, atoms, side);
    }
    // Negative arrows at the first third of the depth, positive ones at the second.
    let third = depth / 3;
    let mut random = Random(6);
    for k in 0..arrows / 2 {
        let [a, b, c, d] = [0, 0, third, third].map(|from| random.of(from, third));
        if k + 1 < arrows / 2 {
            p.arrow(groups + a, folders + b, 0);
            p.arrow(groups + c, folders + d, 1);
        } else {
            p.arrow(groups + last, folders, 0);
            p.arrow(groups + last, folders + last, 1);
        }
    }
    p
}

/// All arrows reach every pair, and striking leaves all positive arrows but the first as
/// candidates. Each of these but the last fails only near the end of the negative ones, by turns at
/// one of two; the last one overrides all.
pub fn candidates_left(users: usize, files: usize, arrows: usize) -> Picture {
    let mut p = Picture::new(&format!(
        "{users}x{files} pairs, {arrows} arrows reach each, candidates left"
    ));
    let first_user = p.add(0, users);
    let groups = p.add(0, 4);
    let first_file = p.add(1, files);
    let folders = p.add(1, 3);
    // Two crossing chains of groups around all users; one chain of folders around all files.
    let [wide0, wide1, narrow0, narrow1] = [0, 1, 2, 3].map(|g| groups + g);
    p.put(wide0, narrow0);
    p.put(wide1, narrow1);
    p.put_all(narrow0, first_user, users);
    p.put_all(narrow1, first_user, users);
    p.put(folders, folders + 1);
    p.put(folders + 1, folders + 2);
    p.put_all(folders + 2, first_file, files);
    let half = arrows / 2;
    for k in 0..half {
        if k + 3 == half {
            p.arrow(wide0, folders + 1, 0);
        } else if k + 2 == half {
            p.arrow(wide1, folders + 1, 0);
        } else {
            p.arrow(wide0, folders, 0);
        }
        if k + 1 == half {
            p.arrow(narrow0, folders + 2, 1);
        } else if k % 2 == 0 {
            p.arrow(narrow0, folders + 1, 1);
        } else {
            p.arrow(narrow1, folders + 1, 1);
        }
    }
    p
}

/// The deepest nesting: each box holds the next one, or the one before.
pub fn chain(boxes: usize, down: bool) -> Picture {
    let way = if down { "next" } else { "one before" };
    let mut p = Picture::new(&format!("chain of {boxes} boxes, each holds the {way}"));
    p.add(0, boxes);
    for b in 0..boxes - 1 {
        if down {
            p.put(b, b + 1);
        } else {
            p.put(b + 1, b);
        }
    }
    p
}

/// Random containments and random arrows.
pub fn random_rows(boxes: usize, rows: usize) -> Picture {
    let mut p = Picture::new(&format!("{boxes} boxes, {rows} random rows"));
    let half = boxes / 2;
    let users = p.add(0, half);
    let files = p.add(1, half);
    let mut random = Random(7);
    while p.rows.len() < 2 * rows {
        let from = if random.below(2) == 0 { users } else { files };
        let (a, b) = (random.of(from, half), random.of(from, half));
        if a != b {
            p.put(a.min(b), a.max(b));
        }
    }
    for _ in 0..512 {
        let sign = random.below(2) as u16;
        let (tail, head) = (random.of(users, half), random.of(files, half));
        p.arrow(tail, head, sign);
    }
    p
}

/// Users and files in no group, arrows between single boxes, each of another pair. Seven of eight
/// are positive.
pub fn single_boxes(users: usize, files: usize, arrows: usize) -> Picture {
    let mut p = Picture::new(&format!(
        "{users}x{files} pairs, {arrows} arrows between single boxes"
    ));
    let first_user = p.add(0, users);
    let first_file = p.add(1, files);
    let mut random = Random(8);
    let mut drawn = vec![false; users * files];
    while p.arrows.len() < 4 * arrows {
        let pair = random.below(users * files);
        if !drawn[pair] {
            drawn[pair] = true;
            let sign = (p.arrows.len() / 4 % 8 != 0) as u16;
            p.arrow(first_user + pair / files, first_file + pair % files, sign);
        }
    }
    p
}

/// A chain of groups with users in each, and of folders with files in each. Answers where the
/// groups and folders begin.
fn stairs(p: &mut Picture, steps: usize, atoms: usize) -> (usize, usize) {
    let mut begin = [0; 2];
    for side in 0..2 {
        let first = p.add(side as u8, atoms);
        let chain = p.add(side as u8, steps);
        for d in 0..steps - 1 {
            p.put(chain + d, chain + d + 1);
        }
        for a in 0..atoms {
            p.put(chain + a % steps, first + a);
        }
        begin[side] = chain;
    }
    (begin[0], begin[1])
}

/// An arrow from each group to each folder of two chains, whose sign changes with each step down.
/// An arrow can stand in a list only behind those a step below it, which have higher numbers.
pub fn staircase(steps: usize) -> Picture {
    let mut p = Picture::new(&format!("staircase, {steps}x{steps} arrows"));
    let (groups, folders) = stairs(&mut p, steps, 106);
    for depth in 0..2 * steps - 1 {
        for a in 0..steps {
            if a <= depth && depth - a < steps {
                p.arrow(groups + a, folders + depth - a, (depth % 2) as u16);
            }
        }
    }
    p
}

/// One arrow for each step down, by turns on either side, each four times: the numbers in the
/// list can only fall.
pub fn thin_staircase() -> Picture {
    let mut p = Picture::new("staircase of 127 steps, each drawn 4 times");
    let (groups, folders) = stairs(&mut p, 64, 64);
    for step in 0..127 {
        for _ in 0..4 {
            p.arrow(
                groups + step / 2,
                folders + (step + 1) / 2,
                (step % 2) as u16,
            );
        }
    }
    p
}

/// 96 users in 31 groups, 96 files in 31 folders, and all groups and all folders in one more. The
/// groups of each user and the folders of each file are given, as numbers below 31. Of 512 arrows half
/// are positive between inner boxes, a quarter negative between the two outermost ones, and the
/// rest of either sign to the outermost folder, so that every pair is clear.
fn crowded(
    name: String,
    mut random: Random,
    modes: usize,
    mut groups_of: impl FnMut(&mut Random, usize) -> Vec<usize>,
) -> Picture {
    let mut p = Picture::new(&name);
    let [groups, folders] = [0, 1].map(|side| {
        let first = p.add(side, 96);
        let outermost = p.add(side, 32);
        for a in 0..96 {
            for group in groups_of(&mut random, a) {
                p.put(outermost + 1 + group, first + a);
            }
        }
        p.put_all(outermost, outermost + 1, 31);
        outermost
    });
    for k in 0..512 {
        let mut inner = |outermost| random.of(outermost + 1, 31);
        let (tail, head, sign) = match k % 4 {
            0 | 2 => (inner(groups), inner(folders), 1),
            1 => (groups, folders, 0),
            _ => match (inner(groups), random.below(2)) {
                (tail, 0) => (tail, folders, 1),
                _ => (groups, folders, 0),
            },
        };
        p.arrow(tail, head, sign);
        let mode = p.arrows.len() - 2;
        p.arrows[mode] = (k % modes) as u16;
    }
    p
}

/// Each user and each file is in four groups, nearly each in others.
pub fn crowd(seed: u64, modes: usize) -> Picture {
    let name = format!("each user and file in other groups, modes of the 512 arrows: {modes}");
    crowded(name, Random(seed), modes, |random, _| {
        let mut next = random.below(31);
        let mut groups = Vec::new();
        for _ in 0..4 {
            groups.push(next);
            next = (next + 1 + random.below(7)) % 31;
        }
        groups
    })
}

/// Each user and each file is in so many groups, those of one kind in the same. From 8 kinds in 4
/// groups on, no group is empty.
pub fn crowd_of_kinds(kinds: usize, groups: usize) -> Picture {
    let name = format!("{kinds} kinds of users and of files, in {groups} groups each");
    crowded(name, Random(4), 1, |_, a| {
        let (first, step) = (4 * (a % kinds), 1 + a % kinds / 31);
        (0..groups).map(|k| (first + step * k) % 31).collect()
    })
}

/// The ring of case J with so many users and files: each arrow has to stand before the next one,
/// all around, so that there is no order.
pub fn ring(size: usize) -> Picture {
    let mut p = Picture::new(&format!("ring of {} arrows, no order", 2 * size));
    let [users, wide, close] = [0; 3].map(|side| p.add(side, size));
    let [files, inner, outer] = [1; 3].map(|side| p.add(side, size));
    for i in 0..size {
        let next = (i + 1) % size;
        p.put(wide + i, users + i);
        p.put(close + i, users + i);
        p.put(wide + next, close + i);
        p.put(inner + i, files + i);
        p.put(outer + i, inner + i);
        p.put(outer + i, files + next);
        p.arrow(wide + i, inner + i, 1);
        p.arrow(close + i, outer + i, 0);
    }
    p
}
