//! Seeded pictures, files and buffer lengths. The same seed always gives the same picture.

use super::checker::{fnv, record, Answer, Known, Tables, BLOCK, LONGEST_FILE};

/// A small generator of numbers (splitmix64).
pub struct Random(u64);

impl Random {
    pub fn new(seed: u64) -> Random {
        Random(seed)
    }

    pub fn next(&mut self) -> u64 {
        self.0 = self.0.wrapping_add(0x9e37_79b9_7f4a_7c15);
        let mut z = self.0;
        z = (z ^ (z >> 30)).wrapping_mul(0xbf58_476d_1ce4_e5b9);
        z = (z ^ (z >> 27)).wrapping_mul(0x94d0_49bb_1331_11eb);
        z ^ (z >> 31)
    }

    /// A number below `n`, 0 if `n` is 0.
    pub fn below(&mut self, n: usize) -> usize {
        if n == 0 {
            0
        } else {
            (self.next() % n as u64) as usize
        }
    }

    /// A number from `low` to `high`, both included.
    pub fn from_to(&mut self, low: usize, high: usize) -> usize {
        low + self.below(high - low + 1)
    }

    pub fn percent(&mut self, p: usize) -> bool {
        self.below(100) < p
    }

    pub fn pick<T: Copy>(&mut self, from: &[T]) -> T {
        from[self.below(from.len())]
    }

    pub fn shuffle<T>(&mut self, items: &mut [T]) {
        for k in (1..items.len()).rev() {
            items.swap(k, self.below(k + 1));
        }
    }
}

// ---------------------------------------------------------------------------------------------
// Pictures

#[derive(Clone, Copy)]
enum Size {
    Tiny,
    Middle,
    Full,
}

/// A picture in the making: rows and arrows are kept as rows. Boxes have byte 0 or 1 until
/// `draw_groups` makes user groups (2) and folders (3) of some.
#[derive(Default)]
struct Draft {
    boxes: Vec<u8>,
    rows: Vec<[u16; 2]>,
    arrows: Vec<[u16; 4]>,
}

impl Draft {
    fn add_box(&mut self, byte: u8) -> u16 {
        self.boxes.push(byte);
        (self.boxes.len() - 1) as u16
    }

    /// The boxes of a side, 0 for users, 1 for files. User groups and folders are among them.
    fn of_side(&self, side: u8) -> Vec<u16> {
        (0..self.boxes.len())
            .filter(|&b| self.boxes[b] % 2 == side)
            .map(|b| b as u16)
            .collect()
    }

    /// Makes a user group of a box of the user side, a folder of one of the file side.
    fn make_group(&mut self, b: u16) {
        self.boxes[b as usize] |= 2;
    }

    fn holds_something(&self, b: u16) -> bool {
        self.rows.iter().any(|row| row[0] == b)
    }

    fn tables(&self) -> Tables {
        Tables {
            boxes: self.boxes.clone(),
            rows: self.rows.concat(),
            arrows: self.arrows.concat(),
        }
    }

    /// Gives the boxes other numbers and the rows and arrows another order.
    fn mix(&mut self, r: &mut Random) {
        let mut new_number: Vec<u16> = (0..self.boxes.len() as u16).collect();
        r.shuffle(&mut new_number);
        let old = self.boxes.clone();
        for (b, &byte) in old.iter().enumerate() {
            self.boxes[new_number[b] as usize] = byte;
        }
        for row in &mut self.rows {
            *row = row.map(|b| new_number[b as usize]);
        }
        for arrow in &mut self.arrows {
            arrow[0] = new_number[arrow[0] as usize];
            arrow[1] = new_number[arrow[1] as usize];
        }
        r.shuffle(&mut self.rows);
        r.shuffle(&mut self.arrows);
    }
}

/// A few modes for one picture, low and high ones.
fn some_modes(r: &mut Random) -> Vec<u16> {
    let how_many = r.pick(&[1, 1, 1, 2, 2, 3, 8]);
    (0..how_many).map(|_| r.below(8) as u16).collect()
}

/// Rows from outer to inner along a fixed order of the boxes, so without loops. `parents` is the
/// most boxes around one box that are drawn (1 gives trees); a `flat` picture has one level only.
fn nest(r: &mut Random, d: &mut Draft, count: usize, parents: usize, flat: bool) {
    let mut drawn = vec![0; d.boxes.len()];
    for side in [0, 1] {
        let mut order = d.of_side(side);
        r.shuffle(&mut order);
        let groups = if flat { order.len() / 3 } else { order.len() };
        for _ in 0..count / 2 {
            if order.len() < 2 || groups == 0 {
                break;
            }
            let outer = r.below(groups.min(order.len() - 1));
            let first_inner = if flat { groups } else { outer + 1 };
            // Mostly to a near box, so that deep nests come up.
            let span = if r.percent(50) { 3 } else { order.len() };
            let inner = (first_inner + r.below(span)).min(order.len() - 1);
            if inner == outer || drawn[order[inner] as usize] >= parents {
                continue;
            }
            drawn[order[inner] as usize] += 1;
            d.rows.push([order[outer], order[inner]]);
        }
    }
}

fn aim(r: &mut Random, d: &mut Draft, count: usize, positive: usize) {
    let (users, files) = (d.of_side(0), d.of_side(1));
    if users.is_empty() || files.is_empty() {
        return;
    }
    let modes = some_modes(r);
    // Few different heads and many groups among the tails make arrows meet.
    let heads = match r.below(3) {
        0 => vec![r.pick(&files)],
        1 => vec![r.pick(&files), r.pick(&files)],
        _ => files,
    };
    let outer = d.rows.iter().map(|row| row[0]);
    let groups: Vec<u16> = outer.filter(|&b| d.boxes[b as usize] == 0).collect();
    for _ in 0..count {
        let tails = if groups.is_empty() || r.percent(50) {
            &users
        } else {
            &groups
        };
        let sign = r.percent(positive) as u16;
        d.arrows
            .push([r.pick(tails), r.pick(&heads), r.pick(&modes), sign]);
    }
}

/// A plain random picture without loops.
fn plain(r: &mut Random, size: Size) -> Draft {
    let mut d = Draft::default();
    let (users, files, rows, arrows) = match size {
        Size::Tiny => (
            r.pick(&[0, 1, 2, 2, 3, 3, 4, 4, 5]),
            r.pick(&[0, 1, 1, 2, 2, 3, 3, 4]),
            r.below(9),
            r.below(7),
        ),
        Size::Middle => (
            r.from_to(3, 16),
            r.from_to(3, 14),
            r.below(60),
            r.from_to(2, 40),
        ),
        Size::Full => {
            let users = r.from_to(100, 170);
            (
                users,
                256 - users,
                r.pick(&[0, 200, 600, 1023]),
                r.pick(&[128, 400, 511]),
            )
        }
    };
    for _ in 0..users {
        d.add_box(0);
    }
    for _ in 0..files {
        d.add_box(1);
    }
    let parents = r.pick(&[1, 1, 2, 9]);
    let flat = r.percent(20);
    nest(r, &mut d, rows, parents, flat);
    let positive = r.pick(&[0, 20, 50, 50, 80, 100]);
    aim(r, &mut d, arrows, positive);
    d
}

/// Settles every unclear pair by arrows between the two single boxes, so that pictures with many
/// crossing groups become clear. Pairs with both such arrows already stay unclear.
fn settle(r: &mut Random, d: &mut Draft) {
    let known = Known::new(&d.tables());
    let Ok(p) = known.sound() else { return };
    for (mode, answers) in p.answers.iter().enumerate() {
        for (place, answer) in answers.iter().enumerate() {
            if matches!(answer, Answer::Unclear(..)) && d.arrows.len() < 512 {
                let (user, file) = p.pair(place);
                let sign = r.below(2) as u16;
                d.arrows.push([user as u16, file as u16, mode as u16, sign]);
            }
        }
    }
}

/// Adds rows against the order, or from a box to itself.
fn tie_loops(r: &mut Random, d: &mut Draft) {
    for _ in 0..r.from_to(1, 3) {
        let side = r.below(2) as u8;
        let boxes = d.of_side(side);
        if boxes.is_empty() {
            continue;
        }
        if r.percent(30) || d.rows.is_empty() {
            let b = r.pick(&boxes);
            d.rows.push([b, b]);
        } else if r.percent(50) {
            let [outer, inner] = r.pick(&d.rows);
            d.rows.push([inner, outer]);
        } else {
            d.rows.push([r.pick(&boxes), r.pick(&boxes)]);
        }
    }
}

/// The ring of case J for k users and k files, in one mode: arrow 2i goes before arrow 2i + 1,
/// which has the other sign and goes before arrow 2i + 2, all around. No arrow can be the first,
/// so no honest list reaches anything. `first` is the sign of arrow 0. If `turned`, files take
/// the place of users and users that of files.
fn ring(d: &mut Draft, k: usize, mode: u16, first: u16, turned: bool) {
    let side = turned as u8;
    let mut some = |side: u8| -> Vec<u16> { (0..k).map(|_| d.add_box(side)).collect() };
    let (users, wide, close) = (some(side), some(side), some(side));
    let (files, inner, outer) = (some(1 - side), some(1 - side), some(1 - side));
    for i in 0..k {
        let next = (i + 1) % k;
        d.rows.push([wide[i], users[i]]);
        d.rows.push([close[i], users[i]]);
        d.rows.push([wide[next], close[i]]);
        d.rows.push([inner[i], files[i]]);
        d.rows.push([outer[i], inner[i]]);
        d.rows.push([outer[i], files[next]]);
        for (mut ends, sign) in [
            ([wide[i], inner[i]], first),
            ([close[i], outer[i]], 1 - first),
        ] {
            if turned {
                ends.reverse();
            }
            d.arrows.push([ends[0], ends[1], mode, sign]);
        }
    }
}

/// Puts all boxes into one group and one folder and draws an arrow between these two.
fn umbrella(r: &mut Random, d: &mut Draft, mode: u16) {
    let mut ends = [0, 0];
    for side in [0, 1] {
        let members = d.of_side(side);
        let around = d.add_box(side);
        for b in members {
            // A box inside another is in already.
            if !d.rows.iter().any(|row| row[1] == b) {
                d.rows.push([around, b]);
            }
        }
        ends[side as usize] = around;
    }
    d.arrows.push([ends[0], ends[1], mode, r.below(2) as u16]);
}

/// Pairs of single boxes that are granted in the mode.
fn granted_pairs(d: &Draft, mode: u16) -> Vec<(u16, u16)> {
    let known = Known::new(&d.tables());
    let Ok(p) = known.sound() else {
        return Vec::new();
    };
    if p.on_loop.is_some() {
        return Vec::new();
    }
    (0..p.pairs())
        .filter(|&place| matches!(p.answers[mode as usize][place], Answer::Granted(_)))
        .map(|place| p.pair(place))
        .map(|(user, file)| (user as u16, file as u16))
        .collect()
}

/// Rings whole, cut, with some granted pairs reached by single arrows, and beside other boxes.
fn rings(r: &mut Random, size: Size) -> Draft {
    let mut d = match (size, r.below(3)) {
        (Size::Full, _) | (_, 0) => Draft::default(),
        (Size::Tiny, _) => plain(r, Size::Tiny),
        (_, _) => plain(r, Size::Middle),
    };
    let mode = r.pick(&[0, 0, 1, 6, 7]);
    let k = match size {
        Size::Tiny => r.from_to(2, 3),
        Size::Middle => r.from_to(2, 6),
        Size::Full => r.from_to(20, 42),
    };
    if r.percent(70) {
        // Other arrows of the ring's mode would often make its pairs unclear; move them.
        for arrow in &mut d.arrows {
            if arrow[2] == mode {
                arrow[2] = (mode + 1) % 8;
            }
        }
    }
    ring(&mut d, k, mode, r.pick(&[0, 1, 1]), r.percent(30));
    if r.percent(25) && !matches!(size, Size::Full) {
        ring(&mut d, r.from_to(2, 3), mode, 1, r.percent(30));
    }
    if r.percent(20) && d.boxes.len() <= 254 {
        umbrella(r, &mut d, mode);
    }
    match r.below(7) {
        // Cut it.
        0 => {
            for _ in 0..r.from_to(1, 2) {
                let row = r.below(d.rows.len());
                d.rows.swap_remove(row);
            }
        }
        1 => {
            let arrow = r.below(d.arrows.len());
            d.arrows.swap_remove(arrow);
        }
        // Turn one arrow round, so that it is no longer needed in its place.
        2 => {
            let arrow = r.below(d.arrows.len());
            d.arrows[arrow][3] ^= 1;
        }
        // Reach some or all of the granted pairs by single arrows.
        3 => {
            let all = r.percent(50);
            for (user, file) in granted_pairs(&d, mode) {
                if (all || r.percent(60)) && d.arrows.len() < 512 {
                    d.arrows.push([user, file, mode, 1]);
                }
            }
        }
        // Join it with what stands beside it.
        4 => {
            let sign = r.below(2) as u16;
            let (users, files) = (d.of_side(0), d.of_side(1));
            d.arrows.push([r.pick(&users), r.pick(&files), mode, sign]);
        }
        // Grant a pair beside it.
        5 if d.boxes.len() <= 254 => {
            let (user, file) = (d.add_box(0), d.add_box(1));
            d.arrows.push([user, file, mode, 1]);
        }
        _ => {}
    }
    // The same arrows in a second mode, where one of them may be missing.
    if r.percent(20) && d.arrows.len() <= 250 {
        let leave = r.below(2 * d.arrows.len());
        let copies: Vec<[u16; 4]> = d
            .arrows
            .iter()
            .enumerate()
            .filter(|(k, arrow)| arrow[2] == mode && *k != leave)
            .map(|(_, &[tail, head, _, sign])| [tail, head, (mode + 3) % 8, sign])
            .collect();
        d.arrows.extend(copies);
    }
    if r.percent(30) {
        settle(r, &mut d);
    }
    if r.percent(80) {
        d.mix(r);
    }
    d
}

/// Groups nested in a chain, or a chain of folders, with arrows of changing sign from each: the
/// deepest must stand first, so the order of the list is forced.
fn staircase(r: &mut Random, size: Size) -> Draft {
    let mut d = Draft::default();
    let steps = match size {
        Size::Tiny => r.from_to(2, 4),
        Size::Middle => r.from_to(4, 14),
        Size::Full => r.from_to(80, 120),
    };
    let side = r.below(2) as u8;
    let other = d.add_box(1 - side);
    let mut outer = None;
    let mode = r.below(8) as u16;
    for step in 0..steps {
        let group = d.add_box(side);
        let atom = d.add_box(side);
        d.rows.push([group, atom]);
        if let Some(outer) = outer {
            d.rows.push([outer, group]);
        }
        outer = Some(group);
        let (tail, head) = if side == 0 {
            (group, other)
        } else {
            (other, group)
        };
        let sign = if r.percent(90) {
            step as u16 % 2
        } else {
            r.below(2) as u16
        };
        d.arrows.push([tail, head, mode, sign]);
    }
    match r.below(3) {
        0 => {}
        1 => d.arrows.reverse(),
        _ => d.mix(r),
    }
    d
}

/// Many arrows that all reach the same pairs. Each positive arrow but the last fails only at the
/// last negative one: the slow way through the answers.
fn crowd(r: &mut Random, size: Size) -> Draft {
    let mut d = Draft::default();
    let (arrows, users, files) = match size {
        Size::Tiny => (r.from_to(3, 6), 1, r.from_to(1, 2)),
        Size::Middle => (r.from_to(10, 40), r.from_to(1, 4), r.from_to(1, 4)),
        Size::Full => (511, r.from_to(10, 30), r.from_to(10, 30)),
    };
    let [small, group, crossing] = [0, 0, 0].map(|side| d.add_box(side));
    let [near, folder] = [1, 1].map(|side| d.add_box(side));
    d.rows.push([group, small]);
    d.rows.push([folder, near]);
    for _ in 0..users {
        let user = d.add_box(0);
        d.rows.push([small, user]);
        d.rows.push([crossing, user]);
    }
    for _ in 0..files {
        let file = d.add_box(1);
        d.rows.push([near, file]);
    }
    for k in 1..arrows {
        d.arrows.push(match k % 2 {
            0 => [group, near, 0, 1],
            _ => [group, folder, 0, 0],
        });
    }
    // Crosses the group, so that only a deeper head helps against it.
    d.arrows.push([crossing, near, 0, 0]);
    if r.percent(60) {
        let user = *d.of_side(0).last().unwrap();
        let file = *d.of_side(1).last().unwrap();
        d.arrows.push([user, file, 0, 1]);
    }
    if r.percent(30) {
        d.mix(r);
    }
    d
}

fn repeat_rows(r: &mut Random, d: &mut Draft) {
    for _ in 0..r.from_to(1, 4) {
        if !d.rows.is_empty() && d.rows.len() < 1024 {
            let row = r.pick(&d.rows);
            let at = r.below(d.rows.len() + 1);
            d.rows.insert(at, row);
        }
        if !d.arrows.is_empty() && d.arrows.len() < 512 {
            let arrow = r.pick(&d.arrows);
            let at = r.below(d.arrows.len() + 1);
            d.arrows.insert(at, arrow);
        }
    }
}

/// Takes all members of some boxes away. With this chance in a hundred such a box is a user group
/// or folder by its byte; otherwise, if it wasn't one before, it turns into a user or a file.
fn empty_groups(r: &mut Random, d: &mut Draft, said: usize) {
    for _ in 0..r.from_to(1, 3) {
        if let Some(&[outer, _]) = d.rows.get(r.below(d.rows.len().max(1))) {
            d.rows.retain(|row| row[0] != outer);
            if r.percent(said) {
                d.make_group(outer);
            }
        }
    }
}

/// Draws user groups and folders into a picture of bytes 0 and 1: boxes that hold something are
/// said to be groups, groups lose their members, single boxes become empty groups.
fn draw_groups(r: &mut Random, d: &mut Draft) {
    let (members, single) = (r.pick(&[0, 50, 100, 100]), r.pick(&[0, 0, 0, 10, 30, 60]));
    for b in 0..d.boxes.len() as u16 {
        let chance = if d.holds_something(b) {
            members
        } else {
            single
        };
        if r.percent(chance) {
            d.make_group(b);
        }
    }
    if r.percent(35) {
        empty_groups(r, d, 85);
    }
    if r.percent(30) {
        hollow(r, d);
    }
    if r.percent(5) {
        // A side, or all, without anything atomic.
        let sides = r.pick(&[&[0][..], &[1], &[0, 1]]);
        for b in 0..d.boxes.len() as u16 {
            if sides.contains(&(d.boxes[b as usize] % 2)) {
                d.make_group(b);
            }
        }
    }
    if r.percent(30) {
        d.mix(r);
    }
}

/// Adds groups, or folders, that hold only each other, so that all are empty: in a box of byte 0 or
/// 1 or not, inside one that stood there before or not, and with arrows at them or not.
fn hollow(r: &mut Random, d: &mut Draft) {
    if d.boxes.len() > 250 || d.rows.len() > 1000 || d.arrows.len() > 500 {
        return;
    }
    let side = r.below(2) as u8;
    let (before, far) = (d.of_side(side), d.of_side(1 - side));
    let mut nest = vec![d.add_box(side + r.pick(&[0, 2, 2]))];
    for _ in 0..r.from_to(1, 4) {
        let inner = d.add_box(side + 2);
        d.rows.push([r.pick(&nest), inner]);
        nest.push(inner);
    }
    if !before.is_empty() && r.percent(40) {
        d.rows.push([r.pick(&before), nest[0]]);
    }
    if far.is_empty() {
        return;
    }
    let mode = d.arrows.first().map_or(0, |arrow| arrow[2]);
    for _ in 0..r.below(4) {
        let mut ends = [r.pick(&nest), r.pick(&far)];
        if side == 1 {
            ends.reverse();
        }
        let at = r.below(d.arrows.len() + 1);
        let arrow = [ends[0], ends[1], mode, r.below(2) as u16];
        d.arrows.insert(at, arrow);
    }
}

/// Fills the tables up to their limits: more single boxes, some of them empty groups if there are
/// groups, and the first containment and arrow over and over before the others, so that the last
/// rows of full tables count.
fn fill_up(r: &mut Random, d: &mut Draft) {
    let bytes = if d.boxes.iter().any(|&byte| byte > 1) {
        &[0, 0, 1, 1, 2, 3][..]
    } else {
        &[0, 1]
    };
    while d.boxes.len() < 256 {
        d.add_box(r.pick(bytes));
    }
    if let Some(&first) = d.rows.first() {
        let more = vec![first; 1024 - d.rows.len()];
        d.rows.splice(0..0, more);
    }
    if let Some(&first) = d.arrows.first() {
        let more = vec![first; 512 - d.arrows.len()];
        d.arrows.splice(0..0, more);
    }
}

/// A number that names no box: just beyond, or far beyond.
fn no_box(r: &mut Random, n: usize) -> u16 {
    match r.below(3) {
        0 => n as u16,
        1 => 65_535,
        _ => r.from_to(n.min(65_535), 65_535) as u16,
    }
}

/// A row from a box of one side to a box of the other, if there is one. Each may be of either byte
/// of its side.
fn cross_sides(r: &mut Random, t: &mut Tables, row: usize) {
    let n = t.boxes.len();
    let outer = r.below(n);
    let across: Vec<usize> = (0..n)
        .filter(|&b| t.boxes[b] % 2 != t.boxes[outer] % 2)
        .collect();
    let inner = *across.get(r.below(across.len())).unwrap_or(&outer);
    t.rows[2 * row] = outer as u16;
    t.rows[2 * row + 1] = inner as u16;
    for b in [outer, inner] {
        t.boxes[b] ^= r.pick(&[0, 2]);
    }
}

/// Puts a box of the wrong side at one end of an arrow, if there is one, of either byte of its side.
fn wrong_end(r: &mut Random, t: &mut Tables, arrow: usize) {
    let end = r.below(2);
    // Tails are of even bytes, heads of odd ones.
    let wrong: Vec<usize> = (0..t.boxes.len())
        .filter(|&b| t.boxes[b] as usize % 2 != end)
        .collect();
    if let Some(&b) = wrong.get(r.below(wrong.len())) {
        t.arrows[4 * arrow + end] = b as u16;
        t.boxes[b] ^= r.pick(&[0, 2]);
    }
}

/// One fault that checks 1 to 7 must find. Several may meet in one picture.
fn spoil(r: &mut Random, t: &mut Tables) {
    let n = t.boxes.len();
    let (rows, arrows) = (t.rows.len() / 2, t.arrows.len() / 4);
    match r.below(11) {
        0 if r.percent(50) => t.rows.push(r.below(n + 1) as u16),
        0 => {
            for _ in 0..r.from_to(1, 3) {
                t.arrows.push(0);
            }
        }
        1 => match r.below(3) {
            0 => t.boxes.resize(r.pick(&[257, 258, 300]), r.below(4) as u8),
            1 => t.rows.resize(2 * r.pick(&[1025, 1030]), 0),
            _ => t.arrows.resize(4 * r.pick(&[513, 514, 600]), 0),
        },
        2 | 3 if n > 0 => {
            let b = r.below(n);
            t.boxes[b] = r.pick(&[4, 4, 5, 6, 7, 255]);
        }
        4 | 5 if rows > 0 => {
            let at = r.below(2 * rows);
            t.rows[at] = no_box(r, n);
        }
        6 if rows > 0 && n > 0 => {
            let row = r.below(rows);
            cross_sides(r, t, row);
        }
        7 | 10 if arrows > 0 => {
            let arrow = r.below(arrows);
            match r.below(5) {
                0 => t.arrows.swap(4 * arrow, 4 * arrow + 1),
                1..=3 => wrong_end(r, t, arrow),
                _ => t.arrows[4 * arrow + r.below(2)] = no_box(r, n),
            }
        }
        8 if arrows > 0 => t.arrows[4 * r.below(arrows) + 2] = r.pick(&[8, 9, 255, 65_535]),
        9 if arrows > 0 => t.arrows[4 * r.below(arrows) + 3] = r.pick(&[2, 3, 255, 65_535]),
        // Nothing there to spoil in that way.
        _ => t.rows.extend([no_box(r, n), 0]),
    }
}

/// The picture of a seed, and what kind it is.
pub fn picture(r: &mut Random) -> (Tables, &'static str) {
    let size = match r.below(1000) {
        0 => Size::Full,
        1..=249 => Size::Middle,
        _ => Size::Tiny,
    };
    let (mut d, what) = match r.below(20) {
        0 | 1 => (rings(r, size), "ring"),
        2 => (staircase(r, size), "staircase"),
        3 => (crowd(r, size), "crowd"),
        4..=9 => {
            let mut d = plain(r, size);
            settle(r, &mut d);
            if r.percent(50) {
                d.mix(r);
            }
            (d, "settled")
        }
        10 | 11 => {
            let mut d = plain(r, size);
            tie_loops(r, &mut d);
            (d, "looped")
        }
        _ => (plain(r, size), "plain"),
    };
    if r.percent(20) {
        repeat_rows(r, &mut d);
    }
    if r.percent(10) {
        empty_groups(r, &mut d, 0);
    }
    if r.percent(50) {
        draw_groups(r, &mut d);
    }
    if matches!(size, Size::Full) && r.percent(50) {
        fill_up(r, &mut d);
    }
    let mut tables = d.tables();
    if r.percent(15) {
        for _ in 0..r.pick(&[1, 1, 2, 3]) {
            spoil(r, &mut tables);
        }
        return (tables, "spoiled");
    }
    (tables, what)
}

/// A count of rows for tables whose full blocks hold `full`: mostly about whole blocks, or about the
/// most there may be.
fn about_blocks(r: &mut Random, full: usize, most: usize) -> usize {
    let blocks = r.from_to(1, most / full + 1);
    let count = match r.below(10) {
        0 => 0,
        1 => 1,
        2 => r.below(most + 1),
        3 => most - r.below(2),
        4..=6 => full * blocks,
        7 => full * blocks - 1,
        _ => full * blocks + 1,
    };
    count.min(most)
}

/// Tables to pack, of any length up to the limits: rows within a side and arrows between the sides
/// as they come, loops and repeats among them. Some are spoiled.
pub fn wide(r: &mut Random) -> Tables {
    let n = match r.below(10) {
        0 => 0,
        1 => 1,
        2 | 3 => r.pick(&[255, 256]),
        4 => r.from_to(2, 256),
        _ => r.from_to(2, 12),
    };
    let mut d = Draft {
        boxes: (0..n).map(|_| r.below(4) as u8).collect(),
        ..Draft::default()
    };
    let sides = [d.of_side(0), d.of_side(1)];
    let (rows, arrows) = (about_blocks(r, 125, 1024), about_blocks(r, 83, 512));
    for _ in (0..rows).take_while(|_| n > 0) {
        let outer = r.below(n);
        let side = &sides[d.boxes[outer] as usize % 2];
        d.rows.push([outer as u16, r.pick(side)]);
    }
    let both = sides.iter().all(|side| !side.is_empty());
    for _ in (0..arrows).take_while(|_| both) {
        let ends = [r.pick(&sides[0]), r.pick(&sides[1])];
        let (mode, sign) = (r.below(8) as u16, r.below(2) as u16);
        d.arrows.push([ends[0], ends[1], mode, sign]);
    }
    let mut tables = d.tables();
    if r.percent(15) {
        spoil(r, &mut tables);
    }
    tables
}

// ---------------------------------------------------------------------------------------------
// Files

/// One block with the records given as bytes, sealed.
fn block(kind: u8, number: usize, records: &[Vec<u8>]) -> Vec<u8> {
    let mut bytes = vec![kind, 0, number as u8, (number >> 8) as u8];
    bytes.extend([records.len() as u8, (records.len() >> 8) as u8, 0, 0]);
    bytes.extend(records.concat());
    bytes.resize(BLOCK, 0);
    seal(&mut bytes);
    bytes
}

/// Writes the right check into a block.
pub fn seal(block: &mut [u8]) {
    let check = fnv(&block[..508]);
    block[508..512].copy_from_slice(&check.to_le_bytes());
}

/// Packs tables into blocks. With `loose`, blocks are cut at random places and some are empty.
/// Half a row at the end of a ragged table is left out; modes and signs are cut to a byte.
pub fn pack(r: &mut Random, t: &Tables, loose: bool) -> Vec<u8> {
    let kinds: [Vec<Vec<u8>>; 3] = [
        t.boxes.iter().map(|&b| vec![b]).collect(),
        t.rows
            .chunks_exact(2)
            .map(|row| row.iter().flat_map(|b| b.to_le_bytes()).collect())
            .collect(),
        t.arrows
            .chunks_exact(4)
            .map(|row| {
                let mut bytes = Vec::new();
                bytes.extend(row[0].to_le_bytes());
                bytes.extend(row[1].to_le_bytes());
                bytes.extend([row[2] as u8, row[3] as u8]);
                bytes
            })
            .collect(),
    ];
    let mut file = Vec::new();
    for (kind, records) in (1u8..).zip(&kinds) {
        let mut left = &records[..];
        while !left.is_empty() || (loose && r.percent(15)) {
            let most = left.len().min(record(kind).1);
            let taken = if loose { r.below(most + 1) } else { most };
            let number = file.len() / BLOCK;
            file.extend(block(kind, number, &left[..taken]));
            left = &left[taken..];
        }
    }
    if file.is_empty() {
        file = block(r.pick(&[1, 2, 3]), 0, &[]);
    }
    file
}

/// Damages a file in one of many ways; some leave it good.
fn damage(r: &mut Random, file: &mut Vec<u8>) {
    let blocks = file.len() / BLOCK;
    if blocks == 0 {
        return;
    }
    let at = BLOCK * r.below(blocks);
    let other = BLOCK * r.below(blocks);
    let mut sealed = true;
    match r.below(16) {
        // Any byte, mostly without a new check.
        0..=2 => {
            file[at + r.below(BLOCK)] ^= 1 << r.below(8);
            sealed = r.percent(30);
        }
        // The stored check itself.
        3 => {
            file[at + 508 + r.below(4)] ^= 1 << r.below(8);
            sealed = false;
        }
        // The head, one byte of it.
        4 => file[at] = r.pick(&[0, 1, 2, 3, 4, 255]),
        5 => file[at + r.pick(&[1, 6, 7])] = r.pick(&[1, 255]),
        6 => file[at + r.pick(&[2, 3])] ^= 1 << r.below(8),
        7 => {
            let kind = file[at].clamp(1, 3);
            let count = record(kind).1 + r.below(2);
            file[at + 4..at + 6].copy_from_slice(&(count as u16).to_le_bytes());
        }
        8 => file[at + r.pick(&[4, 5])] = r.pick(&[0, 1, 2, 255]),
        // The filler, its last bytes in particular.
        9 => file[at + r.pick(&[505, 506, 507])] = 1,
        10 => file[at + r.from_to(8, 507)] = 1,
        // The length.
        11 => {
            let length = r.pick(&[0, 1, file.len() - 1, BLOCK - 1, file.len() + 1]);
            file.resize(length, 0);
            return;
        }
        // Two blocks change places, or a block comes twice.
        12 => {
            let (first, second) = (file[at..at + BLOCK].to_vec(), other);
            file.copy_within(second..second + BLOCK, at);
            if r.percent(50) {
                file[second..second + BLOCK].copy_from_slice(&first);
            }
            if r.percent(50) {
                for number in 0..blocks {
                    let block = &mut file[BLOCK * number..BLOCK * (number + 1)];
                    block[2..4].copy_from_slice(&(number as u16).to_le_bytes());
                    seal(block);
                }
            }
            return;
        }
        // Many blocks, up to the longest file and beyond; some hold too many rows.
        13 | 14 => {
            let wanted = r.pick(&[3, 8, 10, 64, 64, 65]);
            let kind = r
                .pick(&[1, 2, 3])
                .max(file[BLOCK * (blocks - 1)].clamp(1, 3));
            for number in blocks..wanted {
                let full = vec![vec![0; record(kind).0]; record(kind).1];
                let records = if r.percent(15) { &full[..] } else { &[] };
                file.extend(block(kind, number, records));
            }
            return;
        }
        _ => {
            file.resize(LONGEST_FILE + r.pick(&[0, 1, 512]), 0);
            return;
        }
    }
    if sealed {
        seal(&mut file[at..at + BLOCK]);
    }
}

/// A file made from a picture's tables, regular or loose, whole or damaged. In some the boxes hold
/// any byte: reading doesn't check what the rows say.
pub fn file(r: &mut Random, t: &Tables) -> Vec<u8> {
    let mut t = t.clone();
    if r.percent(15) {
        for byte in &mut t.boxes {
            *byte = if r.percent(30) { r.next() as u8 } else { *byte };
        }
    }
    let loose = r.percent(40);
    let mut file = pack(r, &t, loose);
    if r.percent(55) {
        for _ in 0..r.pick(&[1, 1, 1, 2, 3]) {
            damage(r, &mut file);
        }
    }
    file
}

// ---------------------------------------------------------------------------------------------
// What is asked and lent

/// A mode to ask for, mostly one that the picture's arrows have.
pub fn asked_mode(r: &mut Random, t: &Tables) -> u16 {
    match r.below(12) {
        0 => r.pick(&[8, 9, 255, 65_535]),
        1 => r.below(8) as u16,
        _ if t.arrows.len() >= 4 => t.arrows[4 * r.below(t.arrows.len() / 4) + 2],
        _ => 0,
    }
}

/// A box number to ask for, in the picture or not.
pub fn asked_box(r: &mut Random, n: usize) -> u16 {
    match r.below(20) {
        0 => n as u16,
        1 => r.pick(&[256, 65_535]),
        _ => r.below(n) as u16,
    }
}

/// A user and a file to ask for, one of them atomic, the other any box of its side: groups and
/// folders are refused by 11. None if there is nothing atomic to ask for.
pub fn asked_beside(
    r: &mut Random,
    t: &Tables,
    users: &[usize],
    files: &[usize],
) -> Option<(u16, u16)> {
    let side = r.below(2);
    let any: Vec<usize> = (0..t.boxes.len())
        .filter(|&b| t.boxes[b] as usize % 2 == side)
        .collect();
    let (users, files) = if side == 0 {
        (&any[..], files)
    } else {
        (users, &any[..])
    };
    if users.is_empty() || files.is_empty() {
        return None;
    }
    Some((r.pick(users) as u16, r.pick(files) as u16))
}

/// How long buffers of these needed lengths are lent: mostly exact or longer, else some too short.
pub fn lengths(r: &mut Random, needed: &[usize]) -> Vec<usize> {
    let suffices = r.percent(75);
    needed
        .iter()
        .map(|&needed| match r.below(10) {
            0..=4 => needed,
            5 | 6 => needed + r.from_to(1, 9),
            _ if suffices => needed,
            7 | 8 => needed.saturating_sub(1),
            _ => r.below(needed + 1),
        })
        .collect()
}

/// How many bytes are lent for a packed file of this length: mostly as many or more, else too few.
pub fn packed_length(r: &mut Random, needed: usize) -> usize {
    match r.below(16) {
        0..=4 => needed,
        5 | 6 => needed + r.from_to(1, 9),
        7 => needed + BLOCK,
        8 => needed + r.below(3 * BLOCK),
        9 => needed.max(8_704),
        10 | 11 => needed - 1,
        12 => needed - BLOCK,
        13 => needed - r.below(BLOCK),
        14 => r.below(needed),
        _ => 0,
    }
}
