//! The independent model: document 01 with requests P1 (packing), P2 (what is drawn directly), P3
//! (the order of lists) and P6 (groups that have emptied) of document 02 in plain Rust, written from
//! their text alone.
//!
//! Each call is a pure function from what was lent (the tables and the contents of every buffer
//! before the call) to the answer and the contents of every buffer after it.

pub const MOST_BOXES: usize = 256;
pub const MOST_CONTAINMENTS: usize = 1024;
pub const MOST_ARROWS: usize = 512;
pub const MODES: u16 = 8;
/// Stands in the matrix for "no arrow" and in the list after "no order".
pub const NO_ARROW: u16 = 65_535;
pub const BLOCK: usize = 512;
pub const LONGEST_FILE: usize = 32_768;
/// The program reads no more of its input than this.
pub const MOST_INPUT: usize = 32_769;

/// The three lent tables as plain numbers, good or bad.
#[derive(Clone, Debug, Default, PartialEq, Eq)]
pub struct Tables {
    pub boxes: Vec<u8>,
    pub rows: Vec<u16>,
    pub arrows: Vec<u16>,
}

/// A refusal: its number and its three numbers, 0 where nothing is named.
#[derive(Clone, Copy, Debug, PartialEq, Eq)]
pub struct Refusal {
    pub number: u32,
    pub places: [u64; 3],
}

pub fn refuse<T>(number: u32, a: usize, b: usize, c: usize) -> Result<T, Refusal> {
    Err(Refusal {
        number,
        places: [a as u64, b as u64, c as u64],
    })
}

#[derive(Clone, Copy, Debug, PartialEq, Eq)]
pub enum Answer {
    Granted(usize),
    Denied(usize),
    Default,
    /// The lowest positive and the lowest negative arrow that reach the pair.
    Unclear(usize, usize),
}

#[derive(Clone, Copy, Debug, PartialEq, Eq)]
pub struct Arrow {
    pub tail: usize,
    pub head: usize,
    pub mode: u16,
    pub positive: bool,
}

// ---------------------------------------------------------------------------------------------
// What boxes are

/// The two sides of a picture.
#[derive(Clone, Copy, Debug, PartialEq, Eq)]
enum Side {
    User,
    File,
}

/// The side that a box's byte puts it on. Document 01: "0 user side, 1 file side"; document 02: "2
/// counts as user and 3 as file". A byte above 3 has no side, and is refused.
fn side(byte: u8) -> Option<Side> {
    match byte {
        0 | 2 => Some(Side::User),
        1 | 3 => Some(Side::File),
        _ => None,
    }
}

/// Whether a box is a user group or a folder by its byte.
fn is_group(byte: u8) -> bool {
    byte == 2 || byte == 3
}

impl Tables {
    /// The side of the box with this number; none if there is no such box.
    fn side_of(&self, number: u16) -> Option<Side> {
        side(*self.boxes.get(number as usize)?)
    }

    /// Document 01: "A box that is the outer one of no row is atomic". Document 02 of user groups and
    /// folders: "such a box is never atomic, contained rows or not". What the boxes inside are
    /// doesn't matter: a box of byte 0 that holds only empty groups is not atomic.
    fn is_atomic(&self, number: u16) -> bool {
        !is_group(self.boxes[number as usize]) && self.rows.chunks(2).all(|row| row[0] != number)
    }

    /// The atomic boxes of a side, by rising number.
    fn atomic_boxes(&self, side: Side) -> Vec<u16> {
        (0..self.boxes.len() as u16)
            .filter(|&number| self.side_of(number) == Some(side) && self.is_atomic(number))
            .collect()
    }
}

// ---------------------------------------------------------------------------------------------
// Checks 1 to 7

fn ragged(t: &Tables) -> Result<(), Refusal> {
    if t.rows.len() % 2 != 0 {
        return refuse(1, 1, t.rows.len(), 0);
    }
    if t.arrows.len() % 4 != 0 {
        return refuse(1, 2, t.arrows.len(), 0);
    }
    Ok(())
}

fn too_many(counts: [usize; 3]) -> Result<(), Refusal> {
    let limits = [MOST_BOXES, MOST_CONTAINMENTS, MOST_ARROWS];
    for table in 0..3 {
        if counts[table] > limits[table] {
            return refuse(2, table, counts[table], 0);
        }
    }
    Ok(())
}

/// Refuses with the number and the first row for which the fault holds.
fn first_bad<R>(
    number: u32,
    rows: impl Iterator<Item = R>,
    bad: impl Fn(R) -> bool,
) -> Result<(), Refusal> {
    for (place, row) in rows.enumerate() {
        if bad(row) {
            return refuse(number, place, 0, 0);
        }
    }
    Ok(())
}

/// Checks 1 to 7, each over its whole table before the next.
pub fn table_checks(t: &Tables) -> Result<(), Refusal> {
    let n = t.boxes.len();
    ragged(t)?;
    too_many([n, t.rows.len() / 2, t.arrows.len() / 4])?;
    first_bad(3, t.boxes.iter(), |&byte| byte > 3)?;
    first_bad(4, t.rows.chunks(2), |row| {
        row[0] as usize >= n || row[1] as usize >= n
    })?;
    first_bad(5, t.rows.chunks(2), |row| {
        t.side_of(row[0]) != t.side_of(row[1])
    })?;
    first_bad(6, t.arrows.chunks(4), |row| {
        t.side_of(row[0]) != Some(Side::User) || t.side_of(row[1]) != Some(Side::File)
    })?;
    first_bad(7, t.arrows.chunks(4), |row| row[2] > 7 || row[3] > 1)
}

// ---------------------------------------------------------------------------------------------
// The picture and its meaning

/// A picture whose tables passed checks 1 to 7; it may still have a loop.
#[derive(Clone, Debug)]
pub struct Picture {
    pub n: usize,
    pub arrows: Vec<Arrow>,
    /// `inner[a]`: the inner boxes of the rows that have a as outer box, in the table's order.
    pub inner: Vec<Vec<usize>>,
    /// `contains[a][b]`: a chain of one or more rows leads from a to b.
    pub contains: Vec<Vec<bool>>,
    /// Atomic users and atomic files, by rising number.
    pub users: Vec<usize>,
    pub files: Vec<usize>,
    /// The lowest box that contains itself.
    pub on_loop: Option<usize>,
    /// For each mode the answers of all pairs, row by row; empty where there is a loop.
    pub answers: Vec<Vec<Answer>>,
}

/// Whether arrow p overrides arrow n, both given by tail and head and reaching one pair. `nested` says
/// of two boxes whether the first is nested in the second.
///
/// Document 01: "p overrides n unless p's tail contains n's tail, or p's head contains n's head, or
/// the tails are level and the heads are level". Boxes are level "if they are the same box, or if
/// neither contains the other".
pub fn overrides(nested: impl Fn(usize, usize) -> bool, p: [usize; 2], n: [usize; 2]) -> bool {
    let level = |a: usize, b: usize| a == b || (!nested(a, b) && !nested(b, a));
    let ([p_tail, p_head], [n_tail, n_head]) = (p, n);
    let barred = nested(n_tail, p_tail)
        || nested(n_head, p_head)
        || (level(p_tail, n_tail) && level(p_head, n_head));
    !barred
}

/// Every box that a walk along the rows finds from `start`, `start` itself only by a loop.
fn found_from(start: usize, inner: &[Vec<usize>]) -> Vec<bool> {
    let mut found = vec![false; inner.len()];
    let mut waiting = inner[start].clone();
    while let Some(b) = waiting.pop() {
        if !found[b] {
            found[b] = true;
            waiting.extend(&inner[b]);
        }
    }
    found
}

impl Picture {
    fn new(t: &Tables) -> Picture {
        let n = t.boxes.len();
        let mut inner = vec![Vec::new(); n];
        for row in t.rows.chunks(2) {
            inner[row[0] as usize].push(row[1] as usize);
        }
        let atoms = |side: Side| -> Vec<usize> {
            let numbers = t.atomic_boxes(side).into_iter();
            numbers.map(usize::from).collect()
        };
        let contains: Vec<Vec<bool>> = (0..n).map(|a| found_from(a, &inner)).collect();
        let mut picture = Picture {
            n,
            arrows: t
                .arrows
                .chunks(4)
                .map(|row| Arrow {
                    tail: row[0] as usize,
                    head: row[1] as usize,
                    mode: row[2],
                    positive: row[3] == 1,
                })
                .collect(),
            users: atoms(Side::User),
            files: atoms(Side::File),
            on_loop: (0..n).find(|&b| contains[b][b]),
            contains,
            inner,
            answers: Vec::new(),
        };
        if picture.on_loop.is_none() {
            picture.answers = (0..MODES).map(|mode| picture.mode_answers(mode)).collect();
        }
        picture
    }

    pub fn pairs(&self) -> usize {
        self.users.len() * self.files.len()
    }

    /// User and file of the pair at a place, row by row.
    pub fn pair(&self, place: usize) -> (usize, usize) {
        let columns = self.files.len();
        (self.users[place / columns], self.files[place % columns])
    }

    /// The numbers of the mode's arrows, rising.
    pub fn of_mode(&self, mode: u16) -> Vec<usize> {
        (0..self.arrows.len())
            .filter(|&k| self.arrows[k].mode == mode)
            .collect()
    }

    fn is_or_contains(&self, a: usize, b: usize) -> bool {
        a == b || self.contains[a][b]
    }

    pub fn reaches(&self, arrow: usize, user: usize, file: usize) -> bool {
        let arrow = &self.arrows[arrow];
        self.is_or_contains(arrow.tail, user) && self.is_or_contains(arrow.head, file)
    }

    /// Whether a box is nested in another, for two boxes around one atom. What overrides what goes
    /// by this alone.
    fn is_nested(&self, inner: usize, outer: usize) -> bool {
        self.contains[outer][inner]
    }

    fn overrides(&self, p: usize, n: usize) -> bool {
        let ends = |k: usize| [self.arrows[k].tail, self.arrows[k].head];
        overrides(|a, b| self.is_nested(a, b), ends(p), ends(n))
    }

    /// The answer for a pair, given all arrows of one mode.
    fn answer(&self, of_mode: &[usize], user: usize, file: usize) -> Answer {
        let reaching: Vec<usize> = of_mode
            .iter()
            .copied()
            .filter(|&k| self.reaches(k, user, file))
            .collect();
        let (positive, negative): (Vec<usize>, Vec<usize>) =
            reaching.iter().partition(|&&k| self.arrows[k].positive);
        let certificate = |own: &[usize], other: &[usize]| {
            own.iter()
                .copied()
                .find(|&k| other.iter().all(|&m| self.overrides(k, m)))
        };
        match (
            certificate(&positive, &negative),
            certificate(&negative, &positive),
        ) {
            (Some(p), Some(n)) => panic!("arrows {p} and {n} are certificates of both signs"),
            (Some(p), None) => Answer::Granted(p),
            (None, Some(n)) => Answer::Denied(n),
            // Without a certificate there are arrows of both signs, or none at all.
            (None, None) if reaching.is_empty() => Answer::Default,
            (None, None) => Answer::Unclear(positive[0], negative[0]),
        }
    }

    fn mode_answers(&self, mode: u16) -> Vec<Answer> {
        let of_mode = self.of_mode(mode);
        (0..self.pairs())
            .map(|place| {
                let (user, file) = self.pair(place);
                self.answer(&of_mode, user, file)
            })
            .collect()
    }

    /// The first pair of the mode, by user, then file, with such an answer.
    fn first(&self, mode: u16, such: impl Fn(&Answer) -> bool) -> Option<(usize, usize)> {
        let place = self.answers[mode as usize].iter().position(such)?;
        Some(self.pair(place))
    }

    pub fn first_unclear(&self, mode: u16) -> Option<(usize, usize)> {
        self.first(mode, |answer| matches!(answer, Answer::Unclear(..)))
    }

    pub fn first_granted(&self, mode: u16) -> Option<(usize, usize)> {
        self.first(mode, |answer| matches!(answer, Answer::Granted(_)))
    }

    /// Byte a × n + b of the scratch, in document 02's words: "2 where a row has a as outer box and
    /// b as inner, 1 where a contains b only through others, 0 otherwise."
    fn joined(&self, a: usize, b: usize) -> u8 {
        if self.inner[a].contains(&b) {
            2
        } else if self.contains[a][b] {
            1
        } else {
            0
        }
    }

    fn scratch(&self) -> Vec<u8> {
        (0..self.n * self.n)
            .map(|place| self.joined(place / self.n, place % self.n))
            .collect()
    }
}

// ---------------------------------------------------------------------------------------------
// Lists of a mode without an unclear pair

/// What matters for lists of one mode: who is granted, and what each of its arrows reaches.
pub struct Lists<'a> {
    picture: &'a Picture,
    granted: Vec<bool>,
    /// Arrow number, sign and the places of the pairs it reaches.
    arrows: Vec<(usize, bool, Vec<usize>)>,
}

impl<'a> Lists<'a> {
    pub fn new(picture: &'a Picture, mode: u16) -> Lists<'a> {
        let granted = picture.answers[mode as usize]
            .iter()
            .map(|a| matches!(a, Answer::Granted(_)))
            .collect();
        let arrows = picture
            .of_mode(mode)
            .into_iter()
            .map(|k| {
                let reached = (0..picture.pairs())
                    .filter(|&place| {
                        let (user, file) = picture.pair(place);
                        picture.reaches(k, user, file)
                    })
                    .collect();
                (k, picture.arrows[k].positive, reached)
            })
            .collect();
        Lists {
            picture,
            granted,
            arrows,
        }
    }

    /// The pairs that a list reaches, or none if it isn't honest. `list` holds places in `arrows`.
    fn walk(&self, list: &[usize]) -> Option<Vec<bool>> {
        let mut reached = vec![false; self.granted.len()];
        for &k in list {
            let (_, positive, pairs) = &self.arrows[k];
            for &place in pairs {
                // Only the first arrow that reaches a pair counts.
                if !reached[place] && self.granted[place] != *positive {
                    return None;
                }
                reached[place] = true;
            }
        }
        Some(reached)
    }

    fn first_granted_outside(&self, reached: &[bool]) -> Option<(usize, usize)> {
        (0..self.granted.len())
            .find(|&place| self.granted[place] && !reached[place])
            .map(|place| self.picture.pair(place))
    }

    /// The list of the mode, in document 02's words: "At each place stands the lowest-numbered arrow
    /// of the mode that can follow while the list stays honest and that reaches a pair nothing
    /// earlier reached. The list ends when there is none."
    pub fn place_by_place(&self) -> Vec<u16> {
        let mut list = Vec::new();
        let mut reached = vec![false; self.granted.len()];
        while let Some(k) = (0..self.arrows.len()).find(|&k| self.stands_next(k, &reached)) {
            let (number, _, pairs) = &self.arrows[k];
            list.push(*number as u16);
            for &place in pairs {
                reached[place] = true;
            }
        }
        list
    }

    /// Whether an honest list that reaches these pairs stays honest with one more arrow, and
    /// reaches one more pair.
    fn stands_next(&self, k: usize, reached: &[bool]) -> bool {
        let (_, positive, pairs) = &self.arrows[k];
        let mut more = pairs.clone();
        more.retain(|&place| !reached[place]);
        !more.is_empty() && more.iter().all(|&place| self.granted[place] == *positive)
    }

    /// The first granted pair that no honest list reaches.
    ///
    /// By rounds: an arrow is usable if every pair that it would answer wrongly is reached by an
    /// arrow found usable in an earlier round. The usable arrows, in the order of their rounds, are
    /// an honest list; and every arrow of any honest list is usable, thanks to those before it.
    pub fn first_missed(&self) -> Option<(usize, usize)> {
        let mut reached = vec![false; self.granted.len()];
        let mut left: Vec<usize> = (0..self.arrows.len()).collect();
        loop {
            let (usable, blocked): (Vec<usize>, Vec<usize>) = left.iter().partition(|&&k| {
                let (_, positive, pairs) = &self.arrows[k];
                pairs
                    .iter()
                    .all(|&place| self.granted[place] == *positive || reached[place])
            });
            if usable.is_empty() {
                return self.first_granted_outside(&reached);
            }
            for k in usable {
                for &place in &self.arrows[k].2 {
                    reached[place] = true;
                }
            }
            left = blocked;
        }
    }

    /// Few enough arrows to try every list.
    pub fn is_tiny(&self) -> bool {
        self.arrows.len() <= 5
    }

    /// Tries every list without repeats (a repeated arrow is never the first to reach a pair, so
    /// repeats change nothing).
    pub fn by_every_list(&self) -> Tried {
        let mut by_some = vec![false; self.granted.len()];
        let mut one_reaches_all = false;
        let mut first: Vec<usize> = Vec::new();
        let mut lists: Vec<Vec<usize>> = vec![Vec::new()];
        while let Some(list) = lists.pop() {
            for k in (0..self.arrows.len()).filter(|k| !list.contains(k)) {
                lists.push([&list[..], &[k]].concat());
            }
            let Some(reached) = self.walk(&list) else {
                continue;
            };
            one_reaches_all |= self.first_granted_outside(&reached).is_none();
            for (all, one) in by_some.iter_mut().zip(&reached) {
                *all |= one;
            }
            if self.each_reaches_more(&list) && goes_before(&list, &first) {
                first = list;
            }
        }
        Tried {
            one_reaches_all,
            missed: self.first_granted_outside(&by_some),
            list: first.iter().map(|&k| self.arrows[k].0 as u16).collect(),
        }
    }

    /// Whether each arrow of an honest list reaches a pair that nothing earlier in it reaches.
    fn each_reaches_more(&self, list: &[usize]) -> bool {
        (0..list.len()).all(|k| self.walk(&list[..k]) != self.walk(&list[..k + 1]))
    }

    /// The first granted pair that a list leaves. The list must hold arrows of the mode only, none
    /// twice, and be honest.
    pub fn leaves(&self, list: &[u16]) -> Result<Option<(usize, usize)>, String> {
        let mut places = Vec::new();
        for &number in list {
            let Some(place) = self
                .arrows
                .iter()
                .position(|(k, _, _)| *k == number as usize)
            else {
                return Err(format!("{number} is no arrow of the mode"));
            };
            if places.contains(&place) {
                return Err(format!("arrow {number} stands twice in the list"));
            }
            places.push(place);
        }
        match self.walk(&places) {
            Some(reached) => Ok(self.first_granted_outside(&reached)),
            None => Err("the list is not honest".to_string()),
        }
    }
}

/// What trying every list of a mode shows.
#[derive(Debug, PartialEq, Eq)]
pub struct Tried {
    /// Whether one honest list reaches every granted pair.
    pub one_reaches_all: bool,
    /// The first granted pair that no honest list reaches.
    pub missed: Option<(usize, usize)>,
    /// Of the honest lists in which each arrow reaches a pair that nothing earlier reached, the one
    /// that goes before all others.
    pub list: Vec<u16>,
}

/// Whether a list goes before another: at the first place where they differ it has the lower arrow,
/// or the other has ended.
fn goes_before(a: &[usize], b: &[usize]) -> bool {
    let ended = [usize::MAX];
    a.iter().chain(&ended).lt(b.iter().chain(&ended))
}

// ---------------------------------------------------------------------------------------------
// Calls on tables

/// The tables of one picture, worked through once for all calls.
#[derive(Clone, Debug)]
pub enum Known {
    Faulty(Refusal),
    Sound(Picture),
}

impl Known {
    pub fn new(t: &Tables) -> Known {
        match table_checks(t) {
            Err(refusal) => Known::Faulty(refusal),
            Ok(()) => Known::Sound(Picture::new(t)),
        }
    }

    /// Checks 1 to 7.
    pub fn sound(&self) -> Result<&Picture, Refusal> {
        match self {
            Known::Faulty(refusal) => Err(*refusal),
            Known::Sound(picture) => Ok(picture),
        }
    }
}

/// Check 8.
fn known_mode(mode: u16) -> Result<(), Refusal> {
    if mode >= MODES {
        return refuse(8, mode as usize, 0, 0);
    }
    Ok(())
}

/// Check 9 for one buffer.
fn long_enough(buffer: usize, lent: usize, needed: usize) -> Result<(), Refusal> {
    if lent < needed {
        return refuse(9, buffer, needed, 0);
    }
    Ok(())
}

/// Fills the scratch, checks 1 to 9 having passed, then makes check 10.
fn fill_and_check_loops(p: &Picture, scratch: &mut [u8]) -> Result<(), Refusal> {
    scratch[..p.n * p.n].copy_from_slice(&p.scratch());
    match p.on_loop {
        Some(b) => refuse(10, b, 0, 0),
        None => Ok(()),
    }
}

pub struct JudgeEnd {
    pub result: Result<(), Refusal>,
    pub scratch: Vec<u8>,
}

pub fn judge(known: &Known, scratch: &[u8]) -> JudgeEnd {
    let mut after = scratch.to_vec();
    let result = judge_into(known, &mut after);
    JudgeEnd {
        result,
        scratch: after,
    }
}

fn judge_into(known: &Known, scratch: &mut [u8]) -> Result<(), Refusal> {
    let p = known.sound()?;
    long_enough(0, scratch.len(), p.n * p.n)?;
    fill_and_check_loops(p, scratch)?;
    for mode in 0..MODES {
        if let Some((user, file)) = p.first_unclear(mode) {
            return refuse(12, mode as usize, user, file);
        }
    }
    Ok(())
}

pub struct EntryEnd {
    pub result: Result<Answer, Refusal>,
    pub scratch: Vec<u8>,
}

pub fn entry(known: &Known, user: u16, file: u16, mode: u16, scratch: &[u8]) -> EntryEnd {
    let mut after = scratch.to_vec();
    let result = entry_into(known, user, file, mode, &mut after);
    EntryEnd {
        result,
        scratch: after,
    }
}

fn entry_into(
    known: &Known,
    user: u16,
    file: u16,
    mode: u16,
    scratch: &mut [u8],
) -> Result<Answer, Refusal> {
    let p = known.sound()?;
    known_mode(mode)?;
    long_enough(0, scratch.len(), p.n * p.n)?;
    fill_and_check_loops(p, scratch)?;
    let row = p.users.iter().position(|&u| u == user as usize);
    let column = p.files.iter().position(|&f| f == file as usize);
    match (row, column) {
        (Some(row), Some(column)) => Ok(p.answers[mode as usize][row * p.files.len() + column]),
        _ => refuse(11, user as usize, file as usize, 0),
    }
}

pub struct MatrixEnd {
    pub result: Result<(), Refusal>,
    pub scratch: Vec<u8>,
    pub bytes: Vec<u8>,
    pub numbers: Vec<u16>,
}

pub fn matrix(
    known: &Known,
    mode: u16,
    scratch: &[u8],
    bytes: &[u8],
    numbers: &[u16],
) -> MatrixEnd {
    let mut end = MatrixEnd {
        result: Ok(()),
        scratch: scratch.to_vec(),
        bytes: bytes.to_vec(),
        numbers: numbers.to_vec(),
    };
    end.result = matrix_into(known, mode, &mut end);
    end
}

fn matrix_into(known: &Known, mode: u16, end: &mut MatrixEnd) -> Result<(), Refusal> {
    let p = known.sound()?;
    known_mode(mode)?;
    long_enough(0, end.scratch.len(), p.n * p.n)?;
    long_enough(1, end.bytes.len(), p.pairs())?;
    long_enough(2, end.numbers.len(), p.pairs())?;
    fill_and_check_loops(p, &mut end.scratch)?;
    for (place, answer) in p.answers[mode as usize].iter().enumerate() {
        let (byte, number) = match *answer {
            Answer::Granted(k) => (1, k as u16),
            Answer::Denied(k) => (0, k as u16),
            Answer::Default => (0, NO_ARROW),
            Answer::Unclear(..) => (2, NO_ARROW),
        };
        end.bytes[place] = byte;
        end.numbers[place] = number;
    }
    Ok(())
}

pub struct ListEnd {
    /// How many arrows stand in the list.
    pub result: Result<usize, Refusal>,
    pub scratch: Vec<u8>,
    pub list: Vec<u16>,
    pub work: Vec<u8>,
}

pub fn list(known: &Known, mode: u16, scratch: &[u8], list: &[u16], work: &[u8]) -> ListEnd {
    let mut end = ListEnd {
        result: Ok(0),
        scratch: scratch.to_vec(),
        list: list.to_vec(),
        work: work.to_vec(),
    };
    end.result = list_into(known, mode, &mut end);
    end
}

fn list_into(known: &Known, mode: u16, end: &mut ListEnd) -> Result<usize, Refusal> {
    let p = known.sound()?;
    known_mode(mode)?;
    let needed_list = p.of_mode(mode).len();
    long_enough(0, end.scratch.len(), p.n * p.n)?;
    long_enough(3, end.list.len(), needed_list)?;
    long_enough(4, end.work.len(), p.pairs())?;
    fill_and_check_loops(p, &mut end.scratch)?;
    if let Some((user, file)) = p.first_unclear(mode) {
        return refuse(12, mode as usize, user, file);
    }
    end.work[..p.pairs()].fill(0);
    let lists = Lists::new(p, mode);
    if let Some((user, file)) = lists.first_missed() {
        end.list[..needed_list].fill(NO_ARROW);
        return refuse(13, mode as usize, user, file);
    }
    let written = lists.place_by_place();
    end.list[..written.len()].copy_from_slice(&written);
    Ok(written.len())
}

// ---------------------------------------------------------------------------------------------
// Atomic boxes

/// The atomic users and the atomic files of a picture, arrows left aside, by rising number. Checks
/// 1 to 5, as far as they are about boxes and containments.
pub fn atoms_of(t: &Tables) -> Result<[Vec<u16>; 2], Refusal> {
    table_checks(&Tables {
        arrows: Vec::new(),
        ..t.clone()
    })?;
    Ok([Side::User, Side::File].map(|side| t.atomic_boxes(side)))
}

pub struct AtomsEnd {
    pub result: Result<[usize; 2], Refusal>,
    pub users: Vec<u16>,
    pub files: Vec<u16>,
}

pub fn atoms(t: &Tables, users: &[u16], files: &[u16]) -> AtomsEnd {
    let mut end = AtomsEnd {
        result: Ok([0; 2]),
        users: users.to_vec(),
        files: files.to_vec(),
    };
    end.result = atoms_into(t, &mut end);
    end
}

fn atoms_into(t: &Tables, end: &mut AtomsEnd) -> Result<[usize; 2], Refusal> {
    let [users, files] = atoms_of(t)?;
    long_enough(11, end.users.len(), users.len())?;
    long_enough(12, end.files.len(), files.len())?;
    end.users[..users.len()].copy_from_slice(&users);
    end.files[..files.len()].copy_from_slice(&files);
    Ok([users.len(), files.len()])
}

// ---------------------------------------------------------------------------------------------
// Block files

pub fn fnv(bytes: &[u8]) -> u32 {
    let mut check: u64 = 2_166_136_261;
    for &byte in bytes {
        check ^= byte as u64;
        check = (check * 16_777_619) % (1 << 32);
    }
    check as u32
}

/// Bytes of a record and records of a full block, by kind.
pub fn record(kind: u8) -> (usize, usize) {
    match kind {
        1 => (1, 500),
        2 => (4, 125),
        _ => (6, 83),
    }
}

fn word(bytes: &[u8], at: usize) -> u16 {
    bytes[at] as u16 + 256 * bytes[at + 1] as u16
}

/// Checks 15 to 17 for one block; answers its kind and its records.
fn block(bytes: &[u8], number: usize, kind_before: u8) -> Result<(u8, Vec<&[u8]>), Refusal> {
    let stored = word(bytes, 508) as u32 + 65_536 * word(bytes, 510) as u32;
    if stored != fnv(&bytes[..508]) {
        return refuse(15, number, 0, 0);
    }
    let kind = bytes[0];
    let head_wrong = !(1..=3).contains(&kind)
        || kind < kind_before
        || bytes[1] != 0
        || bytes[6] != 0
        || bytes[7] != 0
        || word(bytes, 2) as usize != number
        || word(bytes, 4) as usize > record(kind).1;
    if head_wrong {
        return refuse(16, number, 0, 0);
    }
    let size = record(kind).0;
    let filler = 8 + size * word(bytes, 4) as usize;
    if bytes[filler..508].iter().any(|&byte| byte != 0) {
        return refuse(17, number, 0, 0);
    }
    Ok((kind, bytes[8..filler].chunks(size).collect()))
}

/// The tables in a file, or its refusal by 14 to 17 or 2.
pub fn tables_in(file: &[u8]) -> Result<Tables, Refusal> {
    if file.is_empty() || file.len() % BLOCK != 0 || file.len() > LONGEST_FILE {
        return refuse(14, file.len(), 0, 0);
    }
    let mut t = Tables::default();
    let mut kind_before = 0;
    for (number, bytes) in file.chunks(BLOCK).enumerate() {
        let (kind, records) = block(bytes, number, kind_before)?;
        for r in records {
            match kind {
                1 => t.boxes.push(r[0]),
                2 => t.rows.extend([word(r, 0), word(r, 2)]),
                _ => t
                    .arrows
                    .extend([word(r, 0), word(r, 2), r[4] as u16, r[5] as u16]),
            }
        }
        kind_before = kind;
    }
    too_many([t.boxes.len(), t.rows.len() / 2, t.arrows.len() / 4])?;
    Ok(t)
}

pub struct ReadEnd {
    pub result: Result<[usize; 3], Refusal>,
    pub boxes: Vec<u8>,
    pub rows: Vec<u16>,
    pub arrows: Vec<u16>,
}

pub fn read(file: &[u8], boxes: &[u8], rows: &[u16], arrows: &[u16]) -> ReadEnd {
    let mut end = ReadEnd {
        result: Ok([0; 3]),
        boxes: boxes.to_vec(),
        rows: rows.to_vec(),
        arrows: arrows.to_vec(),
    };
    end.result = read_into(file, &mut end);
    end
}

fn read_into(file: &[u8], end: &mut ReadEnd) -> Result<[usize; 3], Refusal> {
    let t = tables_in(file)?;
    long_enough(5, end.boxes.len(), t.boxes.len())?;
    long_enough(6, end.rows.len(), t.rows.len())?;
    long_enough(7, end.arrows.len(), t.arrows.len())?;
    end.boxes[..t.boxes.len()].copy_from_slice(&t.boxes);
    end.rows[..t.rows.len()].copy_from_slice(&t.rows);
    end.arrows[..t.arrows.len()].copy_from_slice(&t.arrows);
    Ok([t.boxes.len(), t.rows.len() / 2, t.arrows.len() / 4])
}

// ---------------------------------------------------------------------------------------------
// Packing

/// One block of a packed file: its kind, and which rows of that kind's table it holds.
struct Part {
    kind: u8,
    rows: std::ops::Range<usize>,
}

/// The blocks of a picture's packing. Document 02: "blocks of each kind full but the last, no empty
/// block, except that a picture without boxes has one box block of count 0."
fn parts(t: &Tables) -> Vec<Part> {
    let mut parts = Vec::new();
    if t.boxes.is_empty() {
        parts.push(Part {
            kind: 1,
            rows: 0..0,
        });
    }
    let counts = [t.boxes.len(), t.rows.len() / 2, t.arrows.len() / 4];
    for (kind, count) in (1..).zip(counts) {
        let full = record(kind).1;
        parts.extend((0..count).step_by(full).map(|first| Part {
            kind,
            rows: first..count.min(first + full),
        }));
    }
    parts
}

/// The low byte of a number for half 0, the high byte for half 1.
fn half(number: usize, half: usize) -> u8 {
    (number >> (8 * half)) as u8
}

/// One byte of a row's record.
fn record_byte(t: &Tables, kind: u8, row: usize, at: usize) -> u8 {
    match (kind, at) {
        (1, _) => t.boxes[row],
        (2, _) => half(t.rows[2 * row + at / 2] as usize, at % 2),
        (_, 4) => t.arrows[4 * row + 2] as u8,
        (_, 5) => t.arrows[4 * row + 3] as u8,
        _ => half(t.arrows[4 * row + at / 2] as usize, at % 2),
    }
}

/// The byte at a place of a block, 0 to 507: head, records and filler.
fn packed_byte(t: &Tables, number: usize, part: &Part, place: usize) -> u8 {
    match place {
        0 => part.kind,
        1 | 6 | 7 => 0,
        2 | 3 => half(number, place - 2),
        4 | 5 => half(part.rows.len(), place - 4),
        _ => {
            let size = record(part.kind).0;
            let row = part.rows.start + (place - 8) / size;
            if row < part.rows.end {
                record_byte(t, part.kind, row, (place - 8) % size)
            } else {
                0
            }
        }
    }
}

/// The packing of a picture, or its refusal by 1 to 7.
pub fn packing(t: &Tables) -> Result<Vec<u8>, Refusal> {
    table_checks(t)?;
    let mut file = Vec::new();
    for (number, part) in parts(t).iter().enumerate() {
        let bytes: Vec<u8> = (0..508)
            .map(|place| packed_byte(t, number, part, place))
            .collect();
        let check = fnv(&bytes) as usize;
        file.extend(bytes);
        file.extend([0, 1, 2, 3].map(|at| half(check, at)));
    }
    Ok(file)
}

pub struct PackEnd {
    /// The length of the packed file.
    pub result: Result<usize, Refusal>,
    pub file: Vec<u8>,
}

pub fn pack(t: &Tables, file: &[u8]) -> PackEnd {
    let mut after = file.to_vec();
    let result = pack_into(t, &mut after);
    PackEnd {
        result,
        file: after,
    }
}

fn pack_into(t: &Tables, file: &mut [u8]) -> Result<usize, Refusal> {
    let packed = packing(t)?;
    long_enough(8, file.len(), packed.len())?;
    file[..packed.len()].copy_from_slice(&packed);
    Ok(packed.len())
}

// ---------------------------------------------------------------------------------------------
// The program's listing

/// What the program prints for this input.
pub fn listing(input: &[u8]) -> String {
    match full_listing(&input[..input.len().min(MOST_INPUT)]) {
        Ok(text) => text,
        Err(Refusal { number, places }) => {
            let [a, b, c] = places;
            format!("refused {number} {a} {b} {c}\n")
        }
    }
}

fn full_listing(file: &[u8]) -> Result<String, Refusal> {
    let t = tables_in(file)?;
    let known = Known::new(&t);
    let p = known.sound()?;
    let verdict = match judge(&known, &vec![0; p.n * p.n]).result {
        Ok(()) => "accepted\n".to_string(),
        Err(Refusal {
            number: 12,
            places: [mode, user, file],
        }) => format!("ambiguous {mode} {user} {file}\n"),
        Err(refusal) => return Err(refusal),
    };
    let mut text = format!(
        "boxes {} containments {} arrows {}\n",
        t.boxes.len(),
        t.rows.len() / 2,
        t.arrows.len() / 4
    );
    for mode in 0..MODES {
        if p.of_mode(mode).is_empty() {
            continue;
        }
        for (place, answer) in p.answers[mode as usize].iter().enumerate() {
            let (user, file) = p.pair(place);
            let said = match answer {
                Answer::Granted(k) => format!("pos {k}"),
                Answer::Denied(k) => format!("neg {k}"),
                Answer::Default => "neg -".to_string(),
                Answer::Unclear(p, n) => format!("ambig {p} {n}"),
            };
            text += &format!("{mode} {user} {file} {said}\n");
        }
    }
    Ok(text + &verdict)
}
