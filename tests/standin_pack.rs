//! The stand-in's packer: it walks through the tables record by record and closes a block when no
//! further record fits. Like the rest of the stand-in it can be told to be wrong.

use super::{is, refusal, reply, Reply, Tables, World, Wrong, DONE};

/// The records of a table, one after the other.
type Records = Vec<Vec<u8>>;

fn number(value: u16) -> [u8; 2] {
    if is(Wrong::PackBigEndian) {
        value.to_be_bytes()
    } else {
        value.to_le_bytes()
    }
}

/// Two bytes of a block's head.
fn head_number(value: usize) -> [u8; 2] {
    if is(Wrong::PackBigEndianHead) {
        (value as u16).to_be_bytes()
    } else {
        (value as u16).to_le_bytes()
    }
}

fn box_records(t: &Tables) -> Records {
    let byte = |&byte: &u8| match byte {
        2 | 3 if is(Wrong::PackSides) => vec![byte - 2],
        _ => vec![byte],
    };
    t.boxes.iter().map(byte).collect()
}

/// Leaves out what came before.
fn once(records: Records) -> Records {
    let mut kept = Records::new();
    for record in records {
        if !kept.contains(&record) {
            kept.push(record);
        }
    }
    kept
}

fn row_records(t: &Tables) -> Records {
    let mut rows: Vec<[u16; 2]> = t.rows.chunks_exact(2).map(|r| [r[0], r[1]]).collect();
    if is(Wrong::PackRowsReversed) {
        rows.reverse();
    } else if is(Wrong::PackRowsSorted) {
        rows.sort();
    } else if is(Wrong::PackSelfRows) {
        rows.retain(|row| row[0] != row[1]);
    } else if is(Wrong::PackLastRow) {
        rows.truncate(1023);
    } else if is(Wrong::PackOuterInner) {
        rows.iter_mut().for_each(|row| row.reverse());
    }
    let records = rows.into_iter().map(|row| row.map(number).concat());
    if is(Wrong::PackRowRepeats) {
        once(records.collect())
    } else {
        records.collect()
    }
}

fn arrow_records(t: &Tables) -> Records {
    let mut arrows: Vec<&[u16]> = t.arrows.chunks_exact(4).collect();
    if is(Wrong::PackArrowsByMode) {
        arrows.sort_by_key(|row| row[2]);
    } else if is(Wrong::PackArrowsReversed) {
        arrows.reverse();
    } else if is(Wrong::PackLastArrow) {
        arrows.truncate(511);
    } else if is(Wrong::PackEmptyDropped) {
        let mut all = 0..;
        arrows.retain(|_| !t.at_empty(all.next().unwrap()));
    }
    let records = arrows.into_iter().map(|row| {
        let (mut ends, mut last) = ([row[0], row[1]], [row[2] as u8, row[3] as u8]);
        if is(Wrong::PackTailHead) {
            ends.reverse();
        } else if is(Wrong::PackModeSign) {
            last.reverse();
        } else if is(Wrong::PackSignTurned) {
            last[1] ^= 1;
        }
        [&ends.map(number).concat()[..], &last].concat()
    });
    if is(Wrong::PackArrowRepeats) {
        once(records.collect())
    } else {
        records.collect()
    }
}

fn capacity(kind: usize) -> usize {
    match kind {
        1 if is(Wrong::PackBoxes128) => 128,
        2 if is(Wrong::PackRows124) => 124,
        3 if is(Wrong::PackArrows82) => 82,
        _ => [0, 500, 125, 83][kind],
    }
}

/// A packed file in the making. What the lent file holds is only for being wrong.
struct Walk<'a> {
    lent: &'a [u8],
    file: Vec<u8>,
    /// Where the open block begins, and how many records it has.
    begin: usize,
    count: usize,
    of_kind: usize,
    check: u32,
}

impl Walk<'_> {
    fn open(&mut self, kind: usize) {
        self.begin = self.file.len();
        self.count = 0;
        let number = match self.begin / 512 {
            _ if is(Wrong::PackNumbersAnew) => self.of_kind,
            number if is(Wrong::PackNumbersFromOne) => number + 1,
            number => number,
        };
        self.of_kind += 1;
        let said = match kind {
            3 if is(Wrong::PackKind) => 2,
            _ => kind as u8,
        };
        self.file.extend([said, is(Wrong::PackByteOne) as u8]);
        self.file.extend(head_number(number));
        self.file.extend([0, 0, is(Wrong::PackByteSix) as u8, 0]);
    }

    fn close(&mut self, kind: usize) {
        let count = match self.count {
            count if is(Wrong::PackCountLow) => count % 256,
            count if is(Wrong::PackCountNumbers) => count * [0, 1, 2, 4][kind],
            0 if is(Wrong::PackBoxBlockOne) => 1,
            count => count,
        };
        let used = self.file.len();
        for at in used..self.begin + 508 {
            self.file.push(match self.lent.get(at) {
                Some(&before) if is(Wrong::PackFillerKept) => before,
                _ if is(Wrong::PackFillerOnes) => 255,
                _ => 0,
            });
        }
        let head = self.begin + 4..self.begin + 6;
        self.file[head.clone()].copy_from_slice(&head_number(count));
        let mut checked = self.file[self.begin..].to_vec();
        if is(Wrong::PackCheckWithoutFiller) {
            checked.truncate(used - self.begin);
        } else if is(Wrong::PackCheckWithoutCount) {
            checked[4..6].fill(0);
        } else if is(Wrong::PackCheckWithoutHead) {
            checked.drain(..8);
        }
        let check = self.check_of(&checked);
        self.file.extend(if is(Wrong::PackBigEndianCheck) {
            check.to_be_bytes()
        } else {
            check.to_le_bytes()
        });
    }

    fn check_of(&mut self, bytes: &[u8]) -> u32 {
        let start = if is(Wrong::PackCheckRunsOn) && self.begin > 0 {
            self.check
        } else {
            0x811c_9dc5
        };
        self.check = bytes.iter().fold(start, |check, &byte| {
            if is(Wrong::PackFnvOne) {
                check.wrapping_mul(0x0100_0193) ^ byte as u32
            } else {
                (check ^ byte as u32).wrapping_mul(0x0100_0193)
            }
        });
        self.check
    }

    /// Whether the open block takes no further record, `left` being still to come.
    fn full(&self, kind: usize, all: usize, left: usize) -> bool {
        let most = capacity(kind);
        if is(Wrong::PackEven) {
            let blocks = all.div_ceil(most);
            return self.count == all.div_ceil(blocks);
        }
        if is(Wrong::PackPartialFirst) {
            return self.count > 0 && left % most == 0;
        }
        self.count == most
    }

    fn table(&mut self, kind: usize, records: &Records) {
        let kept = match kind {
            1 => !is(Wrong::PackNoBoxBlock),
            _ => is(Wrong::PackEmptyKinds),
        };
        if records.is_empty() && !kept {
            return;
        }
        self.of_kind = 0;
        self.open(kind);
        for (k, record) in records.iter().enumerate() {
            if self.full(kind, records.len(), records.len() - k) {
                self.close(kind);
                self.open(kind);
            }
            self.file.extend(record);
            self.count += 1;
        }
        let emptied =
            kind == 2 && is(Wrong::PackEmptyRows) || kind == 3 && is(Wrong::PackEmptyArrows);
        if emptied && self.count == capacity(kind) {
            self.close(kind);
            self.open(kind);
        }
        self.close(kind);
    }
}

/// The packed file of tables without a fault.
fn packed(t: &Tables, lent: &[u8]) -> Vec<u8> {
    let mut walk = Walk {
        lent,
        file: Vec::new(),
        begin: 0,
        count: 0,
        of_kind: 0,
        check: 0,
    };
    walk.table(1, &box_records(t));
    if is(Wrong::PackArrowsFirst) {
        walk.table(3, &arrow_records(t));
    }
    walk.table(2, &row_records(t));
    if !is(Wrong::PackArrowsFirst) {
        walk.table(3, &arrow_records(t));
    }
    if is(Wrong::PackLastBlock) && walk.file.len() > 512 {
        walk.file.truncate(walk.file.len() - 512);
    }
    walk.file
}

/// Whether a wrong library passes over this refusal.
fn passes(refused: &Reply) -> bool {
    let not = match refused.number {
        1 => Wrong::PackNotOne,
        2 => Wrong::PackNotTwo,
        3 => Wrong::PackNotThree,
        4 => Wrong::PackNotFour,
        5 => Wrong::PackNotFive,
        6 => Wrong::PackNotSix,
        _ => Wrong::PackNotSeven,
    };
    is(not)
}

/// The refusal of a picture by a check that packing doesn't make.
fn judged(t: &Tables) -> Option<Reply> {
    if !is(Wrong::PackTen) && !is(Wrong::PackTwelve) {
        return None;
    }
    let mut scratch = vec![0; t.n() * t.n()];
    t.fill(&mut scratch);
    let looped = t.looped(&scratch);
    if looped.is_some() {
        return looped.filter(|_| is(Wrong::PackTen));
    }
    let world = World::new(t, &scratch, Wrong::EmptyInJudge);
    let first = (0..8).find_map(|mode| Some((mode, world.unclear(mode)?)));
    let (mode, (user, file)) = first.filter(|_| is(Wrong::PackTwelve))?;
    Some(refusal(12, mode as usize, user, file))
}

/// Refusal 9.
fn short(t: &Tables, lent: usize, length: usize) -> Option<Reply> {
    let whole = |numbers: usize, block: usize| numbers > 0 && numbers % block == 0;
    let needed = match length {
        _ if is(Wrong::PackNineRoom) => 8704,
        _ if is(Wrong::PackNineRows) && whole(t.rows.len(), 250) => length + 512,
        _ if is(Wrong::PackNineArrows) && whole(t.arrows.len(), 332) => length + 512,
        _ if is(Wrong::PackNineExact) && length == lent => length + 1,
        _ => length,
    };
    if needed <= lent {
        return None;
    }
    let buffer = if is(Wrong::PackNineBuffer) { 5 } else { 8 };
    let named = match needed {
        _ if is(Wrong::PackNineBlocks) => needed / 512,
        _ if is(Wrong::PackNineExact) => length,
        _ if is(Wrong::PackNineMissing) => needed - lent,
        _ => needed,
    };
    Some(refusal(9, buffer, named, 0))
}

/// Writes as much as fits.
fn write(packed: &[u8], file: &mut [u8]) {
    for (place, byte) in file.iter_mut().zip(packed) {
        *place = *byte;
    }
}

pub fn pack(t: &Tables, file: &mut [u8]) -> Reply {
    let fault = t.fault().filter(|refused| !passes(refused));
    if let Some(fault) = fault {
        let early = is(Wrong::PackNineFirst) || is(Wrong::PackWritesFirst);
        let packed = if early { packed(t, file) } else { vec![] };
        if is(Wrong::PackWritesFirst) {
            write(&packed, file);
        }
        return short(t, file.len(), packed.len())
            .filter(|_| is(Wrong::PackNineFirst))
            .unwrap_or(fault);
    }
    let packed = packed(t, file);
    if let Some(refused) = short(t, file.len(), packed.len()) {
        if is(Wrong::PackFillsShort) {
            write(&packed, file);
        } else if is(Wrong::PackClearedFirst) {
            file.fill(0);
        }
        return refused;
    }
    if let Some(refused) = judged(t) {
        return refused;
    }
    let beyond = &mut file[packed.len()..];
    if is(Wrong::PackCleared) {
        beyond.fill(0);
    } else if is(Wrong::PackBeyond) && !beyond.is_empty() {
        beyond[0] = 0;
    }
    write(&packed, file);
    match packed.len() {
        length if is(Wrong::PackBlocks) => reply(DONE, length / 512, 0, 0),
        _ if is(Wrong::PackAnswersLent) => reply(DONE, file.len(), 0, 0),
        length if is(Wrong::PackAnswersCounts) => reply(DONE, length, t.n(), 0),
        length => reply(DONE, length, 0, 0),
    }
}
