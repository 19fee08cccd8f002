//! Packing, beside the model and by itself: the length by a count of its own, the way back through
//! reading, the same bytes once more, other bytes for another picture, and which files come out of
//! reading and packing as they were.

use super::checker::{self, Tables};
use super::generator::{self, Random};
use super::{bytes, compare_refusal, counted, words};
use rights::lent::{self, Counts};

const BLOCK: usize = 512;

/// The refusals of packing.
const REFUSED: [&str; 8] = ["1", "2", "3", "4", "5", "6", "7", "9"];

/// How a lent file compares with the packed one.
const LENT: [&str; 7] = [
    "exact",
    "longer",
    "longer by a block or more",
    "a byte short",
    "short",
    "short by a block or more",
    "empty",
];

/// What a packed picture can show.
const SHOWN: [&str; 15] = [
    "no boxes",
    "256 boxes",
    "groups and folders",
    "boxes only",
    "arrows and no containments",
    "full blocks of containments only",
    "full blocks of arrows only",
    "one containment in a further block",
    "one arrow in a further block",
    "a containment less than full blocks",
    "an arrow less than full blocks",
    "17 blocks",
    "a row from a box to itself",
    "a repeated row",
    "a repeated arrow",
];

/// How a picture is changed.
const CHANGES: [&str; 13] = [
    "a box byte",
    "a box more",
    "a box less",
    "a box number of a row",
    "a row more",
    "a row less",
    "two rows exchanged",
    "an end of an arrow",
    "a mode",
    "a sign",
    "an arrow more",
    "an arrow less",
    "two arrows exchanged",
];

/// Files that hold a picture without a fault.
const FILES: [&str; 2] = ["regular", "not regular"];

/// How often things came up.
#[derive(Default)]
pub struct Seen {
    refused: [u64; 8],
    lent: [u64; 7],
    shown: [u64; 15],
    changes: [u64; 13],
    files: [u64; 2],
}

fn add<const N: usize>(counts: &mut [u64; N], seen: [bool; N]) {
    for (count, seen) in counts.iter_mut().zip(seen) {
        *count += seen as u64;
    }
}

impl Seen {
    fn all(&self) -> [(&'static str, &'static [&'static str], &[u64]); 5] {
        [
            ("refused by", &REFUSED, &self.refused),
            ("files lent", &LENT, &self.lent),
            ("packed", &SHOWN, &self.shown),
            ("other bytes for", &CHANGES, &self.changes),
            ("read and packed again", &FILES, &self.files),
        ]
    }

    pub fn print(&self) {
        for (what, names, counts) in self.all() {
            println!("packing, {what}: {}", counted(names, counts));
        }
    }

    pub fn never(&self) -> Vec<String> {
        let mut never = Vec::new();
        for (what, names, counts) in self.all() {
            let zero = names.iter().zip(counts).filter(|(_, &count)| count == 0);
            never.extend(zero.map(|(name, _)| format!("packing, {what}: {name}")));
        }
        never
    }
}

fn lend(t: &Tables) -> lent::Tables<'_> {
    lent::Tables {
        boxes: &t.boxes,
        containments: &t.rows,
        arrows: &t.arrows,
    }
}

/// The bytes of a packed file, as the header counts them: "one block for the boxes, one for each
/// 125 containments and one for each 83 arrows, begun ones included".
fn length(t: &Tables) -> usize {
    let (rows, arrows) = (t.rows.len() / 2, t.arrows.len() / 4);
    BLOCK * (1 + (rows + 124) / 125 + (arrows + 82) / 83)
}

fn lent_so(lent: usize, needed: usize) -> [bool; 7] {
    [
        lent == needed,
        lent > needed && lent < needed + BLOCK,
        lent >= needed + BLOCK,
        lent + 1 == needed,
        lent + 1 < needed && lent + BLOCK > needed,
        lent > 0 && lent + BLOCK <= needed,
        lent == 0,
    ]
}

/// Whether a row comes twice, rows being `width` numbers.
fn repeats(numbers: &[u16], width: usize) -> bool {
    let mut rows: Vec<&[u16]> = numbers.chunks(width).collect();
    rows.sort();
    rows.windows(2).any(|two| two[0] == two[1])
}

fn shown(t: &Tables) -> [bool; 15] {
    let (boxes, rows, arrows) = (t.boxes.len(), t.rows.len() / 2, t.arrows.len() / 4);
    [
        boxes == 0,
        boxes == 256,
        t.boxes.iter().any(|&byte| byte > 1),
        boxes > 0 && rows == 0 && arrows == 0,
        rows == 0 && arrows > 0,
        rows > 0 && rows % 125 == 0,
        arrows > 0 && arrows % 83 == 0,
        rows > 1 && rows % 125 == 1,
        arrows > 1 && arrows % 83 == 1,
        rows % 125 == 124,
        arrows % 83 == 82,
        length(t) == 17 * BLOCK,
        t.rows.chunks(2).any(|row| row[0] == row[1]),
        repeats(&t.rows, 2),
        repeats(&t.arrows, 4),
    ]
}

/// The call beside the model, with a file of any length: the answer and every place of the file.
fn beside_model(r: &mut Random, t: &Tables, seen: &mut Seen) -> Result<(), String> {
    let needed = length(t);
    let lent = generator::packed_length(r, needed);
    let mut file = bytes(r, lent);
    let got = lend(t).pack(file.lend()).map_err(compare_refusal);
    let want = checker::pack(t, file.before());
    if got != want.result {
        let want = want.result;
        return Err(format!("{got:?} in {lent} bytes, should be {want:?}"));
    }
    file.ends_as("file", &want.file)?;
    match want.result {
        Err(refusal) => {
            let named = REFUSED.map(|number| number == refusal.number.to_string());
            add(&mut seen.refused, named);
            if refusal.number < 9 {
                return Ok(());
            }
        }
        Ok(length) if length != needed => return Err(format!("{length} bytes, not {needed}")),
        Ok(_) => {}
    }
    add(&mut seen.lent, lent_so(lent, needed));
    Ok(())
}

/// The packed file of a picture without a fault, of the length that the header says. What the file
/// held before doesn't matter, and bytes beyond stay.
fn packed(t: &Tables, before: u8, spare: usize) -> Result<Vec<u8>, String> {
    let needed = length(t);
    let mut file = vec![before; needed + spare];
    let got = lend(t).pack(&mut file);
    if got != Ok(needed) {
        return Err(format!("{got:?} where {needed} bytes suffice"));
    }
    if file.drain(needed..).any(|byte| byte != before) {
        return Err("bytes beyond the length have changed".to_string());
    }
    Ok(file)
}

/// The tables in a file, read by the library into buffers that suffice.
fn read(r: &mut Random, file: &[u8], needed: [usize; 3]) -> Result<(Counts, Tables), String> {
    let [boxes, rows, arrows] = needed.map(|needed| needed + r.pick(&[0, 0, 1, 7]));
    let (mut boxes, mut rows, mut arrows) = (bytes(r, boxes), words(r, rows), words(r, arrows));
    let counts = lent::read(file, boxes.lend(), rows.lend(), arrows.lend());
    let counts = counts.map_err(|refusal| format!("reading is refused: {refusal}"))?;
    let places = [counts.boxes, 2 * counts.containments, 4 * counts.arrows];
    if (0..3).any(|k| places[k] > needed[k]) {
        return Err(format!("read {counts:?}, needs {needed:?} places"));
    }
    let tables = Tables {
        boxes: boxes.after()[..places[0]].to_vec(),
        rows: rows.after()[..places[1]].to_vec(),
        arrows: arrows.after()[..places[2]].to_vec(),
    };
    Ok((counts, tables))
}

/// "Reading a packed file into buffers that suffice must return the same three tables".
fn read_back(r: &mut Random, t: &Tables, packed: &[u8]) -> Result<(), String> {
    let needed = [t.boxes.len(), t.rows.len(), t.arrows.len()];
    let (counts, tables) = read(r, packed, needed)?;
    let rows = [counts.boxes, counts.containments, counts.arrows];
    if rows != [needed[0], needed[1] / 2, needed[2] / 4] {
        return Err(format!("read back as {counts:?}"));
    }
    if tables != *t {
        return Err(format!("read back as {tables:?}"));
    }
    Ok(())
}

/// Inserts a row at any place: any of the rows there are, or these numbers.
fn insert(r: &mut Random, numbers: &mut Vec<u16>, otherwise: &[u16]) {
    let width = otherwise.len();
    let rows = numbers.len() / width;
    let row = match rows {
        0 => otherwise.to_vec(),
        _ => numbers.chunks(width).nth(r.below(rows)).unwrap().to_vec(),
    };
    let at = width * r.below(rows + 1);
    numbers.splice(at..at, row);
}

/// Takes out the last row, or any.
fn take_out(r: &mut Random, numbers: &mut Vec<u16>, width: usize) {
    let rows = numbers.len() / width;
    let row = if r.percent(50) {
        r.below(rows)
    } else {
        rows.saturating_sub(1)
    };
    let end = numbers.len().min(width * (row + 1));
    numbers.drain(width * row..end);
}

/// Exchanges two rows.
fn exchange(r: &mut Random, numbers: &mut [u16], width: usize) {
    let rows = numbers.len() / width;
    let (one, two) = (r.below(rows), r.below(rows));
    for at in (0..width).take_while(|_| rows > 0) {
        numbers.swap(width * one + at, width * two + at);
    }
}

/// The picture with one change, unless that leaves it the same or makes a fault.
fn change(r: &mut Random, t: &Tables, how: usize) -> Option<Tables> {
    let (n, rows, arrows) = (t.boxes.len(), t.rows.len(), t.arrows.len() / 4);
    let mut other = t.clone();
    let any_arrow = 4 * r.below(arrows);
    match how {
        0 => *other.boxes.get_mut(r.below(n))? ^= r.pick(&[1, 2, 3]),
        1 => other.boxes.push(r.below(4) as u8),
        2 => drop(other.boxes.pop()?),
        3 => *other.rows.get_mut(r.below(rows))? = r.below(n) as u16,
        4 => {
            let b = r.below(n) as u16;
            insert(r, &mut other.rows, &[b, b]);
        }
        5 => take_out(r, &mut other.rows, 2),
        6 => exchange(r, &mut other.rows, 2),
        7 => *other.arrows.get_mut(any_arrow + r.below(2))? = r.below(n) as u16,
        8 => *other.arrows.get_mut(any_arrow + 2)? = r.below(8) as u16,
        9 => *other.arrows.get_mut(any_arrow + 3)? ^= 1,
        10 => {
            let ends = [r.below(n) as u16, r.below(n) as u16];
            insert(r, &mut other.arrows, &[ends[0], ends[1], 7, 1]);
        }
        11 => take_out(r, &mut other.arrows, 4),
        _ => exchange(r, &mut other.arrows, 4),
    }
    (other != *t && checker::table_checks(&other).is_ok()).then_some(other)
}

/// "two pictures have the same packed bytes only if their tables are equal": a picture with one
/// change has other bytes, or more, or fewer.
fn changed(r: &mut Random, t: &Tables, first: &[u8], seen: &mut Seen) -> Result<(), String> {
    let how = r.below(CHANGES.len());
    let Some(other) = change(r, t, how) else {
        return Ok(());
    };
    seen.changes[how] += 1;
    if packed(&other, 0, 0)? == first {
        return Err(format!("{}, and the bytes are the same", CHANGES[how]));
    }
    Ok(())
}

/// Whether a file that can be read is the packing of its tables, by its blocks alone.
fn is_regular(file: &[u8]) -> bool {
    let block = |block: &[u8]| (block[0], u16::from_le_bytes([block[4], block[5]]));
    let blocks: Vec<(u8, u16)> = file.chunks(BLOCK).map(block).collect();
    let box_blocks = blocks.iter().filter(|(kind, _)| *kind == 1).count();
    let full = |kind: u8| [500, 125, 83][kind as usize - 1];
    let empty_fits = |k: usize| k == 0 && blocks[0].0 == 1 && box_blocks == 1;
    box_blocks > 0
        && blocks.windows(2).all(|two| {
            let ((kind, count), (next, _)) = (two[0], two[1]);
            kind != next || count == full(kind)
        })
        && (0..blocks.len()).all(|k| blocks[k].1 > 0 || empty_fits(k))
}

/// A file whose tables have no fault is what reading and packing them gives exactly if it is
/// regular.
pub fn file(r: &mut Random, file: &[u8], seen: &mut Seen) -> Result<(), String> {
    let Ok(t) = checker::tables_in(file) else {
        return Ok(());
    };
    if checker::table_checks(&t).is_err() {
        return Ok(());
    }
    let needed = [t.boxes.len(), t.rows.len(), t.arrows.len()];
    let (_, tables) = read(r, file, needed)?;
    let regular = is_regular(file);
    add(&mut seen.files, [regular, !regular]);
    match packed(&tables, 1, 3)? == file {
        same if same == regular => Ok(()),
        true => Err("a file that isn't regular was packed".to_string()),
        false => Err("a regular file is packed in another way".to_string()),
    }
}

fn one_picture(r: &mut Random, t: &Tables, seen: &mut Seen) -> Result<(), String> {
    beside_model(r, t, seen)?;
    if checker::table_checks(t).is_err() {
        return Ok(());
    }
    add(&mut seen.shown, shown(t));
    let first = packed(t, 170, r.below(9))?;
    if packed(t, 85, 0)? != first {
        return Err("packed twice, and the bytes differ".to_string());
    }
    read_back(r, t, &first)?;
    changed(r, t, &first, seen)?;
    let loose = r.percent(50);
    let whole = generator::pack(r, t, loose);
    file(r, &whole, seen)
}

/// The packing of a picture, and sometimes that of one with many rows.
pub fn compare(r: &mut Random, t: &Tables, seen: &mut Seen) -> Result<(), String> {
    one_picture(r, t, seen).map_err(|why| format!("packing: {why}"))?;
    if r.percent(75) {
        return Ok(());
    }
    let wide = generator::wide(r);
    let copy = wide.clone();
    one_picture(r, &wide, seen).map_err(|why| {
        let rows = [wide.boxes.len(), wide.rows.len(), wide.arrows.len()];
        format!("packing tables of {rows:?} numbers: {why}")
    })?;
    if *std::hint::black_box(&wide) != copy {
        return Err("packing: a lent table was written to".to_string());
    }
    Ok(())
}
