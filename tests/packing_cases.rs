//! Packed files written by hand: whole files of small pictures, the blocks of long tables, both
//! sides of each limit, and each refusal with what it leaves. Each is put to the library and to the
//! model.

use super::cases::{file_b, Refused, Report};
use super::checker::{self, Tables};
use rights::lent::{self, PACKED_ROOM};

/// What every lent file holds before.
const BEFORE: u8 = 170;

/// A small picture and its packed file, block by block: the bytes up to the filler, and the check.
struct Whole {
    name: &'static str,
    boxes: &'static [u8],
    rows: &'static [u16],
    arrows: &'static [u16],
    blocks: &'static [(&'static [u8], [u8; 4])],
}

const WHOLE: &[Whole] = &[
    Whole {
        name: "A: one box block of count 0",
        boxes: &[],
        rows: &[],
        arrows: &[],
        blocks: &[(&[1], [0x84, 0xa9, 0xf5, 0xb3])],
    },
    Whole {
        name: "B",
        boxes: &[0, 0, 0, 1],
        rows: &[2, 0, 2, 1],
        arrows: &[0, 3, 0, 1, 2, 3, 0, 0],
        blocks: &[
            (
                &[1, 0, 0, 0, 4, 0, 0, 0, 0, 0, 0, 1],
                [0xd3, 0x74, 0x47, 0x2a],
            ),
            (
                &[2, 0, 1, 0, 2, 0, 0, 0, 2, 0, 0, 0, 2, 0, 1, 0],
                [0x05, 0x17, 0x4f, 0xf5],
            ),
            (
                &[3, 0, 2, 0, 2, 0, 0, 0, 0, 0, 3, 0, 0, 1, 2, 0, 3, 0, 0, 0],
                [0x73, 0x74, 0xdc, 0xc5],
            ),
        ],
    },
    Whole {
        name: "G: boxes only",
        boxes: &[0, 1],
        rows: &[],
        arrows: &[],
        blocks: &[(&[1, 0, 0, 0, 2, 0, 0, 0, 0, 1], [0xd1, 0x95, 0xa8, 0x3b])],
    },
    Whole {
        name: "H: a loop is packed",
        boxes: &[0],
        rows: &[0, 0],
        arrows: &[],
        blocks: &[
            (&[1, 0, 0, 0, 1], [0x65, 0xd6, 0xa6, 0xe2]),
            (&[2, 0, 1, 0, 1], [0xef, 0x41, 0x48, 0xbc]),
        ],
    },
    Whole {
        name: "repeated rows and arrows",
        boxes: &[0, 0, 1],
        rows: &[1, 0, 1, 0, 1, 0],
        arrows: &[1, 2, 0, 1, 1, 2, 0, 1],
        blocks: &[
            (&[1, 0, 0, 0, 3, 0, 0, 0, 0, 0, 1], [0xfe, 0x89, 0x9f, 0x26]),
            (
                &[2, 0, 1, 0, 3, 0, 0, 0, 1, 0, 0, 0, 1, 0, 0, 0, 1],
                [0x6c, 0x81, 0xb4, 0x92],
            ),
            (
                &[3, 0, 2, 0, 2, 0, 0, 0, 1, 0, 2, 0, 0, 1, 1, 0, 2, 0, 0, 1],
                [0xfe, 0x51, 0xfe, 0xf8],
            ),
        ],
    },
    Whole {
        name: "modes and signs, no containments, unclear in mode 7",
        boxes: &[0, 1],
        rows: &[],
        arrows: &[0, 1, 7, 1, 0, 1, 7, 0, 0, 1, 3, 1],
        blocks: &[
            (&[1, 0, 0, 0, 2, 0, 0, 0, 0, 1], [0xd1, 0x95, 0xa8, 0x3b]),
            (
                &[
                    3, 0, 1, 0, 3, 0, 0, 0, 0, 0, 1, 0, 7, 1, 0, 0, 1, 0, 7, 0, 0, 0, 1, 0, 3, 1,
                ],
                [0x3e, 0xf0, 0x2c, 0xdc],
            ),
        ],
    },
    Whole {
        name: "boxes of all four bytes",
        boxes: &[3, 2, 1, 0],
        rows: &[1, 3, 0, 2],
        arrows: &[1, 0, 5, 0],
        blocks: &[
            (
                &[1, 0, 0, 0, 4, 0, 0, 0, 3, 2, 1, 0],
                [0x60, 0x87, 0xec, 0xab],
            ),
            (
                &[2, 0, 1, 0, 2, 0, 0, 0, 1, 0, 3, 0, 0, 0, 2, 0],
                [0x14, 0xc7, 0x0f, 0xdf],
            ),
            (
                &[3, 0, 2, 0, 1, 0, 0, 0, 1, 0, 0, 0, 5, 0],
                [0xa1, 0x13, 0x7d, 0x86],
            ),
        ],
    },
    Whole {
        name: "rows in their order, the first one again at the end",
        boxes: &[0, 0, 0],
        rows: &[2, 1, 1, 0, 2, 0, 2, 1],
        arrows: &[],
        blocks: &[
            (&[1, 0, 0, 0, 3], [0x27, 0x30, 0x09, 0x40]),
            (
                &[
                    2, 0, 1, 0, 4, 0, 0, 0, 2, 0, 1, 0, 1, 0, 0, 0, 2, 0, 0, 0, 2, 0, 1, 0,
                ],
                [0xe9, 0x31, 0xe9, 0x98],
            ),
        ],
    },
];

/// So many containments and arrows, the counts of their blocks, and the length of the file.
type Long = (usize, usize, &'static [u16], &'static [u16], usize);

const ROWS_1024: &[u16] = &[125, 125, 125, 125, 125, 125, 125, 125, 24];
const ARROWS_512: &[u16] = &[83, 83, 83, 83, 83, 83, 14];

const LONG: &[Long] = &[
    (1, 1, &[1], &[1], 1_536),
    (124, 82, &[124], &[82], 1_536),
    (125, 83, &[125], &[83], 1_536),
    (126, 83, &[125, 1], &[83], 2_048),
    (125, 84, &[125], &[83, 1], 2_048),
    (126, 84, &[125, 1], &[83, 1], 2_560),
    (249, 165, &[125, 124], &[83, 82], 2_560),
    (250, 166, &[125, 125], &[83, 83], 2_560),
    (251, 167, &[125, 125, 1], &[83, 83, 1], 3_584),
    (125, 0, &[125], &[], 1_024),
    (0, 83, &[], &[83], 1_024),
    (1_000, 498, &[125; 8], &[83; 6], 7_680),
    (
        1_001,
        499,
        &[125, 125, 125, 125, 125, 125, 125, 125, 1],
        &[83, 83, 83, 83, 83, 83, 1],
        8_704,
    ),
    (
        1_023,
        511,
        &[125, 125, 125, 125, 125, 125, 125, 125, 23],
        &[83, 83, 83, 83, 83, 83, 13],
        8_704,
    ),
    (1_024, 512, ROWS_1024, ARROWS_512, 8_704),
    (1_024, 0, ROWS_1024, &[], 5_120),
    (0, 512, &[], ARROWS_512, 4_096),
];

/// Tables that are refused however long the file is, and how.
const FAULTY: &[(&str, &[u8], &[u16], &[u16], Refused)] = &[
    ("half a row", &[0, 1], &[0], &[], (1, [1, 1, 0])),
    ("half an arrow", &[0, 1], &[], &[0, 1], (1, [2, 2, 0])),
    (
        "5 numbers of arrows",
        &[0, 1],
        &[],
        &[0, 1, 0, 1, 0],
        (1, [2, 5, 0]),
    ),
    ("half a row first", &[0], &[0, 0, 0], &[0], (1, [1, 3, 0])),
    ("1 before 3", &[9], &[0], &[], (1, [1, 1, 0])),
    ("byte 4", &[3, 2, 4], &[], &[], (3, [2, 0, 0])),
    ("byte 255", &[255, 4], &[], &[], (3, [0, 0, 0])),
    ("3 before 4", &[0, 4], &[0, 2], &[], (3, [1, 0, 0])),
    (
        "outer box 2 of 2",
        &[0, 0],
        &[0, 1, 2, 0],
        &[],
        (4, [1, 0, 0]),
    ),
    (
        "inner box 65,535",
        &[0, 0],
        &[0, 65_535],
        &[],
        (4, [0, 0, 0]),
    ),
    ("a row without boxes", &[], &[0, 0], &[], (4, [0, 0, 0])),
    ("4 before 5", &[0, 1], &[0, 1, 0, 2], &[], (4, [1, 0, 0])),
    (
        "a folder in a user box",
        &[0, 3],
        &[0, 0, 0, 1],
        &[],
        (5, [1, 0, 0]),
    ),
    (
        "5 before 6",
        &[0, 1],
        &[1, 0],
        &[1, 0, 0, 0],
        (5, [0, 0, 0]),
    ),
    (
        "from a file",
        &[0, 1],
        &[],
        &[0, 1, 0, 0, 1, 1, 0, 0],
        (6, [1, 0, 0]),
    ),
    (
        "to a user group",
        &[0, 2],
        &[],
        &[0, 1, 0, 0],
        (6, [0, 0, 0]),
    ),
    ("to box 256", &[0, 1], &[], &[0, 256, 0, 0], (6, [0, 0, 0])),
    (
        "an arrow without boxes",
        &[],
        &[],
        &[0, 0, 0, 0],
        (6, [0, 0, 0]),
    ),
    (
        "6 before 7",
        &[0, 1],
        &[],
        &[0, 1, 8, 0, 1, 0, 0, 0],
        (6, [1, 0, 0]),
    ),
    (
        "mode 8",
        &[0, 1],
        &[],
        &[0, 1, 7, 1, 0, 1, 8, 1],
        (7, [1, 0, 0]),
    ),
    (
        "mode 256, low byte 0",
        &[0, 1],
        &[],
        &[0, 1, 256, 1],
        (7, [0, 0, 0]),
    ),
    ("sign 2", &[0, 1], &[], &[0, 1, 0, 2], (7, [0, 0, 0])),
    (
        "sign 257, low byte 1",
        &[0, 1],
        &[],
        &[0, 1, 0, 257],
        (7, [0, 0, 0]),
    ),
    (
        "7 before 10",
        &[0, 1],
        &[0, 0],
        &[0, 1, 0, 65_535],
        (7, [0, 0, 0]),
    ),
];

/// Small pictures of which no two have the same packed file.
const APART: &[(&[u8], &[u16], &[u16])] = &[
    (&[], &[], &[]),
    (&[0], &[], &[]),
    (&[1], &[], &[]),
    (&[2], &[], &[]),
    (&[3], &[], &[]),
    (&[0, 0], &[], &[]),
    (&[0, 1], &[], &[]),
    (&[1, 0], &[], &[]),
    (&[0, 0], &[0, 0], &[]),
    (&[0, 0], &[0, 1], &[]),
    (&[0, 0], &[1, 0], &[]),
    (&[0, 0], &[0, 1, 0, 1], &[]),
    (&[0, 0], &[0, 1, 1, 0], &[]),
    (&[0, 0], &[1, 0, 0, 1], &[]),
    (&[0, 1], &[], &[0, 1, 0, 0]),
    (&[0, 1], &[], &[0, 1, 0, 1]),
    (&[0, 1], &[], &[0, 1, 1, 0]),
    (&[0, 1], &[], &[0, 1, 1, 1]),
    (&[0, 1], &[], &[0, 1, 0, 0, 0, 1, 0, 0]),
    (&[0, 1], &[], &[0, 1, 0, 1, 0, 1, 1, 0]),
    (&[0, 1], &[], &[0, 1, 1, 0, 0, 1, 0, 1]),
    (&[0, 1], &[0, 0], &[0, 1, 0, 0]),
];

fn tables(boxes: &[u8], rows: &[u16], arrows: &[u16]) -> Tables {
    Tables {
        boxes: boxes.to_vec(),
        rows: rows.to_vec(),
        arrows: arrows.to_vec(),
    }
}

fn lend(t: &Tables) -> lent::Tables<'_> {
    lent::Tables {
        boxes: &t.boxes,
        containments: &t.rows,
        arrows: &t.arrows,
    }
}

/// Packs into a lent file of this length, by library and model, and answers the packed file. Bytes
/// beyond it, and all of the file after a refusal, must be as before.
fn pack(
    what: &str,
    t: &Tables,
    lent: usize,
    want: Result<usize, Refused>,
    report: &mut Report,
) -> Vec<u8> {
    let what = format!("packing {what} into {lent} bytes");
    let mut file = vec![BEFORE; lent];
    let model = checker::pack(t, &file);
    let got = lend(t).pack(&mut file);
    report.same(&what, got.map_err(|refusal| refusal.numbers()), want);
    let result = model.result.map_err(|r| (r.number, r.places));
    report.same(&format!("{what}: model"), result, want);
    let same = file == model.file;
    report.same(&format!("{what}: as the model"), same, true);
    let beyond = file.split_off(want.unwrap_or(0).min(lent));
    let kept = beyond.iter().all(|&byte| byte == BEFORE);
    report.same(&format!("{what}: bytes that stay"), kept, true);
    file
}

/// That a packed file is read as the tables that it was made of.
fn read_back(what: &str, t: &Tables, file: &[u8], report: &mut Report) {
    let mut read = Tables {
        boxes: vec![9; t.boxes.len()],
        rows: vec![9; t.rows.len()],
        arrows: vec![9; t.arrows.len()],
    };
    let got = lent::read(file, &mut read.boxes, &mut read.rows, &mut read.arrows);
    let counts = got.map(|c| [c.boxes, 2 * c.containments, 4 * c.arrows]);
    let lengths = [t.boxes.len(), t.rows.len(), t.arrows.len()];
    report.same(&format!("reading packed {what}"), counts, Ok(lengths));
    report.same(&format!("reading packed {what}"), read == *t, true);
}

/// A whole file in a lent one that is as long, longer and shorter.
fn one_whole(case: &Whole, report: &mut Report) {
    let t = tables(case.boxes, case.rows, case.arrows);
    let mut want = Vec::new();
    for (bytes, check) in case.blocks {
        want.extend([bytes, &vec![0; 508 - bytes.len()][..], check].concat());
    }
    let length = want.len();
    for lent in [length, length + 1, length + 512, PACKED_ROOM + 1] {
        let file = pack(case.name, &t, lent, Ok(length), report);
        report.same(case.name, &file, &want);
    }
    let short = Err((9, [8, length as u64, 0]));
    for lent in [length - 1, length - 511, length - 512, 1, 0] {
        pack(case.name, &t, lent, short, report);
    }
    read_back(case.name, &t, &want, report);
}

/// Kind, number and count of each block, and whether its check and the other bytes of its head are
/// right.
fn heads(file: &[u8]) -> Vec<(u8, [u8; 2], [u8; 2], bool)> {
    let head = |block: &[u8]| {
        let sealed = checker::fnv(&block[..508]).to_le_bytes() == block[508..];
        let zero = block[1] == 0 && block[6] == 0 && block[7] == 0;
        (
            block[0],
            [block[2], block[3]],
            [block[4], block[5]],
            sealed && zero,
        )
    };
    file.chunks(512).map(head).collect()
}

/// Two boxes, so many rows and so many arrows, all the same.
fn one_long(&(rows, arrows, row_counts, arrow_counts, length): &Long, report: &mut Report) {
    let t = tables(&[0, 1], &[0, 0].repeat(rows), &[0, 1, 7, 1].repeat(arrows));
    let what = format!("{rows} rows and {arrows} arrows");
    let file = pack(&what, &t, length, Ok(length), report);
    let kinds = [(1, &[2][..]), (2, row_counts), (3, arrow_counts)];
    let blocks = kinds
        .iter()
        .flat_map(|(kind, counts)| counts.iter().map(move |count| (*kind, *count)));
    let want: Vec<_> = (0..)
        .zip(blocks)
        .map(|(number, (kind, count))| (kind, [number, 0], count.to_le_bytes(), true))
        .collect();
    report.same(&format!("packed {what}: heads"), heads(&file), want);
    let short = Err((9, [8, length as u64, 0]));
    pack(&what, &t, length - 1, short, report);
    pack(&what, &t, length - 512, short, report);
    read_back(&what, &t, &file, report);
}

/// A picture of full size, each row another: row k is (k mod 128, k / 128), arrow k goes from box
/// k mod 128 to box 255 - k / 128, in mode k mod 8.
fn full_size() -> Tables {
    let (mut rows, mut arrows) = (Vec::new(), Vec::new());
    for k in 0..1_024 {
        rows.extend([k % 128, k / 128]);
    }
    for k in 0..512 {
        arrows.extend([k % 128, 255 - k / 128, k % 8, k / 8 % 2]);
    }
    tables(&[[0; 128], [1; 128]].concat(), &rows, &arrows)
}

/// Where the rows of a full-size picture stand in the file, at both ends of some blocks.
fn places(report: &mut Report) {
    let t = full_size();
    let file = pack("full size", &t, PACKED_ROOM, Ok(8_704), report);
    let records: [(usize, &[u8]); 17] = [
        (0, &[1, 0, 0, 0, 0, 1, 0, 0, 0]),
        (135, &[0, 1]),
        (263, &[1, 0]),
        (520, &[0, 0, 0, 0, 1, 0, 0, 0]),
        (1_016, &[124, 0, 0, 0]),
        (1_024, &[2, 0, 2, 0, 125, 0, 0, 0, 125, 0, 0, 0]),
        (1_044, &[0, 0, 1, 0]),
        (1_536, &[2, 0, 3, 0, 125, 0, 0, 0, 122, 0, 1, 0]),
        (4_600, &[103, 0, 7, 0]),
        (4_608, &[2, 0, 9, 0, 24, 0, 0, 0, 104, 0, 7, 0]),
        (4_708, &[127, 0, 7, 0, 0, 0, 0, 0]),
        (5_120, &[3, 0, 10, 0, 83, 0, 0, 0, 0, 0, 255, 0, 0, 0]),
        (5_134, &[1, 0, 255, 0, 1, 0]),
        (5_620, &[82, 0, 255, 0, 2, 0, 0, 0]),
        (5_632, &[3, 0, 11, 0, 83, 0, 0, 0, 83, 0, 255, 0, 3, 0]),
        (8_192, &[3, 0, 16, 0, 14, 0, 0, 0, 114, 0, 252, 0, 2, 0]),
        (8_278, &[127, 0, 252, 0, 7, 1, 0, 0]),
    ];
    for (at, want) in records {
        let got = file.get(at..at + want.len());
        report.same(&format!("full size: bytes from {at}"), got, Some(want));
    }
    let filler = [264..508, 4_712..5_116, 8_284..8_700];
    for places in filler {
        let zero = file.get(places).map(|f| f.iter().all(|&byte| byte == 0));
        report.same("full size: filler", zero, Some(true));
    }
    read_back("full size", &t, &file, report);
}

/// Both sides of each limit, with a file that would do for more.
fn limits(report: &mut Report) {
    const ROOM: usize = 20_000;
    for (n, count) in [(255, [255, 0]), (256, [0, 1])] {
        let t = tables(&vec![3; n], &[], &[]);
        let file = pack("many boxes", &t, ROOM, Ok(512), report);
        report.same("many boxes", heads(&file), vec![(1, [0, 0], count, true)]);
        read_back("many boxes", &t, &file, report);
    }
    let boxes = |n: usize| tables(&vec![3; n], &[], &[]);
    let rows = |count: usize| tables(&[0], &[0, 0].repeat(count), &[]);
    let arrows = |count: usize| tables(&[0, 1], &[], &[0, 1, 0, 1].repeat(count));
    let too_many = |table: u64, count: u64| Err((2, [table, count, 0]));
    for lent in [0, 512, 8_704, ROOM] {
        pack("257 boxes", &boxes(257), lent, too_many(0, 257), report);
        pack("1,025 rows", &rows(1_025), lent, too_many(1, 1_025), report);
        pack("513 arrows", &arrows(513), lent, too_many(2, 513), report);
        // 1 before 2 before 3 and 4, and the lowest table.
        let mut t = rows(1_025);
        t.boxes = vec![9; 300];
        pack("too many of two", &t, lent, too_many(0, 300), report);
        t.boxes.truncate(256);
        pack("2 before 3", &t, lent, too_many(1, 1_025), report);
        t.rows.push(9);
        pack("1 before 2", &t, lent, Err((1, [1, 2_051, 0])), report);
    }
    pack("1,024 rows", &rows(1_024), ROOM, Ok(5_120), report);
    pack("512 arrows", &arrows(512), ROOM, Ok(4_096), report);
}

/// The bytes that are needed about each full block of rows and of arrows: another block from one
/// more on.
fn full_blocks(report: &mut Report) {
    for (what, full, most) in [("rows", 125, 1_024), ("arrows", 83, 512)] {
        for blocks in 1..=most / full {
            for (count, more) in [
                (full * blocks - 1, 0),
                (full * blocks, 0),
                (full * blocks + 1, 1),
            ] {
                let (rows, arrows) = match what {
                    "rows" => (count, 0),
                    _ => (0, count),
                };
                let t = tables(&[0, 1], &[0, 0].repeat(rows), &[0, 1, 7, 1].repeat(arrows));
                let needed = 512 * (1 + blocks + more) as u64;
                let got = lend(&t).pack(&mut []).map_err(|refusal| refusal.numbers());
                report.same(&format!("{count} {what}"), got, Err((9, [8, needed, 0])));
            }
        }
    }
}

/// Refusals 1 and 3 to 7, whatever is lent.
fn faulty(report: &mut Report) {
    for &(what, boxes, rows, arrows, want) in FAULTY {
        let t = tables(boxes, rows, arrows);
        for lent in [0, 511, 512, 1_536, PACKED_ROOM] {
            pack(what, &t, lent, Err(want), report);
        }
    }
}

/// That no two of some pictures have the same packed bytes.
fn apart(report: &mut Report) {
    let packed = |&(boxes, rows, arrows): &(&[u8], &[u16], &[u16])| {
        let mut file = vec![BEFORE; PACKED_ROOM];
        let length = lend(&tables(boxes, rows, arrows)).pack(&mut file).ok()?;
        file.truncate(length);
        Some(file)
    };
    let files: Vec<Option<Vec<u8>>> = APART.iter().map(packed).collect();
    for (k, file) in files.iter().enumerate() {
        let others = files[..k].iter().any(|other| other == file);
        let told = file.is_some() && !others;
        report.same(&format!("bytes of {:?}", APART[k]), told, true);
    }
}

/// B in loose blocks is packed as B.
fn loose(report: &mut Report) {
    let file = include_bytes!("../samples/loose-blocks.blk");
    let mut t = tables(&[9; 4], &[9; 4], &[9; 8]);
    let got = lent::read(file, &mut t.boxes, &mut t.rows, &mut t.arrows);
    report.same("loose blocks", (file.len(), got.is_ok()), (3_072, true));
    let packed = pack("loose blocks", &t, 1_536, Ok(1_536), report);
    report.same("loose blocks", packed, file_b());
}

pub fn run(report: &mut Report) {
    for case in WHOLE {
        one_whole(case, report);
    }
    for case in LONG {
        one_long(case, report);
    }
    places(report);
    limits(report);
    full_blocks(report);
    faulty(report);
    apart(report);
    loose(report);
    report.same("room for a packed file", PACKED_ROOM, 8_704);
}
