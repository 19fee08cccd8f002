//! What is measured: pictures with their calls, and series of pictures that grow.

use super::pictures::{self, Picture};
use super::sides::Call::{self, *};

/// Key, picture, blocks of its file (at least), calls.
pub type Line = (&'static str, fn() -> Picture, usize, &'static [Call]);

pub const CASES: &[Line] = &[
    (
        "typical",
        || pictures::typical(512),
        0,
        &[Fill, Entry, Judge, Matrix, List, Atoms, Read, Pack],
    ),
    (
        "every-64",
        || pictures::every_pair(64, 64, 512),
        0,
        &[Fill, Entry, Judge, Matrix, List],
    ),
    (
        "every-125",
        || pictures::every_pair(125, 3, 512),
        0,
        &[Fill, Entry, Judge, Matrix, List],
    ),
    (
        "left-32",
        || pictures::candidates_left(32, 32, 512),
        0,
        &[Entry, Judge, Matrix, List],
    ),
    (
        "left-full",
        || pictures::candidates_left(125, 124, 512),
        0,
        &[Entry, Judge, Matrix, List],
    ),
    (
        "single",
        || pictures::single_boxes(128, 128, 512),
        0,
        &[Fill, Judge, Matrix, List],
    ),
    (
        "staircase",
        || pictures::staircase(22),
        0,
        &[Judge, Matrix, List],
    ),
    (
        "thin-staircase",
        pictures::thin_staircase,
        0,
        &[Matrix, List],
    ),
    ("ring", || pictures::ring(42), 0, &[List]),
    ("chain-down", || pictures::chain(256, true), 0, &[Fill]),
    ("chain-up", || pictures::chain(256, false), 0, &[Fill]),
    (
        "random-rows",
        || pictures::random_rows(256, 1024),
        64,
        &[Fill, Entry, Judge, Matrix, Read, Pack],
    ),
    ("crowd", || pictures::crowd(3, 8), 0, &[Judge, Matrix, List]),
    (
        "crowd-1-mode",
        || pictures::crowd(4, 1),
        0,
        &[Judge, Matrix, List],
    ),
];

/// Pictures of growing size and the calls on them, a row of the growth table for each call. The key
/// is what `--only` looks for.
pub struct Series {
    pub key: &'static str,
    pub says: &'static str,
    pub sizes: &'static [usize],
    pub build: fn(usize) -> Picture,
    pub calls: &'static [Call],
}

const BOXES: &[usize] = &[64, 128, 256];
const ROWS: &[usize] = &[128, 256, 512, 1024];
const ARROWS: &[usize] = &[64, 128, 256, 512];
/// Of users, or of files.
const ATOMS: &[usize] = &[32, 64, 128];

pub const GROWTH: &[Series] = &[
    // boxes
    Series {
        key: "grow-chain",
        says: "chain: boxes",
        sizes: BOXES,
        build: |n| pictures::chain(n, true),
        calls: &[Fill],
    },
    Series {
        key: "grow-boxes",
        says: "256 random rows: boxes",
        sizes: BOXES,
        build: |n| pictures::random_rows(n, 256),
        calls: &[Fill],
    },
    Series {
        key: "grow-boxes-rows",
        says: "random rows, 4 to a box, 512 arrows: boxes",
        sizes: BOXES,
        build: |n| pictures::random_rows(n, 4 * n),
        calls: &[Fill, Pack],
    },
    // rows
    Series {
        key: "grow-rows",
        says: "256 boxes: random rows",
        sizes: ROWS,
        build: |n| pictures::random_rows(256, n),
        calls: &[Fill],
    },
    Series {
        key: "grow-groups",
        says: "crowd of 96x96 pairs: groups around each user, folders around each file",
        sizes: &[1, 2, 4],
        build: |n| pictures::crowd_of_kinds(96, n),
        calls: &[Judge, Matrix, List],
    },
    // arrows
    Series {
        key: "grow-typical",
        says: "core facility: arrows",
        sizes: ARROWS,
        build: pictures::typical,
        calls: &[Entry, Judge, Matrix, List],
    },
    Series {
        key: "grow-single",
        says: "128x128 pairs, arrows between single boxes: arrows",
        sizes: ARROWS,
        build: |n| pictures::single_boxes(128, 128, n),
        calls: &[Matrix, List],
    },
    // pairs
    Series {
        key: "grow-users",
        says: "128 files, 512 arrows between single boxes: users",
        sizes: ATOMS,
        build: |n| pictures::single_boxes(n, 128, 512),
        calls: &[Judge, Matrix, List],
    },
    Series {
        key: "grow-files",
        says: "128 users, 512 arrows between single boxes: files",
        sizes: ATOMS,
        build: |n| pictures::single_boxes(128, n, 512),
        calls: &[Judge, Matrix, List],
    },
    // crowded rows
    Series {
        key: "grow-every",
        says: "64x64 pairs that all arrows reach, nested 64 deep: arrows",
        sizes: ARROWS,
        build: |n| pictures::every_pair(64, 64, n),
        calls: &[Judge, Matrix, List],
    },
    Series {
        key: "grow-depth",
        says: "64x64 pairs that 512 arrows reach: depth",
        sizes: &[4, 16, 64],
        build: |n| pictures::every_pair(64, n, 512),
        calls: &[Matrix],
    },
    Series {
        key: "grow-left",
        says: "125x124 pairs that all arrows reach, candidates left: arrows",
        sizes: ARROWS,
        build: |n| pictures::candidates_left(125, 124, n),
        calls: &[Matrix],
    },
    Series {
        key: "grow-kinds",
        says: "crowd of 96x96 pairs, 512 arrows: kinds of users and of files",
        sizes: &[8, 24, 96],
        build: |n| pictures::crowd_of_kinds(n, 4),
        calls: &[Judge, Matrix, List],
    },
    Series {
        key: "grow-staircase",
        says: "staircase, an arrow for each two steps: steps",
        sizes: &[5, 11, 22],
        build: pictures::staircase,
        calls: &[Judge, Matrix, List],
    },
];
