//! The lettered pictures A to J, the three traps, lists, scratches, groups that have emptied, the
//! limits and some orders of refusals, with expectations written by hand from documents 01 and 02.
//! Each is put to the library through the Rust package and to the model.

use super::checker::{self, Answer, Known, Lists, Tables};
use super::compare_answer;
use super::generator::{self, Random};
use super::packing_cases;
use rights::lent::{self, Counts};

/// Number and three numbers of a refusal.
pub type Refused = (u32, [u64; 3]);

struct Case {
    name: &'static str,
    boxes: &'static [u8],
    rows: &'static [u16],
    arrows: &'static [u16],
    judge: Option<Refused>,
    /// Bytes and numbers of mode 0; none where the matrix is refused as the judge is.
    matrix: Option<(&'static [u8], &'static [u16])>,
    entries: &'static [(u16, u16, Answer)],
    list: List,
}

enum List {
    Refused(Refused),
    Written(&'static [u16]),
}

const NONE: u16 = 65_535;

const CASES: &[Case] = &[
    Case {
        name: "A: no boxes",
        boxes: &[],
        rows: &[],
        arrows: &[],
        judge: None,
        matrix: Some((&[], &[])),
        entries: &[],
        list: List::Written(&[]),
    },
    Case {
        name: "B: a person against the group; trap 1 would make it unclear",
        boxes: &[0, 0, 0, 1],
        rows: &[2, 0, 2, 1],
        arrows: &[0, 3, 0, 1, 2, 3, 0, 0],
        judge: None,
        matrix: Some((&[1, 0], &[0, 1])),
        entries: &[(0, 3, Answer::Granted(0)), (1, 3, Answer::Denied(1))],
        list: List::Written(&[0, 1]),
    },
    Case {
        name: "C: both signs between two boxes",
        boxes: &[0, 1],
        rows: &[],
        arrows: &[0, 1, 0, 1, 0, 1, 0, 0],
        judge: Some((12, [0, 0, 1])),
        matrix: Some((&[2], &[NONE])),
        entries: &[(0, 1, Answer::Unclear(0, 1))],
        list: List::Refused((12, [0, 0, 1])),
    },
    Case {
        name: "D: crossing groups",
        boxes: &[0, 0, 0, 1],
        rows: &[1, 0, 2, 0],
        arrows: &[1, 3, 0, 1, 2, 3, 0, 0],
        judge: Some((12, [0, 0, 3])),
        matrix: Some((&[2], &[NONE])),
        entries: &[(0, 3, Answer::Unclear(0, 1))],
        list: List::Refused((12, [0, 0, 3])),
    },
    Case {
        name: "E: D, settled by a single arrow; the list holds arrow 0, not the certificate",
        boxes: &[0, 0, 0, 1],
        rows: &[1, 0, 2, 0],
        arrows: &[1, 3, 0, 1, 2, 3, 0, 0, 0, 3, 0, 1],
        judge: None,
        matrix: Some((&[1], &[2])),
        entries: &[(0, 3, Answer::Granted(2))],
        list: List::Written(&[0]),
    },
    Case {
        name: "F: deeper by one end each",
        boxes: &[0, 0, 1, 1],
        rows: &[1, 0, 3, 2],
        arrows: &[1, 2, 0, 1, 0, 3, 0, 0],
        judge: Some((12, [0, 0, 2])),
        matrix: Some((&[2], &[NONE])),
        entries: &[(0, 2, Answer::Unclear(0, 1))],
        list: List::Refused((12, [0, 0, 2])),
    },
    Case {
        name: "G: no arrow",
        boxes: &[0, 1],
        rows: &[],
        arrows: &[],
        judge: None,
        matrix: Some((&[0], &[NONE])),
        entries: &[(0, 1, Answer::Default)],
        list: List::Written(&[]),
    },
    Case {
        name: "H: a box inside itself",
        boxes: &[0],
        rows: &[0, 0],
        arrows: &[],
        judge: Some((10, [0, 0, 0])),
        matrix: None,
        entries: &[],
        list: List::Refused((10, [0, 0, 0])),
    },
    Case {
        name: "I: the lowest certificate, not the deepest",
        boxes: &[0, 0, 1],
        rows: &[1, 0],
        arrows: &[1, 2, 0, 1, 0, 2, 0, 1],
        judge: None,
        matrix: Some((&[1], &[0])),
        entries: &[(0, 2, Answer::Granted(0))],
        list: List::Written(&[0]),
    },
    Case {
        name: "J: the ring; trap 3 would write a list",
        boxes: BOXES_J,
        rows: ROWS_J,
        arrows: &[2, 8, 0, 1, 3, 9, 0, 0, 4, 10, 0, 1, 5, 11, 0, 0],
        judge: None,
        matrix: Some((&[0, 1, 1, 0], &[1, 0, 2, 3])),
        entries: &[
            (0, 6, Answer::Denied(1)),
            (0, 7, Answer::Granted(0)),
            (1, 6, Answer::Granted(2)),
            (1, 7, Answer::Denied(3)),
        ],
        list: List::Refused((13, [0, 0, 7])),
    },
    Case {
        // Arrow 0 wins by its tail, arrow 1 by its head, neither by both.
        name: "trap 2: no certificate made of two arrows",
        boxes: &[0, 0, 0, 1, 1, 1],
        rows: &[1, 0, 2, 1, 4, 3, 5, 4],
        arrows: &[0, 5, 0, 1, 2, 3, 0, 1, 1, 4, 0, 0],
        judge: Some((12, [0, 0, 3])),
        matrix: Some((&[2], &[NONE])),
        entries: &[(0, 3, Answer::Unclear(0, 2))],
        list: List::Refused((12, [0, 0, 3])),
    },
    Case {
        name: "a conflict in mode 7 only",
        boxes: &[0, 1],
        rows: &[],
        arrows: &[0, 1, 7, 1, 0, 1, 7, 0],
        judge: Some((12, [7, 0, 1])),
        matrix: Some((&[0], &[NONE])),
        entries: &[(0, 1, Answer::Default)],
        list: List::Written(&[]),
    },
    Case {
        name: "two granted pairs that need two arrows",
        boxes: &[0, 0, 1],
        rows: &[],
        arrows: &[0, 2, 0, 1, 1, 2, 0, 1],
        judge: None,
        matrix: Some((&[1, 1], &[0, 1])),
        entries: &[(0, 2, Answer::Granted(0)), (1, 2, Answer::Granted(1))],
        list: List::Written(&[0, 1]),
    },
    Case {
        name: "unclear shows the positive arrow first, also the higher one",
        boxes: &[0, 1],
        rows: &[],
        arrows: &[0, 1, 0, 0, 0, 1, 0, 1],
        judge: Some((12, [0, 0, 1])),
        matrix: Some((&[2], &[NONE])),
        entries: &[(0, 1, Answer::Unclear(1, 0))],
        list: List::Refused((12, [0, 0, 1])),
    },
    Case {
        name: "a box of byte 0 with nothing in it is a user, a repeated row changes nothing",
        boxes: &[0, 0, 0, 1],
        rows: &[1, 0, 1, 0],
        arrows: &[2, 3, 0, 1],
        judge: None,
        matrix: Some((&[0, 1], &[NONE, 0])),
        entries: &[(0, 3, Answer::Default), (2, 3, Answer::Granted(0))],
        list: List::Written(&[0]),
    },
    Case {
        name: "the lowest box on a loop, not below it",
        boxes: &[0, 0],
        rows: &[0, 1, 1, 1],
        arrows: &[],
        judge: Some((10, [1, 0, 0])),
        matrix: None,
        entries: &[],
        list: List::Refused((10, [1, 0, 0])),
    },
    Case {
        name: "users only: no pairs",
        boxes: &[0, 0],
        rows: &[],
        arrows: &[],
        judge: None,
        matrix: Some((&[], &[])),
        entries: &[],
        list: List::Written(&[]),
    },
    Case {
        name: "B, its arrow rows swapped: the group's arrow is blocked by user 0 at first",
        boxes: &[0, 0, 0, 1],
        rows: &[2, 0, 2, 1],
        arrows: &[2, 3, 0, 0, 0, 3, 0, 1],
        judge: None,
        matrix: Some((&[1, 0], &[1, 0])),
        entries: &[(0, 3, Answer::Granted(1)), (1, 3, Answer::Denied(0))],
        list: List::Written(&[1, 0]),
    },
    Case {
        name: "one negative arrow, which no granted pair needs",
        boxes: &[0, 1],
        rows: &[],
        arrows: &[0, 1, 0, 0],
        judge: None,
        matrix: Some((&[0], &[0])),
        entries: &[(0, 1, Answer::Denied(0))],
        list: List::Written(&[0]),
    },
    Case {
        name: "repeated arrows: the lowest number only",
        boxes: &[0, 0, 1],
        rows: &[],
        arrows: &[1, 2, 0, 0, 0, 2, 0, 1, 0, 2, 0, 1, 1, 2, 0, 0],
        judge: None,
        matrix: Some((&[1, 0], &[1, 0])),
        entries: &[(0, 2, Answer::Granted(1)), (1, 2, Answer::Denied(0))],
        list: List::Written(&[0, 1]),
    },
    Case {
        // Arrow 0 from group 3 must wait for arrow 1, as it would deny user 0. Then it is the
        // lowest that can follow, and stands before arrow 2, which could follow from the start.
        name: "an arrow that was blocked stands behind a higher one and before another",
        boxes: &[0, 0, 0, 0, 1],
        rows: &[3, 0, 3, 1],
        arrows: &[3, 4, 0, 0, 0, 4, 0, 1, 2, 4, 0, 1],
        judge: None,
        matrix: Some((&[1, 0, 1], &[1, 0, 2])),
        entries: &[(1, 4, Answer::Denied(0)), (2, 4, Answer::Granted(2))],
        list: List::Written(&[1, 0, 2]),
    },
    Case {
        // Arrow 4 opens the ring. Arrow 0 is blocked by (1,7) until arrow 3 reaches that, and by
        // then it reaches nothing new.
        name: "J with a positive arrow from 0 to 7: arrow 0 never appears",
        boxes: BOXES_J,
        rows: ROWS_J,
        arrows: &[2, 8, 0, 1, 3, 9, 0, 0, 4, 10, 0, 1, 5, 11, 0, 0, 0, 7, 0, 1],
        judge: None,
        matrix: Some((&[0, 1, 1, 0], &[1, 0, 2, 3])),
        entries: &[(0, 7, Answer::Granted(0)), (1, 7, Answer::Denied(3))],
        list: List::Written(&[4, 1, 2, 3]),
    },
    Case {
        // J with a user in front and a file behind, joined by arrow 4, which can stand in a list.
        name: "13 names the pair that is left, not the first granted one",
        boxes: &[0, 0, 0, 0, 0, 0, 0, 1, 1, 1, 1, 1, 1, 1],
        rows: &[
            3, 1, 3, 6, 4, 1, 5, 4, 5, 2, 6, 2, 9, 8, 10, 9, 10, 7, 11, 7, 12, 11, 12, 8,
        ],
        arrows: &[
            3, 9, 0, 1, 4, 10, 0, 0, 5, 11, 0, 1, 6, 12, 0, 0, 0, 13, 0, 1,
        ],
        judge: None,
        matrix: Some((
            &[0, 0, 1, 0, 1, 0, 1, 0, 0],
            &[NONE, NONE, 4, 1, 0, NONE, 2, 3, NONE],
        )),
        entries: &[(0, 13, Answer::Granted(4)), (1, 8, Answer::Granted(0))],
        list: List::Refused((13, [0, 1, 8])),
    },
    Case {
        // User 0 in group 1 in group 2, which denies.
        name: "an arrow overrides one whose tail is around its own through others only",
        boxes: &[0, 0, 0, 1],
        rows: &[1, 0, 2, 1],
        arrows: &[2, 3, 0, 0, 0, 3, 0, 1],
        judge: None,
        matrix: Some((&[1], &[1])),
        entries: &[(0, 3, Answer::Granted(1))],
        list: List::Written(&[1]),
    },
    Case {
        name: "the same, with the user drawn in group 2 as well",
        boxes: &[0, 0, 0, 1],
        rows: &[1, 0, 2, 1, 2, 0],
        arrows: &[2, 3, 0, 0, 0, 3, 0, 1],
        judge: None,
        matrix: Some((&[1], &[1])),
        entries: &[(0, 3, Answer::Granted(1))],
        list: List::Written(&[1]),
    },
    Case {
        // Arrow 0 reaches both users, and arrows 1 and 2 only what it reached before.
        name: "arrows that reach nothing new never appear",
        boxes: &[0, 0, 0, 1],
        rows: &[2, 0, 2, 1],
        arrows: &[2, 3, 0, 1, 0, 3, 0, 1, 1, 3, 0, 1],
        judge: None,
        matrix: Some((&[1, 1], &[0, 0])),
        entries: &[(0, 3, Answer::Granted(0)), (1, 3, Answer::Granted(0))],
        list: List::Written(&[0]),
    },
];

/// Tables that checks 1 to 7 refuse, and how.
const REFUSED: &[(&str, &[u8], &[u16], &[u16], Refused)] = &[
    (
        "ragged containments",
        &[0],
        &[0, 0, 0],
        &[0],
        (1, [1, 3, 0]),
    ),
    ("ragged arrows", &[0], &[], &[0, 0], (1, [2, 2, 0])),
    ("box byte", &[3, 4, 255], &[9, 9], &[], (3, [1, 0, 0])),
    ("box byte 4", &[0, 4, 1], &[], &[], (3, [1, 0, 0])),
    (
        "4 in row 1 before 5 in row 0",
        &[0, 1],
        &[0, 1, 0, 2],
        &[],
        (4, [1, 0, 0]),
    ),
    ("across sides", &[0, 1], &[0, 0, 1, 0], &[], (5, [1, 0, 0])),
    ("a folder in a group", &[2, 3], &[0, 1], &[], (5, [0, 0, 0])),
    (
        "an arrow from a folder",
        &[3, 3],
        &[],
        &[0, 1, 0, 1],
        (6, [0, 0, 0]),
    ),
    (
        "an arrow to a group, behind one to a folder",
        &[2, 2, 3],
        &[],
        &[0, 2, 0, 1, 0, 1, 0, 1],
        (6, [1, 0, 0]),
    ),
    (
        "6 in row 1 before 7 in row 0",
        &[0, 1],
        &[],
        &[0, 1, 8, 0, 1, 0, 0, 0],
        (6, [1, 0, 0]),
    ),
    (
        "tail beyond the boxes",
        &[0, 1],
        &[],
        &[2, 1, 0, 0],
        (6, [0, 0, 0]),
    ),
    (
        "mode 8",
        &[0, 1],
        &[],
        &[0, 1, 7, 1, 0, 1, 8, 1],
        (7, [1, 0, 0]),
    ),
    ("sign 2", &[0, 1], &[], &[0, 1, 7, 2], (7, [0, 0, 0])),
];

/// A call for the atomic boxes. Its buffers hold nines before.
struct AtomsCase<'a> {
    name: &'static str,
    boxes: &'static [u8],
    rows: &'static [u16],
    /// How many atomic users and files, or the refusal.
    result: Result<[usize; 2], Refused>,
    /// The buffers afterwards.
    users: &'a [u16],
    files: &'a [u16],
}

const BOXES_B: &[u8] = &[0, 0, 0, 1];
const ROWS_B: &[u16] = &[2, 0, 2, 1];
const BOXES_J: &[u8] = &[0, 0, 0, 0, 0, 0, 1, 1, 1, 1, 1, 1];
const ROWS_J: &[u16] = &[
    2, 0, 2, 5, 3, 0, 4, 3, 4, 1, 5, 1, 8, 7, 9, 8, 9, 6, 10, 6, 11, 10, 11, 7,
];

const ATOMS: &[AtomsCase] = &[
    AtomsCase {
        name: "atoms of A",
        boxes: &[],
        rows: &[],
        result: Ok([0, 0]),
        users: &[],
        files: &[],
    },
    AtomsCase {
        name: "atoms of B, places beyond them",
        boxes: BOXES_B,
        rows: ROWS_B,
        result: Ok([2, 1]),
        users: &[0, 1, 9],
        files: &[3, 9],
    },
    AtomsCase {
        name: "atoms of B, a place short for the users",
        boxes: BOXES_B,
        rows: ROWS_B,
        result: Err((9, [11, 2, 0])),
        users: &[9],
        files: &[],
    },
    AtomsCase {
        name: "atoms of B, a place short for the files",
        boxes: BOXES_B,
        rows: ROWS_B,
        result: Err((9, [12, 1, 0])),
        users: &[9, 9],
        files: &[],
    },
    AtomsCase {
        name: "atoms of H: a box that contains itself is the outer one of a row, and no fault here",
        boxes: &[0],
        rows: &[0, 0],
        result: Ok([0, 0]),
        users: &[9],
        files: &[],
    },
    AtomsCase {
        name: "atoms of J",
        boxes: BOXES_J,
        rows: ROWS_J,
        result: Ok([2, 2]),
        users: &[0, 1],
        files: &[6, 7],
    },
    AtomsCase {
        name: "atoms of both sides in turns; boxes 1 to 4 are in no row",
        boxes: &[1, 0, 1, 0, 0, 1],
        rows: &[5, 0, 5, 0],
        result: Ok([3, 2]),
        users: &[1, 3, 4],
        files: &[0, 2],
    },
    AtomsCase {
        name: "atoms: ragged containments",
        boxes: &[4],
        rows: &[0, 0, 0],
        result: Err((1, [1, 3, 0])),
        users: &[9, 9],
        files: &[9, 9],
    },
    AtomsCase {
        name: "atoms: a box byte",
        boxes: &[3, 4],
        rows: &[9, 9],
        result: Err((3, [1, 0, 0])),
        users: &[],
        files: &[],
    },
    AtomsCase {
        name: "atoms: 4 in row 1 before 5 in row 0",
        boxes: &[0, 1],
        rows: &[0, 1, 0, 2],
        result: Err((4, [1, 0, 0])),
        users: &[9, 9],
        files: &[9, 9],
    },
    AtomsCase {
        name: "atoms: across sides, before 9",
        boxes: &[0, 1],
        rows: &[0, 1],
        result: Err((5, [0, 0, 0])),
        users: &[],
        files: &[],
    },
];

/// A picture and the scratch that every call leaves, answered or refused.
struct ScratchCase {
    name: &'static str,
    boxes: &'static [u8],
    rows: &'static [u16],
    arrows: &'static [u16],
    /// User and file of the entry.
    asked: (u16, u16),
    /// The refusals of judge, entry, matrix and list, the last three for mode 0.
    refused: [Option<Refused>; 4],
    /// A line for each outer box, a digit for each inner one.
    scratch: &'static [&'static str],
}

const SCRATCHES: &[ScratchCase] = &[
    ScratchCase {
        name: "A",
        boxes: &[],
        rows: &[],
        arrows: &[],
        asked: (0, 0),
        refused: [None, Some((11, [0, 0, 0])), None, None],
        scratch: &[],
    },
    ScratchCase {
        name: "directly and through others",
        boxes: &[0, 0, 0],
        rows: &[0, 1, 1, 2, 0, 2],
        arrows: &[],
        asked: (1, 2),
        refused: [None, Some((11, [1, 2, 0])), None, None],
        scratch: &["022", "002", "000"],
    },
    ScratchCase {
        name: "directly and through others, the direct row first",
        boxes: &[1, 1, 1],
        rows: &[0, 2, 0, 1, 1, 2],
        arrows: &[],
        asked: (1, 2),
        refused: [None, Some((11, [1, 2, 0])), None, None],
        scratch: &["022", "002", "000"],
    },
    ScratchCase {
        name: "through others only",
        boxes: &[0, 0, 0],
        rows: &[0, 1, 1, 2],
        arrows: &[],
        asked: (2, 0),
        refused: [None, Some((11, [2, 0, 0])), None, None],
        scratch: &["021", "002", "000"],
    },
    ScratchCase {
        name: "through others only, files, their numbers falling",
        boxes: &[1, 1, 1, 1],
        rows: &[3, 2, 2, 1, 1, 0],
        arrows: &[],
        asked: (0, 0),
        refused: [None, Some((11, [0, 0, 0])), None, None],
        scratch: &["0000", "2000", "1200", "1120"],
    },
    ScratchCase {
        name: "a direct row over three others, one of them repeated",
        boxes: &[0, 0, 0, 0],
        rows: &[2, 3, 0, 1, 1, 2, 0, 1, 0, 3],
        arrows: &[],
        asked: (3, 3),
        refused: [None, Some((11, [3, 3, 0])), None, None],
        scratch: &["0212", "0021", "0002", "0000"],
    },
    ScratchCase {
        name: "a row three times, another twice",
        boxes: &[0, 0, 0],
        rows: &[0, 1, 0, 1, 1, 2, 0, 1, 1, 2],
        arrows: &[],
        asked: (2, 2),
        refused: [None, Some((11, [2, 2, 0])), None, None],
        scratch: &["021", "002", "000"],
    },
    ScratchCase {
        name: "H: a row from a box to itself",
        boxes: &[0],
        rows: &[0, 0],
        arrows: &[],
        asked: (0, 0),
        refused: [Some((10, [0, 0, 0])); 4],
        scratch: &["2"],
    },
    ScratchCase {
        name: "a loop of two",
        boxes: &[0, 0],
        rows: &[0, 1, 1, 0],
        arrows: &[],
        asked: (0, 0),
        refused: [Some((10, [0, 0, 0])); 4],
        scratch: &["12", "21"],
    },
    ScratchCase {
        name: "a row from an inner box to itself",
        boxes: &[0, 0],
        rows: &[0, 1, 1, 1],
        arrows: &[],
        asked: (0, 0),
        refused: [Some((10, [1, 0, 0])); 4],
        scratch: &["02", "02"],
    },
    ScratchCase {
        name: "a loop of three with a box around it and one inside",
        boxes: &[1, 1, 1, 1, 1],
        rows: &[1, 2, 2, 3, 3, 1, 0, 1, 3, 4],
        arrows: &[],
        asked: (0, 0),
        refused: [Some((10, [1, 0, 0])); 4],
        scratch: &["02111", "01211", "01121", "02112", "00000"],
    },
    ScratchCase {
        name: "a loop of two, one of them in itself as well",
        boxes: &[0, 0],
        rows: &[0, 1, 1, 0, 1, 1],
        arrows: &[],
        asked: (0, 0),
        refused: [Some((10, [0, 0, 0])); 4],
        scratch: &["12", "22"],
    },
    ScratchCase {
        name: "B",
        boxes: BOXES_B,
        rows: ROWS_B,
        arrows: &[0, 3, 0, 1, 2, 3, 0, 0],
        asked: (0, 3),
        refused: [None; 4],
        scratch: &["0000", "0000", "2200", "0000"],
    },
    ScratchCase {
        name: "B, asked for the group",
        boxes: BOXES_B,
        rows: ROWS_B,
        arrows: &[0, 3, 0, 1, 2, 3, 0, 0],
        asked: (2, 3),
        refused: [None, Some((11, [2, 3, 0])), None, None],
        scratch: &["0000", "0000", "2200", "0000"],
    },
    ScratchCase {
        name: "trap 2: an unclear pair",
        boxes: &[0, 0, 0, 1, 1, 1],
        rows: &[1, 0, 2, 1, 4, 3, 5, 4],
        arrows: &[0, 5, 0, 1, 2, 3, 0, 1, 1, 4, 0, 0],
        asked: (0, 3),
        refused: [Some((12, [0, 0, 3])), None, None, Some((12, [0, 0, 3]))],
        scratch: &["000000", "200000", "120000", "000000", "000200", "000120"],
    },
    ScratchCase {
        name: "J: no order",
        boxes: BOXES_J,
        rows: ROWS_J,
        arrows: &[2, 8, 0, 1, 3, 9, 0, 0, 4, 10, 0, 1, 5, 11, 0, 0],
        asked: (1, 7),
        refused: [None, None, None, Some((13, [0, 0, 7]))],
        scratch: &[
            "000000000000", // 0, a user
            "000000000000", // 1, a user
            "210002000000", // 2 holds 0 and 5, so 1
            "200000000000", // 3 holds 0
            "120200000000", // 4 holds 3 and 1, so 0
            "020000000000", // 5 holds 1
            "000000000000", // 6, a file
            "000000000000", // 7, a file
            "000000020000", // 8 holds 7
            "000000212000", // 9 holds 8 and 6, so 7
            "000000200000", // 10 holds 6
            "000000120020", // 11 holds 10 and 7, so 6
        ],
    },
];

/// A picture with user groups or folders, through every call.
struct GroupCase {
    case: Case,
    /// The atomic users and files.
    users: &'static [u16],
    files: &'static [u16],
    /// The scratch, a line for each outer box, a digit for each inner one.
    scratch: &'static [&'static str],
    listing: &'static str,
}

const GROUPS: &[GroupCase] = &[
    GroupCase {
        case: Case {
            name: "a group, drawn with 0, that holds user 0",
            boxes: &[0, 0, 1],
            rows: &[1, 0],
            arrows: &[1, 2, 0, 1],
            judge: None,
            matrix: Some((&[1], &[0])),
            entries: &[(0, 2, Answer::Granted(0))],
            list: List::Written(&[0]),
        },
        users: &[0],
        files: &[2],
        scratch: &["000", "200", "000"],
        listing: "boxes 3 containments 1 arrows 1\n\
            0 0 2 pos 0\n\
            accepted\n",
    },
    GroupCase {
        case: Case {
            name: "the same group drawn with 2",
            boxes: &[0, 2, 1],
            rows: &[1, 0],
            arrows: &[1, 2, 0, 1],
            judge: None,
            matrix: Some((&[1], &[0])),
            entries: &[(0, 2, Answer::Granted(0))],
            list: List::Written(&[0]),
        },
        users: &[0],
        files: &[2],
        scratch: &["000", "200", "000"],
        listing: "boxes 3 containments 1 arrows 1\n\
            0 0 2 pos 0\n\
            accepted\n",
    },
    GroupCase {
        case: Case {
            name: "user 0 has left the group drawn with 0, which turns into a user",
            boxes: &[0, 0, 1],
            rows: &[],
            arrows: &[1, 2, 0, 1],
            judge: None,
            matrix: Some((&[0, 1], &[NONE, 0])),
            entries: &[(0, 2, Answer::Default), (1, 2, Answer::Granted(0))],
            list: List::Written(&[0]),
        },
        users: &[0, 1],
        files: &[2],
        scratch: &["000", "000", "000"],
        listing: "boxes 3 containments 0 arrows 1\n\
            0 0 2 neg -\n\
            0 1 2 pos 0\n\
            accepted\n",
    },
    GroupCase {
        case: Case {
            name: "user 0 has left the group drawn with 2, which stays a group",
            boxes: &[0, 2, 1],
            rows: &[],
            arrows: &[1, 2, 0, 1],
            judge: None,
            matrix: Some((&[0], &[NONE])),
            entries: &[(0, 2, Answer::Default)],
            list: List::Written(&[]),
        },
        users: &[0],
        files: &[2],
        scratch: &["000", "000", "000"],
        listing: "boxes 3 containments 0 arrows 1\n\
            0 0 2 neg -\n\
            accepted\n",
    },
    GroupCase {
        case: Case {
            name: "file 2 in the folder drawn with 3",
            boxes: &[0, 3, 1],
            rows: &[1, 2],
            arrows: &[0, 1, 0, 1],
            judge: None,
            matrix: Some((&[1], &[0])),
            entries: &[(0, 2, Answer::Granted(0))],
            list: List::Written(&[0]),
        },
        users: &[0],
        files: &[2],
        scratch: &["000", "002", "000"],
        listing: "boxes 3 containments 1 arrows 1\n\
            0 0 2 pos 0\n\
            accepted\n",
    },
    GroupCase {
        case: Case {
            name: "file 2 has left the folder drawn with 3, which stays a folder",
            boxes: &[0, 3, 1],
            rows: &[],
            arrows: &[0, 1, 0, 1],
            judge: None,
            matrix: Some((&[0], &[NONE])),
            entries: &[(0, 2, Answer::Default)],
            list: List::Written(&[]),
        },
        users: &[0],
        files: &[2],
        scratch: &["000", "000", "000"],
        listing: "boxes 3 containments 0 arrows 1\n\
            0 0 2 neg -\n\
            accepted\n",
    },
    GroupCase {
        case: Case {
            name: "file 2 has left the folder drawn with 1, which turns into a file",
            boxes: &[0, 1, 1],
            rows: &[],
            arrows: &[0, 1, 0, 1],
            judge: None,
            matrix: Some((&[1, 0], &[0, NONE])),
            entries: &[(0, 1, Answer::Granted(0)), (0, 2, Answer::Default)],
            list: List::Written(&[0]),
        },
        users: &[0],
        files: &[1, 2],
        scratch: &["000", "000", "000"],
        listing: "boxes 3 containments 0 arrows 1\n\
            0 0 1 pos 0\n\
            0 0 2 neg -\n\
            accepted\n",
    },
    GroupCase {
        case: Case {
            name: "a box of byte 0 around an empty group only is no user",
            boxes: &[0, 0, 2, 1],
            rows: &[1, 2],
            arrows: &[1, 3, 0, 1, 0, 3, 0, 0],
            judge: None,
            matrix: Some((&[0], &[1])),
            entries: &[(0, 3, Answer::Denied(1))],
            list: List::Written(&[1]),
        },
        users: &[0],
        files: &[3],
        scratch: &["0000", "0020", "0000", "0000"],
        listing: "boxes 4 containments 1 arrows 2\n\
            0 0 3 neg 1\n\
            accepted\n",
    },
    GroupCase {
        case: Case {
            name: "a box of byte 1 around an empty folder only is no file",
            boxes: &[1, 1, 3, 0],
            rows: &[1, 2],
            arrows: &[3, 1, 0, 1, 3, 0, 0, 0],
            judge: None,
            matrix: Some((&[0], &[1])),
            entries: &[(3, 0, Answer::Denied(1))],
            list: List::Written(&[1]),
        },
        users: &[3],
        files: &[0],
        scratch: &["0000", "0020", "0000", "0000"],
        listing: "boxes 4 containments 1 arrows 2\n\
            0 3 0 neg 1\n\
            accepted\n",
    },
    GroupCase {
        case: Case {
            name: "nothing but an empty group and an empty folder: no pairs",
            boxes: &[2, 3],
            rows: &[],
            arrows: &[0, 1, 0, 1],
            judge: None,
            matrix: Some((&[], &[])),
            entries: &[],
            list: List::Written(&[]),
        },
        users: &[],
        files: &[],
        scratch: &["00", "00"],
        listing: "boxes 2 containments 0 arrows 1\n\
            accepted\n",
    },
    GroupCase {
        case: Case {
            name: "users, but folders only",
            boxes: &[0, 3, 0],
            rows: &[],
            arrows: &[2, 1, 0, 0, 0, 1, 5, 1],
            judge: None,
            matrix: Some((&[], &[])),
            entries: &[],
            list: List::Written(&[]),
        },
        users: &[0, 2],
        files: &[],
        scratch: &["000", "000", "000"],
        listing: "boxes 3 containments 0 arrows 2\n\
            accepted\n",
    },
    GroupCase {
        case: Case {
            name: "both signs from an empty group are no conflict",
            boxes: &[2, 0, 1],
            rows: &[],
            arrows: &[0, 2, 0, 1, 0, 2, 0, 0, 1, 2, 0, 1],
            judge: None,
            matrix: Some((&[1], &[2])),
            entries: &[(1, 2, Answer::Granted(2))],
            list: List::Written(&[2]),
        },
        users: &[1],
        files: &[2],
        scratch: &["000", "000", "000"],
        listing: "boxes 3 containments 0 arrows 3\n\
            0 1 2 pos 2\n\
            accepted\n",
    },
    GroupCase {
        case: Case {
            // Box 0 holds group 1, which holds group 2.
            name: "groups that hold only each other are all empty",
            boxes: &[0, 2, 2, 0, 1],
            rows: &[1, 2, 0, 1],
            arrows: &[0, 4, 0, 1, 2, 4, 0, 0, 3, 4, 0, 1, 1, 4, 0, 0],
            judge: None,
            matrix: Some((&[1], &[2])),
            entries: &[(3, 4, Answer::Granted(2))],
            list: List::Written(&[2]),
        },
        users: &[3],
        files: &[4],
        scratch: &["02100", "00200", "00000", "00000", "00000"],
        listing: "boxes 5 containments 2 arrows 4\n\
            0 3 4 pos 2\n\
            accepted\n",
    },
    GroupCase {
        case: Case {
            // Group 1 holds user 0 and the empty group 2.
            name: "an arrow from an empty group does not reach those beside it",
            boxes: &[0, 2, 2, 1],
            rows: &[1, 0, 1, 2],
            arrows: &[2, 3, 0, 1, 1, 3, 0, 0],
            judge: None,
            matrix: Some((&[0], &[1])),
            entries: &[(0, 3, Answer::Denied(1))],
            list: List::Written(&[1]),
        },
        users: &[0],
        files: &[3],
        scratch: &["0000", "2020", "0000", "0000"],
        listing: "boxes 4 containments 2 arrows 2\n\
            0 0 3 neg 1\n\
            accepted\n",
    },
    GroupCase {
        case: Case {
            name: "B, its group drawn with 2",
            boxes: &[0, 0, 2, 1],
            rows: ROWS_B,
            arrows: &[0, 3, 0, 1, 2, 3, 0, 0],
            judge: None,
            matrix: Some((&[1, 0], &[0, 1])),
            entries: &[(0, 3, Answer::Granted(0)), (1, 3, Answer::Denied(1))],
            list: List::Written(&[0, 1]),
        },
        users: &[0, 1],
        files: &[3],
        scratch: &["0000", "0000", "2200", "0000"],
        listing: LISTING_B,
    },
    GroupCase {
        case: Case {
            name: "D, its groups drawn with 2 and 0",
            boxes: &[0, 2, 0, 1],
            rows: &[1, 0, 2, 0],
            arrows: &[1, 3, 0, 1, 2, 3, 0, 0],
            judge: Some((12, [0, 0, 3])),
            matrix: Some((&[2], &[NONE])),
            entries: &[(0, 3, Answer::Unclear(0, 1))],
            list: List::Refused((12, [0, 0, 3])),
        },
        users: &[0],
        files: &[3],
        scratch: &["0000", "2000", "2000", "0000"],
        listing: "boxes 4 containments 2 arrows 2\n\
            0 0 3 ambig 0 1\n\
            ambiguous 0 0 3\n",
    },
    GroupCase {
        case: Case {
            name: "J, its groups drawn with 2, its folders with 3",
            boxes: &[0, 0, 2, 2, 2, 2, 1, 1, 3, 3, 3, 3],
            rows: ROWS_J,
            arrows: &[2, 8, 0, 1, 3, 9, 0, 0, 4, 10, 0, 1, 5, 11, 0, 0],
            judge: None,
            matrix: Some((&[0, 1, 1, 0], &[1, 0, 2, 3])),
            entries: &[(0, 6, Answer::Denied(1)), (0, 7, Answer::Granted(0))],
            list: List::Refused((13, [0, 0, 7])),
        },
        users: &[0, 1],
        files: &[6, 7],
        scratch: &[
            "000000000000",
            "000000000000",
            "210002000000",
            "200000000000",
            "120200000000",
            "020000000000",
            "000000000000",
            "000000000000",
            "000000020000",
            "000000212000",
            "000000200000",
            "000000120020",
        ],
        listing: "boxes 12 containments 12 arrows 4\n\
            0 0 6 neg 1\n\
            0 0 7 pos 0\n\
            0 1 6 pos 2\n\
            0 1 7 neg 3\n\
            accepted\n",
    },
    GroupCase {
        case: Case {
            name: "two groups that hold each other",
            boxes: &[2, 2, 3],
            rows: &[0, 1, 1, 0],
            arrows: &[1, 2, 0, 1],
            judge: Some((10, [0, 0, 0])),
            matrix: None,
            entries: &[],
            list: List::Refused((10, [0, 0, 0])),
        },
        users: &[],
        files: &[],
        scratch: &["120", "210", "000"],
        listing: "refused 10 0 0 0\n",
    },
];

/// Published values of FNV-1a with 32 bits.
const FNV: &[(&[u8], u32)] = &[
    (b"", 0x811c_9dc5),
    (b"a", 0xe40c_292c),
    (b"b", 0xe70c_2de5),
    (b"foobar", 0xbf9c_f968),
];

/// The block file of case B: what stands in it that isn't zero, block by block.
const FILE_B: [&[(usize, u8)]; 3] = [
    &[
        (0, 1),
        (4, 4),
        (11, 1),
        (508, 0xd3),
        (509, 0x74),
        (510, 0x47),
        (511, 0x2a),
    ],
    &[
        (0, 2),
        (2, 1),
        (4, 2),
        (8, 2),
        (12, 2),
        (14, 1),
        (508, 0x05),
        (509, 0x17),
        (510, 0x4f),
        (511, 0xf5),
    ],
    &[
        (0, 3),
        (2, 2),
        (4, 2),
        (10, 3),
        (13, 1),
        (14, 2),
        (16, 3),
        (508, 0x73),
        (509, 0x74),
        (510, 0xdc),
        (511, 0xc5),
    ],
];

const LISTING_B: &str = "boxes 4 containments 2 arrows 2\n\
    0 0 3 pos 0\n\
    0 1 3 neg 1\n\
    accepted\n";

pub fn file_b() -> Vec<u8> {
    let mut file = vec![0; 3 * 512];
    for (block, bytes) in FILE_B.iter().enumerate() {
        for &(at, byte) in bytes.iter() {
            file[512 * block + at] = byte;
        }
    }
    file
}

/// Counts what was checked and keeps what went wrong.
#[derive(Default)]
pub struct Report {
    pub passed: usize,
    pub failed: Vec<String>,
}

impl Report {
    pub fn same<T: PartialEq + std::fmt::Debug>(&mut self, what: &str, got: T, want: T) {
        if got == want {
            self.passed += 1;
        } else {
            self.failed
                .push(format!("{what}: got {got:?}, want {want:?}"));
        }
    }
}

fn numbers<T>(result: &Result<T, rights::Refusal>) -> Option<Refused> {
    result.as_ref().err().map(|refusal| refusal.numbers())
}

fn model_numbers<T>(result: &Result<T, checker::Refusal>) -> Option<Refused> {
    result.as_ref().err().map(|r| (r.number, r.places))
}

impl Case {
    fn lend(&self) -> lent::Tables<'static> {
        lent::Tables {
            boxes: self.boxes,
            containments: self.rows,
            arrows: self.arrows,
        }
    }

    fn known(&self) -> Known {
        Known::new(&Tables {
            boxes: self.boxes.to_vec(),
            rows: self.rows.to_vec(),
            arrows: self.arrows.to_vec(),
        })
    }

    /// How many pairs it has. Of the cases without a matrix none has any.
    fn pairs(&self) -> usize {
        self.matrix.map_or(0, |(bytes, _)| bytes.len())
    }
}

fn one_case(case: &Case, report: &mut Report) {
    let (picture, known, pairs) = (case.lend(), case.known(), case.pairs());
    let needed = case.boxes.len() * case.boxes.len();
    let mut scratch = vec![9; needed];

    let what = format!("{}: judge", case.name);
    let got = picture.judge(&mut scratch);
    report.same(&what, numbers(&got), case.judge);
    let model = checker::judge(&known, &vec![9; needed]);
    report.same(&what, model_numbers(&model.result), case.judge);

    for &(user, file, want) in case.entries {
        let what = format!("{}: entry {user}, {file}", case.name);
        let got = picture.entry(user, file, 0, &mut scratch);
        report.same(&what, got.ok().map(compare_answer), Some(want));
        let model = checker::entry(&known, user, file, 0, &vec![9; needed]);
        report.same(&what, model.result.ok(), Some(want));
    }

    let what = format!("{}: matrix", case.name);
    let (mut bytes, mut arrows) = (vec![9; pairs], vec![9; pairs]);
    let got = picture.matrix(0, &mut scratch, &mut bytes, &mut arrows);
    let model = checker::matrix(
        &known,
        0,
        &vec![9; needed],
        &vec![9; pairs],
        &vec![9; pairs],
    );
    match case.matrix {
        Some((want_bytes, want_arrows)) => {
            report.same(&what, numbers(&got), None);
            report.same(&what, (&bytes[..], &arrows[..]), (want_bytes, want_arrows));
            let got = (&model.bytes[..], &model.numbers[..]);
            report.same(&what, got, (want_bytes, want_arrows));
        }
        None => {
            report.same(&what, numbers(&got), case.judge);
            report.same(&what, model_numbers(&model.result), case.judge);
        }
    }

    one_list(case, 0, report);
    one_list(case, 1, report);
}

/// The list of mode 0, with so many list places and work bytes more than needed.
fn one_list(case: &Case, spare: usize, report: &mut Report) {
    let what = format!("{}: list", case.name);
    let pairs = case.pairs();
    let places = case.arrows.chunks(4).filter(|row| row[2] == 0).count();
    let mut scratch = vec![9; case.boxes.len() * case.boxes.len()];
    let (mut list, mut work) = (vec![9; places + spare], vec![9; pairs + spare]);
    let (mut want_list, mut want_work) = (list.clone(), work.clone());
    let model = checker::list(&case.known(), 0, &scratch, &list, &work);
    let got = case.lend().list(0, &mut scratch, &mut list, &mut work);

    // The result, the first list places afterwards, and how many work bytes are 0 then.
    let (result, first, zeros) = match case.list {
        List::Written(list) => (Ok(list.len()), list.to_vec(), pairs),
        List::Refused(refused @ (13, _)) => (Err(refused), vec![NONE; places], pairs),
        List::Refused(refused) => (Err(refused), vec![], 0),
    };
    want_list[..first.len()].copy_from_slice(&first);
    want_work[..zeros].fill(0);
    let want = (result, want_list, want_work);
    let got = got.map_err(|refusal| refusal.numbers());
    report.same(&what, (got, list, work), want.clone());
    let got = model.result.map_err(|r| (r.number, r.places));
    report.same(&what, (got, model.list, model.work), want);
}

/// The refusal of a call, if any, and the scratch after it.
type Left = (Option<Refused>, Vec<u8>);

/// Long enough for the other buffers of every scratch case.
const ROOM: usize = 8;

impl ScratchCase {
    /// After judge, entry, matrix and list of the library.
    fn library(&self, scratch: &[u8]) -> [Left; 4] {
        let picture = lent::Tables {
            boxes: self.boxes,
            containments: self.rows,
            arrows: self.arrows,
        };
        let (user, file) = self.asked;
        let after = |call: &dyn Fn(&mut [u8]) -> Option<Refused>| {
            let mut lent = scratch.to_vec();
            (call(&mut lent), lent)
        };
        [
            after(&|lent| numbers(&picture.judge(lent))),
            after(&|lent| numbers(&picture.entry(user, file, 0, lent))),
            after(&|lent| numbers(&picture.matrix(0, lent, &mut [9; ROOM], &mut [9; ROOM]))),
            after(&|lent| numbers(&picture.list(0, lent, &mut [9; ROOM], &mut [9; ROOM]))),
        ]
    }

    fn model(&self, scratch: &[u8]) -> [Left; 4] {
        let known = Known::new(&Tables {
            boxes: self.boxes.to_vec(),
            rows: self.rows.to_vec(),
            arrows: self.arrows.to_vec(),
        });
        let (user, file) = self.asked;
        let judge = checker::judge(&known, scratch);
        let entry = checker::entry(&known, user, file, 0, scratch);
        let matrix = checker::matrix(&known, 0, scratch, &[9; ROOM], &[9; ROOM]);
        let list = checker::list(&known, 0, scratch, &[9; ROOM], &[9; ROOM]);
        [
            (model_numbers(&judge.result), judge.scratch),
            (model_numbers(&entry.result), entry.scratch),
            (model_numbers(&matrix.result), matrix.scratch),
            (model_numbers(&list.result), list.scratch),
        ]
    }
}

/// The scratch after each call, lent with three bytes more than needed, all holding `before`.
fn one_scratch(case: &ScratchCase, before: u8, report: &mut Report) {
    let digits = case.scratch.concat().into_bytes();
    let filled: Vec<u8> = digits.iter().map(|digit| digit - b'0').collect();
    let lent = vec![before; filled.len() + 3];
    let (library, model) = (case.library(&lent), case.model(&lent));
    for (k, call) in ["judge", "entry", "matrix", "list"].iter().enumerate() {
        let what = format!("{}: scratch after {call}", case.name);
        let want = (case.refused[k], [&filled[..], &[before; 3]].concat());
        report.same(&what, &library[k], &want);
        report.same(&what, &model[k], &want);
    }
}

impl GroupCase {
    /// The scratch after every call, where the entry asks for these boxes.
    fn scratch_case(&self, asked: (u16, u16), entry: Option<Refused>) -> ScratchCase {
        let loops = self.case.judge.filter(|(number, _)| *number == 10);
        let list = match self.case.list {
            List::Written(_) => None,
            List::Refused(refused) => Some(refused),
        };
        ScratchCase {
            name: self.case.name,
            boxes: self.case.boxes,
            rows: self.case.rows,
            arrows: self.case.arrows,
            asked,
            refused: [self.case.judge, loops.or(entry), loops, list],
            scratch: self.scratch,
        }
    }

    /// Every box of the user side with every one of the file side: refused by 11 unless both are
    /// atomic.
    fn entries(&self, report: &mut Report) {
        let boxes = self.case.boxes;
        let of_side = |side: u8| {
            let numbers = (0..boxes.len() as u16).zip(boxes);
            numbers.filter(move |(_, byte)| **byte % 2 == side)
        };
        for (user, _) in of_side(0) {
            for (file, _) in of_side(1) {
                let atomic = self.users.contains(&user) && self.files.contains(&file);
                let eleven = Some((11, [user as u64, file as u64, 0]));
                let refused = if atomic { None } else { eleven };
                one_scratch(&self.scratch_case((user, file), refused), 9, report);
            }
        }
    }

    /// The atomic boxes in places that just suffice, in more, and in fewer.
    fn atoms(&self, report: &mut Report) {
        let (users, files) = (self.users, self.files);
        let result = Ok([users.len(), files.len()]);
        let (more_users, more_files) = ([users, &[9]].concat(), [files, &[9]].concat());
        let mut ends = vec![(result, users, files), (result, &more_users, &more_files)];
        let (fewer_users, fewer_files) = (vec![9; users.len()], vec![9; files.len()]);
        if let [_, fewer @ ..] = &fewer_users[..] {
            ends.push((Err((9, [11, users.len() as u64, 0])), fewer, &[]));
        }
        if let [_, fewer @ ..] = &fewer_files[..] {
            let short = Err((9, [12, files.len() as u64, 0]));
            ends.push((short, &fewer_users, fewer));
        }
        for (result, users, files) in ends {
            let case = AtomsCase {
                name: self.case.name,
                boxes: self.case.boxes,
                rows: self.case.rows,
                result,
                users,
                files,
            };
            one_atoms(&case, report);
        }
    }

    /// Refusal 9 for the places of pairs and of the mode's arrows, one place short each.
    fn short_buffers(&self, report: &mut Report) {
        let (picture, pairs) = (self.case.lend(), self.users.len() * self.files.len());
        let arrows = self.case.arrows.chunks(4).filter(|row| row[2] == 0).count();
        let needed = self.case.boxes.len() * self.case.boxes.len();
        let short = |buffer: u64, needed: usize| Some((9, [buffer, needed as u64, 0]));
        let mut matrix = |bytes: usize, arrows: usize, want: Option<Refused>| {
            let mut lent = (vec![9; needed], vec![9; bytes], vec![9; arrows]);
            let before = lent.clone();
            let got = picture.matrix(0, &mut lent.0, &mut lent.1, &mut lent.2);
            report.same(self.case.name, (numbers(&got), lent), (want, before));
        };
        if pairs > 0 {
            matrix(pairs - 1, pairs, short(1, pairs));
            matrix(pairs, pairs - 1, short(2, pairs));
        }
        let mut list = |list: usize, work: usize, want: Option<Refused>| {
            let mut lent = (vec![9; needed], vec![9; list], vec![9; work]);
            let before = lent.clone();
            let got = picture.list(0, &mut lent.0, &mut lent.1, &mut lent.2);
            report.same(self.case.name, (numbers(&got), lent), (want, before));
        };
        if arrows > 0 {
            list(arrows - 1, pairs, short(3, arrows));
        }
        if pairs > 0 {
            list(arrows, pairs - 1, short(4, pairs));
        }
    }

    /// The picture as a file: what is read and what the listing says.
    fn file(&self, report: &mut Report) {
        let tables = Tables {
            boxes: self.case.boxes.to_vec(),
            rows: self.case.rows.to_vec(),
            arrows: self.case.arrows.to_vec(),
        };
        let file = generator::pack(&mut Random::new(0), &tables, false);
        let mut read = Tables {
            boxes: vec![9; tables.boxes.len()],
            rows: vec![9; tables.rows.len()],
            arrows: vec![9; tables.arrows.len()],
        };
        let got = lent::read(&file, &mut read.boxes, &mut read.rows, &mut read.arrows);
        report.same(self.case.name, numbers(&got), None);
        report.same(self.case.name, &read, &tables);
        let what = format!("{}: listing", self.case.name);
        report.same(&what, &checker::listing(&file)[..], self.listing);
    }
}

fn one_group(group: &GroupCase, report: &mut Report) {
    one_case(&group.case, report);
    group.entries(report);
    group.atoms(report);
    group.short_buffers(report);
    group.file(report);
}

/// Document 01 says of case B: "One list that qualifies is 0, 1; another is 0. The list 1, 0
/// doesn't."
fn lists_of_b(report: &mut Report) {
    let known = Known::new(&Tables {
        boxes: BOXES_B.to_vec(),
        rows: ROWS_B.to_vec(),
        arrows: vec![0, 3, 0, 1, 2, 3, 0, 0],
    });
    let lists = Lists::new(known.sound().expect("B has no fault"), 0);
    for (list, qualifies) in [(&[0, 1][..], true), (&[0], true), (&[1, 0], false)] {
        let what = format!("B: list {list:?} qualifies");
        report.same(&what, lists.leaves(list) == Ok(None), qualifies);
    }
}

/// Limits of tables and files.
fn limits(report: &mut Report) {
    for (n, want) in [(256, None), (257, Some((2, [0, 257, 0])))] {
        let boxes = vec![1; n];
        let picture = lent::Tables {
            boxes: &boxes,
            containments: &[],
            arrows: &[],
        };
        let got = picture.judge(&mut vec![9; 65_536]);
        report.same("limit of boxes", numbers(&got), want);
    }
    for (count, want) in [(1024, None), (1025, Some((2, [1, 1025, 0])))] {
        let picture = lent::Tables {
            boxes: &[0, 0],
            containments: &[0, 1].repeat(count),
            arrows: &[],
        };
        let got = picture.judge(&mut [9; 4]);
        report.same("limit of containments", numbers(&got), want);
    }
    for (count, want) in [(512, None), (513, Some((2, [2, 513, 0])))] {
        let picture = lent::Tables {
            boxes: &[0, 1],
            containments: &[],
            arrows: &[0, 1, 7, 1].repeat(count),
        };
        let got = picture.judge(&mut [9; 4]);
        report.same("limit of arrows", numbers(&got), want);
    }
    // The last row of a full table counts.
    let picture = lent::Tables {
        boxes: &[0, 0, 0, 1],
        containments: &[[0, 1].repeat(1023), vec![2, 0]].concat(),
        arrows: &[[1, 3, 7, 1].repeat(511), vec![2, 3, 6, 0]].concat(),
    };
    let mut scratch = [9; 16];
    let got = picture.entry(1, 3, 6, &mut scratch);
    let want = Some(Answer::Denied(511));
    report.same("arrow 511", got.ok().map(compare_answer), want);
    let want = [0, 2, 0, 0, 0, 0, 0, 0, 2, 1, 0, 0, 0, 0, 0, 0];
    report.same("containment 1023", scratch, want);
    // A scratch of one byte less than 256 boxes need.
    let boxes = vec![0; 256];
    let picture = lent::Tables {
        boxes: &boxes,
        containments: &[],
        arrows: &[],
    };
    let got = picture.judge(&mut vec![9; 65_535]);
    report.same("short scratch", numbers(&got), Some((9, [0, 65_536, 0])));
}

/// All 256 boxes in a chain, box a around box a + 1: 255 pairs directly, the others through these.
fn long_chain(report: &mut Report) {
    let tables = Tables {
        boxes: vec![0; 256],
        rows: (0..255).flat_map(|a| [a, a + 1]).collect(),
        arrows: vec![],
    };
    let picture = lent::Tables {
        boxes: &tables.boxes,
        containments: &tables.rows,
        arrows: &[],
    };
    let line = |a: usize| [vec![0; a + 1], vec![2], vec![1; 255]].concat()[..256].to_vec();
    let want: Vec<u8> = (0..256).flat_map(line).chain([9]).collect();
    let mut scratch = vec![9; 65_537];
    let model = checker::judge(&Known::new(&tables), &scratch);
    let got = picture.judge(&mut scratch);
    report.same("chain of 256 boxes", numbers(&got), None);
    report.same("chain of 256 boxes: scratch", scratch == want, true);
    report.same("chain of 256 boxes: scratch", model.scratch == want, true);
}

fn lend(t: &Tables) -> lent::Tables<'_> {
    lent::Tables {
        boxes: &t.boxes,
        containments: &t.rows,
        arrows: &t.arrows,
    }
}

/// That every call on these tables is refused so, if at all, by checks 1 to 7; without a refusal
/// all of them pass these checks.
fn table_checks(what: &str, t: &Tables, want: Option<Refused>, report: &mut Report) {
    let picture = lend(t);
    // A mode that isn't there comes next for three of the calls, a short scratch for judge.
    let n = t.boxes.len();
    let short = (n > 0).then_some((9, [0, (n * n) as u64, 0]));
    report.same(what, numbers(&picture.judge(&mut [])), want.or(short));
    let asked = want.or(Some((8, [8, 0, 0])));
    let got = picture.entry(9, 9, 8, &mut []);
    report.same(what, numbers(&got), asked);
    let got = picture.matrix(8, &mut [], &mut [], &mut []);
    report.same(what, numbers(&got), asked);
    let got = picture.list(8, &mut [], &mut [], &mut []);
    report.same(what, numbers(&got), asked);
    // A block for the boxes, and one for each other table that has rows.
    let blocks = 1 + !t.rows.is_empty() as u64 + !t.arrows.is_empty() as u64;
    let short = Some((9, [8, 512 * blocks, 0]));
    report.same(what, numbers(&picture.pack(&mut [])), want.or(short));
    let known = Known::new(t);
    report.same(what, model_numbers(&known.sound()), want);
}

/// Each box byte, each row and each arrow between boxes of two bytes.
fn bytes_and_sides(report: &mut Report) {
    for byte in 0..=255 {
        let t = Tables {
            boxes: vec![byte],
            ..Tables::default()
        };
        let want = (byte > 3).then_some((3, [0, 0, 0]));
        table_checks(&format!("a box of byte {byte}"), &t, want, report);
    }
    // Rows within a side pass: 0 and 2 are users, 1 and 3 files.
    const ROWS: [(u8, u8); 8] = [
        (0, 0),
        (0, 2),
        (2, 0),
        (2, 2),
        (1, 1),
        (1, 3),
        (3, 1),
        (3, 3),
    ];
    const ARROWS: [(u8, u8); 4] = [(0, 1), (0, 3), (2, 1), (2, 3)];
    for (a, b) in (0..16).map(|k| (k / 4, k % 4)) {
        let mut t = Tables {
            boxes: vec![a, b],
            rows: vec![0, 1],
            arrows: vec![],
        };
        let what = format!("a row from byte {a} to byte {b}");
        let want = (!ROWS.contains(&(a, b))).then_some((5, [0, 0, 0]));
        table_checks(&what, &t, want, report);
        let atoms = lend(&t).atoms(&mut [9; 2], &mut [9; 2]);
        report.same(&what, numbers(&atoms), want);
        (t.rows, t.arrows) = (vec![], vec![0, 1, 7, 1]);
        let what = format!("an arrow from byte {a} to byte {b}");
        let want = (!ARROWS.contains(&(a, b))).then_some((6, [0, 0, 0]));
        table_checks(&what, &t, want, report);
    }
}

/// Places for pairs are counted, without the empty group, before 10 is found.
fn pairs_before_loops(report: &mut Report) {
    let picture = lent::Tables {
        boxes: &[0, 2, 2, 1],
        containments: &[2, 2],
        arrows: &[1, 3, 0, 1],
    };
    for (bytes, numbers_len, want) in [
        (0, 1, (9, [1, 1, 0])),
        (1, 0, (9, [2, 1, 0])),
        (1, 1, (10, [2, 0, 0])),
    ] {
        let (mut scratch, mut bytes) = (vec![9; 16], vec![9; bytes]);
        let mut arrows = vec![9; numbers_len];
        let got = picture.matrix(0, &mut scratch, &mut bytes, &mut arrows);
        report.same("pairs before a loop", numbers(&got), Some(want));
        let filled = if want.0 == 10 { 2 } else { 9 };
        report.same("pairs before a loop: scratch", scratch[10], filled);
    }
    let got = picture.list(0, &mut [9; 16], &mut [9], &mut []);
    report.same("pairs before a loop", numbers(&got), Some((9, [4, 1, 0])));
    let got = picture.list(0, &mut [9; 16], &mut [], &mut [9]);
    report.same("pairs before a loop", numbers(&got), Some((9, [3, 1, 0])));
    let got = picture.list(0, &mut [9; 16], &mut [9], &mut [9]);
    report.same("pairs before a loop", numbers(&got), Some((10, [2, 0, 0])));
}

/// A file of 256 boxes with every byte there is: reading passes them on, judging refuses box 4.
fn any_byte(report: &mut Report) {
    let tables = Tables {
        boxes: (0..=255).collect(),
        ..Tables::default()
    };
    let file = generator::pack(&mut Random::new(0), &tables, false);
    let mut boxes = [9; 257];
    let got = lent::read(&file, &mut boxes, &mut [], &mut []);
    let counts = Counts {
        boxes: 256,
        containments: 0,
        arrows: 0,
    };
    report.same("a file of every byte", got, Ok(counts));
    let kept = boxes[..256] == tables.boxes && boxes[256] == 9;
    report.same("a file of every byte: boxes", kept, true);
    let model = checker::read(&file, &[9; 257], &[], &[]);
    let kept = model.boxes == boxes;
    report.same("a file of every byte: model", kept, true);
    let got = lent::Tables {
        boxes: &boxes[..256],
        ..lent::Tables::default()
    }
    .judge(&mut []);
    report.same("every byte", numbers(&got), Some((3, [4, 0, 0])));
    let listing = checker::listing(&file);
    report.same("every byte: listing", &listing[..], "refused 3 4 0 0\n");
}

fn refused(report: &mut Report) {
    for &(what, boxes, rows, arrows, want) in REFUSED {
        let t = Tables {
            boxes: boxes.to_vec(),
            rows: rows.to_vec(),
            arrows: arrows.to_vec(),
        };
        table_checks(what, &t, Some(want), report);
    }
    // 8 before 9 before 10 before 11.
    let loop_h = lent::Tables {
        boxes: &[0],
        containments: &[0, 0],
        arrows: &[],
    };
    let got = loop_h.entry(5, 6, 8, &mut []);
    report.same("8 first", numbers(&got), Some((8, [8, 0, 0])));
    let got = loop_h.entry(5, 6, 7, &mut []);
    report.same("9 next", numbers(&got), Some((9, [0, 1, 0])));
    let mut scratch = [9, 9];
    let got = loop_h.entry(5, 6, 7, &mut scratch);
    report.same("10 next", numbers(&got), Some((10, [0, 0, 0])));
    report.same("10 fills the scratch", scratch, [2, 9]);
    let group = lent::Tables {
        boxes: &[0, 0, 1],
        containments: &[1, 0],
        arrows: &[],
    };
    let got = group.entry(1, 2, 7, &mut [9; 9]);
    report.same("a group is no user", numbers(&got), Some((11, [1, 2, 0])));
}

/// An entry that asks for an empty group or folder, or for both, and one beside them.
fn asked_empty(report: &mut Report) {
    let empty = lent::Tables {
        boxes: &[0, 2, 1, 3],
        containments: &[],
        arrows: &[],
    };
    for (user, file) in [(1, 2), (0, 3), (1, 3)] {
        let got = empty.entry(user, file, 7, &mut [9; 16]);
        let want = Some((11, [user as u64, file as u64, 0]));
        report.same("an empty group or folder", numbers(&got), want);
    }
    let got = empty.entry(0, 2, 7, &mut [9; 16]);
    report.same("beside both", got, Ok(rights::Answer::DeniedByDefault));
}

fn one_atoms(case: &AtomsCase, report: &mut Report) {
    // Arrows are no part of the call, however wrong.
    let picture = lent::Tables {
        boxes: case.boxes,
        containments: case.rows,
        arrows: &[9, 9, 9],
    };
    let (mut users, mut files) = (vec![9; case.users.len()], vec![9; case.files.len()]);
    let model = checker::atoms(
        &Tables {
            boxes: case.boxes.to_vec(),
            rows: case.rows.to_vec(),
            arrows: vec![9, 9, 9],
        },
        &users,
        &files,
    );
    let got = picture.atoms(&mut users, &mut files);
    let got = got.map(|counts| [counts.users, counts.files]);
    let result = got.map_err(|refusal| refusal.numbers());
    let want = (case.result, case.users, case.files);
    report.same(case.name, (result, &users[..], &files[..]), want);
    let result = model.result.map_err(|r| (r.number, r.places));
    report.same(
        case.name,
        (result, &model.users[..], &model.files[..]),
        want,
    );
}

fn limits_of_atoms(report: &mut Report) {
    for (n, want) in [(256, None), (257, Some((2, [0, 257, 0])))] {
        let picture = lent::Tables {
            boxes: &vec![0; n],
            ..lent::Tables::default()
        };
        let got = picture.atoms(&mut [9; 256], &mut []);
        report.same("atoms: limit of boxes", numbers(&got), want);
    }
    for (count, want) in [(1024, None), (1025, Some((2, [1, 1025, 0])))] {
        let picture = lent::Tables {
            boxes: &[0, 0],
            containments: &[0, 1].repeat(count),
            ..lent::Tables::default()
        };
        let got = picture.atoms(&mut [9], &mut []);
        report.same("atoms: limit of containments", numbers(&got), want);
    }
}

fn files(report: &mut Report) {
    for &(bytes, want) in FNV {
        report.same("published FNV value", checker::fnv(bytes), want);
    }
    let file = file_b();
    let read = |file: &[u8], lengths: [usize; 3]| {
        let [boxes, rows, arrows] = lengths;
        let (mut boxes, mut rows, mut arrows) = (vec![9; boxes], vec![9; rows], vec![9; arrows]);
        let got = lent::read(file, &mut boxes, &mut rows, &mut arrows);
        (got, boxes, rows, arrows)
    };
    let counts = Counts {
        boxes: 4,
        containments: 2,
        arrows: 2,
    };
    report.same(
        "file of case B",
        read(&file, [5, 5, 9]),
        (
            Ok(counts),
            vec![0, 0, 0, 1, 9],
            vec![2, 0, 2, 1, 9],
            vec![0, 3, 0, 1, 2, 3, 0, 0, 9],
        ),
    );
    let short = |lengths| numbers(&read(&file, lengths).0);
    report.same("short boxes", short([3, 3, 7]), Some((9, [5, 4, 0])));
    report.same("short rows", short([4, 3, 7]), Some((9, [6, 4, 0])));
    report.same("short arrows", short([4, 4, 7]), Some((9, [7, 8, 0])));
    let cut = |length: usize| numbers(&read(&file[..length], [4, 4, 8]).0);
    report.same("512 bytes", cut(512), None);
    report.same("511 bytes", cut(511), Some((14, [511, 0, 0])));
    report.same("no bytes", cut(0), Some((14, [0, 0, 0])));
    report.same(
        "listing of B",
        checker::listing(&file),
        LISTING_B.to_string(),
    );
    let beyond = vec![0; 40_000];
    report.same(
        "listing of a long input",
        checker::listing(&beyond),
        "refused 14 32769 0 0\n".to_string(),
    );
}

pub fn run() -> Report {
    let mut report = Report::default();
    for case in CASES {
        one_case(case, &mut report);
    }
    for case in SCRATCHES {
        one_scratch(case, 2, &mut report);
        one_scratch(case, 9, &mut report);
    }
    for group in GROUPS {
        one_group(group, &mut report);
    }
    lists_of_b(&mut report);
    bytes_and_sides(&mut report);
    pairs_before_loops(&mut report);
    any_byte(&mut report);
    limits(&mut report);
    long_chain(&mut report);
    refused(&mut report);
    asked_empty(&mut report);
    for case in ATOMS {
        one_atoms(case, &mut report);
    }
    limits_of_atoms(&mut report);
    files(&mut report);
    packing_cases::run(&mut report);
    report.same("version", rights::version(), (4, 0, 0));
    report
}
