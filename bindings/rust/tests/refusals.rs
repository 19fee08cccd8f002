//! Which refusal the calls on a picture answer with, what refusals print, and what groups that have
//! emptied answer.

use rights::lent::{Tables, PACKED_ROOM};
use rights::{Answer, Arrow, BoxKind, Buffer, Cell, Mode, Picture, Refusal, Sign, Table};

fn arrow(tail: u16, head: u16, mode: u16, sign: Sign) -> Arrow {
    let mode = Mode::new(mode).unwrap();
    Arrow {
        tail,
        head,
        mode,
        sign,
    }
}

/// The refusal of every call on the picture, which must be the same; a picture with a box that
/// contains itself is packed.
fn refused(picture: &Picture) -> Refusal {
    let mode = Mode::new(0).unwrap();
    let refusal = picture.judge().unwrap_err();
    assert_eq!(picture.entry(0, 0, mode), Err(refusal));
    assert_eq!(picture.matrix(mode), Err(refusal));
    assert_eq!(picture.list(mode), Err(refusal));
    match refusal {
        Refusal::ContainsItself { .. } => assert!(picture.pack().is_ok()),
        _ => assert_eq!(picture.pack(), Err(refusal)),
    }
    refusal
}

#[test]
fn too_many_rows_come_first() {
    let table = Table::Boxes;
    let mut picture = Picture {
        boxes: vec![BoxKind::User; 100_000],
        ..Picture::default()
    };
    let count = picture.boxes.len();
    assert_eq!(refused(&picture), Refusal::TooManyRows { table, count });
    assert_eq!(picture.atoms(), Err(Refusal::TooManyRows { table, count }));

    // The containment alone is refused by 4, and so are the atoms; 513 arrows are refused by 2.
    picture.boxes = vec![BoxKind::User, BoxKind::File];
    picture.containments = vec![(0, 2)];
    picture.arrows = vec![arrow(0, 1, 0, Sign::Positive); 513];
    let (table, count) = (Table::Arrows, 513);
    assert_eq!(refused(&picture), Refusal::TooManyRows { table, count });
    assert_eq!(picture.atoms(), Err(Refusal::NoSuchBox { row: 0 }));
}

#[test]
fn faults_of_rows() {
    let mut picture = Picture {
        boxes: vec![BoxKind::User, BoxKind::File],
        containments: vec![(0, 1)],
        arrows: vec![arrow(1, 0, 0, Sign::Negative)],
    };
    assert_eq!(refused(&picture), Refusal::AcrossSides { row: 0 });
    picture.containments = vec![(1, 1)];
    assert_eq!(refused(&picture), Refusal::ArrowEnds { row: 0 });
    picture.arrows.clear();
    assert_eq!(refused(&picture), Refusal::ContainsItself { box_number: 1 });
    let atoms = picture.atoms().unwrap();
    assert_eq!((atoms.users, atoms.files), (vec![0], vec![]));
}

#[test]
fn faults_of_groups() {
    // Side by side: a group holds users and groups, a folder files and folders.
    let mut picture = Picture {
        boxes: BoxKind::ALL.to_vec(),
        containments: vec![(2, 0), (3, 1), (2, 3)],
        arrows: vec![
            arrow(2, 3, 0, Sign::Positive),
            arrow(3, 1, 0, Sign::Positive),
        ],
    };
    assert_eq!(refused(&picture), Refusal::AcrossSides { row: 2 });
    assert_eq!(picture.atoms(), Err(Refusal::AcrossSides { row: 2 }));
    picture.containments.pop();
    assert_eq!(refused(&picture), Refusal::ArrowEnds { row: 1 });
    picture.arrows.pop();
    assert_eq!(picture.judge(), Ok(()));
    picture.containments.push((2, 2));
    assert_eq!(refused(&picture), Refusal::ContainsItself { box_number: 2 });
    let tables = Tables {
        boxes: &[3, 2, 4],
        ..Tables::default()
    };
    let refusal = Refusal::BoxByte { box_number: 2 };
    assert_eq!(Picture::try_from(tables), Err(refusal));
    assert_eq!(
        refusal.to_string(),
        "refusal 3: the byte of box 2 is above 3"
    );
}

/// User 0 in box 1, file 2 in box 3, and an arrow from box 1 to box 3.
fn around(group: BoxKind, folder: BoxKind) -> Picture {
    Picture {
        boxes: vec![BoxKind::User, group, BoxKind::File, folder],
        containments: vec![(1, 0), (3, 2)],
        arrows: vec![arrow(1, 3, 0, Sign::Positive)],
    }
}

#[test]
fn groups_that_have_emptied() {
    let mode = Mode::new(0).unwrap();
    // As long as they hold something, groups and folders may be said to be such or not.
    for group in [BoxKind::User, BoxKind::Group] {
        for folder in [BoxKind::File, BoxKind::Folder] {
            let picture = around(group, folder);
            let granted = Answer::Granted { arrow: 0 };
            assert_eq!(picture.entry(0, 2, mode), Ok(granted));
            let matrix = picture.matrix(mode).unwrap();
            assert_eq!((matrix.users(), matrix.files()), (&[0][..], &[2][..]));
            assert_eq!(picture.list(mode), Ok(vec![0]));
        }
    }

    // The last members leave. Drawn as a user and a file they turn into these.
    let mut picture = around(BoxKind::User, BoxKind::File);
    picture.containments.clear();
    let matrix = picture.matrix(mode).unwrap();
    assert_eq!((matrix.users(), matrix.files()), (&[0, 1][..], &[2, 3][..]));
    assert_eq!(matrix.cell(1, 3), Some(Cell::Granted { arrow: 0 }));
    assert_eq!(picture.list(mode), Ok(vec![0]));

    // Drawn as a group and a folder they stay such, and the arrow reaches nothing.
    let mut picture = around(BoxKind::Group, BoxKind::Folder);
    picture.containments.clear();
    let atoms = picture.atoms().unwrap();
    assert_eq!((atoms.users, atoms.files), (vec![0], vec![2]));
    let matrix = picture.matrix(mode).unwrap();
    assert_eq!((matrix.users(), matrix.files()), (&[0][..], &[2][..]));
    assert_eq!(matrix.cell(0, 2), Some(Cell::DeniedByDefault));
    assert_eq!(matrix.cell(1, 3), None);
    assert_eq!(picture.list(mode), Ok(vec![]));
    for (user, file) in [(1, 2), (0, 3), (1, 3)] {
        let refusal = Refusal::NotAtomic { user, file };
        assert_eq!(picture.entry(user, file, mode), Err(refusal));
    }
}

#[test]
fn unclear_pairs() {
    let signs = [Sign::Positive, Sign::Negative];
    let picture = Picture {
        boxes: vec![BoxKind::User, BoxKind::File],
        containments: vec![],
        arrows: signs.map(|sign| arrow(0, 1, 7, sign)).to_vec(),
    };
    let (mode, user, file) = (7, 0, 1);
    let unclear = Err(Refusal::UnclearPair { mode, user, file });
    assert_eq!(picture.judge(), unclear);
    assert_eq!(picture.list(Mode::new(7).unwrap()).map(|_| ()), unclear);
    assert_eq!(picture.list(Mode::new(0).unwrap()), Ok(vec![]));
    let matrix = picture.matrix(Mode::new(7).unwrap()).unwrap();
    assert_eq!(matrix.cell(0, 1), Some(Cell::Unclear));
}

#[test]
fn a_picture_without_pairs() {
    let picture = Picture {
        boxes: vec![BoxKind::User; 3],
        ..Picture::default()
    };
    let matrix = picture.matrix(Mode::new(0).unwrap()).unwrap();
    assert_eq!(matrix.users(), [0, 1, 2]);
    assert!(matrix.rows().all(|(_, cells)| cells.is_empty()));
    assert_eq!(Picture::default().judge(), Ok(()));
}

#[test]
fn buffers_of_the_caller() {
    let tables = Tables {
        boxes: &[0, 1],
        ..Tables::default()
    };
    let short = |buffer, needed| Err(Refusal::BufferShort { buffer, needed });
    assert_eq!(tables.judge(&mut [9; 3]), short(Buffer::Scratch, 4));
    let matrix = tables.matrix(0, &mut [9; 4], &mut [9], &mut []);
    assert_eq!(matrix, short(Buffer::MatrixNumbers, 1));
    let atoms = |users, files| tables.atoms(users, files).map(|_| ());
    assert_eq!(atoms(&mut [], &mut []), short(Buffer::Users, 1));
    assert_eq!(atoms(&mut [9], &mut []), short(Buffer::Files, 1));
}

#[test]
fn buffers_for_a_packed_file() {
    let mut arrows = [0, 1, 7, 1].repeat(84);
    let tables = Tables {
        boxes: &[0, 1],
        containments: &[0, 0].repeat(125),
        arrows: &arrows,
    };
    let (buffer, needed) = (Buffer::PackedFile, 2_048);
    let short = Refusal::BufferShort { buffer, needed };
    assert_eq!(short.numbers(), (9, [8, 2_048, 0]));
    for length in [0, 512, 2_047] {
        let mut file = vec![9; length];
        assert_eq!(tables.pack(&mut file), Err(short));
        assert!(file.iter().all(|&byte| byte == 9));
    }
    let mut file = vec![9; PACKED_ROOM];
    assert_eq!(tables.pack(&mut file), Ok(2_048));
    assert!(file[2_048..].iter().all(|&byte| byte == 9));

    // Faults of the tables come first.
    arrows[4 * 83 + 2] = 8;
    let tables = Tables {
        boxes: &[0, 1],
        arrows: &arrows,
        ..Tables::default()
    };
    let refusal = Refusal::ModeOrSign { row: 83 };
    assert_eq!(tables.pack(&mut []), Err(refusal));
}

#[test]
fn unclear_pictures_are_packed() {
    let signs = [Sign::Positive, Sign::Negative];
    let picture = Picture {
        boxes: vec![BoxKind::Group, BoxKind::Folder],
        containments: vec![],
        arrows: signs.map(|sign| arrow(0, 1, 7, sign)).to_vec(),
    };
    let packed = picture.pack().unwrap();
    assert_eq!(packed.len(), 1_024);
    assert_eq!(Picture::read(&packed), Ok(picture));
}

#[test]
fn what_they_print() {
    let failed: Box<dyn std::error::Error> = Box::new(Mode::new(8).unwrap_err());
    assert_eq!(failed.to_string(), "refusal 8: mode 8 is above 7");
    let (table, count) = (Table::Boxes, 257);
    assert_eq!(
        Refusal::TooManyRows { table, count }.to_string(),
        "refusal 2: 257 boxes are more than there may be"
    );
    let (buffer, needed) = (Buffer::MatrixBytes, 4);
    assert_eq!(
        Refusal::BufferShort { buffer, needed }.to_string(),
        "refusal 9: buffer matrix bytes is too short, 4 places are needed"
    );
    let (buffer, needed) = (Buffer::PackedFile, 1_536);
    assert_eq!(
        Refusal::BufferShort { buffer, needed }.to_string(),
        "refusal 9: buffer packed file is too short, 1536 places are needed"
    );
    let (user, file) = (2, 6);
    assert_eq!(
        Refusal::NotAtomic { user, file }.to_string(),
        "refusal 11: user 2 or file 6 is no atomic box of its side"
    );
}
