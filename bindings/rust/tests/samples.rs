//! Every file of `samples/` through the package: the listing made of its answers must be the one
//! stored beside the file, and a regular file must be what its picture is packed to.

use rights::lent::{self, Tables, PACKED_ROOM};
use rights::{Answer, Mode, Picture, Refusal};
use std::fmt::Write;
use std::fs;
use std::path::PathBuf;

/// The program reads no more of its input than this.
const MOST_INPUT: usize = 32_769;

fn pair_lines(picture: &Picture, mode: Mode) -> Result<String, Refusal> {
    let mut lines = String::new();
    let matrix = picture.matrix(mode)?;
    for (user, cells) in matrix.rows() {
        for (&file, &cell) in matrix.files().iter().zip(cells) {
            let answer = picture.entry(user, file, mode)?;
            assert_eq!(cell.is_granted(), answer.is_granted());
            let said = match answer {
                Answer::Granted { arrow } => format!("pos {arrow}"),
                Answer::Denied { arrow } => format!("neg {arrow}"),
                Answer::DeniedByDefault => "neg -".to_string(),
                Answer::Unclear { positive, negative } => format!("ambig {positive} {negative}"),
            };
            writeln!(lines, "{} {user} {file} {said}", mode.number()).unwrap();
        }
    }
    Ok(lines)
}

fn listing(file: &[u8]) -> Result<String, Refusal> {
    let picture = Picture::read(file)?;
    let last = match picture.judge() {
        Ok(()) => "accepted\n".to_string(),
        Err(Refusal::UnclearPair { mode, user, file }) => {
            format!("ambiguous {mode} {user} {file}\n")
        }
        Err(refusal) => return Err(refusal),
    };
    let mut lines = format!(
        "boxes {} containments {} arrows {}\n",
        picture.boxes.len(),
        picture.containments.len(),
        picture.arrows.len()
    );
    for mode in Mode::ALL {
        if picture.arrows.iter().any(|arrow| arrow.mode == mode) {
            lines += &pair_lines(&picture, mode)?;
        }
    }
    Ok(lines + &last)
}

/// The block files, by name.
fn samples() -> Vec<PathBuf> {
    let entries = fs::read_dir("../../samples").unwrap();
    let mut paths: Vec<PathBuf> = entries.map(|entry| entry.unwrap().path()).collect();
    paths.retain(|path| path.extension() == Some("blk".as_ref()));
    paths.sort();
    paths
}

fn sample(name: &str) -> Vec<u8> {
    fs::read(format!("../../samples/{name}.blk")).unwrap()
}

#[test]
fn every_sample() {
    let mut count = 0;
    for path in samples() {
        let file = fs::read(&path).unwrap();
        let got = listing(&file[..file.len().min(MOST_INPUT)]).unwrap_or_else(|refusal| {
            let (number, [a, b, c]) = refusal.numbers();
            format!("refused {number} {a} {b} {c}\n")
        });
        let want = fs::read_to_string(path.with_extension("txt")).unwrap();
        assert_eq!(got, want, "{}", path.display());
        count += 1;
    }
    assert!(count > 30, "only {count} samples found");
}

#[test]
fn regular_samples_packed() {
    let mut packed = Vec::new();
    for path in samples() {
        let file = fs::read(&path).unwrap();
        let name = path.file_stem().unwrap().to_str().unwrap().to_string();
        let Ok(picture) = Picture::read(&file) else {
            continue;
        };
        let again = picture.pack().unwrap();
        assert_eq!(Picture::read(&again), Ok(picture), "{name}");
        if name != "loose-blocks" {
            assert_eq!(again, file, "{name}");
            packed.push(name);
        }
    }
    // H and the last one have a box that contains itself.
    let mut want: Vec<String> = ('A'..='J').map(String::from).collect();
    want.extend(["groups", "limits", "modes", "refused-10", "shown"].map(String::from));
    assert_eq!(packed, want);
    assert_eq!(sample("limits").len(), PACKED_ROOM);
}

#[test]
fn loose_blocks_packed() {
    let file = sample("loose-blocks");
    let packed = Picture::read(&file).unwrap().pack().unwrap();
    assert_eq!((file.len(), packed.len()), (3_072, 1_536));
    assert_eq!(packed, sample("B"));
}

#[test]
fn faulty_samples_not_packed() {
    for number in 3..=7 {
        let file = sample(&format!("refused-0{number}"));
        let (mut boxes, mut rows, mut arrows) = ([9; 256], [9; 2048], [9; 2048]);
        let counts = lent::read(&file, &mut boxes, &mut rows, &mut arrows).unwrap();
        let tables = Tables {
            boxes: &boxes[..counts.boxes],
            containments: &rows[..2 * counts.containments],
            arrows: &arrows[..4 * counts.arrows],
        };
        let mut lent = [9; PACKED_ROOM];
        let (refused, [a, b, c]) = tables.pack(&mut lent).unwrap_err().numbers();
        let want = fs::read_to_string(format!("../../samples/refused-0{number}.txt")).unwrap();
        assert_eq!(format!("refused {refused} {a} {b} {c}\n"), want);
        assert_eq!(lent, [9; PACKED_ROOM]);
    }
}
