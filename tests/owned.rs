//! The Rust package's pictures that own their rows, beside the model: whatever buffers a call needs
//! are there, so only faults of the picture and the question refuse it.

use super::checker::{self, Known, Tables};
use super::{compare_answer, compare_refusal};
use rights::{lent, Cell, Mode, Picture, Side};
use std::fmt::Debug;

fn same<T: PartialEq + Debug>(call: &str, got: T, want: T) -> Result<(), String> {
    if got == want {
        Ok(())
    } else {
        let place = format!("a picture's {call}");
        Err(format!("{place}: answered {got:?}, should be {want:?}"))
    }
}

fn lend(t: &Tables) -> lent::Tables<'_> {
    lent::Tables {
        boxes: &t.boxes,
        containments: &t.rows,
        arrows: &t.arrows,
    }
}

/// That a picture holds the rows of the tables it was made of, box bytes included, and that each box
/// is on its side.
fn rows_kept(picture: &Picture, t: &Tables) -> Result<(), String> {
    let bytes: Vec<u8> = picture.boxes.iter().map(|&kind| kind as u8).collect();
    same("boxes", &bytes, &t.boxes)?;
    let sides: Vec<Side> = picture.boxes.iter().map(|kind| kind.side()).collect();
    let of_byte = [Side::User, Side::File, Side::User, Side::File];
    let want = t.boxes.iter().map(|&byte| of_byte[byte as usize]);
    same("sides", sides, want.collect())?;
    let pairs = picture.containments.iter();
    let rows: Vec<u16> = pairs.flat_map(|&(outer, inner)| [outer, inner]).collect();
    same("containments", &rows, &t.rows)?;
    let row = |a: &rights::Arrow| [a.tail, a.head, a.mode.number(), a.sign as u16];
    let arrows: Vec<u16> = picture.arrows.iter().flat_map(row).collect();
    same("arrows", &arrows, &t.arrows)
}

/// The calls on the picture of these tables, those of a mode for one mode.
pub fn compare(tables: &Tables, known: &Known, asked: u16) -> Result<(), String> {
    let picture = Picture::try_from(lend(tables)).map_err(compare_refusal);
    let want = known.sound().map(|_| ());
    same("tables", picture.as_ref().map(|_| ()).map_err(|r| *r), want)?;
    if let Ok(picture) = &picture {
        rows_kept(picture, tables)?;
    }
    let mode = Mode::new(asked).map_err(compare_refusal);
    let (Ok(picture), Ok(model), Ok(mode)) = (picture, known.sound(), mode) else {
        return Ok(());
    };
    let scratch = vec![9; model.n * model.n];
    let want = checker::judge(known, &scratch).result;
    same("judge", picture.judge().map_err(compare_refusal), want)?;
    let atoms = picture.atoms().map_err(compare_refusal);
    let want = checker::atoms_of(tables);
    same("atoms", atoms.map(|atoms| [atoms.users, atoms.files]), want)?;
    matrix(&picture, known, model, mode)?;
    list(&picture, known, model, mode)?;
    let group = tables.boxes.iter().position(|&byte| byte == 2);
    let file = model.files.first().map_or(0, |&file| file as u16);
    for user in model.users.last().copied().into_iter().chain(group) {
        let user = user as u16;
        let got = picture.entry(user, file, mode).map(compare_answer);
        let want = checker::entry(known, user, file, asked, &scratch).result;
        same("entry", got.map_err(compare_refusal), want)?;
    }
    Ok(())
}

fn matrix(
    picture: &Picture,
    known: &Known,
    model: &checker::Picture,
    mode: Mode,
) -> Result<(), String> {
    let (n, pairs) = (model.n, model.pairs());
    let (bytes, numbers) = (vec![9; pairs], vec![9; pairs]);
    let want = checker::matrix(known, mode.number(), &vec![9; n * n], &bytes, &numbers);
    let got = match picture.matrix(mode) {
        Ok(got) => got,
        Err(refusal) => return same("matrix", Err(compare_refusal(refusal)), want.result),
    };
    same("matrix", Ok(()), want.result)?;
    let number = |atoms: &[u16]| atoms.iter().map(|&b| b as usize).collect::<Vec<_>>();
    same("matrix users", number(got.users()), model.users.clone())?;
    same("matrix files", number(got.files()), model.files.clone())?;
    let row_users: Vec<u16> = got.rows().map(|(user, _)| user).collect();
    same("matrix rows", &row_users[..], got.users())?;
    let in_rows: Vec<Cell> = got.rows().flat_map(|(_, row)| row.to_vec()).collect();
    for (place, cell) in in_rows.iter().enumerate() {
        let (user, file) = model.pair(place);
        let by_numbers = got.cell(user as u16, file as u16);
        same("matrix cell", by_numbers, Some(*cell))?;
        let plain = match *cell {
            Cell::Granted { arrow } => (1, arrow),
            Cell::Denied { arrow } => (0, arrow),
            Cell::DeniedByDefault => (0, checker::NO_ARROW),
            Cell::Unclear => (2, checker::NO_ARROW),
        };
        let want = (want.bytes[place], want.numbers[place]);
        same(&format!("matrix at {user}, {file}"), plain, want)?;
    }
    same("count of matrix cells", in_rows.len(), pairs)
}

fn list(
    picture: &Picture,
    known: &Known,
    model: &checker::Picture,
    mode: Mode,
) -> Result<(), String> {
    let (n, pairs) = (model.n, model.pairs());
    let places = vec![9; model.of_mode(mode.number()).len()];
    let want = checker::list(
        known,
        mode.number(),
        &vec![9; n * n],
        &places,
        &vec![9; pairs],
    );
    let got = picture.list(mode).map_err(compare_refusal);
    let want = want.result.map(|count| want.list[..count].to_vec());
    same("list", got, want)
}

/// The picture in a file, or its refusal.
pub fn compare_read(file: &[u8]) -> Result<(), String> {
    let want =
        checker::tables_in(file).and_then(|t| Picture::try_from(lend(&t)).map_err(compare_refusal));
    same("file", Picture::read(file).map_err(compare_refusal), want)
}

/// A picture packed: what the model packs, and the way back.
pub fn compare_pack(t: &Tables) -> Result<(), String> {
    let Ok(picture) = Picture::try_from(lend(t)) else {
        return Ok(());
    };
    let packed = picture
        .pack()
        .map_err(|refusal| format!("a picture's pack: {refusal}"))?;
    let want = checker::packing(t).expect("a picture has no fault");
    let differ = |place: &usize| packed.get(*place) != want.get(*place);
    let first = (0..packed.len().max(want.len())).find(differ);
    same("packed length", packed.len(), want.len())?;
    same("first wrong packed byte", first, None)?;
    let back = Picture::read(&packed).map_err(compare_refusal);
    same("way back", back, Ok(picture))
}
