//! Compares the library with the independent model on seeded pictures and files: every call,
//! every answer, every byte of every buffer that was lent.
//!
//!     compare                        the hand-written cases, then 100,000 pictures
//!     compare --count N [--start S]  N pictures from seed S on
//!     compare --seed S               one picture, told in full
//!     compare --program P --files N  the listing of program P on N files
//!     compare --listing              the model's listing of the file on standard input
//!     compare --self-test            that wrong libraries are noticed (built with --cfg model)
//!     ... --loud                     names each seed before it runs, in case of a crash

mod cases;
mod checker;
mod generator;
mod groups;
mod owned;
mod packing;
mod packing_cases;
#[cfg(model)]
mod standin;

use checker::{Answer, Known, Lists, Tables, Tried};
use generator::Random;
use rights::lent;
use std::fmt::Debug;
use std::io::{Read, Write};
use std::panic::{catch_unwind, AssertUnwindSafe};
use std::process::{Command, ExitCode, Stdio};
use std::time::Instant;

/// From so many pictures on, every refusal number, all of `SHOWN`, all of `groups::SHOWN` and all
/// that is counted of packing must have come up.
const FULL_RUN: u64 = 10_000;

/// What a picture and its filled scratch can show.
const SHOWN: [&str; 5] = [
    "a pair joined through others only",
    "a pair joined directly and through others",
    "a repeated row",
    "a row from a box to itself",
    "a longer loop",
];

/// Names and how often each came up.
fn counted(names: &[&str], counts: &[u64]) -> String {
    let each = names.iter().zip(counts);
    let each: Vec<String> = each.map(|(what, n)| format!("{what} {n}")).collect();
    each.join(", ")
}

/// How often things came up.
#[derive(Default)]
struct Tally {
    calls: u64,
    refusals: [u64; 18],
    granted: u64,
    denied: u64,
    default: u64,
    unclear: u64,
    clear_pictures: u64,
    /// Pictures whose scratch judge filled, and of these the ones that show each of `SHOWN`.
    filled: u64,
    shown: [u64; 5],
    /// Pictures that pass checks 1 to 7, and of these the ones that show each of `groups::SHOWN`.
    sound: u64,
    groups: [u64; 10],
    packing: packing::Seen,
    lists: u64,
    /// Refusals 13 that name another pair than the mode's first granted one.
    later_no_order: u64,
    listed_arrows: u64,
    every_list_tried: u64,
    kinds: Vec<(&'static str, u64)>,
}

impl Tally {
    fn kind(&mut self, what: &'static str) {
        match self.kinds.iter_mut().find(|(name, _)| *name == what) {
            Some((_, count)) => *count += 1,
            None => self.kinds.push((what, 1)),
        }
    }

    fn never_seen(&self) -> Vec<String> {
        let refusals = (1..=17).filter(|&k| self.refusals[k] == 0);
        let shown = SHOWN.iter().zip(self.shown);
        let all_shown = shown.chain(groups::SHOWN.iter().zip(self.groups));
        let not_shown = all_shown.filter(|(_, count)| *count == 0);
        refusals
            .map(|k| format!("refusal {k}"))
            .chain(not_shown.map(|(what, _)| what.to_string()))
            .chain(self.packing.never())
            .collect()
    }

    fn print(&self) {
        let kinds: Vec<String> = self.kinds.iter().map(|(k, n)| format!("{k} {n}")).collect();
        println!("pictures: {}", kinds.join(", "));
        println!(
            "calls {}; entries granted {}, denied {}, by default {}, unclear {}; judged clear {}",
            self.calls, self.granted, self.denied, self.default, self.unclear, self.clear_pictures
        );
        let shown = counted(&SHOWN, &self.shown);
        println!("scratches filled by judge {}: {shown}", self.filled);
        let shown = counted(&groups::SHOWN, &self.groups);
        println!("pictures that pass 1 to 7 {}: {shown}", self.sound);
        self.packing.print();
        println!(
            "lists written {} with {} arrows, each asked for twice; no order {} (not at the \
             first granted pair {}); every list tried {} times",
            self.lists,
            self.listed_arrows,
            self.refusals[13],
            self.later_no_order,
            self.every_list_tried
        );
        let refusals: Vec<String> = (1..=17)
            .map(|k| format!("{k}: {}", self.refusals[k]))
            .collect();
        println!("refusals seen: {}", refusals.join(", "));
    }
}

/// A buffer with guard places on both sides of what is lent. The odd number of guards also puts
/// byte buffers at odd addresses.
struct Lent<T> {
    all: Vec<T>,
    before: Vec<T>,
}

const GUARDS: usize = 5;

impl<T: Copy + PartialEq + Debug> Lent<T> {
    fn new(r: &mut Random, length: usize, value: impl Fn(u64) -> T) -> Lent<T> {
        // Small numbers could pass for right contents, large ones show what was left alone.
        let below = r.pick(&[2, 4, 256, 65_536]);
        let all: Vec<T> = (0..length + 2 * GUARDS)
            .map(|_| value(r.next() % below))
            .collect();
        Lent {
            before: all.clone(),
            all,
        }
    }

    fn lend(&mut self) -> &mut [T] {
        let end = self.all.len() - GUARDS;
        &mut self.all[GUARDS..end]
    }

    fn before(&self) -> &[T] {
        &self.before[GUARDS..self.before.len() - GUARDS]
    }

    fn after(&self) -> &[T] {
        &self.all[GUARDS..self.all.len() - GUARDS]
    }

    fn guards_kept(&self, name: &str) -> Result<(), String> {
        let end = self.all.len() - GUARDS;
        if self.all[..GUARDS] != self.before[..GUARDS] || self.all[end..] != self.before[end..] {
            return Err(format!("{name}: written beyond what was lent"));
        }
        Ok(())
    }

    fn ends_as(&self, name: &str, want: &[T]) -> Result<(), String> {
        self.guards_kept(name)?;
        match (0..want.len()).find(|&at| self.after()[at] != want[at]) {
            None => Ok(()),
            Some(at) => Err(format!(
                "{name}: place {at} of {} was {:?}, is {:?}, should be {:?}",
                want.len(),
                self.before()[at],
                self.after()[at],
                want[at]
            )),
        }
    }
}

fn bytes(r: &mut Random, length: usize) -> Lent<u8> {
    Lent::new(r, length, |value| value as u8)
}

fn words(r: &mut Random, length: usize) -> Lent<u16> {
    Lent::new(r, length, |value| value as u16)
}

/// The package's answer as one of the model.
fn compare_answer(answer: rights::Answer) -> Answer {
    match answer {
        rights::Answer::Granted { arrow } => Answer::Granted(arrow as usize),
        rights::Answer::Denied { arrow } => Answer::Denied(arrow as usize),
        rights::Answer::DeniedByDefault => Answer::Default,
        rights::Answer::Unclear { positive, negative } => {
            Answer::Unclear(positive as usize, negative as usize)
        }
    }
}

fn compare_refusal(refusal: rights::Refusal) -> checker::Refusal {
    let (number, places) = refusal.numbers();
    checker::Refusal { number, places }
}

/// What holds of a filled scratch by itself, however the model finds it: its 2s are the rows of the
/// table, and walking up from box b by 2s alone comes to box a exactly where byte a × n + b is
/// not 0.
fn steps_drawn(t: &Tables, scratch: &[u8]) -> Result<(), String> {
    let n = t.boxes.len();
    let place = |row: &[u16]| row[0] as usize * n + row[1] as usize;
    let mut rows: Vec<usize> = t.rows.chunks(2).map(place).collect();
    rows.sort();
    rows.dedup();
    let twos: Vec<usize> = (0..n * n).filter(|&at| scratch[at] == 2).collect();
    if twos != rows {
        return Err("the 2s are not the rows".to_string());
    }
    let mut above = vec![Vec::new(); n];
    for at in twos {
        above[at % n].push(at / n);
    }
    for b in 0..n {
        let mut met = vec![false; n];
        let mut from = vec![b];
        while let Some(here) = from.pop() {
            for &a in &above[here] {
                if !met[a] {
                    met[a] = true;
                    from.push(a);
                }
            }
        }
        if let Some(a) = (0..n).find(|&a| met[a] != (scratch[a * n + b] != 0)) {
            let byte = scratch[a * n + b];
            return Err(format!("from {b} up to {a} by 2s: {}, byte {byte}", met[a]));
        }
    }
    Ok(())
}

/// Which of `SHOWN` a picture and its filled scratch show.
fn shown(t: &Tables, scratch: &[u8]) -> [bool; 5] {
    let n = t.boxes.len();
    let byte = |a: usize, b: usize| scratch[a * n + b];
    let through_others = |a: usize, b: usize| {
        let mut others = (0..n).filter(|&c| c != a && c != b);
        others.any(|c| byte(a, c) > 0 && byte(c, b) > 0)
    };
    let twos = scratch.iter().filter(|&&byte| byte == 2).count();
    let mut rows = t.rows.chunks(2);
    [
        (0..n * n).any(|at| scratch[at] == 1 && at / n != at % n),
        rows.any(|row| through_others(row[0] as usize, row[1] as usize)),
        twos < t.rows.len() / 2,
        (0..n).any(|b| byte(b, b) == 2),
        (0..n).any(|b| byte(b, b) == 1),
    ]
}

/// One picture, its library calls and what came up.
struct Trial<'a> {
    r: Random,
    tables: &'a Tables,
    known: &'a Known,
    tally: &'a mut Tally,
}

impl Trial<'_> {
    fn lent_tables(&self) -> lent::Tables<'_> {
        lent::Tables {
            boxes: &self.tables.boxes,
            containments: &self.tables.rows,
            arrows: &self.tables.arrows,
        }
    }

    /// Lengths to lend where these are needed. Where a fault of the tables comes first, nothing
    /// is needed, and anything may be lent.
    fn lengths(&mut self, needed: impl Fn(&checker::Picture) -> Vec<usize>) -> Vec<usize> {
        match self.known {
            Known::Sound(p) => generator::lengths(&mut self.r, &needed(p)),
            Known::Faulty(_) => (0..3).map(|_| self.r.below(40)).collect(),
        }
    }

    fn same<T: PartialEq + Debug>(
        &mut self,
        call: &str,
        got: Result<T, rights::Refusal>,
        want: Result<T, checker::Refusal>,
    ) -> Result<(), String> {
        let got = got.map_err(compare_refusal);
        self.tally.calls += 1;
        if let Err(refusal) = &want {
            self.tally.refusals[refusal.number as usize] += 1;
        }
        if got == want {
            Ok(())
        } else {
            Err(format!("{call}: answered {got:?}, should be {want:?}"))
        }
    }

    fn judge(&mut self) -> Result<(), String> {
        let lengths = self.lengths(|p| vec![p.n * p.n]);
        let mut scratch = bytes(&mut self.r, lengths[0]);
        let got = self.lent_tables().judge(scratch.lend());
        let want = checker::judge(self.known, scratch.before());
        self.tally.clear_pictures += want.result.is_ok() as u64;
        self.same("judge", got, want.result)?;
        scratch.ends_as("judge: scratch", &want.scratch)?;
        if matches!(want.result, Err(refusal) if refusal.number < 10) {
            return Ok(());
        }
        let n = self.tables.boxes.len();
        let filled = &scratch.after()[..n * n];
        self.tally.filled += 1;
        for (count, shown) in self.tally.shown.iter_mut().zip(shown(self.tables, filled)) {
            *count += shown as u64;
        }
        steps_drawn(self.tables, filled).map_err(|why| format!("judge: scratch: {why}"))
    }

    fn entry(&mut self, user: u16, file: u16, mode: u16) -> Result<(), String> {
        let lengths = self.lengths(|p| vec![p.n * p.n]);
        let mut scratch = bytes(&mut self.r, lengths[0]);
        let got = self.lent_tables().entry(user, file, mode, scratch.lend());
        let want = checker::entry(self.known, user, file, mode, scratch.before());
        match want.result {
            Ok(Answer::Granted(_)) => self.tally.granted += 1,
            Ok(Answer::Denied(_)) => self.tally.denied += 1,
            Ok(Answer::Default) => self.tally.default += 1,
            Ok(Answer::Unclear(..)) => self.tally.unclear += 1,
            Err(_) => {}
        }
        let call = format!("entry {user}, {file}, mode {mode}");
        self.same(&call, got.map(compare_answer), want.result)?;
        scratch.ends_as(&format!("{call}: scratch"), &want.scratch)
    }

    fn matrix(&mut self, mode: u16) -> Result<(), String> {
        let lengths = self.lengths(|p| vec![p.n * p.n, p.pairs(), p.pairs()]);
        let mut scratch = bytes(&mut self.r, lengths[0]);
        let mut cells = bytes(&mut self.r, lengths[1]);
        let mut numbers = words(&mut self.r, lengths[2]);
        let got = self
            .lent_tables()
            .matrix(mode, scratch.lend(), cells.lend(), numbers.lend());
        let want = checker::matrix(
            self.known,
            mode,
            scratch.before(),
            cells.before(),
            numbers.before(),
        );
        let call = format!("matrix of mode {mode}");
        self.same(&call, got, want.result)?;
        scratch.ends_as(&format!("{call}: scratch"), &want.scratch)?;
        cells.ends_as(&format!("{call}: bytes"), &want.bytes)?;
        numbers.ends_as(&format!("{call}: numbers"), &want.numbers)
    }

    fn list(&mut self, mode: u16) -> Result<(), String> {
        let lengths = self.lengths(|p| vec![p.n * p.n, p.of_mode(mode).len(), p.pairs()]);
        let mut scratch = bytes(&mut self.r, lengths[0]);
        let mut list = words(&mut self.r, lengths[1]);
        let mut work = bytes(&mut self.r, lengths[2]);
        let got = self
            .lent_tables()
            .list(mode, scratch.lend(), list.lend(), work.lend());
        let want = checker::list(
            self.known,
            mode,
            scratch.before(),
            list.before(),
            work.before(),
        );
        let call = format!("list of mode {mode}");
        if let (Known::Sound(p), Err(r)) = (self.known, &want.result) {
            let named = (r.places[1] as usize, r.places[2] as usize);
            let later = r.number == 13 && p.first_granted(mode) != Some(named);
            self.tally.later_no_order += later as u64;
        }
        self.same(&call, got, want.result)?;
        scratch.ends_as(&format!("{call}: scratch"), &want.scratch)?;
        list.ends_as(&format!("{call}: list"), &want.list)?;
        work.ends_as(&format!("{call}: work"), &want.work)?;
        if let Ok(count) = got {
            self.tally.lists += 1;
            self.tally.listed_arrows += count as u64;
            self.list_again(mode, &list.after()[..count])?;
        }
        self.model_list(mode)
    }

    /// That the mode's list is the same once more, with buffers of other lengths that suffice and
    /// other contents.
    fn list_again(&mut self, mode: u16, first: &[u16]) -> Result<(), String> {
        let Known::Sound(p) = self.known else {
            return Ok(());
        };
        let needed = [p.n * p.n, p.of_mode(mode).len(), p.pairs()];
        // Longer than any that suffice in `generator::lengths`.
        let lengths = needed.map(|needed| needed + self.r.from_to(10, 15));
        let mut scratch = bytes(&mut self.r, lengths[0]);
        let mut list = words(&mut self.r, lengths[1]);
        let mut work = bytes(&mut self.r, lengths[2]);
        let got = self
            .lent_tables()
            .list(mode, scratch.lend(), list.lend(), work.lend())
            .map(|count| list.after().get(..count));
        if got == Ok(Some(first)) {
            Ok(())
        } else {
            Err(format!(
                "list of mode {mode}: {first:?}, but with other buffers {got:?}"
            ))
        }
    }

    /// That the model's list is honest and has no arrow twice, and that the first granted pair it
    /// leaves is the first that no honest list reaches, which is found another way. On tiny modes
    /// also that trying every list gives the same pair and the same list.
    fn model_list(&mut self, mode: u16) -> Result<(), String> {
        let Known::Sound(p) = self.known else {
            return Ok(());
        };
        if mode >= checker::MODES || p.on_loop.is_some() || p.first_unclear(mode).is_some() {
            return Ok(());
        }
        let lists = Lists::new(p, mode);
        let (list, missed) = (lists.place_by_place(), lists.first_missed());
        let left = lists.leaves(&list);
        if left != Ok(missed) {
            return Err(format!(
                "model: list {list:?} of mode {mode} leaves {left:?}, should leave {missed:?}"
            ));
        }
        if !lists.is_tiny() {
            return Ok(());
        }
        self.tally.every_list_tried += 1;
        let tried = lists.by_every_list();
        let want = Tried {
            one_reaches_all: missed.is_none(),
            missed,
            list,
        };
        if tried == want {
            Ok(())
        } else {
            Err(format!(
                "model: trying every list of mode {mode} gives {tried:?}, not {want:?}"
            ))
        }
    }

    fn atoms(&mut self) -> Result<(), String> {
        let lengths = match checker::atoms_of(self.tables) {
            Ok([users, files]) => generator::lengths(&mut self.r, &[users.len(), files.len()]),
            Err(_) => (0..2).map(|_| self.r.below(40)).collect(),
        };
        let mut users = words(&mut self.r, lengths[0]);
        let mut files = words(&mut self.r, lengths[1]);
        let got = self.lent_tables().atoms(users.lend(), files.lend());
        let want = checker::atoms(self.tables, users.before(), files.before());
        self.same("atoms", got.map(|c| [c.users, c.files]), want.result)?;
        users.ends_as("atoms: users", &want.users)?;
        files.ends_as("atoms: files", &want.files)?;
        if let Ok([u, f]) = want.result {
            let (users, files) = (&users.after()[..u], &files.after()[..f]);
            groups::atoms_named(self.tables, users, files)
                .map_err(|why| format!("atoms: {why}"))?;
        }
        Ok(())
    }

    fn read(&mut self, file: &[u8]) -> Result<(), String> {
        let lengths = match checker::tables_in(file) {
            Ok(t) => {
                let needed = [t.boxes.len(), t.rows.len(), t.arrows.len()];
                generator::lengths(&mut self.r, &needed)
            }
            Err(_) => (0..3).map(|_| self.r.below(600)).collect(),
        };
        let mut boxes = bytes(&mut self.r, lengths[0]);
        let mut rows = words(&mut self.r, lengths[1]);
        let mut arrows = words(&mut self.r, lengths[2]);
        let got = lent::read(file, boxes.lend(), rows.lend(), arrows.lend());
        let want = checker::read(file, boxes.before(), rows.before(), arrows.before());
        let counts = |c: lent::Counts| [c.boxes, c.containments, c.arrows];
        self.same("read", got.map(counts), want.result)?;
        boxes.ends_as("read: boxes", &want.boxes)?;
        rows.ends_as("read: containments", &want.rows)?;
        arrows.ends_as("read: arrows", &want.arrows)
    }

    /// What holds of groups by itself, and which of `groups::SHOWN` came up.
    fn groups(&mut self, mode: u16) -> Result<(), String> {
        let Known::Sound(p) = self.known else {
            return Ok(());
        };
        self.tally.sound += 1;
        let shown = groups::shown(self.tables);
        for (count, shown) in self.tally.groups.iter_mut().zip(shown) {
            *count += shown as u64;
        }
        groups::compare(&mut self.r, self.tables, p, mode)
    }

    /// Packing the picture, and what a file packs to when it is read.
    fn packing(&mut self, file: &[u8]) -> Result<(), String> {
        packing::compare(&mut self.r, self.tables, &mut self.tally.packing)?;
        packing::file(&mut self.r, file, &mut self.tally.packing)
            .map_err(|why| format!("packing what was read: {why}"))
    }

    /// Every call, the mode calls for each mode that comes up and one more.
    fn all_calls(&mut self) -> Result<(), String> {
        self.judge()?;
        self.atoms()?;
        let (mut users, mut files, mut modes) = (Vec::new(), Vec::new(), Vec::new());
        if let Known::Sound(p) = self.known {
            users = p.users.clone();
            files = p.files.clone();
            modes = (0..checker::MODES)
                .filter(|&mode| !p.of_mode(mode).is_empty())
                .collect();
        }
        self.r.shuffle(&mut modes);
        modes.truncate(3);
        modes.push(generator::asked_mode(&mut self.r, self.tables));
        let n = self.tables.boxes.len();
        for &mode in &modes {
            self.matrix(mode)?;
            self.list(mode)?;
            let few = users.len() * files.len() <= 12;
            if few {
                for &user in &users {
                    for &file in &files {
                        self.entry(user as u16, file as u16, mode)?;
                    }
                }
            } else {
                let asked = if n > 100 { 3 } else { 8 };
                for _ in 0..asked {
                    let (user, file) = (self.r.pick(&users), self.r.pick(&files));
                    self.entry(user as u16, file as u16, mode)?;
                }
            }
        }
        for _ in 0..2 {
            let user = generator::asked_box(&mut self.r, n);
            let file = generator::asked_box(&mut self.r, n);
            let mode = generator::asked_mode(&mut self.r, self.tables);
            self.entry(user, file, mode)?;
        }
        let beside = generator::asked_beside(&mut self.r, self.tables, &users, &files);
        if let Some((user, file)) = beside {
            self.entry(user, file, modes[0])?;
        }
        self.groups(modes[0])?;
        let file = generator::file(&mut self.r, self.tables);
        let copy = file.clone();
        self.read(&file)?;
        if *std::hint::black_box(&file) != copy {
            return Err("read: the file was written to".to_string());
        }
        owned::compare(self.tables, self.known, modes[0])?;
        owned::compare_read(&file)?;
        owned::compare_pack(self.tables)?;
        self.packing(&file)
    }
}

/// All calls on the picture of one seed.
fn one_seed(seed: u64, tally: &mut Tally) -> Result<(), String> {
    let mut r = Random::new(seed);
    let (tables, what) = generator::picture(&mut r);
    tally.kind(what);
    let known = Known::new(&tables);
    let copy = tables.clone();
    let mut trial = Trial {
        r,
        tables: &tables,
        known: &known,
        tally,
    };
    let result = catch_unwind(AssertUnwindSafe(|| trial.all_calls()));
    match result {
        Ok(result) => result?,
        Err(panic) => {
            let text = panic.downcast_ref::<String>().cloned();
            return Err(text.unwrap_or_else(|| "panic".to_string()));
        }
    }
    if *std::hint::black_box(&tables) != copy {
        return Err("a lent table was written to".to_string());
    }
    Ok(())
}

fn run(start: u64, count: u64, loud: bool) -> bool {
    let begun = Instant::now();
    let mut tally = Tally::default();
    let mut failed = 0;
    let mut done = 0;
    for seed in start..start.saturating_add(count) {
        if loud {
            println!("seed {seed}");
        }
        done += 1;
        if let Err(why) = one_seed(seed, &mut tally) {
            println!("seed {seed}: {why}");
            failed += 1;
            if failed == 10 {
                println!("stopped after 10 failing seeds");
                break;
            }
        }
    }
    tally.print();
    let never = tally.never_seen();
    let all_seen = count < FULL_RUN || never.is_empty();
    if !all_seen {
        println!("never seen: {}", never.join(", "));
    }
    let seconds = begun.elapsed().as_secs_f64();
    println!("compared {done} pictures from seed {start}, {failed} disagree, {seconds:.1} s");
    failed == 0 && all_seen
}

fn run_cases() -> bool {
    let report = cases::run();
    for why in &report.failed {
        println!("{why}");
    }
    let failed = report.failed.len();
    println!("hand-written checks: {} hold, {failed} fail", report.passed);
    failed == 0
}

/// Tells one seed's picture and runs it.
fn tell(seed: u64) -> bool {
    let (tables, what) = generator::picture(&mut Random::new(seed));
    println!("seed {seed}, {what}");
    println!("boxes {:?}", tables.boxes);
    let rows: Vec<&[u16]> = tables.rows.chunks(2).collect();
    println!("containments {rows:?}");
    for (k, arrow) in tables.arrows.chunks(4).enumerate() {
        println!("arrow {k}: {arrow:?}");
    }
    match Known::new(&tables) {
        Known::Faulty(refusal) => println!("{refusal:?}"),
        Known::Sound(p) => {
            println!("users {:?}, files {:?}", p.users, p.files);
            println!("lowest box on a loop {:?}", p.on_loop);
        }
    }
    run(seed, 1, false)
}

/// The output of a program for an input that reaches it in pieces.
fn output_of(program: &[String], input: &[u8], r: &mut Random) -> std::io::Result<Vec<u8>> {
    let mut child = Command::new(&program[0])
        .args(&program[1..])
        .stdin(Stdio::piped())
        .stdout(Stdio::piped())
        .spawn()?;
    let mut pipe = child.stdin.take().expect("a pipe was asked for");
    let mut left = input;
    let pieces = r.pick(&[1, 1, 2, 5]);
    while !left.is_empty() {
        let size = (input.len() / pieces + r.below(3)).clamp(1, left.len());
        // A program that has seen enough may close its input.
        if pipe.write_all(&left[..size]).is_err() {
            break;
        }
        left = &left[size..];
    }
    drop(pipe);
    Ok(child.wait_with_output()?.stdout)
}

fn run_program(program: &[String], start: u64, files: u64) -> bool {
    let mut failed = 0;
    for seed in start..start.saturating_add(files) {
        let mut r = Random::new(seed);
        let (tables, _) = generator::picture(&mut r);
        let input = if seed == start {
            cases::file_b()
        } else if seed % 2 == 0 {
            generator::pack(&mut r, &tables, true)
        } else {
            generator::file(&mut r, &tables)
        };
        let want = checker::listing(&input);
        let got = match output_of(program, &input, &mut r) {
            Ok(got) => got,
            Err(why) => {
                println!("{}: {why}", program[0]);
                return false;
            }
        };
        if got != want.as_bytes() {
            failed += 1;
            let got = String::from_utf8_lossy(&got);
            println!("file of seed {seed}: printed\n{got}should print\n{want}");
        }
    }
    println!("compared the listings of {files} files from seed {start}, {failed} disagree");
    failed == 0
}

fn print_listing() -> bool {
    let mut input = Vec::new();
    if let Err(why) = std::io::stdin().read_to_end(&mut input) {
        eprintln!("{why}");
        return false;
    }
    print!("{}", checker::listing(&input));
    true
}

/// Makes the stand-in wrong in each of its ways and says which seed shows it.
#[cfg(model)]
fn self_test(most: u64) -> bool {
    let mut unnoticed = 0;
    // A place beyond what is lent.
    let mut buffer = bytes(&mut Random::new(1), 4);
    buffer.all[GUARDS + 4] ^= 1;
    unnoticed += buffer.guards_kept("guards").is_ok() as usize;
    std::panic::set_hook(Box::new(|_| {}));
    for &(way, says) in standin::WAYS {
        standin::be(way);
        // A reply that the header rules out ends the cases with a panic.
        let by_hand = catch_unwind(|| cases::run().failed.len()).unwrap_or(1);
        let mut tally = Tally::default();
        let found = (1..=most).find_map(|seed| {
            let why = one_seed(seed, &mut tally).err()?;
            Some((seed, why))
        });
        match found {
            Some((seed, why)) => println!("{says}: seed {seed}, {why}; by hand {by_hand}"),
            None => {
                unnoticed += 1;
                println!("{says}: NOT NOTICED in {most} pictures; by hand {by_hand}");
            }
        }
    }
    standin::be(standin::Wrong::Nowhere);
    let _ = std::panic::take_hook();
    let ways = standin::WAYS.len();
    println!("self-test: {ways} wrong libraries, {unnoticed} not noticed");
    unnoticed == 0
}

#[cfg(not(model))]
fn self_test(_: u64) -> bool {
    println!("the self-test needs a build with --cfg model");
    false
}

fn usage() -> ! {
    eprintln!(
        "compare [--count N] [--start S] [--loud] | --seed S | --self-test | --listing\n\
         | --program PATH [ARGUMENT] --files N [--start S]"
    );
    std::process::exit(2)
}

fn main() -> ExitCode {
    let arguments: Vec<String> = std::env::args().skip(1).collect();
    let has = |name: &str| arguments.iter().any(|argument| argument == name);
    let number = |name: &str, otherwise: u64| -> u64 {
        match arguments.iter().position(|argument| argument == name) {
            None => otherwise,
            Some(at) => match arguments.get(at + 1).map(|value| value.parse()) {
                Some(Ok(value)) => value,
                _ => usage(),
            },
        }
    };
    let names = [
        "--count",
        "--start",
        "--loud",
        "--seed",
        "--self-test",
        "--listing",
        "--program",
        "--files",
    ];
    let unknown = |argument: &String| argument.starts_with("--") && !names.contains(&&argument[..]);
    let start = number("--start", 1);
    let good = if has("--program") {
        let at = arguments.iter().position(|a| a == "--program").unwrap();
        let end = arguments.iter().position(|a| a == "--files");
        let program = &arguments[at + 1..end.unwrap_or(arguments.len())];
        if program.is_empty() {
            usage();
        }
        run_program(program, start, number("--files", 300))
    } else if arguments.iter().any(unknown) {
        usage()
    } else if has("--listing") {
        return ExitCode::from(!print_listing() as u8);
    } else if has("--self-test") {
        self_test(number("--count", 30_000))
    } else if has("--seed") {
        tell(number("--seed", 0))
    } else {
        let by_hand = run_cases();
        run(start, number("--count", 100_000), has("--loud")) && by_hand
    };
    println!("compare: {}", if good { "passed" } else { "FAILED" });
    ExitCode::from(!good as u8)
}
