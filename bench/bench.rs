//! Times the proved library beside an unproved twin of the same algorithms, on the same pictures,
//! in one run, and beside the limit where one is given. `run` builds and starts it.
//!
//!   bench                        both tables, after a check that all sides agree
//!   bench --only PATTERN         only pictures whose key holds PATTERN
//!   bench --agree                only the check
//!   bench --once CALL KEY SIDE   one call on one side (library, twin or limit), for callgrind:
//!                                what counts is inside bench_measured
//!
//! A time is wall time, the least of many runs in turns with the other sides. Other work on the
//! machine can only lengthen a run, and spoils long calls most. (The processor time of a thread
//! would not count that work, but some systems under-report it now and then, and the least of many
//! would pick just those runs.)

mod cases;
mod files;
mod limited;
mod pictures;
mod sides;
#[cfg(model)]
#[path = "../tests/standin.rs"]
#[allow(dead_code)]
mod standin;
mod twin;

use cases::{Series, CASES, GROWTH};
use sides::{Buffers, Call, Case, Side};
use std::hint::black_box;
use std::time::Instant;

const SECONDS: f64 = 0.6;

/// The best times of each side on a case; of a side that lacks the call, more than any.
type Best = [f64; 3];

/// The best times on each case, all in turns, so that a busy moment of the machine strikes all of
/// them. Ends after about so many seconds a case, but where rounds are short not before the tenth.
fn times(cases: &mut [Case], call: Call, seconds: f64) -> Vec<Best> {
    let mut buffers = Buffers::new();
    let mut best = vec![[f64::MAX; 3]; cases.len()];
    let begin = Instant::now();
    for round in 1..=2000 {
        for (case, best) in cases.iter_mut().zip(&mut best) {
            for (side, best) in Side::ALL.into_iter().zip(best) {
                if side.has(call) {
                    let start = Instant::now();
                    black_box(case.run(side, call, black_box(&mut buffers))).ok();
                    *best = best.min(start.elapsed().as_secs_f64());
                }
            }
        }
        let spent = begin.elapsed().as_secs_f64() / cases.len() as f64;
        if spent > seconds && (round >= 10 || spent > 4.0) {
            break;
        }
    }
    best
}

fn shown(seconds: f64) -> String {
    let (value, unit) = if seconds < 1e-3 {
        (seconds * 1e6, "µs")
    } else if seconds < 1.0 {
        (seconds * 1e3, "ms")
    } else {
        (seconds, "s")
    };
    let digits = if value < 10.0 {
        2
    } else if value < 100.0 {
        1
    } else {
        0
    };
    format!("{value:.digits$} {unit}")
}

/// The sides that the library is held against.
fn yardsticks() -> &'static [Side] {
    if limited::GIVEN {
        &[Side::Twin, Side::Limit]
    } else {
        &[Side::Twin]
    }
}

/// A row of a table in markdown.
fn row(cells: &[String]) -> String {
    format!("| {} |", cells.join(" | "))
}

/// The head of a table: what stands left, then columns for each yardstick.
fn print_head(left: &[&str], align: &str, of_yardstick: impl Fn(Side) -> Vec<String>) {
    let mut head: Vec<String> = left.iter().map(|cell| cell.to_string()).collect();
    head.extend(yardsticks().iter().flat_map(|&side| of_yardstick(side)));
    let lines: Vec<String> = (0..head.len())
        .map(|k| if k < 2 { "---" } else { align }.to_string())
        .collect();
    println!("{}", row(&head));
    println!("|{}|", lines.join("|"));
}

/// Compares the sides on a case; ends the program where they differ.
fn must_agree(case: &mut Case, call: Call) {
    if let Err(why) = case.agree(call) {
        let (key, name, call) = (case.key, &case.picture.name, call.name());
        eprintln!("{key} ({name}), {call}: {why}");
        std::process::exit(1);
    }
}

/// A line of the table of times.
fn print_times(case: &mut Case, call: Call) {
    let best = times(std::slice::from_mut(case), call, SECONDS)[0];
    let name = match call {
        Call::Read => format!("{}, file of {} blocks", case.key, case.file.len() / 512),
        _ => format!("{}: {}", case.key, case.picture.name),
    };
    let library = best[Side::Library as usize];
    let mut cells = vec![name, call.name().to_string(), shown(library)];
    for &side in yardsticks() {
        let time = best[side as usize];
        cells.extend(if side.has(call) {
            [shown(time), format!("{:.2}", library / time)]
        } else {
            [String::new(), String::new()]
        });
    }
    println!("{}", row(&cells));
}

/// A line of the table of growth.
fn print_growth(series: &Series, cases: &mut [Case], call: Call) {
    let best = times(cases, call, SECONDS / 2.0);
    let join = |parts: Vec<String>| parts.join(", ");
    let sizes = join(series.sizes.iter().map(|n| n.to_string()).collect());
    let factor = |pair: &[Best]| format!("{:.1}", pair[1][0] / pair[0][0]);
    let mut cells = vec![
        format!("{} {sizes}", series.says),
        call.name().to_string(),
        join(best.iter().map(|t| shown(t[0])).collect()),
        join(best.windows(2).map(factor).collect()),
    ];
    for &side in yardsticks() {
        let ratio = |t: &Best| format!("{:.2}", t[0] / t[side as usize]);
        cells.push(if side.has(call) {
            join(best.iter().map(ratio).collect())
        } else {
            String::new()
        });
    }
    println!("{}", row(&cells));
}

fn measure(only: &str, agree_only: bool) {
    let mut agreed = 0;
    if !agree_only {
        print_head(&["key: picture", "call", "proved"], "---:", |side| {
            vec![side.name().to_string(), format!("proved / {}", side.name())]
        });
    }
    for &(key, build, blocks, calls) in CASES.iter().filter(|line| line.0.contains(only)) {
        let mut case = Case::new(key, build(), blocks);
        for &call in calls {
            must_agree(&mut case, call);
            agreed += 1;
            if !agree_only {
                print_times(&mut case, call);
            }
        }
    }
    if !agree_only {
        println!();
        let left = [
            "what grows",
            "call",
            "times of the proved library",
            "factors",
        ];
        print_head(&left, "---", |side| {
            vec![format!("proved / {}", side.name())]
        });
    }
    for series in GROWTH.iter().filter(|series| series.key.contains(only)) {
        let case = |&size: &usize| Case::new(series.key, (series.build)(size), 0);
        let mut cases: Vec<Case> = series.sizes.iter().map(case).collect();
        for &call in series.calls {
            for case in &mut cases {
                must_agree(case, call);
                agreed += 1;
            }
            if !agree_only {
                print_growth(series, &mut cases, call);
            }
        }
    }
    let names: Vec<&str> = yardsticks().iter().map(|side| side.name()).collect();
    eprintln!(
        "library and {} agree on {agreed} calls",
        names.join(" and ")
    );
}

/// What callgrind counts.
#[no_mangle]
#[inline(never)]
pub fn bench_measured(work: &mut dyn FnMut()) {
    work();
}

fn once(call: &str, key: &str, side: &str) -> Option<()> {
    let call = Call::of(call)?;
    let side = Side::of(side).filter(|side| side.has(call))?;
    let &(key, build, blocks, _) = CASES.iter().find(|c| c.0 == key)?;
    let mut case = Case::new(key, build(), blocks);
    let mut buffers = Buffers::new();
    bench_measured(&mut || {
        black_box(case.run(side, call, black_box(&mut buffers))).ok();
    });
    Some(())
}

fn main() {
    let words: Vec<String> = std::env::args().skip(1).collect();
    let words: Vec<&str> = words.iter().map(String::as_str).collect();
    match words[..] {
        [] => measure("", false),
        ["--agree"] => measure("", true),
        ["--only", pattern] => measure(pattern, false),
        ["--once", call, key, side] if once(call, key, side).is_some() => {}
        _ => {
            eprintln!(
                "usage: bench [--only PATTERN | --agree | --once CALL KEY library|twin|limit]"
            );
            std::process::exit(2);
        }
    }
}
