//! Pictures as text: what the examples `text2blk` and `blk2text` read, write and refuse.

use rights::{Arrow, BoxKind, Mode, Picture, Sign};
use std::fs::{self, File};
use std::io::Write;
use std::path::{Path, PathBuf};
use std::process::{Child, Command, Stdio};
use std::sync::OnceLock;
use text::{parse::parse, write::write};

#[path = "../examples/text"]
mod text {
    mod kinds;
    mod line;
    mod names;
    pub mod parse;
    pub mod write;
}

/// The folder of the programs. They are built first, since `cargo test --test text` doesn't.
fn programs() -> &'static Path {
    static FOLDER: OnceLock<PathBuf> = OnceLock::new();
    FOLDER.get_or_init(|| {
        let target = Path::new(env!("CARGO_TARGET_TMPDIR")).parent().unwrap();
        let mut cargo = Command::new(env!("CARGO"));
        let arguments = "build --offline --quiet --examples --target-dir";
        cargo.args(arguments.split(' ')).arg(target);
        assert!(cargo.status().unwrap().success());
        target.join("debug/examples")
    })
}

/// What a program did: exit status, standard output, standard error.
type Ran = (Option<i32>, Vec<u8>, String);

fn start(program: &str, arguments: &[&str], output: Stdio) -> Child {
    let mut command = Command::new(programs().join(program));
    command.args(arguments).stdin(Stdio::piped()).stdout(output);
    command.stderr(Stdio::piped()).spawn().unwrap()
}

fn end(mut child: Child, input: &[u8]) -> Ran {
    // A program that doesn't come to read its input is told by what it says.
    let _ = child.stdin.take().unwrap().write_all(input);
    let ran = child.wait_with_output().unwrap();
    let said = String::from_utf8(ran.stderr).unwrap();
    (ran.status.code(), ran.stdout, said)
}

fn run(program: &str, arguments: &[&str], input: &[u8]) -> Ran {
    end(start(program, arguments, Stdio::piped()), input)
}

/// The output of a program that makes one.
fn made(program: &str, input: &[u8]) -> Vec<u8> {
    let (status, output, said) = run(program, &[], input);
    assert_eq!((status, said.as_str()), (Some(0), ""));
    output
}

fn samples() -> Vec<PathBuf> {
    let entries = fs::read_dir("../../samples").unwrap();
    let paths = entries.map(|entry| entry.unwrap().path());
    paths
        .filter(|path| path.extension() == Some("blk".as_ref()))
        .collect()
}

fn sample(name: &str) -> Vec<u8> {
    fs::read(format!("../../samples/{name}.blk")).unwrap()
}

#[test]
fn every_sample_there_and_back() {
    let (mut good, mut refused) = (0, 0);
    for path in samples() {
        let (path, file) = (path.to_str().unwrap(), fs::read(&path).unwrap());
        match Picture::read(&file) {
            Ok(picture) => {
                good += 1;
                let text = made("blk2text", &file);
                assert_eq!(text, write(&picture).into_bytes(), "{path}");
                assert_eq!(parse(&text), Ok(picture), "{path}");
                let packed = made("text2blk", &text);
                let loose = path.ends_with("loose-blocks.blk");
                assert_eq!(packed, if loose { sample("B") } else { file }, "{path}");
                assert_eq!(made("blk2text", &packed), text, "{path}");
            }
            Err(refusal) => {
                refused += 1;
                let said = format!("blk2text: {path}: {refusal}\n");
                let ran = run("blk2text", &[path], b"");
                assert_eq!(ran, (Some(1), vec![], said));
            }
        }
    }
    assert!(good > 15 && refused > 15, "{good} good, {refused} refused");
}

/// The text of picture B on the reader's page.
fn text_of_b() -> String {
    let page = fs::read_to_string("../../docs/USING.md").unwrap();
    let (_, text) = page.split_once("```text\n").unwrap();
    text.split_once("```").unwrap().0.to_string()
}

#[test]
fn b_of_the_page() {
    let text = text_of_b();
    assert_eq!(made("text2blk", text.as_bytes()), sample("B"));
    let windows = text.replace('\n', "\r\n");
    assert_eq!(made("text2blk", windows.as_bytes()), sample("B"));
    let marked = format!("\u{feff}{}", text.trim_end());
    assert_eq!(made("text2blk", marked.as_bytes()), sample("B"));
}

/// Names from further down, numbers, all signs, rows twice, a box inside itself, tabs and comments.
const TEXT: &str = "arrow lab-2 runs read +\t# lab-2 is box 2
arrow 0 4 7 -
ann inside lab-2
1 inside lab-2#
1 inside lab-2
03 inside runs
lab-2 inside lab-2
user ann
user Zoë_2.b
group lab-2
file 240501_M0.fastq
folder runs
folder ann2
mode 3 runs
arrow lab-2 runs runs 1
arrow lab-2 runs 3 0
mode 0 read
arrow ann ann2 read positive
arrow ann ann2 read negative";

#[test]
fn what_the_text_may_be() {
    let [user, file, group, folder] = BoxKind::ALL;
    let arrow = |tail, head, mode: usize, sign| Arrow {
        tail,
        head,
        mode: Mode::ALL[mode],
        sign,
    };
    let picture = Picture {
        boxes: vec![user, user, group, file, folder, folder],
        containments: vec![(2, 0), (2, 1), (2, 1), (4, 3), (2, 2)],
        arrows: vec![
            arrow(2, 4, 0, Sign::Positive),
            arrow(0, 4, 7, Sign::Negative),
            arrow(2, 4, 3, Sign::Positive),
            arrow(2, 4, 3, Sign::Negative),
            arrow(0, 5, 0, Sign::Positive),
            arrow(0, 5, 0, Sign::Negative),
        ],
    };
    assert_eq!(parse(TEXT.as_bytes()), Ok(picture));
    for nothing in ["", "\n\r\n", "# user ann", " \t #"] {
        assert_eq!(parse(nothing.as_bytes()), Ok(Picture::default()));
    }
}

/// Before each line of the table of faults; the last line is the fifth.
const BEFORE: &str = "mode 0 read\nuser ann\ngroup team\nfile run\nfolder runs\n";

/// Lines and what is told of them.
const FAULTS: &str = include_str!("text/faults.txt");

fn told(text: &[u8]) -> String {
    parse(text).unwrap_err().to_string()
}

#[test]
fn faults() {
    for row in FAULTS.lines() {
        let (line, message) = row.split_once(" => ").unwrap();
        let text = format!("{BEFORE}{line}\nann inside team\n");
        assert_eq!(told(text.as_bytes()), format!("6: {message}"));
    }
    let not_utf8 = told(b"user ann\n# \xff\nuser bob");
    assert_eq!(not_utf8, "2: this line is not UTF-8");
    let old = told(b"user ann\n# her\ruser bob");
    assert_eq!(old, "2: a carriage return stands within this line");
    let none = told(b"\n\n0 inside 0");
    assert_eq!(none, "3: there is no box 0: the text has no boxes");
    let long = told(format!("user ann\nann inside {}", "o\u{1b}".repeat(40)).as_bytes());
    let cut = "o\\u{1b}".repeat(20);
    assert_eq!(long, format!("2: no box is called '{cut}..'"));
    // The names are read first.
    let later = told(b"ann inside team\nuser ann\ngruop team");
    assert!(later.starts_with("3: unknown statement 'gruop team'"));
}

#[test]
fn limits() {
    let boxes: Vec<String> = (0..256).map(|n| format!("user u{n}\n")).collect();
    let full = boxes.concat();
    assert_eq!(parse(full.as_bytes()).unwrap().boxes.len(), 256);
    let more = full + "user u256\n";
    assert_eq!(
        told(more.as_bytes()),
        "257: one too many: there may be 256 boxes"
    );

    let full = BEFORE.to_string() + &"ann inside team\n".repeat(1024);
    assert_eq!(parse(full.as_bytes()).unwrap().containments.len(), 1024);
    let message = "1030: one too many: there may be 1024 containments";
    assert_eq!(told((full + "ann inside team").as_bytes()), message);

    let full = BEFORE.to_string() + &"arrow ann run 7 +\n".repeat(512);
    assert_eq!(parse(full.as_bytes()).unwrap().arrows.len(), 512);
    let message = "518: one too many: there may be 512 arrows";
    assert_eq!(told((full + "arrow ann run 7 +").as_bytes()), message);
}

#[test]
fn input_that_fails() {
    let wrong = text_of_b().replace("bob inside", "bobb inside");
    let path = concat!(env!("CARGO_TARGET_TMPDIR"), "/B.txt");
    fs::write(path, &wrong).unwrap();
    for (name, arguments) in [(path, &[path][..]), ("standard input", &[])] {
        let said = format!("text2blk: {name}:10: no box is called 'bobb'\n");
        let ran = run("text2blk", arguments, wrong.as_bytes());
        assert_eq!(ran, (Some(1), vec![], said));
    }
    for program in ["text2blk", "blk2text"] {
        let failed = |said: String| (Some(2), vec![], said + "\n");
        let usage = format!("usage: {program} [FILE]; without FILE, standard input is read");
        assert_eq!(run(program, &[path, path], b""), failed(usage.clone()));
        assert_eq!(run(program, &["--help"], b""), failed(usage));
        let why = "cannot read no/such: No such file or directory (os error 2)";
        let missing = failed(format!("{program}: {why}"));
        assert_eq!(run(program, &["no/such"], b""), missing);
        let why = "cannot read src: Is a directory (os error 21)";
        let folder = failed(format!("{program}: {why}"));
        assert_eq!(run(program, &["src"], b""), folder);
    }
}

#[test]
fn output_that_fails() {
    let text = text_of_b().into_bytes();
    for (program, input) in [("text2blk", text), ("blk2text", sample("B"))] {
        let told = |why: &str| (Some(2), vec![], format!("{program}: cannot write: {why}\n"));
        let full = File::options().write(true).open("/dev/full").unwrap();
        let ran = end(start(program, &[], full.into()), &input);
        assert_eq!(ran, told("No space left on device (os error 28)"));
        let read_only = File::open("/dev/null").unwrap();
        let ran = end(start(program, &[], read_only.into()), &input);
        assert_eq!(ran, told("Bad file descriptor (os error 9)"));
        // The pipe is closed before the program has its input.
        let mut child = start(program, &[], Stdio::piped());
        drop(child.stdout.take());
        assert_eq!(end(child, &input), told("Broken pipe (os error 32)"));
    }
}
