#!/usr/bin/env python3
"""That the program writes to standard output in one place, `sending::send`, by which what goes out is promised: in the source of every
crate but those of the test program, each use of the library's and the kit's input and output, each call that writes, and each place where
standard output or standard error is taken, is one of those below."""
import collections
import pathlib
import re
import sys

CRATES = pathlib.Path(__file__).resolve().parent.parent / "crates"
TESTS = {"test_cases", "case_text", "file_cases"}

# what is named of the libraries: this writes nothing by itself
NAMED = {
    "io::buffer", "io::large_buffer", "io::decimal", "fs::open", "std::str::from_utf8", "std::env::{Env,FillError}", "std::fs", "std::fs::Files",
    "std::ops::{BitAnd,BitOr,Sub}", "std::io::{Error,Write}", "std::io::{Error,Read,Write}", "std::io::{Cursor,Error,Write}",
}  # fmt: skip
# the place that writes
SEND = ("sending/src/lib.rt", "to.write_all(")
# how often a file has what writes no listing: the lines on standard error with the text of an error in a buffer, and where the program
# takes its streams
OTHERS = {
    ("rights/src/messages.rt", "err.write_all("): 8,
    ("rights/src/messages.rt", "write!(room,"): 1,
    ("rights/src/main.rt", "letmuterr=rt.stderr("): 1,
    ("rights/src/main.rt", "list_from(rt.stdin(),rt.stdout("): 1,
    ("rights/src/main.rt", "list_named(&rt,name,rt.stdout("): 1,
}
# a path into the libraries; what writes, or takes a stream, with what stands before it; a macro that prints; a message
PATH = re.compile(r"\b(?:std|core|io|fs|libc|os)::(?:[\w:]*\{[^}]*\}|[\w:]+|\*)")
CALL = re.compile(r"[^;{}|\n]*?(?:\.|::)\s*(?:write\w*|flush|e?print\w*|stdout|stderr)\s*(?:::\s*<[^>]*>\s*)?\(", re.S)
MACRO = re.compile(r"\b(?:e?print|write|dbg|panic)\w*!\s*[(\[{]\s*\w+\s*[,;]?")
MESSAGE = re.compile(r"(?<!fn )\b(?:fail|usage|print_reason)\((?!\s*(?:&mut )?err\b)")


def bare(text):
    """Without spaces, and without what takes the answer."""
    return re.sub(r"\s", "", re.sub(r"^\s*(?:let _ =|match\b|.*=>)", "", text))


found = collections.Counter()
other = []
for path in sorted(CRATES.glob("*/src/**/*.rt")):
    name = path.relative_to(CRATES).as_posix()
    if name.split("/")[0] in TESTS:
        continue
    source = re.sub(r"//.*", "", path.read_text())
    other += [(name, use) for use in map(bare, PATH.findall(source)) if use not in NAMED]
    other += [(name, use) for use in MESSAGE.findall(source)]
    for use in [*CALL.findall(source), *MACRO.findall(source)]:
        use = bare(use)
        found[name, use] += 1
        if (name, use) != SEND and (name, use) not in OTHERS:
            other.append((name, use))
other += [(*use, f"{found[use]} times, not {count}") for use, count in OTHERS.items() if found[use] != count]
for use in other:
    print(*use, sep=": ")
print(f"{found[SEND]} place writes to standard output, {len(other)} that are not known")
sys.exit(len(other) > 0 or found[SEND] != 1)
