#!/usr/bin/env python3
"""Compiles the two programs that docs/USING.md shows, runs them on samples B and J, and holds the matrix that they print against
the stored listings. The steps up that the page shows are held against those that examples/c stores, its listings of groups that
have emptied against the program's, and its texts of B against the two programs that read and write them. Its lines for packing, put
behind the reading of its C program, must write the samples as they were.

    using.py     in the repository's root, after target/staticlib/librights_c.a, target/librights.rlib and target/bin/rights are built
"""

import json
import pathlib
import re
import subprocess
import sys

sys.dont_write_bytecode = True
import samples

ROOT = pathlib.Path(__file__).resolve().parent.parent
TARGET = ROOT / "target"
RUST = ["rustc", "--edition", "2021", "--extern", "rights=target/librights.rlib", "-o"]
COMPILE = {
    "c": ["cc", "-std=c99", "-Wall", "-Wextra", "-Werror", "-Iinclude", "-o", "target/using-c", "target/using.c",
          "target/staticlib/librights_c.a"],
    "rust": [*RUST, "target/using-rust", "target/using.rust"],
}


def matrix(name):
    """The matrix of mode 0 as the programs print it, from the sample's listing."""
    rows = [line.split() for line in (ROOT / "samples" / f"{name}.txt").read_text().splitlines()]
    word = {"pos": "granted", "neg": "denied"}
    return [f"user {row[1]} file {row[2]}: {word[row[3]]}" for row in rows if row[0] == "0"]


def groups():
    """The listings of sample groups with its bytes, and with its groups and folders drawn with 0 and 1."""
    tables = json.loads((ROOT / "samples" / "pictures.json").read_text())["pictures"]
    (picture,) = [sample for sample in tables if sample["name"] == "groups"]
    for boxes in picture["boxes"], [byte % 2 for byte in picture["boxes"]]:
        file = samples.file_of({**picture, "boxes": boxes})
        yield subprocess.run([TARGET / "bin" / "rights"], input=file, capture_output=True, timeout=30).stdout.decode()


def shows(page, lines):
    """Whether the page shows these lines, which are some, one below the other."""
    return lines != [] and "".join(f"    {line}\n" for line in lines) in page


def packs(page):
    """The samples that the page's lines for packing write otherwise than they were read."""
    (program,) = re.findall(r"```c\n(.*?)```", page, re.S)
    (lines,) = re.findall(r"^    uint8_t packed.*?, out\);\n", page, re.S | re.M)
    reading = program[:program.index("    if (!done(rights_judge(")]
    (TARGET / "using-pack.c").write_text(f"{reading}    FILE *out = stdout;\n{lines}    return 0;\n}}\n")
    command = ["cc", "-std=c99", "-Iinclude", "-o", "target/using-pack", "target/using-pack.c", "target/staticlib/librights_c.a"]
    subprocess.run(command, cwd=ROOT, check=True)
    for name in ["B", "J"]:
        file = (ROOT / "samples" / f"{name}.blk").read_bytes()
        if subprocess.run([TARGET / "using-pack"], input=file, capture_output=True, timeout=30).stdout != file:
            yield f"the page's lines for packing write another file of {name}"


def texts(page):
    """What the two programs for pictures as text do otherwise than the page shows: with B, and with a wrong name in it."""
    (text,) = re.findall(r"```text\n(.*?)```", page, re.S)
    (TARGET / "B.txt").write_text(text.replace("bob inside", "bobb inside"))
    for name in ["text2blk", "blk2text"]:
        subprocess.run([*RUST, f"target/{name}", f"bindings/rust/examples/{name}.rs"], cwd=ROOT, check=True)

    def run(name, *arguments, given=b""):
        return subprocess.run([TARGET / name, *arguments], cwd=TARGET, input=given, capture_output=True, timeout=30)

    packed = (ROOT / "samples" / "B.blk").read_bytes()
    if run("text2blk", given=text.encode()).stdout != packed:
        yield "the page's text of B is another picture"
    if not shows(page, run("blk2text", given=packed).stdout.decode().splitlines()):
        yield "the page shows another text of B than blk2text"
    if not shows(page, run("text2blk", "B.txt").stderr.decode().splitlines()):
        yield "the page shows another message for a wrong name"


def main():
    page = (ROOT / "docs" / "USING.md").read_text()
    wrong = 0
    for language, command in COMPILE.items():
        (program,) = re.findall(rf"```{language}\n(.*?)```", page, re.S)
        (TARGET / f"using.{language}").write_text(program)
        subprocess.run(command, cwd=ROOT, check=True)
        for name in ["B", "J"]:
            file = (ROOT / "samples" / f"{name}.blk").read_bytes()
            ran = subprocess.run([TARGET / f"using-{language}"], input=file, capture_output=True, timeout=30)
            printed = ran.stdout.decode().splitlines()
            pairs = [line for line in printed if line.startswith("user")]
            # B has a list; J has none, and the pair 0, 7 is named
            ends = printed[-1].startswith("arrow") if name == "B" else "7" in (ran.stderr.decode() or printed[-1])
            if pairs != matrix(name) or not ends:
                wrong += 1
                print(f"{language}, {name}: {ran.stdout.decode()}{ran.stderr.decode()}")
    steps = (ROOT / "examples" / "c" / "steps" / "J.0.txt").read_text().splitlines()[:-1]
    for what, lines in [("steps up from user 0 of J", steps), *(("listing of groups", text.splitlines()) for text in groups())]:
        if not shows(page, lines):
            wrong += 1
            print(f"the page shows another {what}")
    for what in [*packs(page), *texts(page)]:
        wrong += 1
        print(what)
    print(f"using: 2 programs and the lines for packing on 2 samples, the steps up, 2 listings and 2 texts, {wrong} wrong")
    sys.exit(wrong > 0)


main()
