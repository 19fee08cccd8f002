#!/usr/bin/env python3
"""Says whether a crate opens definitions of the crates below it: each `unfolding` of a name that another crate defines.

usage: layers.py     every crate

The tables of cases (specs/Cases.antt) compute, so they open everything, and are left out.
"""
import pathlib
import re
import sys

CRATES = pathlib.Path(__file__).resolve().parent.parent / "crates"

defined = {}
for path in sorted(p for p in CRATES.glob("*/*/**/*.antt") if "out" not in p.parts):
    for name in re.findall(r"^\s*unfoldable pub (\S+) :", path.read_text(), re.M):
        defined.setdefault(name, set()).add(path.relative_to(CRATES).parts[0])

opened = 0
for path in sorted(p for p in CRATES.glob("**/*.antt") if "out" not in p.parts):
    crate = path.relative_to(CRATES).parts[0]
    if path.name == "Cases.antt":
        continue
    text = path.read_text()
    # a name that this crate defines too is another crate's where the file takes it from there
    taken = {n.split()[-1] for below, names in re.findall(r"^use Rattle\.(\w+)\.\S*\.\{(.*)\}", text, re.M) if below != crate for n in names.split(",")}
    for number, line in enumerate(text.split("\n"), 1):
        if line.strip().startswith("unfolding "):
            for name in line.split()[1:]:
                owners = defined.get(name.split(".")[-1], set()) - {crate}
                if owners and (crate not in defined[name.split(".")[-1]] or name in taken):
                    opened += 1
                    print(f"{path.relative_to(CRATES)}:{number}: opens {name} of {', '.join(sorted(owners))}")
print(f"{opened} definitions of a crate below opened")
sys.exit(opened > 0)
