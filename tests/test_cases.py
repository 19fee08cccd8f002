#!/usr/bin/env python3
"""Makes what crates/test_cases reads and must write, in the form that its src/main.rt describes.

usage: test_cases.py [--check]     writes crates/test_cases/stdin and stdout; --check only compares them
"""
import itertools
import pathlib
import sys

sys.dont_write_bytecode = True
import block_cases
import pack_cases
import picture_cases

PLACES = 65600


def runs(values):
    """Values as V*N, or V alone."""
    found = [(v, len(list(same))) for v, same in itertools.groupby(values)]
    return [f"{v}*{n}" if n > 1 else v for v, n in found]


def text(case):
    """A case's numbers and tables."""
    words = [[len(x), *runs(x)] if isinstance(x, list) else [x] for x in case]
    return " ".join(str(w) for part in words for w in part)


def line(words, bytes_, numbers):
    """The answer, and each buffer with the places that nothing was written to."""
    parts = [words]
    for fresh, buffers in ((170, bytes_), (43690, numbers)):
        parts += [runs(b + [fresh] * (PLACES - len(b))) for b in buffers]
    return " : ".join(" ".join(map(str, p)) for p in parts) + "\n"


cases = [*picture_cases.cases(), *block_cases.CASES, *pack_cases.CASES]
labels = [label.ljust(25) for label, _, _ in cases]
assert all(len(label) == 25 for label in labels)
made = {
    "stdin": "".join(label + text(case) + "\n" for label, (_, case, _) in zip(labels, cases)),
    "stdout": "".join(label + "".join(line(*one) for one in lines) for label, (_, _, lines) in zip(labels, cases)),
}
here = pathlib.Path(__file__).resolve().parent.parent / "crates" / "test_cases"
for name, body in made.items():
    if "--check" not in sys.argv[1:]:
        (here / name).write_text(body)
    elif (here / name).read_text() != body:
        sys.exit(f"test_cases.py: {name} is not what it makes")
print(len(cases), "cases")
