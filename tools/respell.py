#!/usr/bin/env python3
"""Brings the repository's own definitions and lemmas to the toolchain's spelling: words in snake case.

usage: python3 tools/respell.py [--check]      at the top of the repository, right after the toolchain's port.py, once

In every .rt and .antt file of crates/, and in the .edit files of must-fail/, a name in lower camel case is written in snake case, part by
part between dashes (`onSide-there` is `on_side-there`); types, modules and lemmas' capital letters stay. A lemma that would fall together
with the definition that it is about gets `_lem`. Functions of src/ have no such names, and strings are left as they are.
With --check it writes nothing, and fails where a name is left.
"""

import os
import re
import sys

WORD = re.compile(r"(?<![\w'·.-])[a-z][\w'-]*|(?<=[.{, (])[a-z][\w'-]*")
STRING = re.compile(r'"(?:[^"\\\n]|\\.)*"')

# lemmas whose names would be those of the definitions `answerAt`, `countsWith`, `headBytes`, `someIn` and `walkAt`
FIRST = {
    "answer_at": "answer_at_lem",
    "counts_with": "counts_with_lem",
    "head_bytes": "head_bytes_lem",
    "some_in": "some_in_lem",
    "walk_at": "walk_at_lem",
}


def snake(name):
    return re.sub(r"(?<=[a-z0-9])([A-Z])", lambda m: "_" + m.group(1).lower(), name)


def files():
    for folder, dirs, names in os.walk("crates"):
        dirs[:] = sorted(d for d in dirs if d != "out")
        for name in sorted(names):
            if name.endswith((".rt", ".antt", ".edit")):
                yield os.path.join(folder, name)


def turned(text, lemmas):
    def word(m):
        name = m.group(0)
        if lemmas and name in FIRST:
            return FIRST[name]
        return snake(name)

    kept = []

    def away(m):
        kept.append(m.group(0))
        return f'"{len(kept) - 1}"'

    text = WORD.sub(word, STRING.sub(away, text))
    return STRING.sub(lambda m: kept[int(m.group(0)[1:-1])], text)


def main(args):
    left = 0
    for path in files():
        with open(path, encoding="utf-8") as f:
            old = f.read()
        # a name that falls together is a lemma's only where the file is no source
        new = turned(old, path.endswith(".antt") and args != ["--check"])
        if new == old:
            continue
        left += 1
        if args != ["--check"]:
            with open(path, "w", encoding="utf-8") as f:
                f.write(new)
    print(f"{left} files " + ("have names to respell" if args == ["--check"] else "respelled"))
    return 1 if left and args == ["--check"] else 0


if __name__ == "__main__":
    raise SystemExit(main(sys.argv[1:]))
