#!/usr/bin/env python3
"""Counts the places of older forms in crates/*/src, point by point, for docs/DESIGN-PASS.md.

    python3 tools/forms.py            one line a form: its point, its count, what it is
    python3 tools/forms.py --places   the places too, as file:line
"""
import glob
import re
import sys

# point, what it is, a pattern over the lines of a file without comments
FORMS = [
    (1, "enums of the shape of Option or Result: two variants, one of them a refusal, a failure or nothing",
     r"^(?:pub )?enum \w+ \{[^}]*\b(?:Refused|Failed|NoBlock)\b[^}]*\}"),
    (1, "a flag or a verdict beside a value, in a struct", r"^ +pub \w+: (?:bool|Verdict),$"),
    (1, "numbers for kinds and refusals: constants", r"^ +pub const (?!LIMIT|SIZE|CAPACITY|MOST|START|PRIME|COVERED)\w+: u(?:8|16) ="),
    (1, "numbers for kinds: parameters and fields", r"\b(?:sign|side|kind|check|letter): (?:u8|u16|usize)\b"),
    (1, "a number that stands for none, as an answer",
     r"^    (?:256|65536|Arrow::NONE|own\.len\(\)|count|i)\n\}|return (?:Arrow::NONE|Head::none\(\));|^ +return 0;$"),
    (2, "arrays of one value made by a function for each size",
     r"^(?:pub )?fn \w+\(\) -> \[\w+; [\w:]+\]"),
    (2, "one walk for each of a set's four words", r"\b\w+_word\w*\([^)\n]*\.[abcd]\b"),
    (2, "pairs over bytes and numbers, or 8 and 16 bits",
     r"^(?:pub )?fn (?:bytes\w*|numbers\w*|byte_\w+|number_\w+|show_bytes|show_numbers|copy_bytes|copy_numbers|wide\d*|low\d*|high\d*|put16|put32|clear|fill)\b[(<]"),
    (2, "one function for each kind of record or table",
     r"^(?:pub )?fn (?:put_boxes|put_containments|put_arrows|put_box|put_containment|put_arrow|boxes|containments|arrows)\b\("),
    (3, "loops that count by hand", r"^ +while (?!let)[^\n]*$"),
    (3, "loops over the indices of a slice", r"^ +for \w+ in 0\.\.\w+\.len\(\)"),
    (4, "equality, order, conversion and printing by hand",
     r"^(?: *)(?:pub )?fn (?:same|least\w*|wide\w*|narrow|low\d*|high\d*|of_\w+|show_\w+|print\w*)\b"),
    (5, "the length of a table, in a contract", r"length \w+\.(?:now|old) ≡ (?:closure_words|heads_words|table_words)"),
    (5, "other facts in three contracts or more",
     r"(?:Small arrows|Boxes (?:users|files)|SoundRows boxes|block_count file)\.now|sign ≤ 1\b|tail < 256\)"),
    (5, "three tables as three parameters", r"boxes: &\[u8\],\s*rows: &\[u16\],\s*arrows: &\[u16\]"),
    (5, "closure, heads, arrows and own as four parameters",
     r"closure: &[^,]+,\s*heads: &[^,]+,\s*arrows: &[^,]+,\s*own: &"),
    (5, "a file and a block number as two parameters", r"file: &\[u8\],\s*block: usize"),
    (6, "a buffer with its length beside it", r"&\w+\[\.\.(?:\w*count|n|used|k|m|first|last)\]"),
    (7, "a switch on which step to run", r"^ +if (?:check|kind\.number|kind) (?:==|<) [^\n]*\{$|^ +match letter \{"),
]


def places():
    files = {}
    for path in sorted(glob.glob("crates/*/src/*.rt")):
        lines = open(path).read().split("\n")
        files[path] = "\n".join("" if l.lstrip().startswith(("//", "ghost use")) else l for l in lines)
    for point, what, pattern in FORMS:
        found = []
        for path, text in files.items():
            for m in re.finditer(pattern, text, re.M):
                found.append(f"{path}:{text.count(chr(10), 0, m.start()) + 1}")
        yield point, what, found


def main():
    for point, what, found in places():
        print(f"{point}  {len(found):3}  {what}")
        if "--places" in sys.argv[1:]:
            for place in found:
                print("        " + place)


if __name__ == "__main__":
    main()
