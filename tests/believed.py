#!/usr/bin/env python3
"""How many lines of definitions a reader must believe: those of docs/PROMISES.md, "Meaning", without comments, imports and empty
lines, and without what is proved equal to something plainer. Fails if document 01 and the C boundary take more than 400, so that they do
not grow unseen."""
import pathlib
import re
import sys

MOST = 400

# a file, and the definitions in it that are proved equal to something plainer
PAPERS = {
    "document 01": {
        "base/Search": [],
        "base/Buffers": [],
        "tables/Rows": [],
        "tables/Refusals": [],
        "tables/Faults": [],
        "tables/Atoms": [],
        "containment/Contains": ["direct", "contains"],
        "scratch/Scratch": ["drawn"],
        "meaning/Meaning": [],
        "meaning/Pairs": [],
        "answers/Calls": [],
        "list_meaning/Lists": [],
        "list_meaning/Condition": [],
        "list_meaning/Calls": [],
        "blocks/Fnv": [],
        "blocks/Blocks": [],
        "blocks/Files": [],
        "blocks/Reads": [],
    },
    "the listing": {"lines/Text": [], "lines/Lines": [], "listing/Listing": [], "listing/Files": []},
    "P1, packing": {"packing/Regular": [], "packing/Packs": []},
    "P3, the order of the list": {"list_meaning/Fixed": []},
    "P5, the walk": {"block_parts/Walks": []},
    "the headings": {"headings/Calls": []},
    "the C boundary": {"rights_c/Replies": []},
}


def lines(path, proved):
    """The lines of a file that are to be believed."""
    count = 0
    for line in path.read_text().splitlines():
        text = line.strip()
        if not text or text.startswith("--") or re.match(r"(pub )?(use|mod) ", text):
            continue
        words = [w for w in text.split() if w not in ("unfoldable", "abbrev", "pub")]
        count += words[0] not in proved
    return count


crates = pathlib.Path(__file__).resolve().parent.parent / "crates"
total = {}
for paper, files in PAPERS.items():
    total[paper] = 0
    for name, proved in files.items():
        crate, module = name.split("/")
        total[paper] += lines(crates / crate / "specs" / f"{module}.antt", proved)
    print(f"{paper}: {total[paper]} lines to believe")
if total["document 01"] + total["the C boundary"] > MOST:
    sys.exit(f"document 01 and the C boundary take more than {MOST}")
