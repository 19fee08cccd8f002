#!/usr/bin/env python3
"""Makes the sample block files and the listings that the program must print for them.

    samples.py                  writes samples/*.blk, samples/*.txt and samples/README.md
    samples.py --check          says whether the files there are those it would write
    samples.py --program PATH   runs the program on every sample and compares its listing
    samples.py --listing        prints the listing of the file on standard input

The tables stand in samples/pictures.json. The listings come from the model in model.py, and from a
reader and checks in this file, written apart from the other ones.
"""

import json
import pathlib
import subprocess
import sys

sys.dont_write_bytecode = True
import model

FOLDER = pathlib.Path(__file__).resolve().parent.parent / "samples"
KINDS = ["boxes", "containments", "arrows"]
CAPACITY = {"boxes": 500, "containments": 125, "arrows": 83}
RECORD = {"boxes": 1, "containments": 4, "arrows": 6}
LIMIT = {"boxes": 256, "containments": 1024, "arrows": 512}
# How the listing begins an answer.
WORDS = {"granted": "pos", "denied": "neg", "default": "neg -", "unclear": "ambig"}


# ---- Making files ----


def spelled_out(rows):
    """A table with its repetitions written out."""
    out = []
    for row in rows:
        if isinstance(row, dict):
            out += [row["of"]] * row["times"]
        else:
            out.append(row)
    return out


def check_of(block):
    check = 2166136261
    for byte in block[:508]:
        check = (check ^ byte) * 16777619 % 2**32
    return check.to_bytes(4, "little")


def record(kind, row):
    if kind == "boxes":
        return bytes([row])
    if kind == "containments":
        return b"".join(number.to_bytes(2, "little") for number in row)
    tail, head, mode, sign = row
    return tail.to_bytes(2, "little") + head.to_bytes(2, "little") + bytes([mode, sign])


def full_blocks(tables):
    """Blocks full but for the last of each kind, an empty one of boxes if there is no row."""
    blocks = []
    for kind in KINDS:
        left = len(tables[kind])
        while left > 0:
            blocks.append([kind, min(left, CAPACITY[kind])])
            left -= blocks[-1][1]
    return blocks or [["boxes", 0]]


def file_of(sample):
    tables = {kind: spelled_out(sample[kind]) for kind in KINDS}
    left = {kind: list(rows) for kind, rows in tables.items()}
    blocks = []
    for number, (kind, count) in enumerate(sample.get("blocks") or full_blocks(tables)):
        rows, left[kind] = left[kind][:count], left[kind][count:]
        block = bytes([KINDS.index(kind) + 1, 0])
        block += number.to_bytes(2, "little") + count.to_bytes(2, "little") + bytes(2)
        block += b"".join(record(kind, row) for row in rows)
        blocks.append(bytearray(block.ljust(512, b"\0")))
        blocks[-1][508:] = check_of(blocks[-1])
    for damage in sample.get("damage", []):
        block = blocks[damage["block"]]
        block[damage["byte"]] = damage["value"]
        if sample.get("sealed", True):
            block[508:] = check_of(block)
    file = b"".join(blocks)
    length = sample.get("length", len(file))
    return file[:length].ljust(length, b"\0")


# ---- The model: a file's listing ----


class Refused(Exception):
    """A refusal: its number and what it names."""

    def __init__(self, number, *places):
        super().__init__(number)
        self.line = " ".join(map(str, ["refused", number, *places, 0, 0, 0][:5]))


def number_at(data, at):
    return int.from_bytes(data[at : at + 2], "little")


def read(file):
    if len(file) == 0 or len(file) % 512 != 0 or len(file) > 32768:
        raise Refused(14, len(file))
    tables = {kind: [] for kind in KINDS}
    kind_before = 1
    for place in range(len(file) // 512):
        block = file[512 * place : 512 * (place + 1)]
        if block[508:] != check_of(block):
            raise Refused(15, place)
        if not kind_before <= block[0] <= 3:
            raise Refused(16, place)
        kind_before = block[0]
        kind, count = KINDS[block[0] - 1], number_at(block, 4)
        if block[1] or block[6] or block[7] or number_at(block, 2) != place:
            raise Refused(16, place)
        if count > CAPACITY[kind]:
            raise Refused(16, place)
        size = RECORD[kind]
        records, filler = block[8 : 8 + count * size], block[8 + count * size : 508]
        if any(filler):
            raise Refused(17, place)
        for at in range(0, len(records), size):
            one = records[at : at + size]
            numbers = [number_at(one, 0), number_at(one, 2)]
            tables[kind].append(
                {"boxes": one[0], "containments": numbers, "arrows": numbers + list(one[4:6])}[kind]
            )
    for table, kind in enumerate(KINDS):
        if len(tables[kind]) > LIMIT[kind]:
            raise Refused(2, table, len(tables[kind]))
    return tables


def check_tables(boxes, rows, arrows):
    """Refusals 3 to 7."""

    def first(number, table, bad):
        for place, row in enumerate(table):
            if bad(row):
                raise Refused(number, place)

    side = {box: model.SIDE.get(byte) for box, byte in enumerate(boxes)}
    first(3, boxes, lambda byte: byte > 3)
    first(4, rows, lambda row: row[0] not in side or row[1] not in side)
    first(5, rows, lambda row: side[row[0]] != side[row[1]])
    first(6, arrows, lambda row: side.get(row[0]) != 0 or side.get(row[1]) != 1)
    first(7, arrows, lambda row: row[2] > 7 or row[3] > 1)


def words(answer):
    """An answer of the model as in the listing."""
    kind, *arrows = answer
    return " ".join([WORDS[kind], *map(str, arrows)])


def listing(data):
    try:
        tables = read(data[:32769])
        boxes, rows, arrows = (tables[kind] for kind in KINDS)
        check_tables(boxes, rows, arrows)
        picture = model.Picture(boxes, rows, arrows)
        if picture.looped:
            raise Refused(10, picture.looped[0])
    except Refused as refused:
        return refused.line + "\n"
    lines = ["boxes {} containments {} arrows {}".format(*(len(tables[kind]) for kind in KINDS))]
    last = "accepted"
    for mode in sorted({row[2] for row in arrows}):
        for user in picture.users:
            numbers = picture.around_user(mode, user)
            for file in picture.files:
                answer = picture.answer_among(numbers, file)
                lines.append(f"{mode} {user} {file} {words(answer)}")
                if answer[0] == "unclear" and last == "accepted":
                    last = f"ambiguous {mode} {user} {file}"
    return "\n".join(lines + [last]) + "\n"


# ---- The folder ----


def wanted():
    """Every file of the folder that this script makes, by name."""
    samples = json.loads((FOLDER / "pictures.json").read_text())["pictures"]
    files = {}
    table = [
        "# Sample block files",
        "",
        "Made by `python3 tests/samples.py` from the tables in `pictures.json`. For each file",
        "`NAME.blk` the program prints what stands in `NAME.txt`:",
        "`target/bin/rights < samples/B.blk`.",
        "",
        "| file | bytes | shows | last line printed |",
        "|---|---|---|---|",
    ]
    for sample in samples:
        data = file_of(sample)
        text = listing(data)
        name, shows = sample["name"], sample["shows"]
        files[f"{name}.blk"] = data
        files[f"{name}.txt"] = text.encode()
        table.append(f"| `{name}.blk` | {len(data)} | {shows} | `{text.splitlines()[-1]}` |")
    files["README.md"] = ("\n".join(table) + "\n").encode()
    return files


def check(files):
    """What differs between the folder and what it should hold."""
    there = {path.name: path.read_bytes() for path in FOLDER.iterdir()}
    there.pop("pictures.json")
    return sorted(name for name in there.keys() | files.keys() if there.get(name) != files.get(name))


def run(program, files):
    """The samples whose listing the program gets wrong."""
    wrong = []
    for name, data in files.items():
        if name.endswith(".blk"):
            printed = subprocess.run([program], input=data, stdout=subprocess.PIPE).stdout
            if printed != files[name[:-4] + ".txt"]:
                wrong.append(name)
    return wrong


def main():
    if sys.argv[1:] == ["--listing"]:
        sys.stdout.write(listing(sys.stdin.buffer.read()))
        return 0
    files = wanted()
    if sys.argv[1:] == []:
        for name, data in files.items():
            (FOLDER / name).write_bytes(data)
        print(f"samples: {len(files)} files written")
        return 0
    if sys.argv[1:] == ["--check"]:
        wrong = check(files)
    elif sys.argv[1:2] == ["--program"] and len(sys.argv) == 3:
        wrong = run(sys.argv[2], files)
    else:
        print(__doc__)
        return 2
    count = sum(name.endswith(".blk") for name in files)
    print(f"samples: {count} checked, {len(wrong)} differ", *wrong)
    return 1 if wrong else 0


if __name__ == "__main__":
    sys.exit(main())
