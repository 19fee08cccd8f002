"""Cases of block files for the program crates/test_cases, and what it must write.

The reader here is written from document 01, "Block files" and "The disk", apart from the Rattle code. A case is (label, input,
lines), as in tests/picture_cases.py.
"""
CAPACITY = {1: 500, 2: 125, 3: 83}
SIZE = {1: 1, 2: 4, 3: 6}


def fnv1a(data):
    h = 2166136261
    for byte in data:
        h = ((h ^ byte) * 16777619) & 0xFFFFFFFF
    return h


def u16(n):
    return [n & 255, n >> 8]


def record(kind, row):
    if kind == 1:
        return [row]
    if kind == 2:
        return u16(row[0]) + u16(row[1])
    return u16(row[0]) + u16(row[1]) + [row[2], row[3]]


def sealed(block):
    """The block with its check."""
    return block[:508] + list(fnv1a(block[:508]).to_bytes(4, "little"))


def block(kind, number, rows, count=None, **bytes_at):
    """A block; `b7=1` sets byte 7. The check is right."""
    count = len(rows) if count is None else count
    data = [kind, 0] + u16(number) + u16(count) + [0, 0]
    for row in rows:
        data += record(kind, row)
    data += [0] * (512 - len(data))
    for name, value in bytes_at.items():
        data[int(name[1:])] = value
    return sealed(data)


def spoiled(data, at):
    """One bit of a byte turned, the check left as it was."""
    return data[:at] + [data[at] ^ 1] + data[at + 1:]


def packed(*tables):
    """Blocks of each kind full but the last."""
    out = []
    for kind, rows in enumerate(tables, 1):
        for i in range(0, len(rows), CAPACITY[kind]):
            out += block(kind, len(out) // 512, rows[i:i + CAPACITY[kind]])
    return out


def said(file):
    """The three tables of a file, or its refusal."""
    if len(file) == 0 or len(file) % 512 != 0 or len(file) > 32768:
        return ("refused", 14, len(file), 0, 0)
    tables = {1: [], 2: [], 3: []}
    before = 0
    for k in range(len(file) // 512):
        b = file[512 * k:512 * k + 512]
        if fnv1a(b[:508]) != int.from_bytes(bytes(b[508:]), "little"):
            return ("refused", 15, k, 0, 0)
        kind, number, count = b[0], b[2] + 256 * b[3], b[4] + 256 * b[5]
        if kind not in (1, 2, 3) or kind < before or b[1] or b[6] or b[7] or number != k or count > CAPACITY[kind]:
            return ("refused", 16, k, 0, 0)
        if any(b[8 + SIZE[kind] * count:508]):
            return ("refused", 17, k, 0, 0)
        before = kind
        for j in range(count):
            r = b[8 + SIZE[kind] * j:8 + SIZE[kind] * (j + 1)]
            if kind == 1:
                tables[1] += r
            else:
                tables[kind] += [r[0] + 256 * r[1], r[2] + 256 * r[3]] + r[4:]
    return tables[1], tables[2], tables[3]


def read(file, lent):
    """The answer's words, and the tables that are written."""
    found = said(file)
    nothing = [], [], []
    if found[0] == "refused":
        return found, nothing
    counts = [len(found[0]), len(found[1]) // 2, len(found[2]) // 4]
    for table, limit in enumerate((256, 1024, 512)):
        if counts[table] > limit:
            return ("refused", 2, table, counts[table], 0), nothing
    for buffer in range(3):
        if lent[buffer] < len(found[buffer]):
            return ("refused", 9, 5 + buffer, len(found[buffer]), 0), nothing
    return ("counts", *counts), found


def after(file, place):
    """The head of the block that a reader sees once it has moved on from its place; behind the last block it stays."""
    places = range(len(file) // 512)
    place += place in places
    if place not in places:
        return ["none"]
    b = file[512 * place:512 * place + 8]
    return ["block", b[0], b[1], b[2] + 256 * b[3], b[4] + 256 * b[5], b[6], b[7]]


CASES = []


def case(name, file, lent=(300, 2100, 2100)):
    words, (boxes, rows, arrows) = read(file, lent)
    blocks = len(file) // 512
    moves = after(file, 0) + [":"] + after(file, max(blocks - 1, 0)) + [":"] + after(file, blocks)
    CASES.append((f"file {name}", (file, *lent), [(words, [boxes], [rows, arrows]), (moves, [], [])]))


def vector(name, data, check):
    """A published vector of FNV-1a at 32 bits: the value is the publication's."""
    assert fnv1a(data) == check
    CASES.append((f"check {name}", (list(data),), [([f"{check:08x}"], [], [])]))


vector("empty", b"", 0x811C9DC5)
vector("a", b"a", 0xE40C292C)
vector("b", b"b", 0xE70C2DE5)
vector("c", b"c", 0xE60C2C52)
vector("foo", b"foo", 0xA9F37ED7)
vector("foobar", b"foobar", 0xBF9CF968)

PICTURE_B = ([0, 0, 0, 1], [(2, 0), (2, 1)], [(0, 3, 0, 1), (2, 3, 0, 0)])
ONE = block(1, 0, [0, 1, 1, 0])
case("picture-b", packed(*PICTURE_B))
case("good-512", ONE)
case("good-511", ONE[:511])
case("good-513", ONE + [0])
case("length-0", [])
full = ([i % 2 for i in range(256)], [(i % 256, (7 * i) % 256) for i in range(1024)],
        [(i % 256, (i + 1) % 256, i % 8, i % 2) for i in range(512)])
quarters = []
for kind, per in ((1, 16), (2, 32), (3, 32)):
    for i in range(0, len(full[kind - 1]), per):
        quarters += block(kind, len(quarters) // 512, full[kind - 1][i:i + per])
case("length-32768", quarters, (256, 2048, 2048))
case("length-33280", quarters + block(3, 64, []), (256, 2048, 2048))

case("kind-0", block(0, 0, [], 0))
case("kind-4", block(4, 0, [], 0))
case("kind-255", block(255, 0, [], 0))
case("kind-falls", block(2, 0, [(1, 0)]) + block(1, 1, [0]))
case("kind-falls-late", block(1, 0, [0]) + block(3, 1, []) + block(2, 2, []))
case("kind-skips", block(1, 0, [0, 1]) + block(3, 1, [(0, 1, 2, 1)]))
case("kind-repeats", block(2, 0, [(1, 0)]) + block(2, 1, [(2, 1), (3, 2)]) + block(2, 2, [(4, 3)]))
case("arrows-only", block(3, 0, [(0, 1, 7, 1), (513, 65535, 8, 2)]))
case("byte-1", block(1, 0, [0, 1], b1=1))
case("byte-6", block(1, 0, [0, 1], b6=1))
case("byte-7", block(1, 0, [0, 1], b7=128))
case("number-low", block(1, 1, [0, 1]))
case("number-high", block(1, 256, [0, 1]))
case("number-same", block(1, 0, [0]) + block(1, 0, [1]))
case("count-500", block(1, 0, [0] * 500))
case("count-501", block(1, 0, [0] * 500, 501))
case("count-125", block(2, 0, [(i, i + 300) for i in range(125)]))
case("count-126", block(2, 0, [(0, 0)] * 125, 126))
case("count-83", block(3, 0, [(i + 256, i, i % 8, 1) for i in range(83)]))
case("count-84", block(3, 0, [(0, 0, 0, 0)] * 83, 84))
case("count-65535", block(3, 0, [], 65535))

TWO = block(1, 0, [0, 1]) + block(3, 1, [(0, 1, 0, 1)])
case("check-first", spoiled(TWO, 508))
case("check-last", spoiled(TWO, 1023))
case("check-record", spoiled(TWO, 8))
case("check-filler", spoiled(TWO, 507))
case("filler-after-boxes", block(1, 0, [0, 1], b10=1))
case("filler-507", block(1, 0, [0, 1], b507=1))
case("filler-after-rows", block(2, 0, [(1, 0)], b12=255))
case("filler-506", block(3, 0, [(0, 1, 0, 1)] * 83, b506=1))
case("filler-507-arrows", block(3, 0, [(0, 1, 0, 1)] * 83, b507=1))
case("filler-second", block(1, 0, [1]) + block(2, 1, [(0, 0)], b507=2))

case("empty-boxes", block(1, 0, []))
case("empty-arrows", block(3, 0, []))
case("empty-all", block(1, 0, []) + block(2, 1, []) + block(3, 2, []))
case("empty-between", block(1, 0, [1]) + block(1, 1, []) + block(1, 2, [0, 1]))
case("not-full", block(1, 0, [1, 0, 1]) + block(1, 1, [0]) + block(2, 2, [(1, 0)]))

case("lower-block-wins", block(1, 0, [0], b507=1) + spoiled(block(1, 1, [1]), 508))
case("lower-block-wins-16", block(1, 5, [0]) + spoiled(block(1, 1, [1]), 508))
case("15-before-16", spoiled(block(1, 3, [0]), 508))
case("15-before-17", spoiled(block(1, 0, [0], b507=1), 508))
case("16-before-17", block(1, 0, [0], b1=1, b507=1))
case("block-before-2", block(1, 0, [0] * 500) + block(2, 1, [], b100=1))

case("boxes-256", packed([1] * 256, [], []))
case("boxes-257", block(1, 0, [1] * 200) + block(1, 1, [1] * 57))
case("rows-1024", packed([], [(1, 2)] * 1024, []))
case("rows-1025", packed([], [(1, 2)] * 1025, []))
case("arrows-512", packed([], [], [(0, 1, 1, 1)] * 512))
case("arrows-513", packed([], [], [(0, 1, 1, 1)] * 513))
case("lowest-table", packed([], [(1, 2)] * 1025, [(0, 1, 1, 1)] * 513))
case("2-before-9", packed([1] * 257, [], []), (0, 0, 0))
case("bytes-pass", block(1, 0, [0, 1, 2, 255]))

B = packed(*PICTURE_B)
case("room-exact", B, (4, 4, 8))
case("boxes-short", B, (3, 4, 8))
case("rows-short", B, (4, 3, 8))
case("arrows-short", B, (4, 4, 7))
case("lowest-buffer", B, (3, 3, 7))
case("no-room-needed", block(1, 0, []), (0, 0, 0))
