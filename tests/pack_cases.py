"""Cases of packing for the program crates/test_cases, and what it must write.

The packer here is written from document 02, P1, over the blocks of tests/block_cases.py, apart from the Rattle code. A case is
(label, input, lines), as in tests/picture_cases.py.
"""
from block_cases import CAPACITY, block
from picture_cases import B, H, J, refusal

A = [], [], []
CASES = []


def blocks_of(boxes, rows, arrows):
    """The packed file: blocks of each kind full but the last, and at least one of boxes."""
    tables = boxes, list(zip(rows[::2], rows[1::2])), list(zip(arrows[::4], arrows[1::4], arrows[2::4], arrows[3::4]))
    file = []
    for kind, table in enumerate(tables, 1):
        for i in range(0, len(table) or kind == 1, CAPACITY[kind]):
            file += block(kind, len(file) // 512, table[i:i + CAPACITY[kind]])
    return file


def pack(boxes, rows, arrows, lent):
    """The answer's words, and the bytes that are written."""
    fault = refusal(boxes, rows, arrows)
    if fault:
        return ["refused", *fault], []
    file = blocks_of(boxes, rows, arrows)
    if lent < len(file):
        return ["refused", 9, 8, len(file), 0], []
    return ["packed", len(file)], file


def case(name, picture, lent, said):
    """The answer is worked by hand, and the model is held to it."""
    words, file = pack(*picture, lent)
    assert " ".join(map(str, words)) == said, (name, words)
    CASES.append((f"blocks {name}", (*picture, lent), [(words, [file], [])]))


def ends(picture):
    """The last four bytes of each block, in hexadecimal."""
    file = blocks_of(*picture)
    return " ".join(bytes(file[k + 508:k + 512]).hex() for k in range(0, len(file), 512))


def drawn(boxes, rows, arrows):
    """So many rows of each table, on both sides."""
    return [0, 1] * (boxes // 2) + [0] * (boxes % 2), [0, 0] * rows, [0, 1, 0, 1] * arrows


assert ends(A) == "84a9f5b3" and ends(B) == "d374472a 05174ff5 7374dcc5"
case("A", A, 512, "packed 512")
case("A, 511 bytes", A, 511, "refused 9 8 512 0")
case("A, no bytes", A, 0, "refused 9 8 512 0")
case("A, more bytes", A, 600, "packed 512")
case("B", B, 1536, "packed 1536")
case("B, 1,535 bytes", B, 1535, "refused 9 8 1536 0")
case("B, more bytes", B, 65600, "packed 1536")
case("H, a loop", H, 1024, "packed 1024")
case("J", J, 1536, "packed 1536")

# about full blocks; no block without records
case("boxes only", drawn(2, 0, 0), 512, "packed 512")
case("arrows only", drawn(2, 0, 1), 1024, "packed 1024")
case("124, 82 rows", drawn(2, 124, 82), 1536, "packed 1536")
case("125, 83 rows", drawn(2, 125, 83), 1536, "packed 1536")
case("126, 84 rows", drawn(2, 126, 84), 2560, "packed 2560")
case("126 rows, short", drawn(2, 126, 84), 2559, "refused 9 8 2560 0")
case("250 rows", drawn(2, 250, 0), 1536, "packed 1536")
case("251 rows", drawn(2, 251, 0), 2048, "packed 2048")
case("166 arrows", drawn(2, 0, 166), 1536, "packed 1536")
case("167 arrows", drawn(2, 0, 167), 2048, "packed 2048")

# each row another one, at the limits; the order is kept, and so are repeated rows
FULL = (
    [0] * 128 + [1, 2, 3] * 42 + [2, 3],
    [n for k in range(1024) for n in (k % 128, k * 5 % 128)],
    [n for k in range(512) for n in (k % 128, 128 + [0, 2][k % 2], k % 8, k // 8 % 2)],
)
case("full", FULL, 8704, "packed 8704")
case("full, short", FULL, 8703, "refused 9 8 8704 0")
case("1,023 and 511", (FULL[0], FULL[1][:-2], FULL[2][:-4]), 8704, "packed 8704")
case("order", ([0, 0, 1], [1, 0, 0, 0, 1, 0], [1, 2, 7, 0, 0, 2, 3, 1, 1, 2, 7, 0]), 1536, "packed 1536")

# 1 to 7, each before the next and before 9
case("1, rows", ([0] * 257, [0], [0]), 9000, "refused 1 1 1 0")
case("1, arrows", ([0] * 257, [], [0] * 5), 9000, "refused 1 2 5 0")
case("2, boxes", ([4] * 257, [0] * 2050, [0] * 2052), 9000, "refused 2 0 257 0")
case("2, rows", ([4], [0] * 2050, [0] * 2052), 9000, "refused 2 1 1025 0")
case("2, arrows", ([4], [0] * 2048, [0] * 2052), 9000, "refused 2 2 513 0")
case("3", ([0, 1, 4], [3, 0], [0, 0, 9, 9]), 9000, "refused 3 2 0 0")
case("4", ([0, 1], [0, 1, 0, 2], [0, 0, 9, 9]), 9000, "refused 4 1 0 0")
case("5", ([0, 1], [0, 0, 1, 0], [0, 0, 9, 9]), 9000, "refused 5 1 0 0")
case("6", ([0, 1], [], [0, 1, 9, 1, 1, 0, 0, 0]), 9000, "refused 6 1 0 0")
case("7, mode", ([0, 1], [], [0, 1, 7, 1, 0, 1, 8, 0]), 9000, "refused 7 1 0 0")
case("7, mode 259", ([0, 1], [], [0, 1, 259, 1]), 9000, "refused 7 0 0 0")
case("7, sign", ([0, 1], [], [0, 1, 0, 2]), 9000, "refused 7 0 0 0")
case("7 before 9", ([0, 1], [], [0, 1, 8, 0]), 0, "refused 7 0 0 0")
