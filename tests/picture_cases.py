"""Cases of pictures for the program crates/test_cases, and what it must write, from documents 01 and 02 alone.

What a pair is answered is the model's (tests/model.py); checks, buffers and their order are said here. A case is
(label, input, lines): the input's numbers and tables, and for each line the answer's words, the byte buffers and the
number buffers, each as far as a call writes it (tests/test_cases.py).
"""

import model


def pairs_of(rows):
    return list(zip(rows[::2], rows[1::2]))


def fours_of(arrows):
    return list(zip(arrows[::4], arrows[1::4], arrows[2::4], arrows[3::4]))


def refusal(boxes, rows, arrows):
    """The first refusal by 1 to 7, or None."""
    if len(rows) % 2:
        return 1, 1, len(rows), 0
    if len(arrows) % 4:
        return 1, 2, len(arrows), 0
    for table, count, most in ((0, len(boxes), 256), (1, len(rows) // 2, 1024), (2, len(arrows) // 4, 512)):
        if count > most:
            return 2, table, count, 0
    pairs, fours = pairs_of(rows), fours_of(arrows)
    n = len(boxes)
    sides = [model.SIDE.get(b) for b in boxes]

    def on(side, b):
        return b < n and sides[b] == side

    tests = [
        (3, [b > 3 for b in boxes]),
        (4, [a >= n or b >= n for a, b in pairs]),
        (5, [a < n and b < n and sides[a] != sides[b] for a, b in pairs]),
        (6, [not (on(0, t) and on(1, h)) for t, h, _, _ in fours]),
        (7, [m > 7 or s > 1 for _, _, m, s in fours]),
    ]
    for number, bad in tests:
        if True in bad:
            return number, bad.index(True), 0, 0
    return None


def atoms(boxes, rows, side):
    return model.atomic(boxes, pairs_of(rows), side)


def first(faults):
    return next((f for f in faults if f), None)


def expected(boxes, rows, arrows, lent, mode, u, f, nb, nn):
    """The four lines for a picture."""
    n = len(boxes)
    fault = refusal(boxes, rows, arrows)
    room = None if n * n <= lent else (9, 0, n * n, 0)
    asked = (8, mode, 0, 0) if mode > 7 else None
    filled, loop, unclear = [], None, None
    users = files = []
    if not fault:
        drawn = {*pairs_of(rows)}
        picture = model.Picture(boxes, drawn, fours_of(arrows))
        filled = [2 if (a, b) in drawn else int(b in picture.inside[a]) for a in range(n) for b in range(n)]
        loop = (10, picture.looped[0], 0, 0) if picture.looped else None
        users, files = picture.users, picture.files
        if not room and not loop:
            unclear = first((12, m, a, b) if picture.answer(m, a, b)[0] == "unclear" else None for m in range(8) for a in users for b in files)
    cells = [(a, b) for a in users for b in files]
    short = [(9, k, len(cells), 0) if have < len(cells) else None for k, have in ((1, nb), (2, nn))]
    atomic = None if u in users and f in files else (11, u, f, 0)

    def line(early, late, words=lambda: ["passed"], both=lambda: ([], [])):
        """Refused by the first of the early checks, else by the first of the late ones; the scratch is filled between them."""
        before = first([fault, *early])
        after = before or first(late)
        scratch = [] if before else filled
        if after:
            return ["refused", *after], [scratch, []], [[]]
        return words(), [scratch, both()[0]], [both()[1]]

    def matrix():
        codes = {"granted": 1, "denied": 0, "default": 0, "unclear": 2}
        entries = [picture.answer(mode, a, b) for a, b in cells]
        return [codes[e[0]] for e in entries], [e[1] if e[0] in ("granted", "denied") else 65535 for e in entries]

    return [
        line([room], [loop]),
        line([room], [loop, unclear]),
        line([asked, room], [loop, atomic], words=lambda: picture.answer(mode, u, f)),
        line([asked, room, *short], [loop], both=matrix),
    ]


B = [0, 0, 0, 1], [2, 0, 2, 1], [0, 3, 0, 1, 2, 3, 0, 0]
J = (
    [0, 0, 0, 0, 0, 0, 1, 1, 1, 1, 1, 1],
    [2, 0, 2, 5, 3, 0, 4, 3, 4, 1, 5, 1, 8, 7, 9, 8, 9, 6, 10, 6, 11, 10, 11, 7],
    [2, 8, 0, 1, 3, 9, 0, 0, 4, 10, 0, 1, 5, 11, 0, 0],
)
CASES = [
    # no boxes at all, without and with scratch
    ([], [], [], 0),
    ([], [], [], 5),
    (*B, 16),
    (*B, 20),
    (*J, 144),
    # 1: odd lengths, not a multiple of four, the lower table first, also where the table is too long
    ([0], [0], [], 1),
    ([0, 0], [1, 0, 1], [], 4),
    ([0, 1], [], [0], 4),
    ([0, 1], [], [0, 1], 4),
    ([0, 1], [], [0, 1, 0], 4),
    ([0, 1], [], [0, 1, 0, 1, 0], 4),
    ([0, 1], [0], [0], 4),
    ([0, 0], [1, 0] * 1025 + [1], [], 4),
    # 2: both sides of each limit, the lower table first, before 3
    ([0] * 256, [], [], 65536),
    ([0] * 257, [], [], 65600),
    ([0, 0], [1, 0] * 1024, [], 4),
    ([0, 0], [1, 0] * 1025, [], 4),
    ([0, 1], [], [0, 1, 0, 1] * 512, 4),
    ([0, 1], [], [0, 1, 0, 1] * 513, 4),
    ([0] * 257, [1, 0] * 1025, [0, 1, 0, 1] * 513, 4),
    ([4, 1], [], [0, 1, 0, 1] * 513, 4),
    # 3: a byte above 3, the lowest box
    ([0, 1, 2, 3], [], [], 16),
    ([0, 4, 1], [], [], 9),
    ([2, 3, 4], [], [], 9),
    ([0, 255, 4], [], [], 9),
    # 4: outer or inner box that isn't there, the lowest row; before 5
    ([0, 0], [1, 0, 2, 0], [], 4),
    ([0, 0], [1, 0, 0, 2, 2, 0], [], 4),
    ([0, 1], [0, 1, 1, 2], [], 4),
    ([], [0, 0], [], 0),
    ([0], [65535, 0], [], 1),
    # 5: across sides, both ways
    ([0, 1], [0, 1], [], 4),
    ([0, 1, 0], [2, 0, 1, 0], [], 9),
    # user groups and folders are on sides: each box in each of its side, the group or folder in itself left out; then across
    ([0, 2, 2], [1, 0], [], 9),
    ([0, 2, 2], [0, 1], [], 9),
    ([0, 2, 2], [1, 2], [], 9),
    ([1, 3, 3], [1, 0], [], 9),
    ([1, 3, 3], [0, 1], [], 9),
    ([1, 3, 3], [1, 2], [], 9),
    *[([a, b], [0, 1], [], 4) for a, b in ((0, 3), (2, 3), (2, 1), (1, 2), (3, 2), (3, 0))],
    # 6: tail or head of the wrong side or no box, the lowest row; before 7
    ([0, 1], [], [0, 1, 0, 1, 1, 1, 0, 1], 4),
    ([0, 1], [], [0, 0, 0, 1], 4),
    ([0, 1], [], [2, 1, 0, 1], 4),
    ([0, 1], [], [0, 1, 0, 0, 0, 2, 0, 1], 4),
    ([0, 1], [], [0, 1, 9, 0, 1, 0, 0, 1], 4),
    ([], [], [0, 0, 0, 0], 0),
    # from a user group, to a folder, between both; from a folder, to a user group
    *[([a, b], [], [0, 1, 0, 1], 4) for a, b in ((2, 1), (0, 3), (2, 3), (3, 1), (3, 3), (0, 2), (2, 2), (1, 3))],
    # 7: modes 7 and 8, signs 1 and 2
    ([0, 1], [], [0, 1, 7, 1], 4),
    ([0, 1], [], [0, 1, 0, 1, 0, 1, 8, 1], 4),
    ([0, 1], [], [0, 1, 7, 2], 4),
    ([0, 1], [], [0, 1, 65535, 65535], 4),
    # 9: one place short, after 7 and before 10
    (*B, 15),
    ([0] * 256, [], [], 65535),
    ([0], [0, 0], [], 0),
    ([0, 1], [], [0, 1, 8, 1], 0),
    # 10: the lowest box that contains itself, with the scratch filled
    ([0], [0, 0], [], 1),
    ([0, 0], [0, 1, 1, 1], [], 6),
    ([0, 0, 0], [1, 2, 2, 1], [], 9),
    ([0, 0, 0, 0], [3, 0, 0, 1, 1, 2, 2, 1], [], 20),
    ([1, 1, 1], [0, 1, 1, 2, 2, 0], [], 9),
    # chains, crossing groups, repeated rows, rows in any order
    ([0, 0, 0, 0], [0, 1, 1, 2, 2, 3], [], 16),
    ([0, 0, 0, 0], [2, 3, 1, 2, 0, 1], [], 16),
    ([0, 0, 0, 0], [0, 1, 0, 2, 1, 3, 2, 3, 0, 1], [], 18),
    ([0] * 256, [n for k in range(255) for n in (k, k + 1)], [], 65536),
    ([0] * 256, [n for k in range(255) for n in (255 - k, 254 - k)], [], 65540),
]


# The cases above ask in mode 0 about user 0, file 1, with 40 places of each matrix buffer.
QUESTION = 0, 0, 1, 40, 40

C = [0, 1], [], [0, 1, 0, 1, 0, 1, 0, 0]
D = [0, 0, 0, 1], [1, 0, 2, 0], [1, 3, 0, 1, 2, 3, 0, 0]
E = D[0], D[1], [*D[2], 0, 3, 0, 1]
F = [0, 0, 1, 1], [1, 0, 3, 2], [1, 2, 0, 1, 0, 3, 0, 0]
G = [0, 1], [], []
H = [0], [0, 0], []
I = [0, 0, 1], [1, 0], [1, 2, 0, 1, 0, 2, 0, 1]
# Groups that have emptied: one; one in a box of byte 0; a group and a folder beside others that hold something.
EMPTIED = [0, 2, 1], [], [1, 2, 0, 1]
AROUND = [0, 0, 2, 1], [1, 2], [1, 3, 0, 1, 0, 3, 0, 0]
GROUPS = [0, 0, 2, 2, 1, 3, 3], [2, 0, 2, 1, 5, 4], [2, 5, 0, 1, 3, 5, 0, 0, 2, 6, 0, 0]

# Worked by hand: a picture, a mode, what the judge says, and the answers of the mode by user, then file.
# A judge's line is () or refusal 10 or 12; an answer is the word's first letter (g, d, u, or - for default) and its arrows.
WORKED = [
    # the lettered pictures
    (([], [], []), 0, (), ""),
    (B, 0, (), "g0 d1"),
    (C, 0, (12, 0, 0, 1), "u0,1"),
    (D, 0, (12, 0, 0, 3), "u0,1"),
    (E, 0, (), "g2"),
    (F, 0, (12, 0, 0, 2), "u0,1"),
    (G, 0, (), "-"),
    (H, 0, (10, 0, 0, 0), ""),
    (I, 0, (), "g0"),
    (J, 0, (), "d1 g0 g2 d3"),
    # trap 1: one end deeper and the other level is enough. B turned to the file side; both at once
    (([0, 1, 1, 1], [3, 1, 3, 2], [0, 1, 0, 1, 0, 3, 0, 0]), 0, (), "g0 d1"),
    (([0, 0, 1, 1], [1, 0, 3, 2], [0, 2, 0, 0, 1, 3, 0, 1]), 0, (), "d0"),
    # trap 2: + 0 overrides - 2 only by its tail (its head is above), + 1 overrides - 3 only by its head: no certificate.
    # users 0 in 1 in 2; files 3 in 4 in 5: + 0 is 0 to 5, + 1 is 2 to 3, - 2 is 1 to 4, twice as - 3
    (([0, 0, 0, 1, 1, 1], [1, 0, 2, 1, 4, 3, 5, 4], [0, 5, 0, 1, 2, 3, 0, 1, 1, 4, 0, 0, 1, 4, 0, 0]), 0, (12, 0, 0, 3), "u0,2"),
    # trap 3 is J: with all four arrows of one sign each is a certificate where it reaches
    ((J[0], J[1], [2, 8, 0, 1, 3, 9, 0, 1, 4, 10, 0, 1, 5, 11, 0, 1]), 0, (), "g1 g0 g2 g0"),
    # a conflict in mode 7 alone; modes 0 and 6 are clear
    (([0, 1], [], [0, 1, 0, 1, 0, 1, 6, 0, 0, 1, 7, 1, 0, 1, 7, 0]), 7, (12, 7, 0, 1), "u2,3"),
    (([0, 1], [], [0, 1, 0, 1, 0, 1, 6, 0, 0, 1, 7, 1, 0, 1, 7, 0]), 6, (12, 7, 0, 1), "d1"),
    (([0, 1], [], [0, 1, 0, 1, 0, 1, 6, 0, 0, 1, 7, 1, 0, 1, 7, 0]), 5, (12, 7, 0, 1), "-"),
    # a lower mode first, then the lower user, then the lower file
    (([0, 0, 1, 1], [], [1, 2, 3, 1, 1, 2, 3, 0, 0, 3, 4, 1, 0, 3, 4, 0]), 3, (12, 3, 1, 2), "- - u0,1 -"),
    (([0, 0, 1, 1], [], [1, 2, 3, 1, 1, 2, 3, 0, 0, 3, 3, 1, 0, 3, 3, 0]), 3, (12, 3, 0, 3), "- u2,3 u0,1 -"),
    # repeated arrows: the lowest number of several certificates, and of several that reach
    (([0, 0, 1], [1, 0], [1, 2, 0, 0, 0, 2, 0, 1, 0, 2, 0, 1, 1, 2, 0, 0]), 0, (), "g1"),
    (([0, 1], [], [0, 1, 0, 0, 0, 1, 0, 0, 0, 1, 0, 1, 0, 1, 0, 1]), 0, (12, 0, 0, 1), "u2,0"),
    # a certificate that is not the first of its sign: - 0 from the outer group fails against + 1, - 2 from the user wins
    (([0, 0, 0, 1], [1, 0, 2, 1], [2, 3, 0, 0, 1, 3, 0, 1, 0, 3, 0, 0]), 0, (), "d2"),
    # user 0 in crossing groups 2 and 3, user 1 in 3 alone, user 4 in none
    (([0, 0, 0, 0, 0, 1], [2, 0, 3, 0, 3, 1], [2, 5, 0, 1, 3, 5, 0, 0]), 0, (12, 0, 0, 5), "u0,1 d1 -"),
    # files in nested folders: 1 in 2 in 3, and 4 in 3
    (([0, 1, 1, 1, 1], [2, 1, 3, 2, 3, 4], [0, 3, 0, 0, 0, 2, 0, 1]), 0, (), "g1 d0"),
    (([0, 1, 1, 1, 1], [2, 1, 3, 2, 3, 4], [0, 3, 0, 0, 0, 2, 0, 1, 0, 1, 0, 0]), 0, (), "d2 d0"),
    # denials: by an arrow, by default in another mode; a box of byte 0 that holds nothing is a user
    (([0, 1], [], [0, 1, 2, 0]), 2, (), "d0"),
    (([0, 1], [], [0, 1, 2, 0]), 1, (), "-"),
    (([0, 0, 1], [], [1, 2, 0, 1]), 0, (), "- g0"),
    # of byte 2 it is none, and its arrow reaches nothing; a folder; a box around an emptied group; emptied boxes only
    (EMPTIED, 0, (), "-"),
    (([0, 3, 1], [], [0, 1, 0, 1]), 0, (), "-"),
    (AROUND, 0, (), "d1"),
    (([2, 3], [], [0, 1, 0, 1]), 0, (), ""),
    # groups and folders that hold something, beside emptied ones with denials
    (GROUPS, 0, (), "g0 g0"),
    # B with its group said to be one; J with all its groups and folders said to be
    (([0, 0, 2, 1], *B[1:]), 0, (), "g0 d1"),
    (([0, 0, 2, 2, 2, 2, 1, 1, 3, 3, 3, 3], *J[1:]), 0, (), "d1 g0 g2 d3"),
]


def worked(picture, mode, judged, answers):
    """Holds the model to what was worked by hand."""
    boxes, rows, arrows = picture
    said = model.Picture(boxes, pairs_of(rows), fours_of(arrows))
    users, files = said.users, said.files
    letters = {"granted": "g", "denied": "d", "unclear": "u", "default": "-"}
    entries = [said.answer(mode, u, f) for u in users for f in files]
    assert " ".join(letters[e[0]] + ",".join(map(str, e[1:])) for e in entries) == answers, (picture, entries)
    case = *picture, len(boxes) ** 2, mode, users[0] if users else 0, files[-1] if files else 0, 40, 40
    assert expected(*case)[1][0] == (["refused", *judged] if judged else ["passed"]), case
    return case


# 8, 9 for the matrix buffers, 11, and their order
FAULTS = [
    (*B, 16, 8, 0, 3, 2, 2),
    (*B, 16, 65535, 0, 3, 0, 0),
    (*B, 15, 8, 9, 9, 0, 0),
    (*B, 15, 0, 9, 9, 0, 0),
    (*B, 16, 0, 0, 3, 1, 1),
    (*B, 16, 0, 0, 3, 2, 1),
    (*B, 16, 0, 1, 3, 2, 2),
    (*B, 16, 0, 2, 3, 3, 2),
    (*B, 16, 0, 0, 0, 2, 3),
    (*B, 16, 0, 3, 3, 2, 2),
    (*B, 16, 0, 4, 3, 2, 2),
    (*B, 16, 0, 0, 65535, 2, 2),
    (*H, 1, 0, 0, 0, 0, 0),
    ([0, 0, 1], [1, 1], [], 9, 0, 0, 2, 0, 0),
    ([0, 0, 1], [1, 1], [], 9, 0, 1, 2, 1, 1),
    ([0, 1, 1], [1, 1], [0, 3, 9, 9], 9, 9, 9, 9, 0, 0),
    # a user group, a folder, and a box around an emptied group are not atomic; the matrix needs a place for each pair of atomic ones
    (*EMPTIED, 9, 0, 1, 2, 1, 1),
    (*EMPTIED, 9, 0, 0, 2, 0, 1),
    (*EMPTIED, 9, 0, 0, 2, 1, 0),
    (*AROUND, 16, 0, 1, 3, 1, 1),
    (*AROUND, 16, 0, 2, 3, 1, 1),
    (*GROUPS, 49, 0, 3, 4, 2, 2),
    (*GROUPS, 49, 0, 0, 6, 2, 2),
    (*GROUPS, 49, 0, 2, 5, 1, 2),
    # counted before 10
    ([0, 2, 1], [1, 1], [], 9, 0, 0, 2, 0, 0),
    ([0, 2, 1], [1, 1], [], 9, 0, 0, 2, 1, 1),
]

# Scratches, worked by hand: a picture, and a digit for each byte of its scratch.
SCRATCHES = [
    # boxes 0 and 2 joined directly and through 1, and through 1 only; a repeated row
    ([0, 0, 0], [0, 1, 1, 2, 0, 2], [], "022 002 000"),
    ([0, 0, 0], [0, 1, 1, 2], [], "021 002 000"),
    ([1, 1], [0, 1, 0, 1], [], "02 00"),
    # a box in itself; two boxes in each other; a box in another and in itself; three in a ring, with a row across
    ([0], [0, 0], [], "2"),
    ([0, 0], [0, 1, 1, 0], [], "12 21"),
    ([0, 0], [0, 1, 1, 1], [], "02 02"),
    ([1, 1, 1], [0, 1, 1, 2, 2, 0, 0, 2], [], "122 112 211"),
    # J
    (*J, "000000000000 000000000000 210002000000 200000000000 120200000000 020000000000"
         "000000000000 000000000000 000000020000 000000212000 000000200000 000000120020"),
]


def scratched(boxes, rows, arrows, digits):
    """The case of such a picture, with a place beyond the needed ones. The model above is held to the digits."""
    case = boxes, rows, arrows, len(boxes) ** 2 + 1, *QUESTION
    assert expected(*case)[0][1][0] == [*map(int, digits.replace(" ", ""))], case
    return case


PICTURES = [(*case, *QUESTION) for case in CASES] + [worked(*w) for w in WORKED] + [scratched(*s) for s in SCRATCHES] + FAULTS

# Lists, worked by hand: a picture, a mode, the lent places of scratch, list and work, the answer, and the list that is written.
# With an answer of 13 the list holds 65535 for each arrow of the mode. Where a list is written or the answer is 13, the work holds
# 0 for each pair.
ENOUGH = 2400, 520, 600
TWO = [0, 0, 0, 1, 1], [2, 0, 2, 1]  # two users in a group, and two files
UNCLEAR = *TWO, [2, 3, 1, 0, 0, 3, 1, 1, 1, 4, 2, 1, 1, 4, 2, 0]
LISTS = [
    (([], [], []), 0, ENOUGH, "written 0", []),
    # B, with buffers that suffice, that just do, and that are too short; modes without arrows; a mode above 7
    (B, 0, ENOUGH, "written 2", [0, 1]),
    (B, 0, (16, 2, 2), "written 2", [0, 1]),
    (B, 0, (15, 1, 1), "refused 9 0 16 0", []),
    (B, 0, (16, 1, 1), "refused 9 3 2 0", []),
    (B, 0, (16, 2, 1), "refused 9 4 2 0", []),
    (B, 1, ENOUGH, "written 0", []),
    (B, 7, ENOUGH, "written 0", []),
    (B, 8, ENOUGH, "refused 8 8 0 0", []),
    # B with its two arrows exchanged; E, whose certificate is 2; I; G without an arrow; one negative arrow
    ((*B[:2], B[2][4:] + B[2][:4]), 0, ENOUGH, "written 2", [1, 0]),
    (E, 0, ENOUGH, "written 1", [0]),
    (I, 0, ENOUGH, "written 1", [0]),
    (G, 0, ENOUGH, "written 0", []),
    (([0, 1], [], [0, 1, 0, 0]), 0, ENOUGH, "written 1", [0]),
    # the ring J; J with an arrow to one granted pair, which lets the others follow; J beside a user with an arrow of its own
    (J, 0, ENOUGH, "refused 13 0 0 7", [65535] * 4),
    (J, 0, (144, 4, 4), "refused 13 0 0 7", [65535] * 4),
    ((*J[:2], [*J[2], 1, 6, 0, 1]), 0, ENOUGH, "written 4", [4, 3, 0, 1]),
    (([*J[0], 0], J[1], [12, 6, 0, 1, *J[2]]), 0, ENOUGH, "refused 13 0 0 7", [65535] * 5),
    # only negative arrows; two granted pairs that need two arrows, once with a repeated arrow; a box in itself
    ((*TWO, [2, 3, 0, 0, 0, 4, 0, 0]), 0, ENOUGH, "written 2", [0, 1]),
    ((*TWO, [0, 3, 0, 1, 1, 4, 0, 1]), 0, ENOUGH, "written 2", [0, 1]),
    ((*TWO, [1, 4, 0, 1, 0, 3, 0, 1, 1, 4, 0, 1, 2, 4, 0, 0]), 0, ENOUGH, "written 3", [0, 1, 3]),
    ((TWO[0], [2, 0, 2, 2], [0, 3, 0, 1, 1, 4, 0, 1]), 0, ENOUGH, "refused 10 2 0 0", []),
    # an unclear pair in mode 2 and none in mode 1
    (UNCLEAR, 1, ENOUGH, "written 2", [1, 0]),
    (UNCLEAR, 2, ENOUGH, "refused 12 2 1 4", []),
    # groups that have emptied: an arrow that reaches nothing takes a place of the buffer, but stands in no list
    (EMPTIED, 0, (9, 1, 1), "written 0", []),
    (EMPTIED, 0, (9, 0, 1), "refused 9 3 1 0", []),
    (EMPTIED, 0, (9, 1, 0), "refused 9 4 1 0", []),
    (AROUND, 0, (16, 2, 1), "written 1", [1]),
    (([2, 3], [], [0, 1, 0, 1]), 0, (4, 1, 0), "written 0", []),
    (GROUPS, 0, (49, 3, 2), "written 1", [0]),
    # 512 arrows of mode 3: from each of 16 users to each of 32 files, every third of them positive
    (([0] * 16 + [1] * 32, [], [x for k in range(512) for x in (k // 32, 16 + k % 32, 3, k % 3 % 2)]), 3, ENOUGH, "written 512", [*range(512)]),
]


def listed(picture, said, places):
    """The line of a list. The scratch is filled after 8 and 9, as by the first line of a picture."""
    boxes, rows, _ = picture
    words = said.split()
    early = words[:2] in (["refused", "8"], ["refused", "9"])
    done = words[0] == "written" or words[1] == "13"
    scratch = [] if early else expected(*picture, 65536, *QUESTION)[0][1][0]
    pairs = len(atoms(boxes, rows, 0)) * len(atoms(boxes, rows, 1))
    return words, [scratch, [0] * pairs if done else []], [places]


# Headings, worked by hand: the boxes, the containments, the lent places of users and files, the answer, and what is written.
HEADINGS = [
    # no boxes, without and with places; one side only
    ([], [], 0, 0, "written 0 0", [], []),
    ([], [], 3, 3, "written 0 0", [], []),
    ([0], [], 1, 0, "written 1 0", [0], []),
    ([1], [], 0, 1, "written 0 1", [], [0]),
    # B, with places that just suffice and with more; 9 for users, for files, for both
    (*B[:2], 2, 1, "written 2 1", [0, 1], [3]),
    (*B[:2], 5, 4, "written 2 1", [0, 1], [3]),
    (*B[:2], 1, 1, "refused 9 11 2 0", [], []),
    (*B[:2], 2, 0, "refused 9 12 1 0", [], []),
    (*B[:2], 1, 0, "refused 9 11 2 0", [], []),
    (*B[:2], 0, 9, "refused 9 11 2 0", [], []),
    (*B[:2], 9, 0, "refused 9 12 1 0", [], []),
    # boxes 1 and 4 hold nothing; box 2 holds box 0, by two rows
    ([0, 0, 0, 1, 1], [2, 0, 2, 0], 2, 2, "written 2 2", [0, 1], [3, 4]),
    # as a user group and a folder they are not atomic; nor is a box around them, nor where they hold something
    ([0, 2, 0, 1, 3], [2, 0, 2, 0], 1, 1, "written 1 1", [0], [3]),
    (*EMPTIED[:2], 1, 1, "written 1 1", [0], [2]),
    (*AROUND[:2], 1, 1, "written 1 1", [0], [3]),
    (*GROUPS[:2], 2, 1, "written 2 1", [0, 1], [4]),
    (*GROUPS[:2], 1, 1, "refused 9 11 2 0", [], []),
    ([2, 3], [], 0, 0, "written 0 0", [], []),
    ([2] * 256, [], 0, 0, "written 0 0", [], []),
    # sides that take turns; groups in groups
    ([1, 0, 1, 0, 1, 0], [4, 0, 5, 1], 2, 2, "written 2 2", [1, 3], [0, 2]),
    ([0, 0, 0, 1], [0, 1, 1, 2], 9, 9, "written 1 1", [2], [3]),
    (*J[:2], 2, 2, "written 2 2", [0, 1], [6, 7]),
    # a box that contains itself is no atomic one, and the others are answered
    ([0], [0, 0], 0, 0, "written 0 0", [], []),
    ([0, 0, 1], [1, 1], 1, 1, "written 1 1", [0], [2]),
    ([0, 0, 0, 1], [0, 1, 1, 2, 2, 0], 4, 4, "written 0 1", [], [3]),
    # as many as there can be, and one place less
    ([0] * 256, [], 256, 0, "written 256 0", [*range(256)], []),
    ([0] * 256, [], 255, 0, "refused 9 11 256 0", [], []),
    ([1] * 256, [], 0, 257, "written 0 256", [], [*range(256)]),
    ([1] * 256, [], 0, 255, "refused 9 12 256 0", [], []),
    ([0, 1] * 128, [], 128, 128, "written 128 128", [*range(0, 256, 2)], [*range(1, 256, 2)]),
    ([0, 0], [1, 0] * 1024, 1, 0, "written 1 0", [0], []),
    # 1 to 5, each before the next and before 9
    ([0] * 257, [1], 0, 0, "refused 1 1 1 0", [], []),
    ([0] * 257, [1, 0] * 1025, 0, 0, "refused 2 0 257 0", [], []),
    ([4, 0], [1, 0] * 1025, 0, 0, "refused 2 1 1025 0", [], []),
    ([0, 4], [0, 2], 0, 0, "refused 3 1 0 0", [], []),
    ([0, 1], [0, 1, 1, 2], 0, 0, "refused 4 1 0 0", [], []),
    ([0, 1], [2, 0], 9, 9, "refused 4 0 0 0", [], []),
    ([0, 1], [0, 0, 1, 0], 0, 0, "refused 5 1 0 0", [], []),
    ([0, 1], [0, 1], 9, 9, "refused 5 0 0 0", [], []),
    ([2, 3], [0, 1], 9, 9, "refused 5 0 0 0", [], []),
    ([0, 2, 3], [1, 0, 0, 2], 9, 9, "refused 5 1 0 0", [], []),
]


def headed(boxes, rows, nu, nf):
    """The line of the headings: checked as a picture without arrows, then for room, with no look at loops."""
    users, files = (atoms(boxes, rows, side) for side in (0, 1))
    short = [(9, k, need, 0) if have < need else None for k, have, need in ((11, nu, len(users)), (12, nf, len(files)))]
    fault = first([refusal(boxes, rows, []), *short])
    if fault:
        return ["refused", *fault], [], [[], []]
    return ["written", len(users), len(files)], [], [users, files]


def headings():
    """Those worked by hand, to which the model above is held, and the tables of the cases above with places that suffice."""
    for *case, said, users, files in HEADINGS:
        words, _, written = headed(*case)
        assert (" ".join(map(str, words)), written) == (said, [users, files]), case
        yield case
    for boxes, rows, _, _ in CASES:
        yield boxes, rows, 300, 300


def cases():
    for k, case in enumerate(PICTURES):
        yield f"picture {k}", case, expected(*case)
    for k, (picture, mode, (scratch, out, work), said, places) in enumerate(LISTS):
        yield f"list {k}", (*picture, scratch, mode, 0, 0, work, out), [listed(picture, said, places)]
    for k, case in enumerate(headings()):
        yield f"headings {k}", case, [headed(*case)]
