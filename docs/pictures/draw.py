#!/usr/bin/env python3
"""Draws the lettered pictures A to J of document 01, and one of groups that have emptied (document 02, P6).

    draw.py           writes A.svg to J.svg, groups.svg, legend.svg and README.md, the page that shows them
    draw.py --check   says whether the files there are those it would write

Boxes, containments and arrows come from samples/pictures.json, the answers from the model in
tests/model.py. Only the places on the sheet stand here. They are checked against the tables: an
outline encloses another exactly if its box contains the other and meets it only if they share a
box, an arrow begins and ends on the outlines of its tail and head, no two arrows meet, and no label
of a box or arrow lies on a line or another label.
"""

import itertools
import json
import math
import pathlib
import sys

sys.dont_write_bytecode = True
FOLDER = pathlib.Path(__file__).resolve().parent
ROOT = FOLDER.parent.parent
sys.path.insert(0, str(ROOT / "tests"))
import model
import samples

# ---- What documents 01 and 02 say ----
# Of each picture: what is drawn, what is answered, the answer of each pair (of J its sign only), and
# what judging gives.

SAID = {
    "A": ("no boxes.", ["Clear, empty matrix."], {}, "clear"),
    "B": (
        "boxes 0, 0, 0, 1; containments 2-0, 2-1; arrows (0,3,0,1), (2,3,0,0).",
        [
            "0 0 3 pos 0, 0 1 3 neg 1, accepted.",
            "One list that qualifies is 0, 1; another is 0.",
            "The list 1, 0 doesn't.",
        ],
        {(0, 3): "pos 0", (1, 3): "neg 1"},
        "clear",
    ),
    "C": (
        "user 0, file 1, arrows + and − between them:",
        ["unclear 0, 1."],
        {(0, 1): "ambig 0 1"},
        "unclear",
    ),
    "D": (
        "user 0 in groups 1 and 2, file 3; arrow 0 from 1 is +, arrow 1 from 2 is −:",
        ["unclear 0, 1."],
        {(0, 3): "ambig 0 1"},
        "unclear",
    ),
    "E": ("D and arrow 2, + from 0 to 3:", ["granted, arrow 2."], {(0, 3): "pos 2"}, "clear"),
    "F": (
        "user 0 in group 1, file 2 in folder 3; arrow 0 from 1 to 2 is +, arrow 1 from 0 to 3 is −:",
        ["unclear 0, 1."],
        {(0, 2): "ambig 0 1"},
        "unclear",
    ),
    "G": ("user 0, file 1, no arrow:", ["denied by default."], {(0, 1): "neg -"}, "clear"),
    "H": ("user 0, containment 0-0:", ["refusal 10, box 0."], {}, "refused 10 0 0 0"),
    "I": (
        "user 0 in group 1, file 2; arrow 0 from 1 and arrow 1 from 0, both +:",
        ["granted, arrow 0."],
        {(0, 2): "pos 0"},
        "clear",
    ),
    "J": (
        "users 0, 1; groups 2 (holds 0, 5), 3 (holds 0), 4 (holds 3, 1), 5 (holds 1); files 6, 7; "
        "folders 8 (holds 7), 9 (holds 8, 6), 10 (holds 6), 11 (holds 10, 7). Arrows 2 to 8 +, 3 to 9 −, "
        "4 to 10 +, 5 to 11 −.",
        [
            "Granted: (0,7), (1,6); denied: (0,6), (1,7).",
            "Clear, yet the list is refused: 13 with 0, 0, 7.",
        ],
        {(0, 7): "pos", (1, 6): "pos", (0, 6): "neg", (1, 7): "neg"},
        "clear",
    ),
    "groups": (
        "users 0 and 1 in group 2, group 3 emptied, file 4 in folder 5, folder 6 emptied; arrow 0 from 2 to 5 "
        "is +, arrow 1 from 3 to 5 is −, arrow 2 from 2 to 6 is −.",
        [
            "Such a box is never atomic, contained rows or not:",
            "3 is no user and 6 no file, and arrows 1 and 2 reach nothing.",
        ],
        {(0, 4): "pos 0", (1, 4): "pos 0"},
        "clear",
    ),
}


def sources(name):
    """Whose words the two texts on a picture are."""
    return ("Document 01", "Document 01") if len(name) == 1 else ("Drawn", "By document 02, P6")


# ---- Places ----
# size: width and height of the sheet. boxes: left, top, width, height, and for a group or folder
# the corner of its label. arrows: begin and end, with two guide points between them if curved.

PLACES = {
    "A": {"size": (440, 110), "boxes": {}, "arrows": []},
    "B": {
        "size": (440, 220),
        "boxes": {
            0: (44, 78, 86, 36),
            1: (44, 146, 86, 36),
            2: (20, 44, 134, 158, "tl"),
            3: (334, 104, 86, 48),
        },
        "arrows": [(130, 96, 334, 118), (154, 170, 334, 140)],
    },
    "C": {
        "size": (440, 140),
        "boxes": {0: (20, 54, 86, 56), 1: (334, 54, 86, 56)},
        "arrows": [(106, 68, 180, 46, 260, 46, 334, 68), (106, 96, 180, 118, 260, 118, 334, 96)],
    },
    "D": {
        "size": (440, 256),
        "boxes": {
            0: (66, 122, 86, 36),
            1: (20, 44, 152, 132, "tl"),
            2: (46, 104, 152, 132, "br"),
            3: (334, 112, 86, 56),
        },
        "arrows": [(172, 74, 334, 126), (198, 206, 334, 154)],
    },
    "E": {
        "size": (440, 256),
        "boxes": {
            0: (66, 122, 86, 36),
            1: (20, 44, 152, 132, "tl"),
            2: (46, 104, 152, 132, "br"),
            3: (334, 104, 86, 72),
        },
        "arrows": [(172, 74, 334, 118), (198, 206, 334, 162), (152, 140, 334, 140)],
    },
    "F": {
        "size": (440, 180),
        "boxes": {
            0: (44, 104, 86, 36),
            1: (20, 44, 134, 116, "tl"),
            2: (310, 64, 86, 36),
            3: (286, 44, 134, 116, "bl"),
        },
        "arrows": [(154, 72, 310, 82), (130, 122, 286, 132)],
    },
    "G": {
        "size": (440, 120),
        "boxes": {0: (20, 54, 86, 36), 1: (334, 54, 86, 36)},
        "arrows": [],
    },
    "H": {"size": (440, 140), "boxes": {0: (20, 64, 86, 36)}, "arrows": []},
    "I": {
        "size": (440, 180),
        "boxes": {
            0: (44, 104, 86, 36),
            1: (20, 44, 134, 116, "tl"),
            2: (334, 74, 86, 56),
        },
        "arrows": [(154, 72, 334, 90), (130, 122, 334, 114)],
    },
    "J": {
        "size": (880, 660),
        "users": 206,
        "files": 698,
        "boxes": {
            0: (162, 176, 86, 36),
            1: (162, 278, 86, 36),
            2: (130, 144, 260, 226, "tr"),
            3: (40, 160, 224, 68, "tl"),
            4: (20, 120, 260, 226, "bl"),
            5: (146, 262, 224, 68, "br"),
            6: (716, 205, 86, 36),
            7: (586, 205, 86, 36),
            8: (572, 92, 114, 163, "tl"),
            9: (556, 50, 276, 221, "tr"),
            10: (702, 191, 114, 163, "bl"),
            11: (540, 175, 316, 221, "br"),
        },
        "arrows": [
            (390, 200, 450, 190, 510, 150, 572, 140),
            (80, 160, 80, 30, 330, 30, 556, 72),
            (80, 346, 80, 470, 420, 470, 702, 320),
            (370, 296, 430, 296, 480, 310, 540, 310),
        ],
        "ring": (440, 556, 66),
    },
    "groups": {
        "size": (440, 294),
        "boxes": {
            0: (44, 78, 86, 36),
            1: (44, 146, 86, 36),
            2: (20, 44, 134, 158, "tl"),
            3: (20, 226, 134, 48, "tl"),
            4: (310, 178, 86, 36),
            5: (286, 116, 134, 158, "tl"),
            6: (286, 44, 134, 48, "tl"),
        },
        "arrows": [(154, 140, 286, 150), (154, 250, 286, 236), (154, 68, 286, 68)],
    },
}

# ---- Looks ----

INK = "#222222"
EDGE = {False: "#333333", True: "#555555"}
FILL = {"user": "#fff3d6", "file": "#e3f1e3", "group": "#f4a300", "folder": "#3c9a3c"}
COLOUR = {1: "#1257a6", 0: "#c2261c"}
SIGN = {1: "+", 0: "−"}
FONT = 14
TAG = (38, 20)


def number(value):
    return f"{value:.1f}".removesuffix(".0")


def points(pairs):
    return " ".join(f"{number(x)},{number(y)}" for x, y in pairs)


def text(x, y, words, size=FONT, anchor="middle", weight="normal", fill=INK):
    return (
        f'<text x="{number(x)}" y="{number(y)}" font-size="{size}" text-anchor="{anchor}" '
        f'font-weight="{weight}" fill="{fill}">{words}</text>'
    )


def label_size(words, size=FONT):
    return 0.62 * size * len(words), 1.2 * size


# ---- Curves ----


def bezier(curve):
    """Four points of a curve; a straight line gets its guide points from its ends."""
    spots = list(zip(curve[0::2], curve[1::2]))
    if len(spots) == 2:
        (x, y), (u, v) = spots
        spots[1:1] = [(x + (u - x) / 3, y + (v - y) / 3), (x + 2 * (u - x) / 3, y + 2 * (v - y) / 3)]
    return spots


def at(spots, t):
    a, b, c, d = (1 - t) ** 3, 3 * t * (1 - t) ** 2, 3 * t * t * (1 - t), t**3
    return tuple(a * p + b * q + c * r + d * s for p, q, r, s in zip(*spots))


def run_of(spots, steps=120):
    return [at(spots, i / steps) for i in range(steps + 1)]


def arrow_head(tip, lean, fill, edge):
    (x, y), (u, v) = tip, lean
    bx, by = x - 13 * u, y - 13 * v
    corners = [(x, y), (bx - 5.5 * v, by + 5.5 * u), (bx + 5.5 * v, by - 5.5 * u)]
    return (
        f'<polygon points="{points(corners)}" fill="{fill}" stroke="{edge}" stroke-width="1.6" '
        f'stroke-linejoin="round"/>'
    )


def drawn_arrow(spots, sign):
    """A line with a dot where it begins and a head where it ends."""
    colour = COLOUR[sign]
    (sx, sy), (p, q), (r, s), (x, y) = spots
    far = math.dist((x, y), (r, s))
    lean = (x - r) / far, (y - s) / far
    fill = colour if sign else "#ffffff"
    dashes = "" if sign else ' stroke-dasharray="7 5"'
    return [
        f'<path d="M {points([(sx, sy)])} C {points([(p, q), (r, s)])} '
        f'{points([(x - 12 * lean[0], y - 12 * lean[1])])}" fill="none" stroke="{colour}" '
        f'stroke-width="2"{dashes}/>',
        arrow_head((x, y), lean, fill, colour),
        f'<circle cx="{number(sx)}" cy="{number(sy)}" r="3.5" fill="{fill}" stroke="{colour}" '
        f'stroke-width="1.6"/>',
    ]


# ---- Boxes and tags ----


def opening(wide, high, title):
    return [
        f'<svg xmlns="http://www.w3.org/2000/svg" width="{wide}" height="{high}" '
        f'viewBox="0 0 {wide} {high}" font-family="Helvetica, Arial, sans-serif">',
        f"<title>{title}</title>",
        f'<rect width="{wide}" height="{high}" fill="#ffffff"/>',
    ]


def outline(x, y, wide, high, role, holds):
    return [
        f'<rect x="{number(x)}" y="{number(y)}" width="{wide}" height="{high}" rx="{14 if holds else 6}" '
        f'fill="{FILL[role]}" fill-opacity="{0.1 if holds else 1}" stroke="{EDGE[holds]}" '
        f'stroke-width="{1.4 if holds else 1.6}"/>'
    ]


def loop(x, y, wide, high):
    """A line from a box's right side back to it."""
    far, low = x + wide, y + high
    spots = [(far, y + 8), (far + 60, y - 30), (far + 60, low + 30), (far, low - 8)]
    return [
        f'<path d="M {points(spots[:1])} C {points(spots[1:])}" fill="none" stroke="{INK}" '
        f'stroke-width="1.6"/>'
    ]


def tag(x, y, words, sign):
    """An arrow's number and sign."""
    wide, high = TAG
    return [
        f'<rect x="{number(x - wide / 2)}" y="{number(y - high / 2)}" width="{wide}" '
        f'height="{high}" rx="10" fill="#ffffff" stroke="{COLOUR[sign]}" stroke-width="1.2"/>',
        text(x, y + 5, words, weight="bold", fill=COLOUR[sign]),
    ]


# ---- One picture ----


class Picture:
    def __init__(self, sample):
        self.name, self.shows = sample["name"], sample["shows"]
        self.boxes, self.rows, self.arrows = (
            samples.spelled_out(sample[kind]) for kind in samples.KINDS
        )
        samples.check_tables(self.boxes, self.rows, self.arrows)
        self.model = model.Picture(self.boxes, self.rows, self.arrows)
        self.inside, self.looped = self.model.inside, self.model.looped
        self.place = PLACES[self.name]
        self.curves = [bezier(curve) for curve in self.place["arrows"]]

    def side(self, box):
        return model.SIDE[self.boxes[box]]

    def empty(self, box):
        """It holds no box other than itself."""
        return not self.inside[box] - {box}

    def role(self, box):
        """Group or folder by its byte, or if it holds a box other than itself."""
        named = self.boxes[box] in (2, 3) or not self.empty(box)
        return [["user", "group"], ["file", "folder"]][self.side(box)][named]

    def groups(self, box):
        return self.role(box) in ("group", "folder")

    # -- answers --

    def answers(self):
        return {
            (user, file): samples.words(self.model.answer(0, user, file))
            for user in self.model.users
            for file in self.model.files
        }

    def judged(self):
        if self.looped:
            return f"refused 10 {self.looped[0]} 0 0"
        return "unclear" if self.first_unclear() else "clear"

    def first_unclear(self):
        return next((pair for pair, words in self.answers().items() if words[0] == "a"), None)

    def reaching(self, arrow, pair):
        return self.model.reaches(arrow, *pair)

    def reached(self, order):
        """The pairs that a list reaches, or None if it isn't honest."""
        pairs = set()
        for pair, words in self.answers().items():
            first = next((arrow for arrow in order if self.reaching(arrow, pair)), None)
            if first is not None:
                if self.arrows[first][3] != words.startswith("pos"):
                    return None
                pairs.add(pair)
        return pairs

    def granted(self):
        return [pair for pair, words in self.answers().items() if words.startswith("pos")]

    def lists(self):
        """All honest lists without a repeat, each with the pairs that it reaches."""
        numbers = range(len(self.arrows))
        orders = itertools.chain(*(itertools.permutations(numbers, k) for k in range(len(numbers) + 1)))
        found = [(order, self.reached(order)) for order in orders]
        return [(order, pairs) for order, pairs in found if pairs is not None]

    def qualifying(self):
        return [order for order, pairs in self.lists() if pairs.issuperset(self.granted())]

    def written(self):
        """The list of document 02, P3: at each place the lowest-numbered arrow that can follow while the
        list stays honest and that reaches a pair nothing earlier reached, until there is none."""
        order = ()
        while True:
            longer = [order + (arrow,) for arrow in range(len(self.arrows))]
            good = [more for more in longer if (self.reached(more) or set()) > self.reached(order)]
            if not good:
                return order
            order = good[0]

    def out_of_reach(self):
        """The granted pairs that no honest list reaches."""
        pairs = set().union(*(pairs for _, pairs in self.lists()))
        return [pair for pair in self.granted() if pair not in pairs]

    def steps(self):
        """(p, n, pair): both reach the pair, and its answer has the sign of p and not of n."""
        for pair, words in self.answers().items():
            sign = int(words.startswith("pos"))
            near = [a for a in range(len(self.arrows)) if self.reaching(a, pair)]
            for p, n in itertools.permutations(near, 2):
                if self.arrows[p][3] == sign and self.arrows[n][3] != sign:
                    yield p, n, pair

    def compare(self):
        """Holds the answers against document 01, and the list of B against document 02."""
        _, _, answers, judged = SAID[self.name]
        mine = {} if self.looped else self.answers()
        agree = mine.keys() == answers.keys() and self.judged() == judged
        agree = agree and all(mine[pair].startswith(answers[pair]) for pair in mine)
        if self.name == "B":
            good = self.qualifying()
            agree = agree and (0, 1) in good and (0,) in good and (1, 0) not in good
            agree = agree and self.written() == (0, 1)
        if self.name == "J":
            ring = {(0, 1), (1, 2), (2, 3), (3, 0)}
            agree = agree and {(p, n) for p, n, _ in self.steps()} == ring
            agree = agree and self.lists() == [((), set())] and self.out_of_reach()[0] == (0, 7)
        if not agree:
            sys.exit(f"draw: the answers of {self.name} are not those of documents 01 and 02")

    # -- labels --

    def box_label(self, box):
        """The middle of a box's label, and its words."""
        x, y, w, h = self.place["boxes"][box][:4]
        words = f"{box} {'empty ' if self.groups(box) and self.empty(box) else ''}{self.role(box)}"
        if not self.groups(box):
            return x + w / 2, y + h / 2, words
        corner = self.place["boxes"][box][4]
        wide, high = label_size(words)
        return (
            x + 10 + wide / 2 if "l" in corner else x + w - 10 - wide / 2,
            y + 7 + high / 2 if "t" in corner else y + h - 7 - high / 2,
            words,
        )

    def arrow_label(self, arrow):
        words = f"{arrow} {SIGN[self.arrows[arrow][3]]}"
        return *at(self.curves[arrow], 0.5), words

    # -- the sheet --

    def sheet(self):
        wide, high = self.place["size"]
        left, right = self.place.get("users", 63), self.place.get("files", wide - 63)
        out = opening(wide, high, f"Picture {self.name}: {self.shows}") + [
            text(left, 24, "users", 13, fill="#666666"),
            text(right, 24, "files", 13, fill="#666666"),
        ]
        if not self.boxes:
            out.append(text(wide / 2, high / 2 + 10, "no boxes, no arrows", fill="#666666"))
        place = self.place["boxes"]
        for box in sorted(place, key=lambda b: -len(self.inside[b])):
            out += self.drawn_box(box)
        for arrow, spots in enumerate(self.curves):
            out += drawn_arrow(spots, self.arrows[arrow][3])
        for box in place:
            x, y, words = self.box_label(box)
            out.append(text(x, y + 5, words, weight="bold" if not self.groups(box) else "normal"))
        for arrow in range(len(self.arrows)):
            x, y, words = self.arrow_label(arrow)
            out += tag(x, y, words, self.arrows[arrow][3])
        if "ring" in self.place:
            out += self.ring()
        return "\n".join(out + ["</svg>"]) + "\n"

    def drawn_box(self, box):
        x, y, w, h = self.place["boxes"][box][:4]
        out = outline(x, y, w, h, self.role(box), self.groups(box))
        if box in self.looped:
            out = loop(x, y, w, h) + out
            out.append(text(x + w + 58, y + h / 2 + 5, f"{box} inside {box}", anchor="start"))
        return out

    def ring(self):
        """Which arrow must stand before which in an honest list, as a ring."""
        x, y, far = self.place["ring"]
        after = {p: (n, pair) for p, n, pair in self.steps()}
        out = [text(x, y - 2, "each before", 13), text(x, y + 15, "the next", 13)]
        arrow = 0
        for turn in (-math.pi / 2, 0, math.pi / 2, math.pi):
            other, pair = after[arrow]
            begin, middle, end = turn + 0.34, turn + math.pi / 4, turn + math.pi / 2 - 0.3
            spots = [(x + far * math.cos(angle), y + far * math.sin(angle)) for angle in (begin, end)]
            lean = (-math.sin(end - 0.1), math.cos(end - 0.1))
            out.append(
                f'<path d="M {points(spots[:1])} A {far} {far} 0 0 1 {points(spots[1:])}" fill="none" '
                f'stroke="{INK}" stroke-width="1.6"/>'
            )
            out.append(arrow_head(spots[1], lean, INK, INK))
            given = "granted" if self.answers()[pair].startswith("pos") else "denied"
            out.append(
                text(
                    x + (far + 14) * math.cos(middle),
                    y + (far + 14) * math.sin(middle) + 5,
                    f"user {pair[0]}, file {pair[1]}: {given}",
                    13,
                    "start" if math.cos(middle) > 0 else "end",
                )
            )
            words, sign = self.arrow_label(arrow)[2], self.arrows[arrow][3]
            out += tag(x + far * math.cos(turn), y + far * math.sin(turn), words, sign)
            arrow = other
        return out


# ---- The places held against the tables ----


def encloses(a, b):
    return a[0] < b[0] and a[1] < b[1] and a[0] + a[2] > b[0] + b[2] and a[1] + a[3] > b[1] + b[3]


def apart(a, b):
    return a[0] + a[2] <= b[0] or b[0] + b[2] <= a[0] or a[1] + a[3] <= b[1] or b[1] + b[3] <= a[1]


def on_outline(box, spot):
    x, y, w, h = box[:4]
    u, v = spot
    across = u in (x, x + w) and y <= v <= y + h
    return across or (v in (y, y + h) and x <= u <= x + w)


def cuts(box, area):
    """Whether an outline runs through an area."""
    return not apart(box, area) and not encloses(box, area)


def around(x, y, wide, high):
    return x - wide / 2, y - high / 2, wide, high


def in_area(area, spot):
    return area[0] < spot[0] < area[0] + area[2] and area[1] < spot[1] < area[1] + area[3]


def faults(picture):
    """What is wrong with the places of a picture."""
    place, arrows, curves = picture.place["boxes"], picture.arrows, picture.curves
    if sorted(place) != list(range(len(picture.boxes))) or len(curves) != len(arrows):
        yield "not every box and arrow has a place"
        return
    labels = {}
    for box in place:
        x, y, words = picture.box_label(box)
        labels[f"box {box}"] = around(x, y, *label_size(words))
    for arrow in range(len(arrows)):
        x, y, words = picture.arrow_label(arrow)
        labels[f"arrow {arrow}"] = around(x, y, *TAG)
    for a, b in itertools.permutations(place, 2):
        if encloses(place[a], place[b]) != (b in picture.inside[a]):
            yield f"outline {a} and box {b}"
        shared = (picture.inside[a] | {a}) & (picture.inside[b] | {b})
        if not shared and not apart(place[a], place[b]):
            yield f"boxes {a} and {b} meet"
        if picture.side(a) < picture.side(b) and place[a][0] + place[a][2] >= place[b][0]:
            yield f"user box {a} is not left of file box {b}"
    for (a, x), (b, y) in itertools.combinations(labels.items(), 2):
        if not apart(x, y):
            yield f"labels of {a} and {b} meet"
    for name, area in labels.items():
        for box in place:
            if cuts(place[box], area):
                yield f"the label of {name} lies on outline {box}"
    runs = [run_of(spots) for spots in curves]
    for arrow, run in enumerate(runs):
        tail, head = arrows[arrow][:2]
        if not on_outline(place[tail], run[0]) or not on_outline(place[head], run[-1]):
            yield f"arrow {arrow} is not between its boxes"
        for name, area in labels.items():
            if name != f"arrow {arrow}" and any(in_area(area, spot) for spot in run):
                yield f"arrow {arrow} runs through the label of {name}"
        for box in place:
            if not picture.groups(box) and any(in_area(place[box], spot) for spot in run):
                yield f"arrow {arrow} runs through box {box}"
    for (a, one), (b, two) in itertools.combinations(enumerate(runs), 2):
        if min(math.dist(p, q) for p in one for q in two) < 10:
            yield f"arrows {a} and {b} meet"


# ---- The page ----


def rows_of(values, wide):
    """A matrix in words, a row for each user."""
    rows = [values[i : i + wide] for i in range(0, len(values), wide or 1)]
    return " / ".join(", ".join(row) for row in rows)


def spoken(words):
    """An answer as document 01 words it."""
    kind, *arrows = words.split()
    if kind == "ambig":
        return "unclear, arrows {} and {}".format(*arrows)
    if arrows == ["-"]:
        return "denied by default"
    return f"{'granted' if kind == 'pos' else 'denied'}, arrow {arrows[0]}"


def tables_of(picture):
    def listed(word, rows):
        return f"{word} {', '.join(rows)}" if rows else f"no {word}"

    return "; ".join(
        [
            listed("boxes", [str(side) for side in picture.boxes]),
            listed("containments", [f"{outer}-{inner}" for outer, inner in picture.rows]),
            listed("arrows", ["({},{},{},{})".format(*row) for row in picture.arrows]),
        ]
    ).capitalize() + "."


def answers_of(picture):
    """What the calls answer, in lines."""
    if picture.looped:
        return [f"**Judge, entry, matrix, list:** refusal 10, box {picture.looped[0]}"]
    answers, unclear = picture.answers(), picture.first_unclear()
    refused = unclear and "refusal 12 with 0, {}, {}".format(*unclear)
    lines = [f"**Judge:** {refused or 'clear'}"]
    for (user, file), words in answers.items():
        lines.append(f"**({user},{file}):** {spoken(words)}")
    code = {"neg": "0", "pos": "1", "ambig": "2"}
    bytes_ = [code[words.split()[0]] for words in answers.values()]
    shown = [
        "65,535" if words[0] == "a" or words[-1] == "-" else words.split()[1] for words in answers.values()
    ]
    wide = len(picture.model.files)
    if answers:
        lines.append(f"**Matrix:** bytes {rows_of(bytes_, wide)}; arrows {rows_of(shown, wide)}")
    else:
        lines.append("**Matrix:** empty")
    order = picture.written()
    if refused:
        lines.append(f"**List:** {refused}")
    elif order in picture.qualifying():
        lines.append(f"**List:** {', '.join(map(str, order)) or 'empty'}")
    else:
        lines.append("**List:** refusal 13 with 0, {}, {}".format(*picture.out_of_reach()[0]))
    return lines


def page(pictures):
    out = [
        "# The lettered pictures, and groups that have emptied",
        "",
        "A to J of document 01, and one for request P6 of document 02; mode 0 throughout. Made by",
        "`python3 docs/pictures/draw.py` from the tables in `samples/pictures.json`; the answers come from",
        "the model in `tests/model.py` and are held against the documents.",
        "",
        "![Legend](legend.svg)",
        "",
        "Boxes of the user side stand left, those of the file side right. Each box has its number and what it",
        "is: a group or a folder if its byte is 2 or 3 or if it holds another box, else a user or a file. An",
        "outline encloses exactly the boxes that its box contains; outlines that cross share what lies in",
        "both. An arrow begins at the dot, on the outline of its tail, and ends on the outline of its head; it",
        "may cross other outlines.",
        "",
        "Above each picture stand its tables (boxes: 0 user side, 1 file side, 2 user group, 3 folder;",
        "containments: outer-inner; arrows: tail, head, mode, sign) and what is drawn. Beside it: what judging",
        "says; each pair (user, file) with its answer; the matrix, its rows parted by a stroke; and the list",
        "in the order that document 02 fixes (P3). Last, the document on the answers: a list qualifies if it",
        "has no repeat, each pair that it reaches gets the picture's answer from the first arrow reaching it,",
        "and it reaches every granted pair.",
    ]
    for picture in pictures:
        drawn, answered = SAID[picture.name][:2]
        on_drawing, on_answers = sources(picture.name)
        lines = answers_of(picture) + ["", f"**{on_answers}:**", *answered]
        out += [
            "",
            f"## {picture.name}: {picture.shows}",
            "",
            tables_of(picture),
            "",
            f"{on_drawing}: {drawn.rstrip('.:')}.",
            "",
            "| picture | answers |",
            "|---|---|",
            f"| ![Picture {picture.name}]({picture.name}.svg) | {'<br>'.join(lines)} |",
        ]
        if "ring" in picture.place:
            out += ["", *RING]
    return "\n".join(out) + "\n"


RING = [
    "The ring: arrow 0 ends on 8, inside 9, where arrow 1 ends; arrow 1 begins at 3, inside 4, where arrow 2",
    "begins; arrow 2 ends on 10, inside 11, where arrow 3 ends; arrow 3 begins at 5, inside 2, where arrow 0",
    "begins. So each arrow decides one pair against the next, as the circle below the picture shows: in an",
    "honest list each would need the one before it in the circle to come first, and no arrow can be the",
    "first. Only the empty list is honest, and it reaches no granted pair.",
]


def legend():
    lines = [
        ("box", "user or file: a box of byte 0 or 1 that holds no other"),
        ("outline", "group or folder: encloses exactly what it contains"),
        ("empty", "of byte 2 or 3, it stays one when it is empty"),
        (1, "positive arrow 0: solid, dot and head filled"),
        (0, "negative arrow 1: dashed, dot and head open"),
        ("loop", "box 0 inside itself"),
    ]
    wide, step = 600, 44
    high = step * len(lines) + 12
    out = opening(wide, high, "Legend")
    for line, (what, words) in enumerate(lines):
        y = step * line + step / 2 + 6
        if what in COLOUR:
            out += drawn_arrow(bezier((24, y, 160, y)), what)
            out += tag(86, y, f"{1 - what} {SIGN[what]}", what)
        elif what in ("outline", "empty"):
            out += outline(24, y - 17, 136, 34, "group", True)
            out.append(text(40, y + 5, "1 group" if what == "outline" else "1 empty group", anchor="start"))
        else:
            place = (49, y - 15, 86, 30)
            out += (loop(*place) if what == "loop" else []) + outline(*place, "user", False)
            out.append(text(92, y + 5, "0 user", weight="bold"))
        out.append(text(200, y + 5, words, anchor="start"))
    return "\n".join(out + ["</svg>"]) + "\n"


# ---- The folder ----


def wanted():
    """Every file that this script makes, by name."""
    tables = json.loads((samples.FOLDER / "pictures.json").read_text())["pictures"]
    pictures = [Picture(sample) for sample in tables if sample["name"] in SAID]
    if [picture.name for picture in pictures] != list(SAID):
        sys.exit("draw: the tables do not have A to J and the groups")
    for picture in pictures:
        picture.compare()
        for fault in faults(picture):
            sys.exit(f"draw: picture {picture.name}: {fault}")
    files = {f"{picture.name}.svg": picture.sheet() for picture in pictures}
    files |= {"legend.svg": legend(), "README.md": page(pictures)}
    return {name: words.encode() for name, words in files.items()}


def main():
    if sys.argv[1:] not in ([], ["--check"]):
        print(__doc__)
        return 2
    files = wanted()
    if sys.argv[1:] == []:
        for name, data in files.items():
            (FOLDER / name).write_bytes(data)
        print(f"pictures: {len(files)} files written")
        return 0
    there = {path.name: path.read_bytes() for path in FOLDER.iterdir() if path.name != "draw.py"}
    wrong = sorted(name for name in there.keys() | files.keys() if there.get(name) != files.get(name))
    print(f"pictures: {len(files)} checked, {len(wrong)} differ", *wrong)
    return 1 if wrong else 0


if __name__ == "__main__":
    sys.exit(main())
