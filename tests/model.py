"""What a picture says, by documents 01 and 02 alone: which box contains which, which boxes are atomic, and the answer for a pair.

samples.py, picture_cases.py and docs/pictures/draw.py all go by it. Rows are (outer, inner), arrows (tail, head, mode, sign), in
tables that pass checks 1 to 7.
"""

# Box bytes and the side they are on, 0 users and 1 files: 2 is a user group, 3 a folder (document 02, P6).
SIDE = {0: 0, 1: 1, 2: 0, 3: 1}


def contained(count, rows):
    """For each box the set of boxes that it contains: those that a chain of rows leads to."""
    inner = [[] for _ in range(count)]
    for a, b in rows:
        inner[a].append(b)
    found = []
    for box in range(count):
        seen, todo = set(), list(inner[box])
        while todo:
            b = todo.pop()
            if b not in seen:
                seen.add(b)
                todo += inner[b]
        found.append(seen)
    return found


def atomic(boxes, rows, side):
    """The atomic boxes of a side: of byte 0 or 1, and the outer box of no row."""
    outer = {a for a, _ in rows}
    return [box for box, byte in enumerate(boxes) if byte == side and box not in outer]


class Picture:
    def __init__(self, boxes, rows, arrows):
        self.arrows = arrows
        self.inside = contained(len(boxes), rows)
        self.users, self.files = (atomic(boxes, rows, side) for side in (0, 1))
        self.looped = [box for box, mine in enumerate(self.inside) if box in mine]

    def around(self, box, atom):
        return box == atom or atom in self.inside[box]

    def reaches(self, number, user, file):
        tail, head, _, _ = self.arrows[number]
        return self.around(tail, user) and self.around(head, file)

    def nested(self, inner, outer):
        """Whether a box is nested in another, both around one atom. What overrides what goes by this alone."""
        return inner in self.inside[outer]

    def level(self, a, b):
        return a == b or not (self.nested(a, b) or self.nested(b, a))

    def overrides(self, p, n):
        """Whether arrow p overrides arrow n, both reaching one pair."""
        (p_tail, p_head, _, _), (n_tail, n_head, _, _) = self.arrows[p], self.arrows[n]
        return not (
            self.nested(n_tail, p_tail)
            or self.nested(n_head, p_head)
            or (self.level(p_tail, n_tail) and self.level(p_head, n_head))
        )

    def around_user(self, mode, user):
        """The numbers of the mode's arrows whose tail is the user or contains it."""
        return [k for k, (tail, _, of, _) in enumerate(self.arrows) if of == mode and self.around(tail, user)]

    def answer_among(self, numbers, file):
        """The answer that arrows around a user give at a file, by the report's procedure, each against all opposite ones: granted or
        denied with an arrow, default, or unclear with two arrows."""
        reaching = {1: [], 0: []}
        for k in numbers:
            _, head, _, sign = self.arrows[k]
            if self.around(head, file):
                reaching[sign].append(k)
        for sign, word in ((1, "granted"), (0, "denied")):
            for k in reaching[sign]:
                if all(self.overrides(k, other) for other in reaching[1 - sign]):
                    return word, k
        if not reaching[1] and not reaching[0]:
            return ("default",)
        return "unclear", reaching[1][0], reaching[0][0]

    def answer(self, mode, user, file):
        return self.answer_among(self.around_user(mode, user), file)
