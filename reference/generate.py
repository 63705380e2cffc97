"""Seeded generators of card files and of stories, and a search for stories that tell engines apart.

As a program it runs the self-check: it counts how many stories each changed way of stepping answers
otherwise, and fails if a way that the rules rule out by order or rounding goes unseen.
"""

import argparse
import random
import sys
from fractions import Fraction

from engine import (
    AREA,
    C,
    I,
    L,
    LONGEST,
    PLACES,
    PRIME,
    R,
    V,
    Binary64,
    Refused,
    Residues,
    Sheet,
    bits_of,
    cut_of_branch,
    may_divide,
    placed,
    signs_of,
)

KIND_LETTERS = {R: "R", L: "L", C: "C", V: "V", I: "I"}

# ---------------------------------------------------------------------------------------------
# Circuits


def sound_circuit(rng, most=32, nodes=None):
    """Branches (kind, tail, head): no loop of voltage sources, no cut of current sources."""
    count = nodes or rng.choice([2, 2, 3, 3, 4, 5, 6, 8, 11, 16])
    count = min(count, most + 1)
    chosen = rng.sample(range(16), count)
    pieces = [chosen]
    if count >= 4 and rng.random() < 0.25:
        split = rng.randrange(2, count - 1)
        pieces = [chosen[:split], chosen[split:]]
    branches = []
    tree_kinds = rng.choice([[V, C, R, L], [V, R], [R], [C, R], [L, R], [V, R, R, C, L, L]])
    link_kinds = rng.choice([[C, R, L, I], [R], [R, I], [C, L], [R, R, R, I, C, L]])
    for piece in pieces:
        for at in range(1, len(piece)):
            branches.append((rng.choice(tree_kinds), *turned(rng, rng.choice(piece[:at]), piece[at])))
    links = rng.choice([0, 1, 1, 2, 3, 5, 8, 32])
    for _ in range(min(links, most - len(branches))):
        piece = rng.choice(pieces)
        branches.append((rng.choice(link_kinds), *rng.sample(piece, 2)))
    rng.shuffle(branches)
    return branches


def any_circuit(rng, most=32):
    """Branches (kind, tail, head) with no thought for loops and cuts."""
    nodes = rng.sample(range(16), rng.choice([2, 3, 4, 6, 16]))
    count = rng.choice([1, 2, 3, 5, 8, 13, 20, 32])
    return [(rng.choice([R, L, C, V, I]), *rng.sample(nodes, 2)) for _ in range(min(count, most))]


def turned(rng, one, other):
    return (one, other) if rng.random() < 0.5 else (other, one)


# ---------------------------------------------------------------------------------------------
# Card files

TROUBLE = [8191, 16382, 8191 * 122, 8190, 8192, 8189, 8193, 4095, 4096, 1, 2]
LIMITS = [1, 9, 10, 999999, 999998, 100000, 99999]


def digits_text(rng, n):
    text = str(n)
    if rng.random() < 0.1 and len(text) < 6:
        text = "0" * rng.randrange(1, 7 - len(text)) + text
    return text


def figure_text(rng, signed, palette):
    """The text of a value or a start. Palettes: small, wide, ones (1 and -1 modulo 8,191), trouble."""
    if palette == "small":
        n, d = rng.randrange(1, 10), rng.choice([1, 1, 1, 2, 3, 4, 10])
    elif palette == "ones":
        n, d = rng.choice([1, 8190, 8192, 1, 8190, 2, 8189]), 1
    elif palette == "trouble":
        n, d = rng.choice(TROUBLE), rng.choice([1, 1, 1, 1, 1, rng.choice(TROUBLE)])
    else:
        n = rng.choice([rng.randrange(1, 1000), rng.randrange(1, 1000000), rng.choice(LIMITS)])
        d = rng.choice([1, 1, rng.randrange(1, 1000), rng.randrange(1, 1000000), rng.choice([10, 100, 1000, 3, 7])])
    text = digits_text(rng, n)
    if d != 1 or rng.random() < 0.05:
        text += "/" + digits_text(rng, d)
    if signed and rng.random() < 0.4:
        text = "-" + text
    if signed and rng.random() < 0.05:
        text = rng.choice(["0", "-0", "0/7", "-0/3", "000000"])
    return text


def cards_of(rng, branches, palette):
    """A list of cards, each a list of fields."""
    numbers = rng.sample(range(PLACES), len(branches))
    if rng.random() < 0.5:
        numbers = sorted(numbers)
    if rng.random() < 0.3:
        numbers = list(range(len(branches)))
    cards = []
    for number, (kind, tail, head) in zip(numbers, branches):
        fields = [KIND_LETTERS[kind] + digits_text(rng, number), digits_text(rng, tail), digits_text(rng, head)]
        fields.append(figure_text(rng, kind in (V, I), palette))
        if kind in (L, C) and rng.random() < 0.5:
            fields.append(figure_text(rng, True, palette))
        cards.append(fields)
    return cards


def text_of(rng, cards):
    """Cards as bytes, with remarks, empty lines and spaces here and there."""
    plain = rng.random() < 0.4
    lines = []
    for fields in cards:
        if plain:
            lines.append(" ".join(fields))
            continue
        while rng.random() < 0.15:
            lines.append(rng.choice(["", "   ", "* a remark", "  *R0 1 0 1", "*", "* \ttab \u00e4 and more"]))
        gap = lambda: " " * rng.choice([1, 1, 1, 2, 5])
        line = "".join(gap() + field for field in fields)
        lines.append(line if rng.random() < 0.2 else line.strip(" "))
        if rng.random() < 0.1:
            lines[-1] += " " * rng.randrange(1, 4)
    text = "\n".join(lines)
    if rng.random() < 0.8:
        text += "\n"
    if rng.random() < 0.05:
        text += "\n\n"
    return text.encode("utf-8")


def valid_file(rng):
    branches = sound_circuit(rng) if rng.random() < 0.85 else any_circuit(rng)
    return text_of(rng, cards_of(rng, branches, rng.choice(["small", "small", "wide", "ones"])))


def degenerate_file(rng):
    way = rng.randrange(8)
    branches = sound_circuit(rng, 24)
    palette = rng.choice(["small", "ones"])
    if way == 0:  # a loop of voltage sources, perhaps a long one
        nodes = rng.sample(range(16), rng.randrange(2, 7))
        for one, other in zip(nodes, nodes[1:] + nodes[:1]):
            branches.append((V, *turned(rng, one, other)))
    elif way == 1:  # a node that current sources alone reach
        used = {node for _, tail, head in branches for node in (tail, head)}
        free = [node for node in range(16) if node not in used] or [0]
        node = rng.choice(free)
        for _ in range(rng.randrange(1, 4)):
            branches.append((I, *turned(rng, node, rng.choice([n for n in range(16) if n != node]))))
    elif way == 2:  # singular in remainders: two that add up to nothing
        tail, head = rng.sample(range(16), 2)
        lines = rng.choice([["R0 %d %d 1", "R1 %d %d 8190"], ["C0 %d %d 1", "R1 %d %d 8190"], ["L0 %d %d 8190", "R1 %d %d 1"]])
        return ("\n".join(line % turned(rng, tail, head) for line in lines) + "\n").encode()
    elif way in (3, 4):  # values and denominators that are zero in remainders
        palette = "trouble"
    elif way == 5:  # readings out of range
        tail, head = rng.sample(range(16), 2)
        top = rng.choice(["999999", "1000", "999", "100000", "999999/1000"])
        return ("I0 %d %d %s\nR1 %d %d %s\n" % (tail, head, top, *turned(rng, tail, head), rng.choice(["999999", "1000", "1001"]))).encode()
    elif way == 6:  # what the sheet refuses
        cards = cards_of(rng, branches, palette)
        fields = rng.choice(cards)
        what = rng.randrange(6)
        if what == 0:
            fields[0] = fields[0][0] + rng.choice(["32", "99", "999999", "256"])
        elif what == 1:
            fields[rng.choice([1, 2])] = rng.choice(["16", "99", "999999", "256"])
        elif what == 2:
            fields[1] = fields[2]
        elif what == 3:
            fields[3] = rng.choice(["0", "0/1", "000000", "0/0", "5/0", "1/000000"])
        elif what == 4:
            fields[0] = rng.choice(cards)[0]
        else:
            fields[1:4] = ["16", "16", "0"]
        return text_of(rng, cards)
    else:  # both blocks refused, each for its own reason
        tail, head = rng.sample(range(16), 2)
        return ("I0 %d %d 999999\nR1 %d %d 999999\nR2 %d %d %s\n" % (tail, head, tail, head, tail, head, rng.choice(["8191", "1/8191"]))).encode()
    branches = branches[:PLACES]
    rng.shuffle(branches)
    return text_of(rng, cards_of(rng, branches, palette))


SCRAPS = [b"\t", b"\r", b"-", b"/", b"*", b" ", b"\n", b"0", b"9", b"x", b"\x00", b"\xff", b"+", b".", b"r", b"--", b"//"]


def damaged_file(rng):
    way = rng.randrange(12)
    if way == 0:
        return rng.choice([b"", b"\n", b" ", b"*", b"\n\n\n", b"R", b"V0", b"R0 ", b"\r\n", b"\t", b"R0 1 2 1\x00", b" * \n  \n"])
    if way == 1:
        return bytes(rng.choice(b"RLCVI0123456789 /-*\n") for _ in range(rng.randrange(60)))
    if way == 2:
        return bytes(rng.randrange(256) for _ in range(rng.randrange(40)))
    cards = cards_of(rng, sound_circuit(rng, 12), "small")
    fields = rng.choice(cards)
    if way == 3:
        del fields[rng.randrange(1, len(fields))]
    elif way == 4:
        fields.insert(rng.randrange(len(fields) + 1), rng.choice(["1", "*", "x", "1/2", "-1", "R1"]))
    elif way == 5:
        fields[rng.randrange(1, len(fields))] = rng.choice(["1234567", "0000001", "1/0000001", "1234567/1", "9999999"])
    elif way == 6:
        fields[0] = rng.choice(["X", "r", "G", "*", "1", "-", "", "RR", "E"]) + fields[0][1:]
    elif way == 7:
        at = rng.randrange(len(fields))
        fields[at] = rng.choice(["-", "+", "\t", "/", "", "0x", "--"]) + fields[at]
    elif way == 8:
        at = rng.randrange(len(fields))
        fields[at] = fields[at] + rng.choice(["-", "\r", "\t", "/", "/-1", "/1/1", ".5", "e3", "/0", "\u00bd"])
    if way == 9:
        return text_of(rng, cards).replace(b"\n", b"\r\n")
    if way == 10:
        return text_of(rng, cards).replace(b" ", b"\t", rng.randrange(1, 4))
    data = bytearray(text_of(rng, cards))
    if way == 11:
        for _ in range(rng.randrange(1, 3)):
            at = rng.randrange(len(data))
            what = rng.randrange(3)
            if what == 0:
                data[at] ^= 1 << rng.randrange(8)
            elif what == 1:
                data[at:at] = rng.choice(SCRAPS)
            else:
                del data[at : at + 1]
    return bytes(data)


def sized_file(rng):
    """A file filled up to a length about the limit."""
    length = rng.choice([LONGEST - 1, LONGEST, LONGEST, LONGEST, LONGEST + 1, LONGEST + 1, LONGEST + 2, 3000, 6000])
    data = valid_file(rng)
    if not data.endswith(b"\n"):
        data += b"\n"
    missing = length - len(data)
    if missing <= 0:
        return data
    way = rng.randrange(5)
    if way == 0:
        return data + b"*" * missing
    if way == 1:
        return b"\n" * missing + data
    if way == 2:
        return b" " * missing + data
    if way == 3:
        return data + b" " * (missing - 1) + b"x"
    return b"* " + bytes(rng.choice(b"abc RLC/*") for _ in range(missing - 3)) + b"\n" + data if missing > 3 else data + b" " * missing


KINDS_OF_FILES = [valid_file] * 9 + [degenerate_file] * 5 + [damaged_file] * 5 + [sized_file]

FIXED_FILES = [
    b"V0 1 0 6\nR1 1 2 2\nC2 2 0 1\n",
    b"V0 1 0 1\nV1 1 0 1\n",
    b"I0 1 0 1\nI1 0 1 1\n",
    b"L0 1 2 1\nL1 1 4 1\nR2 3 4 1\nC3 2 3 1\nR4 2 3 1\n",
    b"R0 1 0 1\nR1 1 0 8190\n",
    b"V0 1 0 1/16\nR1 1 0 1\n",
    b"V0 1 0 -1/16\nR1 1 0 1\n",
    b"",
    b"   C2  2 0 1/2   -3 \n* the source\n",
    b"v0 1 0 6",
    b"V 1 0 6",
    b"V0  ",
    b"R1234567 1 2 3",
    b"V0 1/2 0 6",
    b"R0 1 0 -1",
    b"V0 1 0 1.5",
    b"V0 1 0 -0/0",
    b"C0 1 2 1/0 x",
    b"C0 1 2 1 *",
    b"R0 1 2 1 *",
    b"R99 1 1 0 j",
    b"   R1 1 1 2",
    b"V0 16 16 1",
    b"R0 1 0 1\nR0 1 0 1\n",
    b"I0 1 0 999999\nR1 1 0 999999\n",
    b"I0 1 0 999999\nR1 1 0 8191\n",
    b"V0 1 0 -0\nR1 1 0 1\n",
]


def card_file(seed):
    """The card file of a seed."""
    rng = random.Random("file %s" % seed)
    return rng.choice(KINDS_OF_FILES)(rng)


# ---------------------------------------------------------------------------------------------
# Stories: lists of calls, each a tuple of a name, the row table's length, and arguments

BAD_NUMBERS = [32, 33, 99, 256, 65536, 2**31, 2**32 - 1]
NAN, INFINITY = float("nan"), float("inf")


def f64_figure(rng, palette):
    if palette == "plain":
        way = rng.randrange(5)
        if way == 0:
            return float(rng.randrange(1, 20))
        if way == 1:
            return rng.randrange(1, 20) / rng.choice([3, 7, 10, 100, 1000])
        if way == 2:
            return rng.uniform(0.1, 10.0)
        if way == 3:
            return -rng.randrange(1, 20) / rng.choice([1, 3, 10])
        return rng.randrange(1, 64) / 8
    if palette == "ones":
        return rng.choice([1.0, -1.0, 1.0, -1.0, 2.0, -2.0, 0.5, -0.5])
    if palette == "wide":
        return rng.choice([1, 1, 1, -1]) * rng.uniform(1.0, 2.0) * 2.0 ** rng.randrange(-60, 61)
    # extreme
    way = rng.randrange(4)
    if way == 0:
        return rng.choice([1, -1]) * 2.0 ** rng.choice([1000, 1023, -1000, -1022, 512, -512, 0])
    if way == 1:
        return rng.choice([5e-324, -5e-324, 2.2250738585072014e-308, 1.7976931348623157e308, -1.7976931348623157e308, 1.0])
    if way == 2:
        return rng.choice([1, -1]) * rng.uniform(1.0, 2.0) * 2.0 ** rng.randrange(-1022, 1023)
    return rng.choice([1.0, 3.0, 0.1])


def res_figure(rng, palette):
    if palette == "plain":
        return rng.randrange(1, PRIME)
    if palette == "ones":
        return rng.choice([1, PRIME - 1, PRIME + 1, 1, PRIME - 1, 2, PRIME - 2, 2 * PRIME - 1])
    if palette == "wide":
        return rng.randrange(65536)
    return rng.choice([0, PRIME, 2 * PRIME, 7 * PRIME, 8 * PRIME, 65535, 1, 2, PRIME - 1])


class Teller:
    """Makes a story up call by call, and keeps a sheet beside it to know what is placed."""

    def __init__(self, rng, arithmetic):
        self.rng = rng
        self.arithmetic = arithmetic
        self.sheet = Sheet(arithmetic)
        self.calls = []
        self.palette = rng.choice(["plain", "plain", "plain", "ones", "ones", "wide", "extreme"])

    def figure(self, palette=None):
        make = f64_figure if self.arithmetic is Binary64 else res_figure
        return make(self.rng, palette or self.palette)

    def nothing(self):
        if self.arithmetic is Binary64:
            return self.rng.choice([0.0, 0.0, -0.0])
        return self.rng.choice([0, 0, 0, PRIME, 2 * PRIME])

    def unsound(self):
        return self.rng.choice([NAN, INFINITY, -INFINITY])

    def call(self, *call):
        self.calls.append(call)
        perform(self.sheet, call)

    def place(self, number, kind, tail, head):
        start = self.arithmetic.zero()
        if kind in (L, C):
            start = self.figure() if self.rng.random() < 0.6 else self.nothing()
        elif self.rng.random() < 0.1:
            start = self.nothing()
        value = self.figure()
        if kind in (V, I) and self.rng.random() < 0.08:
            value = self.nothing()
        self.call("place", PLACES, number, kind, tail, head, value, start)

    def build(self, branches):
        for number, branch in zip(self.rng.sample(range(PLACES), len(branches)), branches):
            self.place(number, *branch)

    def length(self):
        if self.arithmetic is Residues:
            return self.rng.choice([1, 1, 2, 3, PRIME - 1, PRIME + 2, 65535, self.rng.randrange(1, 65536)])
        if self.palette == "ones":
            return self.rng.choice([1.0, 1.0, -1.0, 0.5, 2.0])
        if self.palette == "extreme":
            return self.rng.choice([1.0, 2.0**-1000, 2.0**1000, 5e-324, 1e-3, -1.0])
        return self.rng.choice([1.0, 0.5, 0.25, 1 / 3, 0.1, 1e-3, 1e-9, -1.0, -0.1, 3.0])

    def good(self):
        rng, plan = self.rng, self.sheet.plan
        here = placed(plan)
        way = rng.random()
        if way < 0.55 or not here:
            self.call("step", PLACES, rng.choice([AREA, AREA, AREA, AREA + 1, 320, 512]), self.length())
        elif way < 0.72:
            sources = [k for k in here if plan[k].kind in (V, I)]
            if sources:
                self.call("set", PLACES, rng.choice(sources), self.figure() if rng.random() < 0.9 else self.nothing())
        elif way < 0.82:
            try_links = [k for k in here if plan[k].kind in (R, L, C, I)]
            if try_links:
                self.call("lift", PLACES, rng.choice(try_links if rng.random() < 0.9 else here))
        elif way < 0.99:
            nodes = sorted({n for k in here for n in (plan[k].tail, plan[k].head)})
            free = [k for k in range(PLACES) if plan[k] is None]
            if free:
                kind = rng.choice([R, R, L, C, I] if rng.random() < 0.9 else [V, V, I])
                self.place(rng.choice(free), kind, *rng.sample(nodes, 2))
        else:
            self.call("blank", PLACES)
            self.build(sound_circuit(rng, 6))

    def bad(self):
        """A call that is most likely refused, often for more than one reason."""
        rng, plan = self.rng, self.sheet.plan
        name = rng.choice(["place", "place", "place", "set", "set", "lift", "step", "step", "blank"])
        most = 1 if rng.random() < 0.6 else 4
        faults = set(rng.sample(["rows", "number", "taken", "kind", "node", "ends", "value", "start"], rng.randrange(1, most + 1)))
        rows = rng.choice([0, 1, 31, 33]) if "rows" in faults else PLACES
        free = [k for k in range(PLACES) if plan[k] is None] or [0]
        here = placed(plan) or [0]
        sources = [k for k in placed(plan) if plan[k].kind in (V, I)] or here
        if name == "blank":
            self.call("blank", rng.choice([0, 31, 33]))
        elif name == "lift":
            number = rng.choice(BAD_NUMBERS if "number" in faults else free if "taken" in faults else here)
            self.call("lift", rows if faults & {"rows", "number", "taken"} else 31, number)
        elif name == "set":
            value = self.figure()
            if faults & {"value", "start", "ends"}:
                value = self.unsound() if self.arithmetic is Binary64 else self.nothing()
            number = rng.choice(sources)
            if "kind" in faults:
                number = rng.choice(here)
            if "taken" in faults:
                number = rng.choice(free)
            if "number" in faults:
                number = rng.choice(BAD_NUMBERS)
            self.call("set", rows, number, value)
        elif name == "step":
            area = rng.choice([0, 1, 64, AREA - 1]) if faults & {"number", "taken"} else AREA
            h = self.length()
            if faults & {"value", "start", "ends", "kind", "node"}:
                h = self.unsound() if self.arithmetic is Binary64 and rng.random() < 0.5 else self.nothing()
            self.call("step", rows, area, h)
        else:
            number = rng.choice(BAD_NUMBERS if "number" in faults else here if "taken" in faults else free)
            kind = rng.choice([0, 6, 7, 256, 257, 2**32 - 1]) if "kind" in faults else rng.randrange(1, 6)
            ends = rng.sample(range(16), 2)
            if "ends" in faults:
                ends[1] = ends[0]
            if "node" in faults:
                ends[rng.randrange(2)] = rng.choice([16, 17, 256, 2**32 - 1])
                if "ends" in faults:
                    ends = [16, 16]
            value = self.figure()
            if "value" in faults:
                unsound = self.arithmetic is Binary64 and rng.random() < 0.6
                value = self.unsound() if unsound else self.nothing()
            start = self.arithmetic.zero()
            if "start" in faults:
                unsound = self.arithmetic is Binary64 and rng.random() < 0.4
                start = self.unsound() if unsound else self.figure()
            self.call("place", rows, number, kind, ends[0], ends[1], value, start)


def perform(sheet, call):
    """Makes a call on a sheet; answers None or the Refused that it met."""
    name, rows, arguments = call[0], call[1], call[2:]
    try:
        if name == "blank":
            sheet.blank(rows)
        elif name == "place":
            sheet.place(*arguments, rows=rows)
        elif name == "lift":
            sheet.lift(*arguments, rows=rows)
        elif name == "set":
            sheet.set(*arguments, rows=rows)
        else:
            area, h = arguments
            sheet.step(h, rows=rows, area=area)
    except Refused as refused:
        return refused
    return None


def chance_story(rng, arithmetic):
    teller = Teller(rng, arithmetic)
    teller.build(sound_circuit(rng, rng.choice([4, 8, 16, 32])) if rng.random() < 0.8 else any_circuit(rng, 8))
    for _ in range(rng.randrange(3, 14)):
        if rng.random() < 0.25:
            teller.bad()
        else:
            teller.good()
    return teller.calls


def steady_story(rng, arithmetic):
    """One circuit stepped again and again, with a source changed here and there."""
    teller = Teller(rng, arithmetic)
    teller.palette = rng.choice(["plain", "ones"])
    teller.build(sound_circuit(rng, rng.choice([3, 6, 12])))
    h = teller.length()
    for _ in range(rng.randrange(3, 10)):
        sources = [k for k in placed(teller.sheet.plan) if teller.sheet.plan[k].kind in (V, I)]
        if sources and rng.random() < 0.3:
            teller.call("set", PLACES, rng.choice(sources), teller.figure())
        teller.call("step", PLACES, AREA, h)
    return teller.calls


def rich_story(rng, arithmetic):
    """Many branches of every kind at once, with figures of many digits: the order of a sum shows."""
    teller = Teller(rng, arithmetic)
    teller.palette = "plain"
    figure = lambda: rng.uniform(0.1, 10.0) * rng.choice([1, 1, 1, -1])
    nodes = rng.sample(range(16), rng.randrange(4, 9))
    branches = [(V, *turned(rng, nodes[0], nodes[1])), (V, *turned(rng, nodes[0], nodes[2]))]
    for at in range(3, len(nodes)):
        branches.append((rng.choice([V, C, R, R, L]), *turned(rng, rng.choice(nodes[:at]), nodes[at])))
    for _ in range(rng.randrange(4, 14)):
        branches.append((rng.choice([R, R, L, C, I]), *rng.sample(nodes, 2)))
    numbers = rng.sample(range(PLACES), len(branches))
    for number, (kind, tail, head) in zip(numbers, branches):
        teller.call("place", PLACES, number, kind, tail, head, figure(), figure() if kind in (L, C) else 0.0)
    for _ in range(rng.randrange(1, 4)):
        teller.call("step", PLACES, AREA, rng.choice([1.0, 0.1, 1 / 3]))
    return teller.calls


def spilling_story(rng, arithmetic):
    """Sums that spill over to infinity inside the equations though every result is finite, and small pivots."""
    calls = []
    put = lambda *branch: calls.append(("place", PLACES, len(calls), *branch))
    if rng.random() < 0.5:
        tiny = 2.0 ** -rng.choice([1020, 1022, 1023])
        for _ in range(rng.randrange(4, 10)):
            put(R, 1, 0, tiny, 0.0)
        put(I, 0, 1, f64_figure(rng, "plain"), 0.0)
        put(R, 2, 1, f64_figure(rng, "plain"), 0.0)
        put(I, 2, 0, f64_figure(rng, "plain"), 0.0)
    else:
        large = 2.0 ** rng.choice([45, 60, 100, 500])
        put(R, 1, 0, large * f64_figure(rng, "plain"), 0.0)
        put(C, 2, 1, f64_figure(rng, "plain") / large, f64_figure(rng, "plain"))
        put(L, 2, 0, large * 3.0, f64_figure(rng, "plain") / large)
        put(V, 3, 0, f64_figure(rng, "plain"), 0.0)
        put(R, 3, 2, large / 3.0, 0.0)
    for _ in range(rng.randrange(1, 4)):
        calls.append(("step", PLACES, AREA, rng.choice([1.0, 0.1, 0.5])))
    return calls


FIXED_STORIES = [
    (
        Binary64,
        [
            ("place", 32, 0, I, 0, 1, 2.0**1000, 0.0),
            ("place", 32, 1, R, 1, 0, 2.0**1000, 0.0),
            ("step", 32, 304, 1.0),
            ("set", 32, 0, 1.0),
            ("step", 32, 304, 1.0),
        ],
    ),
    (
        Residues,
        [
            ("place", 32, 0, R, 1, 0, 1, 0),
            ("place", 32, 1, R, 1, 0, 8190, 0),
            ("step", 32, 304, 1),
            ("lift", 32, 1),
            ("step", 32, 304, 1),
        ],
    ),
    (
        Binary64,
        [
            ("place", 32, 0, R, 1, 0, 1.0, 0.0),
            ("place", 32, 1, R, 1, 0, -1.0, 0.0),
            ("step", 32, 304, 1.0),
        ],
    ),
    (
        Binary64,
        [
            ("place", 32, 0, V, 1, 0, 1.0005, 0.0),
            ("place", 32, 1, V, 2, 0, 999999.9994, 0.0),
            ("place", 32, 2, V, 3, 0, 999999.9995, 0.0),
            ("place", 32, 3, V, 4, 0, -0.0625, 0.0),
            ("place", 32, 4, V, 5, 0, -0.0, 0.0),
            ("step", 32, 304, 1.0),
        ],
    ),
    (  # the first pivot is a NaN, and clearing the other piece's row with it makes that row's pivot one too
        Binary64,
        [
            ("place", 32, 0, R, 1, 0, 5e-324, 0.0),
            ("place", 32, 1, R, 1, 0, -5e-324, 0.0),
            ("place", 32, 2, R, 3, 2, 1.0, 0.0),
            ("place", 32, 3, R, 3, 2, -1.0, 0.0),
            ("step", 32, 304, 1.0),
            ("lift", 32, 1),
            ("step", 32, 304, 1.0),
        ],
    ),
]


def story(seed):
    """The arithmetic and the calls of a seed."""
    rng = random.Random("story %s" % seed)
    arithmetic = rng.choice([Binary64, Binary64, Residues])
    if arithmetic is Binary64:
        make = rng.choice([chance_story] * 5 + [steady_story] * 2 + [rich_story] * 2 + [spilling_story])
    else:
        make = rng.choice([chance_story, chance_story, steady_story])
    return arithmetic, make(rng, arithmetic)


# ---------------------------------------------------------------------------------------------
# Changed ways of stepping, to find the stories that tell them from the stated one

WAYS = {
    "reversed": "every sum takes its terms by descending number",
    "fused": "a product that is added or subtracted is not rounded on its own",
    "largest": "the pivot is the entry of the largest size, not the first that may be divided by",
    "reciprocal": "elimination and going back multiply by 1 / pivot instead of dividing",
    "columns": "going back takes later columns by descending number",
    "mixed": "the right side goes through branches outside and voltage sources inside",
    "two sums": "the offsets and the sources' part are summed apart and then joined",
    "differences": "a capacitor's current is g times the voltage's change",
    "resistors": "a resistor's current is voltage / value",
    "balance": "a voltage source's current takes those that enter before those that leave",
    "bare": "a resistor's current has no zero added",
    "minus": "a link's voltage is the negative of the sum by loop signs",
    "eager": "an unsound entry in the equations is refused by 15 at once",
    "tiny": "a pivot below 1e-12 is taken for none",
    "picky": "an unsound entry is no pivot",
    "skipped": "a row whose entry is already zero is not cleared",
    "whole": "each current and voltage is that of exact arithmetic, rounded once",
}


def fused(x, y, z):
    """x * y + z, rounded once."""
    if not (Binary64.is_sound(x) and Binary64.is_sound(y) and Binary64.is_sound(z)):
        return x * y + z
    exact = Fraction(x) * Fraction(y) + Fraction(z)
    if exact == 0:
        return x * y + z if x == 0 or y == 0 else 0.0
    return rounded(exact)


def rounded(exact):
    try:
        return float(exact)
    except OverflowError:
        return INFINITY if exact > 0 else -INFINITY


class Changed(Sheet):
    """A sheet in binary64 whose steps are worked out in a changed way; with no way, in the stated one."""

    def __init__(self, way=None):
        super().__init__(Binary64)
        self.way = way

    def total(self, terms, start=0.0):
        """The sum of terms (sign, x) and (sign, x, y), the latter a product."""
        total = start
        for sign, x, *rest in reversed(terms) if self.way == "reversed" else terms:
            if not rest:
                total = total + x if sign > 0 else total - x
            elif self.way == "fused":
                total = fused(x if sign > 0 else -x, rest[0], total)
            else:
                total = total + x * rest[0] if sign > 0 else total - x * rest[0]
        return total

    def find(self, word, h):
        if self.way == "whole":
            return self.exactly(h)
        a, plan, rows = Binary64, self.plan, self.rows
        here = placed(plan)
        g, s = {}, {}
        for k in here:
            value = rows[k].value
            if plan[k].kind == R:
                g[k], s[k] = a.quotient(1.0, value), 0.0
            elif plan[k].kind == L:
                g[k], s[k] = a.quotient(h, value), rows[k].current
            elif plan[k].kind == C:
                g[k] = a.quotient(value, h)
                s[k] = -(g[k] * rows[k].voltage)
        trunk = [k for k in here if word >> k & 1]
        links = [k for k in here if not word >> k & 1]
        cut = {t: signs_of(cut_of_branch(plan, word, t)) for t in trunk}
        sources = [k for k in trunk if plan[k].kind == V]
        unknowns = [k for k in trunk if plan[k].kind != V]
        passive = sorted(g)
        matrix = []
        for t in unknowns:
            line = []
            for r in unknowns:
                line.append(self.total([(cut[t][k] * cut[r][k], g[k]) for k in passive if cut[t][k] * cut[r][k]]))
            offsets = [
                (-cut[t][k], rows[k].value if plan[k].kind == I else s[k])
                for k in here
                if plan[k].kind != V and cut[t][k]
            ]
            pairs = [(v, k) for v in sources for k in passive]
            if self.way == "mixed":
                pairs = [(v, k) for k in passive for v in sources]
            driven = [(-cut[t][k] * cut[v][k], g[k], rows[v].value) for v, k in pairs if cut[t][k] * cut[v][k]]
            if self.way == "two sums":
                line.append(self.total(offsets) + self.total(driven))
            elif self.way == "reversed":
                line.append(self.total(driven, self.total(offsets)))
            else:
                line.append(self.total(offsets + driven))
            matrix.append(line)
        if self.way == "eager" and not all(a.is_sound(x) for line in matrix for x in line):
            raise Refused(15)
        found = self.solved(matrix)
        voltages = dict(zip(unknowns, found))
        currents = {}
        for v in sources:
            voltages[v] = rows[v].value
        for k in links:
            if self.way == "minus":
                voltages[k] = -self.total([(-cut[t][k], voltages[t]) for t in trunk if cut[t][k]])
            else:
                voltages[k] = self.total([(cut[t][k], voltages[t]) for t in trunk if cut[t][k]])
        for k in here:
            kind = plan[k].kind
            if kind == I:
                currents[k] = rows[k].value
            elif kind == C and self.way == "differences":
                currents[k] = g[k] * (voltages[k] - rows[k].voltage)
            elif kind == R and self.way == "resistors":
                currents[k] = a.quotient(voltages[k], rows[k].value) + 0.0
            elif kind == R and self.way == "bare":
                currents[k] = g[k] * voltages[k]
            elif kind != V:
                currents[k] = fused(g[k], voltages[k], s[k]) if self.way == "fused" else g[k] * voltages[k] + s[k]
        for v in sources:
            terms = [(-cut[v][k], currents[k]) for k in links if cut[v][k]]
            if self.way == "balance":
                terms.sort(key=lambda term: -term[0])
            currents[v] = self.total(terms)
        return currents, voltages

    def solved(self, matrix):
        a, n = Binary64, len(matrix)
        for c in range(n):
            rows = [r for r in range(c, n) if may_divide(a, matrix[r][c])]
            if self.way == "tiny":
                rows = [r for r in rows if not abs(matrix[r][c]) < 1e-12]
            if self.way == "picky":
                rows = [r for r in rows if a.is_sound(matrix[r][c])]
            if not rows:
                raise Refused(14)
            pivot = max(rows, key=lambda r: abs(matrix[r][c])) if self.way == "largest" else rows[0]
            matrix[c], matrix[pivot] = matrix[pivot], matrix[c]
            top = matrix[c]
            for r in range(c + 1, n):
                row = matrix[r]
                if self.way == "skipped" and row[c] == 0.0:
                    continue
                if self.way == "reciprocal":
                    f = row[c] * a.quotient(1.0, top[c])
                else:
                    f = a.quotient(row[c], top[c])
                for j in range(c, n + 1):
                    row[j] = fused(-f, top[j], row[j]) if self.way == "fused" else row[j] - f * top[j]
        found = [0.0] * n
        for r in range(n - 1, -1, -1):
            row = matrix[r]
            columns = range(n - 1, r, -1) if self.way == "columns" else range(r + 1, n)
            right = self.total([(-1, row[j], found[j]) for j in columns], row[n])
            found[r] = right * a.quotient(1.0, row[r]) if self.way == "reciprocal" else a.quotient(right, row[r])
        return found

    def exactly(self, h):
        import tableau

        plan, rows = self.plan, self.rows
        number = tableau.Rationals.number
        found = tableau.step(
            tableau.Rationals,
            {k: (plan[k].kind, plan[k].tail, plan[k].head) for k in placed(plan)},
            {k: (number(rows[k].value), number(rows[k].current), number(rows[k].voltage)) for k in placed(plan)},
            number(h),
        )
        if found is None:
            raise Refused(14)
        return {k: rounded(found[k][0]) for k in found}, {k: rounded(found[k][1]) for k in found}


def footprint(sheet, calls):
    """The answers to the calls and the bits of all rows after each step."""
    marks = []
    for call in calls:
        refused = perform(sheet, call)
        marks.append(refused.number if refused else 0)
        if call[0] == "step":
            marks += [(bits_of(sheet.rows[k].current), bits_of(sheet.rows[k].voltage)) for k in placed(sheet.plan)]
    return marks


def ways_told_apart(calls, ways=None):
    """The changed ways that answer a story in binary64 otherwise than the stated one."""
    stated = footprint(Sheet(Binary64), calls)
    if footprint(Changed(), calls) != stated:
        raise AssertionError("two programs of the stated way differ")
    return [way for way in (WAYS if ways is None else ways) if footprint(Changed(way), calls) != stated]


def fixed_in_binary64():
    return [calls for arithmetic, calls in FIXED_STORIES if arithmetic is Binary64]


def worth_trying(calls):
    """The ways to try on a story: fractions grow too long for exact arithmetic on a large circuit."""
    few = len([call for call in calls if call[0] == "place"]) <= 8
    return [way for way in WAYS if few or way != "whole"]


def telling_stories(seed, each=4, tries=400):
    """Stories in binary64 that tell each way apart, with those of FIXED_STORIES; and the ways that none tells apart."""
    kept = []
    wanting = dict.fromkeys(WAYS, each)
    wanting["skipped"] = 1  # chance hardly ever finds one
    for calls in fixed_in_binary64():
        for way in ways_told_apart(calls):
            wanting[way] -= 1
    for n in range(tries):
        wanted = [way for way in wanting if wanting[way] > 0]
        if not wanted:
            break
        arithmetic, calls = story("telling %s %d" % (seed, n))
        if arithmetic is not Binary64:
            continue
        told = ways_told_apart(calls, [way for way in worth_trying(calls) if way in wanted])
        if told:
            kept.append(calls)
            for way in told:
                wanting[way] -= 1
    unseen = [way for way in wanting if wanting[way] == (1 if way == "skipped" else each)]
    return kept, unseen


def main():
    parser = argparse.ArgumentParser(description="Counts how many stories tell each changed way of stepping apart.")
    parser.add_argument("--seed", default="0")
    parser.add_argument("--count", type=int, default=200)
    options = parser.parse_args()
    stories = fixed_in_binary64()
    n = 0
    while len(stories) < options.count:
        arithmetic, calls = story("%s %d" % (options.seed, n))
        n += 1
        if arithmetic is Binary64:
            stories.append(calls)
    counts = dict.fromkeys(WAYS, 0)
    for calls in stories:
        for way in ways_told_apart(calls, worth_trying(calls)):
            counts[way] += 1
    print("of %d stories in binary64, told apart from the stated way:" % len(stories))
    for way in WAYS:
        print("%5d  %-12s %s" % (counts[way], way, WAYS[way]))
    unseen = [way for way in WAYS if counts[way] == 0]
    if unseen:
        sys.exit("never told apart: " + ", ".join(unseen))


if __name__ == "__main__":
    main()
