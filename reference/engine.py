"""The whole engine in plain Python, written from the pages under docs/ alone.

It is slow and simple on purpose: it is what another engine's answers are held against. Nothing here
shares code or a method of writing with the engine in crates/.

A call that is refused raises Refused and changes nothing.
"""

import struct
from fractions import Fraction

PLACES = 32
NODES = 16
AREA = 304
PRIME = 8191
LONGEST = 4096

R, L, C, V, I = 1, 2, 3, 4, 5
LETTERS = {ord("R"): R, ord("L"): L, ord("C"): C, ord("V"): V, ord("I"): I}
CLASSES = {V: 0, C: 1, R: 2, L: 3, I: 4}


class Refused(Exception):
    """A refusal: its number, and for 12 and 13 the two words of what it shows."""

    def __init__(self, number, members=None, against=None):
        super().__init__(number)
        self.number = number
        self.members = members
        self.against = against


class CardFault(Exception):
    """A refused card: number, line and byte."""

    def __init__(self, number, line, byte):
        super().__init__(number, line, byte)
        self.number = number
        self.line = line
        self.byte = byte


# ---------------------------------------------------------------------------------------------
# Arithmetics


class Binary64:
    """Python floats: each operation is rounded once."""

    name = "f64"
    exact = False

    @staticmethod
    def zero():
        return 0.0

    @staticmethod
    def one():
        return 1.0

    @staticmethod
    def whole(n):
        return float(min(n, 999999))

    @staticmethod
    def sum(a, b):
        return a + b

    @staticmethod
    def difference(a, b):
        return a - b

    @staticmethod
    def product(a, b):
        return a * b

    @staticmethod
    def quotient(a, b):
        if b != 0.0:  # also for a NaN
            return a / b
        if a != a or a == 0.0:
            return float("nan")
        return float("inf") if sign_bit(a) == sign_bit(b) else float("-inf")

    @staticmethod
    def negative(a):
        return -a

    @staticmethod
    def is_zero(a):
        return a == 0.0

    @staticmethod
    def is_sound(a):
        return a - a == 0.0  # neither infinite nor a NaN

    @staticmethod
    def same(a, b):
        return bits_of(a) == bits_of(b) or (a != a and b != b)

    @staticmethod
    def hex(a):
        return "nan" if a != a else "%016x" % bits_of(a)


class Residues:
    """16-bit numbers; the meaning of one is its remainder modulo 8,191."""

    name = "res"
    exact = True

    @staticmethod
    def zero():
        return 0

    @staticmethod
    def one():
        return 1

    @staticmethod
    def whole(n):
        return min(n, 999999) % PRIME

    @staticmethod
    def sum(a, b):
        return (a + b) % PRIME

    @staticmethod
    def difference(a, b):
        return (a - b) % PRIME

    @staticmethod
    def product(a, b):
        return (a * b) % PRIME

    @staticmethod
    def quotient(a, b):
        if b % PRIME == 0:
            return 0
        return (a * pow(b % PRIME, -1, PRIME)) % PRIME

    @staticmethod
    def negative(a):
        return -a % PRIME

    @staticmethod
    def is_zero(a):
        return a % PRIME == 0

    @staticmethod
    def is_sound(a):
        return True

    @staticmethod
    def same(a, b):
        return (a - b) % PRIME == 0

    @staticmethod
    def hex(a):
        return "%04x" % (a % PRIME)


def may_divide(arithmetic, x):
    return not arithmetic.is_zero(x)


def bits_of(x):
    return struct.unpack(">Q", struct.pack(">d", x))[0]


def float_of(bits):
    return struct.unpack(">d", struct.pack(">Q", bits))[0]


def sign_bit(x):
    return bits_of(x) >> 63


# ---------------------------------------------------------------------------------------------
# The sheet


class Branch:
    def __init__(self, kind, tail, head):
        self.kind = kind
        self.tail = tail
        self.head = head


class Row:
    def __init__(self, value, start, current, voltage):
        self.value = value
        self.start = start
        self.current = current
        self.voltage = voltage


class Sheet:
    """A plan and its 32 rows. Each call is told how long the lent row table is."""

    def __init__(self, arithmetic):
        self.arithmetic = arithmetic
        self.plan = [None] * PLACES
        self.rows = [self._zero_row() for _ in range(PLACES)]

    def _zero_row(self):
        zero = self.arithmetic.zero()
        return Row(zero, zero, zero, zero)

    def blank(self, rows=PLACES):
        if rows != PLACES:
            raise Refused(1)
        self.plan = [None] * PLACES
        self.rows = [self._zero_row() for _ in range(PLACES)]

    def place(self, number, kind, tail, head, value, start, rows=PLACES):
        a = self.arithmetic
        if rows != PLACES:
            raise Refused(1)
        if number >= PLACES:
            raise Refused(2)
        if self.plan[number] is not None:
            raise Refused(3)
        if kind not in (R, L, C, V, I):
            raise Refused(5)
        if tail >= NODES or head >= NODES:
            raise Refused(6)
        if tail == head:
            raise Refused(7)
        if not a.is_sound(value) or (kind in (R, L, C) and a.is_zero(value)):
            raise Refused(8)
        if not a.is_sound(start) or (kind in (R, V, I) and not a.is_zero(start)):
            raise Refused(9)
        self.plan[number] = Branch(kind, tail, head)
        self.rows[number] = Row(
            value,
            start,
            start if kind == L else a.zero(),
            start if kind == C else a.zero(),
        )

    def lift(self, number, rows=PLACES):
        if rows != PLACES:
            raise Refused(1)
        if number >= PLACES:
            raise Refused(2)
        if self.plan[number] is None:
            raise Refused(4)
        self.plan[number] = None
        self.rows[number] = self._zero_row()

    def set(self, number, value, rows=PLACES):
        if rows != PLACES:
            raise Refused(1)
        if number >= PLACES:
            raise Refused(2)
        branch = self.plan[number]
        if branch is None:
            raise Refused(4)
        if branch.kind not in (V, I):
            raise Refused(10)
        if not self.arithmetic.is_sound(value):
            raise Refused(8)
        self.rows[number].value = value

    def look(self, number, rows=PLACES):
        """Kind, tail, head, value, start, current, voltage; or None."""
        if rows != PLACES or number >= PLACES or self.plan[number] is None:
            return None
        b, r = self.plan[number], self.rows[number]
        return (b.kind, b.tail, b.head, r.value, r.start, r.current, r.voltage)

    def step(self, h, rows=PLACES, area=AREA):
        a = self.arithmetic
        if rows != PLACES or area < AREA:
            raise Refused(1)
        if not a.is_sound(h) or not may_divide(a, h):
            raise Refused(11)
        word = tree(self.plan)  # 12 and 13
        currents, voltages = self.find(word, h)  # 14
        for k in placed(self.plan):
            if not a.is_sound(currents[k]) or not a.is_sound(voltages[k]):
                raise Refused(15)
        for k in placed(self.plan):
            self.rows[k].current = currents[k]
            self.rows[k].voltage = voltages[k]

    def find(self, word, h):
        """Currents and voltages after a step of length h, two dicts by place; raises Refused(14)."""
        a, plan, rows = self.arithmetic, self.plan, self.rows
        g, s = {}, {}
        for k in placed(plan):
            row = rows[k]
            if plan[k].kind == R:
                g[k] = a.quotient(a.one(), row.value)
                s[k] = a.zero()
            elif plan[k].kind == L:
                g[k] = a.quotient(h, row.value)
                s[k] = row.current
            elif plan[k].kind == C:
                g[k] = a.quotient(row.value, h)
                s[k] = a.negative(a.product(g[k], row.voltage))
        passive = sorted(g)
        tree_branches = [k for k in placed(plan) if word >> k & 1]
        links = [k for k in placed(plan) if not word >> k & 1]
        cut = {t: signs_of(cut_of_branch(plan, word, t)) for t in tree_branches}
        sources = [k for k in tree_branches if plan[k].kind == V]
        unknowns = [k for k in tree_branches if plan[k].kind != V]

        n = len(unknowns)
        matrix = [[a.zero()] * (n + 1) for _ in range(n)]
        for i, t in enumerate(unknowns):
            for j, r in enumerate(unknowns):
                entry = a.zero()
                for k in passive:
                    both = cut[t][k] * cut[r][k]
                    if both > 0:
                        entry = a.sum(entry, g[k])
                    elif both < 0:
                        entry = a.difference(entry, g[k])
                matrix[i][j] = entry
            right = a.zero()
            for k in placed(plan):
                if plan[k].kind == V:
                    continue
                term = rows[k].value if plan[k].kind == I else s[k]
                if cut[t][k] > 0:
                    right = a.difference(right, term)
                elif cut[t][k] < 0:
                    right = a.sum(right, term)
            for v in sources:
                for k in passive:
                    both = cut[t][k] * cut[v][k]
                    if both == 0:
                        continue
                    term = a.product(g[k], rows[v].value)
                    if both > 0:
                        right = a.difference(right, term)
                    else:
                        right = a.sum(right, term)
            matrix[i][n] = right

        found = solve(a, matrix)
        if found is None:
            raise Refused(14)

        voltages, currents = {}, {}
        for t, u in zip(unknowns, found):
            voltages[t] = u
        for v in sources:
            voltages[v] = rows[v].value
        for k in links:
            u = a.zero()
            for t in tree_branches:
                if cut[t][k] > 0:
                    u = a.sum(u, voltages[t])
                elif cut[t][k] < 0:
                    u = a.difference(u, voltages[t])
            voltages[k] = u
        for k in placed(plan):
            if plan[k].kind == I:
                currents[k] = rows[k].value
            elif plan[k].kind != V:
                currents[k] = a.sum(a.product(g[k], voltages[k]), s[k])
        for v in sources:
            i = a.zero()
            for k in links:
                if cut[v][k] > 0:
                    i = a.difference(i, currents[k])
                elif cut[v][k] < 0:
                    i = a.sum(i, currents[k])
            currents[v] = i
        return currents, voltages


def solve(a, matrix):
    """Solves n rows of n entries and a right side, in place; None where there is no pivot."""
    n = len(matrix)
    for c in range(n):
        pivot = None
        for r in range(c, n):
            if may_divide(a, matrix[r][c]):
                pivot = r
                break
        if pivot is None:
            return None
        matrix[c], matrix[pivot] = matrix[pivot], matrix[c]
        for r in range(c + 1, n):
            f = a.quotient(matrix[r][c], matrix[c][c])
            for j in range(c, n + 1):
                matrix[r][j] = a.difference(matrix[r][j], a.product(f, matrix[c][j]))
    for r in range(n - 1, -1, -1):
        for j in range(r + 1, n):
            matrix[r][n] = a.difference(matrix[r][n], a.product(matrix[r][j], matrix[j][n]))
        matrix[r][n] = a.quotient(matrix[r][n], matrix[r][r])
    return [matrix[r][n] for r in range(n)]


# ---------------------------------------------------------------------------------------------
# Tree, loops, cuts, incidence. A set of branches is a word, a row is two words.


def placed(plan):
    return [k for k in range(PLACES) if plan[k] is not None]


def members_of(word):
    return [k for k in range(PLACES) if word >> k & 1]


def signs_of(row):
    members, against = row
    return [(-1 if against >> k & 1 else 1) if members >> k & 1 else 0 for k in range(PLACES)]


def reach(plan, branches, node):
    """The nodes that can be walked to from a node over some branches."""
    seen = {node}
    waiting = [node]
    while waiting:
        at = waiting.pop()
        for k in branches:
            for one, other in ((plan[k].tail, plan[k].head), (plan[k].head, plan[k].tail)):
                if one == at and other not in seen:
                    seen.add(other)
                    waiting.append(other)
    return seen


def cut_of_nodes(plan, nodes):
    members = against = 0
    for k in placed(plan):
        leaves = plan[k].tail in nodes
        stays = plan[k].head in nodes
        if leaves != stays:
            members |= 1 << k
            if stays:
                against |= 1 << k
    return members, against


def loop_through(plan, branches, link):
    """The loop along a link and back over a set of branches without a loop."""
    start, goal = plan[link].head, plan[link].tail
    came = {start: None}
    waiting = [start]
    while waiting:
        at = waiting.pop()
        for k in branches:
            if plan[k].tail == at and plan[k].head not in came:
                came[plan[k].head] = (at, k, 0)
                waiting.append(plan[k].head)
            elif plan[k].head == at and plan[k].tail not in came:
                came[plan[k].tail] = (at, k, 1)
                waiting.append(plan[k].tail)
    members, against = 1 << link, 0
    at = goal
    while came[at] is not None:
        at, k, backwards = came[at]
        members |= 1 << k
        against |= backwards << k
    return members, against


def tree(plan):
    kept = []
    for wanted in range(5):
        for k in placed(plan):
            if CLASSES[plan[k].kind] == wanted and plan[k].head not in reach(plan, kept, plan[k].tail):
                kept.append(k)
    for k in placed(plan):
        if plan[k].kind == V and k not in kept:
            sources = [j for j in kept if plan[j].kind == V]
            raise Refused(12, *loop_through(plan, sources, k))
    for k in placed(plan):
        if plan[k].kind == I and k in kept:
            others = [j for j in placed(plan) if plan[j].kind != I]
            raise Refused(13, *cut_of_nodes(plan, reach(plan, others, plan[k].tail)))
    return sum(1 << k for k in kept)


def cut_of_branch(plan, word, t):
    rest = [k for k in members_of(word) if k != t]
    return cut_of_nodes(plan, reach(plan, rest, plan[t].tail))


def loop_row(plan, number):
    word = tree(plan)
    if number >= PLACES or plan[number] is None or word >> number & 1:
        return None
    return loop_through(plan, members_of(word), number)


def cut_row(plan, number):
    word = tree(plan)
    if number >= PLACES or not word >> number & 1:
        return None
    return cut_of_branch(plan, word, number)


def incidence(plan, node, number):
    if number >= PLACES or node >= NODES or plan[number] is None:
        return 0
    if plan[number].tail == node:
        return 1
    return -1 if plan[number].head == node else 0


# ---------------------------------------------------------------------------------------------
# Cards

DIGITS = b"0123456789"


def fields_of(line):
    """The fields of a line with the byte, counted from 1, where each begins."""
    fields = []
    at = 0
    while at < len(line):
        if line[at] == 32:
            at += 1
            continue
        end = at
        while end < len(line) and line[end] != 32:
            end += 1
        fields.append((line[at:end], at + 1))
        at = end
    return fields


def digits(text):
    """One to six digits as a number, or None."""
    if not 1 <= len(text) <= 6 or any(byte not in DIGITS for byte in text):
        return None
    return int(text)


def read_figure(a, text, signed, line, byte):
    """A value or a start."""
    minus = signed and text[:1] == b"-"
    if minus:
        text = text[1:]
    upper, slash, lower = text.partition(b"/")
    n = digits(upper)
    d = digits(lower) if slash else None
    if n is None or (slash and d is None):
        raise CardFault(22, line, byte)
    figure = a.whole(n)
    if slash:
        below = a.whole(d)
        if not may_divide(a, below):
            raise CardFault(23, line, byte)
        figure = a.quotient(figure, below)
    return a.negative(figure) if minus and n != 0 else figure


def read_card(sheet, text, line):
    """Reads one line: places a card, or skips it, or raises CardFault."""
    a = sheet.arithmetic
    fields = fields_of(text)
    if not fields or fields[0][0][0] == ord("*"):
        return
    past = len(text) + 1

    name, at = fields[0]
    kind = LETTERS.get(name[0])
    if kind is None:
        raise CardFault(21, line, at)
    number = digits(name[1:])
    if number is None:
        raise CardFault(22, line, at + 1)
    ends = []
    for place in (1, 2):
        if place >= len(fields):
            raise CardFault(22, line, past)
        node = digits(fields[place][0])
        if node is None:
            raise CardFault(22, line, fields[place][1])
        ends.append(node)
    if len(fields) < 4:
        raise CardFault(22, line, past)
    value = read_figure(a, fields[3][0], kind in (V, I), line, fields[3][1])
    start = a.zero()
    used = 4
    if kind in (L, C) and len(fields) > 4:
        start = read_figure(a, fields[4][0], True, line, fields[4][1])
        used = 5
    if len(fields) > used:
        raise CardFault(24, line, fields[used][1])
    try:
        sheet.place(number, kind, ends[0], ends[1], value, start)
    except Refused as refused:
        raise CardFault(refused.number, line, 1) from None


def read_cards(sheet, data, rows=PLACES):
    """Blanks a sheet and reads a card text onto it; raises CardFault."""
    if rows != PLACES:
        raise CardFault(1, 0, 0)
    sheet.blank()
    for line, text in enumerate(data.split(b"\n"), 1):
        read_card(sheet, text, line)


# ---------------------------------------------------------------------------------------------
# Slips

SLIP = 280


def entries_of(row):
    return signs_of(row)


class SlipWriter:
    """Writes a slip into an area, a bytearray. Call drop() on a writer that is let go."""

    def __init__(self, area, word):
        self.area = area
        self.last = -1
        self.at = 0
        self.sealed = False
        if len(area) >= SLIP:
            area[:SLIP] = bytes(SLIP)
            for k in range(PLACES):
                self._bit(word >> k & 1)

    def _bit(self, bit):
        if bit:
            self.area[self.at // 8] |= 128 >> self.at % 8
        self.at += 1

    def row(self, number, entries):
        if number <= self.last or number >= PLACES or len(entries) != PLACES:
            raise Refused(16)
        if any(entry not in (-1, 0, 1) for entry in entries):
            raise Refused(16)
        if len(self.area) < SLIP:
            raise Refused(17)
        self.last = number
        for place in (4, 3, 2, 1, 0):
            self._bit(number >> place & 1)
        for entry in entries:
            self._bit(1 if entry == -1 else 0)
            self._bit(1 if entry != 0 else 0)

    def seal(self):
        if len(self.area) < SLIP:
            raise Refused(17)
        self.sealed = True
        return (self.at + 7) // 8

    def drop(self):
        if not self.sealed and len(self.area) >= SLIP:
            self.area[:SLIP] = bytes(SLIP)


def write_slip(area, word, rows):
    writer = SlipWriter(area, word)
    try:
        for number, entries in rows:
            writer.row(number, entries)
        return writer.seal()
    finally:
        writer.drop()


def write_plan_slip(area, plan):
    word = tree(plan)
    links = [k for k in placed(plan) if not word >> k & 1]
    return write_slip(area, word, [(k, entries_of(loop_through(plan, members_of(word), k))) for k in links])


# ---------------------------------------------------------------------------------------------
# Readings and traces


def reading_of(voltage):
    product = voltage * 1000.0
    if not Binary64.is_sound(product):
        raise Refused(18)
    size = abs(Fraction(product))
    whole = (2 * size.numerator + size.denominator) // (2 * size.denominator)
    if whole >= 10**9:
        raise Refused(18)
    return -whole if product < 0 else whole


def reading(sheet, number, rows=PLACES):
    if rows != PLACES:
        raise Refused(1)
    if number >= PLACES:
        raise Refused(2)
    if sheet.plan[number] is None:
        raise Refused(4)
    return reading_of(sheet.rows[number].voltage)


class Trace:
    def __init__(self):
        self.least = self.greatest = self.last = 0.0
        self.count = 0

    def take(self, voltage):
        if not Binary64.is_sound(voltage):
            raise Refused(19)
        if self.count >= 1000000:
            raise Refused(20)
        if self.count == 0:
            self.least = self.greatest = voltage
        if voltage < self.least:
            self.least = voltage
        if voltage > self.greatest:
            self.greatest = voltage
        self.last = voltage
        self.count += 1


# ---------------------------------------------------------------------------------------------
# The printed key


def signed(row):
    return "".join(" %s%d" % ("-" if row[1] >> k & 1 else "+", k) for k in members_of(row[0]))


def fault_line(fault):
    return "refused %d line %d byte %d" % (fault.number, fault.line, fault.byte)


def refused_line(refused):
    line = "refused %d" % refused.number
    if refused.members is not None:
        line += signed((refused.members, refused.against))
    return line


def tree_lines(plan):
    """The lines of tree, loops and cuts; raises Refused."""
    word = tree(plan)
    lines = ["tree" + "".join(" %d" % k for k in members_of(word))]
    for k in placed(plan):
        if not word >> k & 1:
            lines.append("loop %d%s" % (k, signed(loop_through(plan, members_of(word), k))))
    for k in members_of(word):
        lines.append("cut %d%s" % (k, signed(cut_of_branch(plan, word, k))))
    return lines


def reading_lines(sheet):
    try:
        sheet.step(1.0)
        return ["mv %d %d" % (k, reading(sheet, k)) for k in placed(sheet.plan)]
    except Refused as refused:
        return [refused_line(refused)]


def residue_lines(data):
    sheet = Sheet(Residues)
    try:
        read_cards(sheet, data)
        sheet.step(1)
    except CardFault as fault:
        return [fault_line(fault)]
    except Refused as refused:
        return [refused_line(refused)]
    rows = sheet.rows
    return ["res %d %d %d" % (k, rows[k].current % PRIME, rows[k].voltage % PRIME) for k in placed(sheet.plan)]


def printed_key(data, steps=True):
    """The key of a card text, as bytes; without steps it ends after tree, loops and cuts."""
    return "".join(line + "\n" for line in key_lines(data, steps)).encode("ascii")


def key_lines(data, steps=True):
    if len(data) > LONGEST:
        return ["refused 25"]
    sheet = Sheet(Binary64)
    try:
        read_cards(sheet, data)
        lines = tree_lines(sheet.plan)
    except CardFault as fault:
        return [fault_line(fault)]
    except Refused as refused:
        return [refused_line(refused)]
    if steps:
        lines += reading_lines(sheet)
        lines += residue_lines(data)
    return lines
