"""One step of a circuit by its full tableau, in an exact field: a second method to hold the engine against.

All currents, voltages and potentials are unknowns at once. There is no tree here: the equations are that
currents balance at each node, that a voltage is the tail's potential less the head's, that one node of each
piece has the potential zero, and each branch's own law. They are solved by Gauss-Jordan elimination.
"""

from fractions import Fraction

from engine import C, I, L, PRIME, R, V


class Rationals:
    """Exact fractions."""

    @staticmethod
    def number(x):
        return Fraction(x)

    @staticmethod
    def inverse(x):
        return 1 / x


class Field8191:
    """Remainders modulo 8,191."""

    @staticmethod
    def number(x):
        return Remainder(x)

    @staticmethod
    def inverse(x):
        return Remainder(pow(x.n, -1, PRIME))


class Remainder:
    def __init__(self, n):
        self.n = int(n) % PRIME

    def __add__(self, other):
        return Remainder(self.n + other.n)

    def __sub__(self, other):
        return Remainder(self.n - other.n)

    def __mul__(self, other):
        return Remainder(self.n * other.n)

    def __neg__(self):
        return Remainder(-self.n)

    def __bool__(self):
        return self.n != 0

    def __int__(self):
        return self.n


def grounds_of(branches):
    """One node, the least, of each piece."""
    label = {}
    for _, tail, head in branches.values():
        label.setdefault(tail, tail)
        label.setdefault(head, head)
    changed = True
    while changed:
        changed = False
        for _, tail, head in branches.values():
            least = min(label[tail], label[head])
            if label[tail] != least or label[head] != least:
                label[tail] = label[head] = least
                changed = True
    return sorted(label), {node for node in label if label[node] == node}


def step(field, branches, figures, h):
    """One step. branches: place to (kind, tail, head); figures: place to (value, old current, old voltage).

    Answers place to (current, voltage), or None if the equations do not fix them.
    """
    number = field.number
    zero, one = number(0), number(1)
    nodes, grounds = grounds_of(branches)
    order = sorted(branches)
    current = {k: j for j, k in enumerate(order)}
    voltage = {k: len(order) + j for j, k in enumerate(order)}
    potential = {node: 2 * len(order) + j for j, node in enumerate(nodes)}
    width = 2 * len(order) + len(nodes)
    equations = []

    def equation(terms, right):
        row = [zero] * (width + 1)
        for column, factor in terms:
            row[column] = row[column] + factor
        row[width] = right
        equations.append(row)

    for node in nodes:
        terms = []
        for k in order:
            if branches[k][1] == node:
                terms.append((current[k], one))
            if branches[k][2] == node:
                terms.append((current[k], -one))
        if node in grounds:
            # The balances of a piece add up to nothing, so the ground's own says nothing more.
            equation([(potential[node], one)], zero)
        else:
            equation(terms, zero)
    for k in order:
        kind, tail, head = branches[k]
        value, old_current, old_voltage = figures[k]
        equation([(voltage[k], one), (potential[tail], -one), (potential[head], one)], zero)
        if kind == R:
            equation([(voltage[k], one), (current[k], -value)], zero)
        elif kind == L:
            equation([(current[k], value), (voltage[k], -h)], value * old_current)
        elif kind == C:
            equation([(current[k], h), (voltage[k], -value)], -(value * old_voltage))
        elif kind == V:
            equation([(voltage[k], one)], value)
        elif kind == I:
            equation([(current[k], one)], value)

    rows = equations
    for c in range(width):
        pivot = next((r for r in range(c, len(rows)) if rows[r][c]), None)
        if pivot is None:
            return None
        rows[c], rows[pivot] = rows[pivot], rows[c]
        scale = field.inverse(rows[c][c])
        rows[c] = [x * scale if x else x for x in rows[c]]
        for r in range(len(rows)):
            if r != c and rows[r][c]:
                f = rows[r][c]
                rows[r] = [x - f * y if y else x for x, y in zip(rows[r], rows[c])]
    return {k: (rows[current[k]][width], rows[voltage[k]][width]) for k in order}
