"""Prints the figures of two textbook circuits over several steps, checked by a second, exact method.

The exact method is the full tableau of tableau.py: over fractions it stands beside binary64, which must be
within 1e-12 of it, and over remainders it must give just what the engine gives.
"""

import sys
from fractions import Fraction

import tableau
from engine import Binary64, Refused, Residues, Sheet, bits_of, placed, read_cards

CIRCUITS = [
    (
        "a coil behind a resistor",
        ["V0 1 0 10", "R1 1 2 5", "L2 2 0 1"],
        3,
        Fraction(1, 4),
    ),
    (
        "resistor, coil and capacitor in a row",
        ["V0 1 0 1", "R1 1 2 1", "L2 2 3 1", "C3 3 0 1 0"],
        4,
        Fraction(1, 2),
    ),
]
CLOSE = Fraction(1, 10**12)


def branches_of(sheet):
    return {k: (sheet.plan[k].kind, sheet.plan[k].tail, sheet.plan[k].head) for k in placed(sheet.plan)}


def figures_of(sheet, field):
    number = field.number
    return {
        k: (number(sheet.rows[k].value), number(sheet.rows[k].current), number(sheet.rows[k].voltage))
        for k in placed(sheet.plan)
    }


def run_binary64(cards, steps, h):
    sheet = Sheet(Binary64)
    read_cards(sheet, "\n".join(cards).encode())
    branches = branches_of(sheet)
    exact = figures_of(sheet, tableau.Rationals)
    worst = Fraction(0)
    print("binary64, h = %s" % h)
    for n in range(1, steps + 1):
        sheet.step(float(h))
        found = tableau.step(tableau.Rationals, branches, exact, h)
        exact = {k: (exact[k][0],) + found[k] for k in found}
        for k in placed(sheet.plan):
            row = sheet.rows[k]
            worst = max(worst, abs(Fraction(row.current) - found[k][0]), abs(Fraction(row.voltage) - found[k][1]))
            print(
                "step %d row %d current %r %016x voltage %r %016x exact %s %s"
                % (n, k, row.current, bits_of(row.current), row.voltage, bits_of(row.voltage), *found[k])
            )
    print("farthest from exact: %.3g" % float(worst))
    return worst <= CLOSE


def run_residues(cards, steps):
    sheet = Sheet(Residues)
    read_cards(sheet, "\n".join(cards).encode())
    branches = branches_of(sheet)
    right = True
    print("remainders, h = 1")
    for n in range(1, steps + 1):
        before = figures_of(sheet, tableau.Field8191)
        found = tableau.step(tableau.Field8191, branches, before, tableau.Field8191.number(1))
        try:
            sheet.step(1)
        except Refused as refused:
            print("step %d refused %d" % (n, refused.number))
            right = right and found is None
            continue
        for k in placed(sheet.plan):
            row = sheet.rows[k]
            print("step %d row %d current %d voltage %d" % (n, k, row.current, row.voltage))
            right = right and found is not None and (row.current, row.voltage) == tuple(map(int, found[k]))
    print("the tableau agrees" if right else "THE TABLEAU DIFFERS")
    return right


def main():
    right = True
    for name, cards, steps, h in CIRCUITS:
        print("== %s: %s" % (name, "; ".join(cards)))
        right = run_binary64(cards, steps, h) and right
        right = run_residues(cards, steps) and right
    if not right:
        sys.exit("a figure is wrong")


if __name__ == "__main__":
    main()
