"""Prints what the program `steps` prints: the figures of every branch after some steps of length 1, by their bits.

    python3 reference/steps.py N < FILE
"""

import sys

import engine


def main():
    steps = int(sys.argv[1])
    sheet = engine.Sheet(engine.Binary64)
    try:
        engine.read_cards(sheet, sys.stdin.buffer.read(4096))
        for _ in range(steps):
            sheet.step(1.0)
    except engine.CardFault as fault:
        print(engine.fault_line(fault))
        return
    except engine.Refused as refused:
        print("refused %d" % refused.number)
        return
    for k in engine.placed(sheet.plan):
        row = sheet.rows[k]
        print("row %d %016x %016x" % (k, engine.bits_of(row.current), engine.bits_of(row.voltage)))


if __name__ == "__main__":
    main()
