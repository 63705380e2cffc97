"""Writes what the program `refusals` is to print: crates/refusals/stdout, from the card files in crates/refusals/data.

    python3 reference/refusals.py
"""

from pathlib import Path

from engine import (
    PLACES, SLIP, Binary64, Refused, Sheet, Trace, L, R, printed_key, reading_of, write_slip,
)

CRATE = Path(__file__).resolve().parent.parent / "crates" / "refusals"


def blank():
    return Sheet(Binary64)


def with_resistor():
    sheet = blank()
    sheet.place(0, R, 1, 0, 2.0, 0.0)
    return sheet


def with_coil():
    sheet = blank()
    sheet.place(0, L, 1, 0, 1e200, 1e200)
    return sheet


def many_takings():
    trace = Trace()
    for _ in range(1000001):
        trace.take(0.0)


# Each call with its words, in the program's order.
CALLS = [
    ("01 blanking without rows", lambda: blank().blank(rows=0)),
    ("02 lift of place 32", lambda: blank().lift(32)),
    ("03 second branch at one place", lambda: with_resistor().place(0, R, 1, 0, 2.0, 0.0)),
    ("04 lift of an empty place", lambda: blank().lift(0)),
    ("05 branch of kind 6", lambda: blank().place(0, 6, 1, 0, 2.0, 0.0)),
    ("09 resistor with a start", lambda: blank().place(0, R, 1, 0, 2.0, 1.0)),
    ("10 new value for a resistor", lambda: with_resistor().set(0, 3.0)),
    ("01 step without a work area", lambda: blank().step(1.0, area=0)),
    ("11 step of length zero", lambda: blank().step(0.0)),
    ("15 voltage beyond all numbers", lambda: with_coil().step(1.0)),
    ("16 slip with a row 32", lambda: write_slip(bytearray(SLIP), 0, [(32, [0] * PLACES)])),
    ("17 slip in no bytes", lambda: write_slip(bytearray(0), 0, [])),
    ("18 reading of a million volts", lambda: reading_of(1000000.0)),
    ("19 trace of an infinite voltage", lambda: Trace().take(float("inf"))),
    ("20 trace of 1000001 voltages", many_takings),
]


def answer(call):
    try:
        call()
    except Refused as refused:
        return "refused %d" % refused.number
    return "granted"


def main():
    text = b""
    for path in sorted((CRATE / "data").glob("*.cards")):
        text += path.name.encode() + b"\n" + printed_key(path.read_bytes())
    for words, call in CALLS:
        text += ("%s: %s\n" % (words, answer(call))).encode()
    (CRATE / "stdout").write_bytes(text)


if __name__ == "__main__":
    main()
