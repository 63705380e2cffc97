"""Tests of the reference itself: stated examples, a second method for steps, and the stream read back."""

import io
import unittest

import tableau
from engine import (
    C,
    I,
    PRIME,
    R,
    Binary64,
    CardFault,
    Refused,
    Residues,
    Sheet,
    Trace,
    bits_of,
    cut_row,
    float_of,
    incidence,
    key_lines,
    loop_row,
    members_of,
    placed,
    read_cards,
    reading,
    reading_of,
    signs_of,
    tree,
    write_plan_slip,
    write_slip,
)
from generate import Changed, card_file, footprint, perform, story, telling_stories
from stream import write_stream

FIRST = b"V0 1 0 6\nR1 1 2 2\nC2 2 0 1\n"


def number_of(call, *arguments, **named):
    """The number of the refusal that a call meets, 0 for none."""
    try:
        call(*arguments, **named)
    except (Refused, CardFault) as refused:
        return refused.number
    return 0


class Keys(unittest.TestCase):
    def test_whole_key(self):
        self.assertEqual(
            key_lines(FIRST),
            [
                "tree 0 2",
                "loop 1 -0 +1 +2",
                "cut 0 +0 +1",
                "cut 2 -1 +2",
                "mv 0 6000",
                "mv 1 4000",
                "mv 2 2000",
                "res 0 8189 6",
                "res 1 2 4",
                "res 2 2 2",
            ],
        )

    def test_refusals_that_show(self):
        self.assertEqual(key_lines(b"V0 1 0 1\nV1 1 0 1\n"), ["refused 12 -0 +1"])
        self.assertEqual(key_lines(b"I0 1 0 1\nI1 0 1 1\n"), ["refused 13 +0 -1"])

    def test_five_branches(self):
        lines = key_lines(b"L0 1 2 1\nL1 1 4 1\nR2 3 4 1\nC3 2 3 1\nR4 2 3 1\n")
        self.assertEqual(
            lines[:6],
            ["tree 0 2 3", "loop 1 -0 +1 -2 -3", "loop 4 -3 +4", "cut 0 +0 +1", "cut 2 +1 +2", "cut 3 +1 +3 +4"],
        )

    def test_lengths(self):
        self.assertEqual(key_lines(b"*" * 4096), ["tree"])
        self.assertEqual(key_lines(b"*" * 4097), ["refused 25"])
        self.assertEqual(key_lines(b""), ["tree"])

    def test_blocks_are_refused_apart(self):
        self.assertEqual(key_lines(b"R0 1 0 1\nR1 1 0 8190\n")[-3:], ["mv 0 0", "mv 1 0", "refused 14"])
        self.assertEqual(key_lines(b"V0 1 0 1\nR1 1 0 8191\n")[-3:], ["mv 0 1000", "mv 1 1000", "refused 8 line 2 byte 1"])
        self.assertEqual(key_lines(b"V0 1 0 1/8191\n")[-2:], ["mv 0 0", "refused 23 line 1 byte 8"])
        out = key_lines(b"I0 1 0 999999\nR1 1 0 999999\n")
        self.assertEqual(out[-3], "refused 18")
        self.assertTrue(out[-1].startswith("res 1 "))
        out = key_lines(b"I0 1 0 999999\nR1 1 0 999999\nR2 1 0 1/8191\n")
        self.assertEqual(out[-1], "refused 23 line 3 byte 8")


class Cards(unittest.TestCase):
    def test_faults(self):
        for line, number, byte in [
            (b"v0 1 0 6", 21, 1),
            (b"V 1 0 6", 22, 2),
            (b"V0  ", 22, 5),
            (b"R1234567 1 2 3", 22, 2),
            (b"V0 1/2 0 6", 22, 4),
            (b"R0 1 0 -1", 22, 8),
            (b"V0 1 0 1.5", 22, 8),
            (b"V0 1 0 -0/0", 23, 8),
            (b"C0 1 2 1/0 x", 23, 8),
            (b"C0 1 2 1 *", 22, 10),
            (b"R0 1 2 1 *", 24, 10),
            (b"R99 1 1 0 j", 24, 11),
            (b"   R1 1 1 2", 7, 1),
            (b"V0 16 16 1", 6, 1),
            (b"R0 1 0 -0", 22, 8),
            (b"R0\t1 0 1", 22, 2),
            (b"R0 1 0 1\r", 22, 8),
        ]:
            for lead in (0, 3):
                with self.assertRaises(CardFault) as met:
                    read_cards(Sheet(Binary64), b"\n" * lead + line)
                self.assertEqual((met.exception.number, met.exception.line, met.exception.byte), (number, lead + 1, byte), line)

    def test_minus_before_zero(self):
        sheet = Sheet(Binary64)
        read_cards(sheet, b"V0 1 0 -0\nI1 1 0 -0/5\nC2 1 0 1 -000000\nL3 1 0 1 -0/000007\nV4 2 0 -1/5")
        for number in (0, 1, 2, 3):
            self.assertEqual([bits_of(x) for x in sheet.look(number)[3:] if x != 1.0], [0] * (4 if number < 2 else 3))
        self.assertEqual(sheet.look(4)[3], -0.2)

    def test_placed(self):
        sheet = Sheet(Binary64)
        read_cards(sheet, b"   C2  2 0 1/2   -3 \n* the source\nR000001 1 2 000250/3")
        self.assertEqual(sheet.look(2), (C, 2, 0, 0.5, -3.0, 0.0, -3.0))
        self.assertEqual(sheet.look(1), (R, 1, 2, 250 / 3, 0.0, 0.0, 0.0))
        with self.assertRaises(CardFault) as met:
            read_cards(sheet, b"", rows=31)
        self.assertEqual((met.exception.number, met.exception.line, met.exception.byte), (1, 0, 0))
        self.assertIsNotNone(sheet.look(2))


class Sheets(unittest.TestCase):
    def test_order_of_refusals(self):
        sheet = Sheet(Binary64)
        bad = dict(number=32, kind=0, tail=16, head=16, value=float("nan"), start=1.0, rows=31)
        for right, number in [
            ({}, 1),
            ({"rows": 32}, 2),
            ({"number": 0}, 5),
            ({"kind": R}, 6),
            ({"tail": 3, "head": 3}, 7),
            ({"head": 4}, 8),
            ({"value": 0.0}, 8),
            ({"value": 1.0}, 9),
            ({"start": float("inf"), "kind": C}, 9),
            ({"start": 1.0}, 0),
            ({"kind": 0}, 3),
        ]:
            bad.update(right)
            self.assertEqual(number_of(sheet.place, **bad), number, right)
        self.assertEqual(number_of(sheet.set, 0, 1.0), 10)
        self.assertEqual(number_of(sheet.set, 1, float("nan")), 4)
        self.assertEqual(number_of(sheet.lift, 1), 4)
        self.assertEqual(number_of(sheet.lift, 32), 2)
        self.assertIsNone(sheet.look(0, rows=31))

    def test_step_refusals(self):
        sheet = Sheet(Residues)
        sheet.place(0, R, 1, 0, 1, 0)
        sheet.place(1, R, 1, 0, 8190, 0)
        self.assertEqual(number_of(sheet.step, 1), 14)
        self.assertEqual(number_of(sheet.step, 8191), 11)
        self.assertEqual(number_of(sheet.step, 0, area=303), 1)
        sheet = Sheet(Binary64)
        sheet.place(0, I, 0, 1, 2.0**1000, 0.0)
        sheet.place(1, R, 1, 0, 2.0**1000, 0.0)
        self.assertEqual(number_of(sheet.step, 1.0), 15)
        self.assertEqual(number_of(sheet.step, -0.0), 11)
        self.assertEqual((sheet.rows[1].current, sheet.rows[1].voltage), (0.0, 0.0))

    def test_quotients(self):
        q = Binary64.quotient
        self.assertEqual(q(1.0, 0.0), float("inf"))
        self.assertEqual(q(1.0, -0.0), float("-inf"))
        self.assertEqual(q(-1.0, 0.0), float("-inf"))
        self.assertEqual(q(float("inf"), -0.0), float("-inf"))
        for a, b in [(0.0, 0.0), (-0.0, 0.0), (float("nan"), 0.0), (1.0, float("nan"))]:
            self.assertNotEqual(q(a, b), q(a, b))
        self.assertEqual(q(1e308, 1e-308), float("inf"))
        for n in range(1, PRIME):
            self.assertEqual(Residues.product(n, Residues.quotient(1, n)), 1)
        self.assertEqual(Residues.quotient(5, 8191), 0)


class Figures(unittest.TestCase):
    def test_readings(self):
        for voltage, expected in [(0.0625, 63), (-0.0625, -63), (1.0005, 1001), (-0.0, 0), (999999.9994, 999999999)]:
            self.assertEqual(reading_of(voltage), expected)
        for voltage in (999999.9995, -999999.9995, 1e306, float("nan"), float("inf")):
            self.assertEqual(number_of(reading_of, voltage), 18)

    def test_traces(self):
        trace = Trace()
        for voltage in (0.0, -0.0):
            trace.take(voltage)
        self.assertEqual([bits_of(x) >> 63 for x in (trace.least, trace.greatest, trace.last)], [0, 0, 1])
        self.assertEqual(number_of(trace.take, float("inf")), 19)
        trace.count = 1000000
        self.assertEqual(number_of(trace.take, float("inf")), 19)
        self.assertEqual(number_of(trace.take, 1.0), 20)

    def test_slips(self):
        sheet = Sheet(Binary64)
        read_cards(sheet, FIRST)
        area = bytearray(b"\xff" * 290)
        self.assertEqual(write_plan_slip(area, sheet.plan), 13)
        self.assertEqual(area[:13].hex(), "a00000000ea0" + "00" * 7)
        self.assertEqual(area[13:], bytes(267) + b"\xff" * 10)
        self.assertEqual(number_of(write_slip, bytearray(279), 5, []), 17)
        self.assertEqual(number_of(write_slip, bytearray(279), 5, [(32, [0] * 32)]), 16)
        self.assertEqual(number_of(write_slip, area, 5, [(1, [0] * 32), (1, [0] * 32)]), 16)
        self.assertEqual(area, bytes(280) + b"\xff" * 10)
        self.assertEqual(write_slip(area, 2**32 - 1, [(k, [-1] * 32) for k in range(32)]), 280)


class Rows(unittest.TestCase):
    def test_loops_and_cuts(self):
        """Loop rows times incidence and times cut rows are zero; a cut row is a sum of incidence rows."""
        looked = 0
        for n in range(300):
            sheet = Sheet(Binary64)
            try:
                read_cards(sheet, card_file("rows %d" % n))
                word = tree(sheet.plan)
            except (CardFault, Refused):
                continue
            plan = sheet.plan
            cuts = {t: signs_of(cut_row(plan, t)) for t in members_of(word)}
            for k in placed(plan):
                if word >> k & 1:
                    self.assertEqual([t for t in members_of(word) if cuts[k][t]], [k])
                    self.assertIsNone(loop_row(plan, k))
                    continue
                loop = signs_of(loop_row(plan, k))
                self.assertEqual(loop[k], 1)
                for node in range(16):
                    self.assertEqual(sum(incidence(plan, node, j) * loop[j] for j in range(32)), 0)
                for cut in cuts.values():
                    self.assertEqual(sum(x * y for x, y in zip(cut, loop)), 0)
                looked += 1
        self.assertGreater(looked, 200)


class Steps(unittest.TestCase):
    def test_remainders_by_another_method(self):
        """Every step in remainders is what the full tableau gives; 14 exactly where that has no solution."""
        granted = refused = 0
        for n in range(600):
            arithmetic, calls = story("tableau %d" % n)
            if arithmetic is not Residues or len(calls) > 24:
                continue
            sheet = Sheet(Residues)
            for call in calls:
                before = {
                    k: tuple(map(tableau.Remainder, (sheet.rows[k].value, sheet.rows[k].current, sheet.rows[k].voltage)))
                    for k in placed(sheet.plan)
                }
                met = perform(sheet, call)
                if call[0] != "step" or (met and met.number in (1, 11)):
                    continue
                branches = {k: (sheet.plan[k].kind, sheet.plan[k].tail, sheet.plan[k].head) for k in placed(sheet.plan)}
                found = tableau.step(tableau.Field8191, branches, before, tableau.Remainder(call[3]))
                if met:
                    self.assertIsNone(found, (n, call))
                    refused += 1
                else:
                    self.assertIsNotNone(found, (n, call))
                    for k in found:
                        mine = (sheet.rows[k].current % PRIME, sheet.rows[k].voltage % PRIME)
                        self.assertEqual(mine, tuple(map(int, found[k])), (n, call, k))
                    granted += 1
        self.assertGreater(granted, 100)
        self.assertGreater(refused, 20)

    def test_binary64_in_a_second_program(self):
        for n in range(150):
            arithmetic, calls = story("second %d" % n)
            if arithmetic is Binary64:
                self.assertEqual(footprint(Sheet(Binary64), calls), footprint(Changed(), calls))

    def test_changed_ways_are_told_apart(self):
        kept, unseen = telling_stories("selftest")
        self.assertEqual(unseen, [])
        self.assertGreater(len(kept), 3)


class Streams(unittest.TestCase):
    def test_read_back(self):
        out = io.BytesIO()
        write_stream(out, "selftest", 60, 60)
        self.assertGreater(replay(out.getvalue()), 120)


def replay(stream):
    """Reads a stream as a replaying program does, and holds each answer against the engine's; answers how many parts."""
    at = 0

    def line():
        nonlocal at
        end = stream.index(b"\n", at)
        words = stream[at:end].decode("ascii").split(" ")
        at = end + 1
        return words

    def block(words, name):
        nonlocal at
        assert words[0] == name
        data = stream[at : at + int(words[1])]
        assert stream[at + len(data)] == 10
        at += len(data) + 1
        return data

    def figure(word):
        return float_of(int(word, 16)) if f64 else int(word, 16)

    def answered(refused):
        words = line()
        if refused is None:
            assert words == ["ok"], words
        else:
            assert words[:2] == ["refused", str(refused.number)], words
            assert len(words) == (2 if refused.members is None else 4)
            if refused.members is not None:
                assert [int(word, 16) for word in words[2:]] == [refused.members, refused.against]

    parts = 0
    words = line()
    while words[0] != "end":
        parts += 1
        if words[0] == "file":
            data = block(words, "file")
            assert block(line(), "key").decode().splitlines() == key_lines(data)
            words = line()
            continue
        assert words[0] == "story"
        f64 = words[1] == "f64"
        traced = int(words[2]) if f64 else None
        arithmetic = Binary64 if f64 else Residues
        sheet, trace = Sheet(arithmetic), Trace()
        words = line()
        while words[0] != "slip":
            if words[0] == "place":
                numbers = [int(word) for word in words[1:6]]
                call = ("place", *numbers, figure(words[6]), figure(words[7]))
            elif words[0] == "set":
                call = ("set", int(words[1]), int(words[2]), figure(words[3]))
            elif words[0] == "step":
                call = ("step", int(words[1]), int(words[2]), figure(words[3]))
            else:
                call = (words[0], *[int(word) for word in words[1:]])
            refused = perform(sheet, call)
            answered(refused)
            if words[0] == "step":
                for k in placed(sheet.plan):
                    row = line()
                    assert row[0] == "row" and int(row[1]) == k
                    assert arithmetic.same(figure(row[2]), sheet.rows[k].current)
                    assert arithmetic.same(figure(row[3]), sheet.rows[k].voltage)
                if f64 and refused is None and sheet.plan[traced] is not None:
                    trace.take(sheet.rows[traced].voltage)
            words = line()
        area = bytearray(280)
        if words[1] == "refused":
            assert number_of(write_plan_slip, area, sheet.plan) == int(words[2])
        else:
            assert write_plan_slip(area, sheet.plan) == int(words[1]) == len(words[2]) // 2
            assert area == bytes.fromhex(words[2]) + bytes(280 - int(words[1]))
        words = line()
        while words[0] == "reading":
            if words[2] == "refused":
                assert number_of(reading, sheet, int(words[1])) == int(words[3])
            else:
                assert reading(sheet, int(words[1])) == int(words[2])
            words = line()
        if f64:
            assert words[0] == "trace" and int(words[1]) == traced and int(words[5]) == trace.count
            for word, kept in zip(words[2:5], (trace.least, trace.greatest, trace.last)):
                assert int(word, 16) == bits_of(kept)
            words = line()
    assert at == len(stream)
    return parts


if __name__ == "__main__":
    unittest.main()
