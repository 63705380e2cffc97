"""Prints what the program `show` prints: matrices, slip, readings after each step and one branch's trace.

    python3 reference/show.py STEPS TOP BOTTOM BRANCH < FILE
"""

import sys

import engine


def entries(plan, row):
    signs = engine.entries_of(row)
    return [signs[k] for k in engine.placed(plan)]


def line(*words):
    print(*words)


def show_matrices(plan):
    for node in range(16):
        line("node", node, *[engine.incidence(plan, node, k) for k in engine.placed(plan)])
    try:
        word = engine.tree(plan)
    except engine.Refused as refused:
        line("refused", refused.number)
        return
    for k in engine.placed(plan):
        if not word >> k & 1:
            line("loop", k, *entries(plan, engine.loop_row(plan, k)))
    for k in engine.placed(plan):
        if word >> k & 1:
            line("cut", k, *entries(plan, engine.cut_row(plan, k)))


def show_slip(plan):
    area = bytearray(280)
    try:
        used = engine.write_plan_slip(area, plan)
    except engine.Refused as refused:
        line("slip refused", refused.number)
        return
    line("slip", *["%02X" % byte for byte in area[:used]])


def thousandths(voltage):
    try:
        return engine.reading_of(voltage)
    except engine.Refused as refused:
        return "refused-%d" % refused.number


def show_readings(sheet, at):
    line(at, *[thousandths(sheet.rows[k].voltage) for k in engine.placed(sheet.plan)])


def show_run(sheet, steps, h, branch):
    trace = engine.Trace()
    line("step", *["mv%d" % k for k in engine.placed(sheet.plan)])
    show_readings(sheet, 0)
    for k in range(steps):
        try:
            sheet.step(h)
        except engine.Refused as refused:
            line("refused", refused.number)
            return
        if branch in engine.placed(sheet.plan):
            trace.take(sheet.rows[branch].voltage)
        show_readings(sheet, k + 1)
    line("trace", branch, thousandths(trace.least), thousandths(trace.greatest), thousandths(trace.last), trace.count)


def main():
    steps, top, bottom, branch = [int(word) for word in sys.argv[1:5]]
    a = engine.Binary64
    sheet = engine.Sheet(a)
    try:
        engine.read_cards(sheet, sys.stdin.buffer.read(4096))
    except engine.CardFault as fault:
        line(engine.fault_line(fault).rstrip("\n"))
        return
    show_matrices(sheet.plan)
    show_slip(sheet.plan)
    show_run(sheet, steps, a.quotient(a.whole(top), a.whole(bottom)), branch)


main()
