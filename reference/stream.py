"""Writes a stream of card files and stories with their expected answers to standard output.

README.md has the format. What the stream holds is counted on standard error.
"""

import argparse
import random
import sys
from collections import Counter

from engine import (
    Binary64,
    Refused,
    Sheet,
    Trace,
    bits_of,
    placed,
    printed_key,
    reading,
    write_plan_slip,
)
from generate import FIXED_FILES, FIXED_STORIES, card_file, perform, story, telling_stories


def argument(arithmetic, figure):
    """A handed-over value: all its bits, also those of a NaN, and no remainder taken."""
    return "%016x" % bits_of(figure) if arithmetic is Binary64 else "%04x" % figure


def answer(refused):
    if refused is None:
        return "ok"
    if refused.members is None:
        return "refused %d" % refused.number
    return "refused %d %08x %08x" % (refused.number, refused.members, refused.against)


def call_line(arithmetic, call):
    name, rows = call[0], call[1]
    show = lambda figure: argument(arithmetic, figure)
    if name == "blank":
        return "blank %d" % rows
    if name == "place":
        number, kind, tail, head, value, start = call[2:]
        return "place %d %d %d %d %d %s %s" % (rows, number, kind, tail, head, show(value), show(start))
    if name == "lift":
        return "lift %d %d" % (rows, call[2])
    if name == "set":
        return "set %d %d %s" % (rows, call[2], show(call[3]))
    return "step %d %d %s" % (rows, call[2], show(call[3]))


def story_lines(arithmetic, calls, traced, counts=None):
    counts = Counter() if counts is None else counts
    show = arithmetic.hex
    sheet = Sheet(arithmetic)
    trace = Trace()
    lines = ["story f64 %d" % traced if arithmetic is Binary64 else "story res"]
    for call in calls:
        refused = perform(sheet, call)
        lines.append(call_line(arithmetic, call))
        lines.append(answer(refused))
        counts["%s %s %s" % (arithmetic.name, call[0], "refused %d" % refused.number if refused else "ok")] += 1
        if call[0] == "step":
            for k in placed(sheet.plan):
                lines.append("row %d %s %s" % (k, show(sheet.rows[k].current), show(sheet.rows[k].voltage)))
            if arithmetic is Binary64 and refused is None and sheet.plan[traced] is not None:
                trace.take(sheet.rows[traced].voltage)
    area = bytearray(280)
    try:
        used = write_plan_slip(area, sheet.plan)
        lines.append("slip %d %s" % (used, area[:used].hex()))
    except Refused as refused:
        lines.append("slip " + answer(refused))
    if arithmetic is Binary64:
        for k in placed(sheet.plan):
            try:
                lines.append("reading %d %d" % (k, reading(sheet, k)))
            except Refused as refused:
                lines.append("reading %d %s" % (k, answer(refused)))
        figures = (trace.least, trace.greatest, trace.last)
        lines.append("trace %d %s %s %s %d" % (traced, *map(show, figures), trace.count))
    return lines


def traced_place(seed, calls):
    rng = random.Random("traced %s" % seed)
    return rng.choice([call[2] for call in calls if call[0] == "place" and call[2] < 32] or [0])


def write_stream(out, seed, files, stories, told=True):
    """Writes the stream and answers the counts of what is in it."""
    counts = Counter()
    for data in FIXED_FILES + [card_file("%s %d" % (seed, n)) for n in range(files)]:
        key = printed_key(data)
        out.write(b"file %d\n%s\nkey %d\n%s\n" % (len(data), data, len(key), key))
        counts["files"] += 1
        for line in key.decode().splitlines():
            if line.startswith("refused"):
                counts["keys with " + " ".join(line.split()[:2])] += 1
    chosen = list(FIXED_STORIES)
    if told:
        telling, unseen = telling_stories(seed)
        chosen += [(Binary64, calls) for calls in telling]
        counts["stories kept since they tell a changed way apart"] = len(telling)
        if unseen:
            counts["changed ways with no such story: " + ", ".join(unseen)] = len(unseen)
    chosen += [story("%s %d" % (seed, n)) for n in range(stories)]
    for n, (arithmetic, calls) in enumerate(chosen):
        lines = story_lines(arithmetic, calls, traced_place("%s %d" % (seed, n), calls), counts)
        out.write(("\n".join(lines) + "\n").encode("ascii"))
        counts["stories"] += 1
    out.write(b"end\n")
    return counts


def main():
    parser = argparse.ArgumentParser(description="Writes files and stories with their expected answers.")
    parser.add_argument("--seed", default="0")
    parser.add_argument("--files", type=int, default=1000)
    parser.add_argument("--stories", type=int, default=500)
    parser.add_argument("--counts", metavar="FILE", help="write there what a replay without a difference prints")
    options = parser.parse_args()
    counts = write_stream(sys.stdout.buffer, options.seed, options.files, options.stories)
    if options.counts:
        with open(options.counts, "w") as out:
            print("%d files, %d stories, no difference" % (counts["files"], counts["stories"]), file=out)
    for name in sorted(counts):
        print("%7d  %s" % (counts[name], name), file=sys.stderr)


if __name__ == "__main__":
    main()
