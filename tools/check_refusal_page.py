"""Compares docs/REFUSALS.md with what the program `refusals` reads, calls and prints; ends with status 1 on a difference.

    python3 tools/check_refusal_page.py
"""

import re
import sys
import textwrap
from pathlib import Path

TOP = Path(__file__).resolve().parent.parent
CRATE = TOP / "crates" / "refusals"
LONGEST = 4096


def want(holds, words):
    if not holds:
        sys.exit(words)


def stored_parts():
    """What is stored of each card file and call: its first line, and all its lines."""
    parts = {}
    for line in (CRATE / "stdout").read_text().splitlines(keepends=True):
        if re.match(r"\d\d[. ]", line):
            head = line.split(":")[0].strip()
            parts[head] = ""
        parts[head] += line
    return parts


def calls():
    """The body of each function that the program calls and prints the answer of, by the words that it prints."""
    source = "".join(path.read_text() for path in sorted((CRATE / "src").glob("*.rt")))
    found = dict(re.findall(r"^fn (\w+)\(\)[^\n]*\{\n(.*?)^\}", source, re.M | re.S))
    shown = re.findall(r'show_answer\(\s*rt,\s*"([^"]*)",\s*(\w+)\(\)', source)
    return {words: textwrap.dedent(found[name]) for words, name in shown}


def sections(page):
    """Number, name and text of each section."""
    found = re.split(r"^### (\d+) `(\w+)`$", page, flags=re.M)[1:]
    return [(int(n), name, text) for n, name, text in zip(found[::3], found[1::3], found[2::3])]


def shown_examples(number, text):
    """The examples of a section: the head of what is stored, what is said of it, and what should be."""
    blocks = re.findall(r"^```(cards|rust|text)\n(.*?)^```$", text, re.M | re.S)
    kinds = [kind for kind, _ in blocks]
    want(kinds and kinds[1::2] == ["text"] * (len(kinds) // 2), "%d: a block is missing" % number)
    want(len(kinds) % 2 == 0, "%d: a block is left over" % number)
    for (kind, shown), (_, printed) in zip(blocks[::2], blocks[1::2]):
        head = printed.split("\n")[0].split(":")[0]
        if kind == "rust":
            wanted = calls().get(head)
        else:
            path = CRATE / "data" / head
            wanted = path.read_text() if path.exists() else None
            want("crates/refusals/data/" + head in text, "%d: the file is not named" % number)
        if number == 25:
            # The page leaves out most of the dots.
            shown = shown.rstrip("\n").ljust(LONGEST + 1, ".")
        want(head.startswith("%02d" % number), "%d: the example is of another number" % number)
        yield head, (shown, printed), (wanted, stored_parts().get(head))


def check(page):
    table = [(int(n), name) for n, name in re.findall(r"^\| (\d+) \| `(\w+)`", page, re.M)]
    found = sections(page)
    want([(n, name) for n, name, _ in found] == table, "the sections are not those of the table")
    seen = []
    for number, _, text in found:
        for head, shown, wanted in shown_examples(number, text):
            want(shown == wanted, "%s: the page has\n%s%s" % (head, *shown))
            seen.append(head)
    want(sorted(seen) == sorted(stored_parts()), "the page has not every example, or one twice")
    files = {path.name for path in (CRATE / "data").iterdir()}
    want(files == {head for head in seen if head.endswith(".cards")}, "a file is not on the page")
    print("%d refusals, %d examples: the page is right" % (len(table), len(seen)))


if __name__ == "__main__":
    check((TOP / "docs" / "REFUSALS.md").read_text())
