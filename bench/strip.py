"""Writes the engine's source as plain Rust crates: contracts, ghosts and tactics are cut out, nothing else is rewritten.

    python3 strip.py DIR

DIR gets a folder for each crate that the printed key stands on, and these name one another and ../shim by path. What
the engine uses of Rattle's library, and Rust's does not have, is in TABLE and PRELUDE: no line but a `use` is written anew.
"""

import re
import sys
from pathlib import Path

TOP = Path(__file__).resolve().parent.parent
ROOT = "printed_key"

# What stands in the source, what stands in its place, and why.
TABLE = [
    ("#[derive(Drop)]\n", "", "a type that may be let go; any may in Rust"),
    ("use std::alloc::", "use shim::alloc::", "Rust's Global and AllocError are unstable"),
    ("use std::error::", "use shim::error::", "Rust's Error asks for Rust's Display"),
    ("use std::fmt;", "use shim::fmt;", "Rust's formatter does not name its writer's type"),
    ("use std::num::", "use shim::num::", "saturating_f64_to_i32 is a cast in Rust"),
]

# What a file uses without a word, and the path that it is named by in Rust.
PRELUDE = [
    (r"\bString\b", "string::String"),
    (r"\bwrite!", "write"),
    (r"\bwriteln!", "writeln"),
]

TOKEN = re.compile(
    r"""//[^\n]*|b?"(?:\\.|[^"\\])*"|b?'(?:\\[^']+|[^\\'\n])'|\w+|\s+|.""", re.S
)
CLOSING = {"(": ")", "[": "]", "{": "}"}


class Source:
    """The tokens of a file, and which of them are cut."""

    def __init__(self, text):
        self.tokens = TOKEN.findall(text)
        assert "".join(self.tokens) == text
        self.kept = [True] * len(self.tokens)

    def next_code(self, at):
        """The next token that is no space and no comment."""
        while self.tokens[at].isspace() or self.tokens[at].startswith("//"):
            at += 1
        return at

    def past_group(self, at):
        """Past what the bracket there opens."""
        assert self.tokens[at] in CLOSING, self.tokens[at]
        open_brackets = []
        while True:
            token = self.tokens[at]
            if token in CLOSING:
                open_brackets.append(CLOSING[token])
            elif open_brackets and token == open_brackets[-1]:
                open_brackets.pop()
            at += 1
            if not open_brackets:
                return at

    def past_item(self, at):
        """Past the comma or semicolon that ends a ghost item."""
        while self.tokens[at] not in (",", ";"):
            at = self.past_group(at) if self.tokens[at] in CLOSING else at + 1
        return at + 1

    def cut(self, begin, end):
        for at in range(begin, end):
            self.kept[at] = False
        return end

    def cut_lines(self, begin, end):
        """Cuts an item, with the space before it up to and with the line's beginning."""
        if begin > 0 and self.tokens[begin - 1].isspace():
            self.tokens[begin - 1] = re.sub(r"\n[^\n]*\Z", "", self.tokens[begin - 1])
        return self.cut(begin, end)

    def strip(self):
        at = 0
        while at < len(self.tokens):
            token = self.tokens[at]
            if token in ("requires", "ensures"):
                body = self.next_code(at + 1)
                if self.tokens[body] != "{":
                    body = self.next_code(body + 1)
                at = self.cut_lines(at, self.past_group(body))
            elif token == "ghost":
                begin = at - 2 if self.tokens[at - 2 : at] == ["pub", " "] else at
                at = self.cut_lines(begin, self.past_item(at))
            elif token == "#" and re.match(r"#!?\[tactic\(", "".join(self.tokens[at : at + 5])):
                bracket = at + 2 if self.tokens[at + 1] == "!" else at + 1
                at = self.cut_lines(at, self.past_group(bracket))
            else:
                at += 1
        return "".join(token for token, kept in zip(self.tokens, self.kept) if kept)


def stripped(text):
    text = Source(text).strip().lstrip("\n")
    for old, new, _ in TABLE:
        text = text.replace(old, new)
    used = "".join(f"use shim::{path};\n" for mark, path in PRELUDE if re.search(mark, text))
    if used:
        first_use = re.search(r"^(pub )?use ", text, re.M).start()
        text = text[:first_use] + used + text[first_use:]
    return text


def crates_below(root):
    stands = {}
    for line in (TOP / "crates.txt").read_text().splitlines():
        name, _, rest = line.partition(":")
        if not name.startswith("#"):
            stands[name.split()[0]] = rest.split()
    found = {}

    def add(name):
        if name not in found:
            found[name] = stands[name]
            for lower in stands[name]:
                add(lower)

    add(root)
    return found


def manifest(name, below):
    lines = [
        "[package]",
        f'name = "{name}"',
        'version = "0.1.0"',
        'edition = "2021"',
        "publish = false",
        "",
        "[dependencies]",
        'shim = { path = "../../shim" }',
    ]
    lines += [f'{lower} = {{ path = "../{lower}" }}' for lower in below]
    # A parameter that contracts alone speak of is unused.
    lines += ["", "[lints.rust]", 'unused_variables = "allow"']
    return "\n".join(lines) + "\n"


def main():
    if len(sys.argv) != 2:
        sys.exit(__doc__)
    out = Path(sys.argv[1])
    for name, below in crates_below(ROOT).items():
        (out / name / "src").mkdir(parents=True, exist_ok=True)
        (out / name / "Cargo.toml").write_text(manifest(name, below))
        for file in sorted((TOP / "crates" / name / "src").glob("*.rt")):
            target = out / name / "src" / (file.stem + ".rs")
            target.write_text(stripped(file.read_text()))


if __name__ == "__main__":
    main()
