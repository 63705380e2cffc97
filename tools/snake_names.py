#!/usr/bin/env python3
"""Spells the repository's own definitions and lemmas in snake case, in specs/, proofs/, clauses, must-fail edits and docs.

usage: tools/snake_names.py [--table]

Run once at the top. A word in mixed case becomes snake case (`treeOf`, `tree_of`). A dash stays only between two names
of definitions (`count-with`); a plain word is joined by an underscore (`drawn_far`). Types and modules keep their names,
and so do the functions of src/, the names that a library spells just so, and the labels that the checker makes.
--table prints the old and new names and writes nothing.
"""

import glob
import re
import sys

WORD = re.compile(r"[^\s(){}\[\].;,@\"«»]+")
DECLARED = re.compile(
    r"^(\s*)((?:(?:abbrev|unfoldable|pub|data|record)\s+)*)([^\s(){}.;,@\"«»:=]+)((?:\s+[({][^:=]*:.*?[)}])*)\s+:\s"
)
BOUND = re.compile(r"(?:\blet|[({λ])\s*((?:[a-zA-Z][\w'-]*\s+)*[a-zA-Z][\w'-]*)\s*(?=[:.=])")
USE = re.compile(r"^(?:\s*ghost )?\s*use\s+([^\s;{]+?)(?:\.\{([^}]*)\})?(?:\s+as\s+(\S+?))?;?\s*$", re.M)
# Words of std that lemmas are named after.
KNOWN = set(
    "length map sum take drop append replicate reverse set get count filter add sub mul div mod min max not and or "
    "cond lt le eqb ltb codes get_or zip".split()
)
# Where the plain rule would give a name that is there already, or a poor one.
CHOSEN = {
    "from_low": "from_low_lem",
    "in_order": "in_order_lem",
    "tree_set": "tree_set_lem",
    "getD-mapped": "get_or_mapped",
    "is-source": "of_source",
    "is-passive": "passive_in",
}
# Labels that the checker makes of a function's loops and returns.
LABEL = re.compile(r"(invariant|decreases|ghost|returns|overflow_|bounds|slice_bounds|nonzero_)(-|\w*-)|.*-(init|preserved|smaller|requires)$")
OWN = re.compile(r"^Rattle\.(?!std\b)")
MADE = re.compile(r"(?<![\w.'-])(?:c|l|w|g|goal)\.$")


def files():
    antt = sorted(glob.glob("crates/*/specs/**/*.antt", recursive=True) + glob.glob("crates/*/proofs/**/*.antt", recursive=True))
    code = sorted(glob.glob("crates/*/src/**/*.rt", recursive=True))
    return antt, code


def read(path):
    with open(path, encoding="utf-8") as f:
        return f.read()


def is_answer(path):
    return re.search(r"/(Answers|Invariants|Proof)\.antt$", path) is not None


def labels(text):
    """What a proof file has from the checker: goals that it answers and names from the records of goals."""
    made = set(re.findall(r"^(?:abbrev |unfoldable |pub )*(\S+) : goal\.", text, re.M))
    for path, names, _ in USE.findall(text):
        if re.search(r"\.(Goals|Given)$", path):
            made |= {n.split(" as ")[0].strip() for n in names.split(",")}
    return made


def library(text):
    found = set()
    for path, names, _ in USE.findall(text):
        if not OWN.match(path):
            found |= {n.split(" as ")[-1].strip(" «»") for n in names.split(",")}
    return found


def snake(word):
    if not word[:1].isalpha() or word[0].isupper():
        return word
    return re.sub(r"(?<=[a-z0-9])[A-Z](?![A-Z'])", lambda m: "_" + m[0].lower(), word)


def respelled(name, definitions):
    parts = [snake(p) for p in name.split("-")]
    if any(not p for p in parts) or not re.match(r"[\w'₀-₉]+$", parts[0]):
        return name
    text = parts[0]
    for before, after in zip(parts, parts[1:]):
        text += ("-" if is_name(before, definitions) and is_name(after, definitions) else "_") + after
    return text


def is_name(part, definitions):
    return part in definitions or part in KNOWN or part[:1].isupper()


def gather(antt):
    declared, bound, lib, definitions = set(), set(), set(), set()
    for path in antt:
        text = read(path)
        made = labels(text)
        lib |= library(text)
        for line in text.splitlines():
            if line.lstrip().startswith("--"):
                continue
            m = DECLARED.match(line)
            if m and m[3] not in made:
                declared.add(m[3])
                if "-" not in m[3] and ("abbrev" in m[2] or "unfoldable" in m[2]):
                    definitions.add(snake(m[3]))
            for group in BOUND.findall(line):
                bound |= {n for n in group.split() if n not in made and n not in ("let", "as", "in")}
    return declared, bound, lib, definitions


def table():
    """Old and new names. Where two fall together, the definition has the name and the lemma gets `_lem`."""
    antt, _ = files()
    declared, bound, lib, definitions = gather(antt)
    there = declared | bound | lib
    rows = {}
    for name in sorted(there, key=lambda n: ("-" in n, n)):
        if name in lib or name[:1].isupper() or LABEL.match(name):
            continue
        new = CHOSEN.get(name) or respelled(name, definitions)
        if "-" in name and new != name and (new in there or new in rows.values()):
            new += "_lem"
        if new != name:
            rows[name] = new
    return rows, there


def turn_antt(path, text, rows):
    skip = labels(text) if is_answer(path) else set()
    out = []
    for line in text.split("\n"):
        code, mark, comment = line, "", ""
        at = re.search(r"(?:^|(?<=\s))--(?=\s|$)", line)
        if at:
            code, mark, comment = line[: at.start()], "--", line[at.end() :]
        out.append(turn_words(code, rows, skip, is_answer(path)) + mark + turn_comment(comment, rows))
    return "\n".join(out)


def turn_words(code, rows, skip, answer):
    def one(m):
        w = m[0]
        if w not in rows or w in skip or (answer and MADE.search(code[: m.start()])):
            return w
        return rows[w]

    return WORD.sub(one, code)


def turn_comment(text, rows):
    """A comment's list of names, and names in mixed case anywhere. The text behind a listed name keeps its column."""
    m = re.match(r"^( +)([^\s,]+(?:, [^\s,]+)*)( {2,})(\S.*)$", text)
    if m:
        names = ", ".join(rows.get(n, n) for n in m[2].split(", "))
        gap = max(2, len(m[3]) - (len(names) - len(m[2])))
        return m[1] + names + " " * gap + turn_mixed(m[4], rows)
    return turn_mixed(text, rows)


def turn_mixed(text, rows):
    return re.sub(r"[A-Za-z][\w'-]*", lambda m: rows[m[0]] if m[0] in rows and re.search("[a-z0-9][A-Z]", m[0]) else m[0], text)


def turn_code(text, rows):
    """Clauses, ghost blocks, ghost uses and comments of a source file. No name of src/ is in mixed case or has a dash."""
    out = []
    for piece in re.split(r"(//[^\n]*|b?\"(?:\\.|[^\"\\])*\")", text):
        if piece.startswith("//"):
            out.append(turn_mixed(piece, rows))
        elif piece.startswith(('"', 'b"')):
            out.append(piece)
        else:
            out.append(WORD.sub(lambda m: rows.get(m[0], m[0]) if re.search(r"[a-z0-9][A-Z]|-", m[0]) else m[0], piece))
    return "".join(out)


def write(path, text):
    if read(path) != text:
        with open(path, "w", encoding="utf-8") as f:
            f.write(text)


def main():
    rows, there = table()
    meet = sorted((o, n) for o, n in rows.items() if n in there)
    twins = sorted(n for n in set(rows.values()) if sum(1 for v in rows.values() if v == n) > 1)
    if "--table" in sys.argv[1:]:
        for old, new in sorted(rows.items()):
            print(old, new)
    for old, new in meet:
        print(f"look: {old} becomes {new}, which is there already")
    for new in twins:
        print(f"look: {[o for o, n in rows.items() if n == new]} both become {new}")
    if "--table" in sys.argv[1:]:
        return 0
    antt, code = files()
    for path in antt:
        write(path, turn_antt(path, read(path), rows))
    for path in code:
        write(path, turn_code(read(path), rows))
    for path in glob.glob("crates/*/must-fail/*.edit"):
        is_code = re.match(r"file: src/", read(path)) is not None
        write(path, turn_code(read(path), rows) if is_code else turn_words(read(path), rows, set(), False))
    for path in glob.glob("docs/*.md") + ["README.md"]:
        write(path, re.sub(r"`[^`\n]+`", lambda m: turn_words(m[0], {k: v for k, v in rows.items() if re.search("[a-z0-9][A-Z]", k)}, set(), False) if "/" not in m[0] else m[0], read(path)))
    return 0


if __name__ == "__main__":
    raise SystemExit(main())
