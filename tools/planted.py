"""Plants bugs one at a time and says which are refused; ends with status 1 where one is not, or fits no text.

    python3 tools/planted.py [CRATE..] [--only WORD] [--in DIR] [--unproved]

The bugs stand in planted/CRATE/NAME.edit, in the form of the edits that the gate tries: a line `file: src/lib.rt`, then
pairs of lines `old: TEXT` and `new: TEXT`, where each old text stands once in the file. Such a bug is refused where a
fact of the crate fails under it. A bug that no contract of the crate can tell has a first line `caught by: OTHER`: it is
refused where the tests or the stored output of the crate OTHER fail under it; that it is proved is checked too. With
--unproved it is not, and OTHER is run as it is, without its proof: that takes seconds and not minutes.

It works on a clone of what is committed here, in a folder of its own or in DIR, which is kept for the next time.
"""

import argparse
import os
import re
import subprocess
import sys
import tempfile
from pathlib import Path

TOP = Path(__file__).resolve().parent.parent


def run(args, where):
    done = subprocess.run(args, cwd=where, stdin=subprocess.DEVNULL, stdout=subprocess.PIPE, stderr=subprocess.STDOUT, text=True)
    return done.returncode, done.stdout


def git(args, where):
    status, said = run(["git", *args], where)
    if status:
        sys.exit(said)
    return said


def clone_in(where):
    """A clone of the last commit; one that stands there already is brought up to it."""
    if not (where / ".git").exists():
        git(["clone", "-q", str(TOP), str(where)], TOP)
    git(["fetch", "-q", str(TOP), "HEAD"], where)
    git(["checkout", "-q", "--force", "FETCH_HEAD"], where)


def by_facts(crate, edits, clone):
    """Tries bugs that the contracts refuse, all of a crate in one run; answers whether each was refused."""
    folder = clone / "crates" / crate / "must-fail"
    folder.mkdir(exist_ok=True)
    for old in folder.glob("*.edit"):
        old.unlink()
    for edit in edits:
        (folder / edit.name).write_text(edit.read_text())
    status, said = run(["rt", "must-fail", crate], clone / "crates" / crate)
    git(["checkout", "-q", "--force", "."], clone)
    for edit in edits:
        (folder / edit.name).unlink(missing_ok=True)
    git(["checkout", "-q", "--force", "."], clone)
    print(said, end="")
    return status == 0 and not re.search(r"[1-9]\d* bad|BAD EDIT", said)


def changed_text(edit, clone, crate):
    """Plants one bug in the clone; answers the crate whose tests catch it."""
    catcher, text, old, path = None, None, None, None
    for line in edit.read_text().splitlines():
        word, _, rest = line.partition(": ")
        if word == "caught by":
            catcher = rest
        elif word == "file":
            path = clone / "crates" / crate / rest
            text = path.read_text()
        elif word == "old":
            old = rest
            if text.count(old) != 1:
                sys.exit(f"{edit}: stands {text.count(old)} times: {old}")
        elif word == "new":
            text = text.replace(old, rest)
    path.write_text(text)
    return catcher


def runs_as_stored(catcher, clone):
    """Runs a program or the tests of a crate, unproved; answers whether it does what is stored, and its last line."""
    folder = clone / "crates" / catcher
    if not (folder / "stdout").exists():
        status, said = run(["rt", "try", "--test"], folder)
        return status == 0, (said.strip().splitlines() or [""])[-1]
    args = (folder / "args").read_text().split() if (folder / "args").exists() else []
    data = [f"{file.name}={file}" for file in sorted((folder / "data").glob("*"))]
    command = ["rt", "try", *(word for one in data for word in ("--data", one)), "--", *args]
    with open(folder / "stdin" if (folder / "stdin").exists() else os.devnull, "rb") as given:
        done = subprocess.run(command, cwd=folder, stdin=given, stdout=subprocess.PIPE, stderr=subprocess.PIPE)
    same = done.stdout == (folder / "stdout").read_bytes()
    return same, f"status {done.returncode}, the stored output {'is' if same else 'is not'} printed"


def by_running(crate, edit, clone, right={}):
    """Tries a bug that tests catch, unproved: the other crate does what is stored, and with the bug it does not."""
    catcher = edit.read_text().splitlines()[0].partition(": ")[2]
    if catcher not in right:
        right[catcher], told = runs_as_stored(catcher, clone)
        print(f"{catcher} without a bug: {told}", flush=True)
        if not right[catcher]:
            return False
    changed_text(edit, clone, crate)
    same, told = runs_as_stored(catcher, clone)
    git(["checkout", "-q", "--force", "."], clone)
    print(f"{crate} {edit.stem}: {catcher}: {told}", flush=True)
    return right[catcher] and not same


def by_tests(crate, edit, clone):
    """Tries a bug that tests catch: its own crate is proved with it, and the other crate fails with it."""
    catcher = changed_text(edit, clone, crate)
    proved, said = run(["rt", "check"], clone / "crates" / crate)
    failed, told = run(["rt", "ci", catcher], clone)
    git(["checkout", "-q", "--force", "."], clone)
    last = (told.strip().splitlines() or [""])[-1]
    print(f"{crate} {edit.stem}: proved {'no' if proved else 'yes'}; {catcher}: {last}")
    return not proved and failed


def main():
    parser = argparse.ArgumentParser()
    parser.add_argument("crates", nargs="*")
    parser.add_argument("--only", default="")
    parser.add_argument("--in", dest="where")
    parser.add_argument("--unproved", action="store_true")
    asked = parser.parse_args()
    names = asked.crates or sorted(p.name for p in (TOP / "planted").iterdir() if p.is_dir())
    with tempfile.TemporaryDirectory() as made:
        clone = Path(asked.where).resolve() if asked.where else Path(made) / "clone"
        clone_in(clone)
        good = True
        for crate in names:
            edits = [e for e in sorted((TOP / "planted" / crate).glob("*.edit")) if asked.only in e.stem]
            tested = [e for e in edits if e.read_text().startswith("caught by: ")]
            facts = [e for e in edits if e not in tested]
            if facts:
                good &= by_facts(crate, facts, clone)
            catches = by_running if asked.unproved else by_tests
            for edit in tested:
                good &= bool(catches(crate, edit, clone))
    sys.exit(0 if good else 1)


if __name__ == "__main__":
    main()
