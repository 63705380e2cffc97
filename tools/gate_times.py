"""Runs the gate crate by crate, lower crates first, and prints how long each part of each took, as a table.

    python3 tools/gate_times.py [--anew] DIR

It works on a clone of what is committed here, in the new folder DIR. With --anew nothing that an earlier run on this
machine has proved is taken over. Seconds on the clock: proof, planted bugs, and the tests and programs with all else.
"""

import argparse
import subprocess
import sys
import time
from pathlib import Path

TOP = Path(__file__).resolve().parent.parent


def in_order(lines):
    """The crates of crates.txt, each behind those that it stands on."""
    stands = {}
    for line in lines:
        name, _, rest = line.partition(":")
        if name.strip() and not name.startswith("#"):
            stands[name.split()[0]] = rest.split()
    order = []

    def add(name):
        for lower in stands[name]:
            if lower in stands:
                add(lower)
        if name not in order:
            order.append(name)

    for name in stands:
        add(name)
    return order


def measure(name, clone, anew):
    """Runs the gate of one crate; answers the seconds until it is proved, of its planted bugs and of the rest, and how
    many bugs were refused."""
    start = proved = tried = time.monotonic()
    refused = 0
    gate = subprocess.Popen(["rt", "ci", *anew, name], cwd=clone, stdin=subprocess.DEVNULL, stdout=subprocess.PIPE, stderr=subprocess.STDOUT, text=True)
    said = []
    for line in gate.stdout:
        now = time.monotonic()
        said.append(line)
        if line.startswith(f"rt: {name} proved"):
            proved = tried = now
        elif line.startswith(f"rt: must-fail {name}/"):
            refused += "refused, as it must be" in line
            tried = now
    if gate.wait():
        sys.exit("".join(said))
    return proved - start, tried - proved, time.monotonic() - tried, refused


def main():
    parser = argparse.ArgumentParser()
    parser.add_argument("--anew", action="store_true")
    parser.add_argument("clone")
    asked = parser.parse_args()
    clone = Path(asked.clone).resolve()
    subprocess.run(["git", "clone", "-q", str(TOP), str(clone)], check=True)
    sums = [0, 0, 0, 0]
    print("| crate | proof | planted bugs | tests and programs | bugs |\n|---|---|---|---|---|")
    for name in in_order((clone / "crates.txt").read_text().splitlines()):
        times = measure(name, clone, ["--anew"] if asked.anew else [])
        sums = [a + b for a, b in zip(sums, times)]
        print("| {} | {:.0f} | {:.0f} | {:.0f} | {} |".format(name, *times), flush=True)
    print("| all | {:.0f} | {:.0f} | {:.0f} | {} |".format(*sums))


if __name__ == "__main__":
    main()
