"""Runs a program on fresh card files and compares what it prints with the reference, byte by byte.

    python3 reference/check.py --seed 7 --count 500 -- ./key

The program reads a card file from standard input, prints its key, and ends with status 0. The check
stops at the first difference and prints the seed and the file.
"""

import argparse
import subprocess
import sys
import tempfile
import time

from engine import printed_key
from generate import FIXED_FILES, card_file


def run(command, data):
    with tempfile.TemporaryFile() as given:
        given.write(data)
        given.seek(0)
        return subprocess.run(command, stdin=given, capture_output=True, timeout=60)


def main():
    parser = argparse.ArgumentParser(description="Compares a program's keys with the reference.")
    parser.add_argument("--seed", default=str(int(time.time())), help="by default a fresh one")
    parser.add_argument("--count", type=int, default=300)
    parser.add_argument("command", nargs="+", help="the program and its arguments, after --")
    options = parser.parse_args()
    print("seed %s" % options.seed)
    files = [("fixed %d" % n, data) for n, data in enumerate(FIXED_FILES)]
    compared = 0
    for n in range(len(files) + options.count):
        if n < len(files):
            name, data = files[n]
        else:
            name = "%s %d" % (options.seed, n - len(files))
            data = card_file(name)
        expected = printed_key(data)
        ran = run(options.command, data)
        printed = ran.stdout
        if ran.returncode != 0 or printed != expected:
            print("DIFFERENCE at file %s (seed %s, count so far %d), status %d" % (name, options.seed, n, ran.returncode))
            print("file: %r" % data)
            print("---- expected\n%s---- printed\n%s----" % (expected.decode(), printed.decode("utf-8", "replace")))
            if ran.stderr:
                print("on standard error: %r" % ran.stderr)
            sys.exit(1)
        compared += 1
    print("%d files, no difference" % compared)


if __name__ == "__main__":
    main()
