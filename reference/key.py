"""Reads a card file from standard input and prints its key."""

import sys

from engine import LONGEST, printed_key


def main():
    data = sys.stdin.buffer.read(LONGEST + 1)
    sys.stdout.buffer.write(printed_key(data))


if __name__ == "__main__":
    main()
