"""Compares the steps of the engine with ngspice, which solves each step's companion network by its own method.

    python3 reference/ngspice.py --seed 1 --count 500 -- crates/steps/out/steps
    python3 reference/ngspice.py --netlist < FILE

The program is handed a number of steps and reads a card file from standard input, as crates/steps does. README.md says
how the circuits are made and what counts as a difference.
"""

import argparse
import random
import subprocess
import sys
import tempfile

import engine

# A figure may differ by this share of the largest of its kind in the circuit so far. Voltages are those of all branches,
# and of the companion networks' sources times the resistance beside them; currents are those of all branches and sources,
# and what the largest voltage would drive through the least resistance.
CLOSE = 1e-11

LETTER = {engine.R: "R", engine.L: "L", engine.C: "C", engine.V: "V", engine.I: "I"}


class Branch:
    """A branch with its current and voltage, in floats."""

    def __init__(self, place, letter, tail, head, value, current=0.0, voltage=0.0):
        self.place = place
        self.letter = letter
        self.tail = tail
        self.head = head
        self.value = value
        self.current = current
        self.voltage = voltage


def branches_of(cards):
    """The branches of a card file, ascending by place; raises engine.CardFault."""
    sheet = engine.Sheet(engine.Binary64)
    engine.read_cards(sheet, cards)
    branches = []
    for k in engine.placed(sheet.plan):
        branch, row = sheet.plan[k], sheet.rows[k]
        letter = LETTER[branch.kind]
        branches.append(Branch(k, letter, branch.tail, branch.head, row.value, row.current, row.voltage))
    return branches


# ---------------------------------------------------------------------------------------------
# The companion network of one step


def companion(branch, h):
    """The resistance and the source beside it that stand for a branch in one step."""
    if branch.letter == "R":
        return branch.value, 0.0
    if branch.letter == "L":
        return branch.value / h, branch.current
    return h / branch.value, -(branch.value / h) * branch.voltage


def netlist(branches, h, figures):
    """The network as ngspice reads it; with figures it prints all that `solved` reads."""
    lines = ["one step"]
    asked = ["v(%d)" % node for node in sorted({node for b in branches for node in (b.tail, b.head)} - {0})]
    for b in branches:
        if b.letter in "VI":
            lines.append("%s%d %d %d %r" % (b.letter, b.place, b.tail, b.head, b.value))
            asked += ["i(v%d)" % b.place] if b.letter == "V" else []
            continue
        resistance, source = companion(b, h)
        lines.append("R%d %d %d %r" % (b.place, b.tail, b.head, resistance))
        asked.append("@r%d[i]" % b.place)
        if b.letter != "R":
            lines.append("I%d %d %d %r" % (b.place, b.tail, b.head, source))
    if figures:
        prints = ["print " + name for name in asked]
        lines += [".control", "set numdgt=15", "op", *prints, "quit", ".endc"]
    else:
        lines.append(".op")
    return "\n".join(lines + [".end", ""])


def solved(branches, h):
    """Current and voltage of each branch after one step, by ngspice; two dicts by place."""
    with tempfile.NamedTemporaryFile("w", suffix=".cir") as file:
        file.write(netlist(branches, h, True))
        file.flush()
        ran = subprocess.run(["ngspice", "-b", file.name], capture_output=True, text=True, timeout=60)
    found = {"v(0)": 0.0}
    for line in ran.stdout.splitlines():
        name, equals, figure = line.partition(" = ")
        if equals and name.startswith(("v(", "i(", "@r")):
            found[name] = float(figure)
    currents, voltages = {}, {}
    for b in branches:
        voltages[b.place] = found["v(%d)" % b.tail] - found["v(%d)" % b.head]
        if b.letter == "I":
            currents[b.place] = b.value
        elif b.letter == "V":
            currents[b.place] = found["i(v%d)" % b.place]
        else:
            currents[b.place] = found["@r%d[i]" % b.place] + companion(b, h)[1]
    return currents, voltages


# ---------------------------------------------------------------------------------------------
# Circuits


def number(rng, least, greatest):
    """A number between two powers of ten, as a card writes it."""
    n = int(10 ** rng.uniform(least + 3, greatest + 3))
    return "%d/1000" % n if rng.random() < 0.7 else "%d/%d" % (max(1, n // rng.choice((7, 9, 11))), rng.choice((100, 123)))


def signed(rng, least, greatest):
    return ("-" if rng.random() < 0.5 else "") + number(rng, least, greatest)


def circuit(seed):
    """A card file with 2 to 32 branches in one piece with node 0.

    Resistances, inductances and h / capacitance are within four powers of ten, so that no system is badly
    conditioned. Most circuits have a tree with all voltage sources and no current source.
    """
    rng = random.Random("ngspice %s" % seed)
    count = rng.randint(2, 32)
    nodes = rng.randint(2, min(16, count + 1))
    labels = [0] + rng.sample(range(1, 16), nodes - 1)
    lines = []
    for j, place in enumerate(rng.sample(range(32), count)):
        if j < nodes - 1:
            ends = [labels[j + 1], rng.choice(labels[: j + 1])]
            letters = "RRRLLCCCV"
        else:
            ends = rng.sample(labels, 2)
            letters = "RRRLLCCCI"
        if rng.random() < 0.01:
            letters = "VI"
        rng.shuffle(ends)
        letter = rng.choice(letters)
        words = ["%s%d" % (letter, place), *map(str, ends)]
        if letter == "C":
            words.append(number(rng, -2, 1))
        elif letter in "RL":
            words.append(number(rng, -1, 2))
        else:
            words.append(signed(rng, -1, 1))
        if letter in "LC" and rng.random() < 0.6:
            words.append(signed(rng, -1, 1))
        lines.append(" ".join(words))
    return ("\n".join(lines) + "\n").encode()


# ---------------------------------------------------------------------------------------------
# The comparison


def stepped(command, cards, count):
    """What the program prints after some steps: the number of a refusal, or two dicts by place."""
    ran = subprocess.run([*command, str(count)], input=cards, capture_output=True, timeout=60)
    if ran.returncode != 0:
        raise ValueError("status %d: %r" % (ran.returncode, ran.stderr))
    currents, voltages = {}, {}
    for line in ran.stdout.decode().splitlines():
        words = line.split()
        if words[0] == "refused":
            return int(words[1])
        place = int(words[1])
        currents[place] = engine.float_of(int(words[2], 16))
        voltages[place] = engine.float_of(int(words[3], 16))
    return currents, voltages


def farthest(found, expected, largest):
    """The greatest difference as a share of the largest figure, and its place."""
    if sorted(found) != sorted(expected):
        raise ValueError("other branches: %s and %s" % (sorted(found), sorted(expected)))
    place = max(expected, key=lambda k: abs(found[k] - expected[k]))
    gap = abs(found[place] - expected[place])
    return (gap / largest if largest else gap), place


class Counts:
    def __init__(self):
        self.circuits = self.steps = self.figures = 0
        self.letters = {letter: 0 for letter in "RLCVI"}
        self.refused = {}
        self.worst = 0.0

    def told(self):
        kinds = ", ".join("%d %s" % (self.letters[letter], letter) for letter in "RLCVI")
        refused = ", ".join("%d by %d" % (self.refused[n], n) for n in sorted(self.refused)) or "none"
        return "%d circuits (%s), %d steps, %d figures, no difference; farthest apart %.1e of %.0e allowed\nskipped, since refused: %s" % (
            self.circuits, kinds, self.steps, self.figures, self.worst, CLOSE, refused)


def compare(command, cards, steps, counts):
    """Compares some steps in a row; answers what differs, or None."""
    branches = branches_of(cards)
    amperes = volts = 0.0
    for n in range(1, steps + 1):
        printed = stepped(command, cards, n)
        if isinstance(printed, int):
            if printed not in (12, 13, 14) or n > 1:
                return "step %d is refused by %d" % (n, printed)
            counts.refused[printed] = counts.refused.get(printed, 0) + 1
            return None
        expected = solved(branches, 1.0)
        beside = [companion(b, 1.0) for b in branches if b.letter in "RLC"]
        voltages = [source * resistance for resistance, source in beside] + list(expected[1].values())
        volts = max(volts, *map(abs, voltages))
        currents = [source for _, source in beside] + list(expected[0].values())
        amperes = max(amperes, *map(abs, currents), *(volts / resistance for resistance, _ in beside))
        for name, found, wanted, largest in zip(("current", "voltage"), printed, expected, (amperes, volts)):
            share, place = farthest(found, wanted, largest)
            counts.worst = max(counts.worst, share)
            if not share <= CLOSE:
                return "step %d, %s of %d: engine %r, ngspice %r" % (n, name, place, found[place], wanted[place])
            counts.figures += len(wanted)
        # The next companions come from the figures of ngspice, so its steps lean on no figure of the engine.
        for b in branches:
            b.current, b.voltage = expected[0][b.place], expected[1][b.place]
        counts.steps += 1
    counts.circuits += 1
    for b in branches:
        counts.letters[b.letter] += 1
    return None


def main():
    parser = argparse.ArgumentParser(description="Compares steps with ngspice.")
    parser.add_argument("--netlist", action="store_true", help="print the companion network of one step of a card file")
    parser.add_argument("--seed", default="1")
    parser.add_argument("--count", type=int, default=500, help="how many circuits are to be compared")
    parser.add_argument("--steps", type=int, default=4, help="steps in a row for each circuit")
    parser.add_argument("command", nargs="*", help="the program and its arguments, after --")
    options = parser.parse_args()
    if options.netlist:
        sys.stdout.write(netlist(branches_of(sys.stdin.buffer.read()), 1.0, False))
        return
    if not options.command:
        parser.error("the program to compare is missing")
    counts = Counts()
    n = 0
    while counts.circuits < options.count:
        cards = circuit("%s %d" % (options.seed, n))
        difference = compare(options.command, cards, options.steps, counts)
        if difference:
            sys.exit("DIFFERENCE at circuit %d of seed %s: %s\n%s" % (n, options.seed, difference, cards.decode()))
        n += 1
    print("seed %s: %s" % (options.seed, counts.told()))


if __name__ == "__main__":
    main()
