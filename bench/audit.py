#!/usr/bin/env python3
"""Times `ccac audit` on certificates of about 10,000, 100,000 and 1,000,000 nodes, each beside `wc` on the same file, in one run.

The problem: a controller that holds its window is asked whether at most one unit is served in a step. Each lemma of a
certificate is a full tree of splits ten deep, whose leaves cite clauses of the problem, cite earlier lemmas, and close by
sums of two rows or of four. Build the program first, by `./ccac`. It is a measurement and no test.
"""
import sys

from calls import PROGRAM, demand_program, folder, peak, report, stored, used

CONTROLLER = "ccac-controller 1\nstate cwnd data init 2 2\nrule otherwise\nwindow cwnd\nend\n"
QUESTION = ("ccac-question 1\nflows 1\nsteps 1\nrate 1\njitter 0\nrtt 1\nbuffer none\nbudget 100000\n"
            "require S@1 - S@0 <= 1\nend\n")
COLUMNS, ATOMS, CLAUSES = 19, 55, 52

# Atoms of which the problem has a clause of one literal: that literal, and the clause's number.
UNITS = {54: ("+", 51), 42: ("-", 40), 29: ("+", 28), 37: ("+", 35), 0: ("+", 0), 1: ("-", 1), 3: ("+", 3), 4: ("-", 4),
         5: ("+", 5), 6: ("-", 6), 16: ("-", 16), 17: ("+", 17)}
# The literals of these four rows add up to 0 < 0, and those of each pair contradict each other.
FOUR = ["+54", "-42", "+29", "+37"]
PAIRS = [("-0", "+1"), ("-3", "+4"), ("-5", "+6"), ("+16", "-17")]
DEPTH = 10
NODES = 2 ** (DEPTH + 1) - 1


def is_false(path, atom):
    """Whether the literal of the atom's clause is false on the path."""
    return path.get(atom) not in (None, UNITS[atom][0])


def farkas_leaf(path, count):
    """A leaf that sums rows of literals on the path, if some of them contradict each other."""
    for parts in PAIRS[count % 4:] + PAIRS[:count % 4] + [FOUR]:
        if all(path.get(int(part[1:])) == part[0] for part in parts):
            mult = count % 9 + 1
            return f"f {len(parts)} " + " ".join(f"{part} {mult}" for part in parts)
    return None


def clause_leaf(path, lemmas, count):
    """A leaf that cites a clause which is false on the path: every other time of an earlier lemma, if there is one."""
    false = [atom for atom in UNITS if is_false(path, atom)]
    if not false:
        return None
    known = [number for number, atom in enumerate(lemmas[:24]) if is_false(path, atom)]
    if count % 4 == 2 and known:
        return f"c {CLAUSES + known[count % len(known)]}"
    return f"c {UNITS[false[count % len(false)]][1]}"


def tree(lines, atoms, path, lemmas, count):
    """Adds the lines of a full tree of splits at these atoms, below this path; the count of leaves grows by theirs."""
    if not atoms:
        ways = [farkas_leaf(path, count), clause_leaf(path, lemmas, count)]
        lines.append(ways[count % 2] or ways[1 - count % 2])
        return count + 1
    lines.append(f"s {atoms[0]}")
    for sign in "+-":
        path[atoms[0]] = sign
        count = tree(lines, atoms[1:], path, lemmas, count)
    del path[atoms[0]]
    return count


def certificate(trees):
    """So many lemmas: each says of one atom what its clause does, but the last, which is empty."""
    lines = ["ccac-cert 1", f"size {COLUMNS} {ATOMS} {CLAUSES}"]
    atoms, lemmas, count = list(UNITS), [], 0
    for number in range(trees):
        if number == trees - 1:
            own, path = [], {}
        else:
            own = [atoms[number % len(atoms)]]
            path = {own[0]: "-" if UNITS[own[0]][0] == "+" else "+"}
        lines.append(f"lemma {number}" + "".join(f" {UNITS[atom][0]}{atom}" for atom in own))
        count = tree(lines, [atom for atom in atoms if atom not in own][:DEPTH], path, lemmas, count)
        lemmas += own
    return "\n".join(lines + ["end"]) + "\n"


def main():
    demand_program()
    sizes = [int(word) for word in sys.argv[1:]] or [10_000, 100_000, 1_000_000]
    with folder() as place:
        controller = stored(place, "held.controller", CONTROLLER)
        question = stored(place, "served.question", QUESTION)
        for nodes in sizes:
            trees = round(nodes / NODES)
            text = certificate(trees)
            file = stored(place, f"{nodes}.cert", text)
            command = [PROGRAM, "audit", controller, question, file]
            ours, theirs, memory = used(command), used(["wc", file]), peak(command)
            print(f"{trees * NODES} nodes, {len(text)} bytes: {report(command)}, {ours * 1e3:.1f} ms, "
                  f"{ours * 1e9 / (trees * NODES):.0f} ns a node, {ours / theirs:.2f} of wc's {theirs * 1e3:.1f} ms, "
                  f"at most {memory / 1e6:.1f} MB in memory, {memory / len(text):.1f} times the file")


if __name__ == "__main__":
    main()
