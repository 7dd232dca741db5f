#!/usr/bin/env python3
"""Times whole calls of `ccac admit`, each as a ratio to `wc` on the same file, in one run.

A trace of the largest shape (4 flows, 8 states, 49 rows) that is admitted, the largest trace that the format accepts
(the same shape, each number of 39 digits), and a refused text of 262,144 bytes. Build the program first, by `./ccac`. It is a measurement and no test.
"""
import os

from calls import PROGRAM, TOP, demand_program, folder, report, seconds, stored

QUESTION = os.path.join(TOP, "examples", "half-rate.question")
LARGEST = 2**127 - 1


def trace_of(over, credit, waste, entries):
    """A trace of the largest shape, whose flows have these entries on a row."""
    flows, states, h, t = 4, 8, 16, 32
    lines = ["ccac-trace 1", f"shape {flows} {states} {h} {t}", f"over {over}", f"credit {credit}"]
    for row in range(h + t + 1):
        lines.append(f"row {row} {waste}")
        for flow in range(1, flows + 1):
            tail = f" {-LARGEST}" * states if row >= h else ""
            lines.append("flow %d %d %d %d%s" % ((flow,) + entries(row) + (tail,)))
    lines.append("end")
    return "\n".join(lines) + "\n"


def largest_trace():
    """Every number has 39 digits and a sign, where it may have one. The first rule is broken."""
    return trace_of(LARGEST, -LARGEST, -LARGEST, lambda row: (-LARGEST, -LARGEST, -LARGEST))


def admitted_trace():
    """Every rule is weighed on every row: four flows share the rate 1/2, and wait long."""
    over = 10**30
    return trace_of(over, 0, 0, lambda row: (10**37, row * over // 8, 0))


def refused_text():
    head = "ccac-trace 1\nshape 4 8 16 32\nover 1\ncredit "
    return head + "9" * (262_144 - len(head))


def main():
    demand_program()
    with folder() as place:
        for name, text in [("admitted trace of the largest shape", admitted_trace()),
                           ("largest accepted trace", largest_trace()), ("refused text", refused_text())]:
            file = stored(place, "text.trace", text)
            command = [PROGRAM, "admit", QUESTION, file]
            ours, theirs = seconds(command), seconds(["wc", file])
            print(f"{name}: {len(text)} bytes, {report(command)}, "
                  f"{ours * 1e3:.2f} ms, {ours / theirs:.2f} of wc's {theirs * 1e3:.2f} ms")


if __name__ == "__main__":
    main()
