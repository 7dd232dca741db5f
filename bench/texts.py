#!/usr/bin/env python3
"""Times whole calls of `ccac fmt` and `ccac replay` on large inputs, beside an empty call, in one run.

`fmt`: a controller of 8 states and 2, 4, 8 and 16 rules, each rule with 16 comparisons of 16 terms a side, and a text that is but comments.
`replay`: a run of that controller of 8 states with 4 flows and 8, 16 and 32 steps, in which each guard is weighed on each row.
Build the program first, by `./ccac`. It is a measurement and no test.
"""
from calls import PROGRAM, demand_program, folder, report, seconds, stored

STATES, TERMS, COMPARISONS = 8, 16, 16
RTT, DELAY = 8, 8


def expression(start):
    return " + ".join(f"s{(start + k) % STATES + 1}" for k in range(TERMS))


def controller(rules):
    """All states stay 1, since no guard holds: each sum of 16 is compared with itself."""
    lines = ["ccac-controller 1"] + [f"state s{k + 1} data init 1 1" for k in range(STATES)]
    for rule in range(rules - 1):
        parts = [f"{expression(rule + k)} > {expression(rule + k + 1)}" for k in range(COMPARISONS - 1)]
        lines += ["rule when " + " and ".join(parts + [f"delay >= {DELAY}"]), "set s1 = s1 + 1"]
    lines += ["rule otherwise", "window 16 * s1", "end"]
    return "\n".join(lines) + "\n"


def comments(size):
    text = "ccac-controller 1\n"
    line = "# " + "x" * 61 + "\n"
    while len(text) + len(line) < size - 64:
        text += line
    return text + "state s1 data init 1 1\nrule otherwise\nwindow s1\nend\n"


def question(steps):
    return (f"ccac-question 1\nflows 4\nsteps {steps}\nrate 1\njitter 0\nrtt {RTT}\nbuffer none\nbudget 1\n"
            f"require S@{steps} - S@0 >= 1\nend\n")


def trace(steps):
    """The server serves each flow a quarter of a unit on each row; what was sent at first lasts for the whole run."""
    h = RTT + DELAY
    lines = ["ccac-trace 1", f"shape 4 {STATES} {h} {steps}", "over 4", "credit 0"]
    for row in range(h + steps + 1):
        tail = " 4" * STATES if row >= h else ""
        lines.append(f"row {row} 0")
        lines += [f"flow {flow} 4000 {row} 0{tail}" for flow in range(1, 5)]
    return "\n".join(lines + ["end"]) + "\n"


def show(name, command, size, start):
    took = seconds(command)
    print(f"{name}: {size} bytes, {report(command)}, {took * 1e3:.2f} ms, {took / start:.2f} of an empty call's {start * 1e3:.2f} ms")


def main():
    demand_program()
    with folder() as place:
        start = seconds([PROGRAM])
        for rules in [2, 4, 8, 16]:
            text = controller(rules)
            file = stored(place, f"rules-{rules}.controller", text)
            show(f"fmt, {rules} rules", [PROGRAM, "fmt", file], len(text), start)
        text = comments(65_536)
        show("fmt, comments", [PROGRAM, "fmt", stored(place, "comments.controller", text)], len(text), start)
        written = stored(place, "whole.controller", controller(16))
        for steps in [8, 16, 32]:
            text = trace(steps)
            asked = stored(place, f"steps-{steps}.question", question(steps))
            run = stored(place, f"steps-{steps}.trace", text)
            show(f"replay, {steps} steps", [PROGRAM, "replay", written, asked, run], len(text), start)


if __name__ == "__main__":
    main()
