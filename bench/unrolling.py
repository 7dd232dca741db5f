#!/usr/bin/env python3
"""Times the unrolling of problems beside the printing of their clauses, in one run.

Problems of the generated family of 1 to 32 steps, and two of four flows that are as large as the limits allow: one with as many
states and rules as there may be, and one of many steps. `bench_unroll` runs each step many times over; what a start and the
steps before take is measured by a run of no times, and taken off. Build `crates/bench_unroll` first, by `rt run`. It is a
measurement and no test.
"""
import os
import subprocess
import sys

from calls import TOP, folder, stored, used
from generated import texts

PROGRAM = os.path.join(TOP, "crates", "bench_unroll", "out", "bench_unroll")
COUNTS = os.path.join(TOP, "crates", "problem_smt", "out", "problem_smt")


def seconds_of(step, files):
    """The processor time of a step, once: so many runs that they take about half a second, less one of none."""
    start = used([PROGRAM, step, "0", *files], 3)
    times = 4
    while True:
        took = used([PROGRAM, step, str(times), *files], 1) - start
        if took > 0.1:
            break
        times *= 4
    took = used([PROGRAM, step, str(times), *files], 5) - start
    return took / times


def sizes(files):
    """Columns, forms, atoms and clauses."""
    line = subprocess.run([COUNTS, "--counts", *files], capture_output=True, text=True, check=True).stdout
    return [int(word) for word in line.split()[1::2]]


def wide_controller(states, rules):
    lines = ["ccac-controller 1"] + [f"state s{k + 1} data init 1 {k + 2}" for k in range(states)]
    for rule in range(rules - 1):
        lines.append(f"rule when acked > {rule} and delay >= {rule % 8 + 1} or lost > {rule + 1}")
        lines += [f"set s{k + 1} = 1/{rule + 2} * s{(k + rule) % states + 1} + {rule}" for k in range(states)]
    return "\n".join(lines + ["rule otherwise", "window s1", "rate s1"] + ["end"]) + "\n"


def wide_question(flows, steps):
    return (f"ccac-question 1\nflows {flows}\nsteps {steps}\nrate 3/2\njitter 2\nrtt 1\nbuffer 4\nbudget 2000\n"
            f"require S@{steps} - S@0 >= 1\nend\n")


def largest(flows, states, rules):
    """The texts of the most steps that aren't refused."""
    controller = wide_controller(states, rules)
    best = None
    with folder() as place:
        for steps in range(1, 33):
            question = wide_question(flows, steps)
            files = [stored(place, "c", controller), stored(place, "q", question)]
            if subprocess.run([COUNTS, "--counts", *files], capture_output=True).returncode:
                break
            best = (f"{flows} flows, {states} states, {rules} rules, {steps} steps", controller, question)
    return best


def main():
    for program in [PROGRAM, COUNTS]:
        if not os.access(program, os.X_OK):
            sys.exit("build the programs first: rt run in crates/problem_smt and crates/bench_unroll")
    seed = int(sys.argv[1]) if sys.argv[1:] else 8
    problems = [(f"generated, {size} steps", *texts(seed, size)) for size in [1, 2, 4, 8, 16, 32]]
    problems += [found for found in [largest(4, 8, 16), largest(4, 2, 3)] if found]
    print("| Problem | Columns | Forms | Atoms | Clauses | Reading | Unrolling | Printing | Unrolling / printing | Unrolling, per clause |")
    print("|---|---|---|---|---|---|---|---|---|---|")
    with folder() as place:
        for name, controller, question in problems:
            files = [stored(place, "c", controller), stored(place, "q", question)]
            columns, forms, atoms, clauses = sizes(files)
            reading, unrolling, printing = [seconds_of(step, files) for step in ["read", "unroll", "print"]]
            print(f"| {name} | {columns} | {forms} | {atoms} | {clauses} | {reading * 1e6:.0f} µs | {unrolling * 1e6:.0f} µs | "
                  f"{printing * 1e6:.0f} µs | {unrolling / printing:.2f} | {unrolling / clauses * 1e6:.2f} µs |", flush=True)


if __name__ == "__main__":
    main()
