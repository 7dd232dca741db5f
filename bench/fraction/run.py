#!/usr/bin/env python3
"""Compares MixedFrac, Frac128 and plain i128 fractions whose products aren't tested, in one run.

Builds plain.rs by rustc, and takes the program that `rt run` in crates/bench_fraction built. For each kind of
number and each operation it runs the three in turn, five times, takes the least time of each less that of a run
with no turns, and writes nanoseconds for one turn. `read` is a turn that computes nothing. The ratio is that of
MixedFrac to Frac128, once of whole turns, and once of what is left of them less a `read`.
"""
import pathlib
import resource
import subprocess

HERE = pathlib.Path(__file__).resolve().parent
TOP = HERE.parent.parent
PLAIN = TOP / "bench" / "out" / "plain"
CHECKED = TOP / "crates" / "bench_fraction" / "out" / "bench_fraction"
COUNTS = {"read": 20_000_000, "add": 1_000_000, "mul": 1_000_000, "compare": 20_000_000}
WHOLE_COUNT = 20_000_000


def seconds(program, kind, operation, count):
    before = resource.getrusage(resource.RUSAGE_CHILDREN).ru_utime
    answer = subprocess.run(
        [*program, kind, operation, str(count)], check=True, capture_output=True, text=True
    ).stdout
    return resource.getrusage(resource.RUSAGE_CHILDREN).ru_utime - before, answer


def measured(programs, kind, operation, count):
    times = {name: [] for name in programs}
    answers = set()
    for _ in range(5):
        for name, program in programs.items():
            spent, answer = seconds(program, kind, operation, count)
            times[name].append(spent - seconds(program, kind, operation, 0)[0])
            answers.add(answer)
    if len(answers) != 1:
        raise SystemExit(f"{kind} {operation}: the answers differ: {answers}")
    return {name: max(min(t), 0) / count * 1e9 for name, t in times.items()}


def main():
    if not CHECKED.exists():
        raise SystemExit("build the program first: rt run -- mixed whole add 0, in crates/bench_fraction")
    PLAIN.parent.mkdir(exist_ok=True)
    subprocess.run(
        ["rustc", "-O", "-C", "target-cpu=x86-64-v2", "-o", PLAIN, HERE / "plain.rs"], check=True
    )
    programs = {"mixed": [CHECKED, "mixed"], "wide": [CHECKED, "wide"], "plain": [PLAIN]}
    print(f"{'kind':8}{'operation':12}{'mixed ns':>10}{'Frac128 ns':>12}{'plain ns':>10}{'ratio':>8}{'less read':>11}")
    for kind in ("whole", "small", "long"):
        reads = {}
        for operation, count in COUNTS.items():
            ns = measured(programs, kind, operation, WHOLE_COUNT if kind == "whole" else count)
            reads = reads or ns
            own = {name: max(ns[name] - reads[name], 0.1) for name in programs}
            print(
                f"{kind:8}{operation:12}{ns['mixed']:10.1f}{ns['wide']:12.1f}{ns['plain']:10.1f}"
                f"{ns['mixed'] / max(ns['wide'], 0.1):8.2f}{own['mixed'] / own['wide']:11.2f}"
            )


if __name__ == "__main__":
    main()
