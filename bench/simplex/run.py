#!/usr/bin/env python3
"""Compares pivots and checks over exact fractions with the same ones over f64, in one run.

Builds plain.rs by rustc, and takes the program that `rt run` in crates/bench_simplex built. Each program runs the same
list of pivots or of bounds on tableaus of 64, 256 and 1,024 variables, in turn, five times; of each the least time is
taken, less that of a run with no turns. The pivots and their checksum have to be the same. plain.rs counts the entries
touched: those of each row that follows a pivot, and those of the solved row for each of them. What is written is
nanoseconds for one entry touched, and the ratio of MixedFrac to f64.
"""
import pathlib
import resource
import subprocess

HERE = pathlib.Path(__file__).resolve().parent
TOP = HERE.parent.parent
PLAIN = TOP / "bench" / "out" / "plain_simplex"
CHECKED = TOP / "crates" / "bench_simplex" / "out" / "bench_simplex"
TURNS = {
    "pivot": {32: 200_000, 128: 200_000, 512: 200_000},
    "check": {32: 50_000, 128: 4_000, 512: 400},
}


def seconds(program, work, columns, turns):
    before = resource.getrusage(resource.RUSAGE_CHILDREN).ru_utime
    answer = subprocess.run(
        [*program, work, str(columns), str(turns)], check=True, capture_output=True, text=True
    ).stdout.split()
    return resource.getrusage(resource.RUSAGE_CHILDREN).ru_utime - before, answer


def measured(programs, work, columns, turns):
    times = {name: [] for name in programs}
    answers = {}
    for _ in range(5):
        for name, program in programs.items():
            spent, answers[name] = seconds(program, work, columns, turns)
            times[name].append(spent - seconds(program, work, columns, 0)[0])
    if len({tuple(answer[:2]) for answer in answers.values()}) != 1:
        raise SystemExit(f"{work} {columns}: the answers differ: {answers}")
    pivots, _, touched = answers["f64"]
    return int(pivots), int(touched), {name: max(min(t), 0) for name, t in times.items()}


def main():
    if not CHECKED.exists():
        raise SystemExit("build the program first: rt run -- mixed pivot 32 0, in crates/bench_simplex")
    PLAIN.parent.mkdir(exist_ok=True)
    subprocess.run(
        ["rustc", "-O", "-C", "target-cpu=x86-64-v2", "-o", PLAIN, HERE / "plain.rs"], check=True
    )
    programs = {"mixed": [CHECKED, "mixed"], "wide": [CHECKED, "wide"], "f64": [PLAIN]}
    print(
        f"{'work':8}{'variables':>10}{'pivots':>10}{'touched':>9}{'mixed ns':>10}{'Frac128 ns':>12}"
        f"{'f64 ns':>8}{'ratio':>8}"
    )
    for work, sizes in TURNS.items():
        for columns, turns in sizes.items():
            pivots, touched, times = measured(programs, work, columns, turns)
            ns = {name: time / touched * 1e9 for name, time in times.items()}
            print(
                f"{work:8}{2 * columns:10}{pivots:10}{touched / pivots:9.0f}{ns['mixed']:10.1f}{ns['wide']:12.1f}"
                f"{ns['f64']:8.1f}{ns['mixed'] / max(ns['f64'], 0.001):8.1f}"
            )


if __name__ == "__main__":
    main()
