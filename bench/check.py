#!/usr/bin/env python3
"""Decides problems by `ccac check`, beside other solvers, in one run.

Without options it takes the generated texts of bench/kept, with seeds and sizes those of the generated family, and with
`--examples` the pairs of the table in examples/README.md, whose verdicts must be those that stand there. Each proof is
given to `ccac audit` and each trace to `ccac replay`, through files, as a user would; where one of them disagrees, or a
solver contradicts the verdict, the script ends with status 1. The other solvers (z3 and cvc5, each where it is found) get
the same problem as SMT-LIB text, as the program `problem_smt` writes it; with `--proofs` they write their proofs too.
With `--moves` the moves of a decided problem are found: they are the least budget with which it is decided still.
Times are whole calls, start-up included, the median of some runs. It is a measurement, and a test of agreement.

First comes a row for each problem (not with `--short`), then a table with a row for each size, and one for the examples.

    python3 bench/check.py
    python3 bench/check.py --seeds 1-20 --sizes 1,8,32 --examples --proofs --short
"""
import argparse
import os
import re
import shutil
import statistics
import subprocess
import sys
import time
from dataclasses import dataclass, field
from pathlib import Path

from calls import PROGRAM, TOP, folder
from generated import write

KEPT = Path(TOP) / "bench" / "kept"
EXAMPLES = Path(TOP) / "examples"
WRITER = os.path.join(TOP, "crates", "problem_smt", "out", "problem_smt")
SOLVERS = {"z3": ["z3", "-smt2"], "cvc5": ["cvc5", "--lang=smt2"]}
PROVERS = {"z3": ["z3", "-smt2"], "cvc5": ["cvc5", "--lang=smt2", "--dump-proofs"]}
SAYS = {"verified": "unsat", "violated": "sat"}


@dataclass
class Problem:
    """A controller's and a question's path, the two names of the pair, and the verdict where one is known."""
    texts: tuple
    names: tuple
    known: str = ""
    group: str = ""


@dataclass
class Row:
    names: tuple
    group: str = ""
    verdict: str = ""
    decisions: str = ""
    propagations: str = ""
    pivots: str = ""
    lemmas: str = ""
    certificate: str = ""
    moves: int = 0
    ours: float = 0.0
    second: float = 0.0
    theirs: dict = field(default_factory=dict)
    proofs: dict = field(default_factory=dict)
    faults: list = field(default_factory=list)


def called(command, times, limit):
    """The bytes of the command's output and its status, with the median of so many calls' times; none after the limit."""
    took = []
    for _ in range(times):
        start = time.perf_counter()
        try:
            done = subprocess.run(command, capture_output=True, timeout=limit, check=False)
        except subprocess.TimeoutExpired:
            return None
        took.append(time.perf_counter() - start)
    return done.stdout, done.returncode, statistics.median(took)


def told(row, report):
    """What the report of `check` tells, but for the verdict: the moves of a journal, or the size of a certificate."""
    if row.verdict == "verified":
        row.lemmas = str(len(re.findall(rb"^lemma ", report, re.MULTILINE)))
        row.certificate = str(len(report) - len(b"verified\n"))
    counts = re.search(rb"^counts (\d+) (\d+) (\d+) (\d+)$", report, re.MULTILINE)
    if counts:
        row.decisions, row.propagations, row.pivots, row.lemmas = (n.decode() for n in counts.groups())


def confirmed(row, texts, report, place, options):
    """The report goes into a file, and back: a proof to `audit`, a trace to `replay`."""
    command, wanted = {"verified": ("audit", b"proved\n"), "violated": ("replay", b"violating\n")}[row.verdict]
    saved = place / "report"
    saved.write_bytes(report)
    answer = called([options.ccac, command, *texts, saved], options.times, options.limit)
    if answer is None or answer[:2] != (wanted, 0):
        row.faults.append(f"{command} answers {answer and answer[:2]}")
    else:
        row.second = answer[2]


def least_budget(texts, place, options):
    """The least budget with which a decided problem is decided still. No report has the moves of a decided problem, but the search
    is the same with each budget, so this is how many moves it was charged."""
    question, tried = Path(texts[1]).read_text(), place / "tried.question"
    low, high = 1, int(re.search(r"^budget (\d+)$", question, re.MULTILINE)[1])
    while low < high:
        budget = (low + high) // 2
        tried.write_text(re.sub(r"^budget \d+$", f"budget {budget}", question, flags=re.MULTILINE))
        answer = called([options.ccac, "check", texts[0], tried], 1, options.limit)
        low, high = (low, budget) if answer and answer[1] in (0, 1) else (budget + 1, high)
    return high


def ask_others(row, texts, place, options, solvers):
    """Each other solver's time on the same problem, where it comes to an answer."""
    problem = place / "problem.smt2"
    written = called([options.writer, *texts], 1, options.limit)
    if written is None or written[1] != 0:
        row.faults.append("no SMT-LIB text")
        return
    problem.write_bytes(written[0])
    for name in solvers:
        answer = called([*SOLVERS[name], problem], options.times, options.limit)
        word = answer[0].decode().strip() if answer else ""
        if word in SAYS.values():
            row.theirs[name] = answer[2]
            if row.verdict in SAYS and SAYS[row.verdict] != word:
                row.faults.append(f"{name} answers {word}")
            if options.proofs and word == "unsat":
                row.proofs[name] = proof_size(name, written[0], place, options)


def proof_size(name, text, place, options):
    """How many bytes of proof another solver writes behind its verdict, within the limit of time; None where it writes none."""
    problem = place / "proof.smt2"
    asks = (b"(set-option :produce-proofs true)\n", b"(get-proof)\n") if name == "z3" else (b"", b"")
    problem.write_bytes(asks[0] + text + asks[1])
    answer = called([*PROVERS[name], problem], 1, options.limit)
    if answer is None or not answer[0].startswith(b"unsat\n"):
        return None
    return len(answer[0]) - len(b"unsat\n")


def measured(problem, place, options, solvers):
    """A row of the table: the texts are decided, confirmed, and given to the other solvers."""
    row, texts = Row(problem.names, problem.group), problem.texts
    answer = called([options.ccac, "check", *texts], options.times, options.limit)
    if answer is None:
        row.verdict, row.ours = "no answer", float(options.limit)
        return row
    report, status, row.ours = answer
    row.verdict = report.split(b"\n", 1)[0].decode()
    told(row, report)
    if (row.verdict.split(" ")[0], status) not in {("verified", 0), ("violated", 1), ("unknown", 2)}:
        row.faults.append(f"check ends with {status}")
    elif problem.known and problem.known != row.verdict:
        row.faults.append(f"check answers {row.verdict}, and not {problem.known}")
    elif row.verdict in SAYS:
        confirmed(row, texts, report, place, options)
        row.moves = least_budget(texts, place, options) if options.moves else 0
    if solvers:
        ask_others(row, texts, place, options, solvers)
    return row


def show(rows, solvers, firsts):
    heads = [*firsts, "Verdict", "Decisions", "Propagated", "Pivots", "Lemmas", "Bytes", "Moves", "ccac, ms"]
    heads += [head for name in solvers for head in (f"{name}, ms", f"ccac / {name}")]
    print("| " + " | ".join(heads) + " |")
    print("|" + "---|" * len(heads))
    for row in rows:
        cells = [*row.names, row.verdict, row.decisions, row.propagations, row.pivots, row.lemmas, row.certificate, row.moves or ""]
        cells.append(f"{row.ours * 1e3:.1f}")
        for name in solvers:
            theirs = row.theirs.get(name)
            cells += [f"{theirs * 1e3:.1f}", f"{row.ours / theirs:.3f}"] if theirs else ["", ""]
        print("| " + " | ".join(str(cell) for cell in cells) + " |")


def median(numbers, form):
    """The median in this form, and nothing where there are no numbers."""
    found = [number for number in numbers if number is not None]
    return form.format(statistics.median(found)) if found else ""


def with_most(numbers):
    return f"{statistics.median(numbers):,.0f} ({max(numbers):,})" if numbers else ""


def summary(group, here, solvers):
    """How many of these problems are decided, and the medians over them, as the cells of a row."""
    decided = [row for row in here if row.verdict in SAYS]
    times = [row.ours * 1e3 for row in decided]
    cells = [group, f"{len(decided)} of {len(here)}", f"{statistics.median(times):.1f} ({max(times):.0f})" if times else ""]
    for verdict in SAYS:
        cells.append(median([row.second / row.ours for row in decided if row.verdict == verdict and row.second], "{:.2f}"))
    cells.append(with_most([int(row.certificate) for row in decided if row.certificate]))
    cells.append(with_most([row.moves for row in decided if row.moves]))
    for name in solvers:
        ratios = [row.ours / row.theirs[name] for row in decided if name in row.theirs]
        cells.append(f"{statistics.median(ratios):.3f} ({max(ratios):.2f})" if ratios else "")
        cells.append(f"{sum(ratio > 1 for ratio in ratios)} of {len(ratios)}")
        cells.append(median([int(row.certificate) / row.proofs[name] for row in decided if row.proofs.get(name) and row.certificate], "{:.4f}"))
    return cells


def summed_up(rows, solvers):
    """A row for each size and for the examples, and one for all."""
    heads = ["Problems", "Decided", "ccac, ms (most)", "audit / check", "replay / check", "Certificate, bytes (most)", "Moves (most)"]
    for name in solvers:
        heads += [f"ccac / {name} (most)", f"slower than {name}", f"certificate / {name}'s proof"]
    print("| " + " | ".join(heads) + " |")
    print("|" + "---|" * len(heads))
    for group in dict.fromkeys(row.group for row in rows):
        print("| " + " | ".join(summary(group, [row for row in rows if row.group == group], solvers)) + " |")
    print("| " + " | ".join(summary("all", rows, solvers)) + " |")


def numbers(words):
    """`1,3-5` is 1, 3, 4 and 5."""
    found = []
    for part in words.split(","):
        first, _, last = part.partition("-")
        found += range(int(first), int(last or first) + 1)
    return found


def of_examples():
    """The pairs of the examples' table: a controller, a question, what is asked, and the verdict."""
    found = re.findall(r"^\| `([\w-]+)` \| `([\w-]+)` \|[^|]*\| (\w+) \|", (EXAMPLES / "README.md").read_text(), re.MULTILINE)
    return [Problem((EXAMPLES / f"{c}.controller", EXAMPLES / f"{q}.question"), (c, q), verdict, "examples") for c, q, verdict in found]


def generated(options, place):
    if options.seeds:
        pairs = [(seed, size) for size in numbers(options.sizes) for seed in numbers(options.seeds)]
        return [Problem(tuple(write(place, *pair)), pair, group=f"size {pair[1]}") for pair in pairs]
    pairs = sorted(tuple(int(n) for n in re.findall(r"\d+", path.name)) for path in KEPT.glob("gen-*.controller"))
    names = [(pair, f"gen-{pair[0]}-{pair[1]}") for pair in pairs]
    return [Problem(tuple(KEPT / f"{name}.{end}" for end in ("controller", "question")), pair, group=f"size {pair[1]}") for pair, name in names]


def main():
    parser = argparse.ArgumentParser(description="Decides problems, beside other solvers.")
    parser.add_argument("--examples", action="store_true", help="the pairs of examples/README.md, beside the generated ones where seeds are given")
    parser.add_argument("--seeds", help="seeds to generate, as 1-20 or 1,5,19 (else the kept texts)")
    parser.add_argument("--proofs", action="store_true", help="let the other solvers write their proofs too")
    parser.add_argument("--moves", action="store_true", help="find how many moves each decided problem takes, by some ten calls more")
    parser.add_argument("--short", action="store_true", help="the last table alone")
    parser.add_argument("--sizes", default="1,8,32", help="sizes to generate, 1 to 32")
    parser.add_argument("--times", type=int, default=3, help="calls of which the median time is taken")
    parser.add_argument("--limit", type=int, default=120, help="seconds after which a call is given up")
    parser.add_argument("--ccac", default=PROGRAM, help="the program ccac")
    parser.add_argument("--writer", default=WRITER, help="the program problem_smt; without it no other solver is asked")
    parser.add_argument("--solvers", default=",".join(SOLVERS), help="the other solvers to ask, each where it is found")
    options = parser.parse_args()
    if not os.path.exists(options.ccac):
        sys.exit("build the program first, by ./ccac")
    asked = [name for name in options.solvers.split(",") if shutil.which(name)]
    solvers = asked if os.path.exists(options.writer) else []
    with folder() as place:
        place = Path(place)
        taken = generated(options, place) if options.seeds or not options.examples else []
        taken += of_examples() if options.examples else []
        rows = [measured(problem, place, options, solvers) for problem in taken]
    load = os.getloadavg()[0]
    print(f"{os.cpu_count()} processors, load {load:.1f} at the end; each time is the median of {options.times} calls")
    if not options.short:
        show(rows, solvers, ["Seed or controller", "Size or question"])
        print()
    summed_up(rows, solvers)
    faults = [f"{' '.join(map(str, row.names))}: {fault}" for row in rows for fault in row.faults]
    print("\n".join(faults) if faults else "all agree")
    sys.exit(1 if faults else 0)


if __name__ == "__main__":
    main()
