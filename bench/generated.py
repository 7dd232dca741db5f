#!/usr/bin/env python3
"""The texts of the generated family: a controller and a question for each seed and size.

    python3 bench/generated.py SEED SIZE            both texts, one after the other
    python3 bench/generated.py SEED SIZE FOLDER     FOLDER/gen-SEED-SIZE.controller and .question

This is written from the definition, and not from the program, so that the two can be compared. The numbers are drawn by
a linear congruential generator with 64 bits of state, whose low 33 bits are not used.
"""
import sys
from pathlib import Path

MULTIPLIER = 6_364_136_223_846_793_005
INCREMENT = 1_442_695_040_888_963_407


class Draws:
    """The numbers drawn from a seed, one after the other."""

    def __init__(self, seed):
        self.state = seed

    def draw(self, sides):
        self.state = (self.state * MULTIPLIER + INCREMENT) % 2**64
        return self.state // 2**33 % sides


def number(num, den):
    return str(num) if den == 1 else f"{num}/{den}"


def states_of(draws, count):
    lines = []
    for j in range(1, count + 1):
        low = 1 + draws.draw(3)
        high = low + draws.draw(3)
        lines.append(f"state s{j} data init {low} {high}")
    return lines


def guard_of(draws):
    kind = draws.draw(3)
    if kind == 0:
        return "lost > 0"
    if kind == 1:
        return f"acked > {draws.draw(4)}"
    return f"delay >= {1 + draws.draw(2)}"


def set_of(draws, j):
    a = 1 + draws.draw(3)
    b = 1 + draws.draw(4)
    c = draws.draw(3)
    d = 1 + draws.draw(4)
    scale = "" if (a, b) == (1, 1) else f"{number(a, b)} * "
    return f"set s{j} = {scale}s{j} + {number(c, d)}"


def rules_of(draws, states):
    lines = []
    for _ in range(draws.draw(3)):
        lines.append(f"rule when {guard_of(draws)}")
        lines.extend(set_of(draws, j) for j in range(1, states + 1))
    return lines


def texts(seed, size):
    """The controller and the question, in the order of the draws."""
    draws = Draws(seed)
    flows = 1 + draws.draw(2)
    jitter = draws.draw(3)
    rtt = 1 + draws.draw(2)
    states = 1 + draws.draw(3)
    controller = ["ccac-controller 1"]
    controller += states_of(draws, states)
    controller += rules_of(draws, states)
    controller += ["rule otherwise", "window s1", "end"]
    buffer = "none" if draws.draw(2) == 0 else str(1 + draws.draw(4))
    least = draws.draw(3)
    question = [
        "ccac-question 1",
        f"flows {flows}",
        f"steps {size}",
        "rate 1",
        f"jitter {jitter}",
        f"rtt {rtt}",
        f"buffer {buffer}",
        "budget 2000",
        f"require S@{size} - S@0 >= {least}",
        "end",
    ]
    return "\n".join(controller) + "\n", "\n".join(question) + "\n"


def write(folder, seed, size):
    """Writes both texts, and gives their paths."""
    folder = Path(folder)
    folder.mkdir(parents=True, exist_ok=True)
    paths = [folder / f"gen-{seed}-{size}.{end}" for end in ("controller", "question")]
    for path, text in zip(paths, texts(seed, size)):
        path.write_text(text)
    return paths


def main(words):
    if len(words) not in (2, 3):
        sys.exit(__doc__)
    seed, size = int(words[0]), int(words[1])
    if not (0 <= seed < 2**64 and 1 <= size <= 32):
        sys.exit("the seed is below 2^64, the size from 1 to 32")
    if len(words) == 3:
        for path in write(words[2], seed, size):
            print(path)
    else:
        print("".join(texts(seed, size)), end="")


if __name__ == "__main__":
    main(sys.argv[1:])
