"""Runs each command of docs/TUTORIAL.md and compares what it shows with what stands there. Exit status 1 where they differ.

python3 docs/tutorial.py [--update]      after ./ccac and crates/problem_smt were built; --update prints what was shown instead

A line `..` stands for any lines, and a line that ends with `..` for any rest of the line.
"""
import os
import re
import subprocess
import sys
import tempfile

TOP = os.path.dirname(os.path.dirname(os.path.abspath(__file__)))


def sessions(text):
    """The commands of the page, each with the lines that it shows."""
    for block in re.findall(r"^```console\n(.*?)^```$", text, re.M | re.S):
        lines = block.split("\n")[:-1]
        at = 0
        while at < len(lines):
            command = lines[at].removeprefix("$ ")
            at += 1
            if ending := re.search(r"<<'(\w+)'", command):
                while lines[at] != ending[1]:
                    command += "\n" + lines[at]
                    at += 1
                command += "\n" + lines[at]
                at += 1
            shown = []
            while at < len(lines) and not lines[at].startswith("$ "):
                shown.append(lines[at])
                at += 1
            yield command, shown


def fits(wanted, shown):
    """Whether the shown lines are the wanted ones, where `..` stands for what is left out."""
    if not wanted:
        return not shown
    if wanted[0] == "..":
        return any(fits(wanted[1:], shown[at:]) for at in range(len(shown) + 1))
    if not shown:
        return False
    same = shown[0].startswith(wanted[0][:-2]) if wanted[0].endswith("..") else shown[0] == wanted[0]
    return same and fits(wanted[1:], shown[1:])


def main():
    with open(f"{TOP}/docs/TUTORIAL.md", encoding="utf-8") as it:
        page = it.read()
    failed = count = 0
    with tempfile.TemporaryDirectory() as room:
        with open(f"{room}/ccac", "w", encoding="utf-8") as it:
            it.write(f'#!/bin/sh\nexec "{TOP}/ccac" "$@"\n')
        os.chmod(f"{room}/ccac", 0o755)
        os.symlink(f"{TOP}/crates", f"{room}/crates")
        for command, wanted in sessions(page):
            ran = subprocess.run(["bash", "-c", command], cwd=room, text=True, stdout=subprocess.PIPE, check=False)
            shown = ran.stdout.split("\n")[:-1]
            count += 1
            if "--update" in sys.argv:
                print("\n".join(["$ " + command, *shown]))
            elif not fits(wanted, shown):
                failed += 1
                print("\n".join(["differs: " + command, "wanted:", *wanted, "shown:", *shown, ""]))
    print(f"{count} commands, {failed} differ")
    return 1 if failed else 0


if __name__ == "__main__":
    sys.exit(main())
