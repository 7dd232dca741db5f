"""How the scripts beside this one time whole calls of `ccac`. Build the program first, by `./ccac`."""
import os
import subprocess
import sys
import tempfile
import time

TOP = os.path.dirname(os.path.dirname(os.path.abspath(__file__)))
PROGRAM = os.path.join(TOP, "crates", "ccac", "out", "ccac")
CALLS = 200


def seconds(command):
    """The mean time of a call, start-up included."""
    for _ in range(10):
        subprocess.run(command, stdout=subprocess.DEVNULL)
    start = time.perf_counter()
    for _ in range(CALLS):
        subprocess.run(command, stdout=subprocess.DEVNULL)
    return (time.perf_counter() - start) / CALLS


def used(command, calls=9):
    """The processor time of a call: the least of some, which other work on the machine changes little."""
    times = []
    for _ in range(calls):
        child = subprocess.Popen(command, stdout=subprocess.DEVNULL)
        _, status, usage = os.wait4(child.pid, 0)
        child.returncode = os.waitstatus_to_exitcode(status)
        times.append(usage.ru_utime + usage.ru_stime)
    return min(times)


def peak(command):
    """The most bytes that a call has in memory."""
    done = subprocess.run(["/usr/bin/time", "-f", "%M", *command], stdout=subprocess.DEVNULL, stderr=subprocess.PIPE, text=True)
    return int(done.stderr.split()[-1]) * 1024


def report(command):
    """The status and the first line of what a call puts."""
    done = subprocess.run(command, capture_output=True, text=True)
    return f"`{done.stdout.splitlines()[0]}` ({done.returncode})"


def demand_program():
    if not os.access(PROGRAM, os.X_OK):
        sys.exit("build the program first: ./ccac")


def stored(folder, name, text):
    """The path of a new file with this text."""
    path = os.path.join(folder, name)
    with open(path, "w") as file:
        file.write(text)
    return path


def folder():
    return tempfile.TemporaryDirectory()
