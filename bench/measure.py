#!/usr/bin/env python3
"""Runs a command a few times with its output thrown away, and prints its best CPU seconds, wall seconds and peak memory.

The peak is the one of the program itself, as time(1) tells it, or else as the system tells it while the program runs. What wait4 tells isn't it: a process
that was forked from this one begins with the memory of Python.
"""
import os
import pathlib
import shutil
import subprocess
import sys
import tempfile
import time

RUNS = 5


def peak(pid):
    """The most kilobytes that a running process held so far; 0 where it has ended."""
    try:
        status = pathlib.Path(f"/proc/{pid}/status").read_text()
    except (FileNotFoundError, ProcessLookupError):
        return 0
    return next((int(line.split()[1]) for line in status.splitlines() if line.startswith("VmHWM")), 0)


def run(words):
    begun = time.monotonic()
    child = os.fork()
    if child == 0:
        sink = os.open(os.devnull, os.O_WRONLY)
        os.dup2(sink, 1)
        os.dup2(sink, 2)
        os.execvp(words[0], words)
    _, status, usage = os.wait4(child, 0)
    return os.waitstatus_to_exitcode(status), usage.ru_utime + usage.ru_stime, time.monotonic() - begun


def peak_of(words):
    """The most megabytes that a command holds."""
    if shutil.which("time"):
        with tempfile.NamedTemporaryFile("r") as told:
            subprocess.run(["time", "-f", "%M", "-o", told.name, *words], stdout=subprocess.DEVNULL, stderr=subprocess.DEVNULL, check=False)
            return int(told.read().split()[-1]) / 1024
    child = subprocess.Popen(words, stdout=subprocess.DEVNULL, stderr=subprocess.DEVNULL)
    most = 0
    while child.poll() is None:
        most = max(most, peak(child.pid))
        time.sleep(0.001)
    return most / 1024


def main():
    megabytes = float(sys.argv[1])
    rows = [run(sys.argv[2:]) for _ in range(RUNS)]
    if any(status != 0 for status, *_ in rows):
        sys.exit(f"{sys.argv[2]} ended with {rows[0][0]}")
    cpu, wall = min(row[1] for row in rows), min(row[2] for row in rows)
    print(f"{cpu:.3f} {wall:.3f} {megabytes / wall:.0f} {peak_of(sys.argv[2:]):.1f}")


main()
