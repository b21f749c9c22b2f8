#!/usr/bin/env python3
"""Runs a command some times, its output thrown away, and prints the least seconds and the greatest peak memory in KiB.

usage: measure.py [--new-folder] TIMES COMMAND..
With --new-folder each run is in an empty folder of its own, which is removed after it.
"""
import os
import shutil
import sys
import tempfile
import time


def run(command, folder):
    """Seconds and peak memory of one run in a folder; an exit status other than 0 ends the benchmark."""
    begin = time.perf_counter()
    child = os.fork()
    if child == 0:
        os.chdir(folder)
        null = os.open(os.devnull, os.O_WRONLY)
        os.dup2(null, 1)
        os.execvp(command[0], command)
    _, status, usage = os.wait4(child, 0)
    if status != 0:
        sys.exit(f"measure: {' '.join(command)} ended with {status}")
    return time.perf_counter() - begin, usage.ru_maxrss


def run_anew(command):
    """The same in an empty folder, beside the current one."""
    folder = tempfile.mkdtemp(dir=".")
    try:
        return run(command, folder)
    finally:
        shutil.rmtree(folder)


def main():
    anew = sys.argv[1] == "--new-folder"
    words = sys.argv[2:] if anew else sys.argv[1:]
    times, command = int(words[0]), words[1:]
    runs = [run_anew(command) if anew else run(command, ".") for _ in range(times)]
    print(f"{min(seconds for seconds, _ in runs):.4f} {max(memory for _, memory in runs)}")


main()
