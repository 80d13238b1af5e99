#!/usr/bin/env python3
"""Runs a program and writes what it took.

    python3 -I -S measured.py FILE WORD..

FILE gets one line: the status, the seconds on the clock, the seconds on the processors, the peak memory in
KiB, and the least peak in KiB that can be seen. A process has at least the peak of what it was before it
became its program; this script is small, for the sake of small peaks, and runs `true` to learn the least.
"""

import os
import sys
import time


def run(words: list[str]) -> tuple[int, float, int]:
    """The status of a program, its seconds on the processors and its peak memory in KiB."""
    child = os.fork()
    if child == 0:
        try:
            os.execvp(words[0], words)
        finally:
            os._exit(127)
    _, status, usage = os.wait4(child, 0)
    return os.waitstatus_to_exitcode(status), usage.ru_utime + usage.ru_stime, usage.ru_maxrss


def main() -> None:
    result, *words = sys.argv[1:]
    begun = time.perf_counter()
    status, processors, peak = run(words)
    took = time.perf_counter() - begun
    _, _, least = run(["true"])
    with open(result, "w", encoding="ascii") as out:
        out.write(f"{status} {took} {processors} {peak} {least}\n")


if __name__ == "__main__":
    main()
