#!/usr/bin/env python3
"""Reads a script from standard input, parses each line with Python's json, and writes how many there are.

It does nothing else with them: no program that reads the same text does much less.
"""

import json
import sys


def main() -> None:
    count = 0
    for line in sys.stdin.buffer:
        if line.strip(b" \t\r\n"):
            json.loads(line)
            count += 1
    print(count)


if __name__ == "__main__":
    main()
