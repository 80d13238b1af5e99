#!/usr/bin/env python3
"""Writes a script of nearly N bytes: patches of six edits each, among 1,000 rows.

    make_large.py N            no one subscribes, so the report has the replies alone
    make_large.py N --told     a receiver subscribes first, so each patch is told besides

N goes from 100,000 to 67,108,864; with the largest there are some 84,000 lines. The script ends before the
first line that wouldn't fit.
"""

from __future__ import annotations

import itertools
import sys
from collections.abc import Iterator
from typing import Any

from make_edits import ROWS_EACH, interfaces, replacing
from make_script import SCHEMA, compact, establish, head

LEAST, MOST = 100_000, 67_108_864
COUNT = 1_000 // ROWS_EACH
EDITS = 6


def print_fitting(lines: Iterator[dict[str, Any]], room: int) -> None:
    """The lines before the first for which there is no room."""
    for line in lines:
        text = compact(line)
        room -= len(text) + 1
        if room < 0:
            return
        print(text)


def main() -> None:
    words = [word for word in sys.argv[1:] if word != "--told"]
    if len(words) != 1 or not words[0].isdigit() or not LEAST <= int(words[0]) <= MOST:
        sys.exit(__doc__)
    begun = [*head([SCHEMA]), *interfaces(COUNT), *([establish()] if "--told" in sys.argv else [])]
    print_fitting(itertools.chain(begun, replacing(COUNT, EDITS)), int(words[0]))


if __name__ == "__main__":
    main()
