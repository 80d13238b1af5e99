#!/usr/bin/env python3
"""Windows of patches, drawn, each with the roots and the record that the rules give.

    window_cases.py            writes the cases, as crates/selection_cases reads them
    window_cases.py PROGRAM    runs that program on them, and prints what differs, if anything does

What each window gives is worked out afresh: the selection before and after each patch, by the models of
access_cases.py and subscription_cases.py. A path is touched where its row is in just one of two neighbouring
selections, or in both with two values; the roots are the touched paths with none above them, and the record has
an edit for each. It shares no code with the program, and the cases are the same each time.
"""

from __future__ import annotations

import json
import pathlib
import subprocess
import sys
from collections.abc import Iterator
from dataclasses import dataclass
from typing import Any

from access_cases import NAMES, USERS, Path, Policy, Rows, data, node_at, order, record, schema_line, target, value_at
from large_cases import compact
from subscription_cases import Subscribing, kept_by

SEEDS, WINDOWS = 60, 50
KINDS = ["create", "delete", "insert", "move", "replace"]


def changed(before: Rows, after: Rows) -> set[Path]:
    """The paths whose row is in just one of two selections, or in both with two values."""
    missing = object()
    return {path for path in {*before, *after} if before.get(path, missing) != after.get(path, missing)}


def topmost(paths: set[Path]) -> list[Path]:
    """Those with none above them, in order."""
    return sorted((path for path in paths if not any(path[:length] in paths for length in range(1, len(path)))), key=order)


def within(rows: Rows, at: Path) -> Rows:
    return {path: value for path, value in rows.items() if path[:len(at)] == at}


def matched_names(asked: Any) -> set[str]:
    """The names of the match nodes of a filter."""
    if isinstance(asked, list):
        return {name for each in asked for name in matched_names(each)}
    if not isinstance(asked, dict):
        return set()
    own = {name for name, value in asked.items() if not isinstance(value, (dict, list))}
    return own | {name for value in asked.values() for name in matched_names(value)}


def leaves_of(path: Path) -> list[Path]:
    """The leaves of an entry or a container that aren't keys, without those of lists below it."""
    found = []
    for name, node in node_at(path).children.items():
        if node.kind == "leaf" and name not in node_at(path).keys:
            found.append((*path, (name, ())))
        elif node.kind == "container":
            found += leaves_of((*path, (name, ())))
    return found


@dataclass
class Window:
    """The selections of a window, the first and those after each patch, and what is told of them."""

    selections: list[Rows]

    @property
    def roots(self) -> list[Path]:
        steps = zip(self.selections, self.selections[1:])
        return topmost({path for before, after in steps for path in changed(before, after)})

    def kind(self, root: Path) -> str:
        first, last = self.selections[0], self.selections[-1]
        return "delete" if root not in last else "replace" if root in first else "create"

    def told(self, excluded: list[str]) -> list[Path]:
        """The roots whose edits are in the record."""
        return [root for root in self.roots if self.kind(root) not in excluded]

    def record(self, excluded: list[str]) -> dict[str, Any]:
        last = self.selections[-1]
        edits = [
            {"edit-id": str(number), "operation": self.kind(root), "target": target(root)}
            | ({"value": value_at(last, root)} if root in last else {})
            for number, root in enumerate(self.told(excluded), 1)]
        return {"yang-patch": {"edit": edits, "patch-id": "1"}}

    def folded(self) -> Rows:
        """The first selection after the record: at or below each root there is what the last one has there."""
        held = {**self.selections[0]}
        for root in self.roots:
            held = {path: value for path, value in held.items() if path[:len(root)] != root} | within(self.selections[-1], root)
        return held


class Windows(Subscribing):
    """Windows of a datastore, each from where the one before it ended, under policies that change."""

    def about(self, asked: dict[str, Any] | None) -> list[Path]:
        """Leaves of what is there: mostly those on which a filter matches, or below what it names at the top, if there are any."""
        leaves = [leaf for path in self.rows for leaf in leaves_of(path)]
        below = [path for path in leaves if asked is None or path[0][0] in asked]
        decides = [path for path in below if path[-1][0] in matched_names(asked)]
        return self.draw.choice([decides, decides, below]) or below or leaves

    def some_edit(self, asked: dict[str, Any] | None) -> tuple[dict[str, Any], Rows]:
        """An edit of an entry or a container, or mostly one of a leaf of what is there."""
        leaves = self.about(asked)
        if not leaves or self.draw.random() < 0.3:
            return self.edit()
        path = self.draw.choice(leaves)
        old = self.rows.get(path)
        if old is not None and self.draw.random() < 0.2:
            edit = {"operation": "delete", "target": target(path)}
            return edit, {at: value for at, value in self.rows.items() if at != path}
        values = [self.value(node_at(path).sort) for _ in range(3)]
        made = {path: next((value for value in values if value != old), values[0])}
        return {"operation": "merge", "target": target(path), "value": value_at(made, path)}, self.rows | made

    def step(self, asked: dict[str, Any] | None) -> dict[str, Any]:
        """A patch, which is made."""
        edits = []
        for number in range(self.draw.choice([1, 1, 2, 3])):
            edit, self.rows = self.some_edit(asked)
            edits.append({**edit, "edit-id": str(number)})
        return {"ietf-yang-patch:yang-patch": {"patch-id": "p", "edit": edits}}

    def selection(self, user: str, asked: dict[str, Any] | None) -> Rows:
        seen = {path: value for path, value in self.rows.items() if self.policy.reads(user, path)}
        kept = {*seen} if asked is None else kept_by(asked, (), seen)
        return {path: value for path, value in seen.items() if path in kept}

    def change_policy(self) -> None:
        """Another policy, as often one by which all may read what has no rule of its own."""
        if self.draw.random() < 0.5:
            self.policy = Policy()
        else:
            self.give_policy()

    def cases(self) -> Iterator[dict[str, Any]]:
        """A window, also by the call for one step where it has one patch and tells all kinds."""
        draw, user, asked = self.draw, self.draw.choice(USERS), self.telling_filter()
        begun = {"filter": asked, "user": user, "on": data(self.rows, ())}
        excluded = draw.sample(KINDS, draw.randrange(4)) if draw.random() < 0.3 else []
        patches, window = [], Window([self.selection(user, asked)])
        for _ in range(draw.choice([0, 1, 1, 1, 2, 2, 2, 3, 3, 4, 5, 6, 8, 10])):
            patches.append(self.step(asked))
            window.selections.append(self.selection(user, asked))
        assert window.folded() == window.selections[-1], begun
        gives = {"record": window.record(excluded), "roots": [target(root) for root in window.roots]}
        yield {"touched": {**begun, "patches": patches, "excluded": excluded}, "gives": gives}
        if len(patches) == 1:
            edits = record(*window.selections)
            yield {"record_of_step": {**begun, "patch": patches[0]}, "gives": {"yang-patch": {"edit": edits, "patch-id": "1"}}}

    def drawn(self) -> Iterator[dict[str, Any]]:
        for _ in range(WINDOWS):
            if self.draw.random() < 0.15:
                self.change_policy()
                yield self.policy.said()
            yield from self.cases()


def window_lines() -> Iterator[str]:
    """The schema, and then policies and cases."""
    yield compact({"schema": [json.loads(schema_line())["schema"]]})
    for seed in range(SEEDS):
        windows = Windows(seed)
        yield compact(windows.policy.said())
        yield from map(compact, windows.drawn())


def wrong_windows(program: pathlib.Path) -> Iterator[str]:
    """The cases that differ when the program runs them, the first twenty, and how many they are."""
    lines = [*window_lines()]
    count = sum('"gives"' in line for line in lines)
    run = subprocess.run([str(program)], input="\n".join(lines).encode(), capture_output=True, check=False)
    *differing, last = run.stdout.decode(errors="replace").splitlines() or [""]
    for told in differing[:20]:
        yield f"window_cases.py: {told[:500]}"
    if run.returncode != 0 or last != f"{count} cases, 0 differ":
        yield f"window_cases.py: of {count} cases, '{last}', status {run.returncode}: {run.stderr.decode(errors='replace').strip()}"


def main() -> int:
    if len(sys.argv) < 2:
        print("\n".join(window_lines()))
        return 0
    wrong = [*wrong_windows(pathlib.Path(sys.argv[1]))]
    print("\n".join(wrong or ["window_cases.py: no case differs"]))
    return 1 if wrong else 0


if __name__ == "__main__":
    sys.exit(main())
