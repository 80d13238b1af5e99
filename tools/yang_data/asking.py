"""Who is asked about data: the program, by a creation of it, and yanglint, by a file of it."""

from __future__ import annotations

import json
import pathlib
import re
import subprocess
from dataclasses import dataclass
from typing import Any

from .json_text import Json, compact
from .paths import Path, around, read_target, stand_for, target_text
from .schema import Node, modules

# Faults of a line that isn't JSON, or whose value isn't data of the schema; the reasons of a refusal that say the same.
LINE_FAULTS = {"2", "3"}
REASONS = {"invalid-value", "unknown-element"}
ESTABLISH = {"datastore": "ietf-datastores:operational", "on-change": {}}


class Trouble(Exception):
    """An answer that says neither that data are accepted nor that they are refused."""


@dataclass(frozen=True)
class Answer:
    """Whether data were accepted, and if so which data they were taken for."""

    accepted: bool
    data: Json = None


@dataclass(frozen=True)
class Instance:
    """A value at a path, asked of the program as a creation and of yanglint as the data around it."""

    path: Path
    value: Json

    @property
    def data(self) -> str:
        return compact(around(self.path, self.value))

    def __str__(self) -> str:
        return f"{target_text(self.path)} {compact(self.value)}"


def creation(path: Path, value: Json) -> Json:
    edit = {"edit-id": "1", "operation": "create", "target": target_text(path), "value": value}
    return {"patch": {"ietf-yang-patch:yang-patch": {"patch-id": "1", "edit": [edit]}}}


@dataclass(frozen=True)
class Report:
    """What a run of the program wrote and how it ended."""

    status: int
    lines: list[str]
    error: str

    def reply(self, position: int) -> Any:
        """The reply at a position of the journal."""
        wanted = f"reply {position} 0 {position} "
        return next((json.loads(line[len(wanted):]) for line in self.lines if line.startswith(wanted)), None)

    def tree(self) -> Json:
        """The data that the receiver holds in the end."""
        line = next(line for line in self.lines if line.startswith("tree "))
        return json.loads(line.split(" ", 3)[3])

    def full_update(self) -> Json:
        """The data of the first update, which is a full one."""
        return self.notices()[0]["ietf-yang-push:push-update"]["datastore-contents"]

    def notices(self) -> list[dict[str, Any]]:
        """What the receiver was sent."""
        told = (json.loads(line.split(" ", 2)[2]) for line in self.lines if line.startswith("to "))
        return [notice["ietf-restconf:notification"] for notice in told]


class Program:
    """The built program."""

    def __init__(self, path: pathlib.Path) -> None:
        self.path = path

    def run(self, script: list[str]) -> Report:
        text = "".join(line + "\n" for line in script).encode()
        done = subprocess.run([str(self.path), "run"], input=text, capture_output=True, check=False)
        return Report(done.returncode, done.stdout.decode().split("\n"), done.stderr.decode().strip())

    def ask(self, head: list[str], receiver: str, instance: Instance) -> Answer:
        """Whether the value can be created at its path, and the data that a subscriber is shown then."""
        needed = stand_for(instance.path)
        before = [creation(*needed)] if needed else []
        script = [
            *head, *map(compact, before), compact(creation(instance.path, instance.value)),
            compact({"establish": {"by": receiver, **ESTABLISH}})]
        report = self.run(script)
        fault = re.fullmatch(r"push: line (\d+): fault (\d+)", report.error)
        if report.status == 3 and fault and int(fault[1]) == len(script) - 1 and fault[2] in LINE_FAULTS:
            return Answer(False)
        reply = report.reply(len(before) + 1)
        if report.status == 0 and reply == {"ok": True}:
            return Answer(True, report.tree())
        if report.status == 0 and reply and reply.get("error") in REASONS:
            return Answer(False)
        raise Trouble(f"the program on {script[-2]}: status {report.status}, {report.error or reply}")


class Yanglint:
    """The command yanglint, with the modules of a schema in a folder of their own."""

    def __init__(self, command: str, folder: pathlib.Path, root: Node, state: bool) -> None:
        self.file = folder / "data.json"
        self.words = [command, "-f", "json"]
        paths = []
        for name, text in modules(root, state).items():
            path = folder / f"{name}.yang"
            path.write_text(text, encoding="utf-8")
            paths.append(str(path))
        done = subprocess.run([command, *paths], capture_output=True, text=True, check=False)
        if done.returncode != 0:
            raise Trouble(f"yanglint on the modules: {done.stderr.strip()}")
        self.words += [*paths, str(self.file)]

    def ask(self, data: str) -> Answer:
        """Whether the data of a whole datastore are of the modules, and how yanglint writes them."""
        self.file.write_text(data, encoding="utf-8")
        done = subprocess.run(self.words, capture_output=True, check=False)
        if done.returncode == 0:
            return Answer(True, json.loads(done.stdout))
        error = done.stderr.decode(errors="replace")
        if done.returncode > 0 and "Failed to parse input data" in error:
            return Answer(False)
        raise Trouble(f"yanglint on {data}: status {done.returncode}, {error.strip()}")


def written(root: Node, report: Report) -> list[str]:
    """Each piece of data that a report holds, as the data of a whole datastore: updates of both kinds, and the tree."""
    found = [compact(report.tree())]
    for notice in report.notices():
        if "ietf-yang-push:push-update" in notice:
            found.append(compact(notice["ietf-yang-push:push-update"]["datastore-contents"]))
        else:
            changes = notice["ietf-yang-push:push-change-update"]["datastore-changes"]["yang-patch"]["edit"]
            found += [compact(changed_data(root, edit)) for edit in changes if "value" in edit]
    return found


def changed_data(root: Node, edit: dict[str, Any]) -> Json:
    """The data of a whole datastore that an edit's value stands for, in member forms."""
    path = read_target(root, edit["target"])
    node = path[-1].node
    return around(path, {node.member: edit["value"][node.qualified]})
