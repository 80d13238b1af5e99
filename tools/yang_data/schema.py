"""A schema as the schema lines of a script give it, and the YANG modules (RFC 7950) that say the same."""

from __future__ import annotations

from collections.abc import Iterator
from dataclasses import dataclass, field
from typing import Any

SMALL_INTEGERS = ("int8", "int16", "int32", "uint8", "uint16", "uint32")
LARGE_INTEGERS = ("int64", "uint64")


@dataclass(eq=False)
class Node:
    """A schema node; the root, whose children are the top-level nodes, has no parent."""

    member: str
    kind: str
    parent: Node | None
    type: str = ""
    names: list[str] = field(default_factory=list)
    keys: list[str] = field(default_factory=list)
    presence: bool = False
    children: dict[str, Node] = field(default_factory=dict)

    @property
    def module(self) -> str:
        """The module of the node's name, which is its parent's where its member form has none."""
        if ":" in self.member:
            return self.member.partition(":")[0]
        return self.parent.module if self.parent else ""

    @property
    def name(self) -> str:
        return self.member.rpartition(":")[2]

    @property
    def qualified(self) -> str:
        return f"{self.module}:{self.name}"

    @property
    def is_key(self) -> bool:
        return self.parent is not None and self.member in self.parent.keys

    def within(self) -> Iterator[Node]:
        """The nodes below this one, each before those below it."""
        for child in self.children.values():
            yield child
            yield from child.within()

    def above(self) -> list[Node]:
        """The nodes from the top down to this one."""
        if self.parent is None:
            return []
        return [*self.parent.above(), self]


def read_schema(parts: list[list[dict[str, Any]]]) -> Node:
    """The root of the nodes that schema lines state, each parent before its children."""
    root = Node("", "root", None)
    for said in (node for part in parts for node in part):
        *above, member = said["path"][1:].split("/")
        parent = root
        for name in above:
            parent = parent.children[name]
        parent.children[member] = Node(
            member, said["kind"], parent, said.get("type", ""), said.get("names", []), said.get("keys", []),
            said.get("presence", False))
    return root


def quoted(text: str) -> str:
    """A YANG string in double quotes (RFC 7950 section 6.1.3)."""
    for plain, escape in (("\\", "\\\\"), ('"', '\\"'), ("\n", "\\n"), ("\t", "\\t")):
        text = text.replace(plain, escape)
    return f'"{text}"'


def type_statement(node: Node) -> str:
    """The type of a leaf. YANG counts the length of a string in characters, and this project in bytes."""
    if node.type.startswith("decimal64:"):
        return f"type decimal64 {{ fraction-digits {node.type.partition(':')[2]}; }}"
    if node.type == "string":
        return 'type string { length "0..256"; }'
    if node.type == "enumeration":
        return "type enumeration { " + " ".join(f"enum {quoted(name)};" for name in node.names) + " }"
    return f"type {node.type};"


def statement(node: Node, indent: str) -> Iterator[str]:
    """The lines of a node with those of its own module below it."""
    if node.kind in ("leaf", "leaf-list"):
        yield f"{indent}{node.kind} {node.name} {{ {type_statement(node)} }}"
        return
    yield f"{indent}{node.kind} {node.name} {{"
    if node.kind == "list":
        yield f"{indent}  key {quoted(' '.join(node.keys))};"
    if node.presence:
        yield f"{indent}  presence \"it is there by itself\";"
    for child in node.children.values():
        if child.module == node.module:
            yield from statement(child, indent + "  ")
    yield f"{indent}}}"


def augmentation(module: str, node: Node) -> Iterator[str]:
    """The lines by which a module puts a node below one of another module (RFC 7950 section 7.17)."""
    assert node.parent is not None
    target = "".join(f"/{above.module}:{above.name}" for above in node.parent.above())
    yield f"  augment {quoted(target)} {{"
    yield from statement(node, "    ")
    yield "  }"


def module_text(root: Node, module: str, state: bool) -> str:
    """A module of the schema; its top-level nodes are state data where it is asked for."""
    own = [node for node in root.within() if node.module == module]
    augmenting = [node for node in own if node.parent and node.parent is not root and node.parent.module != module]
    imports = sorted({above.module for node in augmenting for above in node.above()} - {module})
    lines = [
        f"module {module} {{", "  yang-version 1.1;", f"  namespace \"urn:example:{module}\";", f"  prefix {module};"]
    lines += [f"  import {other} {{ prefix {other}; }}" for other in imports]
    for node in own:
        if node.parent is root:
            first, *rest = statement(node, "  ")
            lines += [first, *(["    config false;"] if state else []), *rest]
    for node in augmenting:
        lines += augmentation(module, node)
    return "\n".join([*lines, "}", ""])


def modules(root: Node, state: bool = False) -> dict[str, str]:
    """The text of each module of the schema, by its name."""
    names = sorted({node.module for node in root.within()})
    return {name: module_text(root, name, state) for name in names}
