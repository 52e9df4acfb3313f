#!/usr/bin/env python3
"""Brings this repository's own ghost names to the toolchain's spelling, once, after its own script has run.

usage: python3 tools/respell.py           rewrites every .rt, .antt and .edit file below crates/, in place
       python3 tools/respell.py --list    prints the names that it turns, old and new, and changes nothing

The rules: a function, a field or a label is in snake case, a type or a fact in upper camel case, and a lemma in snake case too, but that one whose first
part is a name known in its file, as of the function that it is about, keeps its dash.
What is turned is found in the files: names declared in specs/ and proofs/, but for what the toolchain names after the code (goals, invariants, measures).
Constructors of a `data` keep their names, as the variants of an enum do. A name that would fall together with another gets one of its own, below.
"""

import glob
import os
import re
import sys

DECLARED = re.compile(r"^(\s*)((?:abbrev |unfoldable |pub )*)(data |record )?([^\s(){}:,.;λ]+)((?:\s*\([^)]*\))*)\s*:\s(.*)$")
# What the toolchain names after the code.
MADE = re.compile(r"^(returns|invariant|decreases|loop|overflow|index|branch)(-|$)|-requires$|^in-")
CHARS = r"[^\s(){}\[\]:,.;λ\"`|]"
# Names of one crate that would fall together with another there by the rules alone (a lemma that has its function's name gets `_lem`), local names, and
# lemmas whose first part is known only by an import that nothing uses.
OWN = {
    "crc": {"low-bits": "low_bits_lem", "split-a": "split_a", "split-b": "split_b"},
    "messages": {"all-below": "all_below_lem"},
    "wire_laws": {"in_two": "in_two_lem", "in_three": "in_three_lem", "in_four": "in_four_lem", "can-be": "can_be_lem", "length-by-kind": "length_by_kind"},
    "network": {
        "is-tree": "is_tree_lem",
        "tree-of": "tree_of_lem",
        "believes-up-to": "believes_up_to_lem",
        "forgets-all": "forgets_all_lem",
        "neighbour-way": "neighbour_way_lem",
        "station-way": "station_way_lem",
    },
    "ports": {"none_below": "none_below_lem"},
    "bridges": {
        "not_back": "not_back_lem",
        "none_of": "none_of_lem",
        "send_by": "send_by_lem",
        "all-below": "all_below_lem",
        "no-tree": "no_tree_lem",
        "no-pick": "no_pick",
        "at-below": "at_below",
        "not-back-is": "not_back_is",
        "on-way-is": "on_way_is",
    },
    "queues": {"pending-row": "pending_row", "out-at": "out_at_lem", "port-at": "port_at_lem", "room-at": "room_at_lem"},
    "pending": {"linkAcks": "link_acks_of", "treeAcks": "tree_acks_of"},
}


def files(root):
    for pattern in ("**/*.antt", "**/*.rt", "**/must-fail/*.edit"):
        for p in sorted(glob.glob(os.path.join(root, "crates", "*", pattern), recursive=True)):
            if "/out/" not in p:
                yield p


def snake(name):
    name = re.sub(r"(?<=[a-z0-9])([A-Z])", lambda m: "_" + m.group(1).lower(), name)
    return name.replace("-", "_")


def camel(name):
    return "".join(part[:1].upper() + part[1:] for part in name.split("-"))


def known(text):
    """What a file of lemmas knows by name: what it imports, and the functions and types that it declares."""
    found = set()
    for line in re.sub(r"\n\s+", " ", text).split("\n"):
        if line.startswith("use "):
            found.update(snake(w) for w in re.findall(CHARS + "+", line.partition("{")[2] or line.rpartition(".")[2]))
    for line in text.split("\n"):
        m = DECLARED.match(line)
        if m and (m.group(3) or "abbrev" in m.group(2) or "unfoldable" in m.group(2)):
            found.add(snake(m.group(4)))
    return found


def spelled(name, in_specs, marked, names):
    """The name as the rules spell it."""
    if name.startswith("getD-"):
        return "get_or-" + name[5:]
    if name[0].isupper():
        return camel(name)
    if in_specs or marked:
        return snake(name)
    parts = [snake(part) for part in name.split("-")]
    return "-".join(parts) if parts[0] in names else "_".join(parts)


def turned(root):
    found = {}
    for p in files(root):
        if not p.endswith(".antt"):
            continue
        text = open(p, encoding="utf-8").read()
        names = known(text)
        for line in text.split("\n"):
            if line.strip().startswith("--"):
                continue
            m = DECLARED.match(line)
            if not m:
                continue
            name = m.group(4)
            if not re.search(r"[A-Za-z]", name) or MADE.search(name) or m.group(6).startswith("goal."):
                continue
            new = spelled(name, "/specs/" in p, "abbrev" in m.group(2) or "unfoldable" in m.group(2), names)
            if new != name:
                found[name] = new
    return found


def main():
    root = os.path.dirname(os.path.dirname(os.path.realpath(__file__)))
    table = turned(root)
    if "--list" in sys.argv:
        for old in sorted(table):
            print(old, table[old])
        for crate in sorted(OWN):
            for old in sorted(OWN[crate]):
                print(old, OWN[crate][old], "in", crate)
        return
    for p in files(root):
        names = {**table, **OWN.get(os.path.relpath(p, os.path.join(root, "crates")).split(os.sep)[0], {})}
        word = re.compile("(?<!" + CHARS + ")(" + "|".join(re.escape(o) for o in sorted(names, key=len, reverse=True)) + ")(?!" + CHARS + ")")
        with open(p, encoding="utf-8") as f:
            text = f.read()
        new = word.sub(lambda m: names[m.group(1)], text)
        if new != text:
            with open(p, "w", encoding="utf-8") as f:
                f.write(new)


if __name__ == "__main__":
    main()
