#!/usr/bin/env python3
"""Writes the table of steps of docs/TREE_INVARIANT.md: what each act does, by its docstring in core_state/src/act.rt; what it needs,
by core_state/specs/Acts.antt. `--check` only says whether the page is up to date."""
import os
import re
import sys

ROOT = os.path.dirname(os.path.dirname(os.path.abspath(__file__)))
PAGE = f"{ROOT}/docs/TREE_INVARIANT.md"
BEGIN, END = "<!-- made by build/steps.py -->\n", "<!-- end of what build/steps.py makes -->\n"
GROUPS = {
    "Sections": (3, 4, 5, 6, 28, 29, 30, 33, 34), "Waits": (7, 8, 31, 32, 35), "Slots": (9, 10, 11, 12, 15, 16),
    "Locks": (13, 14, 18, 19, 23, 24, 39), "Loads": (17, 37), "Links": (20, 21, 22, 36), "Moves": (25, 26, 27), "Rotations": (38,),
    "Another table": (41, 42),
}


def text_of(path):
    with open(f"{ROOT}/{path}", encoding="utf-8") as file:
        return file.read()


def acts():
    """Of each act its name, its kind and what it does, from the docstrings."""
    body = text_of("crates/core_state/src/act.rt").split("pub enum Act {")[1]
    for kind, does, name in re.findall(r"/// (K\d+)\. (.*(?:\n    /// .*)*)\n    (\w+)", body):
        yield name, kind, " ".join(line.strip().removeprefix("/// ") for line in does.split("\n"))


def needs_of_acts():
    """Of each act the need."""
    text = re.sub(r"\n +", " ", text_of("crates/core_state/specs/Acts.antt").replace("MarkNode", "Mark"))
    needs = {}
    for name, body in re.findall(r"^Needs k v \(?(\w+)[^=]*\)? = (.*)$", text, re.M):
        found = re.search(r"\b(Needs\w+|IsRetiredAt|MayLook)\b", body)
        needs[name] = f"`{found.group(1)}`" if found else "nothing"
    return needs


def table():
    needs = needs_of_acts()
    groups = {number: group for group, numbers in GROUPS.items() for number in numbers}
    rows = {group: [] for group in GROUPS}
    for name, kind, does in acts():
        number = int(kind[1:])
        rows[groups[number]].append((number, f"| {kind} | `{name}` | {does} | {needs[name]} |"))
    lines = ["| kind | act | what it does | needs |", "|---|---|---|---|"]
    for group, found in rows.items():
        lines.append(f"| | | *{group}* | |")
        lines += [row for _, row in sorted(found, key=lambda pair: pair[0])]
    return "\n".join(lines) + "\n"


def main():
    with open(PAGE, encoding="utf-8") as file:
        page = file.read()
    before, rest = page.split(BEGIN)
    made = before + BEGIN + table() + END + rest.split(END)[1]
    if "--check" in sys.argv:
        print("the table of steps is up to date" if made == page else "the table of steps isn't up to date: run build/steps.py")
        sys.exit(0 if made == page else 1)
    with open(PAGE, "w", encoding="utf-8") as file:
        file.write(made)


if __name__ == "__main__":
    main()
