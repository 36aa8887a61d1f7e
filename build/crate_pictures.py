#!/usr/bin/env python3
"""Draws the crates as three pictures, from crates.txt by graphviz: docs/pictures/crates_text.svg, crates_tree.svg, crates_laws.svg.
An arrow goes from a crate to one that it uses, and is left out where others lead there; grey boxes stand in another picture.
`--check` only says whether every crate has a place here and the pictures have its name."""
import os
import re
import subprocess
import sys

ROOT = os.path.dirname(os.path.dirname(os.path.abspath(__file__)))
OUT = f"{ROOT}/docs/pictures"

# of each picture its crates, with what is written below their names
PICTURES = {
    "text": {
        "citrus_cli": "main",
        "citrus_tool": "tool: the commands",
        "command_words": "words, statuses",
        "hash_run": "scripts on one hash dictionary",
        "class_hash": "64 buckets on shared words",
        "hash_core": "its words, steps and rule",
        "client_run": "scripts in threads",
        "account_text": "accounts: made, checked",
        "workload": "made scripts, summaries",
        "script_text": "the text of scripts",
        "io_edge": "bytes in and out",
        "prcu_marks": "marks, callers, chains",
        "prcu_model": "operations, dictionary, replies",
    },
    "tree": {
        "tree_watch": "scripts, and lists beside them",
        "tree_run": "scripts on one tree, a client with a cookie",
        "core_machine": "the calls, step by step",
        "grace_cookie": "waits asked about later",
        "citrus_c": "for C, C++ and Rust",
        "tree_handles": "indexes by handles, values held",
        "citrus_tree": "get, put, del, remove, set",
        "exact_list": "lists of a key range",
        "many_gets": "many lookups at once",
        "tree_lift": "turns on a key's way, a client that lifts",
        "tree_turn": "a node and its child turned",
        "node_slots": "slots and locks",
        "tree_points": "points of calls, on the table",
        "waiters": "waits by reader, class, or both",
        "seat_table": "the table, seats, one call a step",
        "patience": "how a loop waits",
    },
    "laws": {
        "core_points": "what a call knows at each point",
        "core_laws": "every act keeps the invariant",
        "core_examples": "runs on literal words",
        "moved_laws": "tables whose pairs moved",
        "core_frames": "what a step leaves, what follows",
        "core_state": "words, views, steps, invariant",
        "prcu_marks": "marks, callers, chains",
        "key_interval": "intervals and classes",
        "list_laws": "lists of views and numbers",
        "string_layers": "strings over one index are a map",
        "prcu_model": "operations, dictionary, replies",
    },
}
# what stands in another picture and is drawn here in grey
BESIDE = {
    "text": ("the tree",),
    "tree": ("the program", "core_points", "core_laws", "client_run", "account_text"),
    "laws": ("the tree",),
}
# tests, and programs that only measure or write rows
ASIDE = {"tree_benches", "index_example", "base_tests", "tree_tests", "tool_tests", "tool_rows"}


def read_crates():
    used = {}
    with open(f"{ROOT}/crates.txt", encoding="utf-8") as file:
        for line in file:
            line = line.split("#")[0].strip()
            if line:
                head, _, tail = line.partition(":")
                used[head.split()[0]] = tail.split()
    return used


def below(edges, name):
    found, left = set(), list(edges.get(name, ()))
    while left:
        other = left.pop()
        if other not in found:
            found.add(other)
            left += edges.get(other, ())
    return found


def reduced(edges):
    """Without each edge to what stands below another end of an edge from the same crate."""
    return {
        name: [one for one in ends if not any(one in below(edges, other) for other in ends if other != one)]
        for name, ends in edges.items()
    }


def edges_of(picture, used):
    inside = PICTURES[picture]
    drawn = reduced({name: [one for one in used[name] if one in inside] for name in inside})
    if picture == "text":
        drawn["citrus_tool"].append("the tree")
        drawn["the tree"] = ["client_run", "account_text"]
    if picture == "tree":
        drawn["the program"] = ["tree_watch", "core_machine", "waiters"]
        drawn["tree_run"].append("client_run")
        drawn["tree_watch"].append("account_text")
        drawn["core_machine"].append("core_points")
        drawn["tree_points"].append("core_points")
        drawn["seat_table"].append("core_laws")
    if picture == "laws":
        drawn["the tree"] = ["core_points"]
    return drawn


def dot_of(picture, used):
    lines = [
        "digraph crates {",
        'graph [rankdir=TB, ranksep=0.35, nodesep=0.25, bgcolor="white", margin=0.1]',
        'node [shape=box, style="rounded,filled", fillcolor="#fdf6e3", color="#7a6a3a", fontname="Helvetica", fontsize=12, margin="0.12,0.06"]',
        'edge [color="#7a7a7a", arrowsize=0.6]',
    ]
    for name, what in PICTURES[picture].items():
        lines.append(f'"{name}" [label=<<b>{name}</b><br/><font point-size="10">{what}</font>>]')
    for name in BESIDE[picture]:
        lines.append(f'"{name}" [fillcolor="#eeeeee", color="#999999", fontcolor="#555555", style="rounded,filled,dashed"]')
    for name, ends in edges_of(picture, used).items():
        lines += [f'"{name}" -> "{one}"' for one in ends]
    return "\n".join(lines) + "\n}\n"


def draw(picture, used):
    done = subprocess.run(["dot", "-Tsvg"], input=dot_of(picture, used), capture_output=True, text=True, check=True)
    svg = re.sub(r"<!--.*?-->\n?", "", done.stdout, flags=re.S)
    with open(f"{OUT}/crates_{picture}.svg", "w", encoding="utf-8") as file:
        file.write(svg)


def lacking(used):
    placed = {name for crates in PICTURES.values() for name in crates} | ASIDE
    yield from (f"{name} of crates.txt stands in no picture" for name in used if name not in placed)
    yield from (f"{name} stands in a picture, and not in crates.txt" for name in placed if name not in used)
    for picture, crates in PICTURES.items():
        path = f"{OUT}/crates_{picture}.svg"
        svg = open(path, encoding="utf-8").read() if os.path.exists(path) else ""
        yield from (f"{name} isn't drawn in {path}" for name in crates if f">{name}<" not in svg)
        drawn = set(re.findall(r"<title>(.*?)&#45;&gt;(.*?)</title>", svg.replace("&#160;", " ")))
        meant = {(name, one) for name, ends in edges_of(picture, used).items() for one in ends}
        yield from (f"an arrow from {name} to {one} is missing, or one too many, in {path}" for name, one in sorted(drawn ^ meant))


def main():
    used = read_crates()
    if "--check" not in sys.argv:
        os.makedirs(OUT, exist_ok=True)
        for picture in PICTURES:
            draw(picture, used)
    found = list(lacking(used))
    print("\n".join(found) or "the pictures have every crate")
    sys.exit(1 if found else 0)


if __name__ == "__main__":
    main()
