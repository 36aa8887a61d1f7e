#!/usr/bin/env python3
"""Checks that each name in backquotes on the pages and in the crates' READMEs stands in the code, that of ffi/ too, in the specs or proofs, or
as a file. It looks at names of several words alone (`IsRetiredAt`, `map_at`); those that end in _X stand for many and are left out. A path
below src, specs or proofs has to be there, in the crate of the README or in the one that it names."""
import glob
import os
import re
import sys

ROOT = os.path.dirname(os.path.dirname(os.path.abspath(__file__)))
# names of the toolchain, of other languages and libraries, and of how a name is made
ELSEWHERE = {"RT_JOBS", "seq_cst", "concurrent_map", "IsSomeAnd-map", "kN", "keepsN", "passes_X_", "in_ok-f", "in_ok-x", "in_err-x", "returns-in_err-x", "returns-in_default-f"}


def text_of(path):
    with open(path, encoding="utf-8", errors="replace") as file:
        return file.read()


def known():
    found = set()
    for folder in ("src", "specs", "proofs", "must-fail"):
        for path in glob.glob(f"{ROOT}/crates/*/{folder}/**/*.*", recursive=True):
            text = text_of(path)
            found |= set(re.findall(r"[\w-]+", text)) | set(re.findall(r"\w+", text))
    for path in glob.glob(f"{ROOT}/ffi/**/*.*", recursive=True):
        if re.search(r"\.(h|hpp|c|cpp|rs|sh)$", path):
            found |= set(re.findall(r"\w+", text_of(path)))
    for path in glob.glob(f"{ROOT}/**", recursive=True):
        name = os.path.basename(path.rstrip("/"))
        found |= {name, os.path.splitext(name)[0]}
    return found


def named(page):
    text = re.sub(r"```.*?```", "", text_of(page), flags=re.S)
    for span in re.findall(r"`([^`\n]+)`", text):
        for name in re.split(r"[^\w-]+", span):
            if re.fullmatch(r"[A-Za-z][\w-]+", name) and ("_" in name or re.search(r"[a-z][A-Z]", name)) and not name.endswith("_X"):
                yield name


def lost_paths(page):
    """The paths that lead nowhere. On a page of docs/ one without a crate's name is that of the crate of which the text speaks."""
    crate = os.path.dirname(page) if page.endswith("README.md") else f"{ROOT}/crates/*"
    for span in re.findall(r"`([^`\n ]+)`", text_of(page)):
        path = span.removeprefix("crates/")
        if re.match(r"(\w+/)?(src|specs|proofs|must-fail)/", path) and not re.search(r"NAME|kN|[*]", path):
            if not any(glob.glob(f"{folder}/{path.rstrip('/')}{end}") for folder in (crate, f"{ROOT}/crates") for end in ("", ".antt", ".rt")):
                yield span


def main():
    there, bad = known() | ELSEWHERE, 0
    for page in sorted(glob.glob(f"{ROOT}/README.md") + glob.glob(f"{ROOT}/CHANGES.md") + glob.glob(f"{ROOT}/docs/*.md") + glob.glob(f"{ROOT}/crates/*/README.md")):
        for name in sorted(set(named(page)) - there):
            if name.strip("_") not in there:
                print(f"{os.path.relpath(page, ROOT)}: `{name}` stands nowhere")
                bad += 1
        for path in sorted(set(lost_paths(page))):
            print(f"{os.path.relpath(page, ROOT)}: `{path}` leads nowhere")
            bad += 1
    print(f"{bad} names that stand nowhere")
    sys.exit(1 if bad else 0)


if __name__ == "__main__":
    main()
