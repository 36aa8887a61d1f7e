#!/usr/bin/env python3
"""Writes the library's version, which ffi/VERSION names, wherever it stands: citrus.h and the crates of ffi/. With --check it writes nothing,
and fails where a file has another. CHANGES.md has to begin with what is new in this version, which this can't write."""
import os
import re
import sys

ROOT = os.path.dirname(os.path.dirname(os.path.abspath(__file__)))
HEADER = "ffi/include/citrus.h"
CRATES = ("ffi/citrus_map/Cargo.toml", "ffi/server/Cargo.toml")


def text_of(path):
    with open(f"{ROOT}/{path}", encoding="utf-8") as file:
        return file.read()


def places(version):
    """Each place of the version: its file, the line's form, and the line."""
    parts = dict(zip(("MAJOR", "MINOR", "PATCH"), version.split(".")))
    yield HEADER, r'^#define CITRUS_VERSION ".*"$', f'#define CITRUS_VERSION "{version}"'
    for name, number in parts.items():
        yield HEADER, rf"^#define CITRUS_VERSION_{name} .*$", f"#define CITRUS_VERSION_{name} {number}"
    for crate in CRATES:
        yield crate, r'^version = ".*"$', f'version = "{version}"'


def main(words):
    version, wrong = text_of("ffi/VERSION").strip(), []
    if words not in ([], ["--check"]):
        sys.exit("usage: version.py [--check]")
    if not re.fullmatch(r"(0|[1-9]\d*)(\.(0|[1-9]\d*)){2}", version):
        sys.exit(f"ffi/VERSION has no version: {version}")
    for path, form, line in places(version):
        text = text_of(path)
        made, count = re.subn(form, line, text, flags=re.M)
        if count != 1:
            sys.exit(f"{path} hasn't just one line for {line}")
        if made != text:
            wrong.append(f"{path} has another line than {line}")
            if not words:
                with open(f"{ROOT}/{path}", "w", encoding="utf-8") as file:
                    file.write(made)
    newest = re.search(r"^## (.*)$", text_of("CHANGES.md"), re.M)
    if not newest or newest[1] != version:
        sys.exit(f"CHANGES.md doesn't begin with {version}")
    if words and wrong:
        sys.exit("\n".join([*wrong, "build/version.py writes them"]))


if __name__ == "__main__":
    main(sys.argv[1:])
