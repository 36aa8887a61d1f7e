#!/usr/bin/env python3
"""Checks the pages: each relative link leads to a file that is there and to a heading of it, and each source that a definition
names is a heading of its page, or stands in the page's list of what moved. Pages are README.md, docs/*.md, the READMEs of crates, and
those of bench/ and ffi/."""
import glob
import os
import re
import sys

ROOT = os.path.dirname(os.path.dirname(os.path.abspath(__file__)))
LINK = re.compile(r"!?\[([^\]]*)\]\(([^)\s]+)\)")
SOURCE = re.compile(r"\"?(docs/[A-Z_]+\.md)`?, \"([^\"]+)\"")
MENTION = re.compile(r"(docs/[A-Z_]+\.md)(?:#([\w-]+))?")


def text_of(path):
    with open(f"{ROOT}/{path}", encoding="utf-8") as file:
        return file.read()


def without_code(text):
    """The text without what stands between fences or backquotes, where a bracket is no link."""
    lines, inside = [], False
    for line in text.split("\n"):
        if line.lstrip().startswith("```"):
            inside = not inside
            line = ""
        lines.append("" if inside else re.sub(r"`[^`]*`", "", line))
    return "\n".join(lines)


def headings(text):
    inside = False
    for line in text.split("\n"):
        if line.startswith("```"):
            inside = not inside
        found = re.match(r"#+ (.*)", line)
        if found and not inside:
            yield found.group(1).strip()


def anchor_of(heading):
    plain = LINK.sub(r"\1", heading).lower()
    return re.sub(r"[^\w\- ]", "", plain).replace(" ", "-")


def anchors(path):
    text = text_of(path)
    found = {}
    for heading in headings(text):
        anchor = anchor_of(heading)
        count = found.get(anchor, 0)
        found[anchor] = count + 1
        if count:
            found[f"{anchor}-{count}"] = 1
    return set(found) | set(re.findall(r"<a id=\"([^\"]+)\">", text))


def bad_links(page):
    for name, target in LINK.findall(without_code(text_of(page))):
        if re.match(r"[a-z]+:", target):
            continue
        path, _, anchor = target.partition("#")
        there = os.path.normpath(f"{os.path.dirname(page)}/{path}") if path else page
        if not os.path.exists(f"{ROOT}/{there}"):
            yield f"{page}: [{name}] leads to {there}, which isn't there"
        elif anchor and there.endswith(".md") and anchor not in anchors(there):
            yield f"{page}: [{name}] leads to {there}, which has no heading #{anchor}"


def bad_sources(path, named):
    """Of a file that names pages in plain text: a page, or a heading of it, that isn't there."""
    text = text_of(path)
    for page, anchor in MENTION.findall(text):
        if not os.path.exists(f"{ROOT}/{page}"):
            yield f"{path}: names {page}, which isn't there"
        elif anchor and anchor not in anchors(page):
            yield f"{path}: names #{anchor} of {page}, which has no such heading"
    for page, title in SOURCE.findall(text):
        if page not in named:
            if not os.path.exists(f"{ROOT}/{page}"):
                continue
            whole = text_of(page)
            named[page] = set(headings(whole)) | {name for name, _ in LINK.findall(whole)}
        if title not in named[page]:
            yield f"{path}: names \"{title}\" of {page}, which has no such heading"


def files(*patterns):
    return sorted(os.path.relpath(path, ROOT) for pattern in patterns for path in glob.glob(f"{ROOT}/{pattern}", recursive=True))


def main():
    pages = files("README.md", "CHANGES.md", "docs/*.md", "crates/*/README.md", "bench/*.md", "ffi/**/*.md")
    plain = files("crates/*/README.md", "crates/*/src/**/*.rt", "crates/*/specs/**/*.antt", "crates/*/proofs/**/*.antt", "bench/*", "build/*.sh")
    bad, named = [], {}
    for page in pages:
        bad += bad_links(page)
    for path in plain:
        if os.path.isfile(f"{ROOT}/{path}"):
            bad += bad_sources(path, named)
    for line in bad:
        print(line)
    print(f"{len(pages)} pages, {len(bad)} bad links")
    sys.exit(1 if bad else 0)


if __name__ == "__main__":
    main()
