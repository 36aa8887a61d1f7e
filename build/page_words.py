#!/usr/bin/env python3
"""Counts the words of README.md and of the pages in docs/, as wc does, and beside that without the bars and rules of tables. It fails where a
page has more than 5,000 by the first count, README.md more than 1,500, or all pages in docs/ more than 32,000 together."""
import glob
import os
import re
import sys

ROOT = os.path.dirname(os.path.dirname(os.path.abspath(__file__)))
OF_README, OF_A_PAGE, OF_ALL = 1500, 5000, 32000


def count_of(path):
    """The words of a page, and those of them that have a letter or a digit."""
    with open(path, encoding="utf-8") as file:
        words = file.read().split()
    return len(words), sum(1 for word in words if re.search(r"\w", word))


def tell(name, count, limit):
    """Whether there are no more words than the limit."""
    print(f"{count[0]:6} {count[1]:6} {name}{'  too long' if count[0] > limit else ''}")
    return count[0] <= limit


def main():
    counts = {os.path.basename(path): count_of(path) for path in sorted(glob.glob(f"{ROOT}/docs/*.md"))}
    total = tuple(sum(count[i] for count in counts.values()) for i in (0, 1))
    held = [tell(page, count, OF_A_PAGE) for page, count in counts.items()]
    held += [tell("in all", total, OF_ALL), tell("README.md", count_of(f"{ROOT}/README.md"), OF_README)]
    sys.exit(0 if all(held) else 1)


if __name__ == "__main__":
    main()
