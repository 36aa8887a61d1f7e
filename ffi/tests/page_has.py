#!/usr/bin/env python3
"""usage: page_has.py PAGE FILE: whether the page shows the file as it is, as a block of code."""
import re
import sys


def text_of(path):
    with open(path, encoding="utf-8") as file:
        return file.read()


page, shown = map(text_of, sys.argv[1:])
sys.exit(0 if shown in re.findall(r"^```\w*\n(.*?)^```$", page, re.M | re.S) else f"{sys.argv[1]} doesn't show {sys.argv[2]} as it is")
