#!/usr/bin/env python3
"""Renames the crates that have the name of a library of the kit.

usage: python3 tools/rename_crates.py        at the top of the repository, once, after tools/snake.py
"""

import os
import re
import sys

RENAMED = {"csv": "csv_text", "hex": "hex_text"}


def turned(text, path):
    for old, new in RENAMED.items():
        text = re.sub(rf"\bRattle([.·]){old}(?=[.·])", rf"Rattle\g<1>{new}", text)
        if path.endswith((".rt", ".edit")):
            text = re.sub(rf"(?<![\w:]){old}::(?=\w)", f"{new}::", text)
        if path == "crates.txt":
            text = re.sub(rf"(?<![\w]){old}(?![\w])", new, text)
    return text


def main():
    if not os.path.exists("crates.txt"):
        sys.exit("run it at the top of the repository")
    for old, new in RENAMED.items():
        os.rename(f"crates/{old}", f"crates/{new}")
    paths = ["crates.txt"]
    for folder, dirs, names in os.walk("crates"):
        dirs[:] = sorted(d for d in dirs if d != "out")
        paths += [os.path.join(folder, n) for n in sorted(names) if n.endswith((".rt", ".antt", ".edit"))]
    for path in paths:
        with open(path, encoding="utf-8", newline="") as f:
            text = f.read()
        new = turned(text, path)
        if new != text:
            with open(path, "w", encoding="utf-8", newline="") as f:
                f.write(new)


if __name__ == "__main__":
    main()
