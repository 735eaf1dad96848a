#!/usr/bin/env python3
"""Writes the index of laws in docs/PROMISES.md, and docs/definitions.csv: scripts/checks/pages.py sees that both are today's.

usage: scripts/authoring/promise_index.py

A law is a public function of a crate's module `laws`, or of a crate whose name ends in `_laws`. Stories aren't among them, as the page has
a table of these. The index stands between two comments of the page. The definitions are the files of specs/ that the clauses of
`server_laws` lead to, from `use` to `use`, with their lines.
"""
import glob
import os
import re
import sys

TOP = os.path.dirname(os.path.dirname(os.path.dirname(os.path.realpath(__file__))))
PAGE = f"{TOP}/docs/PROMISES.md"
BEGIN, END = "<!-- Made by scripts/authoring/promise_index.py -->", "<!-- End of what is made -->"
DEFINITIONS = f"{TOP}/docs/definitions.csv"


def laws():
    """For each law its file and its name."""
    for path in sorted(set(glob.glob(f"{TOP}/crates/*/src/laws.rt") + glob.glob(f"{TOP}/crates/*_laws/src/*.rt"))):
        if not path.endswith("/stories.rt"):
            with open(path, encoding="utf-8") as file:
                for name in re.findall(r"^ *pub fn (\w+)", file.read(), flags=re.M):
                    yield path, name


def module_of(crate, path):
    """The file of specs/ that a path leads to, if it is a file."""
    parts = path.split(".")
    files = (f"{TOP}/crates/{crate}/specs/{'/'.join(parts[:k])}.antt" for k in range(len(parts), 0, -1))
    return next((file for file in files if os.path.exists(file)), None)


def definitions():
    """The files of specs/ that the laws of a server lead to, with their lines, as CSV."""
    files, left = {}, glob.glob(f"{TOP}/crates/server_laws/src/*.rt")
    while left:
        with open(left.pop(), encoding="utf-8") as file:
            for crate, path in re.findall(r"^(?:ghost |pub )?use Rattle\.(\w+)\.specs\.([\w.]+\w)", file.read(), flags=re.M):
                found = module_of(crate, path)
                if found and found not in files:
                    with open(found, encoding="utf-8") as module:
                        files[found] = len(module.readlines())
                    left.append(found)
    rows = [f"{os.path.relpath(file, TOP)},{files[file]}" for file in sorted(files)]
    return "\n".join(["file,lines", *rows, f"all {len(rows)},{sum(files.values())}", ""])


def index():
    """The text of the index."""
    named = {}
    for path, name in laws():
        crate = os.path.relpath(path, f"{TOP}/crates").split(os.sep)[0]
        named.setdefault(crate, []).append(f"[`{name}`](../{os.path.relpath(path, TOP)})")
    return "\n".join(["| Crate | Its laws |", "|---|---|"] + [f"| `{crate}` | {', '.join(links)} |" for crate, links in named.items()])


def page_with_index():
    """The page as it stands, and as it is with today's index."""
    with open(PAGE, encoding="utf-8") as file:
        text = file.read()
    before, rest = text.split(BEGIN)
    after = rest.split(END)[1]
    return text, f"{before}{BEGIN}\n{index()}\n{END}{after}"


def main():
    if len(sys.argv) > 1:
        sys.exit(__doc__)
    _, text = page_with_index()
    with open(PAGE, "w", encoding="utf-8") as file:
        file.write(text)
    with open(DEFINITIONS, "w", encoding="utf-8") as file:
        file.write(definitions())


if __name__ == "__main__":
    main()
