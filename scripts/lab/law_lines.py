#!/usr/bin/env python3
"""How many lines the laws have: definitions and proofs of `subscription_laws` and `server_laws`, without imports, comments and blank lines too.

usage: scripts/lab/law_lines.py [REV ..]      as they stand, or as they stood at these commits
"""
import os
import re
import subprocess
import sys

TOP = os.path.dirname(os.path.dirname(os.path.dirname(os.path.realpath(__file__))))


def git(*words):
    return subprocess.run(["git", "-C", TOP, *words], capture_output=True, text=True, check=True).stdout


def texts(rev, folder):
    """The .antt files of a folder, as they stand where there is no commit."""
    if rev:
        return [git("show", f"{rev}:{path}") for path in git("ls-tree", "-r", "--name-only", rev, folder).split() if path.endswith(".antt")]
    paths = [f"{at}/{name}" for at, _, names in os.walk(f"{TOP}/{folder}") for name in names if name.endswith(".antt")]
    return [open(path, encoding="utf-8").read() for path in paths]


def main():
    for rev in sys.argv[1:] or [None]:
        print(rev or "as it stands")
        for crate in ("subscription_laws", "server_laws"):
            for part in ("specs", "proofs"):
                lines = [line for text in texts(rev, f"crates/{crate}/{part}") for line in text.splitlines()]
                code = [line for line in lines if line.strip() and not re.match(r"\s*(--|use |pub use |pub mod )", line)]
                print(f"  {crate:18} {part:6} {len(lines):6,} lines, {len(code):6,} of them code")


if __name__ == "__main__":
    main()
