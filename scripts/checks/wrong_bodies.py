#!/usr/bin/env python3
"""Wrong bodies: the edits of crates/NAME/must-fail, which the gate tries, and of crates/NAME/wrong, which are tried here alone.

usage: scripts/checks/wrong_bodies.py            tries each edit of both, crate by crate, on a copy: before a release
       scripts/checks/wrong_bodies.py NAME..     those of these crates alone
       scripts/checks/wrong_bodies.py --texts    sees that each edit's texts still stand, each once, in the files that it names
       scripts/checks/wrong_bodies.py --compiles [NAME..]
                                       sees that each edited crate has the right types, where the libraries below it are built

An edit has lines `file: PATH`, `old: TEXT`, `new: TEXT`; further pairs apply to what the earlier ones made. A crate's proof
has to refuse the edited crate at a goal: one that is refused without a goal's name, as where the checker doesn't cover the
body's form, or only for a name that a proof lost, shows nothing of a contract, and counts as a failure here. Trying them
all takes some four hours of one processor. One that doesn't compile is refused, too, and shows as little: `--compiles` has the
checker look for a function that isn't there, which it does behind the types, and takes some ten seconds for each.
"""
import glob
import os
import re
import shutil
import subprocess
import sys
import tempfile

TOP = os.path.dirname(os.path.dirname(os.path.dirname(os.path.realpath(__file__))))


def edited(edit):
    """The texts of the files that an edit changes, and what is wrong with the edit."""
    crate = os.path.dirname(os.path.dirname(edit))
    texts, path, old = {}, None, None
    with open(edit, encoding="utf-8") as file:
        lines = file.read().splitlines()
    for line in lines:
        word, _, text = line.partition(": ")
        if word == "file":
            path, old = f"{crate}/{text}", None
            if not os.path.isfile(path):
                return texts, [f"no file {text}"]
            if path not in texts:
                with open(path, encoding="utf-8") as file:
                    texts[path] = file.read()
        elif word == "old" and path:
            old = text
            count = texts[path].count(old)
            if count != 1:
                return texts, [f"stands {count} times: {old.strip()}"]
        elif word == "new" and old is not None:
            texts[path], old = texts[path].replace(old, text), None
        elif line:
            return texts, [f"no such line: {line}"]
    return texts, [] if texts and old is None else ["not whole"]


def see_texts():
    edits = sorted(glob.glob(f"{TOP}/crates/*/must-fail/*.edit") + glob.glob(f"{TOP}/crates/*/wrong/*.edit"))
    count = 0
    for edit in edits:
        for fault in edited(edit)[1]:
            print(f"{os.path.relpath(edit, TOP)}: {fault}")
            count += 1
    print(f"{len(edits)} wrong bodies, {count} at fault")
    return 1 if count else 0


def told_of(edit, crate):
    """What the checker says of the types of a crate with this edit: None where they are right."""
    texts, faults = edited(edit)
    if faults:
        return faults[0]
    before = {}
    for path, text in texts.items():
        with open(path, encoding="utf-8") as file:
            before[path] = file.read()
        with open(path, "w", encoding="utf-8") as file:
            file.write(text)
    nothing = f"{os.path.basename(crate)}::no_such_function"
    words = ["rt", "check", "--jobs", "1", "--only", nothing]
    said = subprocess.run(words, cwd=crate, stdout=subprocess.PIPE, stderr=subprocess.STDOUT, text=True, errors="replace").stdout
    for path, text in before.items():
        with open(path, "w", encoding="utf-8") as file:
            file.write(text)
    if "has no function" in said:
        return None
    errors = [line for line in said.splitlines() if "error" in line]
    return errors[0] if errors else said[-200:]


def see_types(names):
    with tempfile.TemporaryDirectory(prefix="wrong-bodies-") as room:
        copy = f"{room}/repository"
        shutil.copytree(TOP, copy, ignore=shutil.ignore_patterns(".git"))
        seen, count = 0, 0
        for crate in sorted(glob.glob(f"{copy}/crates/*")):
            if names and os.path.basename(crate) not in names:
                continue
            for edit in sorted(glob.glob(f"{crate}/must-fail/*.edit") + glob.glob(f"{crate}/wrong/*.edit")):
                seen += 1
                if fault := told_of(edit, crate):
                    print(f"{os.path.relpath(edit, copy)}: {fault}", flush=True)
                    count += 1
        print(f"{seen} wrong bodies, {count} at fault")
        return 1 if count or not seen else 0


def try_all(names):
    with tempfile.TemporaryDirectory(prefix="wrong-bodies-") as room:
        copy = f"{room}/repository"
        shutil.copytree(TOP, copy, ignore=shutil.ignore_patterns("out", ".git"))
        os.mkdir(f"{copy}/.git")
        tried = []
        for crate in sorted(glob.glob(f"{copy}/crates/*")):
            edits = glob.glob(f"{crate}/must-fail/*.edit") + glob.glob(f"{crate}/wrong/*.edit")
            if not edits or names and os.path.basename(crate) not in names:
                continue
            os.makedirs(f"{crate}/must-fail", exist_ok=True)
            for edit in glob.glob(f"{crate}/wrong/*.edit"):
                shutil.copy(edit, f"{crate}/must-fail")
            tried.append(os.path.basename(crate))
        if not tried:
            print("no wrong bodies there")
            return 2
        print(" ".join(tried), flush=True)
        how = {"cwd": copy, "stdout": subprocess.PIPE, "stderr": subprocess.STDOUT, "text": True, "errors": "replace"}
        count = 0
        with subprocess.Popen(["rt", "must-fail", *tried], **how) as run:
            for line in run.stdout:
                print(line, end="", flush=True)
                count += bool(re.search(r"refused, as it must be( \(only|$)", line.rstrip()))
        print(f"{count} refused at no goal")
        return 1 if count else run.returncode


def main(words):
    if words == ["--texts"]:
        return see_texts()
    if words[:1] == ["--compiles"]:
        return see_types(words[1:])
    if any(word.startswith("-") for word in words):
        print(__doc__)
        return 2
    return try_all(words)


if __name__ == "__main__":
    sys.exit(main(sys.argv[1:]))
