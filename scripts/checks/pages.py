#!/usr/bin/env python3
"""Sees that the pages are as short as they are meant to be, that their links lead somewhere, and that what scripts write of them
is today's.

usage: scripts/checks/pages.py [--words]      --words: also how many words each page has

- A page has at most its budget of words, as `wc -w` counts them, and all together have at most 26,000.
- A link leads to a file or folder of the repository, and to a heading where it names one. So does each path in backquotes that begins
  with `crates/`, `scripts/`, `docs/`, `bench/`, `examples/` or `clients/`.
- Pages of docs/ that have no budget are told, too.
"""
import os
import re
import sys

TOP = os.path.dirname(os.path.dirname(os.path.dirname(os.path.realpath(__file__))))
sys.path.insert(0, f"{TOP}/scripts/authoring")
from crate_graph import GRAPH, graph  # noqa: E402
from promise_index import DEFINITIONS, definitions, page_with_index  # noqa: E402

ALL = 26000
BUDGETS = {
    "README.md": 700, "docs/ARCHITECTURE.md": 1640, "docs/USING.md": 2500, "docs/NODE_FILE.md": 1800, "docs/SCENARIOS.md": 1300, "docs/STORE.md": 640,
    "docs/SERVICES.md": 2300, "docs/SUBSCRIPTIONS.md": 2500, "docs/ENCODING.md": 1500, "docs/TRANSPORT.md": 1500, "docs/PROMISES.md": 2330,
    "docs/CONTRIBUTING.md": 1800, "docs/GLOSSARY.md": 920, "docs/DECISIONS.md": 3120, "docs/PERFORMANCE.md": 1260, "docs/TRIED.md": 600,
}
OTHERS = ["CHANGELOG.md", "scripts/README.md", "clients/README.md", "clients/GATEWAY.md", "clients/HISTORIAN.md", "clients/ua/README.md", "examples/README.md"]
LINK = re.compile(r"\[[^\]]*\]\(([^)\s]+)\)")
PATH = re.compile(r"`((?:crates|scripts|docs|bench|examples|clients)/[\w./-]+)`")


def text_of(page):
    with open(f"{TOP}/{page}", encoding="utf-8") as file:
        return file.read()


def anchors(page):
    """The names of a page's headings, as links write them."""
    headings = re.findall(r"^#+ (.*)$", re.sub(r"^```.*?^```", "", text_of(page), flags=re.M | re.S), flags=re.M)
    return {re.sub(r"[^\w\- ]", "", heading.lower()).replace(" ", "-") for heading in headings}


def faults_of_links(page):
    """What is wrong with the links and paths of a page."""
    text = re.sub(r"^```.*?^```", "", text_of(page), flags=re.M | re.S)
    for target in LINK.findall(text):
        if re.match(r"https?:", target):
            continue
        path, _, anchor = target.partition("#")
        there = os.path.normpath(os.path.join(os.path.dirname(page), path)) if path else page
        if not os.path.exists(f"{TOP}/{there}"):
            yield f"{page}: {target}: there is no such file"
        elif anchor and there.endswith(".md") and anchor not in anchors(there):
            yield f"{page}: {target}: there is no such heading"
    for path in PATH.findall(text):
        if not os.path.exists(f"{TOP}/{path.rstrip('.')}") and "NAME" not in path and "/out/" not in path:
            yield f"{page}: {path}: there is no such file"


def main():
    if sys.argv[1:] not in ([], ["--words"]):
        sys.exit(__doc__)
    pages = [f"docs/{name}" for name in sorted(os.listdir(f"{TOP}/docs")) if name.endswith(".md")]
    faults = [f"{page}: this page has no budget of words" for page in pages if page not in BUDGETS]
    words = {page: len(text_of(page).split()) for page in BUDGETS if os.path.exists(f"{TOP}/{page}")}
    faults += [f"{page}: there is no such page" for page in BUDGETS if page not in words]
    faults += [f"{page}: {count} words, and its budget is {BUDGETS[page]}" for page, count in words.items() if count > BUDGETS[page]]
    if sum(words.values()) > ALL:
        faults.append(f"all pages: {sum(words.values())} words, and their budget is {ALL}")
    for page in [*words, *OTHERS]:
        faults += faults_of_links(page)
    stands, wanted = page_with_index()
    if stands != wanted:
        faults.append("docs/PROMISES.md: the index of laws isn't today's: run scripts/authoring/promise_index.py")
    if text_of(os.path.relpath(DEFINITIONS, TOP)) != definitions():
        faults.append("docs/definitions.csv isn't today's: run scripts/authoring/promise_index.py")
    if not os.path.exists(GRAPH) or text_of(os.path.relpath(GRAPH, TOP)) != graph()[2]:
        faults.append("docs/crates.svg isn't today's: run scripts/authoring/crate_graph.py")
    if sys.argv[1:]:
        print("".join(f"{count:6} of {BUDGETS[page]:5} {page}\n" for page, count in words.items()) + f"{sum(words.values()):6} of {ALL:5} all", flush=True)
    print("".join(f"WRONG {fault}\n" for fault in faults) + f"{len(faults)} wrong in {len(words) + len(OTHERS)} pages")
    sys.exit(1 if faults else 0)


if __name__ == "__main__":
    main()
