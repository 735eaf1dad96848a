#!/usr/bin/env python3
"""How long the gate takes for each crate: run it beside `rt ci` or `rt must-fail`, from the top of the repository.

Twice a second it looks which checks the gate is running, and how much processor time each has taken. When no gate is
running any more, or at an interrupt, it prints a row for each crate of crates.txt: the
seconds of its proofs, of its tests, and of its wrong bodies with the proof that goes before them, and how many these
are. A place is empty where a check still ran at the end, or where fewer checks were seen than there are wrong bodies:
start it right after the gate. A check that somebody ends by hand is not told from one that ended by itself.

Then it prints the twenty functions and lemmas that took longest in the proofs and the tests, by the clock: a check
writes a file for each module that it has checked, in a folder below /tmp whose name has its number, and what lies
between two files is the time of the later one. That is right where a check has one processor.
"""
import os
import re
import signal
import sys
import time

TICKS = os.sysconf("SC_CLK_TCK")


def gates():
    """The processes of the gates that are running."""
    found = set()
    for process in filter(str.isdigit, os.listdir("/proc")):
        try:
            with open(f"/proc/{process}/cmdline") as file:
                if re.search(r"/rt\0(ci|must-fail)\0", file.read()):
                    found.add(process)
        except OSError:
            continue
    return found


def started_by(process, gates):
    """Whether one of these gates started this process, or what started it."""
    while process not in gates:
        try:
            with open(f"/proc/{process}/stat") as file:
                process = file.read().rpartition(")")[2].split()[1]
        except OSError:
            return False
        if process == "0":
            return False
    return True


def checks(gates):
    """The running checks of these gates, each by its process: the crate, what is checked, and the processor seconds so far."""
    for process in filter(str.isdigit, os.listdir("/proc")):
        try:
            with open(f"/proc/{process}/cmdline") as file:
                words = file.read().split("\0")
            with open(f"/proc/{process}/stat") as file:
                numbers = file.read().rpartition(")")[2].split()
            folder = os.readlink(f"/proc/{process}/cwd")
        except OSError:
            continue
        if os.path.basename(words[0]) != "rattle" or "--crate-name" not in words:
            continue
        if not started_by(process, gates):
            continue
        crate = words[words.index("--crate-name") + 1]
        kind = "edits" if "/rt-edit-" in folder else "tests" if "--test" in words else "proofs"
        # A copy of a check has its own time; what it hands on to its parent would count twice.
        yield (process, numbers[19]), (crate, kind, sum(map(int, numbers[11:13])) / TICKS)


def modules(seen):
    """The modules that the running checks have checked: the check, the module's name, and when its file was written."""
    for folder in os.listdir("/tmp"):
        found = re.fullmatch(r"rattle-logic-built-locked-(\d+)-\d+", folder)
        if not found or found[1] not in seen:
            continue
        try:
            with os.scandir(f"/tmp/{folder}") as files:
                for file in files:
                    if file.name.endswith(".oantt"):
                        yield (found[1], file.name), file.stat(follow_symlinks=False).st_mtime
        except OSError:
            continue


def dearest(written, checks):
    """The seconds of each function and lemma: its crate, its name, and whether it is one of the tests."""
    by_check = {}
    for (process, name), moment in written.items():
        by_check.setdefault(process, []).append((moment, name))
    seconds = {}
    for process, files in by_check.items():
        crate, kind, _ = checks[process]
        own = [it for it in sorted(files) if it[1].startswith(f"Rattle-{crate}-proofs.")]
        for (before, _), (moment, name) in zip(own, own[1:]):
            *places, last = name.removeprefix(f"Rattle-{crate}-proofs.").removesuffix(".oantt").split(".")
            function = (crate, ".".join(places or [last]), kind)
            seconds[function] = seconds.get(function, 0) + moment - before
    return sorted(((it, function) for function, it in seconds.items()), reverse=True)


def main():
    with open("crates.txt") as file:
        crates = re.findall(r"^(\w+):", file.read(), re.M)
    seen, written = {}, {}
    # A shell that starts this behind an `&` may have it ignore interrupts.
    signal.signal(signal.SIGINT, signal.default_int_handler)
    try:
        while running := gates():
            seen.update(checks(running))
            written.update(modules({process for (process, _), (_, kind, _) in seen.items() if kind != "edits"}))
            time.sleep(0.5)
    except KeyboardInterrupt:
        pass
    unfinished = {(crate, kind) for _, (crate, kind, _) in checks(gates())}
    times = {}
    for crate, kind, seconds in seen.values():
        times.setdefault((crate, kind), []).append(seconds)
    for crate in crates:
        folder = f"crates/{crate}/must-fail"
        edits = sum(it.endswith(".edit") for it in os.listdir(folder)) if os.path.isdir(folder) else 0
        row = []
        for kind in ("proofs", "tests", "edits"):
            each = times.get((crate, kind), [])
            is_whole = each and (crate, kind) not in unfinished and (kind != "edits" or len(each) >= edits)
            row.append(f"{sum(each):,.0f}" if is_whole else "")
        print(f"| `{crate}` | {' | '.join(row)} | {edits or ''} |")
    for kind in ("proofs", "tests", "edits"):
        total = sum(seconds for _, its, seconds in seen.values() if its == kind)
        print(f"{kind}: {total:,.0f}")
    for seconds, (crate, function, kind) in dearest(written, {process: it for (process, _), it in seen.items()})[:20]:
        print(f"{seconds:.0f} {crate} {function}{' (test)' if kind == 'tests' else ''}")
    return 0


if __name__ == "__main__":
    sys.exit(main())
