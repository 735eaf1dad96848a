#!/usr/bin/env python3
"""Refuses each growth of memory of the program in turn, and sees that it ends as want of memory, with nothing of the refused step out.

usage: scripts/checks/refuse_growths.py PROGRAM [--only NAME] [--jobs N] [--every N | --all] [--list]

PROGRAM is uaserver as scripts/tools/build_unproved.py builds it. These run, each with each of its growths refused (refusals.c says how): `run` over every
scenario of the worked examples with each node file that a line names beside it; `trace` and `asm` where a line has them; `check` of
their node files; and `pipe` over the bytes of the conversations and of the stored run. NAME is a part of the words of those that are
wanted, and N how many run at once, else as many as there are processors. A program that a kit builds without the functions that
refusals.c takes over or counts is left out, and this is said.

Each refused growth has to end with the status 5, `memory` on standard error, and on standard output whole lines (`pipe`: whole frames) from the
beginning of what the whole run prints: all growths of one step leave the same, which is what came before that step, and `pipe` has written it
before. Some growths needn't be had, and each such place stands in SPARED with its reason: there the run may go on to its usual end, and has to end
as above where all growths behind the refused one are refused too. What a node file takes is refused once. Of a run with very many growths
every so manyth is refused, and this is said; --all refuses all, and --every N of each run one in N at the most. One of each run is refused once more, in a process that starts anew. --list says of each run how many were refused.
"""
import argparse
import collections
import concurrent.futures
import functools
import os
import re
import resource
import sys
import tempfile
import time

from lib import refusals
from lib.refusals import DATA

# Where a step begins: of a scenario, and of a conversation of bytes, where the server's step follows the read.
STEP, TURN = "server_core::server::Server::step", "stream_server::Pump::turn"
MEMORY = (5 << 8, b"memory\n")

# What goes on from a refusal takes time for all that is there by then. So of runs with very many growths every so manyth is refused, by what they run on.
EVERY = {"most_events.scenario": 10007, "many_at_once.scenario": 71, "ladder.toml": 3}

# Functions of std that need no room: `collect` asks for the room that an iterator hints at, and where it is refused for room for one element; and
# room that is too much is given back, or kept where that is refused.
HINTED, SHRUNK = "std_alloc::vec::Vec::grow_by_hint", "std_alloc::vec::Vec::shrink_to_fit"
# Where a refused growth need not end the run: by which of these it was asked for, if by one, the function of ours, and the reason. Each has to be met.
SPARED = {
    (HINTED, "scenario_text::scenario::lines_of"): "the lines of a scenario are collected, and std asks again for less room than was hinted at",
    (HINTED, "scenario_text::elements::element_texts"): "the elements of a list in a scenario are collected, likewise",
    (HINTED, "ua_space::node_table::NodeTable::new"): "the table of nodes is collected, likewise",
    (HINTED, "uaserver::main"): "the words of the command line are collected, likewise",
    (SHRUNK, "ua_subscriptions::messages::data_message"): "a message that is kept gives back the room that it doesn't need",
    ("", "ua_item_queue::queue::give_back"): "a ring with more places than its values need stays as it is where a smaller one is refused",
    ("", "stream_server::joined_in"): "sends that can't be joined for one write are written one by one",
}


def is_ours(name):
    return os.path.isdir(os.path.join(refusals.TOP, "crates", name.split("::")[0]))


def bare(name):
    """The name of a function without what it is made for."""
    return re.sub(r"::<.*", "", name)


def place_of(names, refused):
    """The function of ours that asked for the growth, and the one of std that needs no room, if it asked by that."""
    called = [bare(it) for it in names.of(refused.places)]
    ours = next((at for at, it in enumerate(called) if is_ours(it)), len(called))
    return next((it for it in called[:ours] if it in (HINTED, SHRUNK)), ""), "".join(called[ours:ours + 1])


class Run:
    """A run of the program, by its words, with what it reads on standard input, and from where on it is swept."""

    def __init__(self, words, stdin=b"", name="", **begin):
        self.words, self.stdin, self.name, self.begin = words, stdin, name or " ".join(words), begin

    def is_of_bytes(self):
        return self.words[0] == "pipe"

    def mark(self):
        return TURN if self.is_of_bytes() else STEP


def wanted(program):
    """All runs. What comes of a node file is swept once: by `check`, or by the first `run` of it."""
    pairs, found, read = refusals.runs(), [], set()
    is_there = lambda name: os.path.isfile(os.path.join(DATA, name))
    for _, words in refusals.lines():
        if words[0] == "check" and len(words) == 2 and is_there(words[1]):
            found.append(Run(words))
            read.add(words[1])
        elif words[0] == "asm" and len(words) == 2 and is_there(words[1]):
            found.append(Run(words))
        elif words[0] == "trace" and words[1:] in pairs:
            found.append(Run(words, after_opened=2))
    for nodes, scenario in pairs:
        found.append(Run(["run", nodes, scenario], **({"after_opened": 2} if nodes in read else {})))
        read.add(nodes)
    for nodes, stdin, name in refusals.conversations(program):
        found.append(Run(["pipe", nodes], stdin, name, **({"after_marks": 1} if nodes in read else {})))
    return found


class Judge:
    """What a sweep of one run has to show."""

    def __init__(self, run, swept, names, every):
        self.run, self.swept, self.names, self.every = run, swept, names, every
        self.by_step, self.again, self.faults, self.ended = {}, [], [], 0
        self.spared = collections.Counter()

    def fault(self, refused, what):
        called = [it for it in map(bare, self.names.of(refused.places)) if is_ours(it)]
        self.faults.append(f"{self.run.name}: growth {refused.call} of {self.swept.calls} ({refused.size} bytes, step {refused.steps}): {what}; asked for by {' < '.join(called[:5])}")

    def due(self, refused):
        return self.swept.output[:refused.before] + refused.output

    def is_memory(self, refused):
        return (refused.status, refused.errors) == MEMORY

    def is_whole(self, refused):
        return (refused.status, refused.errors, self.due(refused)) == (self.swept.status << 8, self.swept.errors, self.swept.output)

    def is_prefix(self, refused):
        out = self.due(refused)
        if not self.swept.output.startswith(out):
            return False
        return refusals.whole_frames(out) == len(out) if self.run.is_of_bytes() else out == b"" or out.endswith(b"\n")

    def judge(self, refused):
        place = place_of(self.names, refused)
        if not self.is_memory(refused):
            if not self.is_whole(refused):
                return self.fault(refused, f"status {refused.status}, {refused.errors[-300:]}, {len(self.due(refused))} of {len(self.swept.output)} bytes are out")
            if place not in SPARED:
                return self.fault(refused, f"it isn't answered, and {place} isn't among those that needn't be had")
            self.spared[place] += 1
            self.again.append(refused)
            return None
        if not self.is_prefix(refused):
            return self.fault(refused, f"what is out is no beginning of what the whole run prints: {self.due(refused)[-200:]}")
        if self.run.is_of_bytes() and refused.output:
            return self.fault(refused, f"{len(refused.output)} bytes are written after it")
        if refused.steps == 0 and self.due(refused) and self.run.words[0] != "asm":
            return self.fault(refused, "something is out before the first step")
        out = len(self.due(refused))
        least = max((it for step, it in self.by_step.items() if step < refused.steps), default=0)
        if self.run.words[0] != "asm" and self.by_step.setdefault(refused.steps, out) != out or out < least:
            return self.fault(refused, f"{out} bytes are out, and {self.by_step.get(refused.steps)} at an earlier growth of the step")
        self.ended += 1
        return None

    def judge_all(self):
        for refused in self.swept.refused:
            self.judge(refused)

    def judge_all_refused(self, refused):
        """Of a growth that needn't be had, with all growths behind it refused too. Where it is the last of its step, that comes to its end."""
        out, is_last = len(self.due(refused)), place_of(self.names, refused)[0] != HINTED
        due = self.by_step.get(refused.steps, out)
        if self.is_memory(refused) and self.is_prefix(refused) and (out == due or is_last and out > due):
            return
        if not (is_last and self.is_whole(refused)):
            self.fault(refused, f"with all behind it refused: status {refused.status}, {refused.errors[-300:]}, {out} bytes are out")


def anew(program, library, run, judge):
    """Refuses one of the growths in a process that starts anew, and sees the same."""
    chosen = judge.swept.refused
    chosen = chosen[len(chosen) // 2:][:1]
    for refused in chosen:
        one = refusals.run(program, library, run.words, run.stdin, refuse="growths", one=refused.call)
        if (one.status << 8, one.errors, one.output) != (refused.status, refused.errors, judge.due(refused)):
            judge.fault(refused, f"a process that starts anew ends otherwise: {one}")
    return len(chosen)


def swept(program, library, names, least, lists, run):
    """Sweeps a run, one growth in `least` of it, or in more where it has very many, and gives what was seen. With 0 all are refused."""
    every = max(least, *(EVERY.get(it, 1) for it in run.words)) if least else 1
    found = refusals.run(program, library, run.words, run.stdin, refuse="growths", mark=run.mark(), every=every, **run.begin)
    judge = Judge(run, found, names, every)
    judge.judge_all()
    if judge.again:
        calls_again = ",".join(str(it.call) for it in judge.again)
        again = refusals.run(program, library, run.words, run.stdin, refuse="growths", mark=run.mark(), calls=calls_again, all=1, **run.begin)
        if [it.call for it in again.refused] != [it.call for it in judge.again]:
            judge.faults.append(f"{run.name}: of the growths {calls_again} {len(again.refused)} were refused with all behind them")
        for refused in again.refused:
            judge.judge_all_refused(refused)
    judge.anew = anew(program, library, run, judge)
    if lists:
        print(f"{len(found.refused)} of {found.calls} growths refused: {run.name}", flush=True)
    return judge


def main():
    parser = argparse.ArgumentParser(description=__doc__, formatter_class=argparse.RawDescriptionHelpFormatter)
    parser.add_argument("program")
    parser.add_argument("--only", default="")
    parser.add_argument("--jobs", type=int, default=len(os.sched_getaffinity(0)))
    parser.add_argument("--every", type=int, default=1)
    parser.add_argument("--all", action="store_const", const=0, dest="every")
    parser.add_argument("--list", action="store_true")
    asked = parser.parse_args()
    program, started = os.path.abspath(asked.program), time.monotonic()
    names = refusals.Names(program)
    runs = [it for it in wanted(program) if asked.only in it.name]
    with tempfile.TemporaryDirectory(prefix="want-of-memory-") as folder, concurrent.futures.ThreadPoolExecutor(asked.jobs) as pool:
        library = refusals.compiled(folder)
        refusals.leave_out_unless_fit(program, library, STEP, TURN)
        judges = list(pool.map(functools.partial(swept, program, library, names, asked.every, asked.list), runs))
    told(judges, asked.only != "" or asked.every > 1, started)


def told(judges, is_part, started):
    spared = sum((it.spared for it in judges), collections.Counter())
    refused = sum(len(it.swept.refused) for it in judges)
    for judge in judges:
        if judge.every > 1:
            print(f"of the {judge.swept.calls} growths of {judge.run.name} one in {judge.every} is refused")
    for place, count in sorted(spared.items()):
        print(f"{count} weren't needed in {place[1]}: {SPARED[place]}")
    faults = [it for judge in judges for it in judge.faults]
    for fault in faults[:20]:
        print(f"FAULT {fault}")
    if not is_part:
        for place in SPARED:
            if place not in spared:
                faults.append(place)
                print(f"FAULT no growth in {place} was spared")
    used = resource.getrusage(resource.RUSAGE_CHILDREN)
    print(f"{refused} growths refused in {len(judges)} runs: {sum(it.ended for it in judges)} ended as want of memory, {sum(spared.values())} weren't needed, {len(faults)} faults")
    print(f"{sum(it.anew for it in judges)} of them once more, each in a process of its own; {time.monotonic() - started:.0f} seconds, {(used.ru_utime + used.ru_stime) / 60:.1f} processor minutes")
    sys.exit(1 if faults else 0)


if __name__ == "__main__":
    main()
