#!/usr/bin/env python3
"""Fails each read and each write of the program in turn, and sees what is out and how it ends.

usage: scripts/checks/failing_streams.py PROGRAM [--only NAME] [--jobs N]

PROGRAM is uaserver as scripts/tools/build_unproved.py builds it (refusals.c says how calls are refused). `pipe` runs over the bytes of the
conversations of the worked examples and of the stored run, once as they are, and once with reads of at most 64 bytes and writes of at most
97; `run` over the conversations' scenarios, and `trace` where a line has it, with such writes. NAME is a part of the words of those
that are wanted, and N how many run at once, else as many as there are processors. It tries, at each call:

- a read of standard input fails: the status is 7, with `stream` on standard error, and out is what was due to the bytes before;
- a read of a file fails: the status is 3, with `file PATH`, and nothing is out;
- a write to standard output fails, or takes nothing: the status is 7, with `stream`, and out is what was written before;
- a read or a write is interrupted: it is made again, and the run is the usual one.

Then each write takes one byte, and the run is the usual one. And `serve`: the reads of one socket, or the writes to it, fail from each
call on, while a second client gets all its answers.
"""
import argparse
import concurrent.futures
import functools
import os
import resource
import subprocess
import sys
import tempfile
import time

from lib import refusals
from lib.refusals import DATA
from lib.serving import Server
from sockets_test import HELLO, close, connect, get_endpoints, of_channel, opening, piped, served_once, without_times

STREAM = (7 << 8, b"stream\n")
NODES = os.path.join(refusals.STORED, "data", "line.toml")
KINDS = ("reads", "writes", "empty_writes", "interruptions")
PIECES = {"most_read": 64, "most_write": 97}

# A hundred thousand events, of which hardly anything is printed.
LONG = "most_events.scenario"

# A conversation of a client whose socket fails: each of these is answered by one frame, and the last by the end.
REQUESTS = 3
ACKNOWLEDGE = 28  # the length of the answer to a Hello


def runs(program):
    """What is run: its name, its words, what it reads on standard input, and the settings."""
    for nodes, stdin, name in refusals.conversations(program):
        yield name, ["pipe", nodes], stdin, {}
        yield f"{name} in pieces", ["pipe", nodes], stdin, PIECES
    pairs = refusals.runs()
    for file, words in refusals.lines():
        if words[1:] in pairs and words[2] != LONG and (words[0] == "trace" or (file == "conversations" and words[0] == "run")):
            yield " ".join(words), words, b"", {"most_write": PIECES["most_write"]}


def fault_of(kind, words, swept, refused):
    """What is wrong with how a refused call ended, or nothing."""
    out = swept.output[:refused.before] + refused.output
    ended = (refused.status, refused.errors)
    if kind == "interruptions":
        usual = (swept.status << 8, swept.errors, swept.output)
        return "" if (*ended, out) == usual else f"ends by {ended} with {len(out)} of {len(swept.output)} bytes"
    if kind == "reads" and refused.file > 0:
        due = (3 << 8, f"file {words[min(refused.opened, len(words) - 1)]}\n".encode())
        return "" if (*ended, out) == (*due, b"") else f"a file's: ends by {ended} with {len(out)} bytes out, where {due} is due"
    if ended != STREAM:
        return f"ends by {ended}"
    if refused.output:
        return f"{len(refused.output)} bytes are written after it"
    if kind == "reads" and refusals.whole_frames(out) != len(out):
        return f"{len(out)} bytes are out, which are no whole frames"
    return ""


def sweep(program, library, run):
    name, words, stdin, how = run
    plain = subprocess.run([program, *words], cwd=DATA, input=stdin, capture_output=True, timeout=refusals.PATIENCE)
    usual = (plain.returncode, plain.stdout, plain.stderr)
    counts, faults = {}, []
    for kind in KINDS:
        swept = refusals.run(program, library, words, stdin, refuse=kind, **how)
        if (swept.status, swept.output, swept.errors) != usual:
            faults.append(f"{name}, {kind}: the sweep's own run ends otherwise: {swept.status} {swept.errors[-300:]}")
        counts[kind] = len(swept.refused)
        for refused in swept.refused:
            what = fault_of(kind, words, swept, refused)
            if what:
                faults.append(f"{name}, {kind}, call {refused.call} of {swept.calls}, of descriptor {refused.file}, {refused.before} bytes before: {what}")
    single = refusals.run(program, library, words, stdin, **{**how, "most_write": 1})
    if (single.status, single.output, single.errors) != usual:
        faults.append(f"{name}: where each write takes one byte, it ends otherwise: {single.status} {single.errors[-300:]}")
    return name, counts, faults


def asked(channel):
    """What a client sends, part by part: each is answered by a frame, and the last by the end of the connection."""
    parts = [HELLO, opening(), *(get_endpoints(channel, 2 + it) for it in range(REQUESTS)), close(channel, 2 + REQUESTS)]
    return parts


def channel_of(got):
    """The number of the channel, as the answer to the opening has it, or 1 where there is none."""
    opened = got[refusals.whole_frames(got[:ACKNOWLEDGE]):]
    return int.from_bytes(opened[8:12], "little") if len(opened) > 12 else 1


def answers(sock):
    """What a client gets that sends a part once the one before is answered, until its connection ends."""
    got = b""
    try:
        for place in range(len(asked(1))):
            sock.sendall(asked(channel_of(got))[place])
            count = refusals.whole_frames(got)
            while refusals.whole_frames(got) == count:
                more = sock.recv(65536)
                if not more:
                    return got
                got += more
    except ConnectionError:
        pass
    return got


def serves_the_other(program, library, due, kind, call):
    """Fails the calls of the first socket from this one on, sees that the others get all their answers, and says whether it came to that call."""
    server = Server(program, NODES, env=refusals.environment(library, refuse=kind, socket=1, call=call))
    try:
        first = connect(server.port)
        server.wait_for_line("connection 1 from {}:{}".format(*first.getsockname()))
        second = connect(server.port)
        server.wait_for_line("connection 2 from {}:{}".format(*second.getsockname()))
        got = answers(first)
        first.close()
        assert due.startswith(without_times(got)), (kind, call, got)
        heard = answers(second)
        if without_times(heard) != of_channel(due, channel_of(heard)):
            raise AssertionError(f"{kind} from call {call} on: the second client got {len(heard)} bytes of {len(due)}: {server.lines}")
        second.close()
        served_once(program, NODES, server.port)
        assert server.is_running(), server.lines
        return without_times(got) != due
    finally:
        server.end()


def sockets(program, library):
    """How many calls of one socket were failed."""
    due, count = without_times(piped(program, NODES, b"".join(asked(1)))), 0
    for kind in ("reads", "writes"):
        call = 0
        while serves_the_other(program, library, due, kind, call):
            call += 1
        assert call > REQUESTS, (kind, call)
        count += call
    return count


def main():
    parser = argparse.ArgumentParser(description=__doc__, formatter_class=argparse.RawDescriptionHelpFormatter)
    parser.add_argument("program")
    parser.add_argument("--only", default="")
    parser.add_argument("--jobs", type=int, default=len(os.sched_getaffinity(0)))
    said = parser.parse_args()
    program, started = os.path.abspath(said.program), time.monotonic()
    wanted = [it for it in runs(program) if said.only in it[0]]
    with tempfile.TemporaryDirectory(prefix="failing-streams-") as folder, concurrent.futures.ThreadPoolExecutor(said.jobs) as pool:
        library = refusals.compiled(folder)
        seen = list(pool.map(functools.partial(sweep, program, library), wanted))
        of_sockets = sockets(program, library) if said.only in "serve" else 0
    faults = [it for _, _, faults in seen for it in faults]
    for fault in faults[:20]:
        print(f"FAULT {fault}")
    counts = {kind: sum(it[1][kind] for it in seen) for kind in KINDS}
    used = resource.getrusage(resource.RUSAGE_CHILDREN)
    print(f"{counts['reads']} reads and {counts['writes']} writes failed, {counts['empty_writes']} writes took nothing, {counts['interruptions']} calls were interrupted, "
          f"in {len(seen)} runs, each of which was run with writes of one byte too; {of_sockets} calls of one socket failed beside two that were served; {len(faults)} faults; {time.monotonic() - started:.0f} seconds, {(used.ru_utime + used.ru_stime) / 60:.1f} processor minutes")
    sys.exit(1 if faults else 0)


if __name__ == "__main__":
    main()
