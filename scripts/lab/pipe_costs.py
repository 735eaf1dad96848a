#!/usr/bin/env python3
"""GetEndpoints over `uaserver pipe` beside the same by hand in plain Rust (scripts/lab/pipe_by_hand.rs): docs/PERFORMANCE.md has the
figures.

usage: scripts/lab/pipe_costs.py PROGRAM [REQUESTS]    a program that was built with its proofs; 200,000 requests where left out

Both answer the same conversation, byte for byte, which is seen first. Then they run by turns, eleven times each; told is the
least time of a request, on the clock and in user time.
"""
import os
import resource
import subprocess
import struct
import sys
import tempfile
import time

ROUNDS = 11
TOP = os.path.dirname(os.path.dirname(os.path.dirname(os.path.realpath(__file__))))


def conversation(requests):
    """The Hello and OPN of the program's stored run, GetEndpoints so often, and a CLO."""
    with open(f"{TOP}/crates/uaserver/stdin", "rb") as file:
        stored = file.read()
    frames = []
    while stored:
        size = struct.unpack_from("<I", stored, 4)[0]
        frames.append(stored[:size])
        stored = stored[size:]
    hello, opening, endpoints = frames[:3]
    body = endpoints[24:]
    wire = [hello, opening]
    for number in range(2, requests + 2):
        wire.append(b"MSGF" + struct.pack("<IIIII", len(endpoints), 1, 1, number, number) + body)
    wire.append(b"CLOF" + struct.pack("<IIIII", 24, 1, 1, requests + 2, requests + 2))
    return b"".join(wire)


def run(words, folder):
    """The seconds of one run, on the clock and in user time."""
    before = resource.getrusage(resource.RUSAGE_CHILDREN).ru_utime
    start = time.perf_counter()
    with open(f"{folder}/conversation", "rb") as given, open(f"{folder}/answers", "wb") as answers:
        subprocess.run(words, stdin=given, stdout=answers, check=True)
    clock = time.perf_counter() - start
    return clock, resource.getrusage(resource.RUSAGE_CHILDREN).ru_utime - before


def main():
    if len(sys.argv) not in (2, 3):
        sys.exit(__doc__)
    requests = int(sys.argv[2]) if len(sys.argv) == 3 else 200000
    with tempfile.TemporaryDirectory() as folder:
        by_hand = f"{folder}/by_hand"
        subprocess.run(["rustc", "--edition", "2021", "-O", f"{TOP}/scripts/lab/pipe_by_hand.rs", "-o", by_hand], check=True)
        with open(f"{folder}/conversation", "wb") as file:
            file.write(conversation(requests))
        programs = {"uaserver pipe": [os.path.abspath(sys.argv[1]), "pipe"], "by hand": [by_hand]}
        answers = {}
        for name, words in programs.items():
            run(words, folder)
            with open(f"{folder}/answers", "rb") as file:
                answers[name] = file.read()
        if len(set(answers.values())) != 1:
            sys.exit("the two answer different bytes")
        times = {name: [] for name in programs}
        for _ in range(ROUNDS):
            for name, words in programs.items():
                times[name].append(run(words, folder))
        for name, rounds in times.items():
            clock, user = (min(r[i] for r in rounds) / requests * 1e6 for i in (0, 1))
            print(f"{name}: {clock:.2f} us a request, {user:.2f} in user time", flush=True)


if __name__ == "__main__":
    main()
