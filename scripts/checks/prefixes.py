#!/usr/bin/env python3
"""Cuts conversations off, and sees that what a server sends then is how it begins to answer the whole.

usage: scripts/checks/prefixes.py PROGRAM

PROGRAM is the built program `uaserver`. The conversations are scenarios of crates/worked_examples/data on one connection
without a key and without time: their bytes are what `asm` prints, and come to `pipe` over standard input. Of each

- `pipe` sends to the whole of it what `run` says;
- it sends the same where each byte comes alone, written once the one before it was read, and what is out then is noted;
- where the input ends after a beginning it ends well, and has sent a beginning of that, as much as was noted. So it is tried
  with every seventh beginning: a run for each takes too long.

That nothing depends on where bytes are cut is proved (`server_core::laws::any_cut` and `any_recut`), as is that a pump hands
in what it reads, and puts out what answers it before it reads on (`stream_server::Pump::run`). Here it is seen of the
program, with the end of its input. The exit status is 0 where all is so. Nothing but Python's own library is needed.
"""
import array
import fcntl
import os
import subprocess
import sys
import termios
import time

TOP = os.path.dirname(os.path.dirname(os.path.dirname(os.path.realpath(__file__))))
DATA = os.path.join(TOP, "crates", "worked_examples", "data")
CONVERSATIONS = (
    ("base_set.toml", "endpoints_and_close.scenario"),
    ("base_set.toml", "renewed_token.scenario"),
    ("sample.toml", "aborted_write.scenario"),
)
STEP = 7
PIPE_SIZE = 65536
PATIENCE = 300  # seconds, after which a program is given up


class Wrong(Exception):
    """It isn't so."""


def ran(program, *words, given=b""):
    """What the program prints, which has to end well and say nothing else."""
    done = subprocess.run([program, *words], input=given, capture_output=True, cwd=DATA, timeout=PATIENCE)
    if done.returncode != 0 or done.stderr:
        raise Wrong(f"{' '.join(words)} ends with {done.returncode}: {done.stderr.decode(errors='replace')}")
    return done.stdout


def bytes_of(lines, word):
    """The bytes of all lines `WORD 1 HEX`, one behind the other."""
    found = [line.split(" ") for line in lines.decode().splitlines()]
    if not all(words[0] in ("open", "close", word) and words[1] == "1" for words in found):
        raise Wrong("there is more than bytes of one connection")
    return b"".join(bytes.fromhex(words[-1]) for words in found if words[0] == word)


def is_read(pipe, until):
    """Waits until all that was written to the program was read. Says whether it goes on."""
    left = array.array("i", [1])
    while pipe.poll() is None:
        fcntl.ioctl(pipe.stdin, termios.FIONREAD, left)
        if left[0] == 0:
            return True
        if time.monotonic() > until:
            raise Wrong("a byte isn't read")
        time.sleep(0.0002)
    return False


def byte_by_byte(program, nodes, given):
    """What `pipe` prints where a byte is written once the one before it was read, until the connection is closed. And how much
    of it is out as soon as so many bytes were read: at least what answers those before the last, and no more than answers all.
    """
    how = {"stdin": subprocess.PIPE, "stdout": subprocess.PIPE, "stderr": subprocess.PIPE, "cwd": DATA, "bufsize": 0}
    until = time.monotonic() + PATIENCE
    out, noted = b"", [0]
    with subprocess.Popen([program, "pipe", nodes], **how) as pipe:
        os.set_blocking(pipe.stdout.fileno(), False)
        for at in range(len(given)):
            try:
                pipe.stdin.write(given[at:at + 1])
            except BrokenPipeError:
                break
            if not is_read(pipe, until):
                break
            out += pipe.stdout.read(PIPE_SIZE) or b""
            noted.append(len(out))
        os.set_blocking(pipe.stdout.fileno(), True)
        rest, errors = pipe.communicate(timeout=PATIENCE)
    if pipe.returncode != 0 or errors:
        raise Wrong(f"byte by byte pipe ends with {pipe.returncode}: {errors.decode(errors='replace')}")
    out += rest
    return out, noted + [len(out)] * (len(given) + 1 - len(noted))


def tried(program, nodes, scenario):
    """Tries a conversation, and gives how many bytes it has, and how many are sent."""
    given = bytes_of(ran(program, "asm", scenario), "bytes")
    whole = bytes_of(ran(program, "run", nodes, scenario), "send")
    if ran(program, "pipe", nodes, given=given) != whole:
        raise Wrong("pipe sends something else than run")
    out, noted = byte_by_byte(program, nodes, given)
    if out != whole:
        raise Wrong("pipe sends something else where each byte comes alone")
    for size in range(0, len(given), STEP):
        sent = ran(program, "pipe", nodes, given=given[:size])
        if not (whole.startswith(sent) and noted[size] <= len(sent) <= noted[size + 1]):
            raise Wrong(f"to its first {size} bytes pipe sends {sent.hex()}")
    return len(given), len(whole)


def main():
    if len(sys.argv) != 2:
        raise SystemExit(__doc__)
    program = os.path.abspath(sys.argv[1])
    wrong = False
    for nodes, scenario in CONVERSATIONS:
        began = time.monotonic()
        try:
            size, sent = tried(program, nodes, scenario)
            print(f"ok {scenario}: {size} bytes, to which {sent} are sent, {time.monotonic() - began:.0f} seconds", flush=True)
        except Wrong as problem:
            wrong = True
            print(f"WRONG {scenario}: {problem}", flush=True)
    raise SystemExit(1 if wrong else 0)


main()
