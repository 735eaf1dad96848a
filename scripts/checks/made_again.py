#!/usr/bin/env python3
"""Refuses each growth of memory in the lines `again OBJECT` of library_examples in turn, and sees that they print what they print without.

usage: scripts/checks/made_again.py PROGRAM

PROGRAM is library_examples as scripts/tools/build_unproved.py builds it. Such a line makes calls on an object, each of them again where memory ran
out, so whichever growth is refused, it prints what stands in crates/library_examples/stdout: the object was as before, and the second call
gave what the first would have given; or `server` and `subscriptions` were out of memory for good. Where the growth was one of the
line's own, outside of the calls, nothing is printed, and the exit status is 1.
"""
import os
import sys
import tempfile
import time

from lib import refusals

EXAMPLES = os.path.join(refusals.TOP, "crates", "library_examples")
LINE = "$ again "


def due():
    """What each object's line prints."""
    with open(os.path.join(EXAMPLES, "stdout"), encoding="utf-8") as file:
        parts = file.read().split(LINE)[1:]
    found = {}
    for part in parts:
        name, _, rest = part.partition("\n")
        found[name] = rest.partition("$ ")[0].encode()
    return found


def main():
    if len(sys.argv) != 2:
        raise SystemExit(__doc__)
    program, started, refused, faults = os.path.abspath(sys.argv[1]), time.monotonic(), 0, []
    with tempfile.TemporaryDirectory(prefix="made-again-") as folder:
        library = refusals.compiled(folder)
        refusals.leave_out_unless_fit(program, library, "server_core::server::Server::step")
        for name, lines in due().items():
            swept = refusals.run(program, library, ["again", name], refuse="growths")
            if (swept.status, swept.output, swept.errors) != (0, lines, b""):
                faults.append(f"again {name} prints {swept.output[:300]}, and ends by {swept.status}: {swept.errors[:300]}")
            same = 0
            for it in swept.refused:
                ended = it.status, it.output, it.errors
                same += ended == (0, lines, b"")
                if ended not in ((0, lines, b""), (1 << 8, b"", b"")):
                    faults.append(f"again {name}, growth {it.call} of {swept.calls} ({it.size} bytes): {ended}")
            refused += len(swept.refused)
            print(f"again {name}: {len(swept.refused)} growths refused; {same} times its lines, {len(swept.refused) - same} times nothing")
    for fault in faults[:20]:
        print(f"FAULT {fault}")
    print(f"{refused} growths refused, {len(faults)} faults; {time.monotonic() - started:.0f} seconds")
    sys.exit(1 if faults else 0)


if __name__ == "__main__":
    main()
