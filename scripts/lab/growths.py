#!/usr/bin/env python3
"""How many growths of memory a request takes in `uaserver pipe`: docs/PERFORMANCE.md has the figures.

usage: scripts/lab/growths.py PROGRAM    a program that scripts/tools/build_unproved.py builds

A session with a subscription of two items asks for the same thing 100 times, and in another run 300 times. Told is what the 200
more took, each: with what it takes to read them from standard input, which is done by pieces of 4096 bytes.
"""
import os
import struct
import sys
import tempfile

TOP = os.path.dirname(os.path.dirname(os.path.dirname(os.path.realpath(__file__))))
sys.path.insert(0, f"{TOP}/scripts/checks")
from lib import refusals  # noqa: E402

NODES = os.path.join(refusals.STORED, "data", "line.toml")
FEW, MANY = 100, 300

# The frames of the program's stored run that are asked again here, by their places in it.
HELLO, OPEN, ENDPOINTS, CREATE, ACTIVATE, WRITE, READ = 0, 1, 2, 4, 6, 7, 8

# Where a request's fields begin in a frame of the stored session: behind the frame's head of 24 bytes, a type id of 4, and a
# header of 54 with the session's token.
HEAD, FIELDS = 24, 82

VALUE = struct.pack("<BBHI", 1, 1, 11, 13) + b"\xff\xff\xff\xff\0\0\xff\xff\xff\xff"
PARAMETERS = struct.pack("<Id", 1, 0) + b"\0\0\0" + struct.pack("<IB", 1, 1)
ITEM = VALUE + struct.pack("<I", 2) + PARAMETERS
# Of a subscription: lifetime, keep-alive, notifications, enabled, priority.
COUNTS = struct.pack("<IIIBB", 3000, 1000, 0, 1, 0)
ALL_OF_OBJECTS = struct.pack("<BBIBBBII", 0, 85, 0, 0, 0, 1, 0, 63)


def frames():
    with open(os.path.join(refusals.STORED, "stdin"), "rb") as file:
        stored = file.read()
    found = []
    while stored:
        size, = struct.unpack_from("<I", stored, 4)
        found.append(stored[:size])
        stored = stored[size:]
    return found


def asked(number, header, fields):
    return b"\x01\0" + struct.pack("<H", number) + header + fields


def conversation(stored, body, times):
    """What the session's client sends: what makes a subscription of two items, and then this body so many times."""
    header = stored[READ][HEAD + 4:FIELDS]
    made = [asked(787, header, struct.pack("<d", 1000) + COUNTS), asked(751, header, struct.pack("<III", 1, 3, 2) + ITEM * 2)]
    wire = [stored[HELLO], stored[OPEN]]
    for number, it in enumerate([stored[CREATE][HEAD:], stored[ACTIVATE][HEAD:]] + made + [body] * times, 2):
        wire.append(b"MSGF" + struct.pack("<IIIII", HEAD + len(it), 1, 1, number, number) + it)
    return b"".join(wire)


def bodies(stored):
    header = stored[READ][HEAD + 4:FIELDS]
    read = b"\x01\0\x77\x02" + header + struct.pack("<dI", 0, 3)
    return {
        "Read of one value": read + struct.pack("<I", 1) + VALUE,
        "Read of 100 values": read + struct.pack("<I", 100) + VALUE * 100,
        "Write of one value": stored[WRITE][HEAD:],
        "Browse of one node with four references": b"\x01\0\x0f\x02" + header + struct.pack("<HqIII", 0, 0, 0, 0, 1) + ALL_OF_OBJECTS,
        "GetEndpoints": stored[ENDPOINTS][HEAD:],
        "ActivateSession": stored[ACTIVATE][HEAD:],
        "CreateSession": stored[CREATE][HEAD:],
        "CreateSubscription": asked(787, header, struct.pack("<d", 1000) + COUNTS),
        "ModifySubscription": asked(793, header, struct.pack("<IdIIIB", 1, 1000, 3000, 1000, 0, 0)),
        "SetPublishingMode of one subscription": asked(799, header, struct.pack("<BII", 1, 1, 1)),
        "DeleteSubscriptions of one that isn't there": asked(847, header, struct.pack("<II", 1, 0)),
        "CreateMonitoredItems of one item": asked(751, header, struct.pack("<III", 1, 3, 1) + ITEM),
        "CreateMonitoredItems of 100 items that aren't there": asked(751, header, struct.pack("<III", 1, 3, 100) + (b"\x01\x01\0\0" + ITEM[4:]) * 100),
        "ModifyMonitoredItems of one item": asked(763, header, struct.pack("<IIII", 1, 3, 1, 1) + PARAMETERS),
        "SetMonitoringMode of one item": asked(769, header, struct.pack("<IIII", 1, 2, 1, 1)),
        "SetTriggering, one link taken away and made": asked(775, header, struct.pack("<IIIIII", 1, 1, 1, 2, 1, 2)),
        "DeleteMonitoredItems of one that isn't there": asked(781, header, struct.pack("<III", 1, 1, 0)),
    }


def main():
    if len(sys.argv) != 2 or sys.argv[1].startswith("-"):
        raise SystemExit(__doc__)
    program, stored = os.path.abspath(sys.argv[1]), frames()
    with tempfile.TemporaryDirectory(prefix="growths-") as folder:
        library = refusals.compiled(folder)
        refusals.leave_out_unless_fit(program, library)
        nodes = os.path.join(folder, "nodes.toml")
        with open(NODES) as file, open(nodes, "w") as more:
            more.write(file.read().replace("[server]\n", "[server]\nsessions = 1000\nsubscriptions = 1000\n", 1))
        for name, body in bodies(stored).items():
            calls = []
            for times in (FEW, MANY):
                ran = refusals.run(program, library, ["pipe", nodes], conversation(stored, body, times), refuse="growths", every=10 ** 9)
                calls.append(ran.calls)
                last = ran.output.rindex(b"MSGF")
                result, = struct.unpack_from("<I", ran.output, last + 40)
                if ran.status != 0 or result != 0:
                    raise SystemExit(f"{name}: status {ran.status}, and the last answer says {result:08x}")
            print(f"{name}: {(calls[1] - calls[0]) / (MANY - FEW):.1f} growths")


if __name__ == "__main__":
    main()
