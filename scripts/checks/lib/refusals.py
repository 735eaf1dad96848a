"""What the sweeps share: a program that is run once, with each of its calls of a kind refused in turn (refusals.c).

The program is one that scripts/tools/build_unproved.py builds, since that has its functions' names.
"""
import bisect
import collections
import os
import struct
import subprocess
import sys
import tempfile

FOLDER = os.path.dirname(os.path.realpath(__file__))
TOP = os.path.dirname(os.path.dirname(os.path.dirname(FOLDER)))
DATA = os.path.join(TOP, "crates", "worked_examples", "data")
STORED = os.path.join(TOP, "crates", "uaserver")
SCENARIOS = ".scenario"
# The lines of worked_examples whose NODES and SCENARIO a server is handed.
WITH_NODES = {"answers", "rows", "trace", "run", "last"}

PATIENCE = 3600  # seconds for a whole sweep
LIMIT = 600  # seconds for what goes on from one refusal
# Leaks aren't looked for, and nothing is kept for long that is only there to tell where memory was given back.
SANITIZER = "detect_leaks=0:malloc_context_size=0:quarantine_size_mb=1"

# What became of one refused call: the number of the call, what was asked for, at which descriptor, how many files were opened and how
# many steps had begun before, how much was on standard output then, how the process ended, and what it wrote after that.
Refused = collections.namedtuple("Refused", "call size file opened steps before status output errors places")
Swept = collections.namedtuple("Swept", "status output errors calls refused")


class Failed(Exception):
    """A sweep saw something that must not be."""


def environment(library, **how):
    """What a program is started with, so that these settings of refusals.c hold."""
    settings = {name.upper(): str(value) for name, value in how.items()}
    return {**os.environ, "ASAN_OPTIONS": SANITIZER, "LD_PRELOAD": library, "LIMIT": str(LIMIT), **settings}


def compiled(folder):
    """The library to be preloaded, in this folder."""
    library = os.path.join(folder, "refusals.so")
    words = ["cc", "-O1", "-fno-omit-frame-pointer", "-Wall", "-shared", "-fPIC", "-o", library, os.path.join(FOLDER, "refusals.c"), "-ldl"]
    subprocess.run(words, check=True, timeout=PATIENCE)
    return library


def leave_out_unless_fit(program, library, *marks):
    """Ends well, and says why, where this program's growths can't be refused: a kit may build it without the functions that are taken over or counted."""
    for mark in marks:
        probe = run(program, library, ["check", "base_set.toml"], refuse="growths", one=10 ** 15, mark=mark)
        if probe.status == 99:
            print(f"{program} is left out: {probe.errors.decode(errors='replace').strip()}", file=sys.stderr)
            sys.exit(0)


class Names:
    """The functions of a program, by their places."""

    def __init__(self, program):
        with open(program, "rb") as file:
            all_of_it = file.read()
        if all_of_it[:6] != b"\x7fELF\x02\x01":
            raise Failed(f"{program} is no program of 64 bits")
        at, = struct.unpack_from("<Q", all_of_it, 40)
        size, count = struct.unpack_from("<HH", all_of_it, 58)
        sections = [struct.unpack_from("<IIQQQQIIQQ", all_of_it, at + size * it) for it in range(count)]
        found = []
        for section in sections:
            if section[1] != 2:  # SHT_SYMTAB
                continue
            texts = sections[section[6]][4]
            for name, info, _, _, value, _ in struct.iter_unpack("<IBBHQQ", all_of_it[section[4]:section[4] + section[5]]):
                if info & 15 == 2:  # STT_FUNC
                    end = all_of_it.index(b"\0", texts + name)
                    found.append((value, all_of_it[texts + name:end].decode(errors="replace")))
        found.sort()
        self.places, self.names = [it[0] for it in found], [it[1] for it in found]

    def of(self, places):
        """The functions of the program that these return addresses stand in."""
        return [self.names[bisect.bisect_left(self.places, it) - 1] for it in places if self.places and self.places[0] < it < self.places[-1]]


def records(report):
    at, calls, found = 0, None, []
    while at < len(report):
        end = report.index(b"\n", at)
        words, at = report[at:end].split(), end + 1
        if words[0] == b"calls":
            calls = int(words[1])
            continue
        *numbers, written, said = map(int, words[:9])
        output, errors = report[at:at + written], report[at + written:at + written + said]
        at += written + said
        found.append(Refused(*numbers, output, errors, [int(it, 16) for it in words[9].split(b",")]))
    return calls, sorted(found)


def run(program, library, words, stdin=b"", **how):
    """Runs the program with these settings of refusals.c, in the folder of the examples."""
    with tempfile.TemporaryDirectory(prefix="refusals-") as folder:
        report = os.path.join(folder, "report")
        reports = "refuse" in how and "one" not in how
        env = environment(library, **how, **({"report": report} if reports else {}))
        with open(os.path.join(folder, "in"), "w+b") as into, open(os.path.join(folder, "out"), "w+b") as out, open(os.path.join(folder, "err"), "w+b") as err:
            into.write(stdin)
            into.seek(0)
            status = subprocess.run([program, *words], cwd=DATA, stdin=into, stdout=out, stderr=err, env=env, timeout=PATIENCE).returncode
            out.seek(0)
            err.seek(0)
            output, errors = out.read(), err.read()
        if not reports:
            return Swept(status, output, errors, None, [])
        with open(report, "rb") as file:
            calls, found = records(file.read())
        if status == 99 or calls is None:
            raise Failed(f"{' '.join(words)} doesn't come to its end: status {status}, {errors.decode(errors='replace')[-1000:]}")
        return Swept(status, output, errors, calls, found)


def lines():
    """The lines of the worked examples that run something over a server or a file, as lists of words."""
    for name in ("examples", "conversations", "plant_cases"):
        with open(os.path.join(DATA, name), encoding="utf-8") as file:
            for line in file:
                yield name, line.split()


def asm(program, scenario):
    """The bytes of each connection in a scenario: none where something is wrong with it."""
    said = subprocess.run([program, "asm", scenario], cwd=DATA, capture_output=True, text=True, timeout=PATIENCE)
    found = {}
    for event in map(str.split, said.stdout.splitlines()):
        if event[0] == "bytes":
            found[event[1]] = found.get(event[1], b"") + bytes.fromhex(event[2])
    return found


def whole_frames(data):
    """How long the whole frames at the beginning are."""
    at = 0
    while at + 8 <= len(data) and at + int.from_bytes(data[at + 4:at + 8], "little") <= len(data):
        at += int.from_bytes(data[at + 4:at + 8], "little")
    return at


def runs():
    """Each scenario with each node file that a line names beside it, in the order of the lines."""
    found = []
    for _, words in lines():
        if len(words) == 3 and words[0] in WITH_NODES and words[2].endswith(SCENARIOS):
            if words[1:] not in found and all(os.path.isfile(os.path.join(DATA, it)) for it in words[1:]):
                found.append(words[1:])
    return found


def conversations(program):
    """Conversations of bytes, each with its node file and its name: those of the worked examples, and the stored one."""
    for file, words in lines():
        if file == "conversations" and words[0] == "run" and words[1:] in runs():
            for connection, stdin in asm(program, words[2]).items():
                yield words[1], stdin, f"pipe {words[1]} < connection {connection} of {words[2]}"
    with open(os.path.join(STORED, "stdin"), "rb") as file:
        yield os.path.join(STORED, "data", "line.toml"), file.read(), "pipe line.toml < the stored run"
