#!/usr/bin/env python3
"""Sets each number of the configuration to its greatest, and uses it.

usage: scripts/checks/greatest_test.py PROGRAM [--greatest] [--times] [CASE..]

PROGRAM is the built program `uaserver`. No contract says that memory is there, so a body that answers `Memory` above a size is seen
by an example alone. The examples are the cases of greatest.txt, which says how its lines are read. Their sizes are those in CI, where
the program checks itself and is slow: above the thresholds that bodies were tried with, but far below 2^20 for texts and lists and below
65,536 for kept messages. With --greatest they are the greatest ones that a scenario can say in reasonable time (greatest.txt has them;
`history`, `kept` and real sockets stay below their bounds), for the proved program or that of scripts/lab/fast_program.py. --times
prints what each case takes.

What the program sends is compared byte by byte with what the lines say. Faults are printed, and nothing else; the exit status is 0
where there are none. Nothing but Python's own library is needed.
"""
import hashlib
import os
import re
import struct
import subprocess
import sys
import tempfile

CASES = os.path.join(os.path.dirname(os.path.realpath(__file__)), "greatest.txt")
PATIENCE = 1200  # seconds, after which a program is given up
SHOWN = 160  # so many characters of a difference are printed
FULL = (1 << 20) - 24, 65536 - 24  # the most bytes of a message in a chunk, and where a scenario's `hel` agreed on its size
REPEAT = re.compile(r"repeat (\S+) <([^<>]*)>")
EXPRESSION = re.compile(r"\{([a-z0-9_+*/()-]+)(?::(\w+))?\}")
# The numbers of the requests' encodings (IEC 62541-6, Annex A). An answer's number is three more.
REQUESTS = {
    "CreateSession": 461, "ActivateSession": 467, "Browse": 527, "BrowseNext": 533, "Read": 631, "HistoryRead": 664, "Write": 673,
    "CreateMonitoredItems": 751, "ModifyMonitoredItems": 763, "SetMonitoringMode": 769, "SetTriggering": 775, "DeleteMonitoredItems": 781,
    "CreateSubscription": 787, "SetPublishingMode": 799, "Publish": 826, "Republish": 832, "DeleteSubscriptions": 847, "fault": 394,
}
POLICY = "http://opcfoundation.org/UA/SecurityPolicy#None"
NO_TEXT = "ffffffff"


def number(value, width=4):
    """A number as hex, its lowest byte first."""
    return value.to_bytes(width, "little").hex()


def text(value):
    return number(len(value)) + value.encode().hex()


def of_namespace_1(value):
    """The id `ns=1;i=VALUE` in its shortest form."""
    return "0101" + number(value, 2) if value < 1 << 16 else "020100" + number(value)


def form(name):
    lists = {None: str, "id": of_namespace_1, "up_to": lambda value: number(value) + "".join(map(number, range(1, value + 1)))}
    return lists.get(name) or (lambda value: number(value, int(name)))


def function(rule, sizes):
    return eval("lambda n: " + rule.replace("/", "//"), dict(sizes))


def written_out(line, sizes):
    """The line with the values of its expressions, and with what it repeats."""
    def valued(match):
        # One with the counter waits for its `repeat`.
        return match[0] if re.search(r"\bn\b", match[1]) else form(match[2])(function(match[1], sizes)(None))

    def repeated(match):
        count, piece = int(match[1]), match[2].replace(" ;; ", "\n")
        parts = EXPRESSION.split(piece)
        if len(parts) == 1:
            return piece * count
        columns = [map(form(name), map(function(rule, sizes), range(count))) for rule, name in zip(parts[1::3], parts[2::3])]
        return "".join(map("%s".join(parts[::3]).__mod__, zip(*columns)))

    line = EXPRESSION.sub(valued, line)
    # From the inside: a text that is repeated may repeat another one.
    while REPEAT.search(line):
        line = REPEAT.sub(repeated, line)
    return line


def hex_of(words):
    """What hex digits and quoted texts say, one behind the other."""
    return re.sub(r'"([^"]*)"', lambda match: text(match[1]), words).replace(" ", "")


class Client:
    """What a client of a connection counts. `session` is the one that its requests name."""

    def __init__(self, connection, channel):
        self.connection, self.channel = connection, channel
        self.sequence, self.request, self.session, self.chunk = 0, 0, 0, FULL[0]

    def header(self):
        token = f"05000014000000{'00' * 16}{number(self.session)}" if self.session else "0000"
        return token + "00" * 8 + number(self.request) + "00000000ffffffff00000000000000"

    def ask(self, name, fields):
        """The chunks of a request, as hex."""
        self.request += 1
        body, out = f"0100{number(REQUESTS[name], 2)}{self.header()}{fields}", []
        for at in range(0, len(body), 2 * self.chunk):
            piece = body[at:at + 2 * self.chunk]
            self.sequence += 1
            letter = "46" if at + len(piece) == len(body) else "43"
            out.append(f"4d5347{letter}{struct.pack('<IIIII', 24 + len(piece) // 2, self.channel, 1, self.sequence, self.request).hex()}{piece}")
        return "".join(out)

    def greeting(self, largest):
        """A Hello that asks for the greatest sizes and for answers of at most so many bytes, 0 for any, and an opening."""
        self.sequence, self.request = 1, 1
        hello = number(0) + number(1 << 20) * 2 + number(largest) + number(0) + NO_TEXT
        opening = f"{number(0)}{text(POLICY)}{NO_TEXT * 2}{number(1)}{number(1)}0100be01{self.header()}{number(0)}{number(0)}{number(1)}{NO_TEXT}{number(1)}"
        return "".join(letters.encode().hex() + number(8 + len(rest) // 2) + rest for letters, rest in (("HELF", hello), ("OPNF", opening)))


class Talk:
    """A case's lines: what happens, as lines of a scenario, and what has to come of it."""

    def __init__(self):
        self.clock, self.channels, self.nonces = 0, 0, 0
        self.client, self.bytes, self.happens, self.due = None, [], [], []

    def flush(self):
        if self.bytes:
            self.happens.append(f"raw {self.client.connection} {''.join(self.bytes)}")
            self.bytes = []

    def header(self, handle, status="00000000"):
        return f"{number(self.clock, 8)}{number(handle)}{status}00{NO_TEXT}000000"

    def answer(self, connection, handle, name, fields, status="00000000"):
        self.due.append(f"message {connection} 0100{number(REQUESTS[name] + 3, 2)}{self.header(int(handle), status)}{fields}")

    def greeted(self, connection, size):
        self.due.append(f"send {connection} 41434b461c00000000000000{number(size) * 2}{number(1 << 24)}{number(65535)}")

    def opened(self, connection):
        self.channels += 1
        front = f"4f504e4687000000{number(self.channels)}{text(POLICY)}{NO_TEXT * 2}{number(1)}{number(1)}"
        body = f"0100c101{self.header(1)}{number(0)}{number(self.channels)}{number(1)}{number(self.clock, 8)}{number(4294967295)}{NO_TEXT}"
        self.due.append(f"send {connection} {front}{body}")

    def nonce(self):
        self.nonces += 1
        return number(32) + hashlib.sha256(bytes(32) + self.nonces.to_bytes(8, "little")).hexdigest()

    def made(self, connection, handle, session):
        """The answer to a CreateSession, with the one endpoint."""
        url, profile = text("opc.tcp://localhost:4840"), text("http://opcfoundation.org/UA-Profile/Transport/uatcp-uasc-uabinary")
        server = f"{text('urn:uaserver')}{NO_TEXT}02{text('uaserver')}{number(0)}{NO_TEXT * 2}{number(1)}{url}"
        endpoint = f"{url}{server}{NO_TEXT}{number(1)}{text(POLICY)}{number(1)}{text('anonymous')}{number(0)}{NO_TEXT * 3}{profile}00"
        front = f"{of_namespace_1(session)}05000014000000{'00' * 16}{number(session)}00000000004ced40{self.nonce()}{NO_TEXT}"
        self.answer(connection, handle, "CreateSession", f"{front}{number(1)}{endpoint}{NO_TEXT * 3}{number(1 << 24)}")

    def activated(self, connection, handle):
        self.answer(connection, handle, "ActivateSession", f"{self.nonce()}{number(0)}{NO_TEXT}")

    def take(self, line):
        client, (verb, _, rest) = self.client, line.partition(" ")
        if verb == "connect":
            self.flush()
            connection, largest = map(int, rest.split())
            self.client = Client(connection, self.channels + 1)
            self.bytes.append(self.client.greeting(largest))
            self.greeted(connection, 1 << 20)
            self.opened(connection)
        elif verb == "make":
            # Nothing is told of the client.
            self.bytes.append(client.ask("CreateSession", f"{NO_TEXT * 2}00{number(1)}{NO_TEXT * 8}{'00' * 12}"))
            self.made(client.connection, client.request, int(rest))
        elif verb == "activate":
            # The user is anonymous without a body.
            client.session = int(rest)
            self.bytes.append(client.ask("ActivateSession", f"{NO_TEXT * 4}000000{NO_TEXT * 2}"))
            self.activated(client.connection, client.request)
        elif verb == "chunk":
            client.chunk = int(rest)
        elif verb == "ask":
            name, _, fields = rest.partition(" ")
            self.bytes.append(client.ask(name, hex_of(fields)))
        elif verb == "answer":
            connection, handle, name, fields = rest.split(" ", 3)
            self.answer(connection, handle, name, hex_of(fields))
        elif verb == "fault":
            connection, handle, status = rest.split(" ")
            self.answer(connection, handle, verb, "", status)
        elif verb == "due":
            self.due.append(rest)
        else:
            self.happen(rest if verb == "scenario" else line)

    def happen(self, line):
        """A line of a scenario. Of those that greet it is known what is due."""
        self.flush()
        verb, word = (line + "  ").split(" ", 2)[:2]
        self.happens.append(line + f" {'00' * 32}" * (verb == "open"))
        if verb == "tick":
            self.clock = int(word)
        elif verb == "hel":
            self.greeted(word, 65536)
        elif verb == "opn":
            self.opened(word)
        elif verb == "session":
            self.made(word, 2, 1)
        elif verb == "activate":
            self.activated(word, 3)


def lines_of_pipe(data):
    """The frames that `pipe` sends, as `run` tells them."""
    while data:
        size = struct.unpack_from("<I", data, 4)[0]
        yield f"send 1 {data[:size].hex()}"
        data = data[size:]


def messages(lines):
    """`message C HEX` for each message that came in chunks, and the other lines. Chunks but the last are full, and all are counted."""
    found, parts, numbers = [], {}, {}
    for line in lines:
        verb, connection, data = (line + " ").split(" ", 2)
        if verb != "send" or not data.startswith("4d5347"):
            found.append(line)
            continue
        data = data.rstrip()
        numbers[connection] = numbers.get(connection, 1) + 1
        parts.setdefault(connection, []).append(data[48:])
        is_last = data[6:8] == "46"
        if data[32:40] != number(numbers[connection]) or not (is_last or len(data) // 2 - 24 in FULL):
            found.append(f"of connection {connection} chunk {numbers[connection]} is {data[:48]} with {len(data) // 2} bytes")
        if is_last:
            found.append(f"message {connection} {''.join(parts.pop(connection))}")
    return found


def came(program, by, folder, nodes, happens):
    """What the program sends, and how it ends where that isn't well."""
    paths = [os.path.join(folder, name) for name in ("nodes.toml", "happens.scenario")]
    for path, lines in zip(paths, (nodes, happens)):
        with open(path, "w", encoding="utf-8") as file:
            file.write("\n".join(lines) + "\n")
    given = bytes.fromhex("".join(line.split(" ")[2] for line in happens if line.startswith("raw "))) if by == "pipe" else b""
    words = ["pipe", paths[0]] if by == "pipe" else ["run", *paths]
    ran = subprocess.run([program, *words], input=given, capture_output=True, timeout=PATIENCE)
    lines = lines_of_pipe(memoryview(ran.stdout)) if by == "pipe" else ran.stdout.decode().splitlines()
    return messages(lines), f"; ends with {ran.returncode}: {ran.stderr.decode(errors='replace').strip()[:SHOWN]}" if ran.returncode else ""


def difference(due, found):
    """The first of two lists of lines that differ, or nothing."""
    for place, (one, other) in enumerate(zip(due, found)):
        if one != other:
            begin = max(0, len(os.path.commonprefix([one, other])) - SHOWN // 2)
            return f"answer {place + 1}, from character {begin} on: due {one[begin:begin + SHOWN]!r} of {len(one)}, came {other[begin:begin + SHOWN]!r} of {len(other)}"
    return "" if len(due) == len(found) else f"{len(found)} answers, and {len(due)} are due"


def read_cases(greatest):
    """The sizes, the lines that all node files end with, and each case: its name, how it is run, its nodes and its talk."""
    with open(CASES, encoding="utf-8") as file:
        lines = re.sub(r"\n {4,}", " ", re.sub(r"^#.*\n", "", file.read(), flags=re.M))
    front, *cases = lines.split("\ncase ")
    sizes = {name: int(values[greatest]) for name, *values in re.findall(r"^size (\w+) (\d+) (\d+)$", front, flags=re.M)}
    parted = (re.fullmatch(r"(\w+) (\w+)\n(.*?)talk\n(.*)", case, flags=re.S).groups() for case in cases)
    return sizes, front.split("\ncommon\n")[1], parted


def fault(program, by, sizes, nodes, lines):
    """What is wrong in a case, or nothing."""
    talk = Talk()
    for line in filter(None, "\n".join(written_out(line, sizes) for line in lines.splitlines()).split("\n")):
        talk.take(line)
    talk.flush()
    with tempfile.TemporaryDirectory() as folder:
        found, end = came(program, by, folder, [written_out(line, sizes) for line in nodes.splitlines()], talk.happens)
    return difference(talk.due, found) + end


def main():
    options = {word for word in sys.argv[1:] if word.startswith("--")}
    names = [word for word in sys.argv[1:] if not word.startswith("--")]
    if not names or not options <= {"--greatest", "--times"}:
        raise SystemExit(__doc__)
    program, wrong = os.path.abspath(names[0]), False
    sizes, common, cases = read_cases("--greatest" in options)
    for name, by, nodes, lines in cases:
        if names[1:] and name not in names[1:]:
            continue
        began, found = sum(os.times()[:4]), fault(program, by, sizes, nodes + common, lines)
        if found:
            wrong = True
            print(f"WRONG {name}: {found}", flush=True)
        if "--times" in options:
            print(f"{name}: {sum(os.times()[:4]) - began:.1f} processor seconds", flush=True)
    raise SystemExit(1 if wrong else 0)


main()
