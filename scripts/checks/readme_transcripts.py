#!/usr/bin/env python3
"""Runs the commands that pages show, and compares what comes with what the pages say.

    python3 scripts/checks/readme_transcripts.py PROGRAM [PAGE..]

PROGRAM is the built program `uaserver`; the pages are README.md and docs/USING.md where none is named. A transcript is a
block between lines of ``` whose first line begins with `$ `. Each such line is a command, and the lines behind it are what it
prints, on standard output and standard error.

- `rt try --`, `out/uaserver` and `/tmp/uaserver` are PROGRAM. Nothing is built: what else `rt` does, and `try_program`, isn't
  run.
- A command runs where the last `cd` of the page led, at first the top of the repository; one of `scripts/` runs at the top.
- `serve` runs to the end of the page, and may print more lines than the page shows. A `watch` of the client runs beside what
  follows, and is compared when it has ended.
- A line `..` stands for any lines. Each time of day is as good as any other, and each port that a client comes from.
- Port 4840 is another one here, which is free, also as the URL of the node file and as that of the client; and /tmp/ is a
  folder of this run's own.

A page that isn't true is run again, up to three times in all: on a busy machine a client may wait too long for its answer.
It sees too that the examples of crates/uaserver/data are those that `worked_examples` runs in the gate, where they are
called example_NAME.scenario, and that the files of `library_examples` are its too. The exit status is 0 where all is true. Nothing but Python's own library is needed.
"""
import filecmp
import glob
import os
import re
import sys
import tempfile

from lib.serving import Program, free_port

TOP = os.path.dirname(os.path.dirname(os.path.dirname(os.path.abspath(__file__))))
TIMES = 3
TIME = re.compile(r'20\d\d-\d\d-\d\dT\d\d:\d\d:\d\d\.\d+Z')
CLIENT = re.compile(r'from (127\.0\.0\.1|\[::1\]):\d+')


def transcripts(page):
    """The commands of a page, each with the number of its line and the lines that it should print."""
    found, inside, is_transcript = [], False, False
    with open(page, encoding='utf-8') as file:
        for number, line in enumerate(file, 1):
            line = line.rstrip('\n')
            if line.startswith('```'):
                inside, is_transcript = not inside, False
            elif inside and line.startswith('$ '):
                is_transcript = True
                found.append((number, line[2:], []))
            elif is_transcript:
                found[-1][2].append(line)
    return found


def is_like(wanted, came):
    """Whether these lines came, where `..` stands for any."""
    if not wanted:
        return not came
    if wanted[0] == '..':
        return any(is_like(wanted[1:], came[at:]) for at in range(len(came) + 1))
    return bool(came) and wanted[0] == came[0] and is_like(wanted[1:], came[1:])


class Page:
    """A page whose commands run once, in their order."""

    def __init__(self, page, program, scratch):
        self.page, self.program, self.scratch, self.port = page, program, scratch, free_port()
        self.folder, self.faults, self.servers, self.watching = TOP, 0, [], None

    def compare(self, number, command, wanted, came):
        came = [re.sub(rf'(localhost:|listening |port ){self.port}\b', r'\g<1>4840', line) for line in came]
        came, wanted = ([CLIENT.sub('from CLIENT', TIME.sub('TIME', line.rstrip())) for line in lines] for lines in (came, wanted))
        if is_like(wanted, came):
            print(f'ok {self.page}:{number} {command}', flush=True)
            return
        self.faults += 1
        print(f'WRONG {self.page}:{number} {command}')
        print(''.join(f'  - {line}\n' for line in wanted) + ''.join(f'  + {line}\n' for line in came), end='', flush=True)

    def nodes(self, path):
        """A copy of a node file whose URL has the port of this run."""
        with open(os.path.join(self.folder, path), encoding='utf-8') as file:
            text = file.read()
        copy = os.path.join(self.scratch, os.path.basename(path))
        with open(copy, 'w', encoding='utf-8') as file:
            file.write(text.replace('opc.tcp://localhost:4840', f'opc.tcp://localhost:{self.port}'))
        return copy

    def start(self, command):
        folder = TOP if re.match(r'(python3 )?scripts/', command) else self.folder
        words = command.replace('/tmp/', f'{self.scratch}/').replace('--port 4840', f'--port {self.port}')
        words = words.replace('scripts/tools/ua_client.py', f'scripts/tools/ua_client.py --url opc.tcp://localhost:{self.port}')
        words = words.replace('rt try --', self.program).replace('out/uaserver', self.program)
        if ' serve ' in command:
            # The server is to be the process that is ended, and not a child of it.
            words = 'exec ' + re.sub(r'\S+\.toml', lambda path: self.nodes(path[0]), words)
        return Program(['bash', '-c', words], cwd=folder)

    def end_watch(self):
        if self.watching:
            process, number, command, wanted = self.watching
            self.watching = None
            process.wait()
            self.compare(number, command, wanted, process.lines)

    def serve(self, number, command, wanted):
        server = self.start(command)
        self.servers.append((server, number, command, wanted))
        if not server.wait_for(lambda lines: f'listening {self.port}' in lines):
            raise AssertionError(f'{self.page}:{number} {command}: nobody listens: {server.lines}')

    def watch(self, number, command, wanted):
        self.end_watch()
        self.watching = self.start(command), number, command, wanted
        # The value that stands comes behind the lines of the subscription, before anything that the next commands change.
        self.watching[0].wait_for(lambda lines: any(not line.startswith(('subscription ', 'item ')) for line in lines))

    def run(self, number, command, wanted):
        if command.startswith('cd '):
            self.folder = os.path.join(self.folder, command[3:].strip())
        elif re.match(r'rt (?!try --)|scripts/tools/build_unproved.py ', command):
            print(f'not run {self.page}:{number} {command}')
        elif ' serve ' in command:
            self.serve(number, command, wanted)
        elif ' watch ' in command:
            self.watch(number, command, wanted)
        else:
            process = self.start(command)
            process.wait()
            self.compare(number, command, wanted, process.lines)

    def run_all(self):
        try:
            for number, command, wanted in transcripts(os.path.join(TOP, self.page)):
                self.run(number, command, wanted)
            self.end_watch()
        finally:
            for running, *_ in [*self.servers, *[self.watching] * bool(self.watching)]:
                running.end()
        for server, number, command, wanted in self.servers:
            self.compare(number, command, [*wanted, '..'], server.lines)
        return self.faults


def faults_of(page, program):
    """How many transcripts of a page are wrong, each time that it was run."""
    for left in reversed(range(TIMES)):
        with tempfile.TemporaryDirectory() as scratch:
            os.symlink(program, os.path.join(scratch, 'uaserver'))
            try:
                faults = Page(page, program, scratch).run_all()
            except AssertionError as error:
                print(f'WRONG {error}')
                faults = 1
        if faults == 0 or left == 0:
            return faults
        print(f'{faults} wrong in {page}, which is run again', flush=True)


def examples_apart():
    """How many files of data differ from their copy, or have none."""
    worked = os.path.join(TOP, 'crates/worked_examples/data')
    copies = [(it, os.path.join(worked, 'example_' + os.path.basename(it))) for it in glob.glob(os.path.join(TOP, 'crates/uaserver/data/*.scenario'))]
    copies += [(os.path.join(worked, os.path.basename(it)), it) for it in glob.glob(os.path.join(TOP, 'crates/library_examples/data/*.*'))]
    faults = 0
    for first, copy in sorted(copies):
        if not os.path.isfile(copy) or not filecmp.cmp(first, copy, shallow=False):
            print(f'WRONG {copy} is no copy of {first}')
            faults += 1
    return faults


def main():
    if len(sys.argv) < 2:
        sys.exit(__doc__)
    program = os.path.abspath(sys.argv[1])
    pages = sys.argv[2:] or ['README.md', 'docs/USING.md']
    faults = examples_apart() + sum(faults_of(page, program) for page in pages)
    print(f'{faults} wrong')
    sys.exit(1 if faults else 0)


if __name__ == '__main__':
    main()
