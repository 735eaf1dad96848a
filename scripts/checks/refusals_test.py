#!/usr/bin/env python3
"""Brings about each refusal of refusals.txt, and compares the exit status and standard error with what stands there.

usage: scripts/checks/refusals_test.py PROGRAM [--large]

PROGRAM is uaserver as scripts/tools/build_unproved.py builds it; `cc` is wanted. A case of refusals.txt ends at an empty line, and
has a folder of its own. Its lines are these, in their order; a line that begins with # is a comment:

- `given FILE TEXT`: the file has this text. `\\n` is the end of a line, `\\xff` that byte, and `<<N TEXT>>` the text N times.
- `sql FILE STATEMENT`: the statement is carried out on this SQLite file. `locked FILE`: another program has it open.
- `input FILE`, `output FILE`: standard input and output of what follows. Without these there is no input.
- `growths N`: what follows gets memory N times, and then none (refusals.c). `room N`: its files may have N bytes.
- `large`: the case has millions of nodes or references, and takes this program an hour. It is left out without --large, which
  wants one that scripts/lab/fast_program.py builds, or the proved one, and tries nothing else.
- `$ WORDS`: the program is run with these words, as a shell splits them. FREE is a port that nobody has, and TAKEN one that
  somebody has.
- `status N`: its exit status. Where it isn't 0, nothing may be on standard output.
- `| LINE`: a line of standard error; `..` stands for any lines, and TIME for any moment. `usage WORDS`: how that ends of a wrong
  command line.

It sees too that the table has what the pages name: each cause of a fault, each exit status, and each option of `serve` given twice.
Only faults are printed, and the exit status is 0 where there are none.
"""
import contextlib
import os
import re
import resource
import shlex
import signal
import socket
import sqlite3
import subprocess
import sys
import tempfile

from lib.refusals import TOP, compiled, environment
from lib.serving import MOMENT, PATIENCE, free_port
from readme_transcripts import is_like

TABLE = os.path.join(TOP, 'scripts', 'checks', 'refusals.txt')
ESCAPE = re.compile(rb'\\n|\\x([0-9a-f]{2})|<<(\d+) (.*?)>>')
NAMED = re.compile(r"(?:'(.*?)'|(\S+)) (.*)")
USAGE = ['', 'Usage: {}', '', "For more information, try '--help'."]
# The pages that have causes of faults, and what stands before such a cause where it is printed.
CAUSES = {'NODE_FILE': 'nodes:', 'SCENARIOS': 'scenario:', 'STORE': 'store'}
# A disk that is full takes one that store_test.py makes.
ELSEWHERE = {'store Full'}


def spelled(text):
    """The bytes of a text with escapes."""
    said = lambda it: it[3] * int(it[2]) if it[2] else bytes.fromhex(it[1].decode()) if it[1] else b'\n'
    return ESCAPE.sub(said, text.encode())


def limit_files(size):
    """Lets files have no more bytes. The signal that tells of it would end the program."""
    signal.signal(signal.SIGXFSZ, signal.SIG_IGN)
    resource.setrlimit(resource.RLIMIT_FSIZE, (size, size))


class Case:
    """A case in its folder."""

    def __init__(self, program, library, ports, folder):
        self.program, self.library, self.ports, self.folder = program, library, ports, folder
        self.how, self.databases, self.faults = {}, [], []
        self.ran, self.at, self.status, self.due = None, '', 0, []

    def path(self, name):
        return os.path.join(self.folder, name)

    def with_ports(self, text):
        return re.sub(r'\b(FREE|TAKEN)\b', lambda it: str(self.ports[it[0]]), text)

    def given(self, name, text):
        os.makedirs(os.path.dirname(self.path(name)), exist_ok=True)
        with open(self.path(name), 'wb') as file:
            file.write(spelled(text))

    def sql(self, name, statement):
        with contextlib.closing(sqlite3.connect(self.path(name))) as database, database:
            database.execute(statement)

    def locked(self, name):
        self.databases.append(sqlite3.connect(self.path(name), isolation_level=None))
        self.databases[-1].execute('BEGIN EXCLUSIVE')

    def run(self, line):
        words = [spelled(word) for word in shlex.split(self.with_ports(line))]
        how = {'cwd': self.folder, 'stdout': subprocess.PIPE, 'stderr': subprocess.PIPE, 'timeout': PATIENCE}
        if 'growths' in self.how:
            how['env'] = environment(self.library, refuse='growths', one=self.how['growths'], all=1)
        if 'room' in self.how:
            how['preexec_fn'] = lambda: limit_files(int(self.how['room']))
        with contextlib.ExitStack() as files:
            # A folder can be opened so too.
            how['stdin'] = os.open(self.path(self.how.get('input', os.devnull)), os.O_RDONLY)
            files.callback(os.close, how['stdin'])
            if 'output' in self.how:
                how['stdout'] = files.enter_context(open(self.path(self.how['output']), 'wb'))
            self.ran = subprocess.run([self.program, *words], **how)

    def judge(self):
        """Compares what was run last with what is due."""
        if self.ran is None:
            return
        status, is_out = self.ran.returncode, self.status != 0 and bool(self.ran.stdout)
        came = [MOMENT.sub('TIME ', line) for line in self.ran.stderr.decode(errors='backslashreplace').splitlines()]
        due = [self.with_ports(line) for line in self.due]
        if status != self.status or is_out or not is_like(due, came):
            said = [f'  - status {self.status}', *(f'  - {line}' for line in due), f'  + status {status}', *(f'  + {line}' for line in came)]
            self.faults.append('\n'.join([self.at, *said, *['  + and something on standard output'] * is_out]))
        self.ran = None

    def take(self, number, line):
        word, _, rest = line.partition(' ')
        if word == '|':
            self.due.append(spelled(rest).decode())
            return
        if word == 'usage':
            self.due += [it.format(rest) for it in USAGE]
            return
        if word == 'status':
            self.status = int(rest)
            return
        self.judge()
        if word == '$':
            self.at, self.status, self.due = f'refusals.txt:{number} {line}', 0, []
            self.run(rest)
        elif word in ('input', 'output', 'growths', 'room'):
            self.how[word] = rest
        elif word == 'locked':
            self.locked(rest)
        elif word in ('given', 'sql'):
            quoted, name, text = NAMED.fullmatch(rest).groups()
            (self.given if word == 'given' else self.sql)(quoted or name, text)
        elif line != 'large':
            raise AssertionError(f'refusals.txt:{number} {line}: there is no such line')


def cases():
    """The lines of each case, with their numbers."""
    found = [[]]
    with open(TABLE, encoding='utf-8') as file:
        for number, line in enumerate(file, 1):
            line = line.rstrip('\n')
            if not line:
                found.append([])
            elif not line.startswith('#'):
                found[-1].append((number, line))
    return [case for case in found if case]


def faults_of(case, program, library, ports):
    """What is wrong in a case."""
    with tempfile.TemporaryDirectory(prefix='refusals-') as folder:
        one = Case(program, library, ports, folder)
        try:
            for number, line in case:
                one.take(number, line)
            one.judge()
        finally:
            for database in one.databases:
                database.close()
        return one.faults


def rows(name, heading=''):
    """The cells of each row of a page's tables, behind this heading."""
    with open(os.path.join(TOP, 'docs', f'{name}.md'), encoding='utf-8') as file:
        text = file.read().split(heading)[-1] if heading else file.read()
    return [[cell.strip() for cell in line.strip('|').split('|')] for line in text.splitlines() if line.startswith('|')]


def missing(lines):
    """What the pages name and no case has."""
    told = {' '.join(line.split()[1:3]) for line in lines if line.startswith('| ')} | ELSEWHERE
    for name, front in CAUSES.items():
        for row in rows(name, '\n## Faults\n'):
            causes = re.findall(r'`([A-Z]\w+)`', row[1] if row[0].isdigit() else row[0])
            yield from (f'{front} {cause}' for cause in causes if f'{front} {cause}' not in told)
    for row in rows('USING'):
        if row[0].isdigit() and row[0] != '0' and f'status {row[0]}' not in lines:
            yield f'status {row[0]}'
        option = re.match('`(--[a-z-]+)', row[0])
        if option and not any(line.startswith('$ serve ') and line.split().count(option[1]) == 2 for line in lines):
            yield f'{option[1]} twice'


def main():
    if sys.argv[2:] not in ([], ['--large']) or len(sys.argv) < 2:
        sys.exit(__doc__)
    program, is_large, found = os.path.abspath(sys.argv[1]), len(sys.argv) == 3, cases()
    faults = [f'no case has {it}' for it in missing([line for case in found for _, line in case])]
    with tempfile.TemporaryDirectory(prefix='refusals-') as folder, socket.socket() as taken:
        library = compiled(folder)
        taken.bind(('127.0.0.1', 0))
        taken.listen()
        ports = {'FREE': free_port(), 'TAKEN': taken.getsockname()[1]}
        for case in found:
            if (case[0][1] == 'large') == is_large:
                faults += faults_of(case, program, library, ports)
    for fault in faults:
        print(f'WRONG {fault}')
    sys.exit(1 if faults else 0)


if __name__ == '__main__':
    main()
