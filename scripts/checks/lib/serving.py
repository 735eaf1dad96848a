"""What the scripts that try a server share: a program that is started, the lines that it prints, and a free port.

Nothing here waits for long where all goes well, and nothing gives up within minutes: a machine may be slow and busy.
"""
import random
import re
import signal
import socket
import subprocess
import threading

PATIENCE = 300  # seconds, after which a program is given up

# What stands before each line that `serve` writes on standard error while it serves.
MOMENT = re.compile(r'^\d{4}-\d\d-\d\dT\d\d:\d\d:\d\d\.\d{3}Z ')


def has_ipv6():
    """Whether this machine has the address ::1."""
    try:
        with socket.socket(socket.AF_INET6, socket.SOCK_STREAM) as sock:
            sock.bind(('::1', 0))
        return True
    except OSError:
        return False


def is_free(port):
    places = [(socket.AF_INET, '127.0.0.1')] + [(socket.AF_INET6, '::1')] * has_ipv6()
    for family, address in places:
        with socket.socket(family, socket.SOCK_STREAM) as sock:
            try:
                sock.bind((address, port))
            except OSError:
                return False
    return True


def free_port():
    """A port of four digits that nobody has. The system gives none of these away by itself."""
    for port in random.sample(range(5000, 10000), 1000):
        if is_free(port):
            return port
    raise AssertionError('no port from 5000 to 9999 is free')


def up_to_three_times(test):
    """Runs a test again where it fails, up to three times in all: on a busy machine a client may wait too long."""
    for left in reversed(range(3)):
        try:
            return test()
        except Exception as error:
            if left == 0:
                raise
            print(f'again, since {type(error).__name__}: {str(error)[:500]}', flush=True)


class Program:
    """A program that runs, and the lines that it has printed so far, on standard output and standard error."""

    def __init__(self, words, **how):
        self.words, self.lines, self.is_over = words, [], False
        self.changed = threading.Condition()
        # A shell that starts this behind `&` has the interrupt ignored, and a program that inherited that would never end by it.
        heeds = lambda: signal.signal(signal.SIGINT, signal.SIG_DFL)
        self.process = subprocess.Popen(words, stdin=subprocess.DEVNULL, stdout=subprocess.PIPE, stderr=subprocess.STDOUT, text=True, preexec_fn=heeds, **how)
        self.reader = threading.Thread(target=self.read, daemon=True)
        self.reader.start()

    def read(self):
        for line in self.process.stdout:
            with self.changed:
                self.lines.append(self.line_of(line.rstrip('\n')))
                self.changed.notify_all()
        with self.changed:
            self.is_over = True
            self.changed.notify_all()

    def line_of(self, line):
        return line

    def wait_for(self, is_there):
        """Waits until this is true of the lines. False where the program ended before."""
        with self.changed:
            if not self.changed.wait_for(lambda: self.is_over or is_there(self.lines), PATIENCE):
                raise AssertionError(f'{self.words} printed no more than {self.lines} in {PATIENCE} seconds')
            return is_there(self.lines)

    def wait_for_line(self, line):
        if not self.wait_for(lambda lines: line in lines):
            raise AssertionError(f'no line {line!r} in {self.lines}')

    def wait(self):
        """Waits until it has ended, and gives its exit status."""
        try:
            status = self.process.wait(PATIENCE)
        except subprocess.TimeoutExpired:
            self.end()
            raise AssertionError(f'{self.words} had not ended after {PATIENCE} seconds: {self.lines}') from None
        self.reader.join(PATIENCE)
        return status

    def end(self):
        self.process.kill()
        self.process.wait()
        self.reader.join(PATIENCE)


class Server(Program):
    """A server that listens on 127.0.0.1. Its lines have no moments."""

    def __init__(self, program, nodes, *options, words=None, **how):
        self.port = free_port()
        super().__init__(words(program, str(self.port)) if words else [program, 'serve', nodes, '--port', str(self.port), *options], **how)
        if not self.wait_for(lambda lines: f'listening {self.port}' in lines):
            raise AssertionError(f'{program} serves nothing: {self.lines}')

    def line_of(self, line):
        return MOMENT.sub('', line)

    def is_running(self):
        return self.process.poll() is None
