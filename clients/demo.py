#!/usr/bin/env python3
"""Shows a plant at work: a server, a simulator that feeds it, a historian, and a screen for a browser.

    clients/demo.py [PROGRAM] [--port N] [--page N]

PROGRAM is the server; crates/uaserver/out/uaserver, the proved one, where left out. What is recorded goes into a new folder below /tmp.
Ctrl-C ends all of them, and so does the end of the server or the screen.
"""
import argparse
import os
import shutil
import signal
import socket
import subprocess
import sys
import tempfile
import time

from ua.arguments import number

TOP = os.path.dirname(os.path.dirname(os.path.realpath(__file__)))
PROVED = os.path.join(TOP, 'crates', 'uaserver', 'out', 'uaserver')
BUILD = f'''there is no program {PROVED}. In two or three minutes one is built, without its proofs, by

    scripts/tools/build_unproved.py /tmp/uaserver

and then this shows it:

    clients/demo.py /tmp/uaserver'''


def is_there(port):
    try:
        socket.create_connection(('127.0.0.1', port), timeout=1).close()
        return True
    except OSError:
        return False


def stop(*_):
    raise KeyboardInterrupt


class Demo:
    """The programs that run, by what they are."""

    def __init__(self, arguments):
        self.program, self.port, self.page = arguments.program, arguments.port, arguments.page
        self.folder, self.running = tempfile.mkdtemp(prefix='plant.'), {}
        self.url = f'opc.tcp://127.0.0.1:{self.port}'
        self.database, self.stop_file = os.path.join(self.folder, 'history.db'), os.path.join(self.folder, 'stop')

    def start(self, name, *words, **how):
        """Starts a program in a session of its own, so that Ctrl-C in a terminal is this program's alone."""
        self.running[name] = subprocess.Popen(words, start_new_session=True, **how)
        return self.running[name]

    def client(self, name, *words, **how):
        return self.start(name, sys.executable, os.path.join(TOP, *words[0].split('/')), *words[1:], **how)

    def wait_for(self, name, port):
        while not is_there(port):
            if self.running[name].poll() is not None:
                raise ChildProcessError(f'the {name} ended')
            time.sleep(0.1)

    def run(self):
        nodes = os.path.join(TOP, 'examples', 'plant', 'plant.toml')
        server = self.start('server', self.program, 'serve', nodes, '--port', str(self.port), '--url', self.url, '--stop-file', self.stop_file, '--trace',
                            stdin=subprocess.DEVNULL, stdout=subprocess.PIPE, stderr=subprocess.DEVNULL)
        self.wait_for('server', self.port)
        # The server's rows go to the screen, so both run or none.
        self.client('screen', 'clients/screen.py', '--url', self.url, '--port', str(self.page), '--below', 'ns=1;s=Plant', '--trace', '-', stdin=server.stdout,
                    stdout=subprocess.DEVNULL)
        server.stdout.close()
        simulator = self.client('simulator', 'examples/plant/simulator.py', '--url', self.url, stdin=subprocess.DEVNULL, stdout=subprocess.PIPE)
        self.client('gateway', 'clients/gateway.py', '--to', self.url, stdin=simulator.stdout)
        simulator.stdout.close()
        self.client('historian', 'clients/historian.py', '--url', self.url, '--below', 'ns=1;s=Plant', '--to', self.database, stdin=subprocess.DEVNULL)
        self.wait_for('screen', self.page)
        print(f'the screen    http://127.0.0.1:{self.page}/\nthe server    {self.url}\nthe history   {self.database}\nCtrl-C ends all.', flush=True)
        while all(self.running[name].poll() is None for name in ('server', 'screen')):
            time.sleep(0.2)
        raise ChildProcessError(f"the {'screen' if server.poll() is None else 'server'} ended")

    def end(self):
        """Ends all: those that need the server first, and the server so that its clients are told."""
        for name in ('simulator', 'gateway', 'historian', 'server', 'screen'):
            process = self.running.get(name)
            if process is None or process.poll() is not None:
                continue
            if name == 'server':
                with open(self.stop_file, 'w', encoding='utf-8'):
                    pass
            else:
                process.send_signal(signal.SIGTERM)
            try:
                process.wait(10)
            except subprocess.TimeoutExpired:
                process.kill()
                process.wait()
        if os.path.exists(self.stop_file):
            os.remove(self.stop_file)
        if not os.path.exists(self.database):
            shutil.rmtree(self.folder)


def main():
    parser = argparse.ArgumentParser(description=__doc__.split('\n')[0])
    parser.add_argument('program', nargs='?', default=PROVED, metavar='PROGRAM', help='the server (the proved one)')
    parser.add_argument('--port', type=number(int, 1, 65535), default=4840, help="the server's port (%(default)s)")
    parser.add_argument('--page', type=number(int, 1, 65535), default=8080, help="the screen's port (%(default)s)")
    arguments = parser.parse_args()
    if not os.access(arguments.program, os.X_OK):
        print(BUILD if arguments.program == PROVED else f'there is no program {arguments.program}', file=sys.stderr)
        return 2
    for port in (arguments.port, arguments.page):
        if is_there(port):
            print(f'port {port} is taken: --port and --page name others', file=sys.stderr)
            return 2
    signal.signal(signal.SIGTERM, stop)
    signal.signal(signal.SIGINT, stop)
    demo = Demo(arguments)
    try:
        demo.run()
    except KeyboardInterrupt:
        return 0
    except (OSError, ChildProcessError) as problem:
        print(problem, file=sys.stderr)
        return 1
    finally:
        # A second Ctrl-C mustn't leave programs behind.
        signal.signal(signal.SIGINT, signal.SIG_IGN)
        demo.end()


if __name__ == '__main__':
    sys.exit(main())
