#!/usr/bin/env python3
"""Tries the clients with what Debian has: a broker of MQTT, PostgreSQL, Wireshark's dissector, and a browser.

    /usr/bin/python3 scripts/checks/with_debian.py PROGRAM [--install] [--only NAME]..

PROGRAM is the built program. With --install the packages are installed first (`apt-get install`, as root). It has to be Debian's own
Python, which finds Debian's paho and psycopg2. Broker and database are of this run's own, on free ports of 127.0.0.1. CI doesn't run it.

    mqtt         the gateway takes messages from mosquitto, also once the broker was away
    postgresql   historian_test.py, for 20 seconds, with PostgreSQL, which is killed and begun anew meanwhile
    wireshark    tshark finds nothing malformed in what ua_client.py, gateway and historian send and get
    browser      Chromium shows values on the screen's page, at two sizes, in the light and in the dark
"""
import argparse
import contextlib
import os
import shutil
import signal
import subprocess
import sys
import tempfile
import threading
import time

from lib.proxy import Proxy, write_plant
from lib.serving import PATIENCE, Program, Server, free_port

HERE = os.path.dirname(os.path.realpath(__file__))
TOP = os.path.join(HERE, '..', '..')
sys.path[:0] = [os.path.join(TOP, 'clients'), os.path.join(TOP, 'scripts', 'tools')]
from to_pcap import Capture, Connection  # noqa: E402
from ua import NodeId, Session  # noqa: E402

PACKAGES = ['mosquitto', 'mosquitto-clients', 'python3-paho-mqtt', 'postgresql', 'python3-psycopg2', 'tshark', 'chromium']
CLIENTS = {name: [sys.executable, os.path.join(TOP, place)] for name, place in
           (('ua_client', 'scripts/tools/ua_client.py'), ('gateway', 'clients/gateway.py'), ('historian', 'clients/historian.py'), ('screen', 'clients/screen.py'))}


@contextlib.contextmanager
def running(program):
    try:
        yield program
    finally:
        program.end()


def run(words, **how):
    ran = subprocess.run(words, stdout=subprocess.PIPE, stderr=subprocess.STDOUT, text=True, timeout=PATIENCE, **how)
    assert ran.returncode == 0, f'{words}: {ran.stdout}'
    return ran.stdout


def wait_for(is_there, what):
    until = time.monotonic() + 120
    while not is_there():
        assert time.monotonic() < until, what()
        time.sleep(0.1)


def values(url, *nodes):
    with Session(url) as session:
        return [value.value for value in session.read([NodeId.of_text(node) for node in nodes])]


def mqtt(program, folder):
    port, config = free_port(), os.path.join(folder, 'mosquitto.conf')
    with open(config, 'w', encoding='utf-8') as file:
        file.write(f'listener {port} 127.0.0.1\nallow_anonymous true\n')
    topics = os.path.join(folder, 'topics.csv')
    with open(topics, 'w', encoding='utf-8') as file:
        file.write('plant/tank 1/level,ns=1;i=103\nplant/list,ns=1;i=50\n')
    broker = lambda: Program(['mosquitto', '-c', config])
    send = lambda topic, text: run(['mosquitto_pub', '-p', str(port), '-q', '1', '-t', topic, '-m', text])
    with running(Server(program, write_plant(os.path.join(folder, 'plant.toml'), 10))) as server:
        url = f'opc.tcp://127.0.0.1:{server.port}'
        first = broker()
        with running(Program([*CLIENTS['gateway'], '--to', url, '--from', f'mqtt://127.0.0.1:{port}/plant/#', '--map', topics])) as gateway:
            try:
                assert gateway.wait_for(lambda lines: any('subscribed' in line for line in lines)), gateway.lines
                for topic, text in (('plant/any', 'ns=1;i=101,7'), ('plant/any', '{"id": "ns=1;i=102", "value": 8}'), ('plant/tank 1/level', '9'),
                                    ('plant/list', '[3, 4]'), ('plant/any', 'nonsense')):
                    send(topic, text)
                wait_for(lambda: values(url, 'ns=1;i=101', 'ns=1;i=102', 'ns=1;i=103', 'ns=1;i=50') == [7, 8, 9, [3, 4]], lambda: gateway.lines)
            finally:
                first.end()
            with running(broker()):
                assert gateway.wait_for(lambda lines: sum('subscribed' in line for line in lines) == 2), gateway.lines
                send('plant/tank 1/level', '{"value": 10, "status": "Uncertain"}')
                wait_for(lambda: values(url, 'ns=1;i=103') == [10], lambda: gateway.lines)
                gateway.process.send_signal(signal.SIGTERM)
                assert gateway.wait() == 1 and 'refused nonsense: no ID,VALUE[,TIME[,STATUS]]' in gateway.lines, gateway.lines
                return gateway.lines[-1]


def postgresql(program, folder):
    programs = sorted(os.listdir('/usr/lib/postgresql'))[-1]
    tool = lambda name, *words: [*(['runuser', '-u', 'postgres', '--'] if os.getuid() == 0 else []), f'/usr/lib/postgresql/{programs}/bin/{name}', *words]
    data, port = tempfile.mkdtemp(dir='/var/tmp'), free_port()
    if os.getuid() == 0:
        shutil.chown(data, 'postgres', 'postgres')
    try:
        run(tool('initdb', '-D', f'{data}/db', '-A', 'trust', '-U', 'keyorchid'), cwd='/')
        control = lambda *words: run(tool('pg_ctl', '-D', f'{data}/db', '-w', '-l', f'{data}/log', *words), cwd='/', stdin=subprocess.DEVNULL)
        options = ['-o', f'-p {port} -c listen_addresses=127.0.0.1 -k {data}']
        control(*options, 'start')
        again = threading.Timer(15, lambda: control(*options, '-m', 'immediate', 'restart'))
        again.start()
        try:
            said = run([sys.executable, os.path.join(HERE, 'historian_test.py'), program, '20', '1', f'postgresql://keyorchid@127.0.0.1:{port}/postgres'])
            return '; '.join(said.splitlines()[1:])
        finally:
            again.join()
            control('-m', 'immediate', 'stop')
    finally:
        shutil.rmtree(data, ignore_errors=True)


def wireshark(program, folder):
    record = []
    with running(Server(program, write_plant(os.path.join(folder, 'plant.toml'), 40, references=10, history_page=5))) as server:
        proxy = Proxy(server.port, record)
        url = ['--url', f'opc.tcp://127.0.0.1:{proxy.port}']
        client = lambda *words: run([*CLIENTS['ua_client'], *words, *url])
        with running(Program([*CLIENTS['historian'], *url, '--below', 'ns=1;i=1', '--to', os.path.join(folder, 'history.db')])) as historian:
            for words in (['endpoints'], ['browse'], ['info', 'ns=1;i=101'], ['write', 'ns=1;i=101', *map(str, range(30))], ['write', '--list', 'ns=1;i=50', '1', '2'],
                          ['write', '--range', '0:1', 'ns=1;i=50', '3', '4'], ['write', 'ns=1;i=51', 'long' * 20_000], ['read', 'ns=1;i=50', 'ns=1;i=51', 'i=2255', 'ns=1;i=101'],
                          ['history', 'ns=1;i=101', '--page', '2'], ['watch', '--below', 'ns=1;i=1', '--seconds', '1']):
                client(*words)
            run([*CLIENTS['gateway'], '--to', url[1]], input='\n'.join(f'ns=1;i=102,{value}' for value in range(1000)))
            proxy.stall()
            run([*CLIENTS['ua_client'], 'write', 'ns=1;i=103', '5', '--url', f'opc.tcp://127.0.0.1:{server.port}'])
            time.sleep(0.5)
            proxy.cut()  # the historian fetches the message again
            time.sleep(1)
            historian.process.send_signal(signal.SIGTERM)
            assert historian.wait() == 0, historian.lines
        proxy.end()
    path = os.path.join(folder, 'clients.pcap')
    with open(path, 'wb') as file:
        capture, connections = Capture(file, 0), {}
        for moment, (number, is_client, data) in enumerate(record):
            if number not in connections:
                connections[number] = Connection(capture, number, moment)
            one = connections[number]
            side = one.client if is_client else one.server
            if data:
                one.send(moment, side, data)
            else:
                one.end(moment, side)
    tshark = lambda *words: subprocess.run(['tshark', '-r', path, *words], capture_output=True, text=True, timeout=PATIENCE).stdout.splitlines()
    wrong = tshark('-Y', '_ws.malformed or _ws.expert.severity == error')
    services = {int(number) for line in tshark('-Y', 'opcua', '-T', 'fields', '-e', 'opcua.servicenodeid.numeric') for number in line.split(',') if number}
    assert not wrong, wrong[:5]
    missing = {428, 446, 452, 461, 467, 473, 527, 533, 631, 664, 673, 751, 787, 826, 832, 847} - services
    assert not missing, f'no request of these kinds: {missing}; {historian.lines}'
    return f'{capture.packets} packets, {len(services)} kinds of messages, nothing malformed'


def browser(program, folder):
    page, profile = free_port(), os.path.join(folder, 'profile')
    chromium = ['chromium', '--headless=new', '--no-sandbox', '--disable-gpu', '--hide-scrollbars', f'--user-data-dir={profile}', '--timeout=10000']
    with running(Server(program, write_plant(os.path.join(folder, 'plant.toml'), 10))) as server:
        url = f'opc.tcp://127.0.0.1:{server.port}'
        with running(Program([*CLIENTS['screen'], '--url', url, '--port', str(page)])) as screen:
            screen.wait_for_line(f'http://127.0.0.1:{page}/')
            run([*CLIENTS['gateway'], '--to', url], input='\n'.join(f'ns=1;i=101,{value}' for value in range(41, 4242, 100)))
            shown = lambda: subprocess.run([*chromium, '--dump-dom', f'http://127.0.0.1:{page}/'], capture_output=True, text=True, timeout=PATIENCE).stdout
            wait_for(lambda: all(text in shown() for text in ('Tag0', 'Tag9', '4241')), lambda: 'the page shows no Tag0 to Tag9, or not 4241')
            sizes = []
            for size, dark in (('1280,800', False), ('1920,1080', True), ('400,800', False)):
                shot = os.path.join(folder, f'{size}.png')
                run([*chromium, *['--force-dark-mode', '--enable-features=WebContentsForceDark'] * dark, f'--window-size={size}', f'--screenshot={shot}', f'http://127.0.0.1:{page}/'])
                sizes.append(os.path.getsize(shot))
            assert min(sizes) > 10_000, sizes
    return f'three screenshots of {sizes} bytes'


def main():
    parser = argparse.ArgumentParser(description=__doc__.split('\n')[0])
    parser.add_argument('program')
    parser.add_argument('--install', action='store_true', help='install the packages first')
    parser.add_argument('--only', action='append', choices=['mqtt', 'postgresql', 'wireshark', 'browser'], help='try this alone')
    arguments = parser.parse_args()
    if arguments.install:
        run(['apt-get', 'install', '-y', '-qq', *PACKAGES], env={**os.environ, 'DEBIAN_FRONTEND': 'noninteractive'})
    for test in (mqtt, postgresql, wireshark, browser):
        if not arguments.only or test.__name__ in arguments.only:
            with tempfile.TemporaryDirectory() as folder:
                print(f'ok {test.__name__}: {test(os.path.abspath(arguments.program), folder)}', flush=True)


if __name__ == '__main__':
    main()
