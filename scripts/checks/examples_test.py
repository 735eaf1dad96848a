#!/usr/bin/env python3
"""Sees that what stands in examples/ works: the plant, its simulator through the gateway, and the standard's nodes.

    scripts/checks/examples_test.py PROGRAM

PROGRAM is the built program. Nothing but Python's own library is needed.
"""
import os
import re
import subprocess
import sys
import tempfile
import time

from lib.serving import PATIENCE, Server

TOP = os.path.dirname(os.path.dirname(os.path.dirname(os.path.realpath(__file__))))
sys.path.insert(0, os.path.join(TOP, 'clients'))
from ua import NodeId, Session, is_bad  # noqa: E402
from ua.types import numbered  # noqa: E402

PLANT = os.path.join(TOP, 'examples', 'plant', 'plant.toml')
STANDARD = os.path.join(TOP, 'examples', 'standard_nodes.toml')


def same(what, came, wanted):
    assert came == wanted, f'{what}: {came!r} came, and not {wanted!r}'


def check(program, nodes):
    ran = subprocess.run([program, 'check', nodes], capture_output=True, text=True, timeout=PATIENCE)
    assert ran.returncode == 0, ran.stderr
    return [int(number) for number in re.findall(r'\d+', ran.stdout)]


def text_of(path):
    with open(path, encoding='utf-8') as file:
        return file.read()


def standard_nodes(program, folder):
    """They are what the script makes, load behind another file's nodes, and say what the server's settings are."""
    made = subprocess.run([sys.executable, os.path.join(TOP, 'scripts', 'authoring', 'standard_nodes.py')], capture_output=True, text=True, timeout=PATIENCE)
    assert made.stdout.rstrip() == text_of(STANDARD).rstrip(), 'examples/standard_nodes.toml is not what scripts/authoring/standard_nodes.py makes'
    both = os.path.join(folder, 'line.toml')
    line = text_of(os.path.join(TOP, 'crates', 'uaserver', 'data', 'line.toml'))
    with open(both, 'w', encoding='utf-8') as file:
        file.write(line.replace('version = 1', 'version = 2') + text_of(STANDARD))
    count = text_of(STANDARD).count('[[node]]')
    same('nodes', check(program, both)[0], 29 + count)
    assert f'# {count} nodes' in text_of(STANDARD)
    server = Server(program, both)
    try:
        with Session(f'opc.tcp://127.0.0.1:{server.port}', patience=60) as session:
            same('data types', {reference.node.value for _, reference in session.below(numbered(24))}, set(range(1, 31)) - {24})
            found = {str(reference.browse_name): reference.node for _, reference in session.below(numbered(2253))}
            for name, value in (('MaxNodesPerRead', 1000), ('MaxBrowseContinuationPoints', 10), ('ServiceLevel', 255), ('MaxReturnDataValues', 1000),
                                ('ServerProfileArray', []), ('AccessHistoryDataCapability', True)):
                same(name, session.read([found[name]])[0].value, value)
    finally:
        server.end()


def plant(program):
    """Forty tags, each of which the simulator writes but the setpoints, which it heeds."""
    same('the plant', check(program, PLANT), [74, 133])
    server = Server(program, PLANT)
    address = f'opc.tcp://127.0.0.1:{server.port}'
    try:
        with Session(address, patience=60) as session:
            tags = session.variables_below(NodeId(1, 's', 'Plant'))
            same('tags', len(tags), 40)
            simulator = subprocess.Popen([sys.executable, os.path.join(TOP, 'examples', 'plant', 'simulator.py'), '--url', address, '--rate', '20', '--seconds', '6'],
                                         stdout=subprocess.PIPE)
            gateway = subprocess.Popen([sys.executable, os.path.join(TOP, 'clients', 'gateway.py'), '--to', address], stdin=simulator.stdout, stderr=subprocess.PIPE, text=True)
            simulator.stdout.close()
            time.sleep(2)
            level = NodeId(1, 's', 'Tank1.Level')
            before = session.read([level])[0].value
            setpoint = NodeId(1, 's', 'Tank1.LevelSetpoint')
            same('a setpoint', session.write([(setpoint, session.read([setpoint])[0]._replace(value=1900, source=None, server=None))]), [0])
            said = gateway.communicate(timeout=PATIENCE)[1].splitlines()
            same('the end', (gateway.returncode, simulator.wait(PATIENCE)), (0, 0))
            assert not any('refused' in line for line in said), said
            values = dict(zip(map(str, tags), session.read(tags)))
            quiet = [node for node, value in values.items() if value.source < 10**17 and 'Setpoint' not in node]
            same('tags that nobody wrote', quiet, [])
            assert not any(is_bad(value.status) for value in values.values())
            after = values[str(level)].value
            assert after > before + 15, f'Tank1 went from {before} to {after}'
    finally:
        server.end()


def main():
    if len(sys.argv) != 2:
        sys.exit(__doc__)
    program = os.path.abspath(sys.argv[1])
    with tempfile.TemporaryDirectory() as folder:
        standard_nodes(program, folder)
        print('ok standard_nodes', flush=True)
        plant(program)
        print('ok plant', flush=True)


if __name__ == '__main__':
    main()
