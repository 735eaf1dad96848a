#!/usr/bin/env python3
"""Simulates the plant of plant.toml, and prints its values as lines for clients/gateway.py.

    examples/plant/simulator.py [--url URL] [--rate N] [--seconds S] | clients/gateway.py [--to URL]

Water is pumped from tank to tank, and the mixer follows its recipes. With --url the plant heeds the setpoints of that server's tanks: set
one on a screen, and its tank follows. A line is printed for each tag that changed, N times a second (2).
"""
import argparse
import json
import os
import random
import sys
import threading
import time

sys.path.insert(0, os.path.join(os.path.dirname(os.path.realpath(__file__)), '..', '..', 'clients'))
from ua import Broken, Message, NodeId, Refused, Session, Watch  # noqa: E402

RECIPES = {'Lemonade': [300, 120, 40], 'Cordial': [180, 60, 90], 'Iced tea': [420, 30, 55]}
STEPS = ['fill', 'heat', 'mix', 'cool', 'empty']
STEP_TIME = 12  # seconds
HIGH = 1800  # mm


class Plant:
    """The tags by name, and how they change."""

    def __init__(self):
        self.tags = {'Recipe.Batch': 0, 'Alarms.Last': ''}
        self.levels, self.warmth = [1500.0, 1200.0, 900.0, 600.0], [215.0, 230.0, 410.0, 185.0]
        self.setpoints = {}
        for tank in range(4):
            self.setpoints[f'Tank{tank + 1}.LevelSetpoint'] = int(self.levels[tank])
            self.setpoints[f'Tank{tank + 1}.TemperatureSetpoint'] = int(self.warmth[tank])
        self.ran, self.step_begun, self.step, self.recipe = [0.0] * 3, 0.0, 0, 'Lemonade'
        self.stuck_until, self.alarms = 0.0, set()

    def turn(self, moment, passed):
        """Lets some seconds pass."""
        self.flow(moment, passed)
        self.cook(moment)
        self.warn()

    def flow(self, moment, passed):
        """Each pump moves water on where the next tank wants it; Tank1 is filled from outside, and Tank4 is drawn from."""
        if random.random() < 0.01 * passed:
            self.stuck_until = moment + 8
        for pump in range(3):
            want = self.setpoints[f'Tank{pump + 2}.LevelSetpoint'] - self.levels[pump + 1]
            speed = max(0, min(3000, 600 + 20 * want)) if want > 2 and self.levels[pump] > 50 else 0
            is_stuck = pump == 1 and moment < self.stuck_until
            flow = 0.0 if is_stuck else speed / 25 * random.uniform(0.97, 1.03)
            self.levels[pump] -= flow * passed / 10
            self.levels[pump + 1] += flow * passed / 10
            self.ran[pump] += passed * (flow > 0)
            self.tags.update({f'Pump{pump + 1}.Running': flow > 0, f'Pump{pump + 1}.Speed': int(speed), f'Pump{pump + 1}.Flow': int(flow),
                              f'Pump{pump + 1}.Seconds': int(self.ran[pump])})
            if pump == 1:
                self.tags['Alarms.PumpFault'] = bool(is_stuck and speed)
        self.levels[0] += max(0, min(12, (self.setpoints['Tank1.LevelSetpoint'] - self.levels[0]) / 5)) * passed
        self.levels[3] -= min(self.levels[3], random.uniform(2, 6) * passed)
        for tank in range(4):
            name = f'Tank{tank + 1}'
            self.levels[tank] = min(2000.0, self.levels[tank] + random.uniform(-1, 1))
            self.warmth[tank] += (self.setpoints[f'{name}.TemperatureSetpoint'] - self.warmth[tank]) * min(1, passed / 20) + random.uniform(-0.6, 0.6)
            self.tags.update({f'{name}.Level': int(self.levels[tank]), f'{name}.Temperature': int(self.warmth[tank])})

    def cook(self, moment):
        """The mixer goes through the steps of a recipe, and then begins another one."""
        if self.step == 0 or moment - self.step_begun >= STEP_TIME:
            self.step, self.step_begun = self.step % len(STEPS) + 1, moment
            if self.step == 1:
                self.recipe = random.choice(list(RECIPES))
                self.tags['Recipe.Batch'] += 1
        progress = min(100, int(100 * (moment - self.step_begun) / STEP_TIME))
        self.tags.update({'Recipe.Name': self.recipe, 'Recipe.Step': self.step, 'Recipe.StepName': STEPS[self.step - 1], 'Recipe.Progress': progress,
                          'Recipe.Amounts': RECIPES[self.recipe]})

    def warn(self):
        self.tags.update({f'Alarms.Tank{tank + 1}High': self.levels[tank] > HIGH for tank in range(3)})
        standing = {name for name in ('Tank1High', 'Tank2High', 'Tank3High', 'PumpFault') if self.tags[f'Alarms.{name}']}
        for name in sorted(standing - self.alarms):
            self.tags['Alarms.Last'] = name
        self.alarms = standing
        self.tags['Alarms.Active'] = len(standing)


def heed(url, plant):
    """Follows the setpoints of a server, which a screen may change."""
    nodes = {NodeId(1, 's', name): name for name in plant.setpoints}
    while True:
        try:
            watch = Watch(Session(url, 'simulator'), nodes)
            while True:
                event = watch.next()
                if isinstance(event, Message):
                    plant.setpoints.update((nodes[node], value.value) for node, value in event.changes if isinstance(value.value, int))
                    watch.acknowledge(event)
        except (Broken, Refused):
            time.sleep(1)


def main():
    parser = argparse.ArgumentParser(description=__doc__.split('\n')[0])
    parser.add_argument('--url', help='heed the setpoints of this server')
    parser.add_argument('--rate', type=float, default=2.0, help='how often a second (%(default)s)')
    parser.add_argument('--seconds', type=float, help='how long; until it is stopped, where left out')
    arguments = parser.parse_args()
    plant, told, begun = Plant(), {}, time.monotonic()
    before = begun
    if arguments.url:
        threading.Thread(target=heed, args=(arguments.url, plant), daemon=True).start()
    try:
        while arguments.seconds is None or before - begun < arguments.seconds:
            time.sleep(1 / arguments.rate)
            moment = time.monotonic()
            plant.turn(moment, moment - before)
            before = moment
            for name, value in plant.tags.items():
                if told.get(name) != value:
                    told[name] = list(value) if isinstance(value, list) else value
                    print(json.dumps({'id': f'ns=1;s={name}', 'value': value}))
            sys.stdout.flush()
    except (BrokenPipeError, KeyboardInterrupt):
        os.dup2(os.open(os.devnull, os.O_WRONLY), sys.stdout.fileno())


if __name__ == '__main__':
    main()
