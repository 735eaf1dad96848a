#!/usr/bin/env python3
"""A small OPC UA client: opc.tcp, binary encoding, no security, an anonymous user.

    python3 scripts/tools/ua_client.py [--url URL] [--verbose] [--json | --csv] COMMAND ..

    endpoints                what the server offers, and whether this client can use it
    browse [ID]              the nodes below ID as a tree; ID is i=85, the folder Objects, where left out
    info ID                  all that the server says of a node: its attributes, its type, the nodes above it
    read ID..                the value of each node, with its status and the time of its source
    write ID VALUE..         gives a variable a value, of the type that it has; several, one after the other
    history ID..             the values that variables had
    watch ID..               prints each change of these variables, and of those below a node, until it is stopped by Ctrl-C

An ID is a text as ns=1;i=11 (i= a number, s= a text, g= a GUID, b= bytes in hex); ns= may be left out where it is 0. Quote it in a shell,
for which ; ends a command. URL is opc.tcp://localhost:4840 where left out. Options may stand behind the command. With --verbose each
message that goes out or comes in is named on standard error. --json prints an object a line, --csv a table; what isn't a row goes to
standard error then. The exit status is 0 where all was done, 1 where the server refused something or isn't there, and 2 for a command
line that this client doesn't know.

`watch` goes on when the connection is lost, and tells what it missed. All else is in clients/ua, and needs nothing but Python's own library.
"""
import argparse
import csv
import json
import os
import sys
import time

sys.path.insert(0, os.path.join(os.path.dirname(os.path.realpath(__file__)), '..', '..', 'clients'))
from ua.arguments import checked, moment, node, number  # noqa: E402
from ua.errors import Broken, Refused, is_bad, lost_before, status_name  # noqa: E402
from ua.session import Session  # noqa: E402
from ua.subscription import Back, Ended, Gap, Item, KeepAlive, Lost, Message, Started, Watch  # noqa: E402
from ua.texts import escaped, json_value, parsed, value_line, value_text  # noqa: E402
from ua.transport import endpoints_of, is_usable  # noqa: E402
from ua.types import ATTRIBUTES, DATA_TYPE, NODE_CLASSES, TYPES, DataValue, now, numbered, time_of_text, time_text  # noqa: E402

SECURITY_MODES = {0: 'Invalid', 1: 'None', 2: 'Sign', 3: 'SignAndEncrypt'}
USER_TOKENS = {0: 'anonymous', 1: 'user name', 2: 'certificate', 3: 'issued token'}
ACCESS = ('readable', 'writable', 'history readable', 'history writable')
HAS_TYPE_DEFINITION = numbered(40)


class Output:
    """Rows on standard output, as lines for people, as JSON or as CSV; and remarks, which are no rows."""

    def __init__(self, form):
        self.form, self.table = form, None

    def row(self, text, **fields):
        if self.form == 'json':
            text = json.dumps(fields)
        elif self.form == 'csv':
            if self.table is None:
                self.table = csv.DictWriter(sys.stdout, list(fields), lineterminator='\n')
                self.table.writeheader()
            self.table.writerow({key: json.dumps(value) if isinstance(value, (bool, list)) else value for key, value in fields.items()})
            sys.stdout.flush()
            return
        print(text, flush=True)

    def value(self, node, value):
        self.row(value_line(node, value), id=str(node), time=time_text(value.time, 7) if value.time is not None else None, type=TYPES.get(value.kind),
                 value=json_value(value.kind, value.value), status=status_name(value.status), lost_before=lost_before(value.status))

    def remark(self, text):
        print(text, file=sys.stderr if self.form else sys.stdout, flush=True)


def session_of(arguments):
    return Session(arguments.url, 'ua_client', tell=arguments.tell)


# ---- the commands


def endpoints(arguments, output):
    found = endpoints_of(arguments.url, tell=arguments.tell)
    for one in found:
        mode, policy = SECURITY_MODES.get(one.mode, one.mode), (one.policy or '').rpartition('#')[2]
        users, usable = [USER_TOKENS.get(user.kind, str(user.kind)) for user in one.users], is_usable(one)
        lines = (one.url or '', f'  server    {one.server.name} ({one.server.uri})', f'  security  mode {mode}, policy {policy}',
                 f'  users     {", ".join(users)}', f'  usable    {"yes" if usable else "no, this client has no security"}')
        output.row('\n'.join(map(escaped, lines)), url=one.url, server=str(one.server.name), uri=one.server.uri, mode=mode, policy=policy,
                   users=users, usable=usable)
    if not found:
        output.remark('no endpoints')
    return 0 if found else 1


def browse(arguments, output):
    seen = {arguments.node}

    def show(node, depth):
        status, references = session.browse([node])[0]
        if is_bad(status):
            raise Refused(f'Browse {node}', status)
        for one in references:
            name, again = str(one.display_name) or str(one.browse_name), one.node in seen
            kind = NODE_CLASSES.get(one.node_class, one.node_class)
            output.row(escaped(f'{"  " * depth}{name}  {one.node}  {kind}{"  (above)" * again}'), id=str(one.node), parent=str(node), depth=depth,
                       name=str(one.browse_name), display_name=str(one.display_name), node_class=kind, definition=str(one.definition))
            seen.add(one.node)
            if not again and depth < arguments.depth:
                show(one.node, depth + 1)

    with session_of(arguments) as session:
        if not output.form:
            print(escaped(str(arguments.node)))
        show(arguments.node, 1)
    return 0


def attribute_text(number, value):
    """The value of an attribute for people."""
    if number == 2 and value.value in NODE_CLASSES:
        return NODE_CLASSES[value.value]
    if number == 14 and value.kind == 17 and value.value.namespace == 0 and value.value.value in TYPES:
        return TYPES[value.value.value]
    if number in (17, 18):
        return ', '.join(word for bit, word in enumerate(ACCESS) if value.value >> bit & 1) or 'none'
    if number == 15:
        return {-1: 'one value', 1: 'a list'}.get(value.value, str(value.value))
    return value_text(value.kind, value.value) if value.kind else '-'


def info(arguments, output):
    node = arguments.node
    with session_of(arguments) as session:
        numbers = list(ATTRIBUTES)
        values = session.read_entries([{'node': node, 'attribute': number} for number in numbers])
        if is_bad(values[0].status):
            raise Refused(f'Read {node}', values[0].status)
        rows = []
        for number, value in zip(numbers, values):
            status = '' if value.status == 0 else status_name(value.status)
            if status != 'Bad_AttributeIdInvalid':
                rows.append((ATTRIBUTES[number], '' if is_bad(value.status) else attribute_text(number, value), status))
                if number == 13 and value.time is not None:
                    rows.append(('  its time', time_text(value.time), ''))
        for name, forward, types in (('type definition', True, HAS_TYPE_DEFINITION), ('below', False, numbered(33))):
            for reference in session.browse([node], forward, types)[0][1]:
                rows.append((name, f'{reference.node} {reference.browse_name}', ''))
    for name, text, status in rows:
        output.row(f'{name:<24} {escaped(text)}{" " * bool(text and status)}{status}', id=str(node), name=name.strip(), value=text, status=status or 'Good')
    return 0


def read(arguments, output):
    with session_of(arguments) as session:
        values = session.read(arguments.nodes, index_range=arguments.range)
    for node, value in zip(arguments.nodes, values):
        output.value(node, value)
    return 1 if any(is_bad(value.status) for value in values) else 0


def type_of_variable(session, node, is_list):
    """The number of the type of a variable's value, or of its elements: that of what it holds, or else of its DataType."""
    value = session.read([node])[0]
    if not is_bad(value.status) and value.kind != 0:
        if isinstance(value.value, list) and not is_list:
            raise ValueError(f'{node} holds a list: write all of it by --list, or elements by --range')
        return value.kind
    declared = session.read([node], DATA_TYPE)[0]
    if is_bad(declared.status):
        raise Refused(f'Read the data type of {node}', declared.status)
    if declared.kind != 17 or declared.value.namespace != 0 or declared.value.value not in TYPES:
        raise ValueError(f'{node} is of the type {value_text(declared.kind, declared.value)}: name a built-in one by --type')
    return declared.value.value


def write(arguments, output):
    is_list = arguments.list or arguments.range is not None
    if not arguments.values and not arguments.list:
        raise ValueError('no value to write; --list without one writes an empty list')
    with session_of(arguments) as session:
        kind = arguments.type or type_of_variable(session, arguments.node, is_list)
        values = [parsed(kind, text) for text in arguments.values]
        texts = arguments.values
        if is_list:
            values, texts = [values], ['[' + ', '.join(texts) + ']']
        statuses = session.write([(arguments.node, DataValue(kind, value)) for value in values], arguments.range)
    for text, value, status in zip(texts, values, statuses):
        output.row(escaped(f'{arguments.node} {TYPES[kind]} {text} {status_name(status)}'), id=str(arguments.node), type=TYPES[kind],
                   value=json_value(kind, value), status=status_name(status))
    return 1 if any(is_bad(status) for status in statuses) else 0


def history(arguments, output):
    worst = 0
    with session_of(arguments) as session:
        for node in arguments.nodes:
            count = 0
            try:
                for page in session.history(node, arguments.start, arguments.end, arguments.page):
                    for value in page:
                        output.value(node, value)
                        count += 1
            except Refused as refused:
                print(refused, file=sys.stderr)
                worst = 1
                continue
            if count == 0:
                output.remark('no values' if len(arguments.nodes) == 1 else escaped(f'{node}: no values'))
    return worst


def watch(arguments, output):
    until = None if arguments.seconds is None else time.monotonic() + arguments.seconds
    changes, watched, refused = 0, 0, 0
    session = session_of(arguments)
    try:
        nodes = [*arguments.nodes, *(node for above in arguments.below for node in session.variables_below(above))]
        if not nodes:
            raise ValueError('nothing to watch: name nodes, or one that has variables below it by --below')
        watching = Watch(session, dict.fromkeys(nodes), arguments.interval, arguments.keep_alive, arguments.lifetime, arguments.sampling,
                         arguments.queue, arguments.keep_oldest)
        try:
            while arguments.count is None or changes < arguments.count:
                if not watching.events and watched == 0 and refused:
                    break
                event = watching.next(until)
                if event is None:
                    break
                if isinstance(event, Message):
                    if event.again:
                        output.remark(f'message {event.number} was fetched again')
                    for node, value in event.changes:
                        output.value(node, value)
                    changes += len(event.changes)
                    watching.acknowledge(event)
                elif isinstance(event, Item):
                    watched, refused = watched + (not is_bad(event.status)), refused + is_bad(event.status)
                    output.remark(remark(event))
                elif not isinstance(event, KeepAlive) or arguments.keep_alives:
                    output.remark(remark(event))
        except KeyboardInterrupt:
            output.remark('stopped')
        watching.close()
    finally:
        session.close()
    return 1 if refused else 0


def remark(event):
    """What an event of a watch that is no value says."""
    if isinstance(event, Started):
        one = event.subscription
        return (f'subscription {one.number}: publishes every {one.interval:g} ms, a keep-alive after {one.keep_alive} intervals of silence, '
                f'ends after {one.lifetime} without a request')
    if isinstance(event, Item):
        if is_bad(event.status):
            return escaped(f'{event.node} is not watched: {status_name(event.status)}')
        return escaped(f'item {event.item}: {event.node}, sampled every {event.sampling:g} ms, a queue of {event.queue}')
    if isinstance(event, KeepAlive):
        return f'{time_text(now())} keep-alive'
    if isinstance(event, Gap):
        if event.first is None:
            return f'values may be lost: {event.why}'
        which = f'message {event.first}' if event.first == event.last else f'messages {event.first} to {event.last}'
        return f'lost: {which}; {event.why}'
    if isinstance(event, Ended):
        return f'the subscription ended: {status_name(event.status)}'
    if isinstance(event, Lost):
        return escaped(f'no connection: {event.why}')
    assert isinstance(event, Back)
    return 'connected again, with ' + ('the same session' if event.same else 'a new session')


# ---- the command line


def type_number(text):
    for number, name in TYPES.items():
        if name == text:
            return number
    raise ValueError(f'{text!r} is none of ' + ', '.join(TYPES.values()))


def command_line():
    shared = argparse.ArgumentParser(add_help=False, argument_default=argparse.SUPPRESS)
    shared.add_argument('--url', help='where the server is (opc.tcp://localhost:4840)')
    shared.add_argument('--verbose', action='store_true', help='name each message on standard error')
    shared.add_argument('--json', dest='form', action='store_const', const='json', help='print an object of JSON a line')
    shared.add_argument('--csv', dest='form', action='store_const', const='csv', help='print a table of CSV')
    parser = argparse.ArgumentParser(description='A small OPC UA client without security.', epilog='docs/USING.md shows each command.', parents=[shared])
    commands = parser.add_subparsers(dest='command', required=True, metavar='COMMAND')

    def command(function, text):
        one = commands.add_parser(function.__name__, help=text, description=text[0].upper() + text[1:] + '.', parents=[shared])
        one.set_defaults(function=function)
        return one

    command(endpoints, 'what the server offers')

    one = command(browse, 'the nodes below a node, as a tree')
    one.add_argument('node', type=node, nargs='?', default=numbered(85), metavar='ID', help='where to begin (%(default)s)')
    one.add_argument('--depth', type=number(int, 1, 500), default=5, help='how many levels (%(default)s)')

    one = command(info, 'all that the server says of a node')
    one.add_argument('node', type=node, metavar='ID')

    one = command(read, 'the values of nodes')
    one.add_argument('nodes', type=node, nargs='+', metavar='ID')
    one.add_argument('--range', metavar='N:M', help='of lists the elements from N to M, or the one at N; the first is 0')

    one = command(write, 'gives a variable a value, or several one after the other')
    one.add_argument('node', type=node, metavar='ID')
    one.add_argument('values', nargs='*', metavar='VALUE')
    one.add_argument('--type', type=checked(type_number), help='the built-in type of the value (that of the variable)')
    one.add_argument('--list', action='store_true', help='the values are the elements of one list, which may be empty')
    one.add_argument('--range', metavar='N:M', help='the values are those of a list from N to M, or the one at N; the first is 0')

    one = command(history, 'the values that variables had')
    one.add_argument('nodes', type=node, nargs='+', metavar='ID')
    one.add_argument('--start', type=moment, default=time_of_text('1970-01-01'), help='from this time on, as 2026-01-31T12:00:00, in UTC (1970)')
    one.add_argument('--end', type=moment, default=time_of_text('2100-01-01'), help='and before this one (2100)')
    one.add_argument('--page', type=number(int, 1), default=100, help='how many values to ask for at once (%(default)s)')

    one = command(watch, 'prints each change of variables')
    one.add_argument('nodes', type=node, nargs='*', metavar='ID')
    one.add_argument('--below', type=node, action='append', default=[], metavar='ID', help='watch all variables below this node too')
    one.add_argument('--interval', type=number(float, 0, 1e9), default=1000.0, help='the publishing interval to ask for, in ms (%(default)s)')
    one.add_argument('--sampling', type=number(float, -1, 1e9), default=0.0, help='the sampling interval to ask for, in ms (%(default)s)')
    one.add_argument('--queue', type=number(int, 0), default=10, help='how many changes an item is to hold between two messages (%(default)s)')
    one.add_argument('--keep-oldest', action='store_true', help='where a queue is full, drop the newest value and not the oldest')
    one.add_argument('--keep-alive', type=number(int, 0), default=10, help='intervals of silence until a keep-alive, to ask for (%(default)s)')
    one.add_argument('--lifetime', type=number(int, 0), default=60, help='intervals without a request until the end, to ask for (%(default)s)')
    one.add_argument('--keep-alives', action='store_true', help='print a line for each keep-alive')
    one.add_argument('--count', type=number(int, 0), help='stop after so many changes')
    one.add_argument('--seconds', type=number(float, 0, 1e9), help='stop after so many seconds')
    return parser


def main():
    defaults = argparse.Namespace(url='opc.tcp://localhost:4840', verbose=False, form=None)
    arguments = command_line().parse_args(namespace=defaults)
    arguments.tell = (lambda text: print(text, file=sys.stderr)) if arguments.verbose else None
    for stream in (sys.stdout, sys.stderr):
        stream.reconfigure(errors='backslashreplace')
    try:
        return arguments.function(arguments, Output(arguments.form))
    except BrokenPipeError:
        # Whoever read the output is gone: there is nobody to tell.
        os.dup2(os.open(os.devnull, os.O_WRONLY), sys.stdout.fileno())
        return 1
    except (Refused, Broken) as problem:
        print(escaped(str(problem)), file=sys.stderr)
        return 1
    except ValueError as problem:
        print(escaped(str(problem)), file=sys.stderr)
        return 2
    except KeyboardInterrupt:
        return 1


if __name__ == '__main__':
    sys.exit(main())
