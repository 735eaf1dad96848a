#!/usr/bin/env python3
"""Sees that want of memory is answered where an allocation was refused, and nowhere else.

usage: scripts/checks/lint_memory_errors.py [--list]

Most functions hand a refused allocation on by `?`. No contract can tell such an answer from one that a body makes up, for a
request that is large, say. So each place where our code writes such an error itself stands in SAID below with its reason, but
for conversions (`from`) and arms that hand on an error of that name; and this script finds any other. `--list` prints what is found. Tests and programs that only
print aren't looked at.
"""
import os
import re
import sys

ROOT = os.path.join(os.path.dirname(os.path.realpath(__file__)), "..", "..", "crates")
NOT_LOOKED_AT = {"encoding_examples", "library_examples", "library_tests", "server_tests", "worked_examples", "wrong_bodies", "wrong_calls", "wrong_steps"}

# crate/file function: how many places, and why
SAID = {
    "collections/laid.rt split": (1, "the map's, once what was split off is back in its place"),
    "collections/numbered.rt insert": (1, "handed on: the value that came back is let go"),
    "command_line/parsing.rt stop_of": (2, "clap's own want of memory, and that of its text"),
    "commands/serving.rt with_url": (1, "a URL of 2^31 bytes or more can't be told"),
    "node_file_advice/durations_told.rt durations": (1, "the TOML parser's"),
    "node_file_advice/entries.rt past_told": (1, "handed on: the words for a fault had no room"),
    "node_file_advice/file.rt advice": (1, "the TOML parser's"),
    "node_file_advice/file.rt of_table": (1, "handed on: the words for a fault had no room"),
    "node_file_advice/parts.rt placed": (1, "handed on: the words for a fault had no room"),
    "node_loader/file.rt load": (1, "the TOML parser's"),
    "scenario_run/events.rt print_events": (1, "handed on, once the lines before are out"),
    "scenario_text/elements.rt held": (1, "a list of 2^31 elements or more can't be spelled"),
    "scenario_text/elements.rt held_octets": (1, "2^31 bytes or more can't be spelled"),
    "scenario_text/sent.rt held": (1, "a list of 2^31 elements or more can't be spelled"),
    "scenario_text/values.rt held": (1, "a text of 2^31 bytes or more can't be spelled"),
    "socket_peers/tally.rt add": (2, "no number is left after 2^64 sockets; and once handed on"),
    "socket_server/events.rt admit": (1, "handed on"),
    "socket_server/events.rt hand_in": (2, "no number is left after 2^64 events; and once handed on"),
    "socket_server/events.rt hand_in_piece": (1, "handed on"),
    "socket_server/events.rt hear": (1, "handed on"),
    "socket_server/events.rt look_on": (1, "handed on"),
    "socket_server/events.rt read_piece": (1, "handed on"),
    "socket_server/events.rt send_out": (1, "handed on"),
    "socket_server/events.rt sweep": (1, "handed on"),
    "socket_server/kept_server.rt step": (1, "handed on"),
    "socket_server/serve.rt listen": (1, "handed on"),
    "socket_server/serve.rt wait": (1, "handed on"),
    "stream_server/lib.rt turn": (2, "handed on: the room for a piece, and its bytes"),
    "ua_binary/variants.rt decode_boxed": (1, "handed on, once the cursor stands where the content began"),
    "ua_messages/structures.rt object_of_bytes": (1, "2^31 bytes or more can't be spelled"),
    "ua_messages/structures_in_place.rt write_sized": (1, "a structure of 2^31 bytes or more can't be spelled"),
    "ua_monitored_items/index.rt put_in": (1, "handed on"),
    "ua_monitored_items/item_table.rt add": (1, "handed on, once the item is taken out of the indexes"),
    "ua_monitored_items/links.rt put": (1, "handed on"),
    "ua_monitored_items/releases.rt put": (1, "handed on"),
    "ua_monitored_items/tally.rt hold": (1, "handed on"),
    "ua_services/history_results.rt write": (1, "a page of 2^31 values or more can't be spelled"),
    "ua_services/item_serving.rt answer_body": (1, "handed on: no serial is used up there"),
    "ua_space/guesses.rt new": (1, "a table of 2^64 places can't be made"),
    "ua_subscription_messages/data_change_messages.rt finish": (1, "a notification of 2^31 bytes or more can't be spelled"),
    "ua_subscription_messages/data_change_messages.rt push": (1, "a list of 2^31 entries or more can't be spelled"),
    "ua_subscriptions/askers.rt insert": (1, "handed on, when the pair is taken out again"),
    "ua_subscriptions/asking.rt fire_of": (1, "handed on, once no request waits there"),
    "ua_subscriptions/kept.rt push": (2, "no place is left after 2^64 messages; and once handed on, when the place is taken out again"),
    "ua_subscriptions/listing.rt insert_at": (1, "handed on, once the list is as it was"),
    "ua_subscriptions/publish_call.rt published": (1, "lists of 2^31 entries or more can't be spelled"),
    "ua_subscriptions/table.rt fire_listed": (1, "handed on, once the timer stands where it stood"),
}

WORD = re.compile(r"\b(AllocError|Memory)\b(?!\s*[<:])")
FUNCTION = re.compile(r"^\s*(?:pub(?:\(crate\))?\s+)?(?:const\s+|final\s+)*fn\s+(\w+)")
HANDED_ON = re.compile(r"^(?:.*\W)?(?:\w+::)*(?:Memory|OutOfMemory|AllocError)\b.*=>")


def places(path):
    """The lines of a source at which a want of memory is written, each with its function."""
    function, depth, in_use = "", 0, False
    with open(path, encoding="utf-8") as source:
        for number, line in enumerate(source, 1):
            text = line.split("//")[0].rstrip()
            found = FUNCTION.match(text)
            if found:
                function = found.group(1)
            if re.match(r"\s*(ghost\b|ensures\b|requires\b|invariant\b|#\[|mod\b)", text):
                continue
            if re.match(r"\s*(pub\s+)?use\b", text):
                in_use = not text.endswith(";")
                continue
            if in_use:
                in_use = not text.endswith(";")
                continue
            if not WORD.search(text):
                continue
            if re.match(r"\s*(impl\b|fn\b|pub\b|\)?\s*->|\) ->|type\b|Memory\s*,|Memory\s*$|\w+: )", text) or HANDED_ON.match(text):
                continue
            if re.search(r"(->|<)[^=]*\b(AllocError|Memory)\b", text) and "Err(" not in text:
                continue
            if re.search(r"matches!|==|!=|\bif let\b", text) and "Err(" not in text.split("{")[-1]:
                continue
            if function != "from":
                yield function, number, text.strip()


def main():
    found = {}
    for crate in sorted(os.listdir(ROOT)):
        if crate in NOT_LOOKED_AT:
            continue
        for folder, _, files in os.walk(os.path.join(ROOT, crate, "src")):
            for name in sorted(files):
                if name.endswith(".rt"):
                    for function, number, text in places(os.path.join(folder, name)):
                        found.setdefault(f"{crate}/{name} {function}", []).append((number, text))
    if "--list" in sys.argv:
        for key, lines in found.items():
            print(key)
            for number, text in lines:
                print(f"    {number}: {text}")
    wrong = 0
    for key in sorted(set(found) | set(SAID)):
        count, said = len(found.get(key, [])), SAID.get(key, (0, ""))[0]
        if count != said:
            wrong += 1
            print(f"{key}: {count} places that answer want of memory by themselves, and {said} are said")
    print(f"{sum(map(len, found.values()))} places that answer want of memory by themselves, {wrong} functions at fault")
    sys.exit(1 if wrong else 0)


main()
