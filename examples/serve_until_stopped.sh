#!/bin/sh
# Serves until a signal comes, and then ends the server well: its clients are told.
# usage: serve_until_stopped.sh PROGRAM NODES OPTION..      the options are those of `uaserver serve`, but for --stop-file
program=$1
nodes=$2
shift 2
stop=$(mktemp -u)
"$program" serve "$nodes" --stop-file "$stop" "$@" &
server=$!
trap 'touch "$stop"' TERM INT HUP
# A signal ends a wait early: the server is waited for until it has ended.
while kill -0 "$server" 2>/dev/null; do
    wait "$server"
    status=$?
done
rm -f "$stop"
exit "$status"
