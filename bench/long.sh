#!/bin/sh
# Memory of many calls on a store that keeps no entries, which doesn't grow from call to call: the calls of one mix through relc.h
# (peers/calls.c), by one thread, once and 1,000 times over. Build first: bindings/build.sh
#
#     sh bench/long.sh
#
# NODES and CALLS say how large the graph is and how many calls there are, TIMES how often they are made.
here=$(CDPATH= cd -- "$(dirname "$0")" && pwd)
library=$here/../bindings/out
if [ ! -f "$library/librelc.a" ]; then
    echo "long.sh: there is no $library/librelc.a. Make it first: bindings/build.sh" >&2
    exit 1
fi
folder=$(mktemp -d) || exit 1
trap 'rm -rf "$folder"' EXIT
trap 'exit 1' HUP INT TERM
${CC:-cc} -std=c11 -D_DEFAULT_SOURCE -O2 -Wall -Wextra -I"$here/../bindings/c" \
    -o "$folder/calls" "$here/peers/calls.c" "$library/librelc.a" -lpthread || exit 1
for times in 1 "${TIMES:-1000}"; do
    "$folder/calls" "$here/split.relc" "${NODES:-64}" "${CALLS:-10000}" "$times" || exit 1
done
