#!/bin/sh
# What one call costs through relc.h, on one thread and a store of examples/graph.relc: nanoseconds, allocations, bytes of a tuple, and
# instructions by valgrind, with a thousand tuples and with a million. Build first: bindings/build.sh
#
#     sh bench/figures.sh
#
# Nanoseconds are the least of RUNS runs.
here=$(CDPATH= cd -- "$(dirname "$0")" && pwd)
library=$here/../bindings/out
if [ ! -f "$library/librelc.a" ]; then
    echo "figures.sh: there is no $library/librelc.a. Make it first: bindings/build.sh" >&2
    exit 1
fi
if ! command -v valgrind >/dev/null; then
    echo "figures.sh: there is no valgrind, which counts instructions" >&2
    exit 1
fi
folder=$(mktemp -d) || exit 1
trap 'rm -rf "$folder"' EXIT
trap 'exit 1' HUP INT TERM
sed '/^end$/q' "$here/../examples/graph.relc" > "$folder/graph"
${CC:-cc} -std=c11 -D_GNU_SOURCE -O2 -Wall -Wextra -I"$here/../bindings/c" -Wl,--wrap=malloc,--wrap=realloc \
    -o "$folder/figures" "$here/peers/figures.c" "$library/librelc.a" -lpthread || exit 1
calls=900
for tuples in 1000 1000000; do
    for kind in insert find remove few many; do
        for _ in $(seq "${RUNS:-5}"); do
            "$folder/figures" "$folder/graph" $tuples $kind $calls || exit 1
        done > "$folder/runs" || exit 1
        sort -k4 -n "$folder/runs" | head -n 1
        valgrind --tool=callgrind --collect-atstart=no --callgrind-out-file=/dev/null \
            "$folder/figures" "$folder/graph" $tuples $kind $calls > "$folder/log" 2>&1 || exit 1
        awk -v calls=$calls '/Collected/ { printf "    %.0f instructions\n", $NF / calls }' "$folder/log"
    done
done
