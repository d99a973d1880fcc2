#!/bin/sh
# A plan that is written by hand beside the planned one: on the graph of examples/hand.relc one thread asks for successors while another
# inserts and removes edges, through bindings/c. The planner's costs know no sizes: planned, succ reads every edge of the graph under all
# stripes of a class; by hand it reads those of its source under one stripe. Build first: bindings/build.sh
#
#     sh bench/plans.sh
#
# Prints a table of calls a second: the most of RUNS runs of each, which take turns, for graphs of so many nodes (NODES), each with
# DEGREE edges. MILLISECONDS is how long each is measured.
here=$(CDPATH= cd -- "$(dirname "$0")" && pwd)
library=$here/../bindings/out
if [ ! -f "$library/librelc.a" ]; then
    echo "plans.sh: there is no $library/librelc.a. Make it first: bindings/build.sh" >&2
    exit 1
fi
folder=$(mktemp -d) || exit 1
trap 'rm -rf "$folder"' EXIT
trap 'exit 1' HUP INT TERM
${CC:-cc} -std=c11 -D_DEFAULT_SOURCE -O2 -Wall -Wextra -I"$here/../bindings/c" \
    -o "$folder/planned" "$here/peers/planned.c" "$library/librelc.a" -lpthread || exit 1
nodes=${NODES:-16 256 4096}
for _ in $(seq "${RUNS:-5}"); do
    for count in $nodes; do
        "$folder/planned" "$here/../examples/hand.relc" "$count" "${DEGREE:-8}" "${MILLISECONDS:-500}" >"$folder/ran" || exit 1
        sed "s/^/$count, /" "$folder/ran" >>"$folder/found"
    done
done
awk -F', ' -v nodes="$nodes" '
    { sub(/succ: /, "", $3); sub(/ins and del: /, "", $4)
      if ($3 > most[$1, $2, 3]) most[$1, $2, 3] = $3
      if ($4 > most[$1, $2, 4]) most[$1, $2, 4] = $4 }
    END { print "| Nodes | `succ`, planned | by hand | `ins` and `del` beside it, planned | by hand |"
        print "|---|---|---|---|---|"
        for (i = 1; i <= split(nodes, count, " "); i++)
            printf "| %d | %d | %d | %d | %d |\n", count[i], most[count[i], "planned", 3], most[count[i], "by hand", 3],
                most[count[i], "planned", 4], most[count[i], "by hand", 4] }' "$folder/found"
