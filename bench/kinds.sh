#!/bin/sh
# What one call costs by the kinds of container: calls through relc.h (peers/figures.c), by one thread, on graphs all of whose rows
# lie on one stripe. Build first: bindings/build.sh
#
#     sh bench/kinds.sh
#
# Nanoseconds are the least of RUNS runs. The first edge has a key for each source, 16 tuples each, and the second one for each
# tuple; the third is a singleton, which is inlined. A list costs its length, so that a list of sources is measured with few.
here=$(CDPATH= cd -- "$(dirname "$0")" && pwd)
library=$here/../bindings/out
if [ ! -f "$library/librelc.a" ]; then
    echo "kinds.sh: there is no $library/librelc.a. Make it first: bindings/build.sh" >&2
    exit 1
fi
folder=$(mktemp -d) || exit 1
trap 'rm -rf "$folder"' EXIT
trap 'exit 1' HUP INT TERM
${CC:-cc} -std=c11 -D_GNU_SOURCE -O2 -Wall -Wextra -I"$here/../bindings/c" -Wl,--wrap=malloc,--wrap=realloc \
    -o "$folder/figures" "$here/peers/figures.c" "$library/librelc.a" -lpthread || exit 1

# The graph of examples/graph.relc with one lock, and edges of these kinds.
graph() {
    sed -e "s/^edge e1 root u hash src$/edge e1 root u $1 src/" -e "s/^edge e2 u w ordered dst$/edge e2 u w $2 dst/" \
        -e 's/^lock k1 .*/lock k 1/' -e '/^lock k2 /d' -e 's/^\(place e[123]\) k[12]$/\1 k/' -e '/^end$/q' \
        "$here/../examples/graph.relc"
}

# The kinds of the first and the second edge, and with how many tuples they are measured.
measure() {
    graph "$1" "$2" > "$folder/graph"
    echo "$1, $2"
    for tuples in $3; do
        for call in find insert remove cancel; do
            for _ in $(seq "${RUNS:-5}"); do
                "$folder/figures" "$folder/graph" "$tuples" $call 900 || exit 1
            done > "$folder/runs" || exit 1
            printf '  '
            sort -k4 -n "$folder/runs" | head -n 1
        done
    done
}

measure hash hash "1000 10000 100000"
measure ordered ordered "1000 10000 100000"
measure hash list "1000 10000 100000"
measure list hash "1000 10000"
