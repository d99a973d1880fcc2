#!/bin/sh
# Calls on a store in another program: through bindings/rust and through bindings/c, beside a store
# with striped locks that is written by hand (peers/store.rs), and maps under one RwLock; where they
# are there, also beside a container of Boost.MultiIndex under one lock, and a table of SQLite in
# memory. All make the same calls. Build first: bindings/build.sh
#
#     sh bench/embed.sh [instructions]
#
# Prints a table in thousands of calls a second, of all threads together: the most of RUNS runs of
# each, which take turns. Or prints the instructions of a call on one thread, which valgrind counts in
# one run of each. NODES and CALLS say how large the graphs are and how many calls a thread makes: with
# NODES=1 all threads want the same stripes.
here=$(CDPATH= cd -- "$(dirname "$0")" && pwd)
what=${1:-rates}
if [ "$what" = instructions ] && ! command -v valgrind >/dev/null; then
    echo "embed.sh: there is no valgrind, which counts instructions" >&2
    exit 1
fi
library=$here/../bindings/out
if [ ! -f "$library/librelc.a" ]; then
    echo "embed.sh: there is no $library/librelc.a. Make it first: bindings/build.sh" >&2
    exit 1
fi
folder=$(mktemp -d) || exit 1
trap 'rm -rf "$folder"' EXIT
trap 'exit 1' HUP INT TERM
rustc -O --edition 2021 -o "$folder/store" "$here/peers/store.rs" || exit 1
${CC:-cc} -std=c11 -D_DEFAULT_SOURCE -O2 -Wall -Wextra -I"$here/../bindings/c" \
    -o "$folder/calls" "$here/peers/calls.c" "$library/librelc.a" -lpthread || exit 1
(cd "$here/../bindings/rust" &&
    cargo build --quiet --offline --release --example calls --target-dir "$folder/target") || exit 1
printf '#include <boost/multi_index_container.hpp>\n' | c++ -x c++ -fsyntax-only - 2>/dev/null &&
    c++ -std=c++17 -O2 -Wall -Wextra -o "$folder/multi_index" "$here/peers/multi_index.cpp" -lpthread
printf '#include <sqlite3.h>\n' | ${CC:-cc} -x c -fsyntax-only - 2>/dev/null &&
    ${CC:-cc} -std=c11 -D_DEFAULT_SOURCE -O2 -Wall -Wextra -o "$folder/sqlite" "$here/peers/sqlite.c" -lsqlite3 -lpthread
python3 - "$what" "$folder" "$here/split.relc" "${RUNS:-5}" "${NODES:-256}" "${CALLS:-20000}" <<'END_OF_PYTHON'
import glob, os, subprocess, sys

what, folder, text, runs, nodes, calls = sys.argv[1:]
PROGRAMS = [
    [f"{folder}/store", "time", nodes, calls],
    [f"{folder}/target/release/examples/calls", nodes, calls],
    [f"{folder}/calls", text, nodes, calls],
]
HOW = ["by hand", "one lock", "through Rust", "through C"]
for name, how in [("multi_index", "MultiIndex"), ("sqlite", "SQLite")]:
    if os.path.exists(f"{folder}/{name}"):
        PROGRAMS.append([f"{folder}/{name}", nodes, calls])
        HOW.append(how)


def figures(words, environment=None):
    """The nanoseconds that a program prints, by mix, threads and what is called."""
    ran = subprocess.run(words, stdout=subprocess.PIPE, text=True, env=environment)
    if ran.returncode != 0:
        sys.exit(f"embed.sh: {' '.join(words)} ended with status {ran.returncode}")
    for line in ran.stdout.splitlines():
        names, figure = line.rsplit(": ", 1)
        mix, threads, how = names.split(", ")
        yield (mix, int(threads), how), int(figure.split()[0])


def rates():
    """Thousands of calls a second, by the same names."""
    least = {}
    for _ in range(int(runs)):
        for words in PROGRAMS:
            for names, figure in figures(words):
                least[names] = min(figure, least.get(names, figure))
    return {names: 1e6 * names[1] / figure for names, figure in least.items()}


def instructions():
    """The instructions of a call on one thread, by the same names. A program reads the clock before the calls of a line and behind
    them, and the counts are written out and begun anew whenever it does: every second one is that of the calls alone."""
    found, out = {}, os.path.join(folder, "counts")
    callgrind = ["valgrind", "--quiet", "--tool=callgrind", f"--callgrind-out-file={out}", "--dump-before=clock_gettime*"]
    for words in PROGRAMS:
        lines = [names for names, _ in figures(callgrind + words, {**os.environ, "ONE_THREAD": "1"})]
        files = [f"{out}.{number}" for number in range(1, 2 * len(lines) + 1)]
        if {*glob.glob(f"{out}.*")} != {*files}:
            sys.exit(f"embed.sh: {words[0]} doesn't read the clock twice for each line")
        for names, file in zip(lines, files[1::2]):
            with open(file) as counts:
                total = next(int(line.split()[1]) for line in counts if line.startswith("totals:"))
            found[names] = total / int(calls)
        for file in glob.glob(f"{out}*"):
            os.remove(file)
    return found


found = instructions() if what == "instructions" else rates()
print(f"| Mix | Threads | {' | '.join(HOW)} |")
print("|---|---|" + "---|" * len(HOW))
before = None
for mix, threads in dict.fromkeys(names[:2] for names in found):
    cells = (f"{found[mix, threads, how]:,.0f}" for how in HOW)
    name = mix.removeprefix("split ") if mix != before else ""
    print(f"| {name} | {threads} | {' | '.join(cells)} |")
    before = mix
END_OF_PYTHON
