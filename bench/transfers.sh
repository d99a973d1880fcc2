#!/bin/sh
# What a transfer between two accounts takes, two removes and two inserts: as one group, as four calls, and on a store written by
# hand that holds two mutexes. Instructions and blocks of memory are counted by valgrind in the same run, where it is there. Build
# first: bindings/build.sh
#
#     sh bench/transfers.sh
#
# Each count is the difference of a run with TRANSFERS transfers to one without, by transfer; the times are the least of RUNS runs,
# which take turns. peers/transfers.rs has the transfers.
here=$(CDPATH= cd -- "$(dirname "$0")" && pwd)
if [ ! -f "$here/../bindings/out/librelc.a" ]; then
    echo "transfers.sh: there is no $here/../bindings/out/librelc.a. Make it first: bindings/build.sh" >&2
    exit 1
fi
folder=$(mktemp -d) || exit 1
trap 'rm -rf "$folder"' EXIT
trap 'exit 1' HUP INT TERM
(cd "$here/../bindings/rust" &&
    cargo build --quiet --offline --release --example transfers --target-dir "$folder/target") || exit 1
python3 - "$folder/target/release/examples/transfers" "${TRANSFERS:-6400}" "${RUNS:-5}" <<'END_OF_PYTHON'
import re, shutil, subprocess, sys, tempfile

program, transfers, runs = sys.argv[1], int(sys.argv[2]), int(sys.argv[3])
HOW = ["group", "calls", "hand"]


def ran(words):
    done = subprocess.run(words, stdout=subprocess.PIPE, stderr=subprocess.PIPE, text=True)
    if done.returncode != 0:
        sys.exit(f"transfers.sh: {' '.join(words)} ended with status {done.returncode}\n{done.stderr}")
    return done


def counted(tool, pattern, how):
    """What the tool counts of one transfer."""
    many, none = (
        int(re.search(pattern, ran(["valgrind", *tool, program, how, str(count)]).stderr)[1].replace(",", ""))
        for count in (transfers, 0)
    )
    return (many - none) / transfers


def row(name, figures, form):
    by_hand = figures["hand"]
    ratios = [f"{figures[how] / by_hand:.1f}" if by_hand >= 0.1 else "" for how in ("group", "calls")]
    print(f"| {name} | {' | '.join(format(figures[how], form) for how in HOW)} | {' | '.join(ratios)} |")


print("| a transfer | group | four calls | by hand | group to hand | calls to hand |")
print("|---|---|---|---|---|---|")
for threads in ("1", "2", "4"):
    least = {}
    for _ in range(runs):
        for how in HOW:
            time = int(ran([program, how, str(10 * transfers), threads]).stdout)
            least[how] = min(time, least.get(how, time))
    row(f"nanoseconds, threads: {threads}", least, ",.0f")
if shutil.which("valgrind"):
    with tempfile.NamedTemporaryFile() as file:
        tool = ["--tool=callgrind", f"--callgrind-out-file={file.name}"]
        row("instructions", {how: counted(tool, r"Collected : (\d+)", how) for how in HOW}, ",.0f")
    tool = ["--tool=memcheck"]
    row("blocks", {how: counted(tool, r"total heap usage: ([\d,]+) allocs", how) for how in HOW}, ".1f")
    row("bytes", {how: counted(tool, r"frees, ([\d,]+) bytes", how) for how in HOW}, ",.0f")
else:
    print("transfers.sh: there is no valgrind, which counts instructions", file=sys.stderr)
END_OF_PYTHON
