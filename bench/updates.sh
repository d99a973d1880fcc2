#!/bin/sh
# What a change of a tuple takes by an update, and by a remove and an insert: instructions and blocks of memory, counted by valgrind in
# the same run, and the ratio of the two. Build first: bindings/build.sh
#
#     sh bench/updates.sh
#
# Each is the difference of a run with CHANGES changes to one without, by change. peers/updates.c has the calls.
here=$(CDPATH= cd -- "$(dirname "$0")" && pwd)
library=$here/../bindings/out
if [ ! -f "$library/librelc.a" ]; then
    echo "updates.sh: there is no $library/librelc.a. Make it first: bindings/build.sh" >&2
    exit 1
fi
if ! command -v valgrind >/dev/null; then
    echo "updates.sh: there is no valgrind, which counts instructions" >&2
    exit 1
fi
folder=$(mktemp -d) || exit 1
trap 'rm -rf "$folder"' EXIT
trap 'exit 1' HUP INT TERM
${CC:-cc} -std=c11 -O2 -Wall -Wextra -I"$here/../bindings/c" -o "$folder/updates" "$here/peers/updates.c" \
    "$library/librelc.a" -lpthread || exit 1
python3 - "$folder" "${CHANGES:-6400}" <<'END_OF_PYTHON'
import re, subprocess, sys

folder, changes = sys.argv[1], int(sys.argv[2])

# A weight, under the key that stripes both classes; a seat, which is a key of its own and stripes its class; a state, which stripes its own.
TEXTS = {
    "graph": """relc 2
col src num
col dst num
col weight num
fd src dst -> weight
node root
node u src
node w src dst
node z src dst weight
edge e1 root u hash src
edge e2 u w ordered dst
edge e3 w z singleton weight
lock k1 8 src
lock k2 4 src
place e1 k1
place e2 k2
place e3 k2
op ins insert src dst
op del remove src dst
op set update src dst
end
""",
    "seats": """relc 2
col id num
col name num
col seat num
fd id -> name seat
fd seat -> id
node root
node p id name seat
node q id seat
edge e1 root p hash id
edge e2 root q hash seat
lock k1 4 id
lock k2 4 seat
place e1 k1
place e2 k2
op ins insert id
op del remove id
op set update id
end
""",
    "states": """relc 2
col pid num
col state num
col cpu num
fd pid -> state cpu
node root
node s state
node p pid state cpu
edge e1 root p hash pid
edge e2 root s hash state
edge e3 s p hash pid
lock names 16 pid
lock queues 4 state
place e1 names
place e2 queues
place e3 queues
op ins insert pid
op del remove pid
op set update pid
end
""",
}


def valgrind(tool, pattern, subject, how, count):
    """The number that the tool tells of a run."""
    words = ["valgrind", *tool, f"{folder}/updates", f"{folder}/{subject}.relc", subject, how, str(count)]
    ran = subprocess.run(words, stdout=subprocess.PIPE, stderr=subprocess.PIPE, text=True)
    if ran.returncode != 0:
        sys.exit(f"updates.sh: {' '.join(words)} ended with status {ran.returncode}\n{ran.stderr}")
    return int(re.search(pattern, ran.stderr)[1].replace(",", ""))


def each(tool, pattern, subject, how):
    """That number for one change."""
    many, none = (valgrind(tool, pattern, subject, how, count) for count in (changes, 0))
    return (many - none) / changes


INSTRUCTIONS = ["--tool=callgrind", f"--callgrind-out-file={folder}/callgrind"], r"Collected : (\d+)"
BLOCKS = ["--tool=memcheck"], r"total heap usage: ([\d,]+) allocs"
print("| | instructions: update | remove and insert | ratio | blocks: update | remove and insert |")
print("|---|---|---|---|---|---|")
for subject, text in TEXTS.items():
    with open(f"{folder}/{subject}.relc", "w") as file:
        file.write(text)
    update, replace = (each(*INSTRUCTIONS, subject, how) for how in ("update", "replace"))
    blocks = [each(*BLOCKS, subject, how) for how in ("update", "replace")]
    print(f"| {subject} | {update:,.0f} | {replace:,.0f} | {update / replace:.2f} | {blocks[0]:.1f} | {blocks[1]:.1f} |")
END_OF_PYTHON
