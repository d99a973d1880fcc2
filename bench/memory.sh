#!/bin/sh
# Fails each allocation of a run, one at a time (every STEPth where a second argument says so), and says how runs ended.
#
# `relc run` on an example has to end with status 0 and the whole text, or with status 6 and a first part of it.
# Build first: ./relc-build. memory.sh [PROGRAM [STEP]]
here=$(CDPATH= cd -- "$(dirname "$0")" && pwd)
program=${1:-$here/../crates/relc/out/relc}
python3 - "$program" "$here" "${2:-1}" <<'END'
import collections, os, subprocess, sys, tempfile

program, here, step = sys.argv[1], sys.argv[2], int(sys.argv[3])
folder = tempfile.mkdtemp()
shim = os.path.join(folder, "failing_malloc.so")
subprocess.run(["cc", "-O2", "-shared", "-fPIC", "-o", shim, os.path.join(here, "failing_malloc.c"), "-ldl"], check=True)
count = os.path.join(folder, "count")

def run(words, text, failing):
    """The status and the output of a run in which the allocation with this number fails."""
    environment = {**os.environ, "LD_PRELOAD": shim, "FAIL": str(failing), "COUNT": count}
    ran = subprocess.run([program, *words], input=text, stdout=subprocess.PIPE, env=environment)
    return ran.returncode, ran.stdout

def tell(name, words, text, is_whole):
    """Fails each allocation of the words, and tells how many runs ended how."""
    status, whole = run(words, text, 0)
    assert status == 0, (name, status)
    made = int(open(count).read())
    ends = collections.Counter()
    for failing in range(1, made + 1, step):
        status, written = run(words, text, failing)
        if status == 0 and is_whole(written, whole):
            ends["whole text"] += 1
        elif status == 6 and whole.startswith(written):
            ends["status 6 and a first part" if written else "status 6 and nothing"] += 1
        else:
            print(f"{name}: allocation {failing}: status {status}, {len(written)} bytes")
            ends["OTHERWISE"] += 1
    print(f"{name}: {made} allocations: " + ", ".join(f"{number} {end}" for end, number in sorted(ends.items())), flush=True)

seats = open(os.path.join(here, "..", "examples", "seats.relc"), "rb").read()
same = lambda written, whole: written == whole
specification = seats[: seats.index(b"\nend\n") + len(b"\nend\n")]
tell("check", ["check"], specification, same)
tell("plan", ["plan"], specification, same)
# (threads of one round come in any order, so that the journal may be another one of the same length)
tell("run", ["run"], seats, lambda written, whole: len(written) == len(whole))
group = open(os.path.join(here, "..", "examples", "group.relc"), "rb").read()
tell("group", ["group"], group, lambda written, whole: len(written) == len(whole))
further = open(os.path.join(here, "..", "examples", "open.relc"), "rb").read()
tell("open", ["open"], further, lambda written, whole: len(written) == len(whole))
tell("big 7 20", ["big", "7", "20"], b"", same)
END
