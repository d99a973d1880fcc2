#!/bin/sh
# Time and peak memory of `relc run` on texts of texts.py, and of `relc big`: the least of three runs. Build first: ./relc-build
here=$(CDPATH= cd -- "$(dirname "$0")" && pwd)
program=${1:-$here/../crates/relc/out/relc}
exec python3 - "$program" "$here/texts.py" <<'END'
import os, resource, subprocess, sys, tempfile, time

program, texts = sys.argv[1:]

THREADS = [f"inserts_{threads}_{rounds}" for rounds in (1, 64) for threads in (1, 2, 4, 8)]

def run(words, text):
    """Seconds, bytes written and the status of one run, whose output goes through a pipe and is counted alone."""
    text.seek(0)
    begun = time.monotonic()
    child = subprocess.Popen([program, *words], stdin=text, stdout=subprocess.PIPE)
    written = sum(len(piece) for piece in iter(lambda: child.stdout.read1(1 << 16), b""))
    status = child.wait()
    return time.monotonic() - begun, written, status

def measure(name, words, text):
    """The least of three runs, in a process of its own, so that its peak of memory is theirs (and some 10 MB at least)."""
    sys.stdout.flush()
    if os.fork() == 0:
        seconds, written, status = min(run(words, text) for _ in range(3))
        peak = resource.getrusage(resource.RUSAGE_CHILDREN).ru_maxrss // 1024
        print(f"{name}: status {status}, {written} bytes written, {seconds:.2f} s, {peak} MB", flush=True)
        os._exit(0)
    os.wait()

for name in ["inserts", "comments", "half_comments", "workload", "half_workload", "replies", *THREADS]:
    with tempfile.TemporaryFile() as text:
        subprocess.run([sys.executable, texts, name], stdout=text, check=True)
        measure(name, ["run"], text)
with open(os.devnull, "rb") as nothing:
    measure("big 7 20000", ["big", "7", "20000"], nothing)
END
