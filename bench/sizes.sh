#!/bin/sh
# Time of a call of `relc run` at several sizes of the relation: the least of seven runs of a text of texts.py, without what
# another text takes, over the calls between them. Build first: ./relc-build
here=$(CDPATH= cd -- "$(dirname "$0")" && pwd)
program=${1:-$here/../crates/relc/out/relc}
python3 - "$program" "$here/texts.py" <<'END'
import subprocess, sys, time
program, texts = sys.argv[1:]

def seconds(name):
    text = subprocess.run([sys.executable, texts, name], stdout=subprocess.PIPE, check=True).stdout
    times = []
    for _ in range(7):
        begun = time.monotonic()
        subprocess.run([program, "run"], input=text, stdout=subprocess.DEVNULL, check=True)
        times.append(time.monotonic() - begun)
    return min(times)

nothing = seconds("nothing")
for size in (1_000, 5_000, 20_000):
    print(f"{size} inserts: {(seconds(f'grown_{size}') - nothing) / size * 1e6:.1f} microseconds each")
for size in (1_000, 5_000, 15_000):
    found = seconds(f"found_{size}") - seconds(f"grown_{size}")
    print(f"5,000 queries at {size} tuples: {found / 5_000 * 1e6:.1f} microseconds each")
END
