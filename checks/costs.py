#!/usr/bin/env python3
"""What each crate costs in the gate: runs `rt ci`, and sums the processor time of each process that works for a crate.

    checks/costs.py [--write PAGE] [NAME.. | --anew]   runs rt ci with these words, and prints the table
    checks/costs.py --write PAGE --from FILE           puts a table there that was printed before

PAGE has the two comments between which the table stands. Linux alone: times are read in /proc, twice a second, so that of a process
the last moment isn't seen, and of one that is shorter perhaps nothing. The sum beside the table is what the system counted of all.

Kinds are told apart by what a process is called with and where: the crate's proof (with it the library that those above stand on); the
proof of its test functions; the must-fail edits, with the check that a crate's edits are tried over; and the builds of programs and
tests, by either compiler, with their runs. A proof that is kept from an earlier run isn't done, so it costs nothing: --anew does all."""
import collections
import os
import platform
import re
import resource
import subprocess
import sys
import threading
import time
from pathlib import Path

TOP = Path(__file__).resolve().parent.parent
TICKS = os.sysconf("SC_CLK_TCK")
KINDS = ["Proof", "Test functions", "Edits", "Builds and runs"]
BEGIN, END = "<!-- costs: what checks/costs.py printed -->\n", "<!-- end of the costs -->"
COMPILERS = ("clang", "ld.lld", "llvm-ar", "rattle-x64", "rattle-link", "rattle-test")


class Sampler:
    """The processes that stand below one, with the last time that was read of each, and what they work for."""

    def __init__(self, root):
        self.root = root
        # by process and its start: (crate, kind), seconds
        self.seen = {}
        self.below = {root}

    def sample(self):
        found = {}
        for name in os.listdir("/proc"):
            if name.isdigit():
                try:
                    words = Path(f"/proc/{name}/stat").read_text().rsplit(")", 1)[1].split()
                except OSError:
                    continue
                found[int(name)] = (int(words[1]), words[19], (int(words[11]) + int(words[12])) / TICKS)
        # those that are known and still there, and their children, however deep
        ours = {one for one in found if one in self.below and (one == self.root or (one, found[one][1]) in self.seen)}
        while True:
            more = {one for one, (parent, _, _) in found.items() if parent in ours and one not in ours}
            if not more:
                break
            ours |= more
        for one in sorted(ours, key=lambda one: int(found[one][1])):
            parent, start, seconds = found[one]
            before = self.seen.get((one, start))
            above = self.seen.get((parent, found[parent][1])) if parent in found else None
            # (a process may become another program after it was first seen)
            meant = self.meaning(one) or (before or above or (None, 0))[0]
            self.seen[one, start] = (meant, seconds)
        self.below = ours | {self.root}

    def meaning(self, one):
        """The crate and the kind of work, as far as the process itself tells."""
        try:
            words = [word.decode(errors="replace") for word in Path(f"/proc/{one}/cmdline").read_bytes().split(b"\0")]
            where = os.readlink(f"/proc/{one}/cwd")
        except OSError:
            return None
        tool = os.path.basename(words[0])
        found = re.search(r"/crates/(\w+)", where)
        crate = words[words.index("--crate-name") + 1] if "--crate-name" in words[:-1] else found and found[1]
        if tool != "rattle" and tool not in COMPILERS and not re.search(r"/out/\w+$|/rt-run-", words[0]):
            return None
        if not crate:
            return None
        if "/rt-edit" in where:
            return crate, "Edits"
        if tool != "rattle" or "--crate-checked" in words:
            return crate, "Builds and runs"
        return crate, "Test functions" if "--test" in words else "Proof"

    def sums(self):
        """Seconds by crate and kind."""
        found = collections.defaultdict(collections.Counter)
        for meant, seconds in self.seen.values():
            if meant:
                found[meant[0]][meant[1]] += seconds
        return found


def crates():
    """The crates in the order of crates.txt."""
    lines = (TOP / "crates.txt").read_text().splitlines()
    return [line.split(":")[0].split()[0] for line in lines if ":" in line and not line.startswith("#")]


def lines_of(crate, suffix):
    """How many lines the crate's files of this kind have."""
    paths = (path for path in (TOP / "crates" / crate).rglob("*" + suffix) if "out" not in path.relative_to(TOP).parts)
    return sum(path.read_bytes().count(b"\n") for path in paths)


def machine():
    text = Path("/proc/cpuinfo").read_text()
    model = re.search(r"model name\s*: (.*)", text)
    memory = re.search(r"MemTotal:\s+(\d+)", Path("/proc/meminfo").read_text())
    return f"{len(os.sched_getaffinity(0))} processors ({model[1] if model else platform.machine()}), {round(int(memory[1]) / 1e6)} GB"


def table(words, found, clock, whole, ended, load):
    every = collections.Counter()
    for kinds in found.values():
        every.update(kinds)
    told = sum(every.values())
    rows = [
        f"Seconds of processor time in `rt ci{''.join(' ' + word for word in words)}`, on {machine()}, on {time.strftime('%Y-%m-%d')}.",
        f"It took {clock / 60:.0f} minutes of clock and {whole / 60:.0f} of processors, {told / 60:.0f} of which are told apart here.",
        f"The load of the machine was {load:.1f} when it began. {'' if ended == 0 else 'The run failed. '}Its last line: `{LAST[0]}`.",
        "",
        "| Crate | " + " | ".join(KINDS) + " | Sum | Lines of `.rt` | Lines of `.antt` |",
        "|---" * (len(KINDS) + 4) + "|",
    ]
    names = [crate for crate in crates() if crate in found] + sorted(set(found) - set(crates()))
    for crate in names:
        cells = [f"{found[crate][kind]:.0f}" if found[crate][kind] >= 0.5 else "" for kind in KINDS]
        rows.append(f"| `{crate}` | {' | '.join(cells)} | {sum(found[crate].values()):.0f} | {lines_of(crate, '.rt')} | {lines_of(crate, '.antt')} |")
    sums = [sum(lines_of(crate, suffix) for crate in names) for suffix in (".rt", ".antt")]
    rows.append(f"| together | {' | '.join(f'{every[kind]:.0f}' for kind in KINDS)} | {told:.0f} | {sums[0]} | {sums[1]} |")
    return "\n".join(rows) + "\n"


LAST = [""]


def pass_on(stream):
    """Shows what the gate says, and keeps its last line."""
    for line in stream:
        print(line, end="", file=sys.stderr, flush=True)
        LAST[0] = line.strip() or LAST[0]


def measured(words):
    """Runs the gate, and gives the table and how it ended."""
    load, began = os.getloadavg()[0], time.monotonic()
    with subprocess.Popen(["rt", "ci", *words], cwd=TOP, stdout=subprocess.PIPE, text=True, errors="replace") as ran:
        teller = threading.Thread(target=pass_on, args=(ran.stdout,))
        teller.start()
        sampler = Sampler(ran.pid)
        while ran.poll() is None:
            sampler.sample()
            time.sleep(0.5)
        teller.join()
        ended = ran.returncode
    used = resource.getrusage(resource.RUSAGE_CHILDREN)
    return table(words, sampler.sums(), time.monotonic() - began, used.ru_utime + used.ru_stime, ended, load), ended


def put(page, text):
    before = page.read_text()
    head, found, rest = before.partition(BEGIN)
    if not found or END not in rest:
        sys.exit(f"checks/costs.py: {page} has no place for the table")
    page.write_text(head + BEGIN + "\n" + text + "\n" + END + rest.partition(END)[2])


def main():
    words = sys.argv[1:]
    page = file = None
    for flag in ("--write", "--from"):
        if flag in words:
            at = words.index(flag)
            if at + 1 == len(words):
                sys.exit(__doc__)
            value = Path(words[at + 1])
            del words[at:at + 2]
            page, file = (value, file) if flag == "--write" else (page, value)
    if "--help" in words or (file and words):
        sys.exit(__doc__)
    if page and (not page.is_file() or BEGIN not in page.read_text()):
        sys.exit(f"checks/costs.py: {page} has no place for the table")
    text, ended = (file.read_text(), 0) if file else measured(words)
    if page:
        put(page, text)
    else:
        print(text, end="")
    sys.exit(ended)


if __name__ == "__main__":
    main()
