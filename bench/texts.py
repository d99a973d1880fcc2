#!/usr/bin/env python3
"""Writes one text to measure `relc run` on: texts.py NAME, with the names at the end."""

import sys

GRAPH = """relc 1
col src num
col dst num
col weight num
fd src dst -> weight
node root
node u src
node w src dst
node z src dst weight
edge e1 root u hash src
edge e2 u w ordered dst
edge e3 w z singleton weight
lock k1 8 src
lock k2 4 src
place e1 k1
place e2 k2
place e3 k2
op ins insert src dst
op del remove src dst
op succ query src -> dst weight
op find query src dst -> weight
end
"""

MIB = 1 << 20
CALLS = 20_000


def inserts(threads=8, rounds=64):
    """20,000 inserts of distinct edges, by so many threads in so many rounds."""
    lines = [f"work {threads}"]
    for number in range(CALLS):
        if number * rounds // CALLS != (number - 1) * rounds // CALLS:
            lines.append("round")
        lines.append(f"{number % threads} ins {number * 7919 % CALLS} {number % 97} {number}")
    return GRAPH + "\n".join(lines + ["end", ""])


def grown(size, finds=0):
    """So many inserts of distinct edges by one thread, and then so many queries for one of them."""
    lines = ["work 1", "round"]
    lines += [f"0 ins {number * 7919 % size} {number % 97} {number}" for number in range(size)]
    lines += [f"0 find {number % size * 7919 % size} {number % size % 97}" for number in range(finds)]
    return GRAPH + "\n".join(lines + ["end", ""])


def comments(size=16 * MIB):
    """A text of this many bytes, nearly all of them comments in the specification."""
    comment = "# " + "c" * 61 + "\n"
    head, end, work = GRAPH[: -len("end\n")], "end\n", "work 1\nend\n"
    return head + comment * ((size - len(head + end + work)) // len(comment)) + end + work


def workload(size=16 * MIB):
    """A text of this many bytes, nearly all of them calls whose words stand far apart."""
    begin, end = "work 1\nround\n", "end\n"
    call = "0 find 1 2"
    call = call + " " * ((size - len(GRAPH + begin + end)) // CALLS - len(call) - 1) + "\n"
    return GRAPH + begin + call * CALLS + end


def replies():
    """Replies of 256 rows: 256 inserts, and 2,000 queries for all of them."""
    lines = ["work 1", "round"]
    lines += [f"0 ins 1 {target} 0" for target in range(256)]
    lines += ["0 succ 1"] * 2_000
    return GRAPH + "\n".join(lines + ["end", ""])


if __name__ == "__main__":
    texts = {
        "inserts": inserts,
        **{
            f"inserts_{threads}_{rounds}": lambda threads=threads, rounds=rounds: inserts(threads, rounds)
            for threads in (1, 2, 4, 8)
            for rounds in (1, 64)
        },
        "nothing": lambda: grown(0),
        **{f"grown_{size}": lambda size=size: grown(size) for size in (1_000, 5_000, 15_000, 20_000)},
        **{f"found_{size}": lambda size=size: grown(size, 5_000) for size in (1_000, 5_000, 15_000)},
        "comments": comments,
        "half_comments": lambda: comments(8 * MIB),
        "workload": workload,
        "half_workload": lambda: workload(8 * MIB),
        "replies": replies,
    }
    sys.stdout.write(texts[sys.argv[1]]())
