#!/usr/bin/env python3
"""Writes big.case: the summaries of generated workloads, as docs/LANGUAGE.md gives their calls, and docs/RULES.md their replies.

It is a second writing of the generator and of what its calls are answered, and shares nothing with the program. The calls are
made one after another, as one thread would make them; the program makes them by four threads beside each other.

    python3 big.py              writes big.case beside itself
"""

import os

MOST_ROWS = 256

COUNTS = "calls inserted present conflict removed absent queries rows many final".split()


def generated(seed, calls):
    """The kind, the source, the target and the weight of each call."""
    number = seed
    for place in range(calls):
        number = (number * 1103515245 + 12345) % 2**31
        kind = number // 2**28
        source = 4 * (number // 2**24 % 16) + place % 4
        yield kind, source, number // 2**19 % 32, number // 2**9 % 1024


def summary(seed, calls):
    """The counts of the replies, and of the edges that are left."""
    edges = {}  # source and target: weight
    count = dict.fromkeys(COUNTS, 0)
    for kind, source, target, weight in generated(seed, calls):
        count["calls"] += 1
        edge = (source, target)
        if kind <= 3:
            count["present" if edge in edges else "inserted"] += 1
            edges.setdefault(edge, weight)
        elif kind <= 5:
            rows = sum(1 for other in edges if other[0] == source)
            count["queries"] += 1
            if rows > MOST_ROWS:
                count["many"] += 1
            else:
                count["rows"] += rows
        else:
            count["absent" if edges.pop(edge, None) is None else "removed"] += 1
    count["final"] = len(edges)
    return count


def lines_of(seed, calls):
    return [f"{name} {number}" for name, number in summary(seed, calls).items()] + ["end"]


def case(seed, calls):
    """The whole summary; the input, which isn't read, is left."""
    lines = [f"case big {seed} {calls}", f"words relc big {seed} {calls}", "|not read", "left 9", "out"]
    return lines + [f"|{line}" for line in lines_of(seed, calls)] + ["run", ""]


def failing(number, piece=None):
    """Each line is handed over by itself, in so many bytes at a time; the write with this number fails."""
    written, left = [], number - 1
    for line in lines_of(7, 4):
        left -= 1 if piece is None else -(-len(line + "\n") // piece)
        if left < 0:
            break
        written.append(line)
    pieces = "" if piece is None else f" of at most {piece} bytes"
    lines = [f"case write {number}{pieces} of big 7 4 fails", "words relc big 7 4", f"failed-writes {number}", "status 5", "out"]
    lines += [] if piece is None else [f"piece {piece}"]
    return lines + [f"|{line}" for line in written] + ["run", ""]


def main():
    lines = [
        "# Summaries of generated workloads, written by big.py: what one thread is answered that makes the calls in order. Four",
        "# threads make them beside each other, and in each run the summary is this one. Nothing is read.",
        "",
    ]
    for seed, calls in [(7, 4), (0, 64), (2**31 - 1, 65), (1, 100), (12345, 257), (7, 4000)]:
        lines += case(seed, calls)
    lines += ["# ---- Streams", "#", "# Each line is written by itself. Where a write fails, the lines before it stand written.", ""]
    lines += ["case big 7 4 goes by one byte", "words relc big 7 4", "piece 1", "out"]
    lines += [f"|{line}" for line in lines_of(7, 4)] + ["run", ""]
    for number, piece in [(1, None), (2, None), (5, None), (11, None), (3, 5), (6, 5)]:
        lines += failing(number, piece)
    with open(os.path.join(os.path.dirname(os.path.abspath(__file__)), "big.case"), "w") as file:
        file.write("\n".join(lines[:-1]) + "\n")


if __name__ == "__main__":
    main()
