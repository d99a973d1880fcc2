#!/usr/bin/env python3
"""checks/opens.py PROGRAM [SEED [COUNT]]: whether `relc open` answers workloads whose calls bring their own operation as
crates/rc_cases/data/open.py says, a second writing of their rules: calls of the specifications in examples/ and of the two there, by
columns, ranges and outputs drawn at random, and lines near them, with a word left out, doubled, moved or another. Where all rules are kept
the shapes, plans, journal and final relation must be those that are worked out there; each round has one thread. Some seconds for 1,000
texts."""
import collections
import pathlib
import random
import subprocess
import sys

TOP = pathlib.Path(__file__).resolve().parent.parent
sys.path.insert(0, str(TOP / "crates" / "rc_cases" / "data"))
import audit  # noqa: E402
import model  # noqa: E402
import open as opening  # noqa: E402

CALLS = 12
WORDS = ["=", "->", ":", "?", "+", "-", "!", "1", "18446744073709551616", '"a"', "no", "ins", "&", "?1"]


def specifications():
    """Each up to its `end`."""
    texts = [path.read_text("latin-1").split("\n") for path in sorted((TOP / "examples").glob("*.relc"))]
    for lines in [audit.GRAPH, audit.STATES, *texts]:
        lines = list(lines[: lines.index("end") + 1])
        yield lines, model.read_spec(list(lines))


def is_text(lines, column):
    return any(line.split() == ["col", column, "text"] for line in lines)


def value(r, lines, column):
    return r.choice(['"a"', '"b"', '""']) if is_text(lines, column) else str(r.randrange(3))


def some(r, columns):
    """Some of the columns, in any order."""
    return r.sample(columns, r.randrange(len(columns) + 1))


def call(r, lines, spec):
    """A call that brings its own operation, mostly one that keeps all rules."""
    later = lines[0] == "relc 2" or r.random() < 0.02
    columns, sign = list(spec.columns), r.choice("????++--!" if later else "????++--")
    pattern = some(r, columns) if sign == "?" or r.random() < 0.1 else columns[: r.randrange(max(1, len(columns) - 1), len(columns) + 1)]
    ranges = some(r, [column for column in columns if column not in pattern]) if sign == "?" and later and r.random() < 0.4 else []
    given = columns if sign in "+!" else pattern + [column for column in ranges for _ in range(2)]
    words = ["0", sign, *pattern, *([":"] + ranges if ranges else []), "=", *(value(r, lines, column) for column in given)]
    return words + (["->", *(some(r, columns) or columns)] if sign == "?" else [])


def near(r, spec, words):
    """The line with a word left out, doubled, moved or another."""
    at, to = r.randrange(len(words)), r.randrange(len(words))
    words, change = list(words), r.randrange(4)
    if change == 0:
        del words[at]
    elif change == 1:
        words.insert(to, words[at])
    elif change == 2:
        words.insert(to, words.pop(at))
    else:
        words[at] = r.choice(WORDS + list(spec.columns))
    return words


def work_of(r, lines, spec):
    """Calls of one thread, and mostly a line or none that is near one."""
    calls = [call(r, lines, spec) for _ in range(r.randrange(1, CALLS))]
    for _ in range(r.choice([0, 0, 0, 1, 1, 2])):
        at = r.randrange(len(calls))
        calls[at] = near(r, spec, calls[at])
    work = ["work 1", "round", *(" ".join(words) for words in calls), "end"]
    if r.random() < 0.05:
        del work[r.randrange(len(work))]
    return work


def main():
    if not 2 <= len(sys.argv) <= 4:
        sys.exit(__doc__)
    program = sys.argv[1]
    seed, count = (*map(int, sys.argv[2:]), *(1, 1000)[len(sys.argv) - 2 :])
    r, texts = random.Random(seed), list(specifications())
    rules, wrong = collections.Counter(), []
    for _ in range(count):
        lines, spec = r.choice(texts)
        text = "".join(line + "\n" for line in lines + work_of(r, lines, spec)).encode("latin-1")
        wanted = opening.answer(text)
        done = subprocess.run([program, "open"], input=text, capture_output=True)
        rules[wanted[0].split()[1] if wanted[0].startswith("refused") else "taken"] += 1
        if done.stdout.decode("latin-1").split("\n")[:-1] != wanted:
            wrong.append(text.decode("latin-1"))
    print("%d of %d texts are answered as the rules say:" % (count - len(wrong), count), *("%s %d" % rule for rule in sorted(rules.items())))
    if wrong:
        sys.exit(wrong[0])


main()
