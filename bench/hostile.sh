#!/bin/sh
# Cuts the examples at each byte and changes them at random, runs `relc run` or `relc group` on each text that comes of it, and
# compares the answer with what crates/rc_cases/data/hostile.py, a second reading of the line rules, says of the text:
# hostile.sh [PROGRAM [SEED [COUNT]]]. A text that keeps the line rules is refused for no line, and where its specification is
# accepted the journal has the calls of the text. Prints each text that is answered otherwise. Build first: ./relc-build
here=$(CDPATH= cd -- "$(dirname "$0")" && pwd)
program=${1:-$here/../crates/relc/out/relc}
exec python3 -B - "$program" "$here/.." "${2:-1}" "${3:-5000}" <<'END'
import collections, glob, random, re, subprocess, sys, time

program, top, seed, count = sys.argv[1], sys.argv[2], int(sys.argv[3]), int(sys.argv[4])
sys.path.insert(0, top + "/crates/rc_cases/data")
import hostile

ACCEPTANCE = re.compile(r"refused (A[1-7]|P[1-6]|O[1-3]) (node|edge|column|lock|op) [a-z0-9_]+\n\Z")
BYTES = b'\0\t\n\r !"#->019:Aaz_~\x7f\x80\xc8\xff'


def line_dropped(r, text):
    lines = text.split(b"\n")
    del lines[r.randrange(len(lines))]
    return b"\n".join(lines)


def line_doubled(r, text):
    """A line once more, behind itself or elsewhere."""
    lines = text.split(b"\n")
    at = r.randrange(len(lines))
    lines.insert(r.choice([at, r.randrange(len(lines) + 1)]), lines[at])
    return b"\n".join(lines)


def lines_swapped(r, text):
    lines = text.split(b"\n")
    at, to = r.randrange(len(lines)), r.randrange(len(lines))
    lines[at], lines[to] = lines[to], lines[at]
    return b"\n".join(lines)


def byte(r):
    return bytes([r.choice([r.choice(BYTES), r.randrange(256)])])


def byte_replaced(r, text):
    at = r.randrange(len(text) + 1)
    return text[:at] + byte(r) + text[at + 1 :]


def byte_inserted(r, text):
    at = r.randrange(len(text) + 1)
    return text[:at] + byte(r) + text[at:]


def byte_removed(r, text):
    at = r.randrange(len(text) + 1)
    return text[:at] + text[at + 1 :]


def word_replaced(r, text):
    """A word of a line by another of the text, by a number, or by nothing."""
    words = [found for found in re.finditer(rb"[^ \t\r\n]+", text)]
    if not words:
        return text
    old = r.choice(words)
    number = str(r.choice([0, 1, 8, 9, 256, 65535, 65536, 2**64 - 1, 2**64])).encode()
    new = r.choice([r.choice(words).group(), r.choice(words).group(), number, b"", b'"' + old.group() + b'"'])
    return text[: old.start()] + new + text[old.end() :]


def text_cut(r, text):
    return text[: r.randrange(len(text) + 1)]


CHANGES = [line_dropped, line_doubled, lines_swapped, byte_replaced, byte_inserted, byte_removed, word_replaced, text_cut]


def answer(command, text):
    """The status and the text, or what happened instead."""
    try:
        ran = subprocess.run([program, command], input=text, stdout=subprocess.PIPE, timeout=60)
    except subprocess.TimeoutExpired:
        return None, "no answer within a minute"
    return ran.returncode, ran.stdout.decode("latin-1")


def beginnings(place, turn):
    """How the lines begin that are printed of a turn at that place."""
    thread, calls = turn
    for name, values in calls:
        words = ['"%s"' % value.text if isinstance(value, hostile.Text) else str(value) for value in values]
        yield " ".join([str(place), str(thread), name, *words, "-> "])


def has_turns(report, rounds):
    """Whether the entries of a report are the turns of these rounds, those of each thread in order."""
    lines, total, place = report.split("\n"), sum(len(turns) for turns in rounds), 0
    if "journal %d" % total not in lines:
        return False
    at = lines.index("journal %d" % total) + 1
    for turns in rounds:
        left = {thread: [turn for turn in turns if turn[0] == thread] for thread, _ in turns}
        for _ in turns:
            waiting = [thread for thread in left if left[thread] and lines[at].startswith("%d %d " % (place, thread))]
            if not waiting:
                return False
            turn = left[waiting[0]].pop(0)
            if len(turn[1]) > 1:
                if lines[at] != "%d %d & %d" % (place, turn[0], len(turn[1])):
                    return False
                at += 1
            for beginning in beginnings(place, turn):
                if not lines[at].startswith(beginning):
                    return False
                at += 1
            place += 1
    return lines[at] == "final %d" % (len(lines) - at - 3) and lines[-2:] == ["end", ""]


def judged(text, command):
    """What kind of answer a text has from `run` or `group`, and what is wrong with it or None."""
    status, said = answer(command, text)
    lines = hostile.Lines(text)
    try:
        spec = hostile.read_spec(lines)
    except hostile.Broken as broken:
        wanted = (3, "refused %s\n" % broken)
        return str(broken)[:2], None if (status, said) == wanted else (status, said, wanted)
    # The rules of acceptance, which hostile.py doesn't know, come between those of the specification's lines and of the
    # workload's. What `check` says of the specification decides.
    end = lines.content[lines.at - 1][0]
    checked = answer("check", b"\n".join(text.split(b"\n")[:end]))
    if checked != (0, "accepted\n"):
        is_good = checked[0] == 3 and ACCEPTANCE.match(checked[1]) and (status, said) == checked
        return "A, P, O", None if is_good else (status, said, checked)
    try:
        rounds = hostile.read_work(lines, spec, command == "group")
    except hostile.Broken as broken:
        wanted = (3, "refused %s\n" % broken)
        return "work " + str(broken)[:2], None if (status, said) == wanted else (status, said, wanted)
    return "report", None if status == 0 and has_turns(said, rounds) else (status, said, rounds)


# (a text with a journal behind its workload is none of `run`)
examples = [open(path, "rb").read() for path in sorted(glob.glob(top + "/examples/*.relc"))]
examples = [example for example in examples if b"\njournal " not in example]
texts = [(example[:size], size < len(example.strip())) for example in examples for size in range(len(example))]
r, kinds, wrong, begun = random.Random(seed), collections.Counter(), 0, time.monotonic()
for _ in range(count):
    text = r.choice(examples)
    for _ in range(r.choice([1, 1, 1, 2, 3])):
        text = r.choice(CHANGES)(r, text)
    texts.append((text, False))
for number, (text, is_cut) in enumerate(texts):
    kind, fault = judged(text, "group" if number % 2 else "run")
    kinds[kind] += 1
    if is_cut and kind == "report":
        fault = ("a report", "of a text that is cut", "a refusal")
    if fault is not None:
        wrong += 1
        print("text %d of seed %d: %r\n  answered: %r %r\n  wanted: %r" % (number, seed, text, *fault))
print(", ".join("%s: %d" % pair for pair in sorted(kinds.items())))
print("%d texts in %d s, %d answered otherwise than they should be" % (len(texts), time.monotonic() - begun, wrong))
sys.exit(1 if wrong else 0)
END
