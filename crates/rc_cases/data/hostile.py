#!/usr/bin/env python3
"""Writes hostile.case: texts that are nearly right, limits, reads and writes that fail, texts that are cut.

It is a second reading of the line rules, S1 to S8, W1 to W3 and W5, as docs/LANGUAGE.md gives them: of a text it says the
first broken rule with its line, or else the specification and the workload. It shares nothing with the program, and what its
cases want doesn't come from the program. It tests no rule of acceptance and plans nothing: of a text that keeps the line
rules the answer is written out here.

    python3 hostile.py          writes hostile.case beside itself
    python3 hostile.py check    says what the line rules say of the specification on standard input
    python3 hostile.py run      of the specification and workload on standard input
    python3 hostile.py group    of those, where groups may stand in the workload
"""

import collections
import os
import re
import sys

MOST_BYTES = 16777216
MOST_CALLS = 20000
MOST_IN_GROUP = 16
LIMITS = {"fd": 32, "node": 16, "edge": 24, "lock": 16, "place": 24, "op": 32}
MOST_COLUMNS = {1: 16, 2: 32}


def limits_of(version):
    """How many lines of each kind a text of the version may have."""
    return {"col": MOST_COLUMNS[version], **LIMITS}

SECTIONS = ["col", "fd", "node", "edge", "lock", "place", "op", "end"]
KINDS = ["hash", "ordered", "list", "singleton"]


class Broken(Exception):
    """The first broken rule, and its line."""

    def __init__(self, rule, line=None):
        super().__init__(rule if line is None else "%s line %d" % (rule, line))


# ---- lines and words

# A quoted word of a line. A plain word is a string.
Text = collections.namedtuple("Text", "text")

WORD = re.compile(rb'(?:"([^"]*)"|([^" \t][^ \t]*))(?:[ \t]+|\Z)')
PRINTED = bytes([9]) + bytes(range(32, 127))
NAME = re.compile(r"[a-z][a-z0-9_]{0,15}\Z")
DIGITS = re.compile(r"[0-9]+\Z")


def words_of(line):
    """The words of a line; None where one has a fault."""
    words, rest, at = [], line.strip(b" \t"), 0
    while at < len(rest):
        found = WORD.match(rest, at)
        if found is None or found.group().translate(None, PRINTED):
            return None
        quoted, plain = found.groups()
        words.append(Text(quoted.decode()) if plain is None else plain.decode())
        at = found.end()
    return words


class Lines:
    """The content lines of a text, each with its number, from the next on; and the number one past the last line."""

    def __init__(self, text):
        lines = text.split(b"\n")
        if not lines[-1]:
            lines.pop()
        self.past, self.at, self.content = len(lines) + 1, 0, []
        for number, line in enumerate(lines, 1):
            line = line[:-1] if line.endswith(b"\r") else line
            bare = line.strip(b" \t")
            if bare and not bare.startswith(b"#"):
                self.content.append((number, line))

    def next(self, rule):
        """The number and the words of the next line; the rule is broken where there is none."""
        if self.at == len(self.content):
            raise Broken(rule, self.past)
        number, line = self.content[self.at]
        self.at += 1
        return number, words_of(line)


def is_digits(word):
    return isinstance(word, str) and DIGITS.match(word) is not None


def value_of(digits, most):
    """The number of these digits; one more than `most` where it is above that."""
    digits = digits.lstrip("0") or "0"
    return most + 1 if len(digits) > len(str(most)) else min(int(digits), most + 1)


# ---- the specification


# What a line says: its kind, its own name, lists that name no column twice, a list that may, the nodes, edges and classes
# that it names, its number, what else there is to know of it, and how many columns at the end of its list are ranges.
FIELDS = "kind name lists free named number value ranges"
Form = collections.namedtuple("Form", FIELDS, defaults=(None, (), (), (), None, None, 0))


def query_of(name, words, outputs, version):
    """A query of these words before its arrow; None where a `:` has no word behind it."""
    if version == 1 or ":" not in words:
        return Form("op", name, [words], outputs, value="query")
    at = words.index(":")
    ranges = words[at + 1 :]
    if not ranges:
        return None
    # a column may stand but once in both together
    return Form("op", name, [words[:at] + ranges], outputs, value="query", ranges=len(ranges))


def form_of(words, version):
    """The form of a line of a specification, or None."""
    first, rest = words[0], words[1:]
    if words == ["relc", str(version)] or words == ["end"]:
        return Form(first)
    if first == "col" and len(rest) == 2 and rest[1] in ("num", "text"):
        return Form("col", rest[0], value=rest[1])
    if first == "fd" and rest.count("->") == 1 and rest[-1] != "->":
        at = rest.index("->")
        return Form("fd", lists=[rest[:at], rest[at + 1 :]])
    if first == "node" and len(rest) >= 1:
        return Form("node", rest[0], [rest[1:]])
    if first == "edge" and len(rest) >= 4 and rest[3] in KINDS:
        return Form("edge", rest[0], [rest[4:]], named=[("node", rest[1]), ("node", rest[2])], value=rest[3])
    if first == "lock" and len(rest) >= 2 and is_digits(rest[1]):
        return Form("lock", rest[0], [rest[2:]], number=value_of(rest[1], 65535))
    if first == "place" and len(rest) == 2:
        return Form("place", named=[("edge", rest[0]), ("lock", rest[1])])
    changes = ("insert", "remove") if version == 1 else ("insert", "remove", "update")
    if first == "op" and len(rest) >= 2 and rest[1] in changes:
        return Form("op", rest[0], [rest[2:]], value=rest[1])
    if first == "op" and len(rest) >= 2 and rest[1] == "query" and rest[2:].count("->") == 1:
        at = rest.index("->", 2)
        return query_of(rest[0], rest[2:at], rest[at + 1 :], version)
    return None


def broken_by(form, spec, last, version):
    """The first of S3 to S7 that a line breaks behind the lines of `spec`, the last of section `last`; or None."""
    columns = {item.name for item in spec["col"]}
    if form.name is not None:
        if not NAME.match(form.name) or any(form.name == item.name for item in spec[form.kind]):
            return "S3"
    if any(names.count(name) > 1 for names in form.lists for name in set(names) & columns):
        return "S3"
    unknown = [name for names in [*form.lists, form.free] for name in names if name not in columns]
    if unknown or any(name not in [item.name for item in spec[kind]] for kind, name in form.named):
        return "S4"
    if form.number is not None and form.number > 65535:
        return "S5"
    limits = limits_of(version)
    if form.kind in limits and len(spec[form.kind]) == limits[form.kind]:
        return "S6"
    is_early = form.kind == "end" and not (spec["col"] and spec["node"])
    return "S7" if form.kind == "relc" or SECTIONS.index(form.kind) < last or is_early else None


def read_spec(lines):
    """The specification of the next lines, up to `end`: of each kind the forms of its lines."""
    number, words = lines.next("S1")
    if words not in (["relc", "1"], ["relc", "2"]):
        raise Broken("S1", number)
    version = int(words[1])
    spec, last = {kind: [] for kind in SECTIONS}, 0
    while True:
        number, words = lines.next("S8")
        form = None
        if words is not None and all(isinstance(word, str) for word in words):
            form = form_of(words, version)
        rule = "S2" if form is None else broken_by(form, spec, last, version)
        if rule is not None:
            raise Broken(rule, number)
        spec[form.kind].append(form)
        last = SECTIONS.index(form.kind)
        if form.kind == "end":
            return spec


# ---- the workload


def is_group_line(words):
    """Whether words are the line of a group: a thread, `&` and a number."""
    return words is not None and len(words) == 3 and is_digits(words[0]) and words[1] == "&" and is_digits(words[2])


def has_form(words):
    """Whether words are a line of a workload without groups."""
    if words is None or isinstance(words[0], Text):
        return False
    if words[0] in ("round", "end"):
        return len(words) == 1
    is_call = is_digits(words[0]) and len(words) >= 2 and isinstance(words[1], str)
    return is_call and all(isinstance(word, Text) or is_digits(word) for word in words[2:])


def columns_given(op, columns):
    """The columns of a call's values, in order: a range column twice."""
    if op.value in ("insert", "update"):
        return columns
    listed = op.lists[0]
    ranges = listed[len(listed) - op.ranges :]
    return listed[: len(listed) - op.ranges] + [column for column in ranges for _ in range(2)]


def broken_by_call(spec, name, values):
    """The first of W1 to W3 that a call breaks, or None."""
    ops = [op for op in spec["op"] if op.name == name]
    if not ops:
        return "W1"
    kinds = {item.name: item.value for item in spec["col"]}
    wanted = columns_given(ops[0], list(kinds))
    if len(values) != len(wanted):
        return "W2"
    if any(isinstance(value, Text) != (kinds[column] == "text") for column, value in zip(wanted, values)):
        return "W3"
    return None


def read_work(lines, spec, has_groups=False):
    """The workload of the lines that are left: for each round its turns, each a thread and calls, an operation and values each."""
    number, words = lines.next("S1")
    if words is None or len(words) != 2 or words[0] != "work" or not is_digits(words[1]):
        raise Broken("S1", number)
    threads = value_of(words[1], 8)
    if not 1 <= threads <= 8:
        raise Broken("S5", number)
    rounds, count, has_ended, group, size = [], 0, False, None, 0
    while not has_ended or lines.at < len(lines.content):
        number, words = lines.next("S8")
        is_group = has_groups and is_group_line(words)
        if not is_group and not has_form(words):
            raise Broken("S2", number)
        is_call, is_round = is_digits(words[0]) and not is_group, words[0] == "round"
        thread = value_of(words[0], 8) if is_call or is_group else None
        values = [word if isinstance(word, Text) else value_of(word, 2**64 - 1) for word in words[2:]]
        too_large = [v for v in values if (len(v.text) > 64 if isinstance(v, Text) else v == 2**64)]
        if is_call and (thread >= threads or too_large):
            raise Broken("S5", number)
        if is_group and (thread >= threads or not 2 <= values[0] <= MOST_IN_GROUP):
            raise Broken("S5", number)
        if is_round and len(rounds) == 64 or is_call and count == MOST_CALLS:
            raise Broken("S6", number)
        if is_call and not rounds:
            raise Broken("S7", number)
        if has_ended:
            raise Broken("S8", number)
        rule = broken_by_call(spec, words[1], values) if is_call else None
        if rule is not None:
            raise Broken(rule, number)
        if group is not None and not (is_call and thread == group[0]):
            raise Broken("W5", number)
        if is_call:
            count += 1
            turn = group or (thread, [])
            turn[1].append((words[1], values))
            if group is None or len(turn[1]) == size:
                rounds[-1].append(turn)
                group = None
        elif is_group:
            group, size = (thread, []), values[0]
        elif is_round:
            rounds.append([])
        has_ended = words[0] == "end"
    return rounds


def read_text(text, command):
    """The specification and the workload of a text, which but for `run` and `group` is a specification alone."""
    if len(text) > MOST_BYTES:
        raise Broken("size")
    lines = Lines(text)
    spec = read_spec(lines)
    if command in ("run", "group"):
        return spec, read_work(lines, spec, command == "group")
    if lines.at < len(lines.content):
        raise Broken("S8", lines.content[lines.at][0])
    return spec, []


def refusal_of(text, command="run"):
    """The line that refuses a text by a line rule, or None."""
    try:
        read_text(text, command)
    except Broken as broken:
        return "refused %s" % broken
    return None


# ---- the case file


class File:
    """The lines of a case file, and the texts that are named there."""

    def __init__(self, head):
        self.lines, self.texts = ["# " + line for line in head.split("\n")], {}

    def part(self, title, about):
        self.lines += ["", "# ---- " + title, "#", *["# " + line for line in about.split("\n")], ""]

    def text(self, name, body):
        self.texts[name] = self.made(body)
        self.lines += ["text " + name, *body]

    def made(self, body):
        """The text that lines of a case file make."""
        text = b""
        for line in body:
            word, _, rest = line.partition(" ")
            if line.startswith("|"):
                text += line[1:].encode() + b"\n"
            elif word == "use":
                text += self.texts[rest]
            elif word == "cut":
                text = text[:-1]
            elif word == "bytes":
                text += bytes(int(number) for number in rest.split(" "))
            elif word == "fill":
                byte, count = rest.split(" ")
                text += bytes([int(byte)]) * int(count)
            else:
                old, new = (part.replace("\\n", "\n").encode() for part in rest.split(" => "))
                assert word == "change" and old in text, line
                text = text.replace(old, new, 1)
        return text

    def end(self, name, words, body, ending):
        assert "case " + name not in self.lines, name
        self.lines += ["case " + name, "words relc " + words, *body, *ending, "run"]

    def case(self, name, body, answer=None, words="run", status=0):
        """A text that is refused for a line, or else, where it breaks no line rule, has this answer."""
        refusal = refusal_of(self.made(body), words)
        assert (refusal is None) != (answer is None), (name, refusal)
        if refusal is not None:
            status, answer = 3, ["|" + refusal]
        self.end(name, words, body, ["status %d" % status] * (status > 0) + ["out", *answer])


def lines_of(text):
    """The lines of a case file that make a text, which may end inside a line."""
    return ["|" + line for line in text.removesuffix("\n").split("\n")] + ["cut"] * (not text.endswith("\n"))


def change(old, new):
    return "change %s => %s" % (old.replace("\n", "\\n"), new.replace("\n", "\\n"))


BARE_SPEC = "relc 1\ncol n num\nnode r\nnode u n\nedge e r u list n\nlock k 1\nplace e k\nend\n"
BARE = BARE_SPEC + "work 1\nend\n"
BARE_REPORT = "journal 0\nfinal 0\nend\n"
CALL_SPEC = BARE_SPEC.replace("end", "op i insert n\nend")
CALL = CALL_SPEC + "work 1\nround\n0 i 7\nend\n"
CALL_PLAN = "plan i\nlock k keyed\nprobe n\nread e lookup\nabsent\napply\ncommit\nrelease k\n"
REPORT = "journal 1\n0 0 i 7 -> inserted\nfinal 1\n(7)\nend\n"

FORMS = CALL.replace("i 7", "q").replace("op i insert n", "op i insert n\nop d remove n\nop q query -> n")
FORMS = FORMS.replace("num\n", "num\nfd -> n\n")
# Each form, as short as it may be; and, where it doesn't end in a list or in values, with a word more.
SHORTEST = ["relc 1", "col n num", "fd -> n", "node r", "edge e r u list", "lock k 1", "place e k"]
SHORTEST += ["op i insert", "op d remove", "op q query ->", "work 1", "0 q"]
LONGER = ["relc 1 1", "col n num num", "fd -> n ->", "place e k k", "op q query -> n ->", "end end"]
LONGER += ["work 1 1", "round round", "0 q\nend end"]


def forms(file):
    file.part(
        "One word fewer, one word more",
        "Each form is as short as it may be, without its last word. A form that doesn't end in a list or in values has one\n"
        "word more, and one with an arrow a second arrow.",
    )
    file.text("forms", lines_of(FORMS))
    for form in SHORTEST:
        line = next(line for line in FORMS.split("\n") if line.startswith(form))
        left = form.rpartition(" ")[0] + "\n"
        file.case(form + " without its last word", ["use forms", change(line + "\n", left)])
    for longer in LONGER:
        name = longer.replace("\n", ", ") + " has a word too many"
        file.case(name, ["use forms", change(longer.rpartition(" ")[0], longer)])


def largest():
    """As many columns, dependencies, nodes, edges, classes, stripes, places and operations as a text may have."""
    columns = "abcdefghijklmnop"
    lines = ["relc 1"] + ["col %s num" % column for column in columns] + ["fd a -> " + " ".join(columns[1:])]
    lines += ["fd a %s -> %s" % (columns[1 + at % 15], columns[15 - at // 15]) for at in range(31)]
    lines += ["node root"] + ["node n%d a" % at for at in range(1, 10)]
    lines += ["node n%d %s" % (at, " ".join(columns[: at - 8])) for at in range(10, 15)]
    lines += ["node n15 " + " ".join(columns)]
    lines += ["edge e%d root n%d hash a" % (at, at) for at in range(1, 16)]
    lines += ["edge f%d n%d n10 singleton" % (at, at) for at in range(1, 10)]
    lines += ["lock k%d 16 a" % at for at in range(1, 17)]
    lines += ["place e%d k%d" % (at, at) for at in range(1, 16)] + ["place f%d k16" % at for at in range(1, 10)]
    lines += ["op i%d insert a" % at for at in range(1, 9)] + ["op d%d remove a" % at for at in range(1, 9)]
    return lines + ["op q%d query a -> %s" % (at, columns[at - 1]) for at in range(1, 17)] + ["end"]


# Behind the last line of each kind, one more.
FURTHER = [("col p num", "col q num"), ("fd a b -> n", "fd -> n"), ("node n9 a", "node n16 a")]
FURTHER += [("edge f9 n9 n10 singleton", "edge f10 n9 n10 singleton"), ("lock k16 16 a", "lock k17 16 a")]
FURTHER += [("place f9 k16", "place f9 k15"), ("op q16 query a -> p", "op q17 query a -> p")]


def limits(file):
    file.part(
        "Limits",
        "One specification has the most of every kind: 16 columns, 32 dependencies, 16 nodes, 24 edges, 16 classes, 24 places\n"
        "and 32 operations. It is accepted, and with one more of a kind refused. (That 257 stripes are refused is rule P6.)",
    )
    lines = largest()
    chunks = ["\n".join(lines[at : at + 8]) for at in range(0, len(lines), 8)]
    file.text("largest", [line for chunk in chunks for line in ("|%", change("%", chunk))])
    file.case("the most of every kind", ["use largest"], ["|accepted"], "check")
    for last, more in FURTHER:
        kind = last.partition(" ")[0]
        body = ["use largest", change(last, last + "\n" + more)]
        file.case("%d lines %s are one too many" % (limits_of(1)[kind] + 1, kind), body, None, "check")
    for name, text in ("bare", BARE), ("bare_report", BARE_REPORT), ("call", CALL), ("call_plan", CALL_PLAN):
        file.text(name, lines_of(text))
    for stripes in 256, 257, 65535, 65536:
        answer = ["use bare_report"] if stripes == 256 else ["|refused P6 lock k"] if stripes < 65536 else None
        body = ["use bare", change("list n", "hash n"), change("k 1", "k %d n" % stripes)]
        file.case("%d stripes" % stripes, body, answer, status=0 if stripes == 256 else 3)
    file.text("long_names", lines_of(re.sub(r"\b[nueki]\b", lambda name: name.group() * 16, CALL_SPEC)))
    file.case("names of 16 bytes", ["use long_names"], ["|accepted"], "check")
    for name in "col n", "node u", "edge e", "lock k", "op i":
        body = ["use long_names", change(name + name[-1] * 15, name + name[-1] * 16)]
        file.case("a name of 17 bytes in a line " + name[:-2], body, None, "check")
    eight = ["use call", change("work 1", "work 8")]
    answer = ["use call_plan", *lines_of(REPORT.replace("0 i", "7 i"))]
    file.case("the last of eight threads calls", [*eight, change("0 i", "7 i")], answer)
    file.case("the thread behind the last of eight calls", [*eight, change("0 i", "8 i")])
    file.case("a thread is one too many", ["use call", change("work 1", "work 9")])
    for count, answer in (64, ["use bare_report"]), (65, None):
        body = ["use bare", change("work 1", "work 1" + "\nround" * count)]
        file.case("%d rounds without a call" % count, body, answer)
    for size in 64, 65:
        text = '"' + "t" * size + '"'
        answer = ["use call_plan", *lines_of(REPORT.replace("7", text))] if size == 64 else None
        body = ["use call", change("n num", "n text"), change("i 7", "i " + text)]
        file.case("a text value of %d bytes" % size, body, answer)


def wrong_bytes(file):
    file.part(
        "A byte that has no place",
        "Each byte of the first three lines of the graph in turn is 200; the last one of a line is its line feed.",
    )
    with open(os.path.join(HERE, "../../../examples/graph.relc"), encoding="ascii") as example:
        lines = [line for line in example if line.strip() and not line.startswith("#")]
    file.text("graph", lines_of("".join(lines[: lines.index("end\n") + 1])))
    for number, line in enumerate(lines[:3], 1):
        for at in range(len(line)):
            spoilt = " ".join("200" if at == place else str(ord(byte)) for place, byte in enumerate(line))
            body = lines_of("".join(lines[: number - 1])) if number > 1 else []
            file.case("byte %d of line %d is 200" % (at + 1, number), [*body, "bytes " + spoilt], None, "check")


def failures(file):
    file.part(
        "Each read and each write fails",
        "The run `bare` has %d bytes, and its report %d. The last read is the one that would find the end. Where a read fails\n"
        "nothing is written, and what wasn't read is left; where a write fails, what the writes before it wrote stands."
        % (len(BARE), len(BARE_REPORT)),
    )
    for piece in 1, 7, 1000000:
        for number in range(1, 2 + -(-len(BARE) // piece)):
            left = max(0, len(BARE) - piece * (number - 1))
            ending = ["piece %d" % piece, "failed-reads %d" % number, "status 4"] + ["left %d" % left] * (left > 0)
            file.end("read %d by pieces of %d fails" % (number, piece), "run", ["use bare"], ending)
        lines = BARE_REPORT.splitlines(True)
        parts = [line[at : at + piece] for line in lines for at in range(0, len(line), piece)]
        for number in range(1, len(parts) + 1):
            written = "".join(parts[: number - 1])
            ending = ["piece %d" % piece, "failed-writes %d" % number, "status 5"]
            ending += ["out", *lines_of(written)] if written else []
            file.end("write %d by pieces of %d fails" % (number, piece), "run", ["use bare"], ending)


def cut_texts(file):
    file.part(
        "A run that is cut",
        "The run `call` has %d bytes, and its last line needs no line feed. Each part of it without the `d` is refused." % len(CALL),
    )
    file.case("a run without its last line feed", ["use call", "cut"], ["use call_plan", *lines_of(REPORT)])
    for size in range(len(CALL) - 3, -1, -1):
        # (what is cut off stands behind so much of what is kept that this is its first place)
        kept = next(kept for kept in range(size + 1) if CALL.find(CALL[size - kept :]) == size - kept)
        body = ["use call", change(CALL[size - kept :], CALL[size - kept : size])]
        file.case("the first %d bytes of a run are refused" % size, body)
        assert file.made(body) == CALL[:size].encode()


def others(file):
    file.part("Values of the other kind", "A text where a number is wanted, and an operation in quotes.")
    graph = ["use graph", "|work 1", "|round"]
    file.case("a text among the values of an insert", [*graph, '|0 ins 1 2 "10"', "|end"])
    file.case("an operation in quotes", [*graph, '|0 "ins" 1 2 10', "|end"])
    file.part("Long lines", "Lines of %d bytes of one kind and a few others." % (1 << 20))

    def long(byte, before="", behind="\n"):
        """A line of so many of this byte, between a few others."""
        head = lines_of(before) if before else []
        return head + ["fill %d %d" % (byte, 1 << 20)] + (lines_of(behind) if behind > "\n" else ["bytes 10"])

    file.text("call_spec", lines_of(CALL_SPEC))
    called = ["use call_plan", *lines_of(REPORT)]
    behind = ["use call_spec", "|work 1", "|round"]
    file.case("a line of blanks before a run", [*long(32), "use call"], called)
    file.case("words that stand far apart", [*behind, *long(32, "0 i", "7\n"), "|end"], called)
    file.case("a long comment counts as one line", [*behind, *long(200, "#"), "|0 j 7", "|end"])
    file.case("a long word is no line", ["|relc 1", *long(97), "|col n num"])
    file.case("a long word is no name", ["|relc 1", *long(97, "col ", " num\n")])
    file.case("a long quoted word names nothing", ["|relc 1", *long(97, 'node r "', '"\n')])
    file.case("a long quoted word is no value", [*behind, *long(97, '0 i "', '"\n'), "|end"])
    file.case("a long quoted word that is not closed", [*behind, *long(97, '0 i "'), "|end"])
    file.case("digits alone are no line", ["|relc 1", *long(49), "|end"])
    file.case("many digits are too many stripes", ["|relc 1", *long(49, "lock k ")])
    file.case("many digits are too large a value", [*behind, *long(49, "0 i "), "|end"])
    file.case("many zeros before a value", [*behind, *long(48, "0 i ", "7\n"), "|end"], called)


HEAD = """Texts that are nearly right, limits, reads and writes that fail, and texts that are cut. hostile.py, beside this file,
writes it: a second reading of the line rules. Don't change the cases here."""
HERE = os.path.dirname(os.path.abspath(__file__))


def main():
    if len(sys.argv) > 1:
        return print(refusal_of(sys.stdin.buffer.read(), sys.argv[1]) or "no line rule is broken")
    file = File(HEAD)
    for table in forms, limits, wrong_bytes, failures, cut_texts, others:
        table(file)
    with open(os.path.join(HERE, "hostile.case"), "w", encoding="ascii") as out:
        out.write("\n".join(file.lines) + "\n")


if __name__ == "__main__":
    main()
