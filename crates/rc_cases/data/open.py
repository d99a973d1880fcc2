#!/usr/bin/env python3
"""Writes open.case: what `relc open` says of workloads whose calls may bring their own operation.

What it is to say is told here by hand, from docs/LANGUAGE.md ("Operations that calls bring"). Each answer is also worked out by a
second writing of the rules of these lines; hostile.py has those of the other lines, and model.py plans the operations and makes the
calls. That shares nothing with the program.

    python3 open.py             writes open.case beside itself
    python3 open.py open        answers the text on standard input, whose specification is accepted, and each of whose rounds has one thread
"""

import os
import sys

import hostile
import model
from audit import GRAPH, STATES

MOST_SHAPES = 32
MOST_CALLS = 20000
KINDS = {"?": "query", "+": "insert", "-": "remove", "!": "update"}

# ---- the lines


def lists_of(kind, words, later):
    """The pattern, the ranges, the outputs and the values of the words behind a sign; None where they have no form."""
    if "=" not in words:
        return None
    at = words.index("=")
    columns, behind = words[:at], words[at + 1 :]
    ranges, outs = [], []
    if kind == "query":
        if words.count("->") != 1 or "->" not in behind:
            return None
        arrow = behind.index("->")
        behind, outs = behind[:arrow], behind[arrow + 1 :]
        if ":" in columns:
            colon = columns.index(":")
            columns, ranges = columns[:colon], columns[colon + 1 :]
            if not later or not ranges:
                return None
    if any(isinstance(word, hostile.Text) for word in columns + ranges + outs):
        return None
    if not all(isinstance(word, hostile.Text) or hostile.is_digits(word) for word in behind):
        return None
    return columns, ranges, outs, behind


def shape_of(words, later):
    """The operation that a line brings, and the words of its values; None where it has none of the forms."""
    if words is None or len(words) < 2 or not hostile.is_digits(words[0]) or words[1] not in KINDS:
        return None
    kind = KINDS[words[1]]
    lists = None if kind == "update" and not later else lists_of(kind, words[2:], later)
    return lists and ((kind, *lists[:3]), lists[3])


def keeps_rules(spec, shape):
    """O1 to O3."""
    kind, pattern, _, outs = shape
    if kind == "insert":
        return bool(pattern)
    if kind == "query":
        return bool(outs) and len(set(outs)) == len(outs)
    return model.closed(spec, pattern) == set(spec.columns)


def values_of(words):
    """Numbers, one more than the most where they are above it, and texts."""
    return [word if isinstance(word, hostile.Text) else hostile.value_of(word, 2**64 - 1) for word in words]


def is_too_large(value):
    return len(value.text) > 64 if isinstance(value, hostile.Text) else value == 2**64


def broken_by_columns(spec, shape):
    """S3 or S4, by the columns of a shape; or None."""
    _, pattern, ranges, outs = shape
    once = [column for column in pattern + ranges if column in spec.columns]
    if len(set(once)) < len(once):
        return "S3"
    return "S4" if set(pattern + ranges + outs) - set(spec.columns) else None


def broken_by_values(spec, wanted, values):
    """W2 or W3, by the columns of the values; or None."""
    if len(values) != len(wanted):
        return "W2"
    wrong = [column for column, value in zip(wanted, values) if isinstance(value, hostile.Text) != (spec.kinds[column] == "text")]
    return "W3" if wrong else None


class Work:
    """What was read of a workload: the calls, and the specification, whose operations the shapes are put behind."""

    def __init__(self, spec, threads, later):
        self.spec, self.threads, self.later = spec, threads, later
        self.calls, self.shapes, self.rounds, self.has_ended = [], [], 0, False

    def broken_by(self, words):
        """The first rule that a line breaks; or None, and then the line is taken."""
        shape = None
        if not hostile.has_form(words):
            brought = shape_of(words, self.later)
            if brought is None:
                return "S2"
            shape, given = brought
            rule = broken_by_columns(self.spec, shape)
            if rule is not None:
                return rule
        elif not hostile.is_digits(words[0]):
            return self.broken_by_mark(words[0])
        else:
            given = words[2:]
        thread, values = hostile.value_of(words[0], 8), values_of(given)
        if thread >= self.threads or any(map(is_too_large, values)):
            return "S5"
        is_new = shape is not None and shape not in self.shapes
        if len(self.calls) == MOST_CALLS or is_new and len(self.shapes) == MOST_SHAPES:
            return "S6"
        if self.rounds == 0:
            return "S7"
        if self.has_ended:
            return "S8"
        return self.broken_by_call(thread, words[1], shape, values)

    def broken_by_mark(self, word):
        if word == "round" and self.rounds == 64:
            return "S6"
        if self.has_ended:
            return "S8"
        self.rounds += word == "round"
        self.has_ended = word == "end"
        return None

    def broken_by_call(self, thread, op, shape, values):
        if shape is None and (op not in self.spec.ops or op.startswith("?")):
            return "W1"
        declared = dict(self.spec.ops)
        if shape is not None:
            op = "asked"
            self.spec.ops[op] = shape
        wanted = self.spec.call_columns(op)
        self.spec.ops = declared
        rule = broken_by_values(self.spec, wanted, values)
        if rule is not None:
            return rule
        if shape is not None:
            if not keeps_rules(self.spec, shape):
                return "W4"
            if shape not in self.shapes:
                self.shapes.append(shape)
                self.spec.ops["?%d" % len(self.shapes)] = shape
            op = "?%d" % (self.shapes.index(shape) + 1)
        self.calls.append((thread, op, [value.text if isinstance(value, hostile.Text) else value for value in values]))
        return None


def read_open(lines, spec, later):
    """The workload of the lines that are left."""
    number, words = lines.next("S1")
    if words is None or len(words) != 2 or words[0] != "work" or not hostile.is_digits(words[1]):
        raise hostile.Broken("S1", number)
    threads = hostile.value_of(words[1], 8)
    if not 1 <= threads <= 8:
        raise hostile.Broken("S5", number)
    work = Work(spec, threads, later)
    while not work.has_ended or lines.at < len(lines.content):
        number, words = lines.next("S8")
        rule = work.broken_by(words)
        if rule is not None:
            raise hostile.Broken(rule, number)
    return work


def shape_line(name, shape):
    kind, pattern, ranges, outs = shape
    words = ["shape", name, kind, *pattern]
    if ranges:
        words += [":", *ranges]
    if kind == "query":
        words += ["->", *outs]
    return " ".join(words)


def answer(text):
    """What is printed for a text."""
    lines = hostile.Lines(text)
    try:
        hostile.read_spec(lines)
        spec = model.read_spec(text.decode().replace("\r", "").split("\n"))
        work = read_open(lines, spec, lines.content[0][1].split() == [b"relc", b"2"])
    except hostile.Broken as broken:
        return ["refused %s" % broken]
    found = [shape_line("?%d" % number, shape) for number, shape in enumerate(work.shapes, 1)]
    return found + model.plans_of(spec) + model.report_of(spec, work.calls)


# ---- the cases


class Cases:
    def __init__(self):
        self.lines = [
            '# What `relc open` says of workloads whose calls bring their own operation (docs/LANGUAGE.md, "Operations that calls bring").',
            "# Written by open.py.",
            "",
        ]

    def part(self, title, *words):
        self.lines += ["# ---- " + title, "#", *("# " + word for word in words), ""]

    def text(self, name, lines):
        self.lines += ["text " + name, *("|" + line for line in lines), ""]

    def case(self, title, work, wanted, spec=("open_graph", GRAPH), command="open"):
        """A workload behind a specification that is written already. What is wanted is a refusal, or else some of the lines."""
        name, lines = spec
        text = ("\n".join(lines + work) + "\n").encode("latin-1")
        found = answer(text) if command == "open" else [hostile.refusal_of(text, command)]
        if isinstance(wanted, str):
            assert found == [wanted], (title, found, wanted)
        else:
            assert all(line in found for line in wanted), (title, found, wanted)
        self.lines += ["case " + title, "words relc " + command, *(["use " + name] if name else ["|" + line for line in lines])]
        for line in work:
            before, control, behind = line.partition("\x01")
            self.lines += ["|" + before] + (["cut", "bytes 1", "|" + behind] if control else [])
        if isinstance(wanted, str):
            self.lines.append("status 3")
        self.lines += ["out", *("|" + line for line in found), "run", ""]
        return found


def work(*lines):
    """A workload of one thread and one round. Its first call stands in line 25 behind the graph."""
    return ["work 1", "round", *lines, "end"]


PLANNED = model.plans_of(model.read_spec(list(GRAPH)))
FIND = PLANNED[PLANNED.index("plan find") + 1 :]


def taken(cases):
    cases.part("Calls that bring their own operation", "The specification has 22 lines.")
    cases.text("open_graph", GRAPH)
    cases.text("open_states", STATES)
    case = cases.case
    asked = ["work 2", "round", "0 ins 1 2 10", "round", "0 ? src dst = 1 2 -> weight", "round", "1 ? src dst = 1 2 -> weight", "end"]
    found = case("a query, asked by two threads", asked, ["journal 3", "1 0 ?1 1 2 -> 1 rows (10)", "2 1 ?1 1 2 -> 1 rows (10)"])
    assert found[: 1 + len(PLANNED)] == ["shape ?1 query src dst -> weight", *PLANNED]
    assert found[1 + len(PLANNED) : found.index("journal 3")] == ["plan ?1", *FIND]
    found = case("without such a call it is what run prints", work("0 ins 1 2 10", "0 succ 1"), ["1 0 succ 1 -> 1 rows (2 10)"])
    assert found[: len(PLANNED)] == PLANNED
    case("an operation that is declared is a shape by itself", work("0 find 1 2", "0 ? src dst = 1 2 -> weight"), ["shape ?1 query src dst -> weight", "plan find", "plan ?1"])
    case("all that there is", work("0 ins 1 2 10", "0 ins 3 4 5", "0 ? = -> src dst weight"), ["shape ?1 query -> src dst weight", "2 0 ?1 -> 2 rows (1 2 10) (3 4 5)"])
    case("the order of a list is the shape's", work("0 ins 1 2 10", "0 ? src dst = 1 2 -> weight", "0 ? dst src = 2 1 -> weight", "0 ? src dst = 1 2 -> weight"), ["shape ?2 query dst src -> weight", "2 0 ?2 2 1 -> 1 rows (10)", "3 0 ?1 1 2 -> 1 rows (10)"])
    case("outputs as they are written", work("0 ins 1 2 10", "0 ? src = 1 -> weight dst", "0 ? src = 1 -> dst weight"), ["shape ?1 query src -> weight dst", "shape ?2 query src -> dst weight", "1 0 ?1 1 -> 1 rows (10 2)"])
    case("an output may stand in the pattern", work("0 ins 1 2 10", "0 ? src = 1 -> src dst"), ["1 0 ?1 1 -> 1 rows (1 2)"])
    case("an insert by another pattern", work("0 + src = 1 2 10", "0 + src = 1 3 10", "0 ins 1 3 10"), ["shape ?1 insert src", "0 0 ?1 1 2 10 -> inserted", "1 0 ?1 1 3 10 -> present", "2 0 ins 1 3 10 -> inserted"])
    case("an insert that breaks a dependency", work("0 ins 1 2 10", "0 + weight = 1 2 11"), ["1 0 ?1 1 2 11 -> conflict 1"])
    case("a remove", work("0 ins 1 2 10", "0 - dst src = 2 1", "0 - dst src = 2 1"), ["shape ?1 remove dst src", "1 0 ?1 2 1 -> removed (1 2 10)", "2 0 ?1 2 1 -> absent"])
    case("a remove by all columns", work("0 ins 1 2 10", "0 - src dst weight = 1 2 11"), ["1 0 ?1 1 2 11 -> absent"])
    case("shapes of the last round are printed first", ["work 1", "round", "0 ins 1 2 10", "round", "0 succ 1", "round", "0 ? dst = 2 -> src", "end"], ["shape ?1 query dst -> src", "2 0 ?1 2 -> 1 rows (1)"])
    shapes = ["0 ? src = 1 -> dst", "0 ? dst = 1 -> src", "0 ? weight = 1 -> src", "0 + src = 1 1 1", "0 - src dst = 1 1"]
    case("numbers go by first lines", work(*shapes, *shapes), ["shape ?4 insert src", "shape ?5 remove src dst", "8 0 ?4 1 1 1 -> inserted"])
    case("words that stand apart", work("  0\t?  src = 1   ->\tdst "), ["shape ?1 query src -> dst"])
    later = [GRAPH[0].replace("1", "2"), *GRAPH[1:]]
    cases.text("open_later", later)
    second = ("open_later", later)
    case("a query with ranges", work("0 ins 1 2 10", "0 ins 1 3 11", "0 ? src : weight = 1 11 20 -> dst"), ["shape ?1 query src : weight -> dst", "2 0 ?1 1 11 20 -> 1 rows (3)"], spec=second)
    case("ranges alone", work("0 ins 1 2 10", "0 ? : src dst = 0 9 0 9 -> weight"), ["shape ?1 query : src dst -> weight", "1 0 ?1 0 9 0 9 -> 1 rows (10)"], spec=second)
    case("an update", work("0 ins 1 2 10", "0 ! src dst = 1 2 11", "0 ! src dst = 2 2 11"), ["shape ?1 update src dst", "1 0 ?1 1 2 11 -> updated (1 2 10)", "2 0 ?1 2 2 11 -> absent"], spec=second)
    texts = work('0 spawn 1 "b"', '0 ? state = "b" -> pid', '0 ? : state = "a" "c" -> pid state', '0 ! pid = 1 "a"')
    case("texts", texts, ["shape ?1 query state -> pid", "shape ?2 query : state -> pid state", "shape ?3 update pid", '1 0 ?1 "b" -> 1 rows (1)'], spec=("open_states", STATES))


def forms(cases):
    cases.part("Lines that have no form", "In a `relc 1` text there are no ranges and no update.")
    case = cases.case
    lines = ["? src 1 -> dst", "? src = 1", "? src = 1 dst", "? src -> dst", "? src -> dst = 1", "? src -> = 1 -> dst", "? src = 1 -> dst -> weight", "? src = 1 -> ->"]
    lines += ["? src = x -> dst", "? src = = -> dst", '? "src" = 1 -> dst', '? src = 1 -> "dst"', '? src "=" 1 -> dst', '? src = 1 "->" dst', "? src : weight = 1 2 3 -> dst", "? : = -> src"]
    lines += ["+ src", "+ src 1 2 3", '+ "src" = 1 2 3', "+ src = 1 2 x", "+ src = 1 2 3 -> dst", "+ src = 1 = 2 3", "- src dst", '- src "dst" = 1 2', "- src dst = 1 :", "! src dst = 1 2 3", "* src = 1", "?1 src = 1 -> dst", "?? src = 1 -> dst"]
    for line in lines:
        case("S2: " + line, work("0 " + line), "refused S2 line 25")
    case("S2: a bad byte", work("0 ? src = 1 \x01 -> dst"), "refused S2 line 25")
    case("S2: a quoted sign", work('0 "?" src = 1 -> dst'), "refused S2 line 25")
    case("S2: no thread", work("? src = 1 -> dst"), "refused S2 line 25")
    for line in ("?", "+ 5", "- 1 2", "! 1", "& 2", '? "a" 1', "?1 1 2"):
        case("W1: %s is a call" % line, work("0 " + line), "refused W1 line 25")
    later = ("open_later", [GRAPH[0].replace("1", "2"), *GRAPH[1:]])
    for line in ("? src : = 1 -> dst", "? : = -> src", "? src = 1 : 2 3 -> dst"):
        case("S2: %s, in the second version" % line, work("0 " + line), "refused S2 line 25", spec=later)
    case("run knows no such line", work("0 ? src = 1 -> dst"), "refused S2 line 25", command="run")
    case("group knows no such line", work("0 + src = 1 2 3"), "refused S2 line 25", command="group")


def rules(cases):
    cases.part("Lines that break a rule", "A line is tested by S2, S3, S4, S5, S6, S7, S8, W1, W2, W3 and W4 in turn.")
    case = cases.case
    later = ("open_later", [GRAPH[0].replace("1", "2"), *GRAPH[1:]])
    for line in ("? src src = 1 1 -> dst", "+ src src = 1 2 3", "- src dst src = 1 2 1", "? src src foo = 1 -> dst", "? src foo src = 1 -> bar"):
        case("S3: " + line, work("0 " + line), "refused S3 line 25")
    for line in ("? src : src = 1 1 2 -> dst", "? src : weight weight = 1 1 1 1 1 -> dst", "? : src src = 1 1 1 1 -> dst", "! src src dst = 1 2 3"):
        case("S3: " + line, work("0 " + line), "refused S3 line 25", spec=later)
    for line in ("? foo = 1 -> dst", "? src = 1 -> foo", "? foo foo = 1 1 -> dst", "+ foo = 1 2 3", "+ src : = 1 2 3", "- src -> dst = 1 2", "? src = 1 -> dst :", "? src = 1 -> dst = weight", "- ? = 1"):
        case("S4: " + line, work("0 " + line), "refused S4 line 25")
    for line in ("? src : weight : dst = 1 1 1 -> dst", "? src : foo = 1 1 1 -> dst", "! src : dst = 1 2 3"):
        case("S4: " + line, work("0 " + line), "refused S4 line 25", spec=later)
    case("S5: the thread", work("1 ? src = 1 -> dst"), "refused S5 line 25")
    case("S5: a value", work("0 ? src = 18446744073709551616 -> dst"), "refused S5 line 25")
    case("S5: a long text", work('0 ? src = "%s" -> dst' % ("a" * 65)), "refused S5 line 25")
    case("the largest value", work("0 ? src = 18446744073709551615 -> dst"), ["0 0 ?1 18446744073709551615 -> 0 rows"])
    case("S4 comes before S5", work("1 ? foo = 1 -> dst"), "refused S4 line 25")
    case("S5 comes before S7", ["work 1", "1 ? src = 1 -> dst", "end"], "refused S5 line 24")
    case("S7: before the first round", ["work 1", "0 ? src = 1 -> dst", "round", "end"], "refused S7 line 24")
    case("S8: behind the end", [*work(), "0 ? src = 1 -> dst"], "refused S8 line 26")
    case("S3 comes before S8", [*work(), "0 ? src src = 1 -> dst"], "refused S3 line 26")
    case("S8: the lines run out", work("0 ? src = 1 -> dst")[:-1], "refused S8 line 26")
    case("S7 comes before W2", ["work 1", "0 ? src = -> dst", "round", "end"], "refused S7 line 24")
    for line in ("? src = -> dst", "? src = 1 2 -> dst", "? = 1 -> dst", "+ src = 1 2", "+ src = 1 2 3 4", "- src dst = 1", "- src dst = 1 2 3"):
        case("W2: " + line, work("0 " + line), "refused W2 line 25")
    case("W2: a range has two values", work("0 ? src : weight = 1 2 -> dst"), "refused W2 line 25", spec=later)
    case("W2 comes before W4", work("0 - src = 1 2"), "refused W2 line 25")
    for line in ('? src = "a" -> dst', '+ src = 1 "a" 2', '- src dst = 1 "2"', '- src = "a"'):
        case("W3: " + line, work("0 " + line), "refused W3 line 25")
    states = ("open_states", STATES)
    case("W3: a number for a text", work("0 ? state = 1 -> pid"), "refused W3 line %d" % (len(STATES) + 3), spec=states)
    for line in ("+ = 1 2 3", "- src = 1", "- = ", "- weight = 1", "? src = 1 ->", "? = ->", "? src = 1 -> dst dst"):
        case("W4: " + line, work("0 " + line), "refused W4 line 25")
    case("W4: an update", work("0 ! src = 1 2 3"), "refused W4 line 25", spec=later)
    case("the first line that breaks a rule", work("0 ? src = 1 -> dst", "0 - src = 1", "0 ?"), "refused W4 line 26")
    lists = [list(columns) for count in (1, 2, 3) for columns in orders(["src", "dst", "weight"], count)]
    queries = ["0 ? %s = %s -> %s" % (" ".join(pattern), " ".join("1" * len(pattern)), " ".join(outs)) for pattern in lists[:3] for outs in lists]
    assert len(queries) == 45
    case("32 shapes", work(*queries[:32], *queries[:32]), ["shape ?32 " + "query weight -> dst", "63 0 ?32 1 -> 0 rows"])
    case("S6: the 33rd shape", work(*queries[:33]), "refused S6 line 57")
    case("32 shapes, and a call by name", work(*queries[:32], "0 succ 1"), ["32 0 succ 1 -> 0 rows"])
    case("S4 comes before S6", work(*queries[:32], "0 ? foo = 1 -> dst"), "refused S4 line 57")
    case("S6 comes before S8", [*work(*queries[:32]), queries[32]], "refused S6 line 58")
    case("S6 comes before W4", work(*queries[:32], "0 - src = 1"), "refused S6 line 57")
    broken = [line.replace("-> weight", "->") if line.startswith("op find") else line for line in GRAPH]
    cases.lines += ["case O3 comes before W4", "words relc open", *("|" + line for line in broken + work("0 - src = 1")), "status 3", "out", "|refused O3 op find", "run", ""]
    cases.lines += ["case open refuses a longer input for its size", "words relc open", "fill 10 16777217", "status 3", "out", "|refused size", "run", ""]


def orders(columns, count):
    """The lists of so many of the columns, none twice."""
    if count == 0:
        return [[]]
    return [[column, *others] for column in columns for others in orders([c for c in columns if c != column], count - 1)]


def main():
    if sys.argv[1:] == ["open"]:
        return print("\n".join(answer(sys.stdin.buffer.read())))
    cases = Cases()
    for part in taken, forms, rules:
        part(cases)
    path = os.path.join(os.path.dirname(os.path.abspath(__file__)), "open.case")
    with open(path, "w", encoding="latin-1", newline="\n") as file:
        file.write("\n".join(cases.lines).rstrip("\n") + "\n")


if __name__ == "__main__":
    main()
