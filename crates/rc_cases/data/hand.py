#!/usr/bin/env python3
"""Writes hand.case: what `relc hand` says of texts in which plans stand between the specification and the workload.

What it is to say is told here by hand, from docs/LANGUAGE.md ("Written plans") and docs/RULES.md ("Rules of plans"). Each answer
is also worked out by a second writing of the rules of these lines and of K1 to K7, over names; hostile.py has those of the other
lines, and model.py plans the other operations and makes the calls. That shares nothing with the program.

    python3 hand.py             writes hand.case beside itself
    python3 hand.py hand        answers the text on standard input, whose specification is accepted and whose calls one thread makes
"""

import os
import sys

import hostile
import model
from audit import GRAPH, STATES

MOST_STATEMENTS = 256
WORK = ["work 1", "round", "0 ins 1 2 10", "0 succ 1", "end"]

# ---- the lines of plans


class Refused(Exception):
    """What is printed of a broken rule."""


def refused_line(rule, number):
    return Refused("refused %s line %d" % (rule, number))


def statement_of(words):
    """A statement by its words, without a look at what it names; None where they have none of the forms."""
    if words is None or any(isinstance(word, hostile.Text) for word in words):
        return None
    first, rest = words[0], words[1:]
    if first == "lock" and len(rest) in (2, 3) and rest[1] in ("keyed", "all") and rest[2:] in ([], ["shared"]):
        return ("lock", rest[0], rest[1] == "keyed", len(rest) == 3)
    if first == "probe":
        return ("probe", rest)
    if first == "read" and len(rest) == 2 and rest[1] in ("lookup", "scan"):
        return ("read", rest[0], rest[1] == "lookup")
    if first == "check" and len(rest) == 1 and hostile.is_digits(rest[0]):
        return ("check", hostile.value_of(rest[0], 1000))
    if first == "release" and len(rest) == 1:
        return ("release", rest[0])
    return (first,) if first in ("absent", "found", "apply", "emit", "commit") and not rest else None


def is_known(spec, statement):
    """Whether it names what the specification has, and no column twice."""
    kind, named = statement[0], statement[1:]
    if kind in ("lock", "release"):
        return named[0] in spec.classes
    if kind == "read":
        return named[0] in spec.edges
    if kind == "probe":
        return set(named[0]) <= set(spec.columns) and len(set(named[0])) == len(named[0])
    return kind != "check" or 1 <= named[0] <= len(spec.deps)


def first_word(line):
    """The first word where it is plain and has no fault."""
    word = hostile.WORD.match(line.strip(b" \t"))
    if word is None or word.group(2) is None or word.group(2).translate(None, hostile.PRINTED):
        return None
    return word.group(2).decode()


def read_plans(spec, lines):
    """The plans that stand before a line `work`, in written order, and the numbers of their lines."""
    plans, numbers = [], []
    for number, line in lines.content:
        word = first_word(line)
        if word == "work" or (word != "plan" and not plans):
            return plans, numbers
        words = hostile.words_of(line)
        if word == "plan":
            named = words is not None and len(words) == 2 and words[1] in spec.ops
            if not named or words[1] in dict(plans):
                raise refused_line("H1", number)
            plans.append((words[1], []))
        else:
            statement = statement_of(words)
            if statement is None:
                raise refused_line("H2", number)
            if not is_known(spec, statement):
                raise refused_line("H3", number)
            if len(plans[-1][1]) == MOST_STATEMENTS:
                raise refused_line("H4", number)
            plans[-1][1].append(statement)
        numbers.append(number)
    if plans:
        raise refused_line("S8", lines.past)
    return plans, numbers


# ---- K1 to K7


class Progress:
    """What is known of a run of a plan before a statement."""

    def __init__(self, spec, op):
        self.spec, self.kind = spec, spec.ops[op][0]
        _, pattern, ranges, outs = spec.ops[op]
        self.pattern, self.ranges, self.outs = set(pattern), set(ranges), set(outs)
        self.gives_tuple = self.kind in ("insert", "update")
        self.phase = "searching"
        self.bound = set(spec.columns) if self.gives_tuple else set(self.pattern)
        self.visited, self.reached = set(), {model.root_of(spec)}
        self.locked, self.released = {}, set()  # class: whether it is locked keyed
        self.probe, self.sought, self.checked = None, False, []

    def k1(self, kind, *named):
        if kind == "commit":
            return self.phase == "decided"
        if kind == "release":
            return self.phase == "committed" and named[0] in self.locked and named[0] not in self.released
        if self.phase != "searching":
            return False
        probed = self.probe is not None
        return {
            "lock": lambda: not probed and (self.kind == "query" or not named[2]),
            "probe": lambda: self.gives_tuple,
            "read": lambda: probed or not self.gives_tuple,
            "absent": lambda: self.kind == "insert" and probed,
            "found": lambda: self.kind == "update" and probed,
            "check": lambda: self.gives_tuple and probed,
            "apply": lambda: self.kind == "remove" or self.gives_tuple and probed,
            "emit": lambda: self.kind == "query",
        }[kind]()

    def k2(self, kind, *named):
        rank = self.spec.classes.index
        return kind != "lock" or all(rank(name) < rank(named[0]) for name in self.locked)

    def k3(self, kind, *named):
        if kind == "lock":
            return not named[1] or self.spec.stripes[named[0]][1] <= self.bound
        if kind != "read":
            return True
        name = self.spec.place[named[0]]
        if name not in self.locked:
            return False
        return not self.locked[name] or self.probe is None or self.spec.stripes[name][1] <= self.probe

    def k4(self, kind, *_):
        with_edges = model.classes_with_edges(self.spec)
        if kind != "apply":
            return True
        if not set(with_edges) <= set(self.locked):
            return False
        return self.kind != "update" or all(
            self.spec.stripes[name][1] <= self.pattern for name in with_edges if self.locked[name]
        )

    def k5(self, kind, *named):
        if kind != "read":
            return True
        source, target, _, key = self.spec.edge[named[0]]
        columns = self.spec.nodes[target]
        common = model.closed(self.spec, self.visited & columns)
        joins = self.visited <= common or columns <= common
        return source in self.reached and (not named[1] or key <= self.bound) and joins

    def k6(self, kind, *named):
        if kind == "emit":
            return self.pattern | self.outs | self.ranges <= self.visited
        if kind == "absent":
            return self.probe == self.pattern and self.pattern <= self.visited
        if kind == "found":
            return self.probe == self.pattern and set(self.spec.columns) <= self.visited
        if kind == "check":
            left, right = self.spec.deps[named[0] - 1]
            more = self.pattern if self.kind == "update" else set()
            return self.probe == left and left | right | more <= self.visited
        return kind != "apply" or self.kind != "remove" or set(self.spec.columns) <= self.visited

    def k7(self, kind, *named):
        if kind == "check":
            return self.sought and all(dep < named[0] for dep in self.checked)
        if kind != "apply" or not self.gives_tuple:
            return True
        at_risk = [n for n, (left, _) in enumerate(self.spec.deps, 1) if not self.pattern <= left]
        return self.sought and set(at_risk) <= set(self.checked)

    def take(self, kind, *named):
        if kind == "lock":
            self.locked[named[0]] = named[1]
        elif kind == "probe":
            self.probe = self.bound = set(named[0])
            self.visited, self.reached = set(), {model.root_of(self.spec)}
        elif kind == "read":
            target = self.spec.edge[named[0]][1]
            self.bound = self.bound | self.spec.nodes[target]
            self.visited = self.visited | self.spec.nodes[target]
            self.reached = self.reached | {target}
        elif kind in ("absent", "found"):
            self.sought = True
        elif kind == "check":
            self.checked.append(named[0])
        elif kind in ("apply", "emit"):
            self.phase = "decided"
        elif kind == "commit":
            self.phase = "committed"
        else:
            self.released.add(named[0])


def check_plan(spec, op, plan):
    """The first broken rule is told with the first statement that breaks one; the end is tested by K1."""
    progress = Progress(spec, op)
    for at, statement in enumerate(plan):
        for rule in ("k1", "k2", "k3", "k4", "k5", "k6", "k7"):
            if not getattr(progress, rule)(*statement):
                raise Refused("refused %s plan %s statement %d" % (rule.upper(), op, at))
        progress.take(*statement)
    if progress.phase != "committed" or progress.released != set(progress.locked):
        raise Refused("refused K1 plan %s statement %d" % (op, len(plan)))


# ---- the answer


def printed(spec, statement):
    kind, named = statement[0], statement[1:]
    if kind == "lock":
        return model.lock_line(*named)
    if kind == "probe":
        return " ".join(["probe"] + model.in_order(spec, named[0]))
    if kind == "read":
        return "read %s %s" % (named[0], "lookup" if named[1] else "scan")
    return " ".join([kind, *map(str, named)])


def chosen_plans(spec, plans):
    """The lines of all plans: those that are written, and else the planned ones."""
    written, lines, is_kept = dict(plans), [], True
    for line in model.plans_of(spec):
        if line.startswith("plan "):
            op = line.split()[1]
            is_kept = op not in written
            lines.append(line)
            if not is_kept:
                lines += [printed(spec, statement) for statement in written[op]]
        elif is_kept:
            lines.append(line)
    return lines


def behind_end(text):
    """The lines behind the specification, which are counted from the first of the text."""
    lines = hostile.Lines(text)
    ends = [at for at, (_, line) in enumerate(lines.content) if line.strip(b" \t") == b"end"]
    lines.content = lines.content[ends[0] + 1 :]
    return lines


def answer(text):
    """The lines that are written of a text, whose specification breaks no rule."""
    try:
        spec = model.read_spec(text.decode("latin-1").split("\n"))
        plans, numbers = read_plans(spec, behind_end(text))
        for op, plan in plans:
            check_plan(spec, op, plan)
    except Refused as refusal:
        return [str(refusal)]
    lines = text.split(b"\n")
    for number in numbers:
        lines[number - 1] = b""
    refusal = hostile.refusal_of(b"\n".join(lines), "run")
    if refusal is not None:
        return [refusal if refusal.startswith("refused ") else "refused " + refusal]
    calls = model.read_calls([line.decode() for number, line in behind_end(b"\n".join(lines)).content])
    return chosen_plans(spec, plans) + model.report_of(spec, calls)


# ---- the cases


class Cases:
    def __init__(self):
        self.lines = [
            '# What `relc hand` says of texts with plans between the specification and the workload (docs/LANGUAGE.md, "Written plans").',
            "# Written by hand.py.",
            "",
        ]

    def part(self, title, *words):
        self.lines += ["# ---- " + title, "#", *("# " + word for word in words), ""]

    def text(self, name, lines):
        self.lines += ["text " + name, *("|" + line for line in lines), ""]

    def case(self, title, between, wanted=None, spec=("hand_graph", GRAPH), work=WORK, command="hand"):
        """Plans of a specification that is written already. What is wanted is a refusal, or else the plans of these operations."""
        name, lines = spec
        body = between + work
        text = ("\n".join(lines + body) + "\n").encode("latin-1")
        found = answer(text) if command == "hand" else [hostile.refusal_of(text, command)]
        if isinstance(wanted, str):
            assert found == [wanted], (title, found, wanted)
        else:
            assert found[0].startswith("plan "), (title, found)
        self.lines += ["case " + title, "words relc " + command]
        if name:
            self.lines.append("use " + name)
        else:
            self.lines += ["|" + line for line in lines]
        for line in body:
            before, control, behind = line.partition("\x01")
            self.lines += ["|" + before] + (["cut", "bytes 1", "|" + behind] if control else [])
        if isinstance(wanted, str):
            self.lines.append("status 3")
        self.lines += ["out", *("|" + line for line in found), "run", ""]
        return found


def plan(text):
    return [line.strip() for line in text.split(",")]


FIND = plan(
    "plan find, lock k1 all, read e1 lookup, lock k2 all, read e2 lookup, read e3 scan, emit, commit, release k1, release k2"
)
PLANNED = model.plans_of(model.read_spec(list(GRAPH)))
INSERT = PLANNED[: PLANNED.index("plan del")]


def longer_of(op):
    """The planned plan of a query, but with all stripes locked."""
    at = PLANNED.index("plan " + op)
    lines = PLANNED[at : PLANNED.index("plan find", at + 1)]
    return [line.replace("keyed", "all") for line in lines]


def taken(cases):
    cases.part("Plans that are taken", "The specification has 22 lines. Each operation without a plan has its planned one.")
    cases.text("hand_graph", GRAPH)
    case = cases.case
    found = case("a plan of find", FIND)
    assert found[found.index("plan find") : found.index("journal 2")] == FIND
    planned = case("no plan at all", [])
    assert planned == PLANNED + found[found.index("journal 2") :]
    assert case("all plans as they are planned", PLANNED) == planned
    assert case("plans in another order", PLANNED[len(INSERT) :] + INSERT) == planned
    swapped = ["probe dst src" if line == "probe src dst" else line for line in INSERT]
    assert "probe dst src" in swapped
    assert case("the columns of a probe in another order", swapped) == planned
    assert case("blank lines and comments among plans", ["", *INSERT[:3], "# comment", "", *INSERT[3:], ""]) == planned
    assert case("words of a plan that stand apart", ["  plan\tins ", *("\t" + line.replace(" ", "  ") for line in INSERT[1:])]) == planned
    longer = plan("plan find, lock k1 keyed, lock k2 keyed shared, read e1 scan, read e2 lookup, read e3 scan, emit, commit, release k1, release k2")
    case("a query may lock some classes to write", longer)
    twice = plan("plan succ, lock k1 keyed shared, lock k2 keyed shared, read e1 lookup, read e1 lookup, read e2 scan, read e3 scan, emit, commit, release k2, release k1")
    case("an edge may be read twice", twice)
    names = [line.replace("op ins ", "op plan ").replace("op succ ", "op work ").replace("k1", "all") for line in GRAPH]
    named = [line.replace("succ", "work").replace("k1", "all") for line in plan("plan succ, lock k1 all shared, read e1 lookup, lock k2 keyed, read e2 scan, read e3 scan, emit, commit, release k1, release k2")]
    found = case("names that are words of plans", named, spec=(None, names), work=["work 1", "round", "0 plan 1 2 10", "0 work 1", "end"])
    assert "lock all all shared" in found
    calls = ["work 1", "round", '0 spawn 1 "new"', '0 move 1 "old"', "0 by 1", "end"]
    moves = plan("plan move, lock k keyed, probe pid, read e1 lookup, read e2 scan, found, apply, commit, release k")
    threads = ["work 2", "round", "0 ins 1 2 10", "round", "1 find 1 2", "round", "0 del 1 2", "round", "1 find 1 2", "end"]
    case("two threads by plans that are written", FIND + longer_of("succ"), work=threads)
    case("a plan of an update", moves, spec=(None, STATES), work=calls)


def lines(cases):
    cases.part("Lines of plans", "They are tested before the plans are.")
    case = cases.case
    for head in ("plan", "plan succ find", "plan foo", 'plan "succ"', "plan succ \x01", "plan Succ"):
        case("H1: %s" % head.replace("\x01", "and a bad byte"), [head], "refused H1 line 23")
    case("H1: two plans of one operation", FIND + FIND, "refused H1 line 33")
    for line in ("lock k1", "lock k1 keyed exclusive", "lock k1 shared", "end", '"emit"', "emit\x01", "emit emit", "read e1", "read e1 keyed", "release", "check", "absent 1", "commits"):
        case("H2: %s" % line.replace("\x01", " and a bad byte"), ["plan succ", line], "refused H2 line 24")
    case("H1: a second plan behind one without a statement", ["plan succ", "plan succ"], "refused H1 line 24")
    case("H1: a plan of the next operation and then again", ["plan succ", "plan find", "plan succ"], "refused H1 line 25")
    case("H2: a quoted work", ["plan succ", '"work" 1'], "refused H2 line 24")
    case("H2: plans", ["plan succ", "plans succ"], "refused H2 line 24")
    case("H2: check -1", ["plan ins", "check -1"], "refused H2 line 24")
    for op, line in (("succ", "lock k9 keyed"), ("succ", "release e1"), ("succ", "read e9 scan"), ("ins", "probe foo"), ("ins", "probe src src"), ("ins", "check 0"), ("ins", "check 2"), ("ins", "check 99999999999999999999")):
        case("H3: %s" % line, ["plan " + op, line], "refused H3 line 24")
    many = ["plan succ"] + ["lock k1 keyed shared"] * 257
    case("H4: 257 statements", many, "refused H4 line 280")
    case("256 statements", many[:-1], "refused K2 plan succ statement 1")
    case("H3 comes before H4", many[:-1] + ["lock k9 keyed"], "refused H3 line 280")
    case("H2 comes before H4", many[:-1] + ["emit 1"], "refused H2 line 280")
    case("S8: the lines run out", ["plan succ", "emit"], "refused S8 line 25", work=[])
    case("S8: they run out behind a head", ["plan succ"], "refused S8 line 24", work=[])
    case("S8 counts a comment at the end", ["plan succ", "# comment"], "refused S8 line 25", work=[])
    case("lines come before plans", plan("plan find, lock k2 keyed, lock k1 keyed, plan succ, lock k9 all"), "refused H3 line 27")
    cases.part("Lines that begin no plan", "They are the workload's.")
    case("no line", [], "refused S1 line 23", work=[])
    case("a statement without a plan", ["emit"], "refused S1 line 23")
    case("a quoted head", ['"plan" succ'], "refused S1 line 23")
    case("a head with a bad byte in its first word", ["plan\x01 succ"], "refused S1 line 23")
    case("a group is none of the calls of hand", FIND, "refused W1 line 35", work=["work 1", "round", "0 & 2", "0 succ 1", "0 succ 1", "end"])
    case("plans before the workload of run", FIND, "refused S1 line 23", command="run")
    case("plans before the workload of group", FIND, "refused S1 line 23", command="group")
    case("a plan behind the header of the workload", [], "refused S2 line 24", work=["work 1", "plan succ", *WORK[1:]])
    case("a plan, and a header that is none", FIND, "refused S1 line 33", work=["work x", *WORK[1:]])


def rules(cases):
    cases.part("Plans that break a rule", "The first of them, in written order, is refused for its first broken rule.")
    case = cases.case
    case("K1: no statement", ["plan succ"], "refused K1 plan succ statement 0")
    case("K1: only a lock", plan("plan succ, lock k1 keyed shared"), "refused K1 plan succ statement 1")
    case("K1: found in a query", plan("plan succ, found"), "refused K1 plan succ statement 0")
    case("K1: a check without a probe", plan("plan ins, check 01"), "refused K1 plan ins statement 0")
    case("K1: a lock of a remove is shared", plan("plan del, lock k1 keyed shared"), "refused K1 plan del statement 0")
    case("K1: a class is released twice", FIND[:-1] + ["release k1"], "refused K1 plan find statement 8")
    case("K1: a class is not released", FIND[:-1], "refused K1 plan find statement 8")
    case("K1: a release before the commit", FIND[:7] + FIND[8:9] + FIND[7:8] + FIND[9:], "refused K1 plan find statement 6")
    case("K2: against the order", plan("plan succ, lock k2 keyed shared, lock k1 keyed shared"), "refused K2 plan succ statement 1")
    case("K3: nothing is locked", plan("plan find, read e1 lookup"), "refused K3 plan find statement 0")
    case("K4: nothing is locked", plan("plan del, apply"), "refused K4 plan del statement 0")
    case("K5: an edge that is not reached", plan("plan find, lock k1 all, lock k2 all, read e2 lookup"), "refused K5 plan find statement 2")
    case("K6: nothing is visited", plan("plan succ, emit"), "refused K6 plan succ statement 0")
    case("K7: no check that the tuple is new", [line for line in INSERT if line != "absent"], "refused K7 plan ins statement 5")
    case("the first plan that is written", plan("plan find, lock k2 keyed, lock k1 keyed, plan succ, emit"), "refused K2 plan find statement 1")
    case("a good plan before a bad one", FIND + plan("plan succ, emit"), "refused K6 plan succ statement 0")
    values = ["work 1", "round", "0 ins 1 2", "end"]
    case("plans come before the workload", plan("plan succ, emit"), "refused K6 plan succ statement 0", work=values)
    case("the workload behind good plans", FIND, "refused W2 line 35", work=values)


def others(cases):
    cases.part("Other rules", "Those of the specification come before those of plans.")
    spec = [line.replace("-> weight", "->") if line.startswith("op find") else line for line in GRAPH]
    out = ["case O3 comes before H1", "words relc hand", *("|" + line for line in spec + ["plan foo"]), "status 3", "out"]
    cases.lines += out + ["|refused O3 op find", "run", ""]
    short = [line for line in GRAPH if not line.startswith("place e3")]
    out = ["case P1 comes before H1", "words relc hand", *("|" + line for line in short + ["plan foo"]), "status 3", "out"]
    cases.lines += out + ["|refused P1 edge e3", "run", ""]
    out = ["case S2 comes before H1", "words relc hand", *("|" + line for line in [*GRAPH[:10], "edge e2 u", *GRAPH[11:], "plan foo"]), "status 3", "out"]
    cases.lines += out + ["|refused S2 line 11", "run", ""]
    out = ["case hand refuses a longer input for its size", "words relc hand", "fill 10 16777217", "status 3", "out"]
    cases.lines += out + ["|refused size", "run", ""]


def main():
    if sys.argv[1:] == ["hand"]:
        return print("\n".join(answer(sys.stdin.buffer.read())))
    cases = Cases()
    for part in taken, lines, rules, others:
        part(cases)
    path = os.path.join(os.path.dirname(os.path.abspath(__file__)), "hand.case")
    with open(path, "w", encoding="latin-1", newline="\n") as file:
        file.write("\n".join(cases.lines).rstrip("\n") + "\n")


if __name__ == "__main__":
    main()
