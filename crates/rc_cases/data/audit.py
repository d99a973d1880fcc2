#!/usr/bin/env python3
"""Writes audit.case: what `relc audit` says of printed runs, `relc audit group` of those with groups, and `relc audit bare` of journals
alone, whole, changed and cut.

What it is to say is told here by hand, from docs/LANGUAGE.md ("The judge"). Each answer is also
worked out by the definition itself: the reports of all schedules of the workload are printed, by
the rules that model.py writes a second time, and the first line is sought with which none of them
begins. That shares nothing with the program, which goes over the lines once.

    python3 audit.py            writes audit.case beside itself
    python3 audit.py judge      judges the text on standard input, whose calls must be few
    python3 audit.py judge group    judges one whose calls may stand in groups
    python3 audit.py judge bare     judges one with a journal alone
"""

import os
import sys

import model

GRAPH = """relc 1
col src num
col dst num
col weight num
fd src dst -> weight
node root
node u src
node w src dst
node z src dst weight
edge e1 root u hash src
edge e2 u w ordered dst
edge e3 w z singleton weight
lock k1 8 src
lock k2 4 src
place e1 k1
place e2 k2
place e3 k2
op ins insert src dst
op del remove src dst
op succ query src -> dst weight
op find query src dst -> weight
end""".split("\n")

STATES = """relc 2
col pid num
col state text
fd pid -> state
node root
node p pid
node s pid state
edge e1 root p hash pid
edge e2 p s singleton state
lock k 4 pid
place e1 k
place e2 k
op spawn insert pid
op by query pid -> state
op move update pid
end""".split("\n")

# ---- the definition


def rounds_of(lines):
    """The rounds of a workload's lines, each the turns of each thread in order: a call, or those of a group."""
    threads, rounds, more = int(lines[0].split()[1]), [], 0
    for line in lines[1:-1]:
        if line == "round":
            rounds.append([[] for _ in range(threads)])
            continue
        thread, op, *values = model.words_of(line)
        if op == "&":
            rounds[-1][thread].append([])
            more = values[0]
        elif more:
            rounds[-1][thread][-1].append((thread, op, values))
            more -= 1
        else:
            rounds[-1][thread].append([(thread, op, values)])
    return rounds


def orders(queues):
    """All orders of a round's turns in which each thread keeps its own."""
    if not any(queues):
        yield []
    for thread, queue in enumerate(queues):
        if queue:
            left = [other[1:] if other is queue else other for other in queues]
            for others in orders(left):
                yield [queue[0]] + others


def schedules(rounds):
    """All orders of the turns of all rounds, one round behind another."""
    if not rounds:
        yield []
        return
    for first in orders(rounds[0]):
        for others in schedules(rounds[1:]):
            yield first + others


def report_of(spec, turns):
    """The lines of the journal, in which a group has a line for its head, and of the final relation."""
    relation, lines = [], ["journal %d" % len(turns)]
    for place, turn in enumerate(turns):
        if len(turn) > 1:
            lines.append("%d %d & %d" % (place, turn[0][0], len(turn)))
        for thread, op, values in turn:
            reply = model.step(spec, relation, op, values)
            lines.append("%d %d %s -> %s" % (place, thread, " ".join([op] + [model.printed_value(value) for value in values]), reply))
    return lines + ["final %d" % len(relation)] + [model.printed_tuple(row) for row in relation] + ["end"]


def journal_of(report):
    """The lines of a report's journal alone, without groups: the count and the entries, and then `end`."""
    count = int(report[0].split()[1])
    return report[: 1 + count] + ["end"]


def good_reports(spec_lines, work_lines, bare=False):
    """The lines of what each run of the workload prints, or of its journal alone."""
    spec = model.read_spec(list(spec_lines))
    plans = model.plans_of(spec)
    reports = [report_of(spec, turns) for turns in schedules(rounds_of(work_lines))]
    return [journal_of(report) if bare else plans + report for report in reports]


def content(text):
    """The content lines of a text with their numbers, and one more than the number of its last line."""
    lines = text.split("\n")
    if lines[-1] == "":
        lines.pop()
    numbered = [(number, line[:-1] if line.endswith("\r") else line) for number, line in enumerate(lines, 1)]
    return [(n, line) for n, line in numbered if line.strip(" \t") and not line.strip(" \t").startswith("#")], len(lines) + 1


def judged(spec_lines, work_lines, text, bare=False):
    """The verdict on the content lines of a text that stand behind so many lines of a specification and a workload."""
    lines, past_end = content(text)
    lines = lines[len(spec_lines) + len(work_lines) :]
    reports = good_reports(spec_lines, work_lines, bare)
    for count, (number, line) in enumerate(lines):
        reports = [report for report in reports if len(report) > count and report[count] == line]
        if not reports:
            return "bad line %d" % number
    whole = [report for report in reports if len(report) == len(lines)]
    if not whole:
        return "bad line %d" % past_end
    journal = [line for line in whole[0] if line.startswith("journal ")]
    return "legal " + journal[0].split()[1]


# ---- cases


class Cases:
    """The cases of one specification and workload, which stand behind each other in the file."""

    def __init__(self, name, spec, work, bare=False, word="bare"):
        self.name, self.spec, self.work, self.bare = name, spec, work, bare
        self.words = "words relc audit " + word if bare or word != "bare" else "words relc audit"
        self.plans = [] if bare else model.plans_of(model.read_spec(list(spec)))
        self.first = good_reports(spec, work, bare)[0]
        self.out = []

    def text(self, name, lines):
        self.out += ["text " + name] + ["|" + line for line in lines] + [""]

    def line(self, line):
        """A line of the input. What isn't printed stands as its number."""
        before, control, behind = line.partition("\x01")
        self.out.append("|" + before)
        if control:
            self.out += ["cut", "bytes 1", "|" + behind]

    def case(self, title, lines, wanted, ends=None):
        """A case of these lines behind the workload. Each ends with a line feed, but where `ends` says otherwise."""
        ends = ends or {}
        whole = list(self.spec) + list(self.work) + list(lines)
        text = "".join(line + ends.get(number, "\n") for number, line in enumerate(whole, 1))
        found = judged(self.spec, self.work, text, self.bare)
        assert found == wanted, (title, found, wanted)
        self.out += ["case " + title, self.words]
        at = 0
        if not ends:
            self.out += ["use %s" % self.name]
            at = len(self.spec) + len(self.work)
            plans = len(self.plans)
            if self.plans and list(lines[:plans]) == self.plans:
                self.out += ["use plans_%s" % self.name]
                at += plans
        for number, line in enumerate(whole, 1):
            if number > at:
                self.line(line)
                end = ends.get(number, "\n")
                if end != "\n":
                    self.out.append("cut")
                if end not in ("\n", ""):
                    self.out.append("bytes " + " ".join(str(ord(byte)) for byte in end))
        if wanted.startswith("bad"):
            self.out.append("status 1")
        self.out += ["out", "|" + wanted, "run", ""]


def changed(lines, old, new):
    """The lines with one changed."""
    assert lines.count(old) == 1, old
    return [new if line == old else line for line in lines]


def without(lines, old):
    assert lines.count(old) == 1, old
    return [line for line in lines if line != old]


def behind(lines, old):
    """The lines up to this one."""
    return lines[: lines.index(old) + 1]


def heading(title, *words):
    return ["# ---- " + title, "#"] + ["# " + line for line in words] + [""]


def one_thread():
    work = ["work 1", "round", "0 ins 1 2 10", "0 succ 1", "end"]
    cases = Cases("audit_graph", GRAPH, work)
    cases.text("audit_graph", GRAPH + work)
    cases.text("plans_audit_graph", cases.plans)
    report = cases.first
    put, got = "0 0 ins 1 2 10 -> inserted", "1 0 succ 1 -> 1 rows (2 10)"
    assert len(GRAPH) == 22 and len(report) == 47 and report[-6:-4] == ["journal 2", put]
    cases.case("a printed run is legal", report, "legal 2")
    cases.out += heading("Cut", "The lines begin a good report, and the first missing line is the bad one.")
    cases.case("a report that ends behind the count of tuples is bad", behind(report, "final 1"), "bad line 73")
    cases.case(
        "of a report that is cut, the bad line is one past the last of the text",
        behind(report, "final 1") + ["", "# the tuple is missing"],
        "bad line 75",
    )
    cases.case("no report at all is bad", [], "bad line 28")
    cases.case("a report that ends before its journal is bad", report[: report.index("journal 2")], "bad line 69")
    cases.case("a report without its last line is bad", report[:-1], "bad line 74")
    cases.out += heading(
        "Lines",
        "Content lines are compared byte for byte: blank lines, comments and one carriage return before a line's end are no part",
        "of them, and everything else is.",
    )
    cases.case("a report's last line needs no line feed", report, "legal 2", {74: ""})
    cases.case(
        "lines of a report may end in a carriage return and a line feed",
        report,
        "legal 2",
        {number: "\r\n" for number in range(1, 75)},
    )
    spread = [other for line in report for other in ((line, "", "# " + line) if line == put else (line,))]
    cases.case("blank lines and comments may stand between the lines of a report", spread, "legal 2")
    cases.case("a comment may stand behind the end of a report", report + ["# done"], "legal 2")
    cases.case("a second carriage return is a byte of an entry", report, "bad line 70", {70: "\r\r\n"})
    for title, line in (
        ("a space at an entry's end is a byte of it", put + " "),
        ("a place has no zero in front", "0" + put),
        ("a thread has no zero in front", "0 00 ins 1 2 10 -> inserted"),
        ("a value has no zero in front", "0 0 ins 1 2 010 -> inserted"),
        ("the first place is 0", "1 0 ins 1 2 10 -> inserted"),
        ("a thread that the workload does not have makes no call", "0 1 ins 1 2 10 -> inserted"),
        ("a byte behind a thread is none of it", "0 0\x01 ins 1 2 10 -> inserted"),
        ("a reply is the plain one", "0 0 ins 1 2 10 -> present"),
        ("an entry has a space before its thread", "00 ins 1 2 10 -> inserted"),
        ("an entry has more than its place", "0"),
    ):
        cases.case(title, changed(report, put, line), "bad line 70")
    for title, line in (
        ("a tab before the journal is a byte of its line", "\tjournal 2"),
        ("one space stands before the journal's number", "journal  2"),
        ("the journal's number has no zero in front", "journal 02"),
        ("a journal has as many entries as the workload has calls", "journal 3"),
        ("and not fewer", "journal 1"),
    ):
        cases.case(title, changed(report, "journal 2", line), "bad line 69")
    cases.out += heading("Entries", "Each entry is the next call of a thread, with the reply of the plain relation.")
    cases.case("a query has the rows that are there", changed(report, got, "1 0 succ 1 -> 1 rows (2 11)"), "bad line 71")
    cases.case("an entry that is left out is missing", without(report, put), "bad line 70")
    at = report.index(put)
    cases.case(
        "a thread's calls keep their order",
        report[:at] + ["0 0 succ 1 -> 0 rows", "1 0 ins 1 2 10 -> inserted"] + report[at + 2 :],
        "bad line 70",
    )
    cases.case("a call is made once", changed(report, got, "1 0 ins 1 2 10 -> present"), "bad line 71")
    cases.case(
        "no entry stands behind the last",
        report[: at + 2] + ["2 0 succ 1 -> 1 rows (2 10)"] + report[at + 2 :],
        "bad line 72",
    )
    cases.out += heading("The final relation and the plans", "They are those of the history and of the planner, and nothing stands behind `end`.")
    cases.case("the count of tuples is theirs", changed(report, "final 1", "final 2"), "bad line 72")
    cases.case("the last tuples are those that the calls leave", changed(report, "(1 2 10)", "(1 2 11)"), "bad line 73")
    cases.case("nothing stands behind the end", report + ["end"], "bad line 75")
    second = report.index("plan succ") + 1
    assert report[second] == "lock k1 keyed shared"
    other = list(report)
    assert other[24] == "lock k2 keyed shared", other[24]
    other[24] = "lock k2 all shared"
    cases.case("a plan is the planned one", other, "bad line 52")
    cases.case("the plans stand in written order", ["plan del"] + report[1:], "bad line 28")
    cases.case("a report has its plans", report[report.index("journal 2") :], "bad line 28")
    return cases.out


def barrier():
    work = ["work 2", "round", "1 ins 1 2 10", "round", "0 succ 1", "end"]
    cases = Cases("audit_rounds", GRAPH, work)
    cases.text("audit_rounds", GRAPH + work)
    cases.text("plans_audit_rounds", cases.plans)
    report = cases.first
    at = report.index("journal 2") + 1
    cases.out += heading("Rounds", "A round's calls stand before those of the next. The report begins on line 29, its entries on line 71.")
    cases.case("a run of two rounds is legal", report, "legal 2")
    cases.case(
        "a call of the next round comes too early",
        report[:at] + ["0 0 succ 1 -> 0 rows", "1 1 ins 1 2 10 -> inserted"] + report[at + 2 :],
        "bad line 71",
    )
    return cases.out


def orders_of_threads():
    work = ["work 2", "round", "0 ins 1 2 10", "1 ins 1 2 11", "0 find 1 2", "end"]
    cases = Cases("audit_threads", GRAPH, work)
    cases.text("audit_threads", GRAPH + work)
    cases.text("plans_audit_threads", cases.plans)
    plans = cases.plans
    a, b = "0 ins 1 2 10 -> ", "1 ins 1 2 11 -> "

    def report(entries, row):
        numbered = ["%d %s" % (place, entry) for place, entry in enumerate(entries)]
        return plans + ["journal 3"] + numbered + ["final 1", row, "end"]

    cases.out += heading(
        "Threads",
        "Within a round the calls of different threads may stand in any order, each with the reply of its place.",
    )
    for title, entries, row, wanted in (
        ("thread 1 last", (a + "inserted", "0 find 1 2 -> 1 rows (10)", b + "present"), "(1 2 10)", "legal 3"),
        ("thread 1 between", (a + "inserted", b + "present", "0 find 1 2 -> 1 rows (10)"), "(1 2 10)", "legal 3"),
        ("thread 1 first", (b + "inserted", a + "present", "0 find 1 2 -> 1 rows (11)"), "(1 2 11)", "legal 3"),
        ("a thread out of its order", ("0 find 1 2 -> 0 rows", a + "inserted", b + "present"), "(1 2 10)", "bad line 71"),
        ("a read of a tuple that is not there", (b + "inserted", a + "present", "0 find 1 2 -> 1 rows (10)"), "(1 2 11)", "bad line 73"),
        ("an insert over a tuple that is there", (b + "inserted", a + "inserted", "0 find 1 2 -> 1 rows (10)"), "(1 2 10)", "bad line 72"),
        ("another last tuple than the entries leave", (b + "inserted", a + "present", "0 find 1 2 -> 1 rows (11)"), "(1 2 10)", "bad line 75"),
    ):
        cases.case(title, report(entries, row), wanted)
    return cases.out


def few_calls():
    out = heading("Few calls", "A workload may have no call, and a round none.")
    for name, work, title, wanted in (
        ("audit_empty", ["work 1", "end"], "a run without a call is legal", "legal 0"),
        ("audit_gaps", ["work 3", "round", "round", "2 succ 1", "round", "end"], "rounds without a call are passed over", "legal 1"),
    ):
        cases = Cases(name, GRAPH, work)
        cases.text(name, GRAPH + work)
        cases.text("plans_" + name, cases.plans)
        cases.case(title, cases.first, wanted)
        out += cases.out
    return out


def texts():
    work = ["work 1", "round", '0 spawn 7 "to run"', "0 by 7", '0 move 7 "done"', '0 spawn 7 "again"', "end"]
    cases = Cases("audit_states", STATES, work)
    cases.text("audit_states", STATES + work)
    cases.text("plans_audit_states", cases.plans)
    report, start = cases.first, len(STATES) + len(work) + 1
    cases.out += heading("Texts", "A report with texts, whole, without each of its lines, and cut before each of its lines.")
    cases.case("a run with texts is legal", report, "legal 4")
    for at, line in enumerate(report):
        number = start + at
        same = at + 1 < len(report) and report[at + 1] == line
        assert not same
        wanted = "bad line %d" % (number if at + 1 < len(report) else number)
        cases.case("without line %d: %s" % (number, line), report[:at] + report[at + 1 :], wanted)
        cases.case("cut before line %d" % number, report[:at], "bad line %d" % number)
    return cases.out


def refused():
    out = heading(
        "Refusals",
        "They are those of `run`: of the specification, of its rules, and of the workload up to its `end`; and of the whole text's",
        "length. No rule is one of the lines behind it.",
    )

    def case(title, lines, wanted):
        return ["case " + title, "words relc audit"] + lines + ["status 3", "out", "|" + wanted, "run", ""]

    spec = ["|" + line for line in GRAPH]
    out += case("a specification that is cut off is refused", ["|relc 1"], "refused S8 line 2")
    out += case("a line of the specification is no form", ["|relc 1", "|column n num"], "refused S2 line 2")
    out += case("a workload must be there", spec, "refused S1 line 23")
    out += case("a workload must have its end", spec + ["|work 1", "|round"], "refused S8 line 25")
    out += case("a call has its values", spec + ["|work 1", "|round", "|0 ins 1 2 10", "|0 succ 1 2", "|end", "|end"], "refused W2 line 26")
    out += case("`audit` judges no groups", spec + ["|work 1", "|round", "|0 & 2", "|0 succ 1", "|0 succ 1", "|end"], "refused W1 line 25")
    out += case("audit refuses a longer input for its size", ["fill 10 16777217"], "refused size")
    out += case("audit reads the longest input", ["fill 10 16777216"], "refused S1 line 16777217")
    return out


def groups():
    work = ["work 2", "round", "0 ins 1 2 10", "1 & 2", "1 find 1 2", "1 del 1 2", "end"]
    cases = Cases("audit_groups", GRAPH, work, word="group")
    cases.text("audit_groups", GRAPH + work)
    cases.text("plans_audit_groups", cases.plans)
    ins, head, find, delete = "0 ins 1 2 10 -> inserted", "1 & 2", "1 find 1 2 -> ", "1 del 1 2 -> "

    def report(entries, rows):
        return cases.plans + ["journal 2"] + entries + ["final %d" % len(rows)] + rows + ["end"]

    first = ["0 " + ins, "1 " + head, "1 " + find + "1 rows (10)", "1 " + delete + "removed (1 2 10)"]
    last = ["0 " + head, "0 " + find + "0 rows", "0 " + delete + "absent", "1 " + ins]
    cases.out += heading(
        "Groups",
        "`audit group` judges what `group` printed: the calls of a group stand together behind its head. The report begins on line",
        "30, its entries on line 72.",
    )
    cases.case("a group behind another thread's call is legal", report(first, []), "legal 2")
    cases.case("a group before another thread's call is legal", report(last, ["(1 2 10)"]), "legal 2")
    for title, entries, wanted in (
        ("no other call stands within a group", last[:2] + [last[3], last[2]], "bad line 74"),
        ("nor between its head and its first call", [last[0], last[3]] + last[1:3], "bad line 73"),
        ("a group has its head", first[:1] + first[2:], "bad line 73"),
        ("a head has the number of the group's calls", [first[0], "1 1 & 3"] + first[2:], "bad line 73"),
        ("the calls of a group keep their order", first[:2] + ["1 " + delete + "removed (1 2 10)", "1 " + find + "0 rows"], "bad line 74"),
        ("each call of a group has the plain reply", first[:2] + ["1 " + find + "0 rows", first[3]], "bad line 74"),
        ("and so has its last one", first[:3] + ["1 " + delete + "absent"], "bad line 75"),
        ("the calls of a group have one place", first[:3] + ["2 " + delete + "removed (1 2 10)"], "bad line 75"),
        ("and are of one thread", first[:2] + ["1 0 find 1 2 -> 1 rows (10)", first[3]], "bad line 74"),
        ("a group is made once", first + first[1:], "bad line 76"),
    ):
        cases.case(title, report(entries, []), wanted)
    cases.case("a report that ends behind a group's head is bad", behind(report(first, []), first[1]), "bad line 74")
    cases.case("and so is one that ends within a group", behind(report(first, []), first[2]), "bad line 75")
    single = Cases("audit_graph", GRAPH, ["work 1", "round", "0 ins 1 2 10", "0 succ 1", "end"], word="group")
    single.case("`audit group` judges a run without groups too", single.first, "legal 2")
    return cases.out + single.out


def journals():
    work = ["work 1", "round", "0 ins 1 2 10", "0 succ 1", "end"]
    cases = Cases("bare_graph", GRAPH, work, bare=True)
    whole = good_reports(GRAPH, work)[0]
    report = whole[whole.index("journal 2") :]
    journal, got = cases.first, "1 0 succ 1 -> 1 rows (2 10)"
    assert journal == report[:3] + ["end"] and report[3] == "final 1" and journal[2] == got
    cases.out += heading(
        "Journals alone",
        "`audit bare` wants the count, the entries and `end`, and nothing else. They begin on line 28.",
    )
    cases.text("bare_graph", GRAPH + work)
    cases.case("a journal alone is legal", journal, "legal 2")
    cases.case("blank lines and comments may stand in a journal", [other for line in journal for other in (line, "", "# " + line)], "legal 2")
    cases.case("a journal's last line needs no line feed", journal, "legal 2", {31: ""})
    cases.case("in a journal a query has the rows that are there", changed(journal, got, "1 0 succ 1 -> 0 rows"), "bad line 30")
    cases.case("in a journal a thread's calls keep their order", ["journal 2", "0 0 succ 1 -> 0 rows", "1 0 ins 1 2 10 -> inserted", "end"], "bad line 29")
    cases.case("an entry that is left out of a journal is missing", without(journal, journal[1]), "bad line 29")
    cases.case("a journal ends with its end", journal[:-1], "bad line 31")
    cases.case("no journal at all is bad", [], "bad line 28")
    cases.case("a journal begins with its count", journal[1:], "bad line 28")
    cases.case("its count is that of the workload's calls", changed(journal, "journal 2", "journal 3"), "bad line 28")
    cases.case("no plan stands before a journal", whole, "bad line 28")
    cases.case("no relation stands behind a journal", report, "bad line 31")
    cases.case("nothing stands behind a journal's end", journal + ["end"], "bad line 32")
    run = Cases("bare_graph", GRAPH, work)
    run.case("without `bare` a journal alone is bad", journal, "bad line 28")
    return cases.out + run.out


def journals_of_threads():
    work = ["work 2", "round", "0 ins 1 2 10", "1 ins 1 2 11", "round", "0 find 1 2", "end"]
    cases = Cases("bare_threads", GRAPH, work, bare=True)
    cases.text("bare_threads", GRAPH + work)
    a, b, find = "0 ins 1 2 10 -> ", "1 ins 1 2 11 -> ", "0 find 1 2 -> "
    for title, entries, wanted in (
        ("a journal with thread 0 first", (a + "inserted", b + "present", find + "1 rows (10)"), "legal 3"),
        ("a journal with thread 1 first", (b + "inserted", a + "present", find + "1 rows (11)"), "legal 3"),
        ("a journal with a call of the next round too early", (a + "inserted", find + "1 rows (10)", b + "present"), "bad line 32"),
        ("a journal with a reply of another order", (b + "inserted", a + "present", find + "1 rows (10)"), "bad line 33"),
    ):
        cases.case(title, ["journal 3"] + ["%d %s" % (place, entry) for place, entry in enumerate(entries)] + ["end"], wanted)
    empty = Cases("bare_empty", GRAPH, ["work 1", "end"], bare=True)
    empty.text("bare_empty", GRAPH + empty.work)
    empty.case("the journal of a run without a call is legal", ["journal 0", "end"], "legal 0")
    return cases.out + empty.out


def refused_journals():
    out = heading("Refusals of `audit bare`", "They are those of `audit`.")

    def case(title, lines, wanted):
        return ["case " + title, "words relc audit bare"] + lines + ["status 3", "out", "|" + wanted, "run", ""]

    spec = ["|" + line for line in GRAPH]
    out += case("before a journal a workload must be there", spec, "refused S1 line 23")
    out += case("before a journal a workload must have its end", spec + ["|work 1", "|round"], "refused S8 line 25")
    out += case("a journal's groups are not judged", spec + ["|work 1", "|round", "|0 & 2", "|0 succ 1", "|0 succ 1", "|end"], "refused W1 line 25")
    out += case("audit bare refuses a longer input for its size", ["fill 10 16777217"], "refused size")
    return out


def all_cases():
    lines = [
        "# What `relc audit` says of printed runs, `relc audit group` of those with groups, and `relc audit bare` of journals alone, whole,",
        "# changed and cut (docs/LANGUAGE.md, \"The judge\"). Written by audit.py.",
        "",
    ]
    lines += heading("One thread", "The specification has 22 lines and the workload 5; the report begins on line 28, its entries on line 70.")
    lines += one_thread() + barrier() + orders_of_threads() + few_calls() + texts() + refused() + groups()
    return lines + journals() + journals_of_threads() + refused_journals()


def main():
    if sys.argv[1:] in (["judge"], ["judge", "group"], ["judge", "bare"]):
        text = sys.stdin.read()
        lines = [line for _, line in content(text)[0]]
        first = lines.index("end") + 1
        second = lines.index("end", first) + 1
        print(judged(lines[:first], lines[first:second], text, "bare" in sys.argv))
        return
    path = os.path.join(os.path.dirname(os.path.abspath(__file__)), "audit.case")
    with open(path, "w", encoding="utf-8", newline="\n") as file:
        file.write("\n".join(all_cases()).rstrip("\n") + "\n")


if __name__ == "__main__":
    main()
