#!/usr/bin/env python3
"""Writes dot.case: what `relc dot` and `relc dot OP` print for the three examples and some others.

It is a second writing of the page on the text (docs/LANGUAGE.md, "The drawing"), over the plans
that model.py makes, and shares nothing with the program. It takes its specifications to be
accepted.

    python3 dot.py              writes dot.case beside itself
    python3 dot.py dot [OP]     prints the drawing of the specification on standard input
"""

import os
import sys

import model
import specifications

COLOURS = ["#1b6ca8", "#b5442f", "#3c7d3c", "#7a4a9e", "#a0720b", "#0b7a75", "#a03668", "#555555"]
LINES = {"hash": "solid", "ordered": "dashed", "list": "bold", "singleton": "dotted"}
CELL = '<td align="left" balign="left">'
TABLE = '<table border="0" cellborder="1" cellspacing="0" cellpadding="4">'


def columns_in(spec, opening, columns, closing):
    """Columns in column order, in brackets."""
    return opening + " ".join(model.in_order(spec, columns)) + closing


def colour(spec, name):
    return COLOURS[spec.classes.index(name) % len(COLOURS)]


def node_line(spec, name):
    return '  "%s" [label="%s\\n%s"];' % (name, name, columns_in(spec, "{", spec.nodes[name], "}"))


def edge_line(spec, name, statements):
    """The statements are those of the drawn plan, without the line of its name."""
    source, target, kind, key = spec.edge[name]
    reads = [str(n) for n, text in enumerate(statements) if text.split()[:2] == ["read", name]]
    columns = columns_in(spec, "(", key, ")")
    label = " %s %s %s\\l lock %s\\l" % (name, kind, columns, spec.place[name])
    if reads:
        label += " read at %s\\l" % " ".join(reads)
    ink = colour(spec, spec.place[name])
    pen = ", penwidth=%d" % (5 if kind == "list" else 3) if reads else ""
    style = 'style=%s%s, color="%s", fontcolor="%s"' % (LINES[kind], pen, ink, ink)
    return '  "%s" -> "%s" [label="%s", %s];' % (source, target, label, style)


def class_lines(spec):
    """A row for each lock class; its stripes are numbered behind those of the classes before it."""
    lines, first = [], 0
    for name in spec.classes:
        count, columns = spec.stripes[name]
        row = '<td bgcolor="%s"><font color="white">%s</font></td>' % (colour(spec, name), name)
        row += "<td>%s</td><td>%d</td>" % (columns_in(spec, "(", columns, ")"), count)
        lines.append("    <tr>%s<td>%d..%d</td></tr>" % (row, first, first + count - 1))
        first += count
    return lines


def plan_lines(statements, op):
    lines = ['  "the plan" [shape=plain, label=<', "    " + TABLE]
    lines.append('    <tr><td align="right" balign="right"><br/>')
    lines += ["%d<br/>" % number for number, _ in enumerate(statements)]
    lines.append("</td>" + CELL + "plan %s<br/>" % op)
    lines += [text + "<br/>" for text in statements]
    return lines + ["</td></tr>", "    </table>>];"]


def dot_lines(spec, op=None):
    statements = []
    if op is not None:
        plans = model.plans_of(spec)
        at = plans.index("plan " + op)
        behind = plans[at + 1 :]
        ends = [n for n, text in enumerate(behind) if text.startswith("plan ")] + [len(behind)]
        statements = behind[: ends[0]]
    lines = ["digraph relc {"]
    lines.append('  node [shape=box, style=rounded, fontname="Helvetica", fontsize=11];')
    lines.append('  edge [fontname="Helvetica", fontsize=10, arrowsize=0.7];')
    lines += [node_line(spec, name) for name in spec.nodes]
    lines += [edge_line(spec, name, statements) for name in spec.edges]
    lines += ['  "lock classes" [shape=plain, label=<', "    " + TABLE]
    title = "lock classes, in the order in which they are taken"
    lines.append('    <tr><td colspan="4">%s</td></tr>' % title)
    heads = ["class", "columns", "stripes", "physical stripes"]
    lines.append("    <tr>%s</tr>" % "".join("<td>%s</td>" % head for head in heads))
    lines += class_lines(spec) + ["    </table>>];"]
    if op is not None:
        lines += plan_lines(statements, op)
    return lines + ["}"]


# ---- the file

HEAD = """# Drawings. dot.py, beside this file, writes it: a second writing of what is printed.
# Don't change the cases here.
#
# There are the three examples, alone and with the plan of each operation; a specification whose
# nodes have the words of Graphviz's language as their names; containers of all kinds; a
# specification that is as large as can be, whose sixteen classes have each colour twice; one with
# comments and empty lines, of which a drawing has nothing; and one without operations. A text
# that is refused is refused as by `relc plan`, before its operations are looked at."""

# The names of nodes are words of Graphviz's language.
KEYWORDS = """relc 1
col node num
col edge num
node graph
node digraph node
node subgraph node edge
edge strict graph digraph hash node
edge label digraph subgraph list edge
lock html 2 node
place strict html
place label html
op edge insert node edge
op graph remove node edge
op node query node -> edge
end"""


def dot_case(name, text, op=None):
    spec = model.read_spec(text.split("\n"))
    words = "dot" if op is None else "dot " + op
    return model.write_case(words, name, text.split("\n"), [], dot_lines(spec, op))


def commented_case(name, text, op=None):
    """The same drawing, of a text with a comment or an empty line behind each line."""
    spec = model.read_spec(text.split("\n"))
    lines = []
    for number, line in enumerate(text.split("\n")):
        lines += [line, '  # "a" -> <b>' if number % 2 else ""]
    words = "dot" if op is None else "dot " + op
    return model.write_case(words, name, ["# It is drawn.", ""] + lines, [], dot_lines(spec, op))


def refused_case(name, words, text, refusal):
    lines = model.write_case(words, name, text.split("\n"), [], [refusal])
    return lines[:3] + ["status 3"] + lines[3:]


def failed_case(name, words, text, number, written):
    """A text is written line by line: where one write fails, the lines before it are written."""
    lines = ["", "case " + name, "words relc " + words] + model.quoted(text.split("\n"))
    lines += ["failed-writes %d" % number, "status 5"]
    return lines + (["out"] + model.quoted(written) if written else []) + ["run"]


def dot_cases():
    lines = HEAD.split("\n")
    drawn = [
        ("the graph", specifications.GRAPH),
        ("the scheduler", specifications.SCHEDULER),
        ("the seats", specifications.SEATS),
        ("a specification in Graphviz's words", KEYWORDS),
        ("containers of all kinds", specifications.KINDS),
        ("the largest specification", "\n".join(specifications.largest_spec())),
    ]
    for name, text in drawn:
        lines += dot_case(name + " is drawn", text)
        ops = list(model.read_spec(text.split("\n")).ops)
        for op in ops if len(ops) < 9 else [ops[0], ops[8], ops[-1]]:
            lines += dot_case("%s is drawn with the plan of %s" % (name, op), text, op)
    graph, cut = specifications.GRAPH, "\n".join(specifications.GRAPH.split("\n")[:-1])
    count = len(cut.split("\n"))
    lines += commented_case("a text with comments and empty lines is drawn", graph)
    name = "a text with comments and empty lines is drawn with the plan of succ"
    lines += commented_case(name, graph, "succ")
    bare = "\n".join(line for line in graph.split("\n") if not line.startswith("op "))
    lines += dot_case("a specification without operations is drawn", bare)
    name = "a specification without operations has none of a name"
    lines += refused_case(name, "dot succ", bare, "refused operation")
    loose = graph.replace("place e3 k2\n", "")
    for name, op in [
        ("an operation that isn't there is refused", "next"),
        ("a name of another kind is no operation's", "e1"),
        ("a part of an operation's name is refused", "suc"),
        ("a name of 16 bytes is looked for", "abcdefghijklmn_6"),
    ]:
        lines += refused_case(name, "dot " + op, graph, "refused operation")
    for words in ["dot", "dot succ", "dot next"]:
        behind = "`relc %s`" % words
        line = "refused S8 line %d" % (count + 1)
        lines += refused_case(behind + " refuses a text that is cut", words, cut, line)
        line = "refused P1 edge e3"
        lines += refused_case(behind + " refuses an edge on no class", words, loose, line)
        # `end` stands in line count + 1, and what stands behind it in the next.
        line = "refused S8 line %d" % (count + 2)
        name = behind + " refuses a workload behind the specification"
        lines += refused_case(name, words, graph + "\nwork 1", line)
    whole = dot_lines(model.read_spec(graph.split("\n")))
    for number, name in [(3, "the third"), (len(whole), "the last")]:
        name += " write of a drawing fails"
        lines += failed_case(name, "dot", graph, number, whole[: number - 1])
    planned = dot_lines(model.read_spec(graph.split("\n")), "succ")
    begun = next(n for n, text in enumerate(planned, 1) if text.endswith("plan succ<br/>"))
    for number, name in [
        (begun, "the write of a plan's name in a drawing fails"),
        (len(planned), "the last write of a drawing with a plan fails"),
    ]:
        lines += failed_case(name, "dot succ", graph, number, planned[: number - 1])
    lines += failed_case("the write of a refused operation fails", "dot next", graph, 1, [])
    return "\n".join(lines) + "\n"


def main():
    if len(sys.argv) > 1:
        spec = model.read_spec(sys.stdin.read().replace("\r", "").split("\n"))
        print("\n".join(dot_lines(spec, *sys.argv[2:])))
        return
    path = os.path.join(os.path.dirname(os.path.abspath(__file__)), "dot.case")
    with open(path, "w", encoding="ascii") as file:
        file.write(dot_cases())


if __name__ == "__main__":
    main()
