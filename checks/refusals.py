#!/usr/bin/env python3
"""The rules by which RELC refuses a text, as data: bindings/rust/src/rules.txt.

    checks/refusals.py --write        writes docs/REFUSALS.md and bindings/c/relc_rules.h from it
    checks/refusals.py --check        whether both are what it would write, and whether each rule that is printed has its sentences
    checks/refusals.py --try PROGRAM  whether the program refuses each example by its rule, and takes the text as it stands
"""
import os
import re
import subprocess
import sys
import textwrap

TOP = os.path.dirname(os.path.dirname(os.path.abspath(__file__)))
DATA = os.path.join(TOP, "bindings", "rust", "src", "rules.txt")
PAGE = os.path.join(TOP, "docs", "REFUSALS.md")
HEADER = os.path.join(TOP, "bindings", "c", "relc_rules.h")
GROUPS = [
    ("Lines", "S", "A refusal by one of these names the line, counted from 1."),
    ("Adequacy", "A", "The decomposition keeps every tuple and makes none. A refusal names a node, an edge or a column."),
    ("Placement", "P", "Each row has one lock, and locks are taken in one order. A refusal names an edge or a class."),
    ("Operations", "O", "A refusal names the operation."),
    ("Written plans", "H", "`relc hand` reads plans between a specification and a workload, and a program may open a store with them, where S8 may come too. A refusal names the line: in a program that of the plans' text."),
    ("Plans", "K", "Each written plan is tested by these. A refusal names the operation and the statement, counted from 0."),
    ("Calls", "W", "Only a workload has these, and W4 a text of shapes too, with which a program opens a store. A refusal names the line."),
]


class Rule:
    def __init__(self, name):
        self.name = name
        self.asks = self.does = self.advice = ""
        self.old = []
        self.new = []


def read():
    """The rules, the forms of lines, of shapes and of statements, and the lines of the text that the examples change."""
    rules, forms, shapes, statements, text, part = [], [], [], [], [], None
    for line in open(DATA, encoding="ascii").read().split("\n"):
        word, _, rest = line.partition(" ")
        if line in ("forms", "shapes", "statements", "text"):
            part = line
        elif part == "text":
            text.append(line)
        elif part == "forms":
            forms.append(line)
        elif part == "shapes":
            shapes.append(line)
        elif part == "statements":
            statements.append(line)
        elif word == "rule":
            rules.append(Rule(rest))
        elif word in ("asks", "does"):
            setattr(rules[-1], word, rest)
        elif word == "try":
            rules[-1].advice = rest
        elif word == "-":
            rules[-1].old.append(rest)
        elif word == "+":
            rules[-1].new.append((1, rest))
        elif word == "*":
            count, _, repeated = rest.partition(" ")
            rules[-1].new.append((int(count), repeated))
        elif line and word != "#":
            sys.exit(f"refusals.py: no such line: {line}")
    return rules, *([line for line in lines if line] for lines in (forms, shapes, statements, text))


def changed(text, rule):
    """The text with the new lines in the place of the first old one, and without the other old ones."""
    lines = []
    for line in text:
        if line == rule.old[0]:
            lines += [new for count, new in rule.new for _ in range(count)]
        elif line not in rule.old:
            lines.append(line)
    return lines


def wrapped(paragraph):
    return textwrap.wrap(paragraph, 120, break_long_words=False, break_on_hyphens=False) + [""]


def page(rules, forms, shapes, statements, text):
    out = ["# Why a text is refused", ""]
    out += wrapped(
        "RELC refuses a specification by the first rule that it breaks, and so shapes of further operations, and plans that are written for it. This page says of each rule what it asks, what the item or "
        "line that the refusal names does, and what to try; a store that a program opens says the same (`Display` of the crate's "
        "`Error`, `relc_rule_text` in C). It is made by `checks/refusals.py` from `bindings/rust/src/rules.txt`. The rules in full are in "
        "[LANGUAGE.md](LANGUAGE.md) and [RULES.md](RULES.md)."
    )
    out += wrapped(
        "Each example changes the text at the end of this page: with the lines marked `+` in the place of the first that is marked "
        "`-`, and without the others that are, it is refused; as it stands it isn't. Those of S, A, P and O change the specification alone, up to the "
        "first `end`, as `relc check` reads it; those of H and K the whole, as `relc hand` reads it, and those of W as `relc run` does, W4 `relc open` and W5 `relc group`. Besides, a text of more than 2^24 bytes is "
        "`refused size`, and `relc dot OP` with no such operation `refused operation`."
    )
    for title, letter, what in GROUPS:
        out += [f"## {title}", "", what, ""]
        for rule in rules:
            if rule.name[0] != letter:
                continue
            out += [f"### {rule.name}", ""]
            out += wrapped(rule.asks) + wrapped(f"*Broken:* {rule.does}") + wrapped(f"*Try:* {rule.advice}")
            out += ["```diff"] + [f"-{line}" for line in rule.old] + [f"+{line}" + (f" ({count} times)" if count > 1 else "") for count, line in rule.new] + ["```", ""]
            if rule.name == "S2":
                out += wrapped("The forms of a specification's lines, with what may be left out in brackets; those of a workload are in LANGUAGE.md:")
                out += ["```"] + forms + ["```", ""]
                out += wrapped("Those of the lines of a text of shapes:")
                out += ["```"] + shapes + ["```", ""]
            if rule.name == "H2":
                out += wrapped("The forms of the lines of plans, with what may be left out in brackets:")
                out += ["```"] + statements + ["```", ""]
    out += ["## The text", "", "```"] + text + ["```", ""]
    return "\n".join(out)


def quoted(text):
    return '"' + text.replace("\\", "\\\\").replace('"', '\\"') + '"'


def header(rules):
    out = ["/* relc_rules.h: of each rule of acceptance and of plans what it asks, what the item or line that a refusal names"]
    out += [" * does, and what to try. Made by checks/refusals.py. */", "#ifndef RELC_RULES_H", "#define RELC_RULES_H", ""]
    out += ["static const struct relc_rule {", "    char name[3];", "    const char *text;", "} relc_rules[] = {"]
    for rule in rules:
        if rule.name[0] == "W" and rule.name != "W4":
            continue
        out += [f"    {{{quoted(rule.name)},"]
        out += [f"     {quoted(rule.asks + ' ')}", f"     {quoted(rule.does + ' ')}", f"     {quoted(rule.advice)}}},"]
    return "\n".join(out + ["};", "", "#endif", ""])


def missing(rules):
    """The rules that docs/LANGUAGE.md and docs/RULES.md have in their tables, and that aren't in the data."""
    have = {rule.name for rule in rules}
    pages = "".join(open(os.path.join(TOP, "docs", name), encoding="utf-8").read() for name in ("LANGUAGE.md", "RULES.md"))
    return sorted(set(re.findall(r"^\| ([SAPOHKW]\d) \|", pages, re.MULTILINE)) - have)


def answer(program, command, lines):
    """The first line that the program prints of the text."""
    text = "\n".join(lines) + "\n"
    return subprocess.run([program, command], input=text.encode(), capture_output=True).stdout.decode().split("\n")[0]


def tried(program, rules, text):
    """Which examples aren't refused by their rule."""
    end = text.index("end")
    wrong = []
    for command, lines in (("check", text[: end + 1]), ("run", text), ("open", text), ("group", text), ("hand", text)):
        if answer(program, command, lines).startswith("refused"):
            wrong.append(f"the text itself, by {command}")
    for rule in rules:
        lines = changed(text, rule)
        if rule.name[0] == "W":
            command = {"W4": "open", "W5": "group"}.get(rule.name, "run")
        elif rule.name[0] in "HK":
            command = "hand"
        else:
            command = "check"
            lines = changed(text[: end + 1], rule)
        got = answer(program, command, lines)
        if not got.startswith(f"refused {rule.name} "):
            wrong.append(f"{rule.name}: {got}")
    return wrong


def main():
    rules, forms, shapes, statements, text = read()
    made = ((PAGE, page(rules, forms, shapes, statements, text)), (HEADER, header(rules)))
    if sys.argv[1:] == ["--write"]:
        for path, content in made:
            open(path, "w", encoding="utf-8").write(content)
    elif sys.argv[1:] == ["--check"]:
        if missing(rules):
            sys.exit(f"refusals.py: rules.txt has nothing of {' '.join(missing(rules))}")
        for path, content in made:
            if open(path, encoding="utf-8").read() != content:
                sys.exit(f"refusals.py: {os.path.relpath(path, TOP)} isn't what --write makes")
    elif len(sys.argv) == 3 and sys.argv[1] == "--try":
        wrong = tried(sys.argv[2], rules, text)
        print(f"{len(rules) - len(wrong)} of {len(rules)} examples are refused by their rule")
        if wrong:
            sys.exit("\n".join(wrong))
    else:
        sys.exit(__doc__)


main()
