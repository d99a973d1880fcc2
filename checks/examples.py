#!/usr/bin/env python3
"""checks/examples.py PROGRAM: whether the program prints of each text in examples/ what stands beside it, by `run`, of a text with
groups by `group`, of one with plans by `hand`, of one whose calls bring operations by `open`, and of one with a journal by `audit bare`; whether
`audit` finds what `run` printed legal behind its text, `audit group` what `group` printed, and `audit bare` the journal of a run, of these
and of 20,000 calls that eight threads make beside each other; and whether it accepts the specification at the top of README.md."""
import pathlib
import re
import subprocess
import sys

TOP = pathlib.Path(__file__).resolve().parent.parent


def printed(program, command, text):
    return subprocess.run([program, *command.split()], input=text, capture_output=True).stdout


def command_of(text):
    """The command whose answer stands beside a text."""
    if re.search(rb"^journal \d+$", text, re.MULTILINE):
        return "audit bare"
    if re.search(rb"^plan \w+$", text, re.MULTILINE):
        return "hand"
    if re.search(rb"^\d+ [-?+!] .*=", text, re.MULTILINE):
        return "open"
    return "group" if re.search(rb"^\d+ & \d+$", text, re.MULTILINE) else "run"


def many_calls():
    """The graph with 20,000 calls of eight threads, whose keys meet."""
    lines = (TOP / "examples" / "graph.relc").read_text().split("\nend\n")[0].split("\n") + ["end", "work 8"]
    for call in range(20000):
        if call % 1000 == 0:
            lines.append("round")
        src, dst = call * 7 % 13, call * 11 % 17
        values = {"ins": (src, dst, call % 5), "del": (src, dst), "succ": (src,), "find": (src, dst)}
        op = ("ins", "find", "del", "succ")[call * 5 // 3 % 4]
        lines.append(" ".join(map(str, (call % 8, op, *values[op]))))
    return "\n".join(lines + ["end", ""]).encode()


def is_legal(program, text):
    """Whether what `run` prints of the text is legal behind it, and the journal in that, alone."""
    report = printed(program, "run", text)
    journal = report[report.index(b"journal ") : report.index(b"\nfinal ") + 1] + b"end\n"
    return all(
        printed(program, command, text + lines).startswith(b"legal ") for command, lines in (("audit", report), ("audit bare", journal))
    )


def main():
    if len(sys.argv) != 2:
        sys.exit(__doc__)
    program = sys.argv[1]
    texts = sorted((TOP / "examples").rglob("*.relc"))
    wrong = []
    for text in texts:
        lines = text.read_bytes()
        command = command_of(lines)
        if printed(program, command, lines) != text.with_suffix(".out").read_bytes():
            wrong.append(str(text.relative_to(TOP)))
        if command == "group" and not printed(program, "audit group", lines + printed(program, command, lines)).startswith(b"legal "):
            wrong.append(f"{text.relative_to(TOP)}, judged by audit group")
        if command == "run" and not is_legal(program, lines):
            wrong.append(f"{text.relative_to(TOP)}, judged by audit")
    if not is_legal(program, many_calls()):
        wrong.append("20,000 calls, judged by audit")
    first = re.search(r"```\n(relc 1\n.*?)```", (TOP / "README.md").read_text(), re.DOTALL)
    if printed(program, "check", first.group(1).encode()) != b"accepted\n":
        wrong.append("the specification of README.md")
    print(f"of {len(texts)} examples, many calls and README's specification {len(wrong)} aren't as they should be")
    if wrong:
        sys.exit("\n".join(wrong))


main()
