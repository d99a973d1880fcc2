#!/usr/bin/env python3
"""checks/audits.py PROGRAM: whether `relc audit` and `relc audit group` say of a printed run, and `relc audit bare` of a journal alone, what
the definition says, which crates/rc_cases/data/audit.py works out from the reports of all schedules: of the run itself, with each byte changed, and with
each line left out, doubled, and exchanged with its neighbour. Takes some minutes."""
import pathlib
import subprocess
import sys

sys.path.insert(0, str(pathlib.Path(__file__).resolve().parent.parent / "crates" / "rc_cases" / "data"))
import audit  # noqa: E402

WORK = ["work 2", "round", "0 ins 1 2 10", "round", "0 succ 1", "1 del 1 2", "end"]
GROUPS = ["work 2", "round", "0 ins 1 2 10", "1 & 2", "1 find 1 2", "1 del 1 2", "end"]


def changes(report):
    """The report's lines, and all that differ from them by one step."""
    yield report
    for at, line in enumerate(report):
        for byte in range(len(line)):
            for other in "0", "~":
                if line[byte] != other:
                    yield report[:at] + [line[:byte] + other + line[byte + 1 :]] + report[at + 1 :]
        yield report[:at] + report[at + 1 :]
        yield report[:at] + [line, line] + report[at + 1 :]
        yield report[:at]
        if at + 1 < len(report):
            yield report[:at] + [report[at + 1], line] + report[at + 2 :]


def main():
    if len(sys.argv) != 2:
        sys.exit(__doc__)
    tried, wrong = 0, []
    for form, work in ([], WORK), (["group"], GROUPS), (["bare"], WORK):
        bare = form == ["bare"]
        for report in audit.good_reports(audit.GRAPH, work, bare):
            for lines in changes(report):
                text = "".join(line + "\n" for line in audit.GRAPH + work + lines)
                said = subprocess.run([sys.argv[1], "audit", *form], input=text.encode(), capture_output=True).stdout.decode()
                tried += 1
                if said != audit.judged(audit.GRAPH, work, text, bare) + "\n":
                    wrong.append(text)
    print(f"{tried - len(wrong)} of {tried} reports are judged as the definition says")
    if wrong:
        sys.exit(wrong[0])


main()
