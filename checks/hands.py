#!/usr/bin/env python3
"""checks/hands.py PROGRAM [SEED [COUNT]]: whether `relc hand` takes and refuses plans as crates/rc_cases/data/hand.py says, a second
writing of their rules, and whether what it takes is run as it is written: plans near the planned ones, of the specifications in examples/
and of the two there. A statement is left out, doubled or moved, or has another class, edge, column, mode or kind, or a word more or less.
Of plans that are taken four threads make calls: the report must have the plans as they are written, and be that of one history of these
calls, by the plain relation, and `relc audit bare` must find its journal legal. Some seconds for 1,000 texts."""
import collections
import pathlib
import random
import subprocess
import sys

TOP = pathlib.Path(__file__).resolve().parent.parent
sys.path.insert(0, str(TOP / "crates" / "rc_cases" / "data"))
import audit  # noqa: E402
import hand  # noqa: E402
import model  # noqa: E402

CALLS = 60
ALONE = [["absent"], ["found"], ["apply"], ["emit"], ["commit"], ["check", "1"], ["check", "0"], ["work"]]


def specifications():
    """Each with its plans, as lists of words."""
    texts = [path.read_text("latin-1").split("\n") for path in sorted((TOP / "examples").glob("*.relc"))]
    for lines in [audit.GRAPH, audit.STATES, *texts]:
        lines = lines[: lines.index("end") + 1]
        spec, plans = model.read_spec(list(lines)), {}
        for line in model.plans_of(spec):
            words = line.split()
            if words[0] == "plan":
                plans[words[1]] = []
            else:
                plans[list(plans)[-1]].append(words)
        yield lines, spec, plans


def words_for(spec, word):
    """The words that stand where this one does."""
    for names in spec.classes, spec.edges, spec.columns, ["keyed", "all"], ["lookup", "scan"]:
        if word in names:
            return names
    return ["shared", "absent", "found", "apply", "emit", "commit"]


def changed(r, spec, plans, op):
    """The operation's plan with one change."""
    plan = [list(statement) for statement in plans[op]]
    at, to = r.randrange(len(plan)), r.randrange(len(plan))
    change = r.randrange(16)
    if change < 2:
        del plan[at]
    elif change < 4:
        plan.insert(to, list(plan[at]))
    elif change < 7:
        plan.insert(to, plan.pop(at))
    elif change < 9:
        plan.insert(to, list(r.choice(r.choice(list(plans.values())) + ALONE)))
    elif change == 9:
        plan[at] = plan[at][:-1] or ["emit"]
    elif change == 10:
        plan[at].append(r.choice(["shared", "keyed", r.choice(spec.columns)]))
    else:
        word = r.randrange(min(1, len(plan[at]) - 1), len(plan[at]))
        plan[at][word] = r.choice(words_for(spec, plan[at][word]))
    return plan


def written(r, spec, plans):
    """Lines of plans of some operations, which differ from the planned ones by a step or two."""
    lines = []
    for op in r.sample(list(plans), r.randrange(1, len(plans) + 1)):
        plan = plans[op]
        for _ in range(r.choice([0, 0, 1, 1, 1, 2]) if len(plans) > 1 else 1):
            plan = changed(r, spec, {**plans, op: plan}, op) if plan else plan
        lines += ["plan " + op, *(" ".join(statement) for statement in plan)]
    return lines


def work_of(r, spec):
    """Calls of four threads."""
    work = ["work 4"]
    for line in model.any_work(spec, r.randrange(2**31), CALLS)[1:-1]:
        work.append(line if line == "round" else " ".join([str(r.randrange(4)), *line.split(" ")[1:]]))
    return work + ["end"]


def said_of(spec, text):
    """The refusal of the plans in a text, or the lines that are printed of all plans."""
    try:
        plans, _ = hand.read_plans(spec, hand.behind_end(text))
        for op, plan in plans:
            hand.check_plan(spec, op, plan)
    except hand.Refused as refusal:
        return str(refusal), None
    return None, hand.chosen_plans(spec, plans)


def is_one_history(spec, work, report):
    """Whether the report is that of some order of the calls in which each round comes behind the one before it, and each thread's calls
    stand in their own order."""
    calls = []
    for line in report[1 : 1 + int(report[0].split()[1])]:
        _, thread, op, *values = model.words_of(line[: line.index(" -> ")])
        calls.append((thread, op, values))
    if model.report_of(spec, calls) != report:
        return False
    for queues in audit.rounds_of(work):
        left = [collections.deque(call for turn in queue for call in turn) for queue in queues]
        for _ in range(sum(map(len, left))):
            if not calls or not left[calls[0][0]] or left[calls[0][0]].popleft() != calls.pop(0):
                return False
    return not calls


def printed(program, command, lines):
    text = "".join(line + "\n" for line in lines)
    done = subprocess.run([program, *command], input=text.encode("latin-1"), capture_output=True)
    return done.stdout.decode("latin-1").split("\n")[:-1]


def is_answered(program, r, spec, lines, between):
    """Whether plans are answered as they should be; and the rule that they break, if they do."""
    work = work_of(r, spec)
    text = lines + between + work
    refusal, plans = said_of(spec, "".join(line + "\n" for line in text).encode("latin-1"))
    found = printed(program, ["hand"], text)
    if refusal is not None:
        return found == [refusal], refusal.split()[1]
    report = found[len(plans) :]
    if found[: len(plans)] != plans or not report or not is_one_history(spec, work, report):
        return False, None
    journal = report[: 1 + int(report[0].split()[1])] + ["end"]
    return printed(program, ["audit", "bare"], lines + work + journal) == ["legal %d" % CALLS], None


def main():
    if not 2 <= len(sys.argv) <= 4:
        sys.exit(__doc__)
    program = sys.argv[1]
    seed, count = (*map(int, sys.argv[2:]), *(1, 1000)[len(sys.argv) - 2 :])
    r, texts = random.Random(seed), list(specifications())
    rules, wrong = collections.Counter(), []
    for _ in range(count):
        lines, spec, plans = r.choice(texts)
        between = written(r, spec, plans)
        is_right, rule = is_answered(program, r, spec, lines, between)
        rules[rule or "taken"] += 1
        if not is_right:
            wrong.append(lines + between)
    print("%d of %d texts are answered as the rules say:" % (count - len(wrong), count), *("%s %d" % rule for rule in sorted(rules.items())))
    if wrong:
        sys.exit("\n".join(wrong[0]))


main()
