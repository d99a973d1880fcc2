#!/usr/bin/env python3
"""Writes ranges.case: queries with ranges whose pattern finds more rows than a reply may list, as docs/RULES.md gives their
replies. What counts is how many distinct rows are left by the range.

    python3 ranges.py           writes ranges.case beside itself
"""

import os

MOST_ROWS = 256

# So many edges the one source has, and each has its target's last digit as weight.
TARGETS = 300

SPEC = """relc 2
col src num
col dst num
col weight num
fd src dst -> weight
node root
node u src
node w src dst
node z src dst weight
edge e1 root u hash src
edge e2 u w ordered dst
edge e3 w z singleton weight
lock k1 8 src
lock k2 4 src
place e1 k1
place e2 k2
place e3 k2
op ins insert src dst
op near query src : dst -> dst weight
op weights query src : dst -> weight
op light query src : weight dst -> dst
end"""

# All queries need the three columns, so that they have one plan.
PLANS = """plan ins
lock k1 keyed
lock k2 keyed
probe src dst
read e1 lookup
read e2 lookup
absent
apply
commit
release k2
release k1""".split("\n")

QUERY_PLAN = """lock k1 keyed shared
read e1 lookup
lock k2 keyed shared
read e2 scan
read e3 scan
emit
commit
release k2
release k1""".split("\n")


def told(rows):
    """The reply of a query with these rows."""
    rows = sorted(set(rows))
    if len(rows) > MOST_ROWS:
        return "many %d" % len(rows)
    return " ".join(["%d rows" % len(rows)] + ["(%s)" % " ".join(map(str, row)) for row in rows])


def near(least, greatest):
    rows = [(dst, dst % 10) for dst in range(TARGETS) if least <= dst <= greatest]
    return "near 1 %d %d" % (least, greatest), told(rows)


def weights(least, greatest):
    rows = [(dst % 10,) for dst in range(TARGETS) if least <= dst <= greatest]
    return "weights 1 %d %d" % (least, greatest), told(rows)


def light(heaviest, greatest):
    rows = [(dst,) for dst in range(TARGETS) if dst % 10 <= heaviest and dst <= greatest]
    return "light 1 0 %d 0 %d" % (heaviest, greatest), told(rows)


# The range leaves at most 256 rows, at either end and in the midst, and one more; all; fewer distinct rows than tuples; and two
# ranges each of which alone leaves more.
QUERIES = [
    near(0, 255),
    near(44, 299),
    near(20, 275),
    near(0, 256),
    near(43, 299),
    near(0, 299),
    near(7, 7),
    near(300, 400),
    near(299, 0),
    weights(0, 299),
    weights(5, 8),
    light(9, 255),
    light(9, 256),
    light(8, 283),
    light(8, 284),
    light(0, 299),
]


def main():
    calls = [("ins 1 %d %d" % (dst, dst % 10), "inserted") for dst in range(TARGETS)] + QUERIES
    answer = list(PLANS)
    for name in ("near", "weights", "light"):
        answer += ["plan " + name] + QUERY_PLAN
    answer.append("journal %d" % len(calls))
    answer += ["%d 0 %s -> %s" % (place, call, reply) for place, (call, reply) in enumerate(calls)]
    answer.append("final %d" % TARGETS)
    answer += ["(1 %d %d)" % (dst, dst % 10) for dst in range(TARGETS)] + ["end"]
    work = ["work 1", "round"] + ["0 " + call for call, _ in calls] + ["end"]
    lines = ["# Replies to queries with ranges whose pattern finds 300 rows, written by ranges.py. Don't change the case here.", ""]
    lines += ["case of 300 rows of the pattern those in the range are told, or how many there are", "words relc run"]
    lines += ["|" + line for line in SPEC.split("\n") + work] + ["out"] + ["|" + line for line in answer] + ["run"]
    path = os.path.join(os.path.dirname(os.path.abspath(__file__)), "ranges.case")
    with open(path, "w", encoding="ascii") as file:
        file.write("\n".join(lines) + "\n")


if __name__ == "__main__":
    main()
