#!/usr/bin/env python3
"""Writes generated.case and generated2.case: what the rules of docs/RULES.md give for texts of both versions that are too long
to be worked out by hand.

It is a second writing of the rules, as plain as can be, and shares nothing with the program: a relation is a list of
tuples, a plan is made of sets of names. It takes its specifications to be accepted, and tests no rule of lines.

    python3 model.py            writes both beside itself
    python3 model.py plan       prints the plans of the specification on standard input
    python3 model.py run        prints the plans and the report of the specification and workload on standard input
"""

import os
import sys

import specifications

MOST_ROWS = 256

# ---- texts


class Spec:
    """A specification: names in written order, and sets of names."""

    def __init__(self):
        self.columns = []  # names
        self.kinds = {}  # name: num or text
        self.deps = []  # pairs of sets
        self.nodes = {}  # name: its columns
        self.edges = []  # names
        self.edge = {}  # name: its source, its target, its kind, its key
        self.classes = []  # names
        self.stripes = {}  # name: how many, and the columns that choose one
        self.place = {}  # edge: class
        self.ops = {}  # name: its kind, its pattern, its range columns and its outputs, as written

    def call_columns(self, op):
        """The column of each value of a call of the operation."""
        kind, pattern, ranges, _ = self.ops[op]
        if kind in ("insert", "update"):
            return list(self.columns)
        return pattern + [column for column in ranges for _ in ("least", "greatest")]


def split_at(sign, words):
    """The words before the first such sign, and those behind it; all are before one that isn't there."""
    at = words.index(sign) if sign in words else len(words)
    return words[:at], words[at + 1 :]


def read_spec(lines):
    """The specification of the first lines, which are taken away up to the line `end`."""
    spec = Spec()
    while True:
        words = lines.pop(0).split()
        if words == ["end"]:
            return spec
        if not words or words[0].startswith("#") or words[0] == "relc":
            continue
        kind, rest = words[0], words[1:]
        if kind == "col":
            spec.columns.append(rest[0])
            spec.kinds[rest[0]] = rest[1]
        elif kind == "fd":
            left, right = split_at("->", rest)
            spec.deps.append((set(left), set(right)))
        elif kind == "node":
            spec.nodes[rest[0]] = set(rest[1:])
        elif kind == "edge":
            spec.edges.append(rest[0])
            spec.edge[rest[0]] = (rest[1], rest[2], rest[3], set(rest[4:]))
        elif kind == "lock":
            spec.classes.append(rest[0])
            spec.stripes[rest[0]] = (int(rest[1]), set(rest[2:]))
        elif kind == "place":
            spec.place[rest[0]] = rest[1]
        elif kind == "op":
            asked, outs = split_at("->", rest[2:])
            pattern, ranges = split_at(":", asked)
            spec.ops[rest[0]] = (rest[1], pattern, ranges, outs)


def words_of(line):
    """The words of a call; a number becomes a number, and a quoted text stays a text."""
    words = []
    while line.strip():
        line = line.lstrip()
        if line.startswith('"'):
            text, line = line[1:].split('"', 1)
            words.append(text)
        else:
            word, _, line = line.partition(" ")
            words.append(int(word) if word.isdigit() else word)
    return words


def read_calls(lines):
    """The calls of a workload in the order of their lines: thread, operation, values."""
    calls = []
    for line in lines:
        words = words_of(line)
        if words and isinstance(words[0], int):
            calls.append((words[0], words[1], words[2:]))
    return calls


# ---- the plain step


def printed_value(value):
    return str(value) if isinstance(value, int) else '"' + value + '"'


def printed_tuple(values):
    return "(" + " ".join(printed_value(value) for value in values) + ")"


def values_of(spec, row, columns):
    return tuple(row[spec.columns.index(column)] for column in columns)


def first_broken(spec, relation):
    """The number of the first dependency that the relation breaks."""
    for number, (left, right) in enumerate(spec.deps, 1):
        found = {}
        for row in relation:
            key, value = values_of(spec, row, sorted(left)), values_of(spec, row, sorted(right))
            if found.setdefault(key, value) != value:
                return number
    return None


def put(spec, relation, rest, new):
    """Leaves the other tuples with the new one, or names the first dependency that these break."""
    broken = first_broken(spec, rest + [new])
    if broken is None:
        relation[:] = sorted(set(rest + [new]))
    return broken


def step(spec, relation, op, values):
    """The reply of a call as it is printed; the relation, a rising list of tuples, is changed."""
    kind, pattern, ranges, outs = spec.ops[op]
    if kind in ("insert", "update"):
        new = tuple(values)
        there = [row for row in relation if values_of(spec, row, pattern) == values_of(spec, new, pattern)]
        if kind == "insert" and there:
            return "present"
        if kind == "update" and not there:
            return "absent"
        broken = put(spec, relation, [row for row in relation if row not in there[:1]], new)
        if broken is not None:
            return "conflict %d" % broken
        return "updated " + printed_tuple(there[0]) if there else "inserted"
    known, bounds = tuple(values[: len(pattern)]), values[len(pattern) :]
    matching = [row for row in relation if values_of(spec, row, pattern) == known]
    for least, column, greatest in zip(bounds[::2], ranges, bounds[1::2]):
        matching = [row for row in matching if least <= values_of(spec, row, [column])[0] <= greatest]
    if kind == "remove":
        if not matching:
            return "absent"
        relation.remove(matching[0])
        return "removed " + printed_tuple(matching[0])
    rows = sorted({values_of(spec, row, outs) for row in matching})
    if len(rows) > MOST_ROWS:
        return "many %d" % len(rows)
    return " ".join(["%d rows" % len(rows)] + [printed_tuple(row) for row in rows])


def report_of(spec, calls):
    """The lines of the journal and of the final relation."""
    relation = []
    lines = ["journal %d" % len(calls)]
    for place, (thread, op, values) in enumerate(calls):
        reply = step(spec, relation, op, values)
        call = " ".join([op] + [printed_value(value) for value in values])
        lines.append("%d %d %s -> %s" % (place, thread, call, reply))
    return lines + ["final %d" % len(relation)] + [printed_tuple(row) for row in relation] + ["end"]


# ---- routes


def closed(spec, columns):
    """All columns that these determine."""
    known = set(columns)
    while True:
        more = set().union(*(right for left, right in spec.deps if left <= known)) - known
        if not more:
            return known
        known |= more


def root_of(spec):
    return next(iter(spec.nodes))


def cost(spec, path, pattern):
    total = 0
    for name in path:
        source, _, kind, key = spec.edge[name]
        if kind == "singleton":
            total += 1
        elif key <= pattern:
            total += {"hash": 1, "ordered": 2, "list": 4}[kind]
        else:
            total += 32
        count, columns = spec.stripes[spec.place[name]]
        total += 1 if columns <= pattern | spec.nodes[source] else count
    return total


def paths(spec, node, path):
    """All paths that go on from this one, which ends at the node."""
    for name in spec.edges:
        source, target, _, _ = spec.edge[name]
        if source == node:
            yield path + [name], target
            yield from paths(spec, target, path + [name])


def least_path(spec, pattern, need):
    """The least path to a node that binds the need; None where no node does."""
    nodes = list(spec.nodes)
    found = [
        (
            cost(spec, path, pattern),
            nodes.index(node),
            [spec.edges.index(name) for name in reversed(path)],
            path,
        )
        for path, node in paths(spec, root_of(spec), [])
        if need <= spec.nodes[node]
    ]
    return min(found)[-1] if found else None


def is_good(spec, route, need):
    reached, visited = {root_of(spec)}, set()
    for name in route:
        source, target, _, _ = spec.edge[name]
        columns = spec.nodes[target]
        known = closed(spec, columns & visited)
        if source not in reached or not (visited <= known or columns <= known):
            return False
        reached.add(target)
        visited |= columns
    return need <= visited


def pruned_walk(spec, need):
    route = list(spec.edges)
    while True:
        before = list(route)
        for name in reversed(before):
            rest = [other for other in route if other != name]
            if is_good(spec, rest, need):
                route = rest
        if route == before:
            return route


def route_for(spec, pattern, need):
    return least_path(spec, pattern, need) or pruned_walk(spec, need)


# ---- plans


def in_order(spec, columns):
    return [column for column in spec.columns if column in columns]


def lock_line(name, is_keyed, is_shared=False):
    return "lock %s %s%s" % (name, "keyed" if is_keyed else "all", " shared" if is_shared else "")


def read_line(spec, name, bound):
    return "read %s %s" % (name, "lookup" if spec.edge[name][3] <= bound else "scan")


def search(spec, pattern, route, wanted, is_shared):
    """The locks and reads of a query, which are shared, or of a remove, and the classes that are locked by them."""
    lines, locked, bound = [], [], set(pattern)
    for name in route:
        last = spec.classes.index(spec.place[name])
        for number, lock in enumerate(spec.classes):
            if lock in wanted and lock not in locked and number <= last:
                lines.append(lock_line(lock, spec.stripes[lock][1] <= bound, is_shared))
                locked.append(lock)
        lines.append(read_line(spec, name, bound))
        bound |= spec.nodes[spec.edge[name][1]]
    return lines, locked


def ending(statement, locked):
    return [statement, "commit"] + ["release " + name for name in reversed(locked)]


def classes_with_edges(spec):
    return [name for name in spec.classes if name in spec.place.values()]


def query_plan(spec, pattern, wanted):
    route = route_for(spec, pattern, pattern | wanted)
    lines, locked = search(spec, pattern, route, {spec.place[name] for name in route}, True)
    return lines + ending("emit", locked)


def remove_plan(spec, pattern):
    wanted = classes_with_edges(spec)
    lines, locked = search(spec, pattern, route_for(spec, pattern, set(spec.columns)), wanted, False)
    left = [name for name in wanted if name not in locked]
    return lines + [lock_line(name, True) for name in left] + ending("apply", wanted)


def searched_plan(spec, probes, everywhere):
    """The plan of an insert or an update, which looks for each probe's need by its columns, before a check. All stripes are locked
    of these classes, and of those under which a probe reads whose columns don't choose a stripe."""
    lines, everywhere = [], set(everywhere)
    for columns, need, check in probes:
        lines.append(" ".join(["probe"] + in_order(spec, columns)))
        bound = set(columns)
        for name in route_for(spec, columns, need):
            if not spec.stripes[spec.place[name]][1] <= columns:
                everywhere.add(spec.place[name])
            lines.append(read_line(spec, name, bound))
            bound |= spec.nodes[spec.edge[name][1]]
        lines.append(check)
    wanted = classes_with_edges(spec)
    locks = [lock_line(name, name not in everywhere) for name in wanted]
    return locks + lines + ending("apply", wanted)


def checked_dependencies(spec, pattern):
    """The dependencies whose left side doesn't hold the whole pattern, with the statements that check them."""
    numbered = enumerate(spec.deps, 1)
    return [(left, right, "check %d" % number) for number, (left, right) in numbered if not pattern <= left]


def insert_plan(spec, pattern):
    probes = [(pattern, pattern, "absent")]
    probes += [(left, left | right, check) for left, right, check in checked_dependencies(spec, pattern)]
    return searched_plan(spec, probes, [])


def update_plan(spec, pattern):
    probes = [(pattern, set(spec.columns), "found")]
    probes += [(left, left | right | pattern, check) for left, right, check in checked_dependencies(spec, pattern)]
    return searched_plan(spec, probes, [name for name in spec.classes if not spec.stripes[name][1] <= pattern])


def plans_of(spec):
    lines = []
    for op, (kind, pattern, ranges, outs) in spec.ops.items():
        lines.append("plan " + op)
        if kind == "query":
            lines += query_plan(spec, set(pattern), set(ranges + outs))
        elif kind == "remove":
            lines += remove_plan(spec, set(pattern))
        elif kind == "insert":
            lines += insert_plan(spec, set(pattern))
        else:
            lines += update_plan(spec, set(pattern))
    return lines


# ---- generated workloads


def next_number(number):
    return (number * 1103515245 + 12345) % 2147483648


def graph_call(number, thread):
    """A call on the graph; each thread has sources of its own."""
    source, target = 4 * ((number >> 24) % 16) + thread, (number >> 19) % 32
    weight = (number >> 9) % 1024
    return ("ins %d %d %d" % (source, target, weight), "succ %d" % source, "del %d %d" % (source, target))


def scheduler_call(number, _):
    """A call on a scheduler of few processes."""
    space, process = (number >> 24) % 4, (number >> 19) % 8
    state, cpu = ["run", "sleep", "wait"][(number >> 9) % 3], (number >> 13) % 4
    return (
        'spawn %d %d "%s" %d' % (space, process, state, cpu),
        'bystate "%s"' % state,
        "kill %d %d" % (space, process),
    )


def seats_call(number, _):
    """A call on few seats."""
    guest, name, seat = (number >> 24) % 16, (number >> 9) % 4, (number >> 19) % 16
    return ("add %d %d %d" % (guest, name, seat), "byseat %d" % seat, "drop %d" % guest)


def generated_work(call_of, seed, count):
    """A workload of four threads: half inserts, a quarter each queries and removes. The 64 calls of a round are of one thread,
    so that it has one history."""
    lines, number = ["work 4"], seed
    for place in range(count):
        if place % 64 == 0:
            lines.append("round")
        number = next_number(number)
        thread = place // 64 % 4
        insert, query, remove = call_of(number, thread)
        which = number >> 28
        lines.append("%d %s" % (thread, insert if which < 4 else query if which < 6 else remove))
    return lines + ["end"]


def any_work(spec, seed, count, inserts=1):
    """A workload of three threads that makes every operation of a specification, over four values, and the inserts so much more
    often. The 32 calls of a round are of one thread, so that it has one history."""
    ops, texts, number = list(spec.ops), ["", "a", "a b", "b"], seed
    ops += [op for op in spec.ops if spec.ops[op][0] == "insert"] * (inserts - 1)
    lines = ["work 3"]
    for place in range(count):
        if place % 32 == 0:
            lines.append("round")
        number = next_number(number)
        op = ops[(number >> 20) % len(ops)]
        words = ["%d" % (place // 32 % 3), op]
        _, pattern, ranges, _ = spec.ops[op]
        for at, column in enumerate(spec.call_columns(op)):
            number = next_number(number)
            value = (number >> 20) % 4
            if len(ranges) > 2 and at >= len(pattern) and (number >> 24) % 32:
                value = 3 * ((at - len(pattern)) % 2)  # of many ranges most hold all values
            words.append(printed_value(value if spec.kinds[column] == "num" else texts[value]))
        lines.append(" ".join(words))
    return lines + ["end"]


def many_rows():
    """256 edges of one source, a query for them, one edge more, and the query again."""
    lines = ["work 1", "round"] + ["0 ins 1 %d 0" % target for target in range(256)]
    return lines + ["0 succ 1", "0 ins 1 256 0", "0 succ 1", "end"]


# ---- the file

HEAD = """# Cases that are too long to be worked out by hand. model.py, beside this file, writes it: a second writing of the rules, over
# plain lists and sets. Don't change the cases here.
#
# There are workloads of 512 generated calls of four threads on the three examples, and of 160 of three threads on others; a
# query of 256 rows and one of 257; and the plans of a specification that is as large as can be."""


HEAD_2 = """# Cases of the second version that are too long to be worked out by hand. model.py, beside this file, writes it, as it does
# generated.case. Don't change the cases here.
#
# There are workloads of 96 generated calls of three threads, which make every operation of a specification over four values,
# updates and queries with ranges among them. The last have 32 columns."""


def quoted(lines):
    return ["|" + line for line in lines]


def write_case(words, name, spec, work, answer):
    return ["", "case " + name, "words relc " + words] + quoted(spec + work) + ["out"] + quoted(answer) + ["run"]


def run_case(name, text, work):
    spec = read_spec(text.split("\n"))
    answer = plans_of(spec) + report_of(spec, read_calls(work[1:]))
    return write_case("run", name, text.split("\n"), work, answer)


def generated_cases():
    lines = HEAD.split("\n")
    for name, text, call_of in [
        ("a graph", specifications.GRAPH, graph_call),
        ("a scheduler", specifications.SCHEDULER, scheduler_call),
        ("seats", specifications.SEATS, seats_call),
    ]:
        lines += run_case("512 generated calls on %s" % name, text, generated_work(call_of, 7, 512))
    for name, text in specifications.OTHERS:
        work = any_work(read_spec(text.split("\n")), 11, 160)
        lines += run_case("160 generated calls on " + name, text, work)
    lines += run_case("256 rows are answered and 257 are counted", specifications.GRAPH, many_rows())
    largest = specifications.largest_spec()
    plans = plans_of(read_spec(list(largest))) + ["end"]
    lines += write_case("plan", "the largest specification is planned", largest, [], plans)
    lines += write_case("check", "the largest specification is accepted", largest, [], ["accepted"])
    return "\n".join(lines) + "\n"


def generated_cases_2():
    lines = HEAD_2.split("\n")
    for name, text, times in specifications.SECONDS:
        for seed in range(13, 13 + times):
            work = any_work(read_spec(text.split("\n")), seed, 96, inserts=4)
            again = "" if seed == 13 else ", again"
            lines += run_case("96 generated calls on " + name + again, text, work)
    widest = specifications.widest_spec()
    lines += write_case("check", "the widest specification is accepted", widest, [], ["accepted"])
    work = any_work(read_spec(list(widest)), 13, 96, inserts=4)
    lines += run_case("96 generated calls on the widest specification", "\n".join(widest), work)
    return "\n".join(lines) + "\n"


def main():
    if len(sys.argv) > 1:
        lines = sys.stdin.read().replace("\r", "").split("\n")
        spec = read_spec(lines)
        answer = plans_of(spec)
        answer += report_of(spec, read_calls(lines[1:])) if sys.argv[1] == "run" else ["end"]
        print("\n".join(answer))
        return
    folder = os.path.dirname(os.path.abspath(__file__))
    for name, cases in [("generated.case", generated_cases()), ("generated2.case", generated_cases_2())]:
        with open(os.path.join(folder, name), "w", encoding="ascii") as file:
            file.write(cases)


if __name__ == "__main__":
    main()
