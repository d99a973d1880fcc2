"""The specifications of generated.case and generated2.case, which model.py writes: texts of both versions that are accepted."""

# ---- specifications of the first version

GRAPH = """relc 1
col src num
col dst num
col weight num
fd src dst -> weight
node root
node u src
node w src dst
node z src dst weight
edge e1 root u hash src
edge e2 u w ordered dst
edge e3 w z singleton weight
lock k1 8 src
lock k2 4 src
place e1 k1
place e2 k2
place e3 k2
op ins insert src dst
op del remove src dst
op succ query src -> dst weight
op find query src dst -> weight
end"""

SCHEDULER = """relc 1
col ns num
col pid num
col state text
col cpu num
fd ns pid -> state cpu
node root
node y ns
node t state
node w ns pid state
node z ns pid state cpu
edge e1 root y hash ns
edge e2 y w hash pid
edge e3 root t hash state
edge e4 t w list ns pid
edge e5 w z singleton cpu
lock ka 4 ns
lock kb 4 state
lock kc 4 ns pid
place e1 ka
place e2 ka
place e3 kb
place e4 kb
place e5 kc
op spawn insert ns pid
op kill remove ns pid
op bystate query state -> ns pid
end"""

SEATS = """relc 1
col id num
col name num
col seat num
fd id -> name seat
fd seat -> id
node root
node p id name seat
node q id seat
edge e1 root p hash id
edge e2 root q hash seat
lock k1 4 id
lock k2 4 seat
place e1 k1
place e2 k2
op add insert id
op byseat query seat -> id
op drop remove id
end"""


BY_TARGETS = GRAPH.replace("ordered dst", "hash dst").replace("lock k2 4 src", "lock k2 4 dst")

WEIGHTS = """relc 1
col src num
col dst num
col weight num
fd src dst -> weight
fd weight -> src
node root
node u src
node w src dst weight
edge e1 root u hash src
edge e2 u w ordered dst
lock k 4 src
place e1 k
place e2 k
op add insert src dst
op put insert weight dst
op drop remove src dst
op succ query src -> dst weight
op of query weight -> src
end"""

ONE_NUMBER = """relc 1
col n num
fd -> n
node root
node u n
edge e root u hash n
lock k 4 n
place e k
op put insert n
op take remove n
op all query -> n
end"""

APART = """relc 1
col a num
col b num
col c num
fd a -> b c
node root
node nab a b
node nac a c
edge e1 root nab hash a
edge e2 root nac ordered a
lock k1 2 a
lock k2 1
place e1 k1
place e2 k2
op put insert a
op add insert a b c
op take remove a
op both query a -> c b
op all query -> b c
op by query c -> a
end"""

TWO_PATHS = """relc 1
col a num
col b text
col c num
fd a b -> c
node root
node na a
node nab a b
node nc c
node nabc a b c
edge e3 root nc hash c
edge e4 nc nabc hash a b
edge e1 root na hash a
edge e2 na nab hash b
lock k0 2 c
lock k1 2 a
place e1 k1
place e2 k1
place e3 k0
place e4 k0
op ins insert a b
op put insert b a c
op del remove b a
op all query a -> b c
op pairs query c -> b a
end"""

KINDS = """relc 1
col a num
col b text
col c num
col d text
fd a b c -> d
node root
node u a
node w a b
node x a b c
node z a b c d
edge e1 root u hash a
edge e2 u w ordered b
edge e3 w x list c
edge e4 x z singleton d
lock k 1
place e1 k
place e2 k
place e3 k
place e4 k
op ins insert a b c
op del remove c b a
op get query a b c -> d
op under query b -> d a
op all query -> c b
end"""

CYCLE = """relc 1
col a num
col b num
col c num
fd a -> b
fd b -> c
fd c -> a
node root
node p a b c
node q a b c
node r a b c
edge e1 root p list a
edge e2 root q ordered b
edge e3 root r hash c
lock k 1
lock l 8 c
place e1 k
place e2 k
place e3 l
op put insert a b c
op add insert b
op has query a -> b c
op take remove c
op drop remove a
end"""

# Each is used by generated calls of its own.
OTHERS = [
    ("a graph that is striped by targets", BY_TARGETS),
    ("a graph where a weight has one source", WEIGHTS),
    ("at most one number", ONE_NUMBER),
    ("two maps of one key", APART),
    ("two paths to one tuple", TWO_PATHS),
    ("containers of all kinds", KINDS),
    ("three columns that determine one another", CYCLE),
]


# ---- specifications of the second version


def second(text, operations):
    """A specification of the first version as one of the second, with further operations."""
    return text.replace("relc 1", "relc 2").replace("\nend", "\n" + operations + "\nend")


GRAPH_2 = second(
    GRAPH,
    """op set update src dst
op near query src : dst -> dst weight
op light query src : weight -> dst
op heavy query dst : weight src -> src
op square query : src dst -> weight""",
)

BY_TARGETS_2 = second(
    BY_TARGETS,
    """op set update src dst
op near query src : dst -> dst weight
op from query dst : src -> src""",
)

SCHEDULER_2 = second(
    SCHEDULER,
    """op change update ns pid
op among query state : cpu -> ns pid
op between query ns : state -> pid state
op part query : ns pid -> state cpu""",
)

SEATS_2 = second(
    SEATS,
    """op move update id
op give update seat
op rows query : seat -> seat id
op named query name : seat id -> id""",
)

NAMED_SEATS = SEATS_2.replace("fd seat -> id", "fd seat -> id\nfd name -> id")

WEIGHTS_2 = second(
    WEIGHTS,
    """op set update src dst
op lift update weight dst
op turn update weight src dst
op between query : weight -> src dst weight""",
)

ONE_NUMBER_2 = second(
    ONE_NUMBER,
    """op set update
op move update n
op low query : n -> n""",
)

APART_2 = second(
    APART,
    """op set update a
op same update a b c
op low query : a -> b
op cut query c : b -> a c""",
)

TWO_PATHS_2 = second(
    TWO_PATHS,
    """op set update a b
op words query a : b -> c b
op apart query c : b a -> a""",
)

KINDS_2 = second(
    KINDS,
    """op set update c b a
op words query a b : d c -> c
op under2 query : b d -> a""",
)

CYCLE_2 = second(
    CYCLE,
    """op seta update a
op setb update b
op setca update c a
op low query a : b -> c
op all query : c b -> a""",
)

STATES = """relc 2
col pid num
col state text
col cpu num
fd pid -> state cpu
node root
node s state
node p pid state cpu
edge e1 root p hash pid
edge e2 root s hash state
edge e3 s p hash pid
lock names 16 pid
lock queues 4 state
place e1 names
place e2 queues
place e3 queues
op spawn insert pid
op kill remove pid
op change update pid
op bystate query state -> pid cpu
op part query state : pid -> cpu
op load query : state cpu -> pid
end"""

DIRECTORY = """relc 2
col dir num
col name text
col inode num
fd dir name -> inode
fd inode -> dir name
node root
node d dir
node e dir name inode
node i dir name inode
edge e1 root d hash dir
edge e2 d e ordered name
edge e3 root i hash inode
lock dirs 16 dir
lock inodes 8 inode
place e1 dirs
place e2 dirs
place e3 inodes
op link insert dir name
op unlink remove name dir
op rename update inode
op relink update dir name
op page query dir : name -> name inode
op look query dir name -> inode
op inodes query : inode name -> dir
end"""

# A search of `c` alone would take the tuple itself for another that stands in the way.
PAIR = """relc 2
col a num
col b num
col c num
fd a -> b c
fd c -> b
node root
node x a b c
node y b c
edge e1 root x hash a
edge e2 root y hash c
lock k 4 a
lock l 4 c
place e1 k
place e2 l
op add insert a
op put update a
op take remove a
op by query c -> b
op of query b : c -> a
end"""

# Nothing determines anything: an update finds its tuple by all columns, and puts the same in its place.
SET = """relc 2
col a num
col b text
node root
node u a
node w a b
edge e1 root u hash a
edge e2 u w list b
lock k 8 a
place e1 k
place e2 k
op add insert a b
op drop remove b a
op same update b a
op low query : a -> a
op words query a : b -> b
op part query : b a -> a b
end"""

# Below the node of both paths stands a singleton, on a class whose stripes are chosen by what changes above it.
SHARED = """relc 2
col k num
col group num
col size num
col owner text
fd k -> group size owner
node root
node g group
node w k group
node z k group size owner
edge e1 root g hash group
edge e2 g w ordered k
edge e3 root w hash k
edge e4 w z singleton size owner
lock ka 4 k
lock kg 4 group
lock kz 8 k group
place e3 ka
place e1 kg
place e2 kg
place e4 kz
op put insert k
op move update k
op drop remove k
op of query group -> k size
op big query group : size -> k
op owned query owner : group -> k
op some query : k owner -> owner group
end"""

# Each is used by generated calls of its own, once or more often.
SECONDS = [
    ("a graph with updates and ranges", GRAPH_2, 2),
    ("a graph that is striped by targets, with updates", BY_TARGETS_2, 1),
    ("a scheduler whose processes change", SCHEDULER_2, 2),
    ("seats that guests change", SEATS_2, 1),
    ("seats of guests with names of their own", NAMED_SEATS, 2),
    ("a graph where a weight has one source, with updates", WEIGHTS_2, 1),
    ("at most one number, which changes", ONE_NUMBER_2, 1),
    ("two maps of one key, with updates", APART_2, 1),
    ("two paths to one tuple, with updates", TWO_PATHS_2, 1),
    ("containers of all kinds, with updates", KINDS_2, 2),
    ("three columns that determine one another, and change", CYCLE_2, 2),
    ("processes that go from queue to queue", STATES, 1),
    ("a directory whose inodes have one name", DIRECTORY, 2),
    ("a value that determines less than the key", PAIR, 1),
    ("a set of pairs", SET, 1),
    ("a singleton below two paths", SHARED, 1),
]


# ---- specifications that are as large as can be


def largest_spec():
    """As many columns, nodes, edges, classes, stripes and operations as a text may have: the nodes stand in a row, each
    with one column more, and the later ones are entered from the root too."""
    columns = "abcdefghijklmnop"
    lines = ["relc 1"] + ["col %s num" % column for column in columns]
    lines += ["fd a -> " + " ".join(columns[1:]), "fd b c -> a", "fd p -> d e", "node root"]
    nodes = [columns[:number] for number in range(1, 15)] + [columns]
    lines += [" ".join(["node n%d" % number, *node]) for number, node in enumerate(nodes, 1)]
    before = "root"
    for number, node in enumerate(nodes, 1):
        key = node[len(nodes[number - 2]) :] if number > 1 else node
        lines.append(" ".join(["edge e%d %s n%d hash" % (number, before, number), *key]))
        before = "n%d" % number
    entered = list(enumerate(nodes, 1))[6:]
    lines += [" ".join(["edge f%d root n%d hash" % (number, number), *node]) for number, node in entered]
    lines += ["lock k%d 16 a" % number for number in range(1, 17)]
    lines += ["place e%d k%d" % (number, number) for number in range(1, 16)]
    lines += ["place f%d k%d" % (number, number) for number, _ in entered]
    lines += ["op ins%d insert %s %s" % (number, *columns[number : number + 2]) for number in range(8)]
    lines += ["op del%d remove a %s" % (number, columns[number + 1]) for number in range(8)]
    for number, column in enumerate(columns):
        lines.append("op ask%d query %s -> %s" % (number, column, " ".join(columns.replace(column, ""))))
    return lines + ["end"]


def widest_spec():
    """As many columns as a text of the second version may have, in nodes that each have two more, and queries with up to as
    many ranges."""
    columns = ["c%d" % number for number in range(32)]
    lines = ["relc 2"] + ["col %s %s" % (column, "text" if column == "c5" else "num") for column in columns]
    lines += ["fd c0 -> " + " ".join(columns[1:]), "fd c30 c31 -> c0 c1", "fd c5 c6 -> c0", "node root"]
    nodes = [columns[: 2 * number] for number in range(1, 15)] + [columns]
    lines += [" ".join(["node n%d" % number, *node]) for number, node in enumerate(nodes, 1)]
    before, had = "root", []
    for number, node in enumerate(nodes, 1):
        kind = ["ordered", "hash", "list"][number % 3]
        lines.append(" ".join(["edge e%d %s n%d %s" % (number, before, number, kind), *node[len(had) :]]))
        before, had = "n%d" % number, node
    lines.append("edge back root n15 hash c30 c31")
    lines += ["lock k%d %d c0" % (number, 1 + number) for number in range(1, 16)] + ["lock kb 8 c31"]
    lines += ["place e%d k%d" % (number, number) for number in range(1, 16)] + ["place back kb"]
    lines += ["op add insert c0", "op put update c0", "op take remove c30 c31", "op swap update c30 c31"]
    lines += ["op last query c0 -> c31 c30", "op of query c30 c31 -> c0 c5"]
    for first in [31, 16, 1, 0]:
        pattern, ranges = " ".join(columns[: min(first, 1)]), " ".join(columns[first:])
        lines.append("op from%d query %s : %s -> c0 c31" % (first, pattern, ranges))
    return lines + ["end"]
