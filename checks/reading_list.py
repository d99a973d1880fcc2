#!/usr/bin/env python3
"""What one reads to believe the headlines: the files under crates/ whose definitions they reach.

    checks/reading_list.py           prints the lists
    checks/reading_list.py --check   fails where docs/BELIEVING.md has others
    checks/reading_list.py --write   puts them there

From a root, a definition in some file of specs/, imports are followed name by name: a definition reaches those that its text
names. A type that a source file declares stands for that file, and reaches the types of its fields or, where it has a model,
the definition of what contracts see of it. Names of std are not followed. A name that is bound in a definition and is that of
another one too is followed, so that a list may have a few definitions too many, and none too few.
"""

import re
import sys
from pathlib import Path

TOP = Path(__file__).resolve().parent.parent
CRATES = TOP / "crates"
PAGE = TOP / "docs" / "BELIEVING.md"

HEADLINE = "rc_answer/specs/Headline.antt"
PLANS = "rc_answer/specs/Plans.antt"
STORE = "rc_store/specs/Headline.antt"
STORE_BEFORE = [("rc_store/specs/Store.antt", "HasMadeEntry"), ("rc_store/specs/Closed.antt", "HasClosed")]

# The groups of the first list, in the order in which they are read: what is reached of these files, or that name of one, and all
# that this reaches. A file stands in the first group that has a definition of it.
GROUPS = [
    ("The rules", ["rc_spec/specs/Acceptance.antt"]),
    ("The plain relation", ["rc_spec/specs/Plain.antt", "rc_tuple/specs/Relation.antt"]),
    ("Histories and runs", ["rc_rel/specs/History.antt", "rc_work/specs/Runs.antt"]),
    ("The grammar", ["rc_reader/specs/Grammar.antt", "rc_work/specs/Ranking.antt", "rc_work/specs/WholeText.antt"]),
    ("The printed forms", [
        "rc_io/specs/Bytes.antt", "rc_text/specs/Lines.antt", "rc_spec/specs/RefusalText.antt", "rc_answer/specs/Answers.antt",
        "rc_work/specs/Report.antt", PLANS + " plans_text",
    ]),
    ("Planned plans", [PLANS + " ArePlanned"]),
]
LAST_GROUP = "What the call leaves"

# a name, maybe with the names of fields behind it or of an imported file before it
NAME = r"[^\W\d][\w'?-]*"
WORD = re.compile(rf"{NAME}(?:\.{NAME})*")
BEFORE_A_NAME = ("abbrev", "pub", "unfoldable", "record", "data")


def code_lines(lines):
    """The lines that are neither blank nor a comment nor an attribute."""
    return [line for line in lines if not re.match(r"\s*($|--|//|#\[)", line)]


def depth(line):
    return len(line) - len(line.lstrip())


class Definition:
    """The lines of a definition, behind the parameters of the module that it stands in."""

    def __init__(self, above):
        self.above = above
        self.lines = []

    def words(self):
        """The names in its text, each with those behind its dots."""
        text = "\n".join(re.sub(r"--.*", "", line) for line in self.above + self.lines)
        return {tuple(word.split(".")) for word in WORD.findall(re.sub(r'"[^"]*"', "", text))}


class SpecFile:
    """A file of specs/: its definitions by name, and what it imports, by the names that it uses."""

    def __init__(self, path):
        self.definitions = {}
        self.imports = {}
        self.passed = {}
        lines = code_lines(path.read_text().splitlines())
        for line in lines:
            self.take_import(line)
        self.take_block([line for line in lines if not re.match(r"(pub )?use ", line)], [])

    def take_import(self, line):
        found = re.match(r"(?:pub )?use Rattle\.(rc_[\w.]+?)(?:\.\{(.*)\}| as (\w+))?$", line)
        if not found:
            return
        where = found[1].split(".")
        if found[3]:
            self.imports[found[3]] = (where, None)
        for item in (found[2] or "").split(", "):
            name, _, other = item.partition(" as ")
            if name:
                self.imports[other or name] = (where, name)
                if line.startswith("pub "):
                    self.passed[other or name] = (where, name)

    def take_block(self, lines, above):
        """Takes items that stand one below the other, each with the deeper lines behind it."""
        at = 0
        while at < len(lines):
            end = at + 1
            while end < len(lines) and (depth(lines[end]) > depth(lines[at]) or lines[end].lstrip()[0] in ")}]"):
                end += 1
            self.take_item(lines[at:end], above)
            at = end

    def take_item(self, lines, above):
        first = lines[0].split()
        if first[0] == "module":
            head = next(number for number, line in enumerate(lines) if line.endswith(" where")) + 1
            self.take_block(lines[head:], above + lines[:head])
        elif first[0] != "unfolding":
            name = next(word for word in first if word not in BEFORE_A_NAME)
            self.definitions.setdefault(name, Definition(above)).lines.extend(lines)


class Source:
    """The types that the sources of a crate declare, by name: file, lines, and where in these."""

    def __init__(self, folder):
        self.types = {}
        for path in sorted(folder.rglob("*.rt")):
            lines = path.read_text().splitlines()
            for number, line in enumerate(lines):
                found = re.match(r"(?:pub(?:\(crate\))? )?(?:struct|enum|type) (\w+)", line)
                if found:
                    self.types[found[1]] = (path, lines, number)


def item_at(lines, number):
    """An item of a source, up to the bracket that ends it."""
    end = number
    while not re.match(r"[})]|.*(;|\})$", lines[end]) or (end == number and lines[end].endswith("{")):
        end += 1
    return code_lines(lines[number:end + 1])


def model_of(lines, name):
    """What contracts see of a type, where that is said of it."""
    for number, line in enumerate(lines):
        if re.match(rf"impl(<.*>)? Model for {name}\b", line):
            end = next(at for at in range(number, len(lines)) if lines[at] == "}")
            return code_lines(lines[number:end + 1])
    return []


class Reader:
    """Follows names from file to file, and keeps of each definition that it comes to the lines, and what it names."""

    def __init__(self, roots):
        self.specs = {}
        self.sources = {}
        self.lines = {}
        self.named = {}
        self.follow(roots)

    def spec(self, path):
        if path not in self.specs:
            file = CRATES / path
            self.specs[path] = SpecFile(file) if file.is_file() else None
        return self.specs[path]

    def types(self, crate):
        if crate not in self.sources:
            self.sources[crate] = Source(CRATES / crate / "src").types
        return self.sources[crate]

    def follow(self, roots):
        """Comes to these definitions, and to all that they reach."""
        left = list(roots)
        while left:
            one = left.pop()
            if one not in self.named:
                self.named[one] = self.follow_type(*one) if one[0].endswith(".rt") else self.follow_definition(*one)
                left += self.named[one]

    def follow_definition(self, path, name):
        found = self.spec(path).definitions[name]
        self.lines[path, name] = len(found.lines)
        return self.named_in(path, found.words())

    def below(self, roots):
        """The files of these definitions and of all that they reach."""
        seen = set()
        left = list(roots)
        while left:
            one = left.pop()
            if one not in seen:
                seen.add(one)
                left += self.named[one]
        return {path for path, _ in seen}

    def in_order(self, files, heights):
        """These files, those of the lowest crate first, and of one crate each behind those that it names."""
        order = []

        def visit(path):
            if path in order or path in open_now:
                return
            open_now.add(path)
            for one, named in sorted(self.named.items()):
                if one[0] == path:
                    for other in sorted({file for file, _ in named}):
                        if other in files and other.split("/")[0] == path.split("/")[0]:
                            visit(other)
            order.append(path)

        open_now = set()
        for path in sorted(files, key=lambda path: (heights[path.split("/")[0]], path)):
            visit(path)
        return order

    def named_in(self, path, words):
        """The definitions that some words of a file mean."""
        spec = self.spec(path)
        named = []
        for word in words:
            if word[0] in spec.definitions:
                named.append((path, word[0]))
            elif word[0] in spec.imports:
                where, name = spec.imports[word[0]]
                named += self.imported(where, name or (word[1] if len(word) > 1 else ""))
        return named

    def imported(self, where, name):
        """What an import means: a declared type, or a definition of another file."""
        if "declared" in where:
            declared = where[-2] if where[-1] == "TheVariants" else where[-1]
            return self.declared(where[0], declared)
        path = "/".join(where) + ".antt"
        file = self.spec(path)
        if file and name in file.definitions:
            return [(path, name)]
        # (a file that only passes names on, as specs/Imports.antt, is none to read)
        return self.imported(*file.passed[name]) if file and name in file.passed else []

    def declared(self, crate, name):
        if not (CRATES / crate / "src").is_dir() or name not in self.types(crate):
            return []
        return [(str(self.types(crate)[name][0].relative_to(CRATES)), name)]

    def follow_type(self, path, name):
        crate = path.split("/")[0]
        _, lines, number = self.types(crate)[name]
        item, model = item_at(lines, number), model_of(lines, name)
        self.lines[path, name] = len(item) + len(model)
        if model:
            return self.seen_by(model)
        fields = set(re.findall(r"\b[A-Z]\w*", "\n".join(item))) - {name}
        return [found for field in fields for found in self.declared(crate_of(lines, field) or crate, field)]

    def seen_by(self, model):
        """What the value of a model is made of."""
        text = "\n".join(model)
        value = re.search(r"ghost Value = \{(.*?)\};", text, re.DOTALL)
        words = {word.split(".")[0] for word in WORD.findall(value[1])}
        named = []
        for where, names in re.findall(r"ghost use Rattle\.([\w.]+)\.\{(.*?)\};", text, re.DOTALL):
            for name in words & set(names.split(", ")):
                named += self.imported(where.split("."), name)
        return named


def crate_of(lines, name):
    """The crate from which a source has a type, where it is another one."""
    for crate, names in re.findall(r"^use (rc_\w+)::(\{[^}]*\}|\w+);", "\n".join(lines), re.MULTILINE):
        if name in re.findall(r"\w+", names):
            return crate
    return None


# ---- the lists


def levels():
    """How high each crate stands above those that it is built on."""
    below = {}
    for line in (TOP / "crates.txt").read_text().splitlines():
        head, colon, rest = line.partition(":")
        if colon and not line.startswith("#"):
            below[head.split()[0]] = rest.split()

    def level(crate):
        return 1 + max((level(other) for other in below[crate] if other in below), default=0)

    return {crate: level(crate) for crate in below}


def all_of(path):
    return [(path, name) for name in SpecFile(CRATES / path).definitions]


def headline_groups():
    """What the headline of `relc` reaches, and its files in groups."""
    reader = Reader(all_of(HEADLINE))
    groups = [("The headline", {HEADLINE})]
    seen = {HEADLINE}
    for title, roots in GROUPS + [(LAST_GROUP, None)]:
        mine = [one for one in reader.named if roots is None or one[0] in roots or " ".join(one) in roots]
        files = reader.below(mine) - seen
        seen |= files
        groups.append((title, files))
    return reader, groups


def store_groups():
    reader = Reader(all_of(STORE) if (CRATES / STORE).is_file() else STORE_BEFORE)
    return reader, [("A store in your own program", reader.below(reader.named))]


def table(reader, title, files, heights):
    """The files of a group, with how much of each is reached."""
    rows = [f"| {title} | Definitions | Lines |", "|---|---|---|"]
    for path in reader.in_order(files, heights):
        lines = [count for (file, _), count in reader.lines.items() if file == path]
        rows.append(f"| `{path}` | {len(lines)} | {sum(lines)} |")
    return rows


def listing(reader, groups):
    heights = levels()
    rows = []
    for title, files in groups:
        rows += table(reader, title, files, heights) + [""]
    files = {path for path, _ in reader.lines}
    rows.append(f"Together {len(files)} files, {len(reader.lines)} definitions and types, {sum(reader.lines.values())} lines.")
    return "\n".join(rows)


def lists():
    """Each list by its name."""
    return {"relc": listing(*headline_groups()), "store": listing(*store_groups())}


def put(page, name, text):
    """The page with this list between its marks."""
    begin, end = f"<!-- reading list: {name} -->\n", "<!-- end of the list -->"
    head, found, rest = page.partition(begin)
    if not found or end not in rest:
        sys.exit(f"checks/reading_list.py: {PAGE} has no place for the list {name}")
    return head + begin + "\n" + text + "\n\n" + end + rest.partition(end)[2]


def main():
    found = lists()
    if not sys.argv[1:]:
        print("\n\n".join(found.values()))
        return
    before = PAGE.read_text()
    page = before
    for name, text in found.items():
        page = put(page, name, text)
    if sys.argv[1:] == ["--write"]:
        PAGE.write_text(page)
    elif sys.argv[1:] != ["--check"]:
        sys.exit(__doc__)
    elif page != before:
        sys.exit("checks/reading_list.py: docs/BELIEVING.md has other lists; --write puts those that are so there")


main()
