#!/usr/bin/env python3
"""Gives crates one file of imports for specs/ and one for proofs/, Imports.antt, which passes names on.

    checks/imports.py CRATE_FOLDER..           says what would change
    checks/imports.py --write CRATE_FOLDER..   changes it

Such a file passes on what the files beside it take from the crates below, from std and, in proofs/, from the crate's own specs/. Each
of these files then takes all of it in one line. Where there is such a file already, it takes in what files import directly by now, and
drops what no file takes any more. A second run changes nothing.

Some lines stay as they are: one of std's that brings an operator, since the gate wants operators from std itself; a name that is
taken as another one; a name that the file unfolds; and a name that other files of the crate take from another place."""
import collections
import re
import sys
from pathlib import Path

USE = re.compile(r"^use (Rattle\.[\w.+-]+)\.\{(.*)\}$")
PASSED = re.compile(r"^pub use (Rattle\.[\w.+-]+)\.\{(.*)\}$")
# (these two files of std pass on the same names)
SAME = {"Rattle.std.specs.Prelude", "Rattle.std.proofs.Common"}
OF = {"specs": "the crates below and from std", "proofs": "the crates below, from std and from specs/"}
# A crate gets such a file only where that spares so many lines.
LEAST = 10


def parts_of(pattern, line):
    """The module of a line of use, and the names."""
    found = pattern.match(line)
    return (found[1], [name.strip() for name in found[2].split(",")]) if found else (None, [])


class Part:
    """The folder specs/ or proofs/ of a crate."""

    def __init__(self, folder, part):
        self.crate, self.part, self.folder = folder.name, part, folder / part
        self.file, self.lib = self.folder / "Imports.antt", self.folder / "Lib.antt"
        self.here = f"Rattle.{self.crate}.{part}.Imports"
        self.texts = {}
        for path in sorted(self.folder.rglob("*.antt")):
            if path not in (self.file, self.lib):
                self.texts[path] = path.read_text().split("\n")
        # by name, from which module it is passed on
        self.passed = {}
        for line in self.file.read_text().split("\n") if self.file.is_file() else []:
            module, names = parts_of(PASSED, line)
            self.passed.update({name: module for name in names})

    def goes(self, module, names, unfolded):
        """The names of a line that may be passed on."""
        if module.startswith("Rattle.std.") and any("◌" in name for name in names):
            return []
        if module.startswith(f"Rattle.{self.crate}.") and (self.part == "specs" or not module.startswith(f"Rattle.{self.crate}.specs")):
            return []
        if self.part == "specs" and ".proofs" in module:
            return []
        return [name for name in names if " as " not in name and name not in unfolded]

    def choose(self):
        """From which module each name is passed on: as it is now, else from where most files take it."""
        taken = collections.defaultdict(collections.Counter)
        for lines in self.texts.values():
            unfolded = unfolded_in(lines)
            for line in lines:
                module, names = parts_of(USE, line)
                for name in self.goes(module, names, unfolded) if module else []:
                    taken[name][module] += 1
        return {**{name: counts.most_common(1)[0][0] for name, counts in taken.items()}, **self.passed}

    def rewritten(self, lines, chosen):
        """The lines of a file with one line in place of those that can go, and the names that it has from there."""
        unfolded = unfolded_in(lines)
        mine, gone, left, had = [], [], {}, []
        for at, line in enumerate(lines):
            module, names = parts_of(USE, line)
            if module == self.here:
                gone.append(at)
                mine += names
                had += names
            elif module:
                go = [name for name in self.goes(module, names, unfolded) if chosen[name] == module or {chosen[name], module} <= SAME]
                if go:
                    gone.append(at)
                    mine += go
                    stay = [name for name in names if name not in go]
                    if stay:
                        left[at] = f"use {module}.{{{', '.join(stay)}}}"
        if len(gone) - len(left) <= 1:
            return lines, had
        out = []
        for at, line in enumerate(lines):
            if at == gone[0]:
                out.append(f"use {self.here}.{{{', '.join(dict.fromkeys(mine))}}}")
            if at in left:
                out.append(left[at])
            elif at not in gone:
                out.append(line)
        return out, mine

    def run(self, write):
        """Says what changes, and changes it where that is wanted."""
        chosen = self.choose()
        new, used = {}, set()
        for path, lines in self.texts.items():
            new[path], names = self.rewritten(lines, chosen)
            used.update(names)
        lost = sorted(name for name in used if name not in chosen)
        if lost:
            sys.exit(f"{self.file}: it doesn't pass on {', '.join(lost)}, which files take from there")
        by = collections.defaultdict(list)
        for name in sorted(used):
            by[chosen[name]].append(name)
        spared = sum(map(len, self.texts.values())) - sum(map(len, new.values()))
        where = f"{self.crate}/{self.part}"
        if not self.passed and spared - len(by) - 3 < LEAST:
            print(f"{where}: no file of imports, since it would spare fewer than {LEAST} lines")
            return
        changed = [path for path in new if new[path] != self.texts[path]]
        came, went = sorted(used - set(self.passed)), sorted(set(self.passed) - used)
        print(f"{where}: {len(changed)} files changed, {spared} lines spared in them; taken in: {', '.join(came) or 'none'}; dropped: {', '.join(went) or 'none'}")
        if write and (changed or came or went):
            for path in changed:
                path.write_text("\n".join(new[path]))
            self.put(by)

    def put(self, by):
        """Writes the file of imports and its line of Lib.antt, or takes both away where nothing is passed on."""
        word = "pub mod Imports" if self.part == "specs" else "mod Imports"
        lines = self.lib.read_text().rstrip("\n").split("\n") if self.lib.is_file() else []
        if not by:
            self.file.unlink()
            lines = [line for line in lines if line != word]
        else:
            head = f"-- The names that files of {self.part}/ take from {OF[self.part]}, passed on from one place.\n"
            self.file.write_text(head + "".join(f"pub use {module}.{{{', '.join(names)}}}\n" for module, names in sorted(by.items())))
            if word not in lines:
                lines = [line for line in lines if line] + [word]
        self.lib.write_text("".join(line + "\n" for line in lines))


def unfolded_in(lines):
    """The names that a file unfolds."""
    return {name for line in lines for found in [re.match(r"\s*unfolding (.*)$", line)] if found for name in found[1].split()}


def main():
    words = [word for word in sys.argv[1:] if word != "--write"]
    if not words or any(not (Path(word) / "src").is_dir() for word in words):
        sys.exit(__doc__)
    for word in words:
        folder = Path(word).resolve()
        for part in ("specs", "proofs"):
            if (folder / part).is_dir():
                Part(folder, part).run("--write" in sys.argv[1:])


if __name__ == "__main__":
    main()
