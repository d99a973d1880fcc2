#!/usr/bin/env python3
"""What a tree promises in public, clause by clause, and whether another tree promises the same.

    contracts.py TREE                  prints every public item of every crate with its clauses, and every definition that they reach
    contracts.py TREE --crates A,B     those of these crates alone (definitions still followed into the crates below)
    contracts.py --diff OLD NEW        compares two trees, and ends with status 1 where a promise may have become weaker
         --outer A,B,..                the crates whose promises must stay (default: OUTER below); others are told and fail nothing
         --ledger FILE                 lines `ITEM CLAUSE: reason` for differences that a reviewer has accepted: these are told, and fail nothing

A public item is a `pub` function, method, constant, type, trait (with its methods and ghost items), or an impl of a trait. Of a function
it has the signature and each clause by its name. A definition is an item of specs/ that a clause reaches by the file's imports, name by
name, with all that its text names in turn; of a type that a source declares, its fields or variants, and what contracts see of it
(`impl Model`). White space, comments and docs are of no matter. Names of std aren't followed.

Of a function in both trees: a clause of `requires` that is new or has another text asks for more; a clause of `ensures` that is gone or
has another text promises less. A clause that has the same text under another name is the same. Whatever a clause reaches that has another
text may mean another thing: each such definition is told with the items of the outer crates that reach it. A change that only moves a
definition (same name, same text, another file) is told as moved, and fails nothing.

Nothing here judges whether a changed clause is weaker: that is for the reader of the list, or for a law that is proved, `old clause → new
clause` and back. What isn't on the list has not changed.
"""
import argparse
import re
import sys
from pathlib import Path

OUTER = "rc_top rc_answer rc_store rc_embed rc_c rc_scheduler rc_audit rc_check rc_inline rc_row rc_text_laws relc".split()
CLAUSE = re.compile(r"(requires|ensures|ghost)(\*?)(?:\s+([A-Za-z_][\w]*))?\s*(:?)\s*\{")
NAME = r"[^\W\d][\w'?-]*"
WORD = re.compile(rf"{NAME}(?:\.{NAME})*")


def squeezed(text):
    text = re.sub(r"\s+", " ", text).strip()
    return re.sub(r"\s*([(){}\[\],;])\s*", r"\1", text).replace(",)", ")").replace(",]", "]").replace(",}", "}")


def without_comments(text, mark):
    """The text without its comments; a mark inside of a string stays."""
    out = []
    for line in text.split("\n"):
        quoted, at = False, 0
        while at < len(line):
            if line[at] == '"' and (at == 0 or line[at - 1] != "\\"):
                quoted = not quoted
            if not quoted and line.startswith(mark, at) and (mark == "//" or at == 0 or line[at - 1] in " \t("):
                line = line[:at]
                break
            at += 1
        out.append(line.rstrip())
    return "\n".join(out)


def closing(text, at):
    """The place behind the bracket that closes the one at this place."""
    pairs, depth = {"(": ")", "{": "}", "[": "]"}, 0
    opens, closes = text[at], pairs[text[at]]
    while at < len(text):
        c = text[at]
        if c == '"':
            at += 1
            while text[at] != '"':
                at += 2 if text[at] == "\\" else 1
        elif c == "'" and re.match(r"'(\\.[^']*|[^'\\])'", text[at:at + 14]):
            at += re.match(r"'(\\.[^']*|[^'\\])'", text[at:at + 14]).end() - 1
        elif c == opens:
            depth += 1
        elif c == closes:
            depth -= 1
            if not depth:
                return at + 1
        at += 1
    raise ValueError("a bracket isn't closed: " + text[:80])


class Item:
    def __init__(self, crate, path, name, head):
        self.crate, self.path, self.name, self.head = crate, path, name, head
        self.clauses = []      # (kind, name, text)
        self.imports = {}

    def key(self):
        return f"{self.crate}::{self.name}"


class Sources:
    """The public items of a crate, and the types that it declares with what contracts see of them."""

    def __init__(self, crate, folder):
        self.crate, self.items, self.types, self.models = crate, [], {}, {}
        for path in sorted((folder / "src").rglob("*.rt")):
            text = without_comments(path.read_text(), "//")
            imports = imports_of(text, "ghost use")
            parts = list(path.relative_to(folder / "src").with_suffix("").parts)
            if parts[-1] in ("lib", "main"):
                parts.pop()
            self.block(path, text, "", imports, "::".join(parts), False)

    def block(self, path, text, owner, imports, module, of_trait):
        at = 0
        # an item's head at the start of a line, behind attributes
        item = re.compile(
            r"(?m)^[ \t]*((?:#\[[^\n]*\]\s*)*)((?:pub(?:\([^)]*\))?\s+)?(?:unsafe\s+)?(?:const\s+)?(?:extern\s+\"C\"\s+)?)"
            r"(fn|struct|enum|trait|impl|const|type|mod|ghost|use|macro_rules!)\b")
        while True:
            found = item.search(text, at)
            if not found:
                return
            attributes, before, word = found[1], found[2], found[3]
            start, at = found.start(2), found.end()
            if word == "const" or before.strip().endswith("const") and word != "fn":
                word = "const"
            public = re.match(r"pub\s", before) is not None or of_trait
            tested = "#[test]" in attributes or "cfg(test)" in attributes
            if word == "use" or word == "macro_rules!":
                end = text.find(";", at)
                at = end + 1 if end >= 0 else len(text)
                continue
            if word == "ghost":
                line = text[start:]
                if line.startswith("ghost use"):
                    at = text.find(";", at) + 1
                    continue
                brace = text.find("{", at)
                stop = text.find(";", at)
                if 0 <= stop < (brace if brace >= 0 else len(text)):
                    at = stop + 1
                    continue
                end = closing(text, brace)
                if owner:
                    one = Item(self.crate, path, f"{module}::{owner} ghost {squeezed(text[at:brace]).strip(' =:')}", "ghost item")
                    one.clauses.append(("ghost", "", squeezed(text[brace + 1:end - 1])))
                    one.imports = imports
                    one.public = public
                    self.items.append(one)
                at = end
                continue
            if word in ("struct", "enum", "type", "const"):
                brace, stop = text.find("{", at), text.find(";", at)
                paren = text.find("(", at)
                if brace >= 0 and (stop < 0 or brace < stop) and word not in ("const", "type"):
                    end = closing(text, brace)
                else:
                    end = stop + 1
                name = re.match(r"\s+(\w+)", text[at:])
                body = text[start:end]
                if name:
                    if word != "const":
                        self.types[name[1]] = (path, squeezed(body), imports)
                    if public and not tested:
                        one = Item(self.crate, path, f"{module}::{word} {name[1]}", squeezed(body))
                        one.imports = imports
                        for ghost in re.finditer(r"ghost\s+(\w+)\s*:\s*\{", body):
                            until = closing(body, ghost.end() - 1)
                            one.clauses.append(("ghost", ghost[1], squeezed(body[ghost.end():until - 1])))
                        self.items.append(one)
                at = max(end, at)
                continue
            if word in ("impl", "trait", "mod"):
                brace, stop = text.find("{", at), text.find(";", at)
                if brace < 0 or (0 <= stop < brace):
                    at = stop + 1
                    continue
                end = closing(text, brace)
                head = squeezed(text[start:brace])
                inner = text[brace + 1:end - 1]
                if not tested:
                    more = {**imports, **imports_of(inner, "ghost use")}
                    if word == "mod":
                        name = re.match(r"\s+(\w+)", text[at:])[1]
                        self.block(path, inner, "", more, f"{module}::{name}", False)
                    elif re.match(r"impl(<.*?>)? Model for (\w+)", head):
                        self.models[re.match(r"impl(<.*?>)? Model for (\w+)", head)[2]] = (path, squeezed(inner), more)
                    else:
                        trait = word == "trait" and public or word == "impl" and re.search(r"\bfor\b", head) is not None
                        self.block(path, inner, head, more, module, trait)
                at = end
                continue
            # a function: its signature, its clauses, its body
            paren = text.find("(", at)
            angle = text.find("<", at)
            name = re.match(r"\s+(\w+)", text[at:])[1]
            cursor = closing(text, paren)
            clauses, begins = [], cursor
            while True:
                rest = re.compile(r"\s*").match(text, cursor).end()
                clause = CLAUSE.match(text, rest)
                if clause:
                    end = closing(text, clause.end() - 1)
                    clauses.append((clause[1] + clause[2], clause[3] or "", squeezed(text[clause.end():end - 1])))
                    cursor = end
                    continue
                if text[rest] == "{":
                    end = closing(text, rest)
                    break
                if text[rest] == ";":
                    end = rest + 1
                    break
                cursor = rest + 1
                while cursor < len(text) and not (text[cursor] in "{;" or CLAUSE.match(text, cursor) and text[cursor - 1].isspace()):
                    cursor += 1
            first = CLAUSE.search(text[begins:end])
            signature = text[start:min(rest, begins + first.start() if clauses and first else rest)]
            if public and not tested:
                full = f"{module + chr(58) * 2 if module else str()}{owner + ' ' if owner else ''}{name}"
                one = Item(self.crate, path, full, squeezed(signature))
                one.clauses, one.imports = clauses, imports
                self.items.append(one)
            at = end


def imports_of(text, words):
    """What is imported, by the names that the file uses: (library parts, name or None)."""
    found = {}
    for line in re.finditer(rf"(?:pub )?{words} Rattle\.([\w.]+?)(?:\.\{{(.*?)\}}| as (\w+))?;?$", text, re.M | re.S):
        where = line[1].split(".")
        if where[0] == "std":
            continue
        if line[3]:
            found[line[3]] = (where, None)
        elif line[2] is None:
            found[where[-1]] = (where, None)
        for one in (line[2] or "").replace("\n", " ").split(","):
            name, _, other = one.strip().partition(" as ")
            if name:
                found[other.strip() or name] = (where, name)
    return found


class Specs:
    """The definitions of a file of specs/, by name."""

    def __init__(self, path):
        text = without_comments(path.read_text(), "--")
        self.imports = imports_of(text, "use")
        self.definitions, self.passes = {}, {}
        for line in re.finditer(r"^pub use Rattle\.([\w.]+?)\.\{(.*?)\}", text, re.M):
            for one in line[2].split(","):
                name, _, other = one.strip().partition(" as ")
                self.passes[other or name] = (line[1].split("."), name)
        lines = [line for line in text.split("\n") if line.strip() and not re.match(r"(pub )?use |(pub )?mod ", line)]
        self.take(lines, [])

    def take(self, lines, above):
        depth = lambda line: len(line) - len(line.lstrip())
        at = 0
        while at < len(lines):
            end = at + 1
            while end < len(lines) and (depth(lines[end]) > depth(lines[at]) or lines[end].lstrip()[0] in ")}]"):
                end += 1
            block, at = lines[at:end], end
            words = block[0].split()
            if words[0] == "module":
                head = next((n for n, line in enumerate(block) if line.rstrip().endswith("where")), 0) + 1
                self.take(block[head:], above + block[:head])
            elif words[0] not in ("unfolding", "infixl", "infixr", "infix"):
                name = next((w for w in words if w not in ("abbrev", "pub", "unfoldable", "record", "data", "ruleset", "opaque")), None)
                if name:
                    self.definitions.setdefault(name.rstrip(":"), [list(above), []])[1].extend(block)


class Tree:
    def __init__(self, top):
        self.crates = Path(top) / "crates"
        self.sources, self.specs, self.texts, self.named = {}, {}, {}, {}
        for folder in sorted(self.crates.iterdir()):
            if (folder / "src").is_dir():
                self.sources[folder.name] = Sources(folder.name, folder)

    def spec(self, crate, parts):
        path = self.crates / crate / "specs" / ("/".join(parts) + ".antt")
        if path not in self.specs:
            self.specs[path] = Specs(path) if path.is_file() else None
        return self.specs[path]

    def resolve(self, where, name):
        """The definition (crate, place, name) that an import means, or None."""
        crate = where[0]
        if crate not in self.sources or len(where) < 2 or where[1] != "specs":
            return None
        if len(where) > 2 and where[2] in ("declared", "contracts"):
            type_name = next((part for part in reversed(where) if part in self.sources[crate].types), name)
            return (crate, "type", type_name) if type_name in self.sources[crate].types else None
        file = self.spec(crate, where[2:])
        if not file or name is None:
            return None
        if name in file.definitions:
            return (crate, ".".join(where[2:]), name)
        if name in file.passes:
            return self.resolve(*file.passes[name])
        return None

    def reached(self, text, imports, own=None):
        """The definitions that a text names."""
        found = set()
        for word in set(WORD.findall(re.sub(r'"[^"]*"', "", text))):
            first, _, rest = word.partition(".")
            if own and first in own[1].definitions:
                found.add((own[0][0], own[0][1], first))
            if first in imports:
                where, name = imports[first]
                one = self.resolve(where, name) if name else self.resolve(where, rest.split(".")[0] or None)
                if one:
                    found.add(one)
        return found

    def text_of(self, one):
        """The text of a definition, and what it names."""
        if one in self.texts:
            return self.texts[one]
        crate, place, name = one
        if place == "type":
            path, text, imports = self.sources[crate].types[name]
            names = self.reached(text, imports)
            if name in self.sources[crate].models:
                _, model, more = self.sources[crate].models[name]
                # (of a type with a model contracts see the model alone)
                text, names = "model " + model, self.reached(model, more)
        else:
            file = self.spec(crate, place.split("."))
            above, lines = file.definitions[name]
            text = squeezed("\n".join(above + lines))
            names = self.reached(text, file.imports, ((crate, place), file)) - {one}
        self.texts[one] = (text, names)
        return self.texts[one]

    def closure(self, roots):
        seen, left = set(), list(roots)
        while left:
            one = left.pop()
            if one not in seen:
                seen.add(one)
                left += self.text_of(one)[1]
        return seen

    def items(self, crates=None):
        """The public items, by key; several impls of one name are numbered."""
        found = {}
        for crate, source in self.sources.items():
            if crates and crate not in crates:
                continue
            for one in source.items:
                key, number = one.key(), 2
                while key in found:
                    key, number = f"{one.key()} #{number}", number + 1
                found[key] = one
        return found

    def roots(self, item):
        found = set()
        for _, _, text in item.clauses:
            found |= self.reached(text, item.imports)
        return found


def told(tree, crates, out):
    items = tree.items(crates)
    every = set()
    for key in sorted(items):
        one = items[key]
        print(f"{key}\n  {one.head}", file=out)
        for kind, name, text in one.clauses:
            print(f"  {kind} {name} {{ {text} }}", file=out)
        every |= tree.roots(one)
    for one in sorted(tree.closure(every)):
        print(f"= {one[0]} {one[1]} {one[2]}\n  {tree.text_of(one)[0]}", file=out)


def differences(old, new, outer, ledger):
    before, after = old.items(), new.items()
    told_of, failed, notes = [], 0, []

    def tell(crate, item, clause, what, fails):
        nonlocal failed
        reason = ledger.get((item, clause)) or ledger.get((item, "*"))
        grave = fails and crate in outer and not reason
        failed += grave
        told_of.append((not grave, f"{'FAIL' if grave else 'note'} {item} {clause}: {what}{' (accepted: ' + reason + ')' if reason else ''}"))

    by_last = {}
    for key, one in after.items():
        by_last.setdefault((one.crate, one.name.split("::")[-1]), []).append(key)
    for key, one in sorted(before.items()):
        other = after.get(key)
        if other is None:
            last = one.name.split("::")[-1]
            moved = [k for k in by_last.get((one.crate, last), []) if k not in before]
            # (or into another crate, with the same head)
            moved = moved or [k for k, it in after.items() if k not in before and it.name.split("::")[-1] == last and it.head == one.head]
            if len(moved) == 1:
                other = after[moved[0]]
                notes.append(f"moved {key} -> {moved[0]}")
            else:
                tell(one.crate, key, "item", "is gone", True)
                continue
        if one.head != other.head:
            tell(one.crate, key, "head", f"{one.head[:300]} -> {other.head[:300]}", True)
        texts = lambda item, kinds: {t: n for k, n, t in item.clauses if k.rstrip("*") in kinds}
        was, now = texts(one, ("ensures", "ghost")), texts(other, ("ensures", "ghost"))
        for text in was:
            if text not in now:
                tell(one.crate, key, was[text] or "ensures", f"promised {text[:400]}", True)
        for text in now:
            if text not in was:
                tell(one.crate, key, now[text] or "ensures", f"promises now {text[:400]}", False)
        was, now = texts(one, ("requires",)), texts(other, ("requires",))
        for text in now:
            if text not in was:
                tell(one.crate, key, now[text] or "requires", f"asks now for {text[:400]}", True)
        for text in was:
            if text not in now:
                tell(one.crate, key, was[text] or "requires", f"asked for {text[:400]}", False)
    told_as_moved = {note.rpartition(" -> ")[2] for note in notes}
    for key in sorted(set(after) - set(before) - told_as_moved):
        notes.append(f"new {key}")
    # what the clauses of the outer crates reach, in both trees
    users_old, users_new = {}, {}
    for tree, items, users in ((old, before, users_old), (new, after, users_new)):
        for key, one in items.items():
            if one.crate in outer:
                for name in tree.closure(tree.roots(one)):
                    users.setdefault(name, []).append(key)
    by_name = {}
    for one in users_new:
        by_name.setdefault((one[2], new.text_of(one)[0]), []).append(one)
    for one in sorted(users_old):
        item = f"{one[0]}.{one[1]}.{one[2]}"
        text = old.text_of(one)[0]
        if one in users_new:
            if new.text_of(one)[0] != text:
                by = f"reached by {len(users_old[one])} items, {users_old[one][0]} the first"
                reason = ledger.get((item, "definition"))
                failed += not reason
                told_of.append((bool(reason), f"{'note' if reason else 'FAIL'} {item} definition: has another text ({by}){' (accepted: ' + reason + ')' if reason else ''}"))
        elif (one[2], text) in by_name:
            notes.append(f"moved definition {item} -> {'.'.join(by_name[one[2], text][0])}")
        else:
            notes.append(f"no longer reached: {item}")
    for one in sorted(set(users_new) - set(users_old)):
        notes.append(f"reached now: {'.'.join(one)}")
    for _, line in sorted(told_of):
        print(line)
    for line in notes:
        print(line)
    print(f"{len(before)} public items before, {len(after)} now; {sum(len(i.clauses) for i in before.values())} clauses before, "
          f"{sum(len(i.clauses) for i in after.values())} now; {len(users_old)} definitions reached by the outer crates before, {len(users_new)} now; {failed} to be looked at")
    return 1 if failed else 0


def main():
    ask = argparse.ArgumentParser(description=__doc__, formatter_class=argparse.RawDescriptionHelpFormatter)
    ask.add_argument("tree", nargs="?")
    ask.add_argument("--crates")
    ask.add_argument("--diff", nargs=2, metavar=("OLD", "NEW"))
    ask.add_argument("--outer", default=",".join(OUTER))
    ask.add_argument("--ledger")
    given = ask.parse_args()
    if given.diff:
        ledger = {}
        for line in open(given.ledger) if given.ledger else []:
            found = re.match(r"(.+) (\S+): (.+)", line.strip())
            if found and not line.startswith("#"):
                ledger[found[1], found[2]] = found[3]
        return differences(Tree(given.diff[0]), Tree(given.diff[1]), set(given.outer.split(",")), ledger)
    if not given.tree:
        ask.error("a tree, or --diff OLD NEW")
    told(Tree(given.tree), set(given.crates.split(",")) if given.crates else None, sys.stdout)
    return 0


if __name__ == "__main__":
    sys.exit(main())
