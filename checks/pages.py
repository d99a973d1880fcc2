#!/usr/bin/env python3
"""checks/pages.py: whether what the pages name exists: each link, each file, and each word in code that is a name of the sources'
(one with an underscore, or with a capital behind its first letter). Old names stand in CHANGELOG.md, of which only links count."""
import pathlib
import re
import sys

TOP = pathlib.Path(__file__).resolve().parent.parent
SOURCES = (".rt", ".antt", ".rs", ".c", ".h", ".cpp", ".sh", ".py", ".relc", ".txt", ".case", ".toml", ".map")
NAME = re.compile(r"[A-Za-z][A-Za-z0-9_-]*")
FILE = re.compile(r"^[\w./-]+\.(?:rt|antt|rs|c|h|cpp|sh|py|relc|txt|md|out|case|svg|toml)$")
# what the pages name as examples: locals, rules and crates that aren't there, words of std and of the kit
EXAMPLES = """
close_from close_to open_from open_to inserts_THREADS_ROUNDS KeepsP7 keeps_p7 push_str returns-then-is_flag start_lib NAMELemmas.antt
NAMELaws.antt
"""


def pages():
    single = [TOP / "README.md", TOP / "CHANGELOG.md", TOP / "bench" / "README.md"]
    return [*single, *sorted((TOP / "docs").glob("*.md")), *sorted((TOP / "crates").glob("*/README.md"))]


def sources():
    for path in sorted(TOP.rglob("*")):
        parts = path.relative_to(TOP).parts
        if path.suffix in SOURCES and path.is_file() and not {"out", "target", "kept", ".git"} & set(parts):
            yield path


def names(text):
    """The names in a piece of code: words with an underscore, or with a capital behind the first letter."""
    for word in NAME.findall(text):
        if "_" in word.strip("_") or re.search(r"[a-z][A-Z]", word):
            yield word


def main():
    known = set(EXAMPLES.split())
    files = set(EXAMPLES.split())
    for path in sources():
        files.add(path.name)
        known.update(re.findall(r"[A-Za-z0-9_-]+", path.read_text(errors="replace")))
        known.update(path.relative_to(TOP).parts)
        known.add(path.stem)
    known.update(part for word in list(known) for part in word.split("-"))
    wrong = []
    for page in pages():
        text = page.read_text()
        where = page.relative_to(TOP)
        for link in re.findall(r"\]\(([^)#]+)(?:#[^)]*)?\)", text):
            if "://" not in link and not (page.parent / link).exists():
                wrong.append(f"{where}: there is no {link}")
        if page.name == "CHANGELOG.md":
            continue
        code = re.findall(r"```.*?```", text, re.DOTALL) + re.findall(r"`[^`\n]+`", re.sub(r"```.*?```", "", text, flags=re.DOTALL))
        for span in code:
            for word in span.strip("`").split():
                if FILE.match(word) and pathlib.PurePath(word).name not in files and not list(TOP.glob(f"**/{word}")):
                    wrong.append(f"{where}: there is no file {word}")
            for name in names(span):
                if name not in known:
                    wrong.append(f"{where}: nothing is named {name}")
    if wrong:
        sys.exit("\n".join(sorted(set(wrong))))
    print("the pages name what exists")


main()
