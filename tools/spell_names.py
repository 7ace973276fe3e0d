#!/usr/bin/env python3
"""Spells the names that this repository's specs/ and proofs/ declare or bind in snake case. It ran once, after the toolchain's port.py.

Usage: tools/spell_names.py [--list] [ROOT]. --list only prints the table of names, old and new.
A name of a library, of a function of src/, of C, a type, a module and a variant keep their spelling; strings are not touched. What two names would share,
the definition has, and the lemma gets `_lem` (or what TOLD says).
"""
import collections
import pathlib
import re
import sys

WORD = r'[^\s(){}.;,@"«»`|:]+'
QUOTED = re.compile(r'"(?:[^"\\\n]|\\.)*"')
# What says more than `_lem` does.
TOLD = {"in-table": "tasks_in_table", "check-condition": "check_condition_status", "with-aca": "in_an_aca", "no-sense": "sense_zero"}
# Names that are words of English too, with a dash: in prose they stay.
DASHED = re.compile(r"[a-z0-9]-[a-z0-9]")


def snake(name):
    name = re.sub(r"(?<=[a-z0-9₀₁₂])[A-Z]", lambda found: "_" + found[0].lower(), name)
    return name.replace("-", "_").replace("′", "'")


def code(line):
    return QUOTED.sub('""', re.split(r"(?:^|(?<=\s))--(?=\s|$)", line)[0])


def is_function_file(path, root):
    """A file of one function's proof: proofs/F/.., not a lemma file of proofs/."""
    parts = path.relative_to(root).parts
    return len(parts) > 4 and parts[2] == "proofs"


def files_of(root, *endings):
    return [path for path in sorted((root / "crates").rglob("*")) if path.suffix in endings and path.is_file() and "out" not in path.parts]


def outside(text, crates):
    """The names that a file takes from a library."""
    found = set()
    for path, names in re.findall(r"^use ([^\s{;]+?)(?:\.\{([^}]*)\})?(?: as \S+)?$", text, re.MULTILINE):
        steps = path.split(".")
        ours = steps[0] == "Rattle" and len(steps) > 1 and steps[1] in crates
        if not ours:
            found |= {name.strip().split(" as ")[0] for name in names.split(",")}
    return found


def table(root):
    crates = {path.name for path in (root / "crates").iterdir()}
    functions, seen, foreign = set(), collections.defaultdict(set), set()
    for path in files_of(root, ".rt"):
        functions |= set(re.findall(r"\bfn (\w+)", path.read_text()))
    specs = set()
    for path in files_of(root, ".antt"):
        text = path.read_text()
        foreign |= outside(text, crates)
        if is_function_file(path, root):
            # what such a file declares itself, and what it binds
            for name in re.findall(rf"^(?:(?:abbrev|unfoldable|pub) )*({WORD}) :", text, re.MULTILINE):
                if not re.search(rf"^(?:(?:abbrev|unfoldable|pub) )*{re.escape(name)} : (?:tie|goal|given)\.", text, re.MULTILINE):
                    seen[name].add(path)
            continue
        for line in text.splitlines():
            for name in re.findall(WORD, code(line)):
                seen[name].add(path)
        if path.relative_to(root).parts[2] == "specs":
            specs |= {found for line in text.splitlines() for found in re.findall(rf"^(?:(?:abbrev|unfoldable|pub) )*({WORD}) :", code(line))}
    mine = {name for name in seen if re.match(r"[a-z]", name) and name not in foreign and (re.search(r"[a-z0-9₀₁₂][A-Z]", name) or DASHED.search(name) or "′" in name)}
    groups = collections.defaultdict(set)
    for name in seen:
        if re.match(r"[a-z]", name):
            groups[snake(name)].add(name)
    out = {}
    for new, names in groups.items():
        if len(names) == 1:
            name = next(iter(names))
            if name in mine:
                out[name] = new if new not in foreign else new + "_lem"
            continue
        # the definition that a reader meets has the plain name
        ranked = sorted(names, key=lambda name: (name not in specs, DASHED.search(name) is not None, name))
        for place, name in enumerate(ranked):
            if place == 0:
                if name in mine:
                    out[name] = new
            elif name in foreign:
                continue
            else:
                out[name] = TOLD.get(name, new + "_lem")
    return {old: new for old, new in out.items() if old != new}, functions


def turn_code(text, names, behind):
    """`behind` says what a name behind a dot becomes; None: what it becomes elsewhere."""
    def one(found):
        word = found[0]
        if behind and found.start() and text[found.start() - 1] == ".":
            return behind(word)
        return names.get(word, word)
    parts, last = [], 0
    for quoted in QUOTED.finditer(text):
        parts.append((text[last:quoted.start()], True))
        parts.append((quoted[0], False))
        last = quoted.end()
    parts.append((text[last:], True))
    if len(parts) == 1:
        return re.sub(WORD, one, text)
    return "".join(re.sub(WORD, lambda found: names.get(found[0], found[0]), part) if turns else part for part, turns in parts)


def turn_prose(text, names):
    """Names with capitals anywhere, those with a dash in backticks or before `:=` alone."""
    capitals = {old: new for old, new in names.items() if not DASHED.search(old) and re.search("[a-z0-9][A-Z]", old)}
    text = re.sub(r"`[^`]*`", lambda found: turn_code(found[0], names, None), text)
    if ":=" in text:
        head, _, rest = text.partition(":=")
        text = turn_code(head, names, None) + ":=" + rest
    if re.search(r"\(([a-z]+-)+[a-z]+[,)]", text):
        text = re.sub(r"\([^()]*\)", lambda found: turn_code(found[0], names, None), text)
    return re.sub(WORD, lambda found: capitals.get(found[0], found[0]), text)


def turn_antt(text, names, behind):
    lines = []
    for line in text.split("\n"):
        parts = re.split(r"((?:^|(?<=\s))--(?=\s|$).*)", line, maxsplit=1)
        lines.append(turn_code(parts[0], names, behind) + "".join(turn_prose(part, names) for part in parts[1:]))
    return "\n".join(lines)


def turn_rt(text, names):
    """Clauses, `ghost use` items and comments; no code has such a name."""
    lines = []
    for line in text.split("\n"):
        parts = re.split(r"((?:^|(?<=\s))//.*)", line, maxsplit=1)
        lines.append(turn_code(parts[0], names, None) + "".join(turn_prose(part, names) for part in parts[1:]))
    return "\n".join(lines)


def turn_edit(text, names):
    lines = []
    for line in text.split("\n"):
        lines.append(turn_code(line, names, None) if line.startswith(("old:", "new:")) else turn_prose(line, names))
    return "\n".join(lines)


def main():
    arguments = [word for word in sys.argv[1:] if word != "--list"]
    root = pathlib.Path(arguments[0] if arguments else pathlib.Path(__file__).resolve().parent.parent)
    names, functions = table(root)
    if "--list" in sys.argv:
        for old, new in sorted(names.items()):
            print(f"{old}\t{new}")
        return

    def behind(word):
        return snake(word) if snake(word) in functions else names.get(word, word)

    for path in files_of(root, ".antt", ".rt", ".edit"):
        old = path.read_text()
        if path.suffix == ".rt":
            new = turn_rt(old, names)
        elif path.suffix == ".edit":
            new = turn_edit(old, names)
        else:
            new = turn_antt(old, names, behind if is_function_file(path, root) else None)
        if new != old:
            path.write_text(new)
    for path in [root / "README.md", *sorted((root / "docs").rglob("*.md"))]:
        old = path.read_text()
        new = "\n".join(turn_prose(line, names) for line in old.split("\n"))
        if new != old:
            path.write_text(new)


main()
