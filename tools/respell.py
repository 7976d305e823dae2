#!/usr/bin/env python3
"""Respells the repository's own definitions and lemmas: words in snake case, types and facts in camel case. Run once, at the top, behind port.py.

A name of specs/ or proofs/ is the repository's own if it is declared there, is imported from no library, and is not the name of a goal, which the
checker makes from the code. `set-in` becomes `set_in` and `Of-width` becomes `OfWidth`. Functions of src/, strings, inputs and outputs keep their
names. It changes .antt files, the clauses of .rt files, must-fail edits, planted bugs and the names that documents put between backticks, and says
which new names stood already.
"""

import pathlib
import re

WORD = r"[^\s(){}\[\].,;:λ→⌜⌝\"`|]+"
LIBRARY = re.compile(r"(?:ghost )?use (?!Rattle\.(?!std\b))[\w.+]+\.\{(.*)\}")
# the library's words for what these files call All and Has
ALIASES = {"AllByRecursion": "All", "ContainsAt": "Has"}


def code(line):
    return "" if line.startswith("--") else line.split(" -- ")[0]


def declared(line):
    """The names that a line of an .antt file declares, parameters and variables among them."""
    if m := re.match(r"\s*(?:pub )?(?:record|data) (%s)" % WORD, line):
        yield m[1]
    if m := re.match(r"\s*(?:(?:pub|abbrev|unfoldable) )*(%s) :(?: |$)" % WORD, line):
        yield m[1]
    for m in re.finditer(r"\blet (%s) " % WORD, line):
        yield m[1]
    for m in re.finditer(r"λ ([^.→]*)\.", line):
        yield from re.findall(WORD, m[1])
    for m in re.finditer(r"[({]([^(){}:]+) : ", line):
        yield from m[1].split()
    # the variables of a clause: they stand before its =
    if m := re.match(r"\s*[a-z][\w'-]* ([^=:]*) =(?: |$)", line):
        yield from re.findall(WORD, m[1])


def respelt(name):
    if name[0].isupper():
        first, *rest = name.split("-")
        return first + "".join(part[0].upper() + part[1:] for part in rest)
    return name.replace("-", "_")


def tokens(text, names):
    return re.sub(r"(?<![^\s(){}\[\].,;:λ→⌜⌝\"`|])(%s)(?![^\s(){}\[\].,;:λ→⌜⌝\"`|])" % WORD, lambda m: names.get(m[1], m[1]), text)


def outside_strings(text, names):
    parts = re.split(r'("(?:[^"\\]|\\.)*")', text)
    return "".join(part if k % 2 else tokens(part, names) for k, part in enumerate(parts))


def between_backticks(text, names):
    return re.sub(r"`([^`\n]+)`", lambda m: "`" + tokens(m[1], names) + "`", text)


def without_aliases(text):
    words = {}
    for word, alias in ALIASES.items():
        if re.search(r"\b%s as %s\b" % (word, alias), text):
            text = re.sub(r"\b%s as %s\b" % (word, alias), word, text)
            words[alias] = word
    return tokens(text, words)


def main():
    antt = sorted(p for folder in ("specs", "proofs") for p in pathlib.Path("crates").glob(f"*/{folder}/**/*.antt"))
    own, library, goals, texts = set(), set(), set(), {}
    for path in antt:
        texts[path] = path.read_text()
        for line in map(code, texts[path].splitlines()):
            goals.update(re.findall(r"\bgoal\.(%s)" % WORD, line))
            if m := LIBRARY.match(line):
                library.update(x.split(" as ")[0].strip() for x in m[1].split(","))
            elif not line.startswith("use "):
                own.update(name for name in declared(line) if re.match(r"\w+(-\w+)+'*$", name))
    own -= goals
    names = {name: respelt(name) for name in own - library}
    said = sorted(set(names.values()) & {w for text in texts.values() for w in re.findall(WORD, text)})
    for path in antt:
        local = dict(names)
        # a name that the library has too is respelt where it is declared, and stays where it is imported
        for name in own & library:
            if re.search(r"^%s :" % re.escape(name), texts[path], re.M):
                local[name] = respelt(name)
        path.write_text(without_aliases(tokens(texts[path], local)))
    for path in sorted(pathlib.Path("crates").glob("*/src/**/*.rt")):
        path.write_text(without_aliases(outside_strings(path.read_text(), names)))
    for path in sorted([*pathlib.Path("crates").glob("*/must-fail/*.edit"), *pathlib.Path("planted").glob("*/*.edit")]):
        path.write_text(outside_strings(path.read_text(), names))
    for path in sorted([*pathlib.Path("docs").glob("*.md"), pathlib.Path("README.md")]):
        if path.exists():
            path.write_text(between_backticks(path.read_text(), names))
    print(f"{len(names)} names respelt; these new ones stood already: {', '.join(said)}")


main()
