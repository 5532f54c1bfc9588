#!/usr/bin/env python3
"""Brings the repository's own definitions and lemmas to one spelling.

Run at the top of the repository, once, right after the kit's own script.
Words are joined by '_'; a dash stays only between two names of functions.
Types, facts and modules keep their capitals, and what src/ declares keeps
its names. With --list it prints the renamings and changes nothing.
"""
import glob
import re
import sys

SEPARATORS = r"\s(){}\[\];,.|`"
TOKEN = re.compile(rf"[^{SEPARATORS}]+")
DEFINED = re.compile(
    r"^\s*(?:(?:abbrev|unfoldable|pub|ruleset|record|data|constructor) )*"
    r"([^\s:(){}=.|]+)(?: [^:=↦]*)?\s*:(?!\S)"
)
# names of functions that std has, and that lemmas here speak of
STD = {"set", "get_or", "length", "take", "drop", "suc", "and", "count_by"}
# what the scripts of the kit call today's word
WORDS = {"getD": "get_or"}
# a field of the ledger's proofs, and a definition of a crate beside them: no file sees both
APART = {"own_in"}
GOALS = re.compile(r": goal\.|: given\.")


def antt_files():
    return sorted(glob.glob("crates/*/specs/**/*.antt", recursive=True)) + sorted(
        glob.glob("crates/*/proofs/**/*.antt", recursive=True)
    )


def definitions():
    """Each own name: whether it is defined (and not a lemma), and whether that is in specs/."""
    names = {}
    for path in antt_files():
        for line in open(path, encoding="utf-8"):
            found = DEFINED.match(line)
            if not found or "↦" in line or GOALS.search(line):
                continue
            name = found.group(1)
            if re.match(r"^[^\W\d_]", name) and name not in {"let", "module", "use", "in"}:
                kind = re.match(r"^\s*(abbrev|unfoldable)", line)
                before = names.get(name, (False, False))
                names[name] = (before[0] or bool(kind), before[1] or bool(kind) and "/specs/" in path)
    return names


def snake(part):
    part = WORDS.get(part, part)
    return re.sub(r"(?<=[a-z0-9])([A-Z])", lambda m: "_" + m.group(1).lower(), part)


def respelled(name, functions):
    if name[0].isupper():
        return name
    parts = [snake(part) for part in name.split("-")]
    if any(not part for part in parts):
        return name
    new = parts[0]
    for before, part in zip(parts, parts[1:]):
        new += ("-" if before in functions and part in functions else "_") + part
    return new


def renamings(names):
    """A definition takes the plain spelling, and a lemma that would have it gets '_lem'."""
    functions = STD | {snake(name) for name, (_, spec) in names.items() if spec and "-" not in name}
    new, taken = {}, set()
    for defined in (True, False):
        for name in sorted(names, key=lambda name: (respelled(name, functions) != name, name)):
            if names[name][0] != defined:
                continue
            spelled = respelled(name, functions)
            if spelled in taken and name not in APART:
                spelled += "_lem"
            assert spelled not in taken or name in APART, name
            taken.add(spelled)
            if spelled != name:
                new[name] = spelled
    return new


def turned(text, new):
    return TOKEN.sub(lambda m: new.get(m.group(0), m.group(0)), text)


def turn(path, new, turning):
    text = open(path, encoding="utf-8").read()
    after = turning(text, new)
    if after != text:
        open(path, "w", encoding="utf-8").write(after)


def in_quotes(text, new):
    return re.sub(r"`[^`\n]+`", lambda m: turned(m.group(0), new), text)


def main():
    new = renamings(definitions())
    if "--list" in sys.argv:
        for name, spelled in sorted(new.items()):
            print(name, spelled)
        return
    for path in antt_files():
        turn(path, new, turned)
    for path in glob.glob("crates/*/src/**/*.rt", recursive=True):
        turn(path, new, turned)
    for path in glob.glob("crates/*/must-fail/*.edit"):
        turn(path, new, turned)
    for path in ["README.md", *glob.glob("docs/*.md")]:
        turn(path, new, in_quotes)


main()
