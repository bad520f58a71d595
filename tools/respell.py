#!/usr/bin/env python3
"""Spells the repository's own definitions and lemmas as Rattle does: words in snake case, types in camel case.

usage: python3 tools/respell.py [--all]      at the top of the repository, once, after the kit's own port script

A dash stays in a lemma's name where it joins names of definitions, as in climbs-placed; everywhere else it becomes an underscore.
Names that Rattle makes (the goals of Answers.antt, the members of Invariants.antt) keep their spelling, and so does all Rust.
Lines 'together:' name a file in which two names would become one, and nothing is written then; with --all it is, where
the two are a definition and a Rust function, say.
"""

import glob
import re
import sys

EDGE = r"[^\s(){}.;,@\"«»`]"
TOKEN = re.compile(rf"(?<!{EDGE}){EDGE}+(?!{EDGE})")
DECLARED = re.compile(
    r"^( *)(abbrev |unfoldable )?(pub )?(record |data )?([^\s(){}.:]+)((?: [({][^\n]*?)?) :(?= |$)([^\n]*)", re.M
)
SKIPPED = {"let", "use", "elim", "module", "λ", "--"}
# words of the library of which lemmas speak
WORDS = {"length", "take", "drop", "set", "map", "replicate", "cond", "sum"}


def antt_files():
    return sorted(glob.glob("crates/*/specs/**/*.antt", recursive=True) + glob.glob("crates/*/proofs/**/*.antt", recursive=True))


def snake(name):
    name = re.sub(r"(?<=[a-z0-9])[A-Z]", lambda m: "_" + m[0].lower(), name)
    return name.replace("-", "_")


def camel(name):
    return "".join(part[:1].upper() + part[1:] for part in name.split("-"))


def joined(name, words):
    """The name with a dash between definitions, if it is made of them alone."""
    parts = name.split("-")

    def cut(at):
        if at == len(parts):
            return []
        for end in range(len(parts), at, -1):
            word = snake("-".join(parts[at:end]))
            if word in words:
                rest = cut(end)
                if rest is not None:
                    return [word] + rest
        return None

    found = cut(0)
    return "-".join(found) if found and len(found) > 1 else None


def declared(files):
    """Each name that the repository declares: whether it is a word (a definition or a field) or a lemma."""
    found = {}
    for path in files:
        with open(path, encoding="utf-8") as f:
            text = f.read()
        record = None
        for m in DECLARED.finditer(text):
            indent, mode, _, kind, name, _, rest = m.groups()
            if name in SKIPPED or rest.strip().startswith("goal."):
                continue
            if kind:
                record = len(indent)
            elif record is not None and len(indent) <= record:
                record = None
            word = bool(mode or kind or record is not None or rest.rstrip().endswith("Type 0"))
            found[name] = found.get(name, False) or word
    return found


def renamed(found):
    words = {snake(n) for n, word in found.items() if word} | WORDS
    table = {}
    for name, word in found.items():
        if not re.match(r"[A-Za-z]", name) or "◌" in name:
            continue
        if name[0].isupper():
            new = camel(name) if "-" in name else name
        elif word:
            new = snake(name)
        else:
            new = joined(name, words) or snake(name)
        if new != name:
            table[name] = new
    return table


def turned(path, text, table):
    lines = text.split("\n")
    for i, line in enumerate(lines):
        if path.endswith(".rt") and line.lstrip().startswith("//"):
            continue
        if path.endswith(".antt") and line.lstrip().startswith("--"):
            continue
        if path.endswith(".md"):
            lines[i] = re.sub(r"`[^`]+`", lambda m: TOKEN.sub(lambda t: table.get(t[0], t[0]), m[0]), line)
            continue
        lines[i] = TOKEN.sub(lambda t: table.get(t[0], t[0]), line)
    return "\n".join(lines)


def main():
    files = antt_files()
    table = renamed(declared(files))
    others = sorted(glob.glob("crates/*/src/**/*.rt", recursive=True)) + ["README.md"] + sorted(glob.glob("docs/*.md"))
    out, together = {}, 0
    for path in files + others:
        with open(path, encoding="utf-8") as f:
            text = f.read()
        made = {}
        for t in TOKEN.findall(text):
            made.setdefault(table.get(t, t), set()).add(t)
        for new, olds in sorted(made.items()):
            if len(olds) > 1 and path.endswith((".antt", ".rt")):
                print(f"together: {path}: {', '.join(sorted(olds))}")
                together += 1
        new = turned(path, text, table)
        if new != text:
            out[path] = new
    if together and "--all" not in sys.argv:
        raise SystemExit(1)
    for path, text in out.items():
        with open(path, "w", encoding="utf-8") as f:
            f.write(text)
    for old, new in sorted(table.items()):
        print(f"{old}\t{new}")


main()
