#!/usr/bin/env python3
"""Brings the repository's own definitions and lemmas to the spelling of today's library: words in snake case, types in camel case.

usage: python3 tools/respell.py [--check]      at the top of the repository, once, after the kit's own port script

A name turns if a file of specs/ or proofs/ declares it and it has a dash: 'lines-kept' becomes 'lines_kept', 'To-play' becomes 'ToPlay'.
A name that would meet that of a function, in the src/ of a crate that has it, gets '_lem', as in the library. Names of goals stay, since
rattle makes them. What turns: antt's code and comments, clauses, ghost blocks and ghost imports of src/, the texts of must-fail edits, and
code spans of docs/ and README.md. Strings, Rust's own names, inputs and outputs stay.
A new name that is declared or used otherwise where the old one stands is listed, and then nothing is written.
"""
import os
import re
import sys

TOKEN = re.compile(r'"(?:[^"\\\n]|\\.)*"|[^\s(){}.;,@"«»`]+')
DECLARED = re.compile(
    r'^[ ]*(?:(?:abbrev|unfoldable|pub|data|record|mutual|ruleset)\s+)*([^\s(){}.;,@"«»]+)(?:\s+(?:\([^()]*\)|\{[^{}]*\}))*\s*:\s+(\S*)'
)


def files(top, endings):
    for folder, below, names in os.walk(top):
        below[:] = sorted(d for d in below if d not in ("out", ".git"))
        for name in sorted(names):
            if name.endswith(endings):
                yield os.path.join(folder, name)


def read(path):
    with open(path, encoding="utf-8") as f:
        return f.read()


def respelled(name):
    name = name.replace("getD-", "get_or-")
    if name[0].isupper():
        return "".join(part[:1].upper() + part[1:] for part in name.split("-"))
    return name.replace("-", "_")


def crate_of(path):
    return path.split("/")[1]


def declared():
    """The crates that declare each own name that has a dash, but for goals."""
    names = {}
    for path in files("crates", ".antt"):
        for line in read(path).splitlines():
            found = DECLARED.match(line)
            if found and not line.lstrip().startswith("--") and "-" in found[1].strip("-") and not found[2].startswith("goal."):
                if re.fullmatch(r"[≼\w'-]*-[\w'-]+", found[1]):
                    names.setdefault(found[1], set()).add(crate_of(path))
    return names


def owner(name, path, text, crates):
    """The crate whose name this is in a file: the one that it imports it from, else the file's own, else the only one."""
    for crate, items in re.findall(r"use Rattle\.(\w+)\.[\w.+]*\{([^}]*)\}", text):
        if crate in crates and name in re.split(r"[\s,]+", items):
            return crate
    return crate_of(path) if crate_of(path) in crates else min(crates)


def turned(text, names):
    def one(found):
        word = found[0]
        if word.startswith('"'):
            return word
        before = text[: found.start()]
        # there stands a name that rattle made
        if before.endswith(("goal.", "Goals.", "Given.")) or re.search(r"(?<![^\s(){}.;,])c\.$", before[-3:]):
            return word
        return names.get(word, word)

    return TOKEN.sub(one, text)


def aligned(old, new):
    """The rows of a file's head say what its names mean: a name that got shorter leaves its row where it was."""
    rows = []
    for before, after in zip(old.splitlines(keepends=True), new.splitlines(keepends=True)):
        row = re.match(r"(--   \S+)( +)\S", after)
        if row and before.startswith("--   "):
            after = row[1] + " " * (len(before) - len(after)) + after[len(row[1]) :]
        rows.append(after)
    return "".join(rows)


def turned_rust(text, names):
    """A name with a dash between letters is antt's wherever code stands; in a Rust comment only a code span turns."""
    lines = []
    for line in text.splitlines(keepends=True):
        code, mark, remark = line.partition("//")
        if code.count('"') % 2:
            code, mark, remark = line, "", ""
        code = turned(code, names)
        remark = re.sub(r"`[^`]*`", lambda s: turned(s[0], names), remark)
        lines.append(code + mark + remark)
    return "".join(lines)


def turned_page(text, names):
    return re.sub(r"`[^`\n]+`", lambda s: turned(s[0], names), text)


def turned_edit(text, names):
    return "".join(
        turned(line, names) if line.startswith(("old:", "new:")) else line for line in text.splitlines(keepends=True)
    )


def main():
    crates = declared()
    texts = {path: read(path) for path in files("crates", (".antt", ".rt", ".edit"))}
    functions = {}
    for path, text in texts.items():
        functions.setdefault(crate_of(path), set()).update(re.findall(r"\bfn (\w+)", text))
    # which crates have each name of each crate in a file
    users = {}
    for path, text in texts.items():
        for word in set(TOKEN.findall(text)) & crates.keys():
            users.setdefault((word, owner(word, path, text, crates[word])), set()).add(crate_of(path))
    meets = {key for key, found in users.items() if any(respelled(key[0]) in functions.get(c, ()) for c in found)}
    plan, tokens = {}, {}
    pages = {n: respelled(n) + ("_lem" if any((n, c) in meets for c in found) else "") for n, found in crates.items()}
    for path, text in texts.items():
        names = {n: respelled(n) + ("_lem" if (n, owner(n, path, text, found)) in meets else "") for n, found in crates.items()}
        turn = turned if path.endswith(".antt") else turned_rust if path.endswith(".rt") else turned_edit
        now = turn(text, names)
        plan[path] = (text, aligned(text, now) if path.endswith(".antt") else now)
        tokens[path] = (set(TOKEN.findall(text)), names)
    for path in ["README.md", *files("docs", ".md")]:
        text = read(path)
        plan[path] = (text, turned_page(text, pages))
    bad = []
    for path, (words, names) in tokens.items():
        bad += [f"{path}: has {old} and {new}" for old, new in names.items() if old in words and new in words]
    for old, new in pages.items():
        bad += [f"{old} and {twin} fall together" for twin in pages if pages[twin] == new and twin != old]
    for line in bad:
        print("meets:", line)
    for path, (text, now) in plan.items():
        if "--check" not in sys.argv and not bad and now != text:
            with open(path, "w", encoding="utf-8") as f:
                f.write(now)
    print(f"respell: {len(crates)} names, {sum(a != b for a, b in plan.values())} files")
    return 1 if bad else 0


sys.exit(main())
