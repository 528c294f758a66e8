#!/usr/bin/env python3
"""Brings this repository's own definitions, fields and lemmas to snake case, in one go.

usage: python3 tools/snake_names.py [-n]     at the top of the repository, after the kit's port.py; -n writes nothing

A name is the repository's own where a file of specs/ or proofs/ declares it. A goal's name, which the kit makes, keeps its dashes, and
so does a name that any file takes from the kit. In code, specs and edits a whole token is turned; in a comment and in the pages only what
stands between backticks, so that plain English keeps its hyphens. Strings keep what they hold. It stops where two names would fall together.
"""
import glob
import re
import sys

OWN = ("frame", "content", "calendar", "library", "printer", "line", "serving", "machine", "console", "samples", "thebox")
TYPES = {"Laid-to": "LaidTo", "Piece-tells": "PieceTells", "Token-tells": "TokenTells"}
TOKEN = re.compile(r"[^\s()\[\]{},;.:\"`|]+")
TOP = re.compile(r"^(?:(?:abbrev|pub|unfoldable|opaque|record|data|ruleset) +)*([^\s:(){}.,;]+) *((?:[({].*[)}] *)?):(?!:)(.*)$")
DEEP = re.compile(r"^ +(?:pub )?([^\s:(){}.,;\"]+) +:(.*)$")
USE = re.compile(r"(?m)^\s*(?:ghost )?use ([\w.'«»-]+)\.\{([^}]*)\}")


def antt():
    return sorted(glob.glob("crates/*/specs/**/*.antt", recursive=True) + glob.glob("crates/*/proofs/**/*.antt", recursive=True))


def declared():
    own = {}
    for path in antt():
        for line in open(path, encoding="utf-8"):
            if line.startswith(("-", "use ")):
                continue
            m = TOP.match(line)
            name, kind = (m.group(1), m.group(3)) if m else (None, "")
            if not m and (m := DEEP.match(line)):
                name, kind = m.group(1), m.group(2)
            if not name or "-" not in name.strip("-") or re.search(r"\b(?:tie|goal)\.", kind):
                continue
            if re.fullmatch(r"[^\W\d][\w'-]*", name):
                own.setdefault(name, path)
    return own


def taken():
    """What any file takes from the kit."""
    kit = set()
    for path in antt() + sorted(glob.glob("crates/*/src/*.rt")):
        for module, names in USE.findall(open(path, encoding="utf-8").read()):
            part = module.split(".")
            if part[0] == "Rattle" and part[1] in OWN:
                continue
            for n in names.split(","):
                kit.add(n.split(" as ")[0].strip())
    return kit


def turned(name):
    return TYPES.get(name, name.replace("-", "_"))


def main(write):
    own, kit = declared(), taken()
    left = sorted(set(own) & kit)
    names = {n: turned(n) for n in own if n not in kit}
    plain = set()
    for path in antt():
        plain |= {t for t in TOKEN.findall(open(path, encoding="utf-8").read()) if "-" not in t}
    both = sorted(n for n, t in names.items() if t in plain)
    falls = {}
    for n, t in names.items():
        falls.setdefault(t, []).append(n)
    clash = [v for v in falls.values() if len(v) > 1]
    print(f"{len(names)} names; taken from the kit too, and left: {left}")
    print(f"the new spelling stands somewhere already (a function's name, mostly): {both}")
    if clash:
        raise SystemExit(f"these would fall together: {clash}")

    def code(text):
        return TOKEN.sub(lambda m: names.get(m.group(0), m.group(0)), text)

    def quoted(text):
        return re.sub(r"`[^`\n]*`", lambda m: code(m.group(0)), text)

    def line_of(line, mark):
        # a comment begins at its mark outside a string
        at, inside = 0, False
        while at < len(line):
            if line[at] == '"' and (at == 0 or line[at - 1] != "\\") and mark == "//":
                inside = not inside
            if not inside and line.startswith(mark, at) and (at == 0 or line[at - 1] in " \n"):
                break
            at += 1
        head = line[:at]
        if mark == "//":
            head = "".join(p if i % 2 else code(p) for i, p in enumerate(re.split(r"(\"(?:[^\"\\]|\\.)*\")", head)))
        else:
            head = code(head)
        return head + quoted(line[at:])

    n = 0
    for path in antt() + sorted(glob.glob("crates/*/src/*.rt")) + sorted(glob.glob("crates/*/must-fail/*.edit")) + sorted(glob.glob("docs/**/*.md", recursive=True)) + ["README.md", "bench/README.md"]:
        old = open(path, encoding="utf-8").read()
        if path.endswith(".md"):
            if "PORT" in path:
                continue
            new = quoted(old)
        elif path.endswith(".edit"):
            new = "".join(l if l.startswith("file:") else code(l) for l in old.splitlines(keepends=True))
        else:
            mark = "//" if path.endswith(".rt") else "--"
            new = "".join(line_of(l, mark) for l in old.splitlines(keepends=True))
        if new != old:
            n += 1
            if write:
                open(path, "w", encoding="utf-8").write(new)
    print(f"{n} files changed")


main("-n" not in sys.argv[1:])
