#!/usr/bin/env python3
# forms.py [COMMIT] [--list]: counts the places of the older forms in crates/*/src, point by point, as docs/DESIGN-PASS.md has them; of the files as they lie here, or of a commit's.
import re, subprocess, sys, glob, collections

words = [a for a in sys.argv[1:] if not a.startswith("--")]
show = "--list" in sys.argv


def files():
    if words:
        names = subprocess.run(["git", "ls-tree", "-r", "--name-only", words[0], "crates"], capture_output=True, text=True, check=True).stdout.split()
        for n in names:
            if re.match(r"crates/\w+/src/.*\.rt$", n):
                yield n, subprocess.run(["git", "show", f"{words[0]}:{n}"], capture_output=True, text=True, check=True).stdout
    else:
        for n in sorted(glob.glob("crates/*/src/*.rt")):
            yield n, open(n).read()


def functions(text):
    """Name, first line's number, signature with clauses, body."""
    L = text.split("\n")
    i = 0
    while i < len(L):
        m = re.match(r"^(\s*)(?:pub(?:\([a-z]+\))? )?fn (\w+)", L[i])
        if not m:
            i += 1
            continue
        ind, j = m.group(1), i
        while L[j] != ind + "{" and not (L[j].rstrip().endswith("{") and not re.match(r"\s*(requires|ensures|ghost)", L[j])):
            j += 1
        k = j + 1
        while L[k] != ind + "}":
            k += 1
        yield m.group(2), i + 1, "\n".join(L[i : j + 1]), "\n".join(L[j + 1 : k])
        i = k + 1


def enums(text):
    for m in re.finditer(r"^(?:pub(?:\([a-z]+\))? )?enum (\w+)[^{]*\{\n(.*?)^\}", text, re.M | re.S):
        body = re.sub(r"//.*", "", m.group(2))
        depth, variants, cur = 0, [], ""
        for c in body:
            if c in "({":
                depth += 1
            if c in ")}":
                depth -= 1
            if c == "," and depth == 0:
                variants.append(cur.strip())
                cur = ""
            else:
                cur += c
        if cur.strip():
            variants.append(cur.strip())
        yield m.group(1), text[: m.start()].count("\n") + 1, variants


def structs(text):
    for m in re.finditer(r"^(?:pub(?:\([a-z]+\))? )?struct (\w+)[^{;(]*\{\n(.*?)^\}", text, re.M | re.S):
        yield m.group(1), text[: m.start()].count("\n") + 1, re.sub(r"//.*", "", m.group(2))


found = collections.OrderedDict()


def add(point, place, what):
    found.setdefault(point, []).append((place, what))


SHAPE, FLAG, CODE = "1a enums of the shape of Option or Result", "1b a flag or a sentinel beside a value", "1c numbers in place of refusals"
TWIN, LOOP, HAND = "2 twins", "3 loops that step by hand", "4 equality, copying, conversion by hand"
FACT, TOGETHER, LENGTH, SWITCH = "5a facts in three contracts or more", "5b parameters that travel together", "6 a length beside a buffer", "7 a switch on which step to run"
for p in (SHAPE, FLAG, CODE, TWIN, LOOP, HAND, FACT, TOGETHER, LENGTH, SWITCH):
    found[p] = []

facts = collections.defaultdict(list)
shapes = collections.defaultdict(list)
for name, text in files():
    crate = name.split("/")[1]
    selectors = set()
    for e, line, vs in enums(text):
        carrying = [v for v in vs if "(" in v or "{" in v]
        if len(vs) in (2, 3) and 1 <= len(carrying) <= 2 and len(carrying) < max(3, len(vs)) and not (len(vs) == 2 and not carrying):
            add(SHAPE, f"{name}:{line}", e)
        if re.search(r"\n\s+match \w+ \{(\s+%s::\w+(\([^)]*\))? => [^,{]*\w\(.*,?\n?)+" % e, text) and len(vs) <= 4 and len(carrying) <= 1:
            selectors.add((e, line))
    for s, line, body in structs(text):
        if re.search(r": bool,", body) and s not in ("Settings",):
            add(FLAG, f"{name}:{line}", s)
    for i, l in enumerate(text.split("\n"), 1):
        c = l.split("//")[0]
        if re.search(r"\bu8::MAX\b|tv_nsec: -1|unwrap_or\(i64::MAX\)|return (0|16);$|^\s+0$|== 0 \{$|size: 0,|half: 16", c) and not re.search(r"len\(\) == 0|% \d+ == 0", c):
            add(FLAG, f"{name}:{i}", c.strip())
        if re.search(r"\b(plain|silent|refused|untaken|uncalled)\(\d+\b|\bplaced\(\d+,|return 1[45]?;|number (==|!=) \d|\.number (==|!=) \d|number: \d+,|\bRefused\(plain", c):
            add(CODE, f"{name}:{i}", c.strip())
        if re.match(r"\s*('\w+: )?(while (?!let)|loop \{)", c):
            add(LOOP, f"{name}:{i}", c.strip())
        if re.search(r" as (usize|u8|u16|u32|u64|i64)\b|/ 256|\bwithin\(", c) and not re.search(r"^ghost|fn within", c):
            add(HAND, f"{name}:{i}", c.strip())
    for f, line, sig, body in functions(text):
        norm = re.sub(r"\b0x[0-9A-Fa-f]+|\b\d+\b", "N", body)
        norm = re.sub(r"b\"[^\"]*\"|\"[^\"]*\"", "S", norm)
        names = {}
        norm = re.sub(r"[A-Za-z_]\w*", lambda m: m.group(0) if m.group(0) in KEYS else names.setdefault(m.group(0), f"v{len(names)}"), norm) if (KEYS := {"if", "while", "loop", "let", "mut", "return", "match", "true", "false", "for", "in", "as", "usize", "u8"}) else norm
        norm = re.sub(r"\s+", " ", norm).strip()
        if norm.count(";") + norm.count("=>") >= 2:
            shapes[(crate, norm)].append((f"{name}:{line}", f))
        if re.fullmatch(r"\s*match \w+ \{(\s+[\w:]+(\([^)]*\))? => (true|false),)+\s+\}", body):
            add(HAND, f"{name}:{line}", f"fn {f}: a match to true or false")
        if f in ("copy", "clear", "same", "all_blank", "move_down", "lay", "copy_turn", "check_from"):
            add(HAND, f"{name}:{line}", f"fn {f}")
        for cl in re.findall(r"requires \w* ?\{ (.*) \}$", sig, re.M) + re.findall(r"requires \{ (.*) \}$", sig, re.M):
            for part in re.split(r" × ", cl):
                part = part.strip("() ")
                facts[(crate, re.sub(r"\.(old|now)", "", part))].append((f"{name}:{line}", f))
        params = set(re.findall(r"(\w+): &(?:'a )?(?:mut )?\[u8\]", sig))
        group = params & {"state", "store", "buffer", "answer", "strips", "kept", "kept_store", "kept_buffer"}
        if len(group) >= 3:
            add(TOGETHER, f"{name}:{line}", f"fn {f}: {', '.join(sorted(group))}")
        if re.search(r"(out|s|buffer|strips|out): &(mut )?\[u8\],\s*(room|n|size|count|k): usize", sig) or re.search(r"-> usize", sig) and re.search(r"\bout: &mut \[u8\]", sig) and crate in ("samples",):
            add(LENGTH, f"{name}:{line}", f"fn {f}")
    for s in selectors:
        add(SWITCH, f"{name}:{s[1]}", f"enum {s[0]}")
for (crate, norm), places in shapes.items():
    if len(places) > 1:
        add(TWIN, ", ".join(p for p, _ in places), " = ".join(f for _, f in places))
for (crate, fact), places in facts.items():
    if len(set(places)) >= 3:
        add(FACT, f"crates/{crate}", f"{fact}: {len(set(places))} contracts")
for p, places in found.items():
    print(f"{len(places):4}  {p}")
    if show:
        for place, what in places:
            print(f"        {place}  {what}")
