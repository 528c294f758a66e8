# table.py OUT: prints what measure counted, box beside twin, and holds it to the goals. Status 1 where one is not reached.
import sys

STACK, RAM, RATIO, TEST_RATIO = 2048, 16384 + 8192, 1.3, 1.0
TEST = {"test-512", "test-512-mixed", "test-512-10"}
out = sys.argv[1]
calls, sizes, stores = {}, {}, []
for line in open(out + "/table.tsv"):
    machine, who, state, store, call, said, stack, count = line.split()
    calls.setdefault((machine, call, store), {}).setdefault(state, {})[who] = (said, int(stack), int(count))
    if store not in stores:
        stores.append(store)
for line in open(out + "/sizes.tsv"):
    machine, who, what, n = line.split()
    sizes[machine, who, what] = int(n)
machines = sorted({m for m, _, _ in calls})
alone = [(key, s, w) for key, states in calls.items() for s, by in states.items() for w in by if len(by) != 2]
if not calls or alone:
    sys.exit("measure: a call was counted for the box or the twin alone: " + str(alone[:1]))

# a call's figures with a store are the highest of the six states
worst = {}
for key, states in calls.items():
    (bs, bn), (ts, tn) = ([max(by[who][k] for by in states.values()) for k in (1, 2)] for who in ("box", "twin"))
    worst[key] = (bn / tn, bs, ts, bn, tn)

def table(title, wanted):
    """A row for each machine and call; for each store wanted the instructions of box and twin, and their ratio."""
    print(title)
    if wanted != ["none"]:
        print(f"{'':39}" + "".join(f"   {s:>22}" for s in wanted))
    print(f"{'machine':7} {'call':14} {'stack box':>9} {'twin':>6}" + f"   {'box':>8} {'twin':>7} ratio" * len(wanted))
    for m, c in sorted({(m, c) for m, c, s in calls if s in wanted}):
        found = [worst[m, c, s] for s in wanted]
        print(f"{m:7} {c:14} {max(f[1] for f in found):9} {max(f[2] for f in found):6}" + "".join(f"   {f[3]:8} {f[4]:7} {f[0]:5.2f}" for f in found))
    print()

table("Instructions of the calls that are lent no store", ["none"])
table("Instructions of the calls that are lent a store", [s for s in stores if s != "none"])

# a program has one of the two receivers: the first is lent the bytes received, the second what is held between single bytes
ram = {}
for m in machines:
    for words, lent, wanted in (
        ("bursts", "input", lambda c: not c.startswith("byte-")),
        ("single bytes", "holding", lambda c: True),
    ):
        deep = max(f[1] for (k, c, _), f in worst.items() if k == m and wanted(c))
        parts = [(w, sizes[m, "box", w]) for w in ("state", "store", "answer", "strips", lent)] + [("stack", deep)]
        ram[m] = max(ram.get(m, 0), sum(n for _, n in parts))
        print(f"RAM in all, {m}, {words}: " + " + ".join(f"{w} {n}" for w, n in parts) + f" = {sum(n for _, n in parts)} bytes")

def highest(m, wanted):
    """The highest ratio of the calls wanted, with call and store; and the highest in any one state, with that too."""
    one = max((by["box"][2] / by["twin"][2], c, s, t) for (k, c, s), states in calls.items() if k == m and wanted(c) for t, by in states.items())
    return max((f[0], c, s) for (k, c, s), f in worst.items() if k == m and wanted(c)), one

def named(*words):
    return ", ".join(w for w in words if w != "none")

rows = []
for m in machines:
    deep, call = max((f[1], c) for (k, c, _), f in worst.items() if k == m)
    rows.append((f"stack of any call at most {STACK}", m, f"{deep} ({call})", deep <= STACK, ""))
    rows.append((f"RAM in all at most {RAM}", m, f"{ram[m]}", ram[m] <= RAM, ""))
    for words, wanted, fits in (
        (f"each call at most {RATIO} times the twin", lambda c: True, lambda r: r <= RATIO),
        (f"test of a content below {TEST_RATIO} times", lambda c: c in TEST, lambda r: r < TEST_RATIO),
    ):
        (r, c, s), (one, oc, os, state) = highest(m, wanted)
        rows.append((words, m, f"{r:.3f} ({named(c, s)})", fits(r), f"{one:.3f} ({named(oc, os, state)}) {'yes' if fits(one) else 'no'}"))
    differ = [(c, s, t) for (k, c, s), states in calls.items() if k == m for t, by in states.items() if by["box"][0] != by["twin"][0]]
    rows.append(("numbers, places, counts, sums are equal", m, f"{len(differ)} differ" + (f" ({named(*differ[0])})" if differ else ""), not differ, ""))
divided = sizes["m0", "box", "divided"]
rows.append(("no call of a dividing routine", "m0", f"{divided}", divided == 0, ""))
print()
print(f"{'goal':40} {'machine':7} {'figure':34} {'reached':7}  highest in any one state")
for words, m, figure, reached, one in rows:
    print(f"{words:40} {m:7} {figure:34} {'yes' if reached else 'no':7}  {one}".rstrip())
sys.exit(0 if all(r[3] for r in rows) else 1)
