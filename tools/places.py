#!/usr/bin/env python3
"""Counts the places that docs/DESIGN-PASS.md speaks of from the syntax: python3 tools/places.py [FOLDER].
Each file is cut into tokens and functions, so that nothing hangs on how lines are broken."""

import difflib
import itertools
import pathlib
import re
import sys
from collections import Counter, defaultdict

TOP = pathlib.Path(sys.argv[1] if len(sys.argv) > 1 else ".")
TOKEN = re.compile(r'b?"(?:[^"\\]|\\.)*"|\w+|::|->|=>|[+\-*/%|&^]=|[=!<>]=|&&|\|\||\S')
NUMBERS = {"u8", "u16", "u32", "u64", "usize"}
OPEN = {"(": ")", "[": "]", "{": "}"}


def tokens_of(path):
    lines = [line for line in path.read_text().split("\n") if not line.startswith("ghost ")]
    return TOKEN.findall("\n".join(re.sub(r"//.*", "", line) for line in lines))


def closing(ts, i):
    """The place behind the bracket that closes the one at i."""
    depth = 0
    while i < len(ts):
        depth += ts[i] in OPEN
        depth -= ts[i] in OPEN.values()
        i += 1
        if depth == 0:
            return i
    return i


def split_at(ts, comma=","):
    """Cuts a list of tokens at the commas that stand in no bracket."""
    parts, now, depth = [], [], 0
    for t in ts:
        depth += t in OPEN or t == "<"
        depth -= t in OPEN.values() or t == ">"
        if t == comma and depth == 0:
            parts.append(now)
            now = []
        else:
            now.append(t)
    return [p for p in parts + [now] if p]


class Function:
    def __init__(self, crate, file, name, args, result, clauses, body):
        self.crate, self.place = crate, f"{crate}/{file}:{name}"
        self.name, self.args, self.result, self.clauses, self.body = name, args, result, clauses, body


def functions_of(crate, file, ts):
    found, i = [], 0
    while i < len(ts):
        if ts[i] != "fn" or not re.match(r"[a-z_]", ts[i + 1]):
            i += 1
            continue
        name, j = ts[i + 1], i + 2
        while ts[j] != "(":
            j += 1
        end = closing(ts, j)
        args = [p for p in split_at(ts[j + 1 : end - 1])]
        j, result, clauses = end, [], []
        while ts[j] not in ("requires", "ensures", "{", ";"):
            result.append(ts[j])
            j += 1
        while ts[j] in ("requires", "ensures"):
            k = j + 1
            while ts[k] != "{":
                k += 1
            end = closing(ts, k)
            clauses.append(ts[j:end])
            j = end
        end = closing(ts, j) if ts[j] == "{" else j + 1
        found.append(Function(crate, file, name, args, result[1:], clauses, ts[j + 1 : end - 1]))
        i = j + 1
    return found


def items_of(crate, file, ts, word):
    """Each enum or struct with a body: its name and its variants or fields, each a list of tokens."""
    for i, t in enumerate(ts):
        if t == word and ts[i + 1][0].isupper():
            j = i + 2
            while ts[j] not in ("{", "(", ";"):
                j += 1
            if ts[j] == "{":
                yield f"{crate}/{file}:{ts[i + 1]}", split_at(ts[j + 1 : closing(ts, j) - 1])


functions, enums, structs = [], [], []
for path in sorted(TOP.glob("crates/*/src/*.rt")):
    crate, ts = path.parts[-3], tokens_of(path)
    functions += functions_of(crate, path.name, ts)
    enums += items_of(crate, path.name, ts, "enum")
    structs += items_of(crate, path.name, ts, "struct")


def show(title, places):
    places = list(places)
    sums = Counter(p.split("/")[0] for p in places)
    print(f"## {title}: {len(places)}")
    print("   " + ", ".join(f"{c} {n}" for c, n in sorted(sums.items())))
    print("   " + ", ".join(f"{p} x{n}" if n > 1 else p for p, n in Counter(places).items()) + "\n")


def payload(variant):
    return variant[2:-1] if len(variant) > 1 and variant[1] == "(" else []


def like_option_or_result(variants):
    names = {v[0] for v in variants}
    full = [bool(payload(v)) for v in variants]
    return len(variants) <= 3 and any(full) and (not all(full) or bool(names & {"Refused", "Failed", "None"}))


def returned(f):
    """The last expression, and each that `return` gives back."""
    ends = [f.body[-2:]] if f.body else []
    for i, t in enumerate(f.body):
        if t == "return":
            ends.append(f.body[i + 1 : i + 3])
        if t == "{" and i + 2 < len(f.body) and f.body[i + 2] == "}":
            ends.append([f.body[i + 1], ";"])
    return ends


def constants(f):
    gives = [e[0] for e in returned(f) if len(e) == 2 and e[1] == ";"] + [f.body[-1]] * bool(f.body)
    return [g for g in gives if re.fullmatch(r"\d+|[A-Z_]{3,}|n", g)]


# Point 1
shaped = {p.split(":")[1] for p, vs in enums if like_option_or_result(vs)}
show("1 enums of the shape of Option or Result", [p for p, vs in enums if like_option_or_result(vs)])
show(
    "1 their variants named in code",
    [f.place for f in functions for a, b in zip(f.body, f.body[1:]) if a in shaped and b == "::"],
)
show(
    "1 refusals by a number",
    [
        f.place
        for f in functions
        for a, b, c in zip(f.body, f.body[1:], f.body[2:])
        if a == "Refused" and b == "(" and c.isdigit()
    ],
)
show(
    "1 functions that give back a number, and on some way a constant (the sentinels are among them)",
    [f.place for f in functions if f.result and f.result[0] in NUMBERS and constants(f)],
)
show("1 flags beside values in a struct", [p for p, fs in structs for x in fs if x[-1] == "bool"])


# Point 2
def shape(f):
    names = {}
    ts = list(itertools.chain(*f.args)) + ["->"] + f.result + ["{"] + f.body
    keep = NUMBERS | {"if", "else", "while", "for", "in", "return", "let", "mut", "match", "as", "true", "false", "len"}
    return [t if t in keep or not re.match(r"[A-Za-z_0-9]", t) else names.setdefault(t, f"x{len(names)}") for t in ts]


shapes = [(f, shape(f)) for f in functions]
twins = []
for (f, a), (g, b) in itertools.combinations([s for s in shapes if len(s[1]) >= 24], 2):
    m = difflib.SequenceMatcher(None, a, b, autojunk=False)
    if 3 * min(len(a), len(b)) > 2 * max(len(a), len(b)) and m.quick_ratio() > 0.88 and m.ratio() > 0.88:
        twins.append((round(m.ratio(), 2), f.place, g.place))
print(f"## 2 pairs of functions whose tokens agree to more than 0.88: {len(twins)}")
for ratio, a, b in sorted(twins, reverse=True):
    print(f"   {ratio} {a} {b}")
print()


# Point 3
def whiles(f):
    for i, t in enumerate(f.body):
        if t == "while":
            j = i
            while f.body[j] != "{":
                j += 1
            yield f.body[i + 1 : j], f.body[j + 1 : closing(f.body, j) - 1]


def counts_an_index(test, body):
    steps = {a for a, b, c, d in zip(body, body[1:], body[2:], body[3:]) if b in ("+=", "-=") and c == "1" and d == ";"}
    return bool(steps & set(test)) and "&&" not in test


loops = [(f, *w) for f in functions for w in whiles(f)]
show("3 loops with `while`", [f.place for f, _, _ in loops])
show("3 of these, such as count an index", [f.place for f, t, b in loops if counts_an_index(t, b)])
show("3 the others", [f.place for f, t, b in loops if not counts_an_index(t, b)])
show("3 loops with `for`", [f.place for f in functions for t in f.body if t == "for"])


# Point 4
def lesser_or_greater(f):
    text = " ".join(f.body)
    two = re.fullmatch(r"(?:.* )?if (\w+) < (\w+) \{ (\w+) \} else \{ (\w+) \}", text)
    return bool(two) and {two[1], two[2]} == {two[3], two[4]}


show("4 min and max by hand", [f.place for f in functions if lesser_or_greater(f)])
show(
    "4 functions that only convert",
    [f.place for f in functions if len(f.body) <= 12 and "as" in f.body and f.body[-1] in NUMBERS and ";" not in f.body],
)
show(
    "4 arms that only wrap again",
    [
        f.place
        for f in functions
        if re.search(r"(\w+) :: Refused \( (\w+) \) => (\w+) :: Refused \( \2 \)", " ".join(f.body))
    ],
)
show("4 casts", [f.place for f in functions for a, b in zip(f.body, f.body[1:]) if a == "as" and b in NUMBERS])
show(
    "4 matches and ifs that give back only true and false",
    [
        f.place
        for f in functions
        if f.result == ["bool"] and re.search(r"=> true|=> false|\{ true \} else|else \{ false \}", " ".join(f.body))
    ],
)

# Point 5
facts = defaultdict(set)
for f in functions:
    for c in f.clauses:
        for t in c:
            if re.fullmatch(r"[A-Z]\w+", t):
                facts[t].add(f.place)
print("## 5 facts that stand in the contracts of three or more functions")
print("   " + ", ".join(f"{w} {len(p)}" for w, p in sorted(facts.items(), key=lambda x: -len(x[1])) if len(p) >= 3) + "\n")
groups = defaultdict(set)
for f in functions:
    args = sorted({" ".join(t for t in a if t != "mut") for a in f.args if ":" in a})
    for size in (3, 4, 5):
        for group in itertools.combinations(args, size):
            groups[group].add(f.place)
largest = [g for g, p in groups.items() if len(p) >= 4]
largest = [g for g in largest if not any(set(g) < set(h) and groups[h] == groups[g] for h in largest)]
print(f"## 5 groups of three to five parameters that four or more functions take together: {len(largest)}")
for g in sorted(largest, key=lambda g: (-len(groups[g]), g)):
    print(f"   {len(groups[g])} functions: {'; '.join(g)}: {', '.join(sorted(groups[g]))}")
print()

# Point 6
slices = {
    f.place: [a[0] for a in f.args if "[" in a and a[a.index("[") + 1] in NUMBERS and ";" not in a] for f in functions
}
show("6 functions with three or more slices of numbers", [p for p, s in slices.items() if len(s) >= 3])
show(
    "6 arrays of fixed length that a function holds",
    [f.place for f in functions for a, b, c in zip(f.body, f.body[1:], f.body[2:]) if a == "=" and b == "[" and c[0].isdigit()],
)

# Point 7
show("7 functions with a bool among their parameters", [f.place for f in functions if any(a[-1] == "bool" for a in f.args)])
show("7 `match`", [f.place for f in functions for t in f.body if t == "match"])

# Point 8
for title, part, word in (
    ("8 lines in proofs/", "proofs", None),
    ("8 definitions and lemmas in proofs/ (signatures at the margin)", "proofs", r"^(?:pub |abbrev |abbrev pub |unfoldable |unfoldable pub )*[^\s:]+ : "),
):
    sums = Counter()
    for path in TOP.glob(f"crates/*/{part}/**/*.antt"):
        lines = path.read_text().split("\n")[:-1]
        sums[path.parts[path.parts.index("crates") + 1]] += sum(1 for x in lines if word is None or re.match(word, x))
    print(f"## {title}: {sum(sums.values())}")
    print("   " + ", ".join(f"{c} {n}" for c, n in sorted(sums.items())) + "\n")
