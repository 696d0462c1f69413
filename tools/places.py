#!/usr/bin/env python3
"""Counts the places of docs/DESIGN-PASS.md by functions, types and proofs: `python3 tools/places.py REV`, at the top of the repository. It reads `git show REV:..` and nothing else."""
import re
import subprocess
import sys
from collections import defaultdict
from itertools import combinations

REV = sys.argv[1] if len(sys.argv) > 1 else "HEAD"


def git(*words):
    return subprocess.run(["git", *words], check=True, stdout=subprocess.PIPE, text=True).stdout


FILES = [f for f in git("ls-tree", "-r", "--name-only", REV, "crates").split("\n") if f]
SOURCES = [f for f in FILES if re.fullmatch(r"crates/[^/]+/src/.*\.rt", f)]
PROOFS = [f for f in FILES if re.fullmatch(r"crates/[^/]+/proofs/.*\.antt", f)]
TEXT = {f: git("show", f"{REV}:{f}") for f in SOURCES + PROOFS}


def bare(text):
    """The text with comments, byte strings and strings made blank, so that lines stay."""
    text = re.sub(r"//[^\n]*", lambda m: " " * len(m.group()), text)
    return re.sub(r"b?\"(\\.|[^\"\\])*\"|b'(\\.|[^'])'", lambda m: '"' + " " * (len(m.group()) - 2) + '"', text)


def closing(text, start):
    """Behind the brace that closes the one at `start`."""
    depth = 0
    for at in range(start, len(text)):
        depth += {"{": 1, "}": -1}.get(text[at], 0)
        if depth == 0:
            return at + 1
    return len(text)


class Function:
    """A function: where it stands, its name, its parameters, what it gives back, the facts of its clauses, its body."""

    def __init__(self, file, text, at, match):
        self.file, self.line, self.name = file, text.count("\n", 0, at) + 1, match.group("name")
        self.public = bool(match.group("pub"))
        open_at, depth = text.index("(", match.end() - 1), 0
        for end in range(open_at, len(text)):
            depth += {"(": 1, ")": -1}.get(text[end], 0)
            if depth == 0:
                break
        parts, level, part = [], 0, ""
        for sign in text[open_at + 1 : end]:
            level += {"(": 1, "<": 1, "[": 1, ")": -1, ">": -1, "]": -1}.get(sign, 0)
            if sign == "," and level == 0:
                parts.append(part)
                part = ""
            else:
                part += sign
        self.parameters = [" ".join(p.split()) for p in parts + [part] if p.strip()]
        rest = text[end + 1 :]
        head = re.match(r"(?P<gives>[^{;]*?)(?=\s+(requires|ensures|ghost)\b|\s*\{|;)", rest, re.S)
        self.gives = " ".join((head.group("gives") if head else "").replace("->", "").split())
        self.requires, self.ensures, here = [], [], end + 1 + (head.end() if head else 0)
        while True:
            clause = re.match(r"\s*(requires|ensures|ghost)( [a-z_0-9]+)?\s*\{", text[here:])
            if not clause:
                break
            stop = closing(text, here + clause.end() - 1)
            facts = [f.strip() for f in text[here + clause.end() : stop - 1].split(" × ")]
            {"requires": self.requires, "ensures": self.ensures}.get(clause.group(1), []).extend(facts)
            here = stop
        body = re.match(r"\s*\{", text[here:])
        self.body = text[here + body.end() - 1 : closing(text, here + body.end() - 1)] if body else ""

    @property
    def place(self):
        return f"{self.file}:{self.line} {self.name}"


FUNCTIONS = []
for source in SOURCES:
    plain = bare(TEXT[source])
    for found in re.finditer(r"(?P<pub>pub )?(const )?(extern \"[^\"]*\" )?fn (?P<name>[A-Za-z0-9_]+)\s*(<[^(]*>)?\(", plain):
        FUNCTIONS.append(Function(source, plain, found.start(), found))

TYPES = []  # file, line, kind, name, body, derives
for source in SOURCES:
    plain = bare(TEXT[source])
    for found in re.finditer(r"(#\[derive\((?P<derives>[^)]*)\)\]\s*)?(pub )?(?P<kind>struct|enum) (?P<name>[A-Za-z0-9_]+)[^{;]*\{", plain):
        at = found.start("kind")
        TYPES.append((source, plain.count("\n", 0, at) + 1, found.group("kind"), found.group("name"), plain[found.end() : closing(plain, found.end() - 1) - 1], found.group("derives") or ""))


def variants(body):
    return [(v, bool(payload)) for v, payload in re.findall(r"([A-Z][A-Za-z0-9]*)\s*(\([^)]*\)|\{[^}]*\})?\s*,?", body)]


def tell(point, what, places):
    places = list(places)
    print(f"\n## {point}. {what}: {len(places)}\n")
    for place in places:
        print(f"- {place}")


# 1: types of the shape of Option or Result, types with a flag beside a value, and the functions that give them
shaped, flagged = [], []
for file, line, kind, name, body, _ in TYPES:
    if kind == "enum":
        cases = variants(body)
        plain_ones = [v for v, payload in cases if not payload]
        if cases and len(cases) - len(plain_ones) >= 1 and any(re.search(r"Worked|None|No|Nothing|Missing|Absent|Unworkable|Other|Bad|Not|Un", v) for v in plain_ones):
            shaped.append((name, f"{file}:{line} enum {name}: {', '.join(v for v, _ in cases)}"))
    else:
        fields = re.findall(r"([A-Za-z0-9_]+)\s*:\s*([^,]+)", body)
        flags = [f"{f}: {t.strip()}" for f, t in fields if t.strip() in ("bool", "Answer") or f == "lent"]
        if flags and len(fields) > len(flags):
            flagged.append((name, f"{file}:{line} struct {name}: {', '.join(flags)} beside {', '.join(f for f, t in fields if f + ': ' + t.strip() not in flags)}"))
tell(1, "enums with a case for nothing or for a refusal beside a value", (p for _, p in shaped))
tell(1, "structs with a flag or an answer beside values", (p for _, p in flagged))
names = {n for n, _ in shaped + flagged}
tell(1, "functions that give one of these", (f"{f.place} -> {f.gives}" for f in FUNCTIONS if f.gives in names))

# 2: functions of one crate, or of two, with the same shape: alike but for names, numbers and constants
shapes = defaultdict(list)
for f in FUNCTIONS:
    words = re.findall(r"[A-Za-z_][A-Za-z0-9_]*|\d[\w]*|[^\s\w]", f.body)
    keep = {"if", "else", "for", "in", "match", "let", "mut", "return", "as", "while", "true", "false"}
    shape = " ".join(w if w in keep or not re.match(r"\w", w) else ("N" if w[0].isdigit() or w.isupper() else "x") for w in words)
    if len(words) >= 14:
        shapes[shape].append(f)
groups = [g for g in shapes.values() if len(g) > 1]
tell(2, "groups of functions whose bodies differ only in names, types, numbers and constants (14 words or more)", (" = ".join(f.place for f in g) for g in sorted(groups, key=lambda g: g[0].place)))

alike = []
from difflib import SequenceMatcher
flat = [(f, [w for w in re.findall(r"[A-Za-z_][A-Za-z0-9_]*|\d[\w]*|[^\s\w]", f.body)]) for f in FUNCTIONS]
keep = {"if", "else", "for", "in", "match", "let", "mut", "return", "as", "while", "true", "false"}
flat = [(f, [w if w in keep or not re.match(r"\w", w) else ("N" if w[0].isdigit() or w.isupper() else "x") for w in ws]) for f, ws in flat if len(ws) >= 30]
same = [set(f.place for f in g) for g in groups]
for (f, v), (g, w) in combinations(flat, 2):
    if abs(len(v) - len(w)) <= 0.2 * max(len(v), len(w)) and not any(f.place in k and g.place in k for k in same):
        match = SequenceMatcher(None, v, w, autojunk=False)
        if match.quick_ratio() >= 0.88 and match.ratio() >= 0.88:
            alike.append(f"{match.ratio():.2f} {f.place} ~ {g.place}")
tell(2, "pairs of functions of 30 words or more whose shapes are nearly the same, and not quite (a look at each tells whether they are twins)", sorted(alike, reverse=True))

# 3: loops, by what their index does
loops = []
for f in FUNCTIONS:
    for found in re.finditer(r"\bfor ([a-z_0-9]+) in ([^{]*?\.\.[^{]*?)\{|\bwhile\b([^{]*)\{", f.body):
        inner = f.body[found.end() - 1 : closing(f.body, found.end() - 1)]
        index = found.group(1)
        indexes = bool(index and re.search(r"\[[^\]]*\b" + index + r"\b[^\]]*\]", inner))
        loops.append((indexes, f"{f.place}: {'for ' + index + ' in ' + found.group(2).strip() if index else 'while ' + found.group(3).strip()}{', indexes' if indexes else ''}"))
tell(3, "loops over numbers, of which those that end in `indexes` read or write an array at the number", (p for _, p in loops))

# 4: equality, order, conversion by hand
by_hand = []
for f in FUNCTIONS:
    inner = " ".join(f.body[1:-1].split())
    if re.fullmatch(r"if (\w+|0) <=? (\w+|0) \{ [\w\s.-]+ \} else \{ [\w\s.-]+ \}", inner):
        by_hand.append(f"{f.place}: {inner}")
    elif re.fullmatch(r"match .*\{.*=> true, .*=> false,? \}", inner) or re.fullmatch(r"match .*\{.*=> false, .*=> true,? \}", inner):
        by_hand.append(f"{f.place}: a match for yes or no")
    elif re.fullmatch(r"\w+ as (u8|u16|u32|u64|usize|i64)", inner):
        by_hand.append(f"{f.place}: {inner}")
    elif re.search(r"\b(one|a|x)\[i\] != (other|b|y)\[i\]|\b\w+\[i\] == \w+\[i\]", inner):
        by_hand.append(f"{f.place}: compares two slices one by one")
tell(4, "functions that are a test of two numbers, a match for yes or no, a cast, or a comparison of slices", by_hand)
tell(4, "types without PartialEq", (f"{file}:{line} {kind} {name} ({derives or 'no derive'})" for file, line, kind, name, _, derives in TYPES if "PartialEq" not in derives))

# 5: facts that three functions' clauses or more have, with the names of parameters made alike; parameters that three functions or more have together
asked = defaultdict(list)
for f in FUNCTIONS:
    for fact in set(f.requires):
        asked[fact.strip()].append(f)
often = {fact: fs for fact, fs in asked.items() if len(fs) >= 3}
tell(5, "facts that the `requires` of three functions or more have", (f"{len(fs)} x {fact}: {', '.join(f.file.split('/', 2)[1] + '::' + f.name for f in fs)}" for fact, fs in sorted(often.items(), key=lambda p: -len(p[1]))))
together = defaultdict(list)
for f in FUNCTIONS:
    ps = sorted(set(p for p in f.parameters if ":" in p))
    for size in (2, 3, 4):
        for group in combinations(ps, size):
            together[group].append(f)
big = {g: fs for g, fs in together.items() if len(fs) >= 3}
most = {g: fs for g, fs in big.items() if not any(set(g) < set(h) and len(big[h]) == len(fs) for h in big)}
tell(5, "parameters that three functions or more have together", (f"{len(fs)} x ({', '.join(g)}): {', '.join(f.file.split('/', 2)[1] + '::' + f.name for f in fs)}" for g, fs in sorted(most.items(), key=lambda p: -len(p[1]))))

# 6: a slice or an array with a number of places beside it; arrays in structs and as parameters
beside = []
for f in FUNCTIONS:
    lent = [p for p in f.parameters if re.search(r"&(mut )?\[|\[[a-zA-Z0-9]+;|&mut \w*(Row|Table|Counts)\b", p)]
    places = [p for p in f.parameters if re.search(r":\s*(usize|u32)$", p) and re.match(r"(at|i|from|first|start|place|places|used|room|end|count|index|passed|number|walls|loads)\b", p)]
    if lent and places:
        beside.append(f"{f.place}({', '.join(f.parameters)})")
tell(6, "functions that take a slice or an array and a place, a count or a room beside it", beside)
tell(6, "constants and types that are arrays", (f"{s}:{TEXT[s].count(chr(10), 0, m.start()) + 1} {' '.join(m.group().split())}" for s in SOURCES for m in re.finditer(r"(?m)^\s*(pub )?(const|type) \w+(: | = )&?\[[^=;]*;[^\]]*\]", TEXT[s])))

# 7: which step to run
steps = []
for f in FUNCTIONS:
    for found in re.finditer(r"\bmatch ([^{]+)\{", f.body):
        arms = f.body[found.end() : closing(f.body, found.end() - 1) - 1]
        calls = len(re.findall(r"=>\s*(\{\s*)?[a-z_:]+(\.[a-z_]+)*\(", arms))
        count = arms.count("=>")
        if calls >= 2:
            steps.append(f"{f.place}: match {found.group(1).strip()}: {count} arms, {calls} of them calls")
    chain = re.findall(r"\bif (\w+) == (\w+)", f.body)
    if len(chain) >= 2 and len({c[0] for c in chain}) == 1:
        steps.append(f"{f.place}: a chain of tests of {chain[0][0]}")
tell(7, "functions that choose by a match, or a chain of tests of one value, which of two calls or more to make", steps)

# 8: answers: how many, and those that several answers of one crate repeat
answers = defaultdict(lambda: defaultdict(list))
total = 0
for proof in PROOFS:
    if proof.endswith(("Answers.antt", "Invariants.antt")):
        for found in re.finditer(r"(?m)^(abbrev )?pub (\S+) : goal\.\S+\n((unfolding [^\n]*\n)?)\2 ?([^\n]*(\n(?=\s).*)*)", TEXT[proof]):
            total += 1
            right = re.sub(r"\s+", " ", found.group(5)).split("=", 1)[-1].strip()
            answers[proof.split("/")[1]][right].append(f"{proof}:{TEXT[proof].count(chr(10), 0, found.start()) + 1} {found.group(2)}")
print(f"\n## 8. answers in all: {total}, in {sum(p.endswith('Answers.antt') for p in PROOFS)} files of answers and {sum(p.endswith('Invariants.antt') for p in PROOFS)} of invariants")
tell(8, "right-hand sides that three answers or more of one crate repeat", (f"{crate}: {len(where)} x `{right[:150]}`: {'; '.join(w.split('/proofs/')[1] for w in where)}" for crate, rights in sorted(answers.items()) for right, where in sorted(rights.items(), key=lambda p: -len(p[1])) if len(where) >= 3))
