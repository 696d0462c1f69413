#!/usr/bin/env python3
"""Brings the names of this repository's own definitions and lemmas to the spelling of the library: words in snake case, types and modules in camel case, a prime
as an apostrophe. It was run once, right after the toolchain's own script, and docs/PORT.md has what it renamed.

    python3 tools/respell.py          in the repository: rewrites crates/ in place
    python3 tools/respell.py --list   prints 'OLD NEW' a line, and writes nothing

A name is this repository's own where a file of specs/ or a file of lemmas declares it. Functions of src/, types, exported names, comments' plain words and strings
keep theirs. A dash stays beside an operator, and is else written `_`.
"""
import os
import re
import sys

ROOT = "crates"
PROOF = ("Proof.antt", "Invariants.antt", "Answers.antt")
DECLARED = re.compile(r"\s*(?:(?:abbrev|unfoldable|pub|data|record|infix[lr]? \d+) )*([^\s(){}]+) (?:\(|\{|:)")
# names that a library has under the very same spelling, found where the check named them
LIBRARY = set("""add-one le-leb lt-leb le-ltb lt-ltb eq-eqb take-suc take-suc-set drop-set-add drop-set-lt take-set-le and-true""".split())
# where two names would fall together, or a name with a parameter or a word of the library: OLD to NEW
APART = {"asBefore": "told_as_before", "byWay": "place_by_way"}
TOKEN = re.compile(r"[^\s(){}\[\];,.«»λ\"`|]+")


def texts(*endings):
    for folder, dirs, files in os.walk(ROOT):
        dirs[:] = sorted(d for d in dirs if d != "out")
        for f in sorted(files):
            if f.endswith(endings):
                yield os.path.join(folder, f)


def lemma_file(path):
    return path.endswith(".antt") and not (os.path.basename(path) in PROOF and "/proofs/" in path)


def declared():
    """Each name that is declared, and whether it is a definition of specs/ or begins a type."""
    names, definitions = set(), set()
    for path in texts(".antt"):
        if not lemma_file(path):
            continue
        for line in open(path, encoding="utf-8"):
            if line.lstrip().startswith(("--", "use ", "pub use ", "mod ", "pub mod ")):
                continue
            found = DECLARED.match(line)
            if found:
                names.add(found.group(1))
                if "/specs/" in path or re.match(r"\s*(abbrev|unfoldable|record|data)", line):
                    definitions.add(found.group(1))
    return names, definitions


def snake(word):
    word = re.sub(r"(?<=[a-z0-9])([A-Z]+)", lambda m: "_" + m.group(1).lower(), word)
    word = re.sub(r"(?<=[a-z])(?=[ℕℤ])", "_", word)
    return word


def respelt(name, definitions):
    if name in APART:
        return APART[name]
    name = name.replace("′", "'")
    if name[:1].isupper() and "-" not in name:
        return name
    parts = name.split("-")
    said = [p if p[:1].isupper() and len(p) > 1 else snake(p[:1].lower() + p[1:]) for p in parts]
    out = said[0]
    for before, after, a, b in zip(parts, parts[1:], said, said[1:]):
        operator = not re.match(r"[\w']+$", before) or not re.match(r"[\w']+$", after)
        out += ("-" if operator else "_") + b
    return out


def renamings():
    names, definitions = declared()
    out = {}
    for name in sorted(names):
        if name in LIBRARY:
            continue
        if name.startswith("◌"):
            for part in name.split("◌"):
                if re.search(r"[a-z][A-Z]", part):
                    out[part] = snake(part)
                    out[name] = name.replace(part, snake(part))
            continue
        new = respelt(name, definitions)
        if new != name:
            out[name] = new
    # a lemma that would have a definition's name gets `_lem`
    taken = {out.get(n, n) for n in definitions}
    for name in sorted(out):
        if name not in definitions and out[name] in taken:
            out[name] += "_lem"
    return out, names


def renamed(out, code, found):
    new = out.get(found.group(0), found.group(0))
    # behind a dot stands a field, which shares its name with no definition
    if code[: found.start()].endswith(".") and new.endswith("_lem"):
        new = new[: -len("_lem")]
    return new


def main():
    out, names = renamings()
    if "--list" in sys.argv:
        for old in sorted(out):
            print(old, out[old])
        return
    taken = {}
    for name in names:
        taken.setdefault(out.get(name, name), set()).add(name)
    for new, olds in sorted(taken.items()):
        if len(olds) > 1:
            print("fall together:", new, sorted(olds))
    for path in texts(".antt", ".rt", ".edit"):
        text = open(path, encoding="utf-8").read()
        comment = "//" if path.endswith(".rt") else "--"
        lines = []
        for line in text.split("\n"):
            at = line.find(comment + " ") if not path.endswith(".edit") else -1
            if path.endswith(".edit") and line.startswith("# ") and not line.startswith("# refused in"):
                at = 0
            code, said = (line, "") if at < 0 else (line[:at], line[at:])
            code = TOKEN.sub(lambda m: renamed(out, code, m), code)
            # in a comment a name with a dash may be plain words, but where it stands in backquotes
            said = re.sub(r"`[^`]*`", lambda m: TOKEN.sub(lambda n: out.get(n.group(0), n.group(0)), m.group(0)), said)
            said = TOKEN.sub(lambda m: out.get(m.group(0), m.group(0)) if "-" not in m.group(0) else m.group(0), said)
            lines.append(code + said)
        new = "\n".join(lines)
        if new != text:
            with open(path, "w", encoding="utf-8") as f:
                f.write(new)


main()
