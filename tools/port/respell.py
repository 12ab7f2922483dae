#!/usr/bin/env python3
"""Respells the repository's own definitions, lemmas, fields and constructors as Rattle spells names now: words in snake case, facts in camel case.

usage: respell.py [ROOT]      the repository (default: the folder above tools/)

It runs once, right after the kit's port.py. It reads the names that specs/ and proofs/ declare, writes the new ones wherever a name stands whole (.antt files,
clauses and `ghost use` items of .rt files, must-fail edits, code spans of the documents), and leaves functions of src/, exported names and strings as they are. It prints the names that fall together.
"""
import collections
import glob
import os
import re
import sys

WORD = re.compile(r"[^\s(){}.;,@\"«»:`]+")
DECLARED = re.compile(r"(?:(?:unfoldable|abbrev) )?(?:pub )?(?:(?:unfoldable|abbrev|private) )*([^\s(){}.;,@\"«»:]+)(?: \{[^{}]*\})* : ?(.*)$")
MADE = re.compile(r"(?:pub )?(?:ruleset|data|record) ([^\s(){}.;,@\"«»:]+)")
INNER = re.compile(r"  (?:pub )?([^\s(){}.;,@\"«»:]+) : ")
# lemmas that port.py had turned already, and whose new name a definition takes
LEMMAS = ("after_first", "code_call", "found_in", "no_names", "none_over", "pair_one")


def snake(name):
    name = name.replace("-", "_")
    out = ""
    for i, c in enumerate(name):
        if c.isupper() and i and (name[i - 1].islower() or name[i - 1].isdigit()):
            out += "_" + c.lower()
        elif c.isupper() and i and name[i - 1] == "_":
            out += c
        else:
            out += c
    return out


def lowered(name):
    """Snake case, but a fact's name keeps its capital wherever it stands."""
    parts = ["get_or" if p == "getD" else p for p in name.split("-")]
    return "_".join(p if p[:1].isupper() else snake(p) for p in parts)


def fact(name):
    return name[0].upper() + name[1:]


def files(root, *kinds):
    for kind in kinds:
        for f in sorted(glob.glob(os.path.join(root, "crates", "*", kind), recursive=True)):
            if "/out/" not in f:
                yield f


def declared(root):
    """Old name -> new name."""
    table = {}
    known = set()
    for f in files(root, "specs/**/*.antt", "proofs/**/*.antt"):
        if os.path.basename(f) == "Proof.antt":
            continue
        lines = open(f, encoding="utf-8").read().split("\n")
        for i, line in enumerate(lines):
            m = DECLARED.match(line)
            if m and not line.startswith(("use ", "module ")):
                whole = m[2]
                j = i + 1
                while j < len(lines) and lines[j].startswith("    "):
                    whole += " " + lines[j].strip()
                    j += 1
                is_fact = re.search(r"(^|→ )Type [0-9ℓ]+$", whole.strip()) and m[1][0].islower()
                known.add(m[1])
                table.setdefault(m[1], fact(snakeless(m[1])) if is_fact else lowered(m[1]))
                continue
            m = MADE.match(line) or INNER.match(line)
            if m:
                known.add(m[1])
                table.setdefault(m[1], m[1] if m[1][0].isupper() else lowered(m[1]))
    table = {a: b for a, b in table.items() if a != b}
    # a lemma that would have its function's name gets _lem
    news = collections.Counter(table.values())
    for a, b in table.items():
        if "-" in a and (news[b] > 1 or b in known):
            table[a] = b + "_lem"
    for a in LEMMAS:
        table[a] = a + "_lem"
    return table, known


def snakeless(name):
    return "".join(p[:1].upper() + p[1:] for p in name.split("-")) if "-" in name else name


def foreign(text, own):
    """Names that a file brings from elsewhere under the spelling that they have there."""
    out = set()
    for m in re.finditer(r"(?m)^(?:ghost )?use ([^\s{]+)\.\{([^}]*)\}", text):
        if m[1].split(".")[0] == "Rattle" and m[1].split(".")[1] in own:
            continue
        for item in m[2].split(","):
            out.add(item.strip().split(" as ")[-1].strip())
    return out


def turned(text, table, skip):
    return WORD.sub(lambda m: table[m[0]] if m[0] in table and m[0] not in skip else m[0], text)


def in_clauses(text, table, skip):
    out, at = "", 0
    for m in re.finditer(r"(?m)^\s*(?:(?:requires|ensures)\*?(?: \w+)? \{|ghost \w+: \{|ghost invariant[^{]*\{)|^ghost use [^;]*;", text):
        if m.start() < at:
            continue
        end = m.end()
        if not m[0].startswith("ghost use"):
            deep = 1
            while deep:
                deep += {"{": 1, "}": -1}.get(text[end], 0)
                end += 1
        out += text[at : m.start()] + turned(text[m.start() : end], table, skip)
        at = end
    return out + text[at:]


def spans(text, table):
    return re.sub(r"`[^`\n]+`", lambda m: turned(m[0], table, set()), text)


def main():
    root = sys.argv[1] if len(sys.argv) > 1 else os.path.dirname(os.path.dirname(os.path.dirname(os.path.abspath(__file__))))
    own = set(os.listdir(os.path.join(root, "crates")))
    table, known = declared(root)
    fallen = collections.defaultdict(set)
    for a, b in table.items():
        fallen[b].add(a)
        if b in known and b not in table:
            fallen[b].add(b)
    for b, olds in sorted(fallen.items()):
        if len(olds) > 1:
            print("fall together:", b, sorted(olds))
    n = 0
    for f in files(root, "specs/**/*.antt", "proofs/**/*.antt", "src/**/*.rt", "must-fail/*.edit"):
        n += rewrite(f, table, own)
    for f in sorted(glob.glob(os.path.join(root, "tests/edits/**/*.edit"), recursive=True)):
        n += rewrite(f, table, own)
    for f in sorted(glob.glob(os.path.join(root, "docs/*.md")) + glob.glob(os.path.join(root, "docs/landings/*.md"))) + [os.path.join(root, "README.md")]:
        n += rewrite(f, table, own)
    print(f"{len(table)} names, {n} files")


def rewrite(f, table, own):
    text = open(f, encoding="utf-8").read()
    if f.endswith(".antt"):
        new = turned(text, table, foreign(text, own))
    elif f.endswith(".rt"):
        new = in_clauses(text, table, foreign(text, own))
        new = re.sub(r"//[^\n]*", lambda m: spans(m[0], table), new)
    elif f.endswith(".edit"):
        if re.search(r"(?m)^file: (specs|proofs)/", text):
            new = turned(text, table, set())
        else:
            new = re.sub(r"(?m)^(?:old|new):.*(?:requires|ensures|ghost use).*$", lambda m: turned(m[0], table, set()), text)
    else:
        new = spans(text, table)
    if new != text:
        with open(f, "w", encoding="utf-8") as to:
            to.write(new)
    return new != text


if __name__ == "__main__":
    main()
