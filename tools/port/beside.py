#!/usr/bin/env python3
"""Sets the public promises of an earlier commit beside those of today: functions, types, definitions, and the lemmas that documents name.

  tools/port/beside.py e835c2c > docs/DESIGN-PASS-CHANGES.md

Run it at the repository's top. The old side is read by `git show`, the new one from the files. A definition or a lemma whose text differs only
by the spelling of SPELLED is listed by its name alone.
"""
import os
import re
import subprocess
import sys
from collections import namedtuple

# The enums that are gone: their crate and name; how the type is spelled today; and for each constructor how it is spelled in an expression, in a pattern,
# and the fields that a pattern's variables are of the one value that is there today. No fields: the constructor has at most one value, as it had.
Turned = namedtuple("Turned", "today cases")
REFUSED = ("Err", "Err", [])


def answer(today, **cases):
    return Turned(today, {"Refused": REFUSED, **cases})


SPELLED = {
    ("values", "Integer"): answer("Answer Integer", One=("one", "Ok", ["bits", "next"])),
    ("values", "Descriptor"): answer("Answer Descriptor", Typed=("typed", "Ok", ["code", "len", "first"])),
    ("values", "Value"): answer("Answer Value", Present=("whole", "Ok", ["code", "len", "first", "stop"])),
    ("vectors", "Judged"): answer("Answer (Unit {0})", Sound=("Sound", "Sound", [])),
    ("vectors", "Turn"): Turned("Result Bool ℕ", {"Bad": REFUSED, "On": ("Ok", "Ok", [])}),
    ("fixed", "Blocks"): answer("Answer Blocks", Lent=("lent", "Ok", ["border", "length"])),
    ("fixed", "Fixed"): answer("Answer Site", Site=("Ok", "Ok", [])),
    ("site", "Step"): answer("Answer ℕ", At=("Ok", "Ok", [])),
    ("genotypes", "FormatField"): answer("Answer FormatField", Whole=("whole_field", "Ok", ["key", "code", "len", "first", "stop"])),
    ("genotypes", "Genotypes"): answer("Answer Gt", Sound=("Ok", "Ok", [])),
    ("record", "Reading"): answer("Answer Reading", Accepted=("accepted_as", "Ok", ["site", "gt"])),
    ("fetch", "Found"): answer("Answer Found", Field=("found_field", "Ok", ["key", "code", "len", "place", "stop"])),
    ("walker", "Pair"): Turned("Option Pair", {"Found": ("found_pair", "Some", ["key", "code", "len", "place", "next"]), "End": ("None", "None", [])}),
    ("walker", "Opening"): answer("Answer ℕ", First=("Ok", "Ok", [])),
    ("tally", "Counting"): answer("Answer Site", Counted=("Ok", "Ok", [])),
    ("choose", "Choosing"): answer("Answer ℕ", Chosen=("Ok", "Ok", [])),
    ("vcf_line", "Line"): answer("Answer ℕ", Written=("Ok", "Ok", [])),
    ("build", "Answer"): answer("Answer (Unit {0})", Taken=("Taken", "Taken", [])),
    ("vcf_qual", "Whole"): Turned("Option ℕ", {"Number": ("Some", "Some", []), "Other": ("None", "None", [])}),
    ("calls", "Slot"): Turned("Option ℕ", {"Call": ("Some", "Some", []), "Past": ("None", "None", [])}),
    ("decimal", "Put"): Turned("Option ℕ", {"At": ("Some", "Some", []), "NoRoom": ("None", "None", [])}),
    ("frames", "Answer"): Turned("Option ℕ", {"Text": ("Some", "Some", []), "NoRoom": ("None", "None", [])}),
    ("frames", "Stepped"): Turned("Option (Next Stage)", {"Next": ("next", "Some", ["stage", "waiting"]), "NoRoom": ("None", "None", [])}),
    ("cuts", "Stepped"): Turned("Option (Next Stage)", {"Next": ("next", "Some", ["stage", "waiting"]), "NoRoom": ("None", "None", [])}),
    ("hexadecimal", "FactsLine"): Turned("Option Facts", {"Facts": ("Some", "Some", []), "NoFacts": ("None", "None", [])}),
    ("hexadecimal", "ChoiceLine"): Turned("Result ℕ LineError", {"People": ("Ok", "Ok", []), "Bad": ("Err Bad", "Err Bad", []), "NoRoom": ("Err NoRoom", "Err NoRoom", [])}),
    ("hexadecimal", "Frame"): Turned("Result ℕ LineError", {"Bytes": ("Ok", "Ok", []), "Bad": ("Err Bad", "Err Bad", []), "NoRoom": ("Err NoRoom", "Err NoRoom", [])}),
    ("pump", "Wrote"): Turned("Option ℕ", {"Waiting": ("Some", "Some", []), "Failed": ("None", "None", [])}),
}

# What states today what an item that is gone stated: by crate and name.
REFUSES = "`values::refusal_of` states it, by the definition `refusal_of` of values/specs/Answers, for every answer; that it is the refusal which {says} tells is {lemma}."


def refuses(says, *lemmas):
    return REFUSES.format(says=f"`{says}`", lemma=" and ".join(f"`{name}` of {crate}/proofs/Said" for crate, name in lemmas))


NOW = {
    "values::integer_refusal": refuses("integer_says", ("values", "said_integer")),
    "values::descriptor_refusal": refuses("descriptor_says", ("values", "said_descriptor")),
    "values::value_refusal": refuses("value_says", ("values", "said_value")),
    "fixed::blocks_refusal": refuses("blocks_says", ("fixed", "said_blocks")),
    "fixed::fixed_refusal": refuses("fixed_says", ("fixed", "said_fixed")),
    "site::step_refusal": refuses("step_says", ("site", "said_step")),
    "genotypes::field_refusal": refuses("field_says", ("genotypes", "said_field")),
    "genotypes::genotypes_refusal": refuses("genotypes_says", ("genotypes", "said_genotypes")),
    "record::reading_refusal": refuses("reading_says", ("record", "said_reading")),
    "fetch::found_refusal": refuses("found_says", ("fetch", "said_found")),
    "vcf_line::line_refusal": refuses("line_says", ("vcf_line", "said_line")),
    "decimal::place_after": "std's `Option::unwrap_or` states it, with 0 for no room. `put_told` stands as it was.",
    "frames::text_length": "std's `Option::unwrap_or` states it, with 0 for no room. `answer_told` stands as it was.",
    "c_answers::tell_opening": "`tell_one` states it: `opening_answer` is `one_answer`.",
    "c_answers::tell_choosing": "`tell_one` states it: `choosing_answer` is `one_answer`.",
    "c_answers::tell_line": "`tell_one` states it: `line_number` is `one_answer`.",
    "hexadecimal::characters::table": "The type `Values` of the same file states it, by its ghost field `all`.",
    "hexadecimal::FactsLine": "Today `Option<Facts>`.",
    "hexadecimal::ChoiceLine": "Today `Result<usize, LineError>`.",
    "hexadecimal::Frame": "Today `Result<usize, LineError>`.",
    "decimal::Put": "Today `Option<usize>`.",
    "vectors::Judged": "Today `Result<(), Refusal>`.",
    "vectors::Turn": "Today `Result<bool, u32>`: whether the vector has ended, or the refusal's number.",
    "fixed::Fixed": "Today `Result<Site, Refusal>`.",
    "site::Step": "Today `Result<usize, Refusal>`.",
    "genotypes::Genotypes": "Today `Result<Gt, Refusal>`.",
    "walker::Opening": "Today `Result<usize, Refusal>`.",
    "tally::Counting": "Today `Result<Site, Refusal>`.",
    "vcf_qual::Whole": "Today `Option<u32>`.",
    "vcf_line::Line": "Today `Result<usize, Refusal>`.",
    "choose::Choosing": "Today `Result<usize, Refusal>`.",
    "build::Answer": "Today `Result<(), Refusal>`.",
    "frames::Answer": "Today `Option<usize>`.",
    "frames::Stepped": "Today `Option<Next<Stage>>`.",
    "cuts::Stepped": "Today `Option<Next<Stage>>`, with `Next` of frames.",
    "cuts::StepInside": "`StepInside` of frames/specs/Steps states it, for a stage of any type.",
    "cuts::step_told": "`step_told` of frames/specs/Steps states it, for a stage of any type.",
    "pump::Wrote": "Today `Option<usize>`.",
    "repeats::one_more": "A step in the proofs of three loops that one generic loop replaced.",
}

# What to say of an item that is new.
NEW = {
    "hexadecimal::characters::Values": "Its ghost field says of the whole table what `characters::table` promised. For its crate alone.",
    "hexadecimal::characters::Values::new": "For its crate alone.",
    "hexadecimal::characters::Values::digit": "For its crate alone.",
    "values::refusal_of": "It stands for each `.._refusal` function that is gone.",
    "c_answers::tell_one": "It stands for `tell_opening`, `tell_choosing` and `tell_line`.",
    "bcflines::answer": "What `main` of the program did itself, with no promise.",
    "bcfcut::cut": "What `main` of the program did itself, with no promise.",
}

KINDS = r"fn|const|static|struct|enum|trait|type|impl|mod|use"
HEAD = re.compile(rf"^( *)(?:ghost )?(pub )?(?:extern \"C\" )?({KINDS})\b")
WORD = re.compile(r"[\s(){},;]+|[^\s(){},;]+")
DEFINED = re.compile(r"^(?:pattern |unfoldable |abbrev |pub )*(?:(?:record|data) (\S+)|(\S+) :) ")
CONSTANT = {"zero", "suc", "true", "false", "refl", "tt", "negsuc", "pos"}

# Items: functions, types, impls of traits with ghost members. Code is what is shown and compared.
Item = namedtuple("Item", "crate file name kind public code")
Definition = namedtuple("Definition", "crate file name code aliases")


class Side:
    """The files of a commit, or of the folder where no commit is given."""

    def __init__(self, commit=None):
        self.commit, self.kept = commit, {}
        if commit:
            self.files = sorted(git("ls-tree", "-r", "--name-only", commit).splitlines())
        else:
            self.files = sorted(git("ls-files").splitlines())

    def read(self, path):
        if path not in self.kept:
            if self.commit:
                self.kept[path] = git("show", f"{self.commit}:{path}")
            else:
                with open(path, encoding="utf-8") as f:
                    self.kept[path] = f.read()
        return self.kept[path]

    def of(self, pattern):
        return [p for p in self.files if re.fullmatch(pattern, p)]

    def crates(self):
        return [m[1] for m in re.finditer(r"^(\w+)(?: \w+)?:", self.read("crates.txt"), re.M)]


def git(*words):
    return subprocess.run(["git", *words], check=True, capture_output=True, text=True).stdout


def masked(text):
    """A text with its comments, strings and characters blanked, of the same length."""
    return re.sub(r"//[^\n]*|b?\"(?:\\.|[^\"\\])*\"|b?'(?:\\.[^']*|[^'\\])'", lambda m: " " * len(m[0]), text)


def closing(text, at):
    depth = 0
    for i in range(at, len(text)):
        depth += (text[i] in "([{") - (text[i] in ")]}")
        if depth == 0:
            return i
    return len(text)


def front_of(text, start):
    """Where a function's signature and clauses end: at its body, or at the semicolon of one that has none."""
    at = start
    while at < len(text):
        c = text[at]
        if c == ";":
            return at
        if c in "([":
            at = closing(text, at)
        elif c == "{":
            if not re.search(r"\b(?:requires|ensures)(?: \w+)?\s*\Z", text[start:at]):
                return at
            at = closing(text, at)
        at += 1
    return at


def plainly(code):
    """Code without comments, attributes and blank lines, its indentation taken away."""
    lines = [re.sub(r"\s*//.*", "", line) for line in code.splitlines()]
    text = re.sub(r"#!?\[[^\n]*\]\n", "", "\n".join(lines) + "\n")
    lines = [line for line in text.splitlines() if line.strip()]
    most = min((len(line) - len(line.lstrip()) for line in lines), default=0)
    return "\n".join(line[most:].rstrip() for line in lines)


def items_of(side, path):
    """A source file's functions, types and impls."""
    text = side.read(path)
    bare = masked(text)
    crate, module = path.split("/")[1], os.path.basename(path)[:-3]
    front = "" if module in ("lib", "main") else module + "::"
    found, at, owner, owned, inside = [], 0, "", 0, ""
    for line in bare.splitlines(True):
        start, at = at, at + len(line)
        m = HEAD.match(line)
        if not m:
            continue
        if start >= owned:
            owner, inside = "", ""
        kind, public = m[3], bool(m[2])
        head = bare.index(kind, start)
        if kind == "fn":
            stop = front_of(bare, head)
            name = re.match(r"fn (\w+)", bare[head:])[1]
        elif kind in ("struct", "enum", "trait", "impl"):
            opens = next((i for i in range(head, len(bare)) if bare[i] in "{;"), len(bare))
            stop = opens + 1 if bare[opens:opens + 1] == ";" else closing(bare, opens) + 1
            name = re.match(r"\w+(?:<[^>]*>)? *(.*?)\s*[{;(]", bare[head:stop], re.S)[1] if kind == "impl" else re.match(r"\w+ (\w+)", bare[head:])[1]
        elif kind in ("const", "static", "type"):
            name, stop = re.match(r"\w+ (\w*)", bare[head:])[1], semicolon(bare, head) + 1
        else:
            continue
        code = text[start:stop]
        if kind in ("impl", "trait"):
            owner = name.split(" for ")[-1]
            owned, inside = stop, kind
            if kind == "impl":
                ghosts = re.findall(r"^ *ghost (?!use)[^\n]*(?:\n(?! *(?:pub |fn |const |ghost |#|//|\})).*)*", code, re.M)
                head_line = code.strip().splitlines()[0]
                if not ghosts or " for " not in head_line:
                    continue
                code = head_line + "\n" + "\n".join("    " + g.strip() for g in ghosts) + "\n}"
            name = " ".join(name.split())
        elif inside == "trait":
            continue
        elif owner and m[1]:
            name = re.sub(r"<.*", "", owner) + "::" + name
        found.append(Item(crate, path, front + name, kind, public, plainly(code)))
    return found


def semicolon(text, at):
    while at < len(text) and text[at] != ";":
        at = closing(text, at) + 1 if text[at] in "([{" else at + 1
    return at


def aliases_of(text):
    """The names that a file imports, each with where it is from and its name there."""
    names = {}
    for m in re.finditer(r"^(?:pub )?use ([\w.]+)\.\{([^}]*)\}", text, re.M):
        for name in m[2].split(","):
            there, _, here = name.strip().partition(" as ")
            names[here or there] = (m[1], there)
    return names


def definitions_in(side, path):
    """The definitions of a specs or proofs file, without the comment above."""
    text = side.read(path)
    aliases = aliases_of(text)
    lines = text.splitlines()
    starts = [i for i, line in enumerate(lines) if DEFINED.match(line) and not line.startswith(("use ", "pub mod", "--", "pub use"))]
    for i in starts:
        m = DEFINED.match(lines[i])
        aliases.setdefault(m[1] or m[2], ("", m[1] or m[2]))
    found = []
    for i, stop in zip(starts, starts[1:] + [len(lines)]):
        kept = [line for line in lines[i:stop]]
        while kept and (not kept[-1].strip() or kept[-1].startswith("--") or kept[-1].startswith("use ")):
            kept.pop()
        m = DEFINED.match(lines[i])
        found.append(Definition(path.split("/")[1], path, m[1] or m[2], "\n".join(kept), aliases))
    return found


def statement(definition):
    """A lemma's statement: its first line, and those that go on with it."""
    lines = definition.code.splitlines()
    return "\n".join(lines[:1] + lines[1:next((i for i, line in enumerate(lines) if i and not line.startswith(" ")), len(lines))])


def turned(path_and_name):
    """The enum of SPELLED that an import is of, and which constructor."""
    there, name = path_and_name
    m = re.fullmatch(r"Rattle\.(\w+)\.specs\.declared\.(?:\w+\.)*?(\w+)(\.TheVariants)?", there)
    rule = m and SPELLED.get((m[1], m[2]))
    if not rule:
        return None, None
    return (None, rule.cases.get(name)) if m[3] else (rule, None)


def paired(tokens, at):
    """The end of the group or word at a place."""
    if tokens[at] != "(":
        return at + 1
    depth = 0
    for i in range(at, len(tokens)):
        depth += (tokens[i] == "(") - (tokens[i] == ")")
        if depth == 0:
            return i + 1
    return len(tokens)


def tokens_of(text):
    return re.findall(r"[(){},;]|[^\s(){},;]+", text)


def spelled(definition, code, old):
    """A text in one spelling for both sides: types and constructors as today, bound variables by their places."""
    code = "\n".join(re.sub(r"(^|\s)--\s.*", "", line) for line in code.splitlines())
    clauses = re.split(r"\n(?=\S)", code)
    out = []
    for clause in clauses:
        m = re.search(r"\s=(?=\s)", clause)
        is_clause = m and not DEFINED.match(clause.splitlines()[0] + " ")
        left, right = (clause[:m.start()], clause[m.end():]) if is_clause else ("", clause)
        names, lhs = {}, tokens_of(left)
        done, i = lhs[:1], 1
        while i < len(lhs):
            token = lhs[i]
            known = definition.aliases.get(token)
            case = turned(known)[1] if known and old else None
            if case:
                expression, pattern, fields = case
                if not fields:
                    done += pattern.split()
                    i += 1
                    continue
                var = f"v{len(set(n.split('.')[0] for n in names.values()))}"
                args, j = [], i + 1
                while j < len(lhs) and lhs[j] != ")":
                    args.append(lhs[j:paired(lhs, j)])
                    j = paired(lhs, j)
                for field, arg in zip(fields, args):
                    if len(arg) == 1:
                        names[arg[0]] = f"{var}.{field}"
                done += [pattern, var]
                i = j
                continue
            if re.fullmatch(r"[^\W\d][\w']*", token) and token not in definition.aliases and token not in CONSTANT and not token[0].isupper():
                names.setdefault(token, f"v{len(set(n.split('.')[0] for n in names.values()))}")
                done.append(names[token])
            else:
                done.append(known[1] if known else token)
            i += 1
        rest = []
        for token in tokens_of(right):
            first, dot, field = token.partition(".")
            known = definition.aliases.get(token)
            if first in names and first:
                rest.append(names[first] + dot + field)
            elif known and old and any(turned(known)):
                rule, case = turned(known)
                rest += tokens_of(rule.today if rule else case[0])
            else:
                rest.append(known[1] if known else token)
        out.append(" ".join(done + (["="] if is_clause else []) + rest))
    # Brackets around a type in an arrow make no difference.
    text = "\n".join(out)
    return re.sub(r"\( ((?:Answer|Option|Result)(?: [\w.ℕ]+| \( [^()]* \))*) \)(?= (?:→|\n|$))", r"\1", text)


def beside(olds, news, same):
    """Pairs of old and new: by crate, file and name, then by crate and name, then by name where the code is the same. What is left is gone or new."""
    pairs, left, free = [], list(olds), list(news)
    for key in (lambda d: (d.crate, d.file, d.name), lambda d: (d.crate, d.name), lambda d: (d.name, d.code)):
        by, rest = {}, []
        for d in free:
            by.setdefault(key(d), []).append(d)
        for d in left:
            hit = by.get(key(d))
            if hit:
                pairs.append((d, hit.pop(0)))
            else:
                rest.append(d)
        taken = {id(n) for _, n in pairs}
        left, free = rest, [d for d in free if id(d) not in taken]
    return [(a, b) for a, b in pairs if not same(a, b)], left, free


def block(title, code, language):
    return [f"{title}:", "", f"```{language}", code, "```", ""]


def place(d):
    return "/".join(d.file.split("/")[2:])


def entry(name, old, new, language, note=""):
    lines = [f"#### `{name}`" + ("" if old and new else " is gone" if old else " is new"), ""]
    if old and new and place(old) != place(new):
        note = f"It stood in {place(old)} and stands in {place(new)} now. {note}"
    if note:
        lines += [note.strip(), ""]
    if old:
        lines += block("Old", old.code, language)
    if new:
        lines += block("New", new.code, language)
    return lines


def section(title, crate, changed, gone, new, language):
    here = [(a, b) for a, b in changed if b.crate == crate]
    lines = []
    for a, b in sorted(here, key=lambda p: (p[1].file, p[1].name)):
        lines += entry(b.name, a, b, language)
    for a in gone:
        if a.crate == crate:
            lines += entry(a.name, a, None, language, NOW.get(f"{crate}::{a.name}", ""))
    for b in new:
        if b.crate == crate:
            lines += entry(b.name, None, b, language, NEW.get(f"{crate}::{b.name}", ""))
    return ["### " + title, ""] + lines if lines else []


def main(commit):
    old, new = Side(commit), Side()
    parts = []
    for side in (old, new):
        sources = [i for p in side.of(r"crates/\w+/src/.*\.rt") if not p.endswith("/tests.rt") for i in items_of(side, p)]
        functions = [i for i in sources if i.kind == "fn" and i.public]
        types = [i for i in sources if i.kind in ("struct", "enum", "trait", "const", "static", "type") and (i.public or re.search(r"^\s*ghost ", i.code, re.M))
                 or i.kind == "impl"]
        definitions = [d for p in side.of(r"crates/\w+/specs/.*\.antt") for d in definitions_in(side, p)]
        lemmas = [d._replace(code=statement(d)) for p in side.of(r"crates/\w+/proofs/.*\.antt") for d in definitions_in(side, p)
                  if re.match(r"^(?:\w+ )*pub ", d.code) and os.path.basename(p) not in ("Answers.antt", "Invariants.antt")]
        parts.append((functions, types, definitions, lemmas))
    pages = "".join(old.read(p) for p in old.of(r"README\.md|docs/[^/]*\.md"))
    named = {w for t in re.findall(r"`([^`\n]+)`", pages) for w in re.findall(r"[^\s(){},;/]+", t)}
    parts[0] = (*parts[0][:3], [d for d in parts[0][3] if d.name in named])

    same_code = lambda a, b: a.code.split() == b.code.split()  # noqa: E731
    bare = lambda d: re.sub(r"(^|\s)--\s.*", "", d.code, flags=re.M).split()  # noqa: E731
    same_text = lambda a, b: bare(a) == bare(b)  # noqa: E731
    functions = beside(parts[0][0], parts[1][0], same_code)
    types = beside(parts[0][1], parts[1][1], same_code)
    only, texts = {}, []
    for kind in (2, 3):
        changed, gone, fresh = beside(parts[0][kind], parts[1][kind], same_text)
        full = []
        for a, b in changed:
            if spelled(a, a.code, True) == spelled(b, b.code, False):
                only.setdefault((kind, b.crate), []).append(b)
            else:
                full.append((a, b))
        texts.append((full, gone, fresh if kind == 2 else []))
    crates = old.crates()
    crates += [c for c in new.crates() if c not in crates]
    order = new.crates() + [c for c in crates if c not in new.crates()]
    print(head(commit, parts, functions, types, texts, only))
    for crate in order:
        lines = section("Functions", crate, *functions, "rust") + section("Types", crate, *types, "rust")
        lines += section("Definitions", crate, *texts[0], "text")
        names = only.get((2, crate))
        if names:
            by = {}
            for d in names:
                by.setdefault(place(d), []).append(f"`{d.name}`")
            lines += ["### Definitions of another spelling only", ""] + [f"- {file}: {', '.join(ds)}." for file, ds in sorted(by.items())] + [""]
        lines += section("Lemmas that documents named", crate, *texts[1], "text")
        names = only.get((3, crate))
        if names:
            lines += ["### Lemmas that documents named, of another spelling only", "", ", ".join(f"`{d.name}`" for d in names) + ".", ""]
        if lines:
            print(f"## {crate}\n")
            print("\n".join(lines))


def head(commit, parts, functions, types, texts, only):
    rows = []
    for title, (changed, gone, new), kind in (("Public functions", functions, 0), ("Types", types, 0), ("Definitions of specs/", texts[0], 2), ("Lemmas that documents named", texts[1], 3)):
        spelling = sum(len(v) for (k, _), v in only.items() if k == kind) if kind else ""
        rows.append(f"| {title} | {len(changed)} | {spelling} | {len(gone)} | {len(new)} |")
    table = []
    for (crate, name), rule in SPELLED.items():
        for case, (expression, pattern, fields) in rule.cases.items():
            today = f"`{expression}`"
            if fields:
                today += f"; in a pattern `({pattern} x)`, with " + ", ".join(f"`x.{f}`" for f in fields)
            table.append(f"| {crate} | `{name}` | `{rule.today}` | `{case}` | {today} |")
    return HEADING.format(commit=commit, rows="\n".join(rows), table="\n".join(table))


HEADING = """\
# What the change of design moved

Written by `tools/port/beside.py {commit}`: what a caller or a reader of promises finds changed between commit {commit} and today, old and new
side by side, crate by crate in the order of crates.txt. Comments, attributes and derived traits are left out; a text that is the same stands nowhere here.

- Functions: each public function whose signature or any clause changed, is gone or is new. What states the promise of one that is gone stands beside it.
- Types: each public struct, enum, trait and constant that changed, is gone or is new, with its ghost fields; beside them the private ones that have
  ghost fields, and each impl of a trait with ghost members.
- Definitions: those of specs/. Where old and new differ by the spelling below alone, the name is all that is listed.
- Lemmas: those that README.md or docs/ named then.

| | changed | by spelling alone | gone | new |
|---|---|---|---|---|
{rows}

## The spelling of answers

Each enum below became std's `Result` or `Option`, and where a case had several fields they became a struct's: the type of that name. `Answer X` is
`Result X Refusal` (values/specs/Answers). In an expression a constructor is the word in the last column; in a pattern it is `Ok` or `Some` of one value, whose
fields stand where the variables stood. An import may have called an old constructor by another word (`Refused as NoValue`); `Refused r` is `Err r` by
any of them. A variable in a pattern may have another letter. Nothing else differs in a definition that is listed by its name.

| crate | old type | today | old constructor | today |
|---|---|---|---|---|
{table}
"""

if __name__ == "__main__":
    if len(sys.argv) != 2:
        sys.exit(__doc__)
    main(sys.argv[1])
