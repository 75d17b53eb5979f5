#!/usr/bin/env python3
"""Spells the repository's own names as today's Rattle spells names: words in snake case, types and modules in camel case.

usage: tools/respell.py list      prints 'old<TAB>new' for each definition, lemma, field and constructor that is spelled otherwise
       tools/respell.py           rewrites the .antt and .rt files of crates/, the must-fail edits and the pages, by tools/respell.tsv

It was run once, after the kit's port.py. Functions of src/, exported C names, strings, inputs and outputs keep their names. In comments and pages a name
with a dash is turned only between backquotes, since prose has words with dashes too. A name that would fall together with another of a file stops the run.
"""
import glob
import os
import re
import sys

TOP = os.path.join(os.path.dirname(os.path.abspath(__file__)), "..")
LIST = os.path.join(TOP, "tools", "respell.tsv")
WORD = r"[^\s(){}\[\],;.\"`«»@|]+"
# A local beside a field, and a local of one function beside a parameter of two others: they stay apart.
APART = {("crates/turns/src/lib.rt", "on_air"), ("crates/rules/src/lib.rt", "low_energy")}
# A name that a rule of spelling doesn't reach: a function of src/ has the plain name.
CHOSEN = {"slotOk": "slot_is_ok"}
# A comment, a string, or a word; in code a colon may follow a word at once.
TOKEN = re.compile(r"(--[^\n]*|//[^\n]*)|(\"(?:[^\"\\]|\\.)*\")|(" + WORD + ")")
CODE = re.compile(r"(//[^\n]*)|(\"(?:[^\"\\]|\\.)*\")|([^\W\d][\w'′]*(?:-[\w'′]+)*)")
KIT = re.compile(r"^\s*(?:ghost )?use ((?!Rattle\.)[\w.+'-]+|Rattle\.(?:std|core)[\w.+'-]*)\.\{([^}]*)\}", re.M)
HEAD = re.compile(r"^(?:unfoldable )?(?:abbrev )?(?:pub )?(?:data |record |ruleset |infix\w* \d+ )?(?:pub )?(" + WORD + r")(?: \{[^}]*\}| \([^)]*\))*\s*:(?=\s)", re.M)
INNER = re.compile(r"^\s+(?:pub )?(" + WORD + r")\s+:(?=\s)", re.M)
FIELD = re.compile(r"^\s+(?:pub )?([a-z]\w*): ", re.M)


def read(path):
    with open(path, encoding="utf-8", newline="") as f:
        return f.read()


def sources(kind):
    every = glob.glob(os.path.join(TOP, "crates/*/**/*" + kind), recursive=True)
    return sorted(p for p in every if "/out/" not in p)


def shared(path):
    """A file whose definitions others cite: any but the proof of one function."""
    return "/specs/" in path or not path.endswith("/Proof.antt")


def snake(name):
    parts = re.split(r"[-]", name)
    out = ""
    for i, part in enumerate(parts):
        lower = re.sub(r"(?<=[a-z0-9])([A-Z])", r"_\1", part).lower() if part[:1].islower() or part[:1] == "_" else part
        joint = "" if i == 0 else "_"
        if i and (parts[i - 1][:1].isupper() or part[:1].isupper()):
            joint = "-"
        out += joint + lower
    return out.replace("′", "'")


def kit_names():
    found = set()
    for p in sources(".antt") + sources(".rt"):
        for m in KIT.finditer(read(p)):
            found |= {w.strip().split(" as ")[-1].strip() for w in m.group(2).split(",")}
    return found


def listed():
    own = set()
    for p in sources(".antt"):
        if shared(p):
            text = re.sub(r"--[^\n]*", "", read(p))
            own |= {m.group(1) for m in HEAD.finditer(text)} | {m.group(1) for m in INNER.finditer(text)}
    for p in sources(".rt"):
        own |= {m.group(1) for m in FIELD.finditer(read(p))}
    names = {}
    kit = kit_names()
    for n in sorted(own):
        if n in kit or n[:1].isupper() or not re.search(r"[A-Z′-]", n) or not re.match(r"[\w'′≤≡+*-]+$", n) or not n[:1].isalpha():
            continue
        new = snake(n)
        if new != n:
            names[n] = new
    # A definition comes before a lemma of the same name, which gets '_lem', also where port.py had spelled that lemma already.
    taken = {}
    code = {w for p in sources(".rt") for w in re.findall(r"\w+", read(p))}
    for n in [it for it in names if "-" not in it]:
        if names[n] in own and names[n] not in code:
            names[names[n]] = names[n] + "_lem"
            own.discard(names[n])
    for n in sorted(names, key=lambda it: ("-" in it, it)):
        if names[n] in taken or names[n] in own:
            names[n] += "_lem"
        taken[names[n]] = n
    return {**names, **CHOSEN}


def table():
    return dict(l.rstrip("\n").split("\t") for l in open(LIST, encoding="utf-8") if "\t" in l)


def quoted(text, names):
    return re.sub(r"`[^`\n]*`", lambda m: re.sub(WORD, lambda w: names.get(w.group(0), w.group(0)), m.group(0)), text)


def camel(text, names):
    """Names of two humps or more in prose, where no word of prose is spelled so."""
    return re.sub(r"(?<![\w-])[a-z]+[A-Z]\w*(?![\w-])", lambda m: names.get(m.group(0), m.group(0)), text)


def turned(text, names, code):
    def one(m):
        if m.group(1):
            return camel(quoted(m.group(1), names), names)
        if m.group(2):
            return m.group(2)
        return names.get(m.group(3), m.group(3))

    return (CODE if code else TOKEN).sub(one, text)


def words(text, code):
    """The words of a file that stand alone: no part of a path, no field. In code, a function may have the name of a word of its clauses."""
    found = {m.group(3) for m in (CODE if code else TOKEN).finditer(text) if m.group(3) and text[m.start() - 1 : m.start()] != "." and text[m.end() : m.end() + 1] != "."}
    if code:
        values = set(re.findall(r"(?:let (?:mut )?|[(,|]\s*(?:mut )?)([a-z]\w*)(?=\s*[:=|,)])", text))
        found = {w for w in found if "_" not in w or w in values}
    return found


def main():
    if sys.argv[1:] == ["list"]:
        for old, new in sorted(listed().items()):
            print(f"{old}\t{new}")
        return 0
    names = table()
    edits = glob.glob(os.path.join(TOP, "crates/*/must-fail/*")) + glob.glob(os.path.join(TOP, "tests/**/*.edit"), recursive=True)
    pages = glob.glob(os.path.join(TOP, "**/*.md"), recursive=True)
    new, bad = {}, 0
    for p in sources(".antt") + sources(".rt"):
        text = read(p)
        seen = words(text, p.endswith(".rt"))
        back = {}
        for w in seen:
            back.setdefault(names.get(w, w), set()).add(w)
        for to, of in back.items():
            if len(of) > 1 and (os.path.relpath(p, TOP), to) not in APART:
                bad += 1
                print(f"{os.path.relpath(p, TOP)}: {to} would be {' and '.join(sorted(of))}")
        new[p] = turned(text, names, p.endswith(".rt"))
    for p in edits:
        text = read(p)
        new[p] = turned(text, names, re.search(r"^file: .*\.rt$", text, re.M))
    for p in pages:
        if not p.endswith("docs/PORT.md"):
            new[p] = camel(quoted(read(p), names), names)
    if bad:
        print(f"respell: {bad} names fall together; nothing was written")
        return 1
    for p, text in new.items():
        if text != read(p):
            with open(p, "w", encoding="utf-8", newline="") as f:
                f.write(text)
    return 0


sys.exit(main())
