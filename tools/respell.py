#!/usr/bin/env python3
"""Brings the repository's own definitions and lemmas to the spelling of today's Rattle: words in snake case, types and modules in camel case.

usage: python3 tools/respell.py          at the top of the repository, once, after the kit's port.py

No dash stays in a name of ours. A lemma that would have the name of a function or a definition gets `_lem`. Functions of src/, exported names, strings, inputs
and outputs are not touched: their names have no dash and no capital as it is.
It stops, with nothing written, where two names would fall together or a definition would get a name that the files use already, other than its function's.
"""
import glob
import re
import sys

NAME = r"[^\W\d][\w'-]*"
TOKEN = re.compile(r"(?<![\w'-])" + NAME)
DECLARED = re.compile(r"^\s*(?:(?:abbrev|unfoldable)\s+)?(?:pub\s+)?(?:(?:record|data)\s+)?(" + NAME + r")(?=\s*(?:\{[^}]*\}\s*)*(?:\([^=]*)?\s*:\s|\s+[({].*:\s*Type)")
DEFINED = re.compile(r"^\s*(?:(?:abbrev|unfoldable)\s+(?:pub\s+)?|(?:pub\s+)?(?:record|data)\s+)(" + NAME + r")")


# Facts whose names began small, or that port.py spelled as another name: by the file that has them. They are turned there and where they are imported from it.
FACTS = {
    "queue.specs.Meaning": {"allWithin": "AllWithin", "allBeyond": "AllBeyond", "sorted": "Sorted", "fits": "Fits"},
    "queue.proofs.Normal": {"proper": "Proper"},
    "queue.proofs.Form": {"fresh": "Fresh", "inside": "Inside"},
    "state.specs.Moves": {"all_of": "AllOf", "pendingBelow": "PendingBelow"},
    "port.proofs.Ranges": {"table_of": "table_of_lem"},
}


# Variables and names after `as`.
VARIABLES = {"refusalOf": "refusal_of", "setupOf": "setup_of", "numberBy": "number_by", "messageRefusal": "message_refusal"}


def facts_in(f, text):
    """The facts that a file has or imports, each with its new name."""
    out = {}
    for module, names in FACTS.items():
        crate, folder, name = module.split(".")
        here = f == f"crates/{crate}/{folder}/{name}.antt"
        imported = {n.strip() for names_ in re.findall(r"use Rattle\." + re.escape(module) + r"\.\{([^}]*)\}", text) for n in names_.split(",")}
        out.update({n: m for n, m in names.items() if here or n in imported})
    return out


def files(*patterns):
    out = []
    for p in patterns:
        out += glob.glob(p, recursive=True)
    return sorted(f for f in out if "/out/" not in f)


def read(f):
    with open(f, encoding="utf-8") as h:
        return h.read()


def snake(word):
    word = word.replace("getD", "get_or")
    return re.sub(r"(?<=[a-z0-9])([A-Z])(?=[a-z])", lambda m: "_" + m.group(1).lower(), word)


def spelled(name):
    """The new spelling of a name of ours."""
    if name[:1].isupper() and "-" not in name:
        return name
    return "_".join(p if p[:1].isupper() else snake(p) for p in name.split("-"))


def main():
    ours = files("crates/*/specs/**/*.antt", "crates/*/proofs/**/*.antt")
    laws = [f for f in ours if not f.endswith("/Proof.antt")]
    walks = [f for f in ours if f.endswith("/Proof.antt")]
    sources = files("crates/*/src/**/*.rt")
    edits = files("crates/*/must-fail/*.edit")
    pages = files("README.md", "CONTRIBUTING.md", "docs/*.md")

    declared, known, functions = set(), set(), set()
    for f in laws:
        for line in read(f).split("\n"):
            m = DECLARED.match(line)
            if m:
                declared.add(m.group(1))
            m = DEFINED.match(line)
            if m:
                known.add(m.group(1))
    for f in sources:
        functions |= set(re.findall(r"\bfn\s+(\w+)", read(f)))
    tokens = set()
    for f in ours + sources:
        tokens |= set(TOKEN.findall(read(f)))
    facts = {n for names in FACTS.values() for n in names}
    declared -= facts
    defined = known & declared

    turned = {n: spelled(n) for n in declared}
    words = {turned[n] for n in defined}
    new = {turned[n] for n in defined if turned[n] != n}
    turned = {n: m + ("_lem" if n not in defined and (m in new or n != m and (m in words or m in functions)) else "") for n, m in turned.items()}
    turned = {n: m for n, m in turned.items() if n != m} | VARIABLES
    bad = 0
    back = {}
    for n, m in sorted(turned.items()):
        if m in back or m in tokens - set(turned) and not (n in defined and m in functions):
            print(f"falls together: {n} -> {m} ({back.get(m, 'in use')})", file=sys.stderr)
            bad += 1
        back[m] = n
    if bad and "--anyway" not in sys.argv:
        return 1
    if "--list" in sys.argv:
        for n, m in sorted(turned.items()):
            print(n, m)
        return 0

    def turn(text, more={}):
        def word(m):
            n = m.group(0)
            return more[n] if n in more and text[m.start() - 1 : m.start()] != "." else turned.get(n, n)

        return TOKEN.sub(word, text)

    def quoted(text):
        return re.sub(r"`[^`\n]*`", lambda m: turn(m.group(0)), text)

    n = 0
    for f in ours + sources + edits + pages:
        text = read(f)
        if f.endswith(".rt"):
            # names of ours stand in clauses and `ghost use` lines alone; strings and comments stay
            new = "\n".join(turn(l, facts_in(f, text)) if re.match(r"\s*(ghost use\b|requires\b|ensures\b|ghost\b)", l) else l for l in text.split("\n"))
        elif f.endswith(".md"):
            new = quoted(text)
        else:
            new = turn(text, facts_in(f, text))
        if new != text:
            with open(f, "w", encoding="utf-8") as h:
                h.write(new)
            n += 1
    print(f"respell: {len(turned)} names in {n} files")
    return 0


if __name__ == "__main__":
    sys.exit(main())
