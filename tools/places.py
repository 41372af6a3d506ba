#!/usr/bin/env python3
"""Counts the places of docs/DESIGN-PASS.md in crates/*/src: python3 tools/places.py [COMMIT] [-v]

Without COMMIT the files as they lie there are read, else those of the commit. -v prints each place.
Comments and the lines of contracts (ghost use, requires, ensures) are left out where the code is meant.
"""
import collections
import re
import subprocess
import sys

TOP = subprocess.run(["git", "rev-parse", "--show-toplevel"], capture_output=True, text=True, check=True).stdout.strip()


def sources(commit):
    """Each source file's path and text."""
    if commit is None:
        listed = subprocess.run(["git", "ls-files", "-co", "--exclude-standard", "crates"], cwd=TOP, capture_output=True, text=True, check=True).stdout.split()
    else:
        listed = subprocess.run(["git", "ls-tree", "-r", "--name-only", commit, "crates"], cwd=TOP, capture_output=True, text=True, check=True).stdout.split()
    for path in sorted(listed):
        if not path.endswith(".rt"):
            continue
        if commit is None:
            try:
                with open(f"{TOP}/{path}", encoding="utf-8") as file:
                    yield path, file.read()
            except FileNotFoundError:
                continue
        else:
            yield path, subprocess.run(["git", "show", f"{commit}:{path}"], cwd=TOP, capture_output=True, text=True, check=True).stdout


def code(line):
    """The line without its comment; nothing of a clause or an import."""
    if re.match(r"\s*(ghost use|use |requires|ensures)", line):
        return ""
    return re.sub(r"//.*", "", line)


# What a line of code has to have, point by point.
LINES = {
    "1a a constant that is a number of a refusal, a kind or an id": r"\bconst [A-Z_]+: u8 = \d+",
    "1b a field that says whether the value beside it holds": r"^\s*(pub )?(refusal: Refusal|found: bool|going: bool|stop: bool),",
    "1c a test of a number for 'not refused'": r"(number|refusal|given) [!=]= 0\b|== Refusal::[A-Z_]+",
    "1d a refusal made from a number": r"Refusal::(numbered|none)\(|Refusal::[A-Z][A-Z_]+\b",
    "1e a kind, a release or a refusal handed over as a number": r"\b(kind|release|number|given): u(8|16|32)\b",
    "1f a place that is 8, or past the row, for 'none'": r"Table::ENTRIES <= \w|\w(\(.*\))? < Table::ENTRIES \{|-> usize \{?$.*\bor 8\b",
    "3 a loop that counts by hand": r"^\s*while ",
    "4a a conversion written as a match of its own": r"\bfn (\w+_number|message_kind|first_value|second_value|chosen_server|chosen_task|release_number|kind_in|known_kind|is_periodic|period_of|offset_of|idle|burned|running)\(\w+: (Choice|Arrival|Message|Release|u8|u32)\b",
    "4b equality, the least and zeros written by hand": r"\bfn (same|least|none|copy|front|zero|zero_load|zero_entry|nowhere)\(",
    "4c a piece of text and a number printed one by one": r"\b(say|value|number|cell|answer)\(rt, |rt\.print\(",
    "6 a length beside a buffer, or how far it is used": r"^\s*(pub )?(len|count|length|next|at): usize,",
    "7 a match whose arms each call a function": r"=> \w+(::\w+)*\((out|rt|d|s)\b",
}


def functions(text):
    """Each function's name, first line, parameters, requires and body."""
    lines = text.split("\n")
    i = 0
    while i < len(lines):
        found = re.match(r"(\s*)(pub(\(crate\))? )?(const )?(extern \"C\" )?fn (\w+)", lines[i])
        if not found:
            i += 1
            continue
        start, indent = i, found.group(1)
        while i < len(lines) and lines[i].rstrip() != indent + "}":
            i += 1
        yield found.group(6), start + 1, "\n".join(lines[start:i + 1])
        i += 1


def parameters(whole):
    head = re.split(r"\{\s*$|\n\s*(requires|ensures)", whole, maxsplit=1, flags=re.M)[0]
    inside = head[head.index("("):]
    return re.findall(r"(\w+): ((?:&mut |&)?(?:\[[^\]]*\]|\([^)]*\)|[\w:]+(?: Print| Input)?))", inside)


def skeleton(whole):
    """The body with every name and number taken out; "" where it has fewer than 25 signs."""
    body = "\n".join(code(line) for line in whole.split("\n"))
    signs = re.findall(r"\w+|[^\w\s]", body[body.index("("):])
    keep = {"while", "if", "else", "match", "return", "let", "mut", "for", "in", "as", "true", "false"}
    signs = [s if s in keep or not re.match(r"\w", s) else "x" for s in signs]
    return " ".join(signs) if len(signs) >= 25 else ""


def main():
    commit = next((a for a in sys.argv[1:] if not a.startswith("-")), None)
    verbose = "-v" in sys.argv
    texts = list(sources(commit))
    counts = collections.OrderedDict()

    def note(point, path, line, text):
        crate = path.split("/")[1]
        counts.setdefault(point, []).append((crate, f"{path}:{line}: {text.strip()[:150]}"))

    for point, want in LINES.items():
        counts[point] = []
        for path, text in texts:
            for number, line in enumerate(text.split("\n"), 1):
                if re.search(want, code(line)):
                    note(point, path, number, line)

    twins = collections.defaultdict(list)
    facts = collections.defaultdict(list)
    pairs = collections.defaultdict(set)
    for path, text in texts:
        for name, line, whole in functions(text):
            shape = skeleton(whole)
            if shape:
                twins[shape].append((path, line, name))
            for clause in re.findall(r"requires(?: \w+)? \{ (.*) \}$", whole, flags=re.M):
                for fact in re.split(r"(?<=\)) × (?=\()", clause):
                    fact = fact.strip()
                    fact = fact[1:-1] if fact.startswith("(") and fact.endswith(")") else fact
                    facts[path.split("/")[1], re.sub(r"\b\w+\.(old|now)\b", "p", fact)].append((path, line, name))
            given = [f"{n}: {t}" for n, t in parameters(whole) if not n == "rt"]
            for a in range(len(given)):
                for b in range(a + 1, len(given)):
                    pairs[path.split("/")[1], given[a], given[b]].add((path, line, name))
    for shape, where in twins.items():
        if len(where) > 1:
            for path, line, name in where[1:]:
                note("2 a function that is another's twin but for names, types and numbers", path, line, f"{name}, as {where[0][2]}")
    for (crate, fact), where in facts.items():
        if len(where) >= 3:
            note("5a a fact that three or more functions require", where[0][0], where[0][1], f"{fact}: {', '.join(n for _, _, n in where)}")
    for (crate, a, b), where in pairs.items():
        if len(where) >= 3:
            path, line, _ = sorted(where)[0]
            note("5b two parameters that travel together through three or more functions", path, line, f"({a}, {b}): {', '.join(n for _, _, n in sorted(where))}")

    for point, places in sorted(counts.items()):
        crates = collections.Counter(crate for crate, _ in places)
        print(f"{len(places):4} {point}" + (": " if crates else "") + ", ".join(f"{c} {n}" for c, n in crates.items()))
        if verbose:
            for _, place in places:
                print(f"       {place}")


main()
