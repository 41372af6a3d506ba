#!/usr/bin/env python3
"""Turns the proofs of a crate that go by the older generated module `Tie` (proofs/F/Proof.antt) into invariants and answers.

usage: rt check --generated DIR --old-names            in the crate's folder, with the Proof.antt files moved aside
       python3 tools/answers.py DIR/names.json CRATE [F..]     at the top of the repository

It goes by the table of old and new names that the check writes: goals, places, steps and parameters. An answer that only calls a tactic is left out, since the
check tries those itself. What it cannot turn is printed, and stands in the file between «« and »».
"""
import json
import os
import re
import sys

ID = r"[^\W\d][\w'-]*"
TAIL = r"(?: invariant-loop\d*)*(?: decreases-loop\d*)*(?: (?:invariant|decreases)-loop\d*)*"
TRIVIAL = re.compile(r"^(omega arith|search rules|tt|cc)$")


def norm(name):
    name = name.replace("_", "-")
    name = re.sub(r"^overflow-", "", name)
    name = re.sub(r"^loop(\d*)-holds", r"loop\1-init", name)
    name = re.sub(r"^loop(\d*)-less", r"loop\1-smaller", name)
    return re.sub(r"^loop(\d*)-again", r"loop\1-preserved", name)


def lent(callee):
    """The names of a function's parameters that are `&mut`."""
    crate, _, name = callee.partition("::")
    name = name.split("::")[-1]
    for folder, _, names in os.walk(f"crates/{crate}/src"):
        for n in names:
            with open(os.path.join(folder, n), encoding="utf-8") as h:
                m = re.search(r"fn " + name + r"\(([^)]*)\)", h.read())
            if m:
                return [p.split(":")[0].strip() for p in m.group(1).split(",") if "&mut" in p]
    return []


def clause_by_clause(body, names):
    """The pair that a body gives, as a record of clauses."""
    text = body.rstrip()
    depth, at = 0, 0
    for m in re.finditer(r"[(\[{]|[)\]}]|(?<![\w'-])in\s", text):
        if m.group(0) in "([{":
            depth += 1
        elif m.group(0) in ")]}":
            depth -= 1
        elif depth == 0:
            at = m.end()
    head, tail = text[:at].rstrip() + "\n    " if at else "", text[at:].strip()
    whole = "record { " + "; ".join(f"{n} = both.{i}" for i, n in enumerate(names)) + " }"
    if not tail.endswith(")"):
        return f"{head}let both = {tail} in {whole}" if not re.match(r"(rw|simp|elim|⊎_elim)\b", tail) else body
    depth = 0
    for i in range(len(tail) - 1, -1, -1):
        depth += tail[i] in ")]}"
        depth -= tail[i] in "([{"
        if depth == 0:
            break
    lead = tail[:i].strip()
    rewrites = re.match(r"(rw|simp)\b", lead) and not re.match(r"(rw|simp) (\(|[^\s(]+ ?$)", lead) or re.match(r"(rw|simp) (\(.*\)|\S+)$", lead, re.S)
    parts, depth, start = [], 0, i + 1
    for k in range(i + 1, len(tail)):
        if tail[k] in "([{":
            depth += 1
        if tail[k] in ")]}":
            depth -= 1
        if depth == 0 and tail[k] == "," or depth < 0:
            if tail[start:k].strip():
                parts.append(tail[start:k].strip())
            start = k + 1
    if len(parts) == len(names) and (lead == "" or rewrites):
        return head + tail[:i] + "record { " + "; ".join(f"{n} = {p}" for n, p in zip(names, parts)) + " }"
    if rewrites:
        return head + tail[:i] + f"(let both = {tail[i + 1 : -1]} in {whole})"
    if re.match(r"(rw|simp|elim|⊎_elim)\b", tail):
        return body
    return f"{head}let both = {tail} in {whole}"


class Function:
    def __init__(self, crate, path, table):
        self.crate, self.path, self.t = crate, path, table
        self.module = path.replace("/", ".")
        self.places = {norm(p[0]): p for p in table["places"]}
        self.new_place = {norm(p[0]): n for p, n in zip(table["places"], table["places_by_name"])}
        self.goals = {norm(o): n for o, n in table["needs"]}
        self.goal_place = {norm(o): norm(a[0]) for (o, n), a in zip(table["needs"], table["asked_at"])}
        self.goal_new = {norm(o): a[1] for (o, n), a in zip(table["needs"], table["asked_at"])}
        self.loops = {}
        for ((old, new), names), changed in zip(table["loops"], table["changed"]):
            self.loops[norm(old)] = (new, names, changed)
        self.args = {}
        for a, b in table["args"]:
            self.args[a.strip()] = b.strip()
        self.clauses = {norm(p[0]): c and c["fields"] for p, c in zip(table["places"], table["clauses"])}
        self.arms = [(norm(p[0]), a[0], a[2]) for p, a in zip(table["places"], table["arms"]) if a]
        self.aliases = {}
        self.steps = {}
        self.notes = []
        self.asked = set()
        self.own = "Start"
        self.helpers = {}

    def at(self, place):
        """The name of a place's record, which the answers are to import."""
        self.asked.add(self.new_place[place])
        return self.new_place[place]

    def bad(self, what):
        self.notes.append(what)
        return "««" + what + "»»"

    @staticmethod
    def is_step(step, field):
        field = field.replace("type_size", "size_of")
        return norm(step).lower() in (norm(field).lower(), norm(re.sub(r"_lem$", "", field)).lower())

    def argument(self, fields):
        """Fields from the start of the call on: parameters by their names in the source."""
        text = "." + ".".join(fields)
        text = re.sub(r"^\.(well-formed|good)\b", ".well_formed", text)
        text = re.sub(r"^\.pre\b", ".requires", text)
        pre = re.match(r"\.requires\.(\d+)", text)
        if pre and self.t["pre"]:
            text = ".requires." + self.t["pre"][int(pre.group(1))] + text[pre.end():]
        for a, b in self.args.items():
            flat = a.replace(" ", "")
            if text == flat or text.startswith(flat + "."):
                return b.replace(" ", "") + text[len(flat):]
        return text

    def resolve(self, place, fields, bare):
        """The new form of a path at a record of a place."""
        fields = list(fields)
        if place == "args":
            return "c" + self.argument(["args"] + fields)
        while fields and fields[0] == "before":
            parent = self.places[place][1]
            place = norm(parent) if parent else place
            fields.pop(0)
        if not fields:
            return bare(place)
        here = self.places[place]
        step = here[2]
        if step[0] and self.is_step(step[0], fields[0]):
            rest = fields[1:]
            if rest:
                for old, new in here[4]:
                    if rest[0] == old:
                        rest[0] = new
                        break
                    # `fact` reads as `true` or `false`
            rest = [self.field(f) for f in rest]
            if rest == ["ensures"] and self.clauses[place]:
                return "(" + ", ".join(f"c.{step[1]}.ensures.{n}" for n in self.clauses[place]) + ")"
            for _, arm, names in self.arms:
                # what an arm's pattern names, and what it says of the value
                for new, old, way in names:
                    if way and norm(old) == norm(step[0]) and rest[: len(way)] == way:
                        return f"c.{arm}.{new}" + "".join("." + x for x in rest[len(way) :])
            if rest[:1] == ["ensures"] and len(rest) > 1 and rest[1].isdigit() and self.clauses[place]:
                rest[1] = self.clauses[place][int(rest[1])]
            if rest[:1] == ["new"] and len(rest) > 1 and rest[1].isdigit() and here[3]:
                rest[1] = (lent(here[3]) + ["?"] * 9)[int(rest[1])]
            if rest[:1] == ["given"]:
                # what a `match` tells of its value
                up = self.own
                while up != "Start" and not self.places[up][2][1].startswith("in-"):
                    up = norm(self.places[up][1])
                if up != "Start":
                    return "c." + self.places[up][2][1] + ".is"
            return "c." + step[1] + "".join("." + f for f in rest)
        if place == "Start":
            return "c" + self.argument(fields)
        # the chain of places may have another step now: the step goes by its name
        up = place
        while up != "Start":
            up = norm(self.places[up][1])
            step = self.places[up][2]
            if step[0] and self.is_step(step[0], fields[0]):
                return self.resolve(up, fields, bare)
        if fields[0] in ("args", "requires", "pre", "good", "ranges", "well-formed", "well_formed"):
            return "c" + self.argument(fields)
        up = self.own
        while up != "Start":
            step = self.places[up][2]
            if step[0] and self.is_step(step[0], fields[0]):
                return self.resolve(up, fields, bare)
            up = norm(self.places[up][1])
        if re.search(r"\d$", fields[0]):
            return self.resolve(place, [re.sub(r"\d+$", "", fields[0])] + fields[1:], bare)
        return self.bad(f"{place}: .{'.'.join(fields)}")

    @staticmethod
    def field(f):
        return {"well-formed": "well_formed", "type-inv": "type_inv", "inv": "invariant", "taken": "true", "left": "false"}.get(f, f)

    def text(self, text, env, bare):
        """Turns the paths of a piece of text, whose variables stand at the places of env."""
        env = dict(env)
        for a in self.aliases:
            text = re.sub(r"(?<![\w'.-])\(" + re.escape(a) + r" " + ID + r"(?:\.before)*\)", a, text)
        # a record of this block that is named in its `where`
        local = re.compile(r"^\s+(" + ID + r") : tie\.(\S+?)" + TAIL + r"\n\s+\1 = .*\n\n?", re.M)
        for a in local.finditer(text):
            if norm(a.group(2)) in self.places:
                env[a.group(1)] = norm(a.group(2))
        text = local.sub("", text)
        # steps back from a place to one before it, which the proof names
        for _ in range(9):
            for n, place in self.steps.items():
                token = "pl-" + place
                env[token] = place
                text = re.sub(r"(?<![\w'.-])\(" + re.escape(n) + r" " + ID + r"(?:\.before)*\)", token, text)
                text = re.sub(r"(let " + ID + r" = )" + re.escape(n) + r" " + ID + r"(?:\.before)* in", r"\1" + token + " in", text)
        out, at = "", 0
        path = re.compile(r"(?<![\w'.\-])(" + ID + r")((?:\.[\w'-]+)*)(?![\w'])")
        let = re.compile(r"let (" + ID + r") = (" + ID + r")((?:\.[\w'-]+)*) in\s*")
        while True:
            m = path.search(text, at)
            l = let.search(text, at)
            if l and (not m or l.start() <= m.start()):
                name, base, fields = l.group(1), l.group(2), l.group(3)
                if base in env:
                    fs = [f for f in fields.split(".") if f]
                    if all(f == "before" for f in fs):
                        place = env[base]
                        for _ in fs:
                            place = norm(self.places[place][1] or place)
                        out += text[at : l.start()]
                        env[name] = place
                        at = l.end()
                        continue
                    env.pop(name, None)
                    if fs[-1] == "args" and all(f == "before" for f in fs[:-1]):
                        # the arguments go by their own names
                        env[name] = "args"
                        out += text[at : l.start()]
                        at = l.end()
                        continue
                    out += text[at : l.start()] + f"let {name} = " + self.resolve(env[base], fs, bare) + text[l.end(3) : l.end()]
                    at = l.end()
                    continue
                out += text[at : l.start(2)]
                env.pop(name, None)
                at = l.start(2)
                continue
            if not m:
                return out + text[at:]
            out += text[at : m.start()]
            if m.group(1) in env:
                # a lemma of this proof is given the record that it is stated over
                before = re.search(r"(?<![\w'.-])(" + ID + r") \(?$", out)
                if before and before.group(1) in self.helpers and env[m.group(1)] != "args" and all(x in ("", "before") for x in m.group(2).split(".")):
                    out += bare(self.helpers[before.group(1)])
                    at = m.end()
                    continue
                out += self.resolve(env[m.group(1)], [f for f in m.group(2).split(".") if f], bare)
            else:
                out += m.group(0)
            at = m.end()


def blocks(text):
    """The declarations of a file: pieces parted by empty lines, where a piece begins at the margin."""
    out = []
    for piece in re.split(r"\n\s*\n", text.strip("\n")):
        if out and piece.startswith(" "):
            out[-1] += "\n\n" + piece
        else:
            out.append(piece)
    return out


def turn(crate, path, table, top):
    f = Function(crate, path, table)
    source = f"{top}/crates/{crate}/proofs/{path}/Proof.antt"
    text = open(source, encoding="utf-8").read()
    pieces = blocks(text)
    head, uses = [], []
    first = pieces.pop(0)
    for line in first.split("\n"):
        (uses if line.startswith("use ") else head).append(line)
    uses = [u for u in uses if not re.search(r"\.(Tie as|Statement\.)", u)]
    invariants, answers, dropped = [], [], []
    tail = TAIL
    for piece in pieces:
        lines = piece.split("\n")
        comments = [l for l in lines if l.startswith("--")]
        code = "\n".join(l for l in lines if not l.startswith("--"))
        code = re.sub(r" :\n\s+tie\.", " : tie.", code).replace("Place tie.", "tie.")
        m = re.match(r"(?:abbrev )?(" + ID + r") : tie\.(\S+) → tie\.(\S+)\n", code)
        if m and norm(m.group(3)) in f.places:
            f.steps[m.group(1)] = norm(m.group(3))
            continue
        if re.match(r"abbrev Place :", code):
            continue
        m = re.match(r"(?:abbrev )?(?:pub )?(" + ID + r") : tie\.(invariant|decreases)-(loop\d*)\n", code)
        if m:
            new, names, changed = f.loops[norm(m.group(3))]
            body = code[m.end() :]
            b = re.match(re.escape(m.group(1)) + r"((?: \S+)*) =\s*", body)
            given = b.group(1).split()
            want = []
            for n, c in zip(names, changed):
                want.append("l.initial." + n if c else "l." + n)
            want += ["l." + n for n, c in zip(names, changed) if c]
            rest = body[b.end() :]
            if len(given) != len(want):
                f.bad(f"{m.group(1)}: {given} for {want}")
            mapping = dict(zip(given, want))

            def variable(k):
                return mapping.get(k.group(1), k.group(1)) + k.group(2)

            # a variable that a let or a λ of the body binds again keeps its name
            rest = re.sub(r"(?<![\w'.\-₀])(" + ID + r"₀?)((?:\.[\w'-]+)*)(?![\w'₀-])", variable, rest)
            invariants.append("\n".join(comments + [f"abbrev pub {m.group(2)}-{new} : goal.{m.group(2)}-{new}", f"{m.group(2)}-{new} l =", "    " + rest]))
            continue
        m = re.match(r"(?:abbrev )?(?:pub )?(" + ID + r") : tie\.Need-(\S+)" + tail + r"\n", code)
        if m:
            old = norm(m.group(2))
            if old not in f.goals:
                dropped.append(m.group(2))
                continue
            new, place = f.goals[old], f.goal_place[old]
            body = code[m.end() :]
            body = re.sub(r"rw length-map at (\(?[\w'.-]*well[-_]formed[\w.]*\)?)", r"\1", body)
            unfold = ""
            if body.startswith("unfolding"):
                unfold, body = body.split("\n", 1)
                unfold += "\n"
            b = re.match(re.escape(m.group(1)) + r" (\S+)(?: κs)?((?: \S+)*) =\s*", body)
            if not b:
                f.bad(f"{m.group(1)}: no equation")
                continue
            rest = body[b.end() :]
            if not unfold and TRIVIAL.match(rest.strip()):
                continue

            def bare(p, new=new, place=place):
                return f"(goal.at.{new} c).{f.at(p)}"

            f.own = place
            rest = f.text(rest, {b.group(1): place, **f.aliases}, bare)
            clauses = {norm(k): v for k, v in table["asked"].items()}.get(old)
            if clauses:
                rest = clause_by_clause(rest, clauses)
            answers.append("\n".join(comments + [f"pub {new} : goal.{new}"]) + "\n" + unfold + f"{new} c{b.group(2)} =\n    " + rest)
            continue
        if re.match(r"(?:abbrev )?(?:pub )?" + ID + r" :.*statement", code) and "tie.close" in code:
            continue
        # a lemma of this proof
        code = re.sub(r"^((?:abbrev |pub )*" + ID + r" : )tie\.(?!Need|invariant|decreases)([^\s()]+?)" + tail + r" → ", r"\1(c : tie.\2) → ", code, count=1)
        code = re.sub(r"rw length-map at (\(?[\w'.-]*well[-_]formed[\w.]*\)?)", r"\1", code)
        m = re.search(r"\((" + ID + r") : tie\.(?!Need)(\S+?)" + tail + r"\)", code)
        if m:
            place = norm(m.group(2))
            if place not in f.places:
                answers.append("\n".join(comments + [f.bad(f"place {m.group(2)}"), code]))
                continue
            kind = f.at(place)
            code = code[: m.start()] + f"({m.group(1)} : {kind})" + code[m.end() :]

            def bare(p, place=place, kind=kind):
                return "c" if p == place else f"(goal.at.{kind} c).{f.at(p)}"

            name = re.match(r"(?:abbrev )?(?:pub )?(" + ID + ")", code).group(1)
            var = m.group(1)
            # the equation may name the record otherwise
            eq = re.search(r"^" + re.escape(name) + r" (\S+)", code, re.M) if name != "module" else None
            env = {var: place}
            f.own = place
            f.helpers[name] = place
            if name == "module":
                # names of earlier records stand for them
                alias = re.compile(r"^  abbrev (" + ID + r") : tie\.(\S+?)" + tail + r"\n  \1 = .*\n\n?", re.M)
                for a in alias.finditer(code + "\n"):
                    if norm(a.group(2)) in f.places:
                        f.aliases[a.group(1)] = norm(a.group(2))
                code = alias.sub("", code + "\n").rstrip("\n")
                for n in re.findall(r"^  (?:abbrev )?(?:pub )?(" + ID + r") :", code, re.M):
                    f.helpers[n] = place
            env.update(f.aliases)
            if eq and eq.group(1) != var and eq.group(1) != "_":
                env[eq.group(1)] = place
            keep = code.index(f"({var} : {kind})") + len(f"({var} : {kind})")
            headpart, rest = code[:keep].replace(f"({var} : ", "(c : "), code[keep:]
            answers.append("\n".join(comments + [headpart + f.text(rest, env, bare)]))
        else:
            answers.append("\n".join(comments + [code]))
    folder = f"{top}/crates/{crate}/proofs/{path}"
    needs = [p for p in answers if "goal." in p]
    if invariants:
        with open(folder + "/Invariants.antt", "w", encoding="utf-8") as h:
            h.write("\n".join(head + uses + [f"use Rattle.{crate}.proofs.{f.module}.Given as goal"]) + "\n\n" + "\n\n".join(invariants) + "\n")
    if needs:
        with open(folder + "/Answers.antt", "w", encoding="utf-8") as h:
            places = [f"use Rattle.{crate}.proofs.{f.module}.Goals.{{{', '.join(sorted(f.asked))}}}"] if f.asked else []
            h.write("\n".join(([] if invariants else head) + uses + [f"use Rattle.{crate}.proofs.{f.module}.Goals as goal"] + places) + "\n\n" + "\n\n".join(answers) + "\n")
    os.remove(source)
    for n in f.notes:
        print(f"{crate}::{path}: {n}")
    if dropped:
        print(f"{crate}::{path}: no longer a goal: {' '.join(dropped)}")


def main():
    names, crate, only = sys.argv[1], sys.argv[2], sys.argv[3:]
    top = os.getcwd()
    with open(names, encoding="utf-8") as h:
        tables = json.load(h)
    for key, table in sorted(tables.items()):
        m = re.match(r"Rattle-" + crate + r"-proofs\.(.*)\.Lts$", key)
        if not m:
            continue
        path = m.group(1).replace(".", "/")
        if only and path not in only:
            continue
        if os.path.exists(f"{top}/crates/{crate}/proofs/{path}/Proof.antt"):
            turn(crate, path, table, top)


if __name__ == "__main__":
    main()
