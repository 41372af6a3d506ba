"""Every statement that docs/ASSURANCE.md names is in the file that its row names, and every must-fail edit is there; and each edit is named.
The files of proofs/ that it names are just those that their crate's proofs/Lib.antt lists under PROMISED.

A row of a table that has a file in it is a row of the argument: | what | `statement`, `statement` | `crates/..` | `crate/edit`, .. |
A statement is a declaration of an .antt file, or a function of an .rt file."""
import pathlib
import re
import sys

ROOT = pathlib.Path(__file__).resolve().parent.parent


def declares(text, name, rust):
    if rust:
        return re.search(rf"^\s*pub (extern \"C\" )?fn {re.escape(name)}[<(]", text, re.M) is not None
    return re.search(rf"^\s*(abbrev |unfoldable )?(pub )?(record |data )?{re.escape(name)} (:|\()", text, re.M) is not None


def promised(root):
    """The files that each proofs/Lib.antt lists under PROMISED; and the modules that it lists under no heading."""
    files, stray = set(), []
    for lib in sorted(root.glob("crates/*/proofs/Lib.antt")):
        part = None
        for line in lib.read_text().split("\n"):
            if line.startswith("-- "):
                part = line[3:].partition(":")[0]
            elif line.startswith("pub mod ") and part == "PROMISED":
                files.add(lib.with_name(line.split()[-1] + ".antt").relative_to(root).as_posix())
            elif line.startswith("pub mod ") and part != "WHAT ONLY SERVES":
                stray.append(f"{lib.relative_to(root)}: {line} stands under neither PROMISED nor WHAT ONLY SERVES")
    return files, stray


def faults(page, root):
    """What is wrong with a page of the argument, as lines of text; and how many statements and edits it names."""
    wrong, statements, edits, named = [], 0, set(), set()
    for number, line in enumerate(page.split("\n"), 1):
        parts = [part.strip() for part in line.strip().strip("|").split("|")]
        if not line.startswith("|") or "`crates/" not in line:
            continue
        if len(parts) != 4 or "`crates/" not in parts[2]:
            wrong.append(f"line {number}: a row that names a file has not its four parts")
            continue
        texts = []
        for path in re.findall(r"`(crates/[^`]+)`", parts[2]):
            if (root / path).is_file():
                named.add(path)
                texts.append(((root / path).read_text(), path.endswith(".rt")))
            else:
                wrong.append(f"line {number}: no file {path}")
        for name in re.findall(r"`([^`]+)`", parts[1]):
            statements += 1
            if not any(declares(text, name, rust) for text, rust in texts):
                wrong.append(f"line {number}: no statement {name} in {parts[2]}")
        for edit in re.findall(r"`([^`]+)`", parts[3]):
            edits.add(edit)
            crate, _, label = edit.partition("/")
            if not (root / "crates" / crate / "must-fail" / f"{label}.edit").is_file():
                wrong.append(f"line {number}: no must-fail edit {edit}")
    there = {f"{path.parent.parent.name}/{path.stem}" for path in root.glob("crates/*/must-fail/*.edit")}
    wrong += [f"the must-fail edit {edit} is in no row" for edit in sorted(there - edits)]
    listed, stray = promised(root)
    laws = {path for path in named if path.split("/")[2] == "proofs"}
    wrong += stray
    wrong += [f"{path} is named, and its Lib.antt does not list it under PROMISED" for path in sorted(laws - listed)]
    wrong += [f"{path} is listed under PROMISED in its Lib.antt, and is in no row" for path in sorted(listed - laws)]
    if statements == 0:
        wrong.append("no statement is named")
    return wrong, statements, len(edits)


def main():
    page = (ROOT / "docs" / "ASSURANCE.md").read_text()
    wrong, statements, edits = faults(page, ROOT)
    # the test itself must be able to fail: a name that is nowhere, a file that is not there, an edit that is not there, a law that only serves
    row = "| x | `{}` | `{}` | `{}` |"
    here = "crates/refusal/specs/Refusal.antt"
    law = row.format("number_when", "crates/refusal/proofs/Exactly.antt", "")
    for broken in ("| x | `first_of` | `" + here + "` |", row.format("nowhere", here, ""), row.format("first_of", "crates/none.antt", ""), row.format("first_of", here, "refusal/none"), law):
        if len(faults(page + "\n" + broken, ROOT)[0]) <= len(wrong):
            wrong.append(f"the test passes over {broken}")
    # and a promised file that no row names
    last = "crates/small/proofs/OneOutcome.antt"
    if len(faults("\n".join(line for line in page.split("\n") if last not in line), ROOT)[0]) <= len(wrong):
        wrong.append(f"the test passes over {last}, named in no row")
    for line in wrong:
        print(f"docs/ASSURANCE.md: {line}")
    if wrong:
        sys.exit(1)
    print(f"docs/ASSURANCE.md: {statements} statements and {edits} must-fail edits, all there")


main()
