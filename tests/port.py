"""The archive of crate port, held to the header and to the model: from C, from Rust, and on random bytes. It proves nothing and builds no crate.

    python3 tests/port.py [ARCHIVE..]     ARCHIVE: in place of target/staticlib/libport.a and of the same calls in plain C (bench/port.c)"""
import os
import pathlib
import re
import shutil
import sys
import tempfile
import time

import cases
import drivers
import edges
import model
import port_calls
import programs
import words
from drivers import COMPILER, NATIVE, ROOT, STRICT, TOOLS, arguments_of, compiled, must, ran, say, stop

HERE = ROOT / "tests" / "port"
INCLUDE = ROOT / "include"
PLAIN = ROOT / "bench" / "port.c"
FEWEST_CALLS = 30_000


def plain_archive(work):
    """The calls of bench/port.c as an archive."""
    folder = work / "plain"
    folder.mkdir()
    must([*COMPILER[:1], *STRICT, "-O2", "-fPIC", "-I", INCLUDE, "-c", "-o", folder / "port.o", PLAIN])
    must([f"{TOOLS}ar", "rcs", folder / "libport.a", folder / "port.o"])
    return folder / "libport.a"


# THE HEADER

def header_errors(include, compiler):
    """What a compiler says of the checks of sizes and places, with the header of a folder."""
    done = ran([*compiler, "-Wall", "-Wextra", "-Werror", "-I", include, "-fsyntax-only", HERE / "header.c"])
    said = [line.split("error: ", 1)[1] for line in done.stderr.decode().splitlines() if "error: " in line]
    return [f"tests/port/header.c: {line}" for line in said or [f"{compiler[0]} fails"]] if done.returncode else []


def moved(text, first, second):
    """The header with two lines in each other's place."""
    for line in (first, second):
        if text.count(line) != 1:
            stop([f"the header has not one line {line.strip()}"])
    return text.replace(first, "\0").replace(second, first).replace("\0", second)


def header_faults(work):
    """The header compiles by itself as C99 and as C++, and its checks can fail."""
    found = header_errors(INCLUDE, [*COMPILER, *STRICT])
    if shutil.which("g++"):
        found += header_errors(INCLUDE, ["g++", "-x", "c++"])
    text = (INCLUDE / "ribascenzo.h").read_text()
    altered = {
        "the fields of a load in the other order": moved(text, "    uint32_t pending;\n", "    uint32_t lost;\n"),
        "an entry's queue first": moved(text, "    struct ribascenzo_load loads[RIBASCENZO_ENTRIES];\n", "    struct ribascenzo_queue arrivals;\n"),
        "a cell more": text.replace("RIBASCENZO_CELLS 32", "RIBASCENZO_CELLS 33"),
        "a place of 32 bits": text.replace("    size_t place;", "    uint32_t place;"),
    }
    for name, other in altered.items():
        (work / "ribascenzo.h").write_text(other)
        if not header_errors(work, [*COMPILER, *STRICT]):
            found.append(f"tests/port/header.c passes over {name}")
    (work / "ribascenzo.h").unlink()
    return found


def defines():
    text = (INCLUDE / "ribascenzo.h").read_text()
    return {name: int(value) for name, value in re.findall(r"^#define RIBASCENZO_(\w+) (\d+)\b", text, re.M)}


def number_faults():
    """The header's refusals are those of crate refusal, and its other numbers the model's."""
    text = (ROOT / "crates" / "refusal" / "src" / "lib.rt").read_text()
    due = {re.sub(r"(?<=[a-z])(?=[A-Z])", "_", name).upper(): int(value) for name, value in re.findall(r"^    (\w+) = (\d+),$", text, re.M)}
    longest = len(cases.setup(cases.FULL))
    due |= {"CELLS": model.CELLS, "ENTRIES": model.ENTRIES, "FILLER": model.FILLER, "LARGEST_GAP": model.LARGEST_GAP, "LONGEST": model.LONGEST,
            "MOST_WORK": model.MOST_WORK, "MOST_LOST": model.MOST_LOST, "LONGEST_SETUP": longest, "MESSAGE_BYTES": model.MESSAGE, "RUN": model.RUN,
            "ARRIVAL": model.ARRIVAL, "IDLING": model.IDLING, "DEFERRABLE": model.DEFERRABLE, "POLLING": model.POLLING, "ON_ARRIVAL": model.ON_ARRIVAL,
            "PERIODIC": model.PERIODIC, "IDLE": 0, "BURNING": 1, "RUNNING": 2}
    own = defines()
    return [f"the header has RIBASCENZO_{name} as {own.get(name)}, due is {due.get(name)}" for name in sorted(own | due) if own.get(name) != due.get(name)]


def symbol_faults(archive):
    """The archive has the header's functions and no other, and asks for nothing that a kernel may not have."""
    declared = set(re.findall(r"\b(ribascenzo_\w+)\(", (INCLUDE / "ribascenzo.h").read_text()))
    found = drivers.symbol_faults(archive, declared)
    if declared != {f"ribascenzo_{name}" for name in port_calls.CALLS}:
        found.append("the functions of the header are not those that the scripts call")
    return found


# THE LAYOUT, BY NAME

LAYOUT_TICKS = 40


def layout_setup():
    """Eight servers with 8 to 1 tasks, the first on arrival. But for kinds, counts and releases no two values are the same. The last server is polling, and its
    task has work from the start, so that it too has a budget."""
    servers, k = [], 0
    for i in range(8):
        tasks = [cases.periodic(101 + k + j, 301 + k + j, 3 + k + j if i < 7 else 0) for j in range(8 - i)]
        k += len(tasks)
        servers.append((2 - i % 2 if i < 7 else 3, 601 + i, 501 + i, tuple(tasks) if i else (cases.on_arrival(900_001), *tasks[1:])))
    return cases.setup(servers)


def named(names, values):
    return [f"{name} {value}" for name, value in zip(names, values, strict=True)]


def layout_states(setup):
    """What tests/port/layout.c writes of states, by the model."""
    state = model.fresh(model.read_setup(setup)[1])[1]
    lines = named(words.state_names("fresh"), words.state_words(state))
    for _ in range(LAYOUT_TICKS):
        _, state, lost = model.arrive(state, 0, 0)
        _, state, answer = model.tick(state)
        lines.append(f"arrival.lost {int(lost)}")
        lines += named([f"answer.{field}" for field in ("choice", "server", "task", "handled")], words.answer_words(answer))
    lines += named(words.state_names("later"), words.state_words(state))
    lines += [f"read.budget {state.budgets[1]}", f"load.pending {state.work[0][0]}", f"load.lost {state.lost[0][0]}", "no task.number 19", "no task.place 0"]
    return lines


def layout_queues():
    row = model.row_of([(7, 0), (9, 11), (200, 70_000)])
    after = model.row_of([(200, 70_000)])
    lines = named(words.queue_names("queue"), words.row_words(row)) + ["queue.distance 70000", "queue.taken 7"]
    return lines + named(words.queue_names("queue"), words.row_words(after)) + ["queue.sound 1", "queue.sound 0"]


def layout_files(setup):
    lines = named(words.table_names("table"), words.table_words(model.read_setup(setup)[1]))
    lines += [f"written.bytes {len(setup)}", "written.same 1"]
    damaged = setup[:-4] + bytes([255]) + setup[-3:-1] + bytes([setup[-1] ^ 255])
    refusal = model.read_setup(damaged)[0]
    lines += [f"damaged.number {refusal.number}", f"damaged.place {refusal.place}"]
    lines += ["arrival.kind 2", "arrival.first 3", "arrival.second 5"]
    return lines + ["run.kind 1", f"run.first {3 * 256 + 5}", "run.second 0"]


def layout_faults(work, archive):
    setup = layout_setup()
    due = layout_states(setup) + layout_queues() + layout_files(setup)
    program = compiled(work, [HERE / "layout.c"], "layout", archive)
    lines = must(programs.command(program), input=setup).decode().splitlines()
    both = list(zip(due, lines))
    found = [f"the layout: the archive has {line}, due is {other}" for other, line in both if other != line]
    if len(due) != len(lines):
        found.append(f"the layout: {len(lines)} lines, due are {len(due)}")
    return found[:10], len(due)


# SCRIPTS OF CALLS

NAMES = {"queue": words.queue_names("queue"), "table": words.table_names("table"), "state": words.state_names("state")}


def pointed(call, argument):
    """What an argument of a call points to, where it is a queue, a table or a state."""
    if call.startswith("queue_"):
        return "queue" if argument == 0 else ""
    if call in ("setup_read", "setup_write"):
        return "table" if argument == (2 if call == "setup_read" else 0) else ""
    return "state" if call in ("fresh", "sound", "tick", "arrive", "budget", "load") and argument == 0 else ""


def name_of(line, byte):
    """The header's name of a byte of the arena that a call changed, or nothing."""
    call, arguments = arguments_of(line)
    for argument, place in enumerate(arguments):
        names = NAMES.get(pointed(call, argument), [])
        if place <= byte < place + 4 * len(names):
            return names[(byte - place) // 4]
    return ""


def script_faults(program, script, path):
    return drivers.script_faults(program, script, path, name_of)


def blind(work, program):
    """What a driver passes over: a script that asks for another answer, another place, or another byte."""
    found = []
    for what, number, place, last in (("nothing", 0, 0, 0), ("a refusal", 22, 0, 0), ("a place", 0, 1, 0), ("a byte", 0, 0, 1)):
        script = port_calls.Script("blind", 1_024)
        script.put(400, b"\7" * 132)
        script.call("queue_empty", [400], model.refused(number, place), [(400, bytes(131) + bytes([last]))])
        (work / "blind").write_bytes(script.whole())
        if (what == "nothing") != (not script_faults(program, script, work / "blind")):
            found.append(f"{program.name} does not see {what} that is wrong")
    return found


# THE RUST PROGRAM

RUST = HERE / "rust"


def rust_program(work, archive):
    """The Rust driver, or why there is none."""
    folder = work / "cargo"
    more = {**os.environ, "CARGO_TARGET_DIR": str(folder), "PORT_ARCHIVE": str(archive.parent), "RUSTFLAGS": "-D warnings"}
    what = ["build", "--release"] if NATIVE else ["check"]
    must(["cargo", *what, "--offline", "--locked", "--manifest-path", RUST / "Cargo.toml"], env=more)
    if NATIVE:
        return folder / "release" / "calls", ""
    found = ran(["bash", HERE / "rust-for-x86-64"])
    if found.returncode:
        return None, found.stderr.decode().strip().split("\n")[-1]
    rustc, libraries = found.stdout.decode().split()
    program = work / "rust-calls"
    linked = ["-L", f"native={archive.parent}", "-C", f"linker={COMPILER[0]}"]
    must([rustc, "--edition", "2021", "-D", "warnings", "--target", "x86_64-unknown-linux-gnu", "-O", *linked, "-o", program, RUST / "src" / "main.rs"],
         env={**os.environ, "LD_LIBRARY_PATH": libraries})
    return program, ""


# ALL

def example_faults(work, archive):
    program = compiled(work, [ROOT / "examples" / "port" / "main.c"], "example", archive)
    due = (ROOT / "examples" / "port" / "stdout").read_bytes()
    return [] if must(programs.command(program)) == due else ["examples/port writes something else than its file stdout"]


def driver_faults(work, program, scripts):
    found = blind(work, program)
    for script in scripts:
        found += script_faults(program, script, work / script.name)
    return found


def hold(work, archive, scripts):
    """Everything that holds of an archive."""
    name = archive.relative_to(ROOT) if archive.is_relative_to(ROOT) else "the calls in plain C" if archive.is_relative_to(work) else archive.name
    began = time.monotonic()
    stop([f"{name}: {line}" for line in symbol_faults(archive)])
    found, lines = layout_faults(work, archive)
    stop([f"{name}: {line}" for line in found])
    say(f"{name}: the header's functions and no other; {lines:,} fields by their names are the model's")
    calls = sum(len(script.lines) for script in scripts)
    stop([f"{name}, from C: {line}" for line in driver_faults(work, compiled(work, [HERE / "calls.c"], "calls", archive), scripts)])
    say(f"{name}, from C: {calls:,} calls, answers and memory are the model's")
    program, why = rust_program(work, archive)
    if program:
        stop([f"{name}, from Rust: {line}" for line in driver_faults(work, program, scripts)])
        say(f"{name}, from Rust: {calls:,} calls, answers and memory are the model's")
    else:
        say(f"{name}, from Rust: compiled and not run, because {why}")
    said = ran(programs.command(compiled(work, [HERE / "fuzz.c"], "fuzz", archive)))
    stop([f"{name}: {said.stdout.decode().strip() or said.stderr.decode()[-500:]}"] if said.returncode else [])
    say(f"{name}, on random bytes and words: {said.stdout.decode().strip()}")
    stop(example_faults(work, archive))
    say(f"{name}: the example writes its file stdout; {time.monotonic() - began:.0f} s")


def main():
    given = [pathlib.Path(word).resolve() for word in sys.argv[1:]]
    archives = given or [ROOT / "target" / "staticlib" / "libport.a"]
    stop([f"there is no {path.name}: `bash tests/archives port` writes it" for path in archives if not path.is_file()])
    stop([f"{tool} is missing" for tool in (COMPILER[0], "cargo") if not shutil.which(tool)])
    stop([f"the model: {line}" for line in edges.faults()])
    with tempfile.TemporaryDirectory() as folder:
        work = pathlib.Path(folder)
        stop(header_faults(work) + number_faults())
        say("the header compiles, and its sizes, places, alignments and numbers are right")
        scripts = port_calls.scripts()
        stop(port_calls.missing({key for script in scripts for key in script.reached}))
        if sum(len(script.lines) for script in scripts) < FEWEST_CALLS:
            stop([f"fewer than {FEWEST_CALLS} calls"])
        for script in scripts:
            (work / script.name).write_bytes(script.whole())
        for archive in archives if given else [*archives, plain_archive(work)]:
            hold(work, archive, scripts)


main()
