"""The trace program held to the model, whole output against whole output, on every case of tests/cases.py. It builds nothing.

    python3 tests/traces.py [PROGRAM]     PROGRAM: in place of crates/trace/out/trace"""
import os
import pathlib
import re
import resource
import subprocess
import sys
import tempfile
import time
from concurrent import futures

import cases
import edges
import model
import programs

ROOT = pathlib.Path(__file__).resolve().parent.parent
FOUND = ROOT / "target" / "traces"  # inputs of cases that differ
AT_ONCE = 2
MOST_SECONDS = 60
MOST_OUTPUT = 64 * 2 ** 20  # bytes; the longest output that is due has 12 MB
MOST_SHOWN = 10  # cases that are wrong
MOST_BYTES = 120  # of an input
FEWEST_CASES = 1_000

# Each kind of line that an expected output can have.
KINDS = {
    "running": rb"^\d+ \d \d$",
    "burning": rb"^\d+ \d -$",
    "idle": rb"^\d+ - -$",
    "lost": rb"^lost \d \d$",
    "refused and going on": rb"^refused (18|19|20) at \d+\n.",
    "refused and stopping": rb"^refused \d+ at \d+\n\Z",
    "end": rb"^end \d+\n\Z",
    "the header alone before a refusal": rb"\Atick server task\nrefused \d+ at \d+\n\Z",
}
REFUSALS = range(1, 22)
PLACED = range(5, 14)  # refusals whose place depends on the record


# RUNNING A PROGRAM

def limit_output():
    resource.setrlimit(resource.RLIMIT_FSIZE, (MOST_OUTPUT, MOST_OUTPUT))


def drip(process, data):
    """Pieces of 7 bytes, with time to read each."""
    time.sleep(0.1)
    try:
        for at in range(0, len(data), 7):
            process.stdin.write(data[at:at + 7])
            process.stdin.flush()
            time.sleep(0.002)
    except BrokenPipeError:
        pass  # it has stopped reading, as it may after a refusal


def run(words, case):
    """What a program writes for a case, and what is wrong with the way in which it ended."""
    with tempfile.TemporaryFile() as out, tempfile.TemporaryFile() as err:
        process = subprocess.Popen(words, stdin=subprocess.PIPE, stdout=out, stderr=err, preexec_fn=limit_output)
        try:
            if case.drip:
                drip(process, case.input)
            process.communicate(b"" if case.drip else case.input, timeout=MOST_SECONDS)
        except subprocess.TimeoutExpired:
            process.kill()
            process.wait()
            return b"", f"it runs for more than {MOST_SECONDS} seconds"
        out.seek(0)
        err.seek(0)
        written, said = out.read(), err.read()
    if process.returncode != 0:
        return written, f"it ends with {process.returncode}; on standard error: {said[:300]!r}"
    return written, f"on standard error: {said[:300]!r}" if said else ""


# COMPARING

def first_difference(expected, written):
    """The number of the first line that differs, from 1; 0 where none does."""
    if expected == written:
        return 0
    both = zip(expected.split(b"\n"), written.split(b"\n"))
    return next((k for k, (a, b) in enumerate(both, 1) if a != b), 1 + min(expected.count(b"\n"), written.count(b"\n")))


def around(output, line):
    """Some lines about a place, with their numbers."""
    rows = output.split(b"\n")
    first, last = max(0, line - 4), line + 3
    shown = [f"    {k + 1}: {rows[k][:120].decode(errors='replace')}" for k in range(first, min(last, len(rows)))]
    return "\n".join(shown) or "    nothing there"


def file_of(case):
    """Where a case's input is kept whole if something is wrong with it."""
    return FOUND / (re.sub(r"[^a-z0-9]+", "-", case.name.lower()).strip("-") + ".input")


def save(case):
    FOUND.mkdir(parents=True, exist_ok=True)
    file_of(case).write_bytes(case.input)


def report(case, expected, written, wrong):
    """What is wrong with a case, as text; nothing where all is right."""
    line = first_difference(expected, written)
    if not line and not wrong:
        return ""
    cut = case.input[:MOST_BYTES].hex() + (".." if len(case.input) > MOST_BYTES else "")
    text = [f"traces: {case.name}", f"  input, {len(case.input)} bytes, whole in {file_of(case).relative_to(ROOT)}: {cut}"]
    if wrong:
        text.append(f"  {wrong}")
    if line:
        text += [f"  line {line} is the first that differs. The model:", around(expected, line), "  The program:", around(written, line)]
    return "\n".join(text)


def features(expected):
    """Which refusals, with their places, and which kinds of lines an output has."""
    refusals = {(int(number), int(place)) for number, place in re.findall(rb"^refused (\d+) at (\d+)$", expected, re.M)}
    return refusals, {kind for kind, pattern in KINDS.items() if re.search(pattern, expected, re.M)}


def check(words, case):
    """One case: what is wrong, how many ticks, and what its expected output has."""
    expected = model.trace(case.input)
    text = report(case, expected, *run(words, case))
    if text:
        save(case)
    return text, len(re.findall(rb"^\d", expected, re.M)), *features(expected)


# ALL CASES

def missing(refusals, kinds):
    """What no expected output has, as lines of text."""
    found = [f"no case is refused with {number}" for number in REFUSALS if number not in {given for given, _ in refusals}]
    found += [f"refusal {number} has the same place in all cases" for number in PLACED if len({place for given, place in refusals if given == number}) < 2]
    return found + [f"no case has a line of this kind: {kind}" for kind in KINDS if kind not in kinds]


def kept_budgets(case):
    """What is due, and what would be if each polling server kept its budget, as a deferrable one does."""
    return model.trace(case.input), model.trace(cases.deferrable_instead(case.input))


def blind():
    """What this test would pass over: an altered output, a missing line, a refusal or a kind of line that no case has, a polling server that does not poll."""
    case, expected = cases.Case("self-test", edges.WORKED_INPUT), edges.WORKED_OUTPUT
    altered = [expected.replace(b"3 1 -", b"3 1 0"), expected[:-6], expected[:-1], expected + b"\n", b""]
    found = [f"a difference: {written}" for written in altered if not report(case, expected, written, "")]
    if report(case, expected, expected, ""):
        found.append("sameness")
    if not report(case, expected, expected, "it ends with 1"):
        found.append("a crash")
    refusals = {(number, place) for number in REFUSALS for place in (0, 1)}
    if missing(refusals, set(KINDS)):
        found.append("a whole list")
    for number in REFUSALS:
        if not missing({given for given in refusals if given[0] != number}, set(KINDS)):
            found.append(f"that no case has refusal {number}")
    found += [f"that no case has the kind of line {kind}" for kind in KINDS if not missing(refusals, set(KINDS) - {kind})]
    found += [f"a polling server that keeps its budget: {case.name}" for case in cases.polled() if first_difference(*kept_budgets(case)) == 0]
    found += [f"that a deferrable server differs: {case.name}" for case in cases.polled_alike() if first_difference(*kept_budgets(case)) != 0]
    return found


def stop(lines):
    """Ends the test where something is wrong."""
    for line in lines:
        print(f"traces: {line}")
    if lines:
        sys.exit(1)


def run_all(words, all_cases):
    """How many ticks were run. What is wrong is printed as it is found, and then ends the test."""
    wrong, ticks, refusals, kinds = 0, 0, set(), set()
    with futures.ProcessPoolExecutor(AT_ONCE) as pool:
        for job in futures.as_completed([pool.submit(check, words, case) for case in all_cases]):
            text, count, more_refusals, more_kinds = job.result()
            ticks += count
            refusals |= more_refusals
            kinds |= more_kinds
            if text:
                print(text, flush=True)
                wrong += 1
            if wrong == MOST_SHOWN:
                pool.shutdown(cancel_futures=True)
                stop([f"{wrong} cases are wrong; the rest is not run"])
    stop([f"{wrong} cases are wrong"] if wrong else missing(refusals, kinds))
    return ticks


def endless(words):
    """What is wrong where reading or writing fails: the program must end, and soon. A full device takes no byte, a pipe that is closed is written to in vain, and a folder cannot be read."""
    found = []
    long = cases.setup(cases.WORKED) + cases.run(65_535) * 3
    with open("/dev/full", "wb") as full:
        ways = {"a full device": dict(stdout=full), "a closed pipe": dict(stdout=subprocess.PIPE)}
        for name, way in ways.items():
            process = subprocess.Popen(words, stdin=subprocess.PIPE, stderr=subprocess.DEVNULL, **way)
            if process.stdout:
                process.stdout.close()
            try:
                process.stdin.write(long)
                process.stdin.close()
                process.wait(MOST_SECONDS)
            except BrokenPipeError:
                process.wait(MOST_SECONDS)
            except subprocess.TimeoutExpired:
                process.kill()
                found.append(f"it goes on after {name}")
    folder = os.open("/", os.O_RDONLY)
    try:
        done = subprocess.run(words, stdin=folder, stdout=subprocess.PIPE, timeout=MOST_SECONDS)
        if done.stdout != model.trace(b""):
            found.append(f"a folder as input: {done.stdout!r}")
    except subprocess.TimeoutExpired:
        found.append("it goes on where its input cannot be read")
    os.close(folder)
    return found


def main():
    stop([f"the model: {line}" for line in edges.faults()])
    stop([f"the test passes over {line}" for line in blind()])
    words = programs.command(sys.argv[1] if len(sys.argv) > 1 else ROOT / "crates" / "trace" / "out" / "trace")
    all_cases = cases.cases()
    names = {case.name for case in all_cases}
    if len(names) < len(all_cases) or len(all_cases) < FEWEST_CASES:
        stop([f"{len(all_cases)} cases of {len(names)} names; at least {FEWEST_CASES} cases are due, each with its own name"])
    stop(endless(words))
    ticks = run_all(words, all_cases)
    print(f"traces: {len(all_cases):,} cases, {ticks:,} ticks: the program and the model agree")


main()
