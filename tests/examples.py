"""What examples/run says and with which status it ends: on the examples, on input that is refused, on files that are no input, and where a crate is not proved.
It runs rt, which proves nothing again that is proved."""
import os
import pathlib
import re
import subprocess
import sys
import tempfile

ROOT = pathlib.Path(__file__).resolve().parent.parent
RUN = ["bash", str(ROOT / "examples" / "run")]
MOST_SECONDS = 1_800
# as document 01 prints it
WORKED = """tick server task
0 0 0
1 0 0
2 1 0
3 1 -
4 0 0
5 1 0
6 1 -
7 - -
end 8
"""
# polling.hex, worked out by hand: on tick 0 the work ends and the budget goes; the request behind it waits for the refill at 8, and server 1 goes first
POLLING = """tick server task
0 0 0
1 1 0
2 1 0
3 1 0
4 1 0
5 1 0
6 - -
7 - -
8 0 0
9 0 1
10 0 1
11 1 0
12 1 0
13 1 0
14 1 0
15 1 0
end 16
"""
# the same with server 0 deferrable: it has 2 ticks of budget left when the request comes
DEFERRABLE = """tick server task
0 0 0
1 0 1
2 0 1
3 1 0
4 1 0
5 1 0
6 1 0
7 1 0
8 0 0
9 1 0
10 1 0
11 1 0
12 1 0
13 1 0
14 - -
15 - -
end 16
"""
PERIOD_0 = "0032 01 02\n02 01 00000000 00000002\n" + "00 " * 36
UNPROVED = """#!/bin/sh
cat >&2 <<END
crate refusal: modules loaded=0 checked=54
logic=proved functions=2
a fact that fails
rt: the library queue did not build, so nothing above it was checked
END
exit 1
"""


def faults(name, done, status, output, *said):
    """What is wrong with a run: its status, its output, or its words, each a pattern that standard error is to have."""
    found = [f"{name}: status {done.returncode}, due is {status}"] if done.returncode != status else []
    if done.stdout != output:
        found.append(f"{name}: it writes {done.stdout!r}, due is {output!r}")
    found += [f"{name}: standard error has nothing like {pattern!r}: {done.stderr!r}" for pattern in said if not re.search(pattern, done.stderr, re.M)]
    if "Traceback" in done.stderr:
        found.append(f"{name}: a traceback: {done.stderr!r}")
    return found


def run(folder, *words, **variables):
    return subprocess.run([*RUN, *words], cwd=folder, env={**os.environ, **variables}, capture_output=True, text=True, timeout=MOST_SECONDS)


def example_faults(folder):
    found = faults("the worked example", run(folder), 0, WORKED, r"^examples: proving .* \d+ crates$", r"^examples: (\d+) of \1[: ]")
    if f"\n```\n{WORKED}```\n" not in (ROOT / "README.md").read_text():
        found.append("README.md does not have the worked example's output")
    done = run(ROOT / "examples", "brakes.hex")
    ended = re.search(r"\A(tick server task\n(?:.*\n)*)refused 20 at 117\n(?:.*\n)*end 50\n\Z", done.stdout)
    return found + faults("brakes.hex, which has a refused arrival", done, 0, ended[0] if ended else "a refused arrival and an end")


def polling_faults(folder):
    """polling.hex, and what its last remark says: another kind in one byte."""
    text = (ROOT / "examples" / "polling.hex").read_text()
    found = faults("polling.hex", run(ROOT / "examples", "polling.hex"), 0, POLLING)
    if len(re.findall(r"^03 02 ", text, re.M)) != 1:
        found.append("polling.hex has not one line of a polling server with two tasks")
    (folder / "deferrable.hex").write_text(re.sub(r"^03 02 ", "02 02 ", text, flags=re.M))
    return found + faults("polling.hex with a deferrable server", run(folder, "deferrable.hex"), 0, DEFERRABLE)


def refused_faults(folder):
    cases = (
        ("a setup without bytes", "# nothing\n", "tick server task\nrefused 1 at 0\n", "refused with 1 at byte 0: the setup has fewer than 4 bytes"),
        ("a period of 0", PERIOD_0, "tick server task\nrefused 8 at 6\n", "refused with 8 at byte 6: a period P is 0 or above 1,000,000"),
    )
    found = []
    for name, text, output, words in cases:
        (folder / "refused.hex").write_text(text)
        found += faults(name, run(folder, "refused.hex"), 1, output, f"^examples: {words}$")
    return found


def file_faults(folder):
    cases = (
        ("no such file", None, "wrong.hex: No such file"),
        ("a letter", b"0032 # setup\n01 0x\n", "wrong.hex, line 2: '0x' is not hexadecimal"),
        ("an odd number", b"0032\n\n01 020 # two\n", r"wrong.hex, line 3: '020' has an odd number of digits \(3\)"),
        ("no text", b"\0\x32\x01\xff", "wrong.hex: it is not text"),
    )
    found = []
    for name, content, words in cases:
        (folder / "wrong.hex").unlink(missing_ok=True)
        if content is not None:
            (folder / "wrong.hex").write_bytes(content)
        found += faults(name, run(folder, "wrong.hex"), 2, "", f"^examples: {words}")
    return found + faults("two files", run(folder, "a", "b"), 2, "", "^usage: ")


def unproved_faults(folder):
    """With an rt that proves one crate and not the next."""
    (folder / "rt").write_text(UNPROVED)
    (folder / "rt").chmod(0o755)
    done = run(folder, PATH=f"{folder}{os.pathsep}{os.environ['PATH']}")
    return faults("a crate that is not proved", done, 1, "", r"^examples: 2 of \d+: refusal proved \(\d+ s\)$", "^a fact that fails$", "^rt: the library queue did not build")


def word_faults(numbers):
    """Whether each refusal has its words."""
    found = []
    for number in numbers:
        outcome = [sys.executable, str(ROOT / "examples" / "outcome.py")]
        trace = f"tick server task\nrefused {number} at 7\n"
        done = subprocess.run(outcome, input=trace, capture_output=True, text=True, timeout=MOST_SECONDS)
        found += faults(f"refusal {number}", done, 1, trace, rf"^examples: refused with {number} at byte 7: (?!README)\w.+$")
    return found


def blind():
    """What this test would pass over."""
    def fake(status, output, said):
        return faults("", subprocess.CompletedProcess([], status, output, said), 0, WORKED, "^all is well$")
    wrong = {"a status": (1, WORKED, "all is well"), "an output": (0, WORKED.replace("3 1 -", "3 1 0"), "all is well"), "words": (0, WORKED, "all is bad")}
    found = [f"another {name}" for name, done in wrong.items() if not fake(*done)]
    if fake(0, WORKED, "all is well"):
        found.append("sameness")
    return found + ([] if word_faults([99]) else ["a refusal without words"])


def main():
    with tempfile.TemporaryDirectory() as name:
        folder = pathlib.Path(name)
        wrong = [f"the test passes over {line}" for line in blind()]
        wrong = wrong or [*word_faults(range(1, 33)), *file_faults(folder), *example_faults(folder), *polling_faults(folder), *refused_faults(folder),
                          *unproved_faults(folder)]
    for line in wrong:
        print(f"examples: {line}")
    if wrong:
        sys.exit(1)
    print("examples: the examples, refused input, wrong files and a failed proof end as they should, and each refusal has its words")


main()
