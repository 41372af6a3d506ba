"""What the tests of an archive have in common: programs in C that are linked with it, and scripts of calls (tests/port_calls.py) that such a program runs.

On a processor that is not x86-64 the programs are built by x86_64-linux-gnu-gcc and run under the kit's emulator (tests/programs.py)."""
import pathlib
import platform
import re
import subprocess
import sys

import programs

ROOT = pathlib.Path(__file__).resolve().parent.parent
TEST = pathlib.Path(sys.argv[0]).stem  # the name before each line that is printed
NATIVE = platform.machine() == "x86_64"
TOOLS = "" if NATIVE else "x86_64-linux-gnu-"
COMPILER = ["gcc"] if NATIVE else ["x86_64-linux-gnu-gcc", "-static"]
STRICT = ["-std=c99", "-pedantic", "-Wall", "-Wextra", "-Werror"]
MOST_SECONDS = 300
# What the code may ask of the program that it is linked into.
OUTSIDE = {"memcpy", "memmove", "memset", "memcmp"}


def stop(lines):
    """Ends the test where something is wrong."""
    for line in lines:
        print(f"{TEST}: {line}")
    if lines:
        sys.exit(1)


def say(text):
    print(f"{TEST}: {text}", flush=True)


def ran(command, **more):
    return subprocess.run([str(word) for word in command], capture_output=True, timeout=MOST_SECONDS, **more)


def must(command, **more):
    """What a command writes; the test ends where it fails."""
    done = ran(command, **more)
    if done.returncode:
        stop([f"{' '.join(str(word) for word in command)} ends with {done.returncode}: {(done.stdout + done.stderr).decode(errors='replace')[-2000:]}"])
    return done.stdout


def compiled(work, sources, name, archive=None):
    program = work / name
    must([*COMPILER, *STRICT, "-O2", "-I", ROOT / "include", "-o", program, *sources, *([archive] if archive else [])])
    return program


def symbol_faults(archive, declared):
    """The archive has these functions and no other, and asks for nothing that a kernel may not have."""
    lines = [line.split() for line in must([f"{TOOLS}nm", archive]).decode().splitlines()]
    there = {line[2] for line in lines if len(line) == 3 and line[1].isupper()}
    asked = {line[1] for line in lines if len(line) == 2 and line[0] == "U"}
    found = [f"{name} is declared and not in the archive" for name in sorted(declared - there)]
    found += [f"{name} is in the archive and not declared" for name in sorted(there - declared)]
    return found + [f"the archive asks for {name}" for name in sorted(asked - OUTSIDE)]


def explained(script, said, name_of):
    """A driver's line with the call that it names; `name_of` gives a name to a byte of the arena that the call changed, or nothing."""
    number = re.match(r"call (\d+)", said)
    if not number:
        return f"{script.name}: {said}"
    line = script.lines[int(number.group(1))]
    byte = re.search(r"byte (\d+) of the arena", said)
    name = name_of(line, int(byte.group(1))) if byte else ""
    return f"{script.name}: {said}{f' ({name})' if name else ''}\n    it is {line}"


def script_faults(program, script, path, name_of):
    """What is wrong where a driver runs a script, which is at `path`."""
    done = ran([*programs.command(program), path])
    said = done.stdout.decode(errors="replace").strip()
    if done.returncode == 0 and said == f"{len(script.lines)} calls":
        return []
    return [explained(script, said, name_of) if said else f"{script.name}: ends with {done.returncode}: {done.stderr.decode(errors='replace')[-500:]}"]


def arguments_of(line):
    """The call and the arguments of a script's line."""
    call, arguments = re.search(r": (\w+)\(([\d, ]*)\)", line).groups()
    return call, [int(part) for part in arguments.split(",") if part.strip()]
