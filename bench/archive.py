#!/usr/bin/env python3
"""What an archive's code takes, read from its object files.

    archive.py functions TOOLS ARCHIVE PLAIN   of each exported function in two archives the bytes of code and the most bytes of stack: its frame and its
                                               deepest callee's, return addresses included; then of what these functions share, and of constants
    archive.py stack TOOLS ARCHIVE FUNCTION    the most bytes of stack of one function
    archive.py asks TOOLS ARCHIVE              which functions it needs from outside, and whether it uses vector registers and the red zone

TOOLS is what stands before `nm` and `objdump`, as x86_64-linux-gnu-."""
import re
import subprocess
import sys
from collections import namedtuple

RETURN = 8  # bytes of a return address

# its greatest depth below its return address, and whom it calls or jumps to
Function = namedtuple("Function", "frame callees")


def lines_of(*command):
    return subprocess.run(command, capture_output=True, text=True, check=True).stdout.splitlines()


# SIZES

def sizes(tools, archive):
    """Bytes by symbol of exported functions, all code and all constants."""
    found = {}
    for line in lines_of(f"{tools}nm", "-S", archive):
        parts = line.split()
        if len(parts) == 4 and parts[2] == "T":
            found[parts[3]] = int(parts[1], 16)
    code = constants = 0
    for line in lines_of(f"{tools}objdump", "-h", archive):
        parts = line.split()
        if len(parts) == 7 and parts[1].startswith(".text"):
            code += int(parts[2], 16)
        elif len(parts) == 7 and parts[1].startswith((".rodata", ".data")):
            constants += int(parts[2], 16)
    return found, code, constants


# THE STACK

def number(text):
    return int(text, 16) if text.startswith("0x") else int(text)


def moves(instruction):
    """By how much an instruction lowers the stack pointer, where it moves it by a number."""
    if instruction.startswith("push"):
        return 8
    if instruction.startswith("pop"):
        return -8
    found = re.match(r"(sub|add)q? +\$(-?(?:0x)?[0-9a-f]+),%rsp", instruction)
    if found:
        return number(found.group(2)) * (1 if found.group(1) == "sub" else -1)
    return 0


def strange(instruction):
    """An instruction that moves the stack pointer in another way."""
    return re.search(r",%rsp$", instruction) and not moves(instruction) and not instruction.startswith(("cmp", "test"))


def below_pointer(instruction):
    """How far below the stack pointer an instruction reaches: a function that calls no other may use the red zone there."""
    return max((int(found, 16) for found in re.findall(r"-0x([0-9a-f]+)\(%rsp", instruction)), default=0)


def callee_of(instruction, calling):
    """Whom a line calls or jumps to: it names the function, or the relocation below a call does."""
    relocated = re.search(r"R_X86_64_(?:PLT32|PC32)\s+(\S+?)(?:[-+]0x[0-9a-f]+)?$", instruction)
    if relocated:
        return relocated.group(1).removeprefix(".text.") if calling else ""
    named = re.match(r"(?:call|jmp)q? +[0-9a-f]+ <([^+>]+)>$", instruction)
    return named.group(1) if named else ""


def read_function(name, body):
    """A function's frame and callees from its instructions and relocations. Behind a return or a jump the code goes on at the depth that it had."""
    depth = most = deep = 0
    callees, calling = set(), False
    for instruction in body:
        callees.add(callee_of(instruction, calling))
        if "R_X86_64" in instruction:
            continue
        calling = instruction.startswith(("call", "jmp"))
        if re.match(r"callq? +\*", instruction):
            raise SystemExit(f"archive: {name} calls through a pointer")
        if strange(instruction):
            raise SystemExit(f"archive: {name} moves the stack pointer by {instruction}")
        depth += moves(instruction)
        most, deep = max(most, depth), max(deep, depth + below_pointer(instruction))
        if instruction.startswith(("ret", "jmp")):
            depth = most
    return Function(max(most, deep), callees - {name, ""})


def functions(tools, archive):
    found, name, body = {}, "", []
    for line in [*lines_of(f"{tools}objdump", "-dr", "--no-show-raw-insn", archive), "0 <>:"]:
        head = re.match(r"[0-9a-f]+ <([^>]*)>:$", line)
        if head:
            if name:
                found[name] = read_function(name, body)
            name, body = head.group(1), []
        elif ":\t" in line or "R_X86_64" in line:
            body.append(line.split("\t", 1)[1].split("#")[0].strip() if "R_X86_64" not in line else line.strip())
    return found


def deepest(found, name, above=()):
    """The most bytes below a caller's stack pointer, the return address included. A function from outside counts with its return address alone."""
    if name in above:
        raise SystemExit(f"archive: {name} calls itself")
    if name not in found:
        return RETURN
    one = found[name]
    return RETURN + one.frame + max((deepest(found, callee, (*above, name)) for callee in one.callees), default=0)


def write_stack(tools, archive, name):
    print(deepest(functions(tools, archive), name))


def write_functions(tools, archive, plain):
    (own, code, constants), (other, other_code, other_constants) = sizes(tools, archive), sizes(tools, plain)
    own_functions, other_functions = functions(tools, archive), functions(tools, plain)
    print(f"{'':32} {'code':>8} {'':>8} {'stack, at most':>17}")
    print(f"{'function':32} {'proved':>8} {'C':>8} {'proved':>8} {'C':>8}")
    for name in sorted(own | other):
        print(f"{name:32} {own[name]:8} {other[name]:8} {deepest(own_functions, name):8} {deepest(other_functions, name):8}")
    print(f"{'functions that these call':32} {code - sum(own.values()):8} {other_code - sum(other.values()):8}")
    print(f"{'all code':32} {code:8} {other_code:8}")
    print(f"{'constants':32} {constants:8} {other_constants:8}")


# WHAT IT ASKS OF A KERNEL

def write_asks(tools, archive):
    asked = sorted({line.split()[1] for line in lines_of(f"{tools}nm", archive) if line.split()[:1] == ["U"]})
    text = "\n".join(lines_of(f"{tools}objdump", "-d", "--no-show-raw-insn", archive))
    vectors = sorted(set(re.findall(r"%([xyz]mm)\d", text)))
    below = re.search(r"-0x[0-9a-f]+\(%rsp\)", text) is not None
    print(f"from outside: {', '.join(asked) or 'nothing'}; vector registers: {', '.join(vectors) or 'none'}; red zone: {'yes' if below else 'no'}")


if __name__ == "__main__":
    {"functions": write_functions, "stack": write_stack, "asks": write_asks}[sys.argv[1]](*sys.argv[2:])
