"""How a program is run here: directly where it is one of this processor's, and an x86-64 program elsewhere under the emulator that the kit brings.

    python3 tests/programs.py PROGRAM     runs it, on the standard input and output given"""
import os
import pathlib
import platform
import shutil
import struct
import sys

X86_64 = 62  # e_machine
INTERPRETER = 3  # p_type of a program that a loader starts


def toolchain():
    """The kit's folder of tools for this machine."""
    home = os.environ.get("RATTLE_HOME")
    if not home:
        rt = shutil.which("rt")
        if not rt:
            raise SystemExit("programs: rt is not on the path and RATTLE_HOME is not set, so there is no emulator")
        home = pathlib.Path(rt).resolve().parent.parent
    return pathlib.Path(home) / "on" / platform.machine() / "toolchain"


def for_x86_64(image):
    """Whether a file is an ELF file for x86-64."""
    return image[:5] == b"\x7fELF\x02" and struct.unpack_from("<H", image, 18)[0] == X86_64


def needs_loader(image):
    """Whether one of its program headers names a loader."""
    start, = struct.unpack_from("<Q", image, 32)
    size, count = struct.unpack_from("<HH", image, 54)
    return any(struct.unpack_from("<I", image, start + size * k)[0] == INTERPRETER for k in range(count))


def command(program):
    """The words that run a program."""
    program = pathlib.Path(program).resolve()
    if not program.is_file():
        raise SystemExit(f"programs: there is no {program.name}: it is not built")
    image = program.read_bytes()
    if platform.machine() == "x86_64" or not for_x86_64(image):
        return [str(program)]
    kit = toolchain()
    emulator = kit / "bin" / "qemu-x86_64"
    if not emulator.is_file():
        raise SystemExit("programs: the kit's emulator is missing")
    loader = [str(kit / "lib" / "ld-linux-x86-64.so.2"), "--library-path", str(kit / "lib")] if needs_loader(image) else []
    return [str(emulator), *loader, str(program)]


if __name__ == "__main__":
    words = command(sys.argv[1])
    os.execv(words[0], words)
