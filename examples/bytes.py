"""Writes the bytes of a file of hexadecimal digits to standard output. Blanks do not count, and neither does what stands behind a #.
Status 2, and a line that says why, where the file is not such a one.

    python3 examples/bytes.py FILE"""
import pathlib
import re
import sys


def stop(why):
    print(f"examples: {why}", file=sys.stderr)
    sys.exit(2)


def text_of(name):
    try:
        return pathlib.Path(name).read_text(encoding="utf-8-sig")
    except OSError as error:
        stop(f"{name}: {error.strerror}")
    except UnicodeDecodeError:
        stop(f"{name}: it is not text; two hexadecimal digits are to stand for each byte")


def bytes_of(name):
    found = bytearray()
    for number, line in enumerate(text_of(name).split("\n"), 1):
        for group in line.partition("#")[0].split():
            if not re.fullmatch("[0-9a-fA-F]+", group):
                stop(f"{name}, line {number}: {group[:40]!r} is not hexadecimal")
            if len(group) % 2:
                stop(f"{name}, line {number}: {group[:40]!r} has an odd number of digits ({len(group)})")
            found += bytes.fromhex(group)
    return found


if len(sys.argv) != 2:
    stop("usage: python3 examples/bytes.py FILE")
sys.stdout.buffer.write(bytes_of(sys.argv[1]))
