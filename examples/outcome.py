"""Copies a trace from its standard input to its output, and says how the run ended: status 1 where it was refused, with the refusal in words.

    crates/trace/out/trace <INPUT | python3 examples/outcome.py"""
import pathlib
import re
import signal
import sys

README = pathlib.Path(__file__).resolve().parent.parent / "README.md"


def words(number):
    """What README.md's table says of a refusal number."""
    table = README.read_text().partition("\n## Refusal numbers\n")[2].partition("\n## ")[0]
    for numbers, text in re.findall(r"^\| ([\d, ]+) \| (.+) \|$", table, re.M):
        if number in numbers.split(", "):
            return text
    return "README.md has no words for it"


def main():
    signal.signal(signal.SIGPIPE, signal.SIG_DFL)
    last = b""
    for last in sys.stdin.buffer:
        sys.stdout.buffer.write(last)
    sys.stdout.buffer.flush()
    if re.fullmatch(rb"end \d+\n", last):
        return
    refused = re.fullmatch(r"refused (\d+) at (\d+)\n", last.decode(errors="replace"))
    if refused:
        sys.exit(f"examples: refused with {refused[1]} at byte {refused[2]}: {words(refused[1])}")
    sys.exit("examples: the trace is not whole: its last line is neither an end nor a refusal")


main()
