#!/usr/bin/env python3
"""Writes the setups that are measured into a folder.

    setups.py FOLDER COUNT...           for bench/run: NAME.COUNT is a setup and, in two bytes, COUNT batches of ticks
    setups.py --trace FOLDER TICKS...   for bench/trace: NAME.TICKS is a setup and messages that run TICKS ticks
"""
import pathlib
import sys

IDLING, DEFERRABLE, POLLING = 1, 2, 3


def big(number, size):
    return number.to_bytes(size, "big")


def task(work, period=0, offset=0):
    """A task with no period is released on arrival."""
    return bytes([period > 0]) + big(work, 4) + big(period, 4) + big(offset, 4)


def server(kind, period, budget, tasks):
    return bytes([kind, len(tasks)]) + big(period, 4) + big(budget, 4) + b"".join(tasks)


def setup(servers):
    body = bytes([1, len(servers)]) + b"".join(servers)
    return big(len(body) + 2, 2) + body


def worked():
    """Document 01's example."""
    return setup([server(DEFERRABLE, 4, 2, [task(3)]), server(IDLING, 5, 2, [task(1, 5)])])


def eight(kinds):
    """Eight servers of eight tasks, with periods of 10 to 2,000 ticks; the kinds by turns."""
    steps = [1, 2, 4, 5, 8, 10, 16, 20]
    servers = []
    for i, period in enumerate([10, 15, 20, 30, 40, 50, 80, 100]):
        tasks = [task(1 + j % 3, period * step, (7 * i + 3 * j) % period) for j, step in enumerate(steps)]
        servers.append(server(kinds[i % len(kinds)], period, max(1, period // 9), tasks))
    return setup(servers)


def realistic():
    return eight([IDLING, DEFERRABLE])


def polling():
    """To be compared with `deferrable`, which differs in the kind alone."""
    return eight([POLLING])


def deferrable():
    return eight([DEFERRABLE])


def fillers():
    """Eight servers of eight tasks. Half of the tasks and one server have periods above 65,535; the others give about two events a tick."""
    servers = []
    for i in range(8):
        near = [task(1, 31 + 3 * i + 5 * j, 1 + i + j) for j in range(4)]
        far = [task(50, 70_000 + 130_000 * j + 1_000 * i, 66_000 * (1 + j)) for j in range(4)]
        servers.append(server(DEFERRABLE if i % 2 else IDLING, 200_000 if i == 7 else 5 + i % 3, 20_000 if i == 7 else 1, near + far))
    return setup(servers)


def runs(ticks):
    """Messages that run so many ticks, each as many as a message can."""
    counts = [65_535] * (ticks // 65_535) + [ticks % 65_535] * (ticks % 65_535 > 0)
    return b"".join(bytes([0, 6, 1, 1]) + big(count, 2) for count in counts)


def batches(count):
    return big(count, 2)


def main():
    tail, words = (runs, sys.argv[2:]) if sys.argv[1] == "--trace" else (batches, sys.argv[1:])
    folder = pathlib.Path(words[0])
    for make in (worked, realistic, fillers, polling, deferrable):
        for count in words[1:]:
            (folder / f"{make.__name__}.{count}").write_bytes(make() + tail(int(count)))


main()
