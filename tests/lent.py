"""The two calls on a queue that is lent, clock_in and take_in of crate queue_c, from C, held to the model: the answer and all memory behind each call. It proves
nothing and builds no crate.

    python3 tests/lent.py [ARCHIVE]     ARCHIVE: in place of target/staticlib/libqueue.a"""
import pathlib
import random
import shutil
import struct
import sys
import tempfile

import drivers
import edges
import model
import port_calls
import words
from drivers import COMPILER, ROOT, say, stop

CALLS = ("clock_in", "take_in")
REFUSALS = {"clock_in": (0, 27, 31), "take_in": (0, 28, 31)}
ACCEPTED = {"clock_in": ("empty", "a filler goes", "the gap falls"), "take_in": ("full", "the last event", "one of some")}
FEWEST_CALLS = 20_000
ARENA = 1_024
BYTES = 136  # of a queue: 32 cells of 4 bytes, and the length in 8
SEED = 20_240_918
TOP = 2 ** 64 - 1


# A QUEUE IN C'S LAYOUT

def row_bytes(row, padding):
    """A row's bytes, with these 32 bytes of padding, one behind each id."""
    return b"".join(struct.pack("<BBH", id, pad, gap) for (id, gap), pad in zip(row.cells, padding)) + struct.pack("<Q", row.count)


def name_of(line, byte):
    """The name of a byte of the arena that a call changed, or nothing."""
    _, places = drivers.arguments_of(line)
    k, part = divmod(byte - places[0], 4)
    if 0 <= k < model.CELLS:
        return f"cells[{k}].{('id', 'padding', 'gap', 'gap')[part]}"
    return "len" if model.CELLS <= k < BYTES // 4 else "the id" if places[1:] == [byte] else ""


class Lent:
    """A queue in a script, the memory for an id that is taken, and the two calls."""

    def __init__(self, script, chance, row, clause=""):
        self.script, self.chance, self.clause = script, chance, clause
        self.at, self.id = port_calls.lay(chance, script.size, [(BYTES, 8), (1, 1)])
        self.hold(row)

    def hold(self, row):
        """The padding is any, so that no call reads it."""
        self.row = row
        self.script.put(self.at, row_bytes(row, self.chance.randbytes(model.CELLS)))
        self.script.put(self.id, self.chance.randbytes(1))

    def changes(self, row):
        """What differs in the queue's memory, field by field: the padding is free."""
        found = []
        for k, (was, new) in enumerate(zip(self.row.cells, row.cells)):
            if was[0] != new[0]:
                found.append((self.at + 4 * k, struct.pack("<B", new[0])))
            if was[1] != new[1]:
                found.append((self.at + 4 * k + 2, struct.pack("<H", new[1])))
        if self.row.count != row.count:
            found.append((self.at + 4 * model.CELLS, struct.pack("<Q", row.count)))
        self.row = row
        return found

    def clock_in(self):
        refusal, row = model.clock(self.row)
        kind = "" if refusal.number else "empty" if not row.count else "a filler goes" if row.count < self.row.count else "the gap falls"
        self.script.call("clock_in", [self.at], refusal, self.changes(row), self.clause or kind)

    def take_in(self):
        refusal, row, id = model.take(self.row)
        kind = "" if refusal.number else "full" if self.row.count == model.CELLS else "the last event" if not row.count else "one of some"
        self.script.call("take_in", [self.at, self.id], refusal, self.changes(row) + [(self.id, bytes([id]))], self.clause or kind)

    def both(self):
        self.take_in()
        self.clock_in()


# THE ROWS

# A filler at the front that goes at the next tick, or at the one behind it; a first gap at its limits; and fillers between.
FRONT_ROWS = ([(4, 65_536)], [(4, 65_537)], [(4, 131_071)], [(4, 131_072), (5, 131_072)], [(4, 65_535), (5, 65_536)], [(4, 1), (5, 65_537)],
              [(4, 0), (5, 65_536)], [(254, 65_536), (0, 131_072), (7, 196_608)], [(id, 65_536) for id in range(31)],
              [(9, 999_999)], [(9, 1_000_000)], [(9, 983_026)], [(9, 983_025)])


def sound_rows(chance):
    """(what it is, row): sound rows of every kind, those near a limit first."""
    yield "the empty row", model.EMPTY
    for events in [*port_calls.FULL_ROWS, *FRONT_ROWS]:
        yield f"a row of {len(model.cells(events))} cells", model.row_of(events)
    for k in range(1_200):
        yield f"random row {k}", model.row_of(port_calls.random_events(chance, chance.choice((2, 8, 32))))


def with_cell(row, k, cell):
    return row._replace(cells=row.cells[:k] + (cell,) + row.cells[k + 1:])


def unsound_rows(chance):
    """(clause, row): each clause of a sound queue broken, and as far as can be only that one. Rows of the port with a word that is no cell are left out."""
    for clause, values in port_calls.broken_rows(chance):
        if max(values[1:]) <= words.LARGEST_CELL:
            yield clause, words.row(values)
    two, far = model.row_of([(3, 0), (9, 70_000)]), model.row_of([(4, 200_000)])
    for count in (33, 64, 255, 2 ** 16, 2 ** 32, 2 ** 32 + 3, 2 ** 62, 2 ** 63, TOP - 3, TOP):
        yield "count above 32", two._replace(count=count)
        yield "count above 32", model.EMPTY._replace(count=count)
    yield "count above 32", model.row_of([(id, 0) for id in range(32)])._replace(count=33)
    yield "two events of one id", with_cell(two, 2, (3, 65_535))
    yield "a filler last", with_cell(two, 3, (model.FILLER, chance.choice((1, 65_535))))._replace(count=4)
    yield "a filler alone", with_cell(model.EMPTY, 0, (model.FILLER, 1))._replace(count=1)
    yield "a filler of gap 0", with_cell(two, 1, (model.FILLER, 0))
    yield "a filler of gap 0", with_cell(far, 0, (model.FILLER, 0))
    yield "a gap behind a filler that is not full", with_cell(two, 2, (9, chance.choice((0, 1, 65_534))))
    yield "a gap behind a filler that is not full", with_cell(far, 1, (model.FILLER, 65_534))
    yield "past the last cell not zero", with_cell(two, chance.randint(3, 31), chance.choice(((1, 0), (0, 1), (255, 65_535))))
    yield "a distance above 1,000,000", model.row_of([(3, 0), (9, 1_000_001)])
    yield "a distance above 1,000,000", model.row_of([(id, 65_535 * (id + 1)) for id in range(32)])


def bits(row):
    """The row with each one of its bits turned, in the cells and in the count."""
    for k, (id, gap) in enumerate(row.cells):
        yield from (with_cell(row, k, (id ^ 1 << b, gap)) for b in range(8))
        yield from (with_cell(row, k, (id, gap ^ 1 << b)) for b in range(16))
    yield from (row._replace(count=row.count ^ 1 << b) for b in range(64))


# THE SCRIPTS

def run_on(queue, count):
    """Calls one behind the other, so that what a call leaves is what the next is handed."""
    for _ in range(count):
        queue.chance.choice((queue.clock_in, queue.take_in, queue.both))()


def sound_script():
    script, chance = port_calls.Script("sound rows", ARENA, CALLS), random.Random(SEED)
    for name, row in sound_rows(chance):
        script.group = name
        for call in CALLS:
            getattr(Lent(script, chance, row), call)()
        run_on(Lent(script, chance, row), chance.choice((3, 10, 40)))
    return script


def unsound_script():
    script, chance = port_calls.Script("unsound rows", ARENA, CALLS), random.Random(SEED + 1)
    for k in range(8):
        script.group = f"broken rows {k}"
        for clause, row in unsound_rows(chance):
            assert not model.sound_row(row), clause
            Lent(script, chance, row, clause).both()
    return script


def bit_script():
    """Rows of which one bit is turned: most are unsound, and the others have another outcome."""
    script, chance = port_calls.Script("turned bits", ARENA, CALLS), random.Random(SEED + 2)
    for events in ([(3, 0), (9, 70_000), (10, 70_000)], [(4, 65_536), (5, 65_536)], [(id, 3 * id) for id in range(32)]):
        script.group = f"a row of {len(model.cells(events))} cells with a bit turned"
        queue = Lent(script, chance, model.EMPTY)
        for row in bits(model.row_of(events)):
            queue.hold(row)
            queue.both()
    return script


def missing(scripts):
    """What no call reaches, of each call's refusals and of the ways in which it is accepted."""
    reached = {key for script in scripts for key in script.reached}
    numbers = {(call, number) for call, number, _ in reached}
    due = {(call, number) for call in CALLS for number in REFUSALS[call]}
    ways = {(call, 0, way) for call in CALLS for way in ACCEPTED[call]}
    return [f"no {call} answers {number}" for call, number in sorted(due - numbers)] + [
        f"{call} answers {number}, which it may not" for call, number in sorted(numbers - due)] + [
        f"no {call} is of this kind: {way}" for call, _, way in sorted(ways - reached)]


def blind(work, program):
    """What the driver passes over: a script that asks for another answer, or for another byte of the queue, of the taken id, or of what lies about them."""
    found, row = [], model.row_of([(7, 0), (9, 5)])
    after, padding = model.take(row)[1], bytes(model.CELLS)
    held = row_bytes(after, padding)
    at, id = 400, 900
    whats = {"nothing": (0, 0, []), "a refusal": (28, 0, []), "a place": (0, 1, []), "an id": (0, 0, [(id, b"\6")]), "an id of a cell": (0, 0, [(at, b"\7")]),
             "a gap": (0, 0, [(at + 3, b"\1")]), "a cell past the last": (0, 0, [(at + 4, b"\t")]), "a length": (0, 0, [(at + 128, b"\2")]),
             "the length's last byte": (0, 0, [(at + 135, b"\1")]), "a byte before the queue": (0, 0, [(at - 1, b"\0")]),
             "a byte behind the queue": (0, 0, [(at + 136, b"\0")]), "the arena's last byte": (0, 0, [(ARENA - 1, b"\0")])}
    for what, (number, place, more) in whats.items():
        script = port_calls.Script("blind", ARENA, CALLS)
        script.put(at, row_bytes(row, padding))
        script.call("take_in", [at, id], model.refused(number, place), [(at, held), (id, b"\7"), *more])
        (work / "blind").write_bytes(script.whole())
        if (what == "nothing") != (not drivers.script_faults(program, script, work / "blind", name_of)):
            found.append(f"the driver does not see {what} that is wrong")
    return found


def main():
    archive = pathlib.Path(sys.argv[1]).resolve() if len(sys.argv) > 1 else ROOT / "target" / "staticlib" / "libqueue.a"
    stop([] if archive.is_file() else [f"there is no {archive.name}: `bash tests/archives queue` writes it"])
    stop([] if shutil.which(COMPILER[0]) else [f"{COMPILER[0]} is missing"])
    stop([f"the model: {line}" for line in edges.faults()])
    scripts = [sound_script(), unsound_script(), bit_script()]
    calls = sum(len(script.lines) for script in scripts)
    stop(missing(scripts) + ([f"{calls} calls, fewer than {FEWEST_CALLS}"] if calls < FEWEST_CALLS else []))
    stop(drivers.symbol_faults(archive, set(CALLS)))
    with tempfile.TemporaryDirectory() as folder:
        work = pathlib.Path(folder)
        program = drivers.compiled(work, [ROOT / "tests" / "lent" / "calls.c"], "calls", archive)
        for script in scripts:
            path = work / script.name
            path.write_bytes(script.whole())
            stop(drivers.script_faults(program, script, path, name_of))
        stop(blind(work, program))
    say(f"{archive.name}, from C: {calls:,} calls on lent queues, answers and memory are the model's")


main()
