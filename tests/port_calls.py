"""Scripts of calls on the archive, with what the model says that each call answers and what all lent memory holds behind it. They are the same in every run.

A script is words of 32 bits, little-endian. First the size of the arena, the memory in which all lent memory lies. Then, until a 0:
    1, a place in the arena, a number of bytes, the bytes     the caller puts them there
    2, the call, five arguments, the number and the place of the refusal that is due, how many changes are due, and each change: a place, a number, the bytes
Bytes are filled up with zeros to whole words. An argument that is a pointer is a place in the arena. At first a byte of the arena is its place times 37 plus
11, modulo 256. tests/port/calls.c (by tests/script.h) and tests/port/rust run a script: behind each call the whole arena must be as the script says."""
import collections
import dataclasses
import random
import struct

import cases
import model
import words

CALLS = ("queue_empty", "queue_sound", "queue_insert", "queue_remove", "queue_time_left", "queue_clock", "queue_take", "queue_push_back",
         "fresh", "sound", "tick", "arrive", "budget", "load", "setup_read", "setup_write", "message_read", "message_write")
SETUP_REFUSALS = tuple(range(1, 14))
# Every refusal of every call. On a sound state a tick is never refused with 30: no row needs more than 32 cells.
REFUSALS = {
    "queue_insert": (31, 22, 23, 24, 25), "queue_remove": (31, 26), "queue_time_left": (31, 26), "queue_clock": (31, 27), "queue_take": (31, 28),
    "queue_push_back": (31, 25, 29), "fresh": SETUP_REFUSALS, "tick": (31,), "arrive": (31, 18, 19, 20), "budget": (31, 18), "load": (31, 18, 19),
    "setup_read": SETUP_REFUSALS, "setup_write": (31, 32), "message_read": (14, 15, 16, 17), "message_write": (17, 32)}
SEED = 20_240_917
TOP = 2 ** 32 - 1
EDGES = (0, 1, 2, 3, 65_534, 65_535, 65_536, 65_537, 131_069, 131_070, 131_071, 131_072, 999_998, 999_999, 1_000_000)


# SCRIPTS

def packed(values):
    return struct.pack(f"<{len(values)}I", *values)


class Script:
    """The words of a script, a line for each of its calls, and what its calls reach."""

    def __init__(self, name, size, calls=CALLS):
        self.name, self.size, self.calls = name, size, calls
        self.out = bytearray(packed([size]))
        self.lines = []
        self.reached = collections.Counter()  # (call, refusal, clause)
        self.group = ""

    def block(self, at, data):
        self.out += packed([at, len(data)]) + data + bytes(-len(data) % 4)

    def put(self, at, data):
        self.out += packed([1])
        self.block(at, data)

    def call(self, name, arguments, refusal, changes, clause=""):
        """`changes` are (place, bytes) of memory that is then another."""
        filled = list(arguments) + [0] * (5 - len(arguments))
        self.out += packed([2, self.calls.index(name), *filled, refusal.number, refusal.place, len(changes)])
        for at, data in changes:
            self.block(at, data)
        self.lines.append(f"{self.group}: {name}{tuple(arguments)}" + (f", {clause}" if clause else ""))
        self.reached[name, refusal.number, clause] += 1

    def whole(self):
        return bytes(self.out) + packed([0])


def word_changes(at, before, after):
    """The words that differ, or the whole where many do."""
    differ = [k for k, (a, b) in enumerate(zip(before, after)) if a != b]
    if len(differ) > 40:
        return [(at, packed(after))]
    return [(at + 4 * k, packed([after[k]])) for k in differ]


def stored(at, refusal, values):
    """What an answer's memory at `at` becomes: these words, or nothing new where the call is refused."""
    return [] if refusal.number else [(at, packed(values))]


def lay(chance, size, parts):
    """Places in an arena of `size` bytes for parts (bytes, alignment) in any order, with some bytes about each; the last often ends where the arena ends."""
    order = list(range(len(parts)))
    chance.shuffle(order)
    places, end = [0] * len(parts), size - chance.choice((0, 0, 1, 4, 7))
    for k in order:
        length, alignment = parts[k]
        places[k] = (end - length) // alignment * alignment
        end = places[k] - chance.randint(4, 24)
    assert end >= 4
    return places


# QUEUES

class Queue:
    """A queue in a script, its answers' memory, and the calls on it."""
    ARENA = 1_024

    def __init__(self, script, chance):
        self.script, self.chance = script, chance
        self.at, self.number, self.id = lay(chance, script.size, [(4 * words.QUEUE, 4), (16, 4), (1, 1)])
        self.words = None

    def hold(self, values):
        self.words = list(values)
        self.script.put(self.at, packed(self.words))

    def soil(self):
        """Some bytes in the answers' memory, so that a store of any value is seen."""
        self.script.put(self.number, self.chance.randbytes(16))
        self.script.put(self.id, self.chance.randbytes(1))

    def changed(self, name, arguments, refusal, row, more=(), clause=""):
        after = self.words if refusal.number else words.row_words(row)
        self.script.call(name, arguments, refusal, word_changes(self.at, self.words, after) + list(more), clause)
        self.words = after

    def empty(self):
        self.changed("queue_empty", [self.at], model.NONE, model.EMPTY)

    def sound(self, clause=""):
        """The answer is 0 or 1 where another call answers a refusal's number."""
        says = int(model.sound_row(words.row(self.words)))
        self.script.call("queue_sound", [self.at], model.refused(says), [], clause)

    def insert(self, id, delay, clause=""):
        self.changed("queue_insert", [self.at, id, delay], *model.insert(words.row(self.words), id, delay), (), clause)

    def remove(self, id, clause=""):
        self.changed("queue_remove", [self.at, id], *model.remove(words.row(self.words), id), (), clause)

    def time_left(self, id, clause=""):
        refusal, distance = model.time_left(words.row(self.words), id)
        self.script.call("queue_time_left", [self.at, id, self.number], refusal, stored(self.number, refusal, [distance]), clause)

    def clock(self, clause=""):
        self.changed("queue_clock", [self.at], *model.clock(words.row(self.words)), (), clause)

    def take(self, clause=""):
        refusal, row, id = model.take(words.row(self.words))
        more = [] if refusal.number else [(self.id, bytes([id]))]
        self.changed("queue_take", [self.at, self.id], refusal, row, more, clause)

    def push_back(self, clause=""):
        self.changed("queue_push_back", [self.at], *model.push_back(words.row(self.words)), (), clause)

    def some_id(self):
        """Mostly one that is there."""
        ids = [id for id, _ in model.meaning(words.row(self.words))] if self.words[0] <= model.CELLS else []
        return self.chance.choice(ids) if ids and self.chance.random() < 0.6 else self.chance.choice((0, 1, 2, 7, 100, 254, 255, self.chance.randrange(256)))

    def some_delay(self):
        chance = self.chance
        return chance.choice((0, chance.choice(EDGES), chance.randint(0, 30), chance.randint(0, 1_000_000), chance.choice((1_000_001, TOP, 65_536 * 65_535))))

    def any_call(self):
        kind = self.chance.choice(("insert", "insert", "insert", "remove", "time_left", "clock", "clock", "take", "push_back", "sound"))
        if kind == "insert":
            self.insert(self.some_id(), self.some_delay())
        elif kind in ("remove", "time_left"):
            getattr(self, kind)(self.some_id())
        else:
            getattr(self, kind)()

    def every_call(self, clause):
        """Each call once on what is held, with arguments that a sound queue would mostly take."""
        for id, delay in ((self.some_id(), 5), (255, 2_000_000)):
            self.insert(id, delay, clause)
        self.remove(self.some_id(), clause)
        self.time_left(self.some_id(), clause)
        for kind in (self.clock, self.take, self.push_back, self.sound):
            kind(clause)


def random_events(chance, most):
    """Events of a sound row."""
    events = []
    spread = chance.choice((3, 50, 70_000, 300_000, 1_000_000))
    for _ in range(chance.randint(0, most)):
        id = chance.choice((chance.randrange(12), chance.randrange(255)))
        more = model.inserted(events, id, chance.choice((chance.randint(0, spread), chance.choice(EDGES))))
        if not model.has(events, id) and len(model.cells(more)) <= model.CELLS:
            events = more
    return events


# Rows near a limit: full of events, full of fillers, the first gap full, the last event farthest away.
FULL_ROWS = (
    [(id, 0) for id in range(32)],
    [(id, 5 * id) for id in range(32)],
    [(id, 0) for id in range(31)],
    [(id, 0) for id in range(16)] + [(200, 1_000_000)],
    [(id, 0) for id in range(15)] + [(200, 1_000_000)],
    [(id, 65_535) for id in range(32)],
    [(id, 65_535) for id in range(31)],
    [(id, 65_535) for id in range(17)] + [(90, 1_000_000)],
    [(id, 65_535) for id in range(16)] + [(90, 1_000_000)],
    [(id, 131_070) for id in range(31)],
    [(id, 131_070) for id in range(30)],
    [(id, 1_000_000) for id in range(17)],
    [(0, 1_000_000)],
    [(0, 999_999), (1, 1_000_000)],
    [(0, 0), (1, 1_000_000)],
    [(id, 65_536 * (id + 1)) for id in range(15)],
)


def with_word(values, k, word):
    return values[:k] + [word] + values[k + 1:]


def broken_rows(chance):
    """(clause, words): each clause of a sound queue broken, and as far as can be only that one."""
    two = model.row_of([(3, 7), (9, 70_000)])  # 3 at 7; a filler; 9
    full, far = words.row_words(model.row_of(FULL_ROWS[0])), words.row_words(model.row_of([(4, 200_000)]))
    plain = words.row_words(two)
    event, filler, last = plain[1], plain[2], plain[3]
    yield "count above 32", with_word(full, 0, 33)
    yield "count above 32", with_word(words.row_words(model.EMPTY), 0, chance.choice((64, 256, 65_536, 2 ** 31, TOP)))
    yield "count 2 to the 32 less 1", with_word(plain, 0, TOP)
    yield "count below the cells", with_word(plain, 0, 1)
    yield "count above the cells, an event of id 0 among them", with_word(words.row_words(model.row_of([(0, 7), (9, 70_000)])), 0, 4)
    yield "a cell above 24 bits", with_word(plain, 1, event + 2 ** 24)
    yield "a cell above 24 bits", with_word(plain, 3, last + 2 ** chance.randint(24, 31))
    yield "a filler above 24 bits", with_word(plain, 2, filler + 2 ** 24)
    yield "a word above 24 bits past the last cell", with_word(plain, chance.randint(4, 32), 2 ** chance.randint(24, 31))
    yield "a filler of gap 0", with_word(plain, 2, 255 * 65_536)
    yield "a filler last", with_word(with_word(plain, 0, 4), 4, 255 * 65_536 + chance.choice((1, 65_535)))
    yield "a filler alone", [1, 255 * 65_536 + 1] + [0] * 31
    yield "the remainder in the last cell", with_word(with_word(plain, 2, 255 * 65_536 + 65_535), 3, 9 * 65_536 + 4_458)
    yield "an event behind a filler whose gap is not full", with_word(plain, 3, last - 1)
    yield "a second filler whose gap is not full", with_word(far, 2, 255 * 65_536 + chance.choice((1, 65_534)))
    yield "two events of one id", with_word(plain, 3, 3 * 65_536 + 65_535)
    yield "two events of one id", with_word(full, chance.randint(2, 32), full[1])
    yield "an id that is the filler's", with_word(full, chance.randint(1, 32), 255 * 65_536)
    for distance in (1_000_001, 2 ** 20, 2 ** 20 + 7, 17 * 65_535, 2 ** 20 + 2 ** 16, 31 * 65_535):
        yield "a distance above 1,000,000", words.row_words(model.row_of([(0, 3), (4, distance)]))
    yield "a distance above 1,000,000", words.row_words(model.row_of([(id, 65_535 * (id + 1)) for id in range(32)]))
    yield "past the last cell not zero", with_word(plain, 4, chance.choice((1, 65_536, 255 * 65_536)))
    yield "past the last cell not zero", with_word(plain, 32, chance.choice((1, 65_536, 16_777_215)))
    yield "an empty queue whose first cell is not zero", [0, 1] + [0] * 31


def flipped(values, chance, count):
    """Some words changed in one bit or to a value of some interest."""
    values = list(values)
    for _ in range(count):
        k = chance.randrange(len(values))
        near = (values[k] + 1) % 2 ** 32, (values[k] - 1) % 2 ** 32
        values[k] = chance.choice((values[k] ^ 1 << chance.randrange(32), 0, 1, TOP, *near, chance.choice(EDGES)))
    return values


def queue_sequence(script, chance, events, count):
    queue = Queue(script, chance)
    queue.soil()
    if events is None:
        queue.hold(chance.choices(range(2 ** 32), k=words.QUEUE))
        queue.empty()
    else:
        queue.hold(words.row_words(model.row_of(events)))
    for _ in range(count):
        queue.any_call()
        if chance.random() < 0.04:
            held = queue.words
            queue.soil()
            queue.hold(flipped(held, chance, chance.choice((1, 1, 2, 3))))
            queue.every_call("flipped")
            queue.hold(held)


def queues():
    script, chance = Script("queues", Queue.ARENA), random.Random(SEED)
    for events in FULL_ROWS:
        script.group = f"a row of {len(model.cells(events))} cells"
        for count in (2, 10, 40):
            queue_sequence(script, chance, events, count)
    for k in range(6):
        for clause, values in broken_rows(chance):
            script.group = f"broken rows {k}"
            queue = Queue(script, chance)
            queue.soil()
            queue.hold(values)
            assert not model.sound_row(words.row(values)), clause
            queue.every_call(clause)
    for k in range(250):
        script.group = f"random queue {k}"
        queue_sequence(script, chance, None if k % 3 == 0 else random_events(chance, chance.choice((2, 8, 32))), chance.choice((1, 5, 20, 60)))
    for k in range(3):
        script.group = f"long random queue {k}"
        queue_sequence(script, chance, None, 2_500)
    return script


# STATES

class State:
    """A state in a script, its answers' memory, and the calls on it."""
    ARENA = 6_144

    def __init__(self, script, chance):
        self.script, self.chance = script, chance
        self.at, self.answer, self.bytes = lay(chance, script.size, [(4 * words.STATE, 4), (16, 4), (1_024, 1)])
        self.words = None

    def hold(self, values):
        self.words = list(values)
        self.script.put(self.at, packed(self.words))

    def soil(self):
        self.script.put(self.answer, self.chance.randbytes(16))

    def changed(self, name, arguments, refusal, state, answer, clause):
        after = self.words if refusal.number else words.state_words(state)
        self.script.call(name, arguments, refusal, word_changes(self.at, self.words, after) + stored(self.answer, refusal, answer), clause)
        self.words = after

    def fresh(self, setup, clause=""):
        """The setup lies so that its last byte is the last of its memory."""
        at = self.bytes + 1_024 - len(setup)
        self.script.put(at, setup)
        refusal, table = model.read_setup(setup)
        after = self.words if refusal.number else words.state_words(model.fresh(table)[1])
        self.script.call("fresh", [self.at, at, len(setup)], refusal, word_changes(self.at, self.words, after), clause)
        self.words = after

    def sound(self, clause=""):
        says = int(model.sound_state(words.state(self.words)))
        self.script.call("sound", [self.at], model.refused(says), [], clause)

    def tick(self, clause=""):
        refusal, state, answer = model.tick(words.state(self.words))
        self.changed("tick", [self.at, self.answer], refusal, state, words.answer_words(answer), clause)

    def arrive(self, server, task, clause=""):
        refusal, state, lost = model.arrive(words.state(self.words), server, task)
        self.changed("arrive", [self.at, server, task, self.answer], refusal, state, [int(lost)], clause)

    def budget(self, server, clause=""):
        state = words.state(self.words)
        refusal = model.first_refusal(reading_checks(state, server))
        value = 0 if refusal.number else state.budgets[server]
        self.script.call("budget", [self.at, server, self.answer], refusal, stored(self.answer, refusal, [value]), clause)

    def load(self, server, task, clause=""):
        state = words.state(self.words)
        refusal = model.first_refusal(reading_checks(state, server, task))
        value = [0, 0] if refusal.number else [state.work[server][task], state.lost[server][task]]
        self.script.call("load", [self.at, server, task, self.answer], refusal, stored(self.answer, refusal, value), clause)

    def some_task(self):
        """A server and a task, mostly there, and often one that takes an arrival."""
        table, chance = words.table(self.words), self.chance
        takes = [(i, j) for i in range(min(table.count, 8)) for j in range(min(table.servers[i].count, 8)) if table.servers[i].tasks[j].release == 0]
        if takes and chance.random() < 0.6:
            return chance.choice(takes)
        return chance.choice((0, 1, 2, 7, 8, 255, chance.randrange(256))), chance.choice((0, 1, 2, 7, 8, 255, chance.randrange(256)))

    def any_call(self):
        kind = self.chance.choice(("tick",) * 7 + ("arrive", "arrive", "budget", "load"))
        if kind == "tick":
            self.tick()
        elif kind == "budget":
            self.budget(self.some_task()[0])
        else:
            getattr(self, kind)(*self.some_task())

    def every_call(self, clause):
        """Each call once on what is held."""
        self.sound(clause)
        self.tick(clause)
        self.arrive(*self.some_task(), clause)
        self.budget(self.some_task()[0], clause)
        self.load(*self.some_task(), clause)


def reading_checks(state, server, task=None):
    """Reading a budget or a load: 31, no such server, no such task."""
    yield not model.sound_state(state), 31, 0
    yield server >= state.table.count, 18, 0
    if task is not None:
        yield task >= state.table.servers[server].count, 19, 0


def with_server(table, i, **fields):
    """The table with some fields of a server put another way; `task` (j, fields) is a task's."""
    server = table.servers[i]
    if "task" in fields:
        j, more = fields.pop("task")
        fields["tasks"] = server.tasks[:j] + (server.tasks[j]._replace(**more),) + server.tasks[j + 1:]
    return table._replace(servers=table.servers[:i] + (server._replace(**fields),) + table.servers[i + 1:])


# Three servers: on arrival, periodic near and far, and no task; four servers and most tasks are unused.
BROKEN_BASE = [cases.deferrable(40, 12, cases.on_arrival(4), cases.periodic(2, 30, 9), cases.periodic(3, 70_000, 200_000)), cases.idling(9, 3),
               cases.idling(80_000, 80_000, cases.periodic(5, 65_536), cases.on_arrival(7))]


def broken_tables(chance, base):
    """(clause, table): each clause of a sound table broken, and only that one."""
    any_high = chance.choice((256, 257, 65_537, 2 ** 31, TOP))
    for count in (0, 9, 255, 256, 257, TOP):
        yield "server count", base._replace(count=count)
    yield "server count below the servers", base._replace(count=2)
    yield "server count above the servers", base._replace(count=4)
    for kind in (0, 4, 255, 256, 257, 258, 259, any_high):
        yield "kind", with_server(base, chance.randrange(3), kind=kind)
    for count in (9, 255, 256, 257, TOP):
        yield "task count", with_server(base, chance.randrange(3), count=count)
    yield "task count below the tasks", with_server(base, 0, count=2)
    yield "task count above the tasks", with_server(base, 1, count=1)
    yield "P 0", with_server(base, 1, P=0)
    for P in (1_000_001, TOP):
        yield "P above 1,000,000", with_server(base, 2, P=P)
    yield "C 0", with_server(base, 2, C=0)
    for C in (41, 1_000_001, TOP):
        yield "C above P", with_server(base, 0, C=C)
    for release in (2, 256, 257, any_high):
        yield "release", with_server(base, 0, task=(chance.choice((0, 1, 2)), {"release": release}))
    yield "E 0", with_server(base, 0, task=(chance.choice((0, 1)), {"E": 0}))
    for E in (1_000_001, TOP):
        yield "E above 1,000,000", with_server(base, 2, task=(chance.choice((0, 1)), {"E": E}))
    yield "T 0", with_server(base, 0, task=(1, {"T": 0}))
    for T in (1_000_001, TOP):
        yield "T above 1,000,000", with_server(base, 0, task=(2, {"T": T}))
        yield "O above 1,000,000", with_server(base, 2, task=(0, {"O": T}))
    yield "on arrival with a T", with_server(base, 0, task=(0, {"T": 1}))
    yield "on arrival with an O", with_server(base, 2, task=(1, {"O": chance.choice((1, TOP))}))
    yield "periodic without a T", with_server(base, 0, task=(0, {"release": 1}))
    for field in ("release", "E", "T", "O"):
        yield f"{field} of an unused task", with_server(base, 1, task=(chance.choice((0, 7)), {field: chance.choice((1, 2, TOP))}))
        yield f"{field} of an unused server's task", with_server(base, chance.choice((3, 7)), task=(chance.choice((0, 7)), {field: 1}))
    for field in ("kind", "count", "P", "C"):
        yield f"{field} of an unused server", with_server(base, chance.choice((3, 7)), **{field: chance.choice((1, 2, 3, TOP))})


def at(values, i, value):
    return values[:i] + [value] + values[i + 1:]


def with_events(state, i, events):
    """The state with other arrivals of a server."""
    return dataclasses.replace(state, arrivals=at(state.arrivals, i, model.row_of(events)))


def with_load(state, field, i, j, value):
    """The state with another pending work or lost count."""
    rows = getattr(state, field)
    return dataclasses.replace(state, **{field: at(rows, i, at(rows[i], j, value))})


def broken_refills(state):
    """The refills of BROKEN_BASE's servers; each is at most P away."""
    own = model.meaning(state.replenishments)
    some = {
        "a refill missing": own[1:], "no refill": [], "a refill of no server": model.inserted(own, 3, 5), "a refill of id 8": model.inserted(own, 8, 5),
        "a refill of id 254": model.inserted(own, 254, 5), "a refill of id 8 for another": model.inserted(model.removed(own, 1), 8, 5),
        "a refill of no server for another": model.inserted(model.removed(own, 0), 3, 5), "a refill due": model.inserted(model.removed(own, 0), 0, 0),
        "a refill farther than P": model.inserted(model.removed(own, 1), 1, 10),
        "a refill far farther than P": model.inserted(model.removed(own, 0), 0, 1_000_000)}
    for clause, events in some.items():
        yield clause, dataclasses.replace(state, replenishments=model.row_of(events))


def broken_arrivals(state):
    own, last = model.meaning(state.arrivals[0]), model.meaning(state.arrivals[2])
    yield "an arrival missing", with_events(state, 0, model.removed(own, 1))
    yield "no arrival", with_events(state, 2, [])
    yield "an arrival of a task on arrival", with_events(state, 0, model.inserted(own, 0, 5))
    yield "an arrival of no task", with_events(state, 0, model.inserted(own, 3, 5))
    yield "an arrival of id 8", with_events(state, 2, model.inserted(last, 8, 5))
    yield "an arrival of id 8 for another", with_events(state, 0, model.inserted(model.removed(own, 1), 8, 5))
    yield "an arrival of a task on arrival for another", with_events(state, 0, model.inserted(model.removed(own, 2), 0, 5))
    yield "an arrival of a server without tasks", with_events(state, 1, [(0, 5)])
    yield "an arrival of an unused server", with_events(state, 3, [(0, 1)])
    yield "an arrival due", with_events(state, 0, model.inserted(model.removed(own, 1), 1, 0))
    yield "an arrival farther than T and O", with_events(state, 0, model.inserted(model.removed(own, 1), 1, 31))
    yield "an arrival farther than O", with_events(state, 0, model.inserted(model.removed(own, 2), 2, 200_001))
    yield "an arrival farther than T", with_events(state, 2, [(0, 65_537)])


def broken_loads(state):
    for budget, i in ((13, 0), (4, 1), (80_001, 2), (TOP, 1)):
        yield "a budget above C", dataclasses.replace(state, budgets=at(state.budgets, i, budget))
    yield "a budget of an unused server", dataclasses.replace(state, budgets=at(state.budgets, 7, 1))
    for work in (1_000_001, TOP):
        yield "pending work above 1,000,000", with_load(state, "work", 0, 0, work)
    for lost in (65_536, 65_537, TOP):
        yield "a lost count above 65,535", with_load(state, "lost", 2, 1, lost)
    for field in ("work", "lost"):
        yield f"{field} of an unused task", with_load(state, field, 0, 3, 1)
        yield f"{field} of an unused task", with_load(state, field, 2, 7, TOP)
        yield f"{field} of an unused server's task", with_load(state, field, 7, 7, 1)


# Polling servers without fresh work: with tasks of both releases, without tasks, and with eight; between them the other kinds.
POLLING_BASE = [cases.polling(40, 12, cases.on_arrival(4), cases.periodic(2, 30, 9)), cases.deferrable(9, 3, cases.on_arrival(1)), cases.polling(9, 3),
                cases.idling(9, 3), cases.polling(20, 5, *[cases.on_arrival(1)] * 8)]
POLLING_MOST = {0: 12, 2: 3, 4: 5}  # their budgets C


def polling_base():
    return model.fresh(model.read_setup(cases.setup(POLLING_BASE))[1])[1]


def broken_polling(state):
    """Polling servers with a budget and no work; what other servers have, and arrivals that were lost, are no work."""
    busy = with_load(with_load(state, "work", 1, 0, 1), "lost", 0, 0, 1)
    for i, most in POLLING_MOST.items():
        for budget in (1, most):
            yield f"polling, no work of server {i}, a budget", dataclasses.replace(state, budgets=at(state.budgets, i, budget))
            yield f"polling, no work of server {i}, a budget, work elsewhere", dataclasses.replace(busy, budgets=at(state.budgets, i, budget))


def sound_polling(state):
    """(clause, state): polling servers with work and any budget, or with neither."""
    yield "polling, no work, budget 0", state
    for i, j in ((0, 0), (0, 1), (4, 0), (4, 7)):
        for name, budget in (("0", 0), ("1", 1), ("C", POLLING_MOST[i])):
            busy = with_load(state, "work", i, j, 1)
            yield f"polling, work of task {j} of server {i}, budget {name}", dataclasses.replace(busy, budgets=at(state.budgets, i, budget))


def broken_states(chance, state):
    """(clause, words): each clause of a sound state broken, and as far as can be only that one."""
    for clause, table in broken_tables(chance, state.table):
        yield f"table: {clause}", words.state_words(dataclasses.replace(state, table=table))
    for clause, other in (*broken_refills(state), *broken_arrivals(state), *broken_loads(state)):
        yield clause, words.state_words(other)
    whole = words.state_words(state)
    for clause, row in broken_rows(chance):
        first = words.TABLE if chance.random() < 0.3 else words.TABLE + words.QUEUE + words.ENTRY * chance.choice((0, 1, 2, 3, 7)) + 1 + words.LOAD * 8
        yield f"a queue: {clause}", whole[:first] + row + whole[first + words.QUEUE:]


def near_limits(chance, state):
    """The state with a server's budget, work and lost counts at their limits: work to which E can just be added, and to which it just cannot."""
    i = chance.randrange(state.table.count)
    server = state.table.servers[i]
    for j in range(server.count):
        left = model.MOST_WORK - server.tasks[j].E
        state = with_load(state, "work", i, j, chance.choice((0, 1, 999_999, model.MOST_WORK, left, left + 1)))
        state = with_load(state, "lost", i, j, chance.choice((0, 65_534, 65_535)))
    return dataclasses.replace(state, budgets=at(state.budgets, i, chance.choice((0, model.most_budget(server, state.work[i])))))


def nearer(chance, state):
    """Every event somewhere from 1 to where it can be, so that many are due soon."""
    def moved(reach):
        events = []
        for id, most in chance.sample(sorted(reach.items()), len(reach)):
            events = model.inserted(events, id, chance.choice((1, 1, min(2, most), most, chance.randint(1, most))))
        return model.row_of(events)
    arrivals = [moved(model.reach_of_arrivals(server)) for server in state.table.servers]
    return dataclasses.replace(state, replenishments=moved(model.reach_of_replenishments(state.table)), arrivals=arrivals)


def state_sequence(script, chance, setup, count):
    held = State(script, chance)
    held.soil()
    held.hold(chance.choices(range(2 ** 32), k=words.STATE))
    held.fresh(setup)
    kind = chance.choice(("fresh", "near limits", "nearer", "both"))
    state = words.state(held.words)
    if kind in ("near limits", "both"):
        state = near_limits(chance, state)
    if kind in ("nearer", "both"):
        state = nearer(chance, state)
    held.hold(words.state_words(state))
    held.sound()
    for _ in range(count):
        held.any_call()
        if chance.random() < 0.02:
            flipped_call(held, chance)


def flipped_call(held, chance):
    before = held.words
    held.soil()
    held.hold(flipped(before, chance, chance.choice((1, 1, 1, 2))))
    held.every_call("flipped")
    held.hold(before)


def polling_states(script, chance):
    """Every call on states that a polling server's budget makes unsound, and on such as are sound, each time as they were."""
    for clause, state in broken_polling(polling_base()):
        held = State(script, chance)
        held.soil()
        held.hold(words.state_words(state))
        assert not model.sound_state(state), clause
        held.every_call(clause)
    for clause, state in sound_polling(polling_base()):
        held = State(script, chance)
        assert model.sound_state(state), clause
        for call, arguments in (("sound", []), ("tick", []), ("arrive", [0, 0]), ("arrive", [4, 7]), ("budget", [0]), ("budget", [4]), ("load", [4, 7])):
            held.soil()
            held.hold(words.state_words(state))
            getattr(held, call)(*arguments, clause)
        for _ in range(45):
            held.tick()


def states():
    script, chance = Script("states", State.ARENA), random.Random(SEED + 1)
    base = model.fresh(model.read_setup(cases.setup(BROKEN_BASE))[1])[1]
    for k in range(3):
        for clause, values in broken_states(chance, base):
            script.group = f"broken states {k}"
            held = State(script, chance)
            held.soil()
            held.hold(values)
            assert not model.sound_state(words.state(values)), clause
            held.every_call(clause)
    script.group = "polling servers"
    polling_states(script, chance)
    shared = (("worked", cases.WORKED), ("mixed", cases.MIXED), ("polled", cases.POLLED), ("full", cases.FULL), ("no tasks", cases.NO_TASKS))
    for name, servers in shared:
        script.group = name
        state_sequence(script, chance, cases.setup(servers), 300)
    for k in range(120):
        script.group = f"random state {k}"
        state_sequence(script, chance, cases.setup(cases.random_setup(chance)), chance.choice((3, 15, 60)))
    for k in range(4):
        script.group = f"long random state {k}"
        state_sequence(script, chance, cases.setup([cases.busy_server(chance) for _ in range(chance.randint(2, 8))]), 700)
    return script


# FILES AND MESSAGES

class Files:
    """A table, bytes and an answer's memory in a script, and the calls on them."""
    ARENA = 81_920
    BYTES = 70_016

    def __init__(self, script, chance):
        self.script, self.chance = script, chance
        parts = [(4 * words.STATE, 4), (4 * words.TABLE, 4), (16, 4), (self.BYTES, 1)]
        self.state, self.at, self.answer, self.bytes = lay(chance, script.size, parts)
        self.words = self.state_words = self.buffer = None

    def hold(self, values):
        self.words = list(values)
        self.script.put(self.at, packed(self.words))

    def hold_state(self):
        self.state_words = self.chance.choices(range(2 ** 32), k=words.STATE)
        self.script.put(self.state, packed(self.state_words))

    def give(self, data):
        """Puts bytes so that the last one is the last of their memory; answers their place."""
        place = self.bytes + self.BYTES - len(data)
        self.script.put(place, data)
        return place

    def setup_read(self, setup, clause=""):
        place = self.give(setup)
        refusal, table = model.read_setup(setup)
        after = self.words if refusal.number else words.table_words(table)
        self.script.call("setup_read", [place, len(setup), self.at], refusal, word_changes(self.at, self.words, after), clause)
        self.words = after

    def fresh(self, setup, clause=""):
        place = self.give(setup)
        refusal, table = model.read_setup(setup)
        after = self.state_words if refusal.number else words.state_words(model.fresh(table)[1])
        self.script.call("fresh", [self.state, place, len(setup)], refusal, word_changes(self.state, self.state_words, after), clause)
        self.state_words = after

    def setup_write(self, length, clause=""):
        before = self.chance.randbytes(length)
        place = self.give(before)
        refusal, count, after = model.write_setup(words.table(self.words), before)
        changes = [(place, after[:count])] if count else []
        self.script.call("setup_write", [self.at, place, length, self.answer], refusal, changes + stored(self.answer, refusal, [count]), clause)

    def message_read(self, data, clause=""):
        place = self.give(data)
        refusal, message = model.read_message(data)
        changes = stored(self.answer, refusal, words.message_words(message))
        self.script.call("message_read", [place, len(data), self.answer], refusal, changes, clause)

    def message_write(self, kind, a, b, length, clause=""):
        before = self.chance.randbytes(length)
        place = self.give(before)
        refusal, count, after = model.write_message(model.Message(kind, a, b), before)
        self.script.call("message_write", [kind, a, b, place, length], refusal, [(place, after[:count])] if count else [], clause)


def damaged_setups(chance):
    """Setups, sound and not: of the trace program's cases the part that is the setup, and the whole input as if all of it were one."""
    found = [*cases.damaged_fields(), *cases.damaged_twice(chance), *cases.damaged_heads(), *cases.said_lengths(), *cases.cut_records(), *cases.cuts(chance)]
    for case in found:
        yield case.name, model.setup_part(case.input)
    for case in chance.sample(found, 60):
        yield f"{case.name}, messages and all", case.input
    for k in range(250):
        data = cases.setup(cases.random_setup(chance))
        yield f"random setup {k}", data
        for _ in range(chance.choice((1, 1, 2))):
            data = cases.mutated(data, chance)
        yield f"random setup {k}, damaged", data
        yield f"random setup {k}, damaged, length right", cases.with_length(data[2:])
    for k in range(60):
        yield f"random bytes {k}", chance.randbytes(chance.choice((0, 1, 2, 3, 4, 5, 14, 30, 200)))


def long_bytes(chance):
    """Longer than any setup, and longer than a length of two bytes can say."""
    for case in cases.long_setups(chance):
        yield case.name, model.setup_part(case.input)
    for length in (65_536, 65_537, 65_536 + 50, 70_000):
        for kind, first in (("zeros", b""), ("the worked example", cases.setup(cases.WORKED)), ("its length modulo 65,536", cases.big(length % 65_536, 2))):
            yield f"{length} bytes: {kind}", (first + bytes(length))[:length]


def write_tables(files, chance):
    """Sound tables into buffers of all interesting lengths; broken ones are refused first."""
    for name, servers in (("worked", cases.WORKED), ("full", cases.FULL), ("mixed", cases.MIXED), ("one", [cases.idling(1, 1)])):
        files.script.group = f"writing {name}"
        own = cases.setup(servers)
        files.hold(words.table_words(model.read_setup(own)[1]))
        for length in sorted({0, 1, 3, 4, len(own) - 13, len(own) - 1, len(own), len(own) + 1, len(own) + 7, 1_000, 65_536}):
            files.setup_write(length)
    for k in range(120):
        files.script.group = f"writing random table {k}"
        own = cases.setup(cases.random_setup(chance))
        files.hold(words.table_words(model.read_setup(own)[1]))
        files.setup_write(len(own) + chance.choice((-1, 0, 0, 0, 1, 40)))
        files.hold(flipped(files.words, chance, chance.choice((1, 1, 2))))
        files.setup_write(chance.choice((0, len(own), 1_000)), "flipped")
    base = model.read_setup(cases.setup(BROKEN_BASE))[1]
    for clause, table in broken_tables(chance, base):
        files.script.group = "writing broken tables"
        assert not model.sound_table(table), clause
        files.hold(words.table_words(table))
        files.setup_write(chance.choice((0, 1_000, 1_000)), f"table: {clause}")


def messages(files, chance):
    files.script.group = "messages"
    good = (cases.run(0), cases.run(8), cases.run(65_535), cases.run(256), cases.arrival(0, 0), cases.arrival(7, 3), cases.arrival(255, 255))
    for message in good:
        for length in range(7):
            files.message_read(message[:length])
        for more in (1, 6, 100, 60_000):
            files.message_read(message + chance.randbytes(more))
        for k in range(6):
            for value in {0, 1, 2, 3, 5, 7, 255, message[k] ^ 128}:
                files.message_read(cases.replaced(message, k, bytes([value])))
                files.message_read(cases.replaced(message, k, bytes([value]))[:chance.randint(1, 6)])
    for _ in range(400):
        files.message_read(chance.choice((bytes([0, 6]), bytes([0, 6, 1]), b"")) + chance.randbytes(chance.randint(0, 9)))
    for kind in (0, 1, 2, 3, 128, 254, 255):
        for length in (0, 1, 5, 6, 7, 100):
            files.message_write(kind, chance.randrange(256), chance.randrange(256), length)
    for _ in range(200):
        files.message_write(chance.choice((1, 2)), chance.randrange(256), chance.randrange(256), chance.choice((6, 6, 7, 40)))


def files():
    script, chance = Script("files", Files.ARENA), random.Random(SEED + 2)
    held = Files(script, chance)
    held.hold(chance.choices(range(2 ** 32), k=words.TABLE))
    held.hold_state()
    for k, (name, setup) in enumerate((*damaged_setups(chance), *long_bytes(chance))):
        script.group = name
        held.setup_read(setup)
        if k % 4 == 0 or len(setup) > 1_000:
            held.fresh(setup)
        if k % 16 == 0:
            held.hold_state()
    script.group = "all setup refusals of fresh"
    for clause, setup in first_of_each(chance):
        held.fresh(setup, clause)
    for _ in range(5):
        held = Files(script, chance)
        held.hold([0] * words.TABLE)
        held.hold_state()
        write_tables(held, chance)
        messages(held, chance)
    return script


def first_of_each(chance):
    """One setup for each refusal."""
    seen = set()
    for name, setup in damaged_setups(chance):
        number = model.read_setup(setup)[0].number
        if number not in seen:
            seen.add(number)
            yield name, setup


# WHAT THE SCRIPTS REACH

QUEUE_CALLS = ("queue_insert", "queue_remove", "queue_time_left", "queue_clock", "queue_take", "queue_push_back")
STATE_CALLS = ("tick", "arrive", "budget", "load")


def clauses():
    """Which calls each clause of a sound queue, table and state must be broken for."""
    chance = random.Random(0)
    base = model.fresh(model.read_setup(cases.setup(BROKEN_BASE))[1])[1]
    due = {clause: QUEUE_CALLS for clause, _ in broken_rows(chance)}
    due.update({clause: STATE_CALLS for clause, _ in (*broken_states(chance, base), *broken_polling(polling_base()))})
    for clause, _ in broken_tables(chance, base.table):
        due[f"table: {clause}"] = STATE_CALLS + ("setup_write",)
    return due


def missing(reached):
    """What no call of the scripts reaches, as lines of text. `reached` counts (call, refusal, clause)."""
    numbers = {(call, number) for call, number, _ in reached}
    found = [f"no {call} is refused with {number}" for call, due in REFUSALS.items() for number in due if (call, number) not in numbers]
    found += [f"no {call} is accepted" for call in CALLS if (call, 0) not in numbers]
    found += [f"no {call} answers true" for call in ("queue_sound", "sound") if (call, 1) not in numbers]
    extra = {(call, number) for call, number in numbers if number and number not in REFUSALS.get(call, (1,))}
    found += [f"{call} is refused with {number}, which is not one of its refusals" for call, number in sorted(extra)]
    sound = [(call, number, clause) for clause, _ in sound_polling(polling_base()) for call, number in (("sound", 1), *((call, 0) for call in STATE_CALLS))]
    found += [f"no {call} is accepted for: {clause}" for call, number, clause in sound if (call, number, clause) not in reached]
    return found + [f"{call} is never refused for: {clause}" for clause, calls in clauses().items() for call in calls if (call, 31, clause) not in reached]


def scripts():
    return [queues(), states(), files()]
