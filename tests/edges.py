"""The model held to documents 01 and 02: the worked example, every point on the edge, and each refusal and each rule of soundness at least once.

What is due here was worked out from the documents by hand."""
import sys

import cases
import model
from model import DEFERRABLE, EMPTY, FILLER, IDLING, NONE, ON_ARRIVAL, PERIODIC, POLLING, Message, Refusal, Row, Server, Table, Task

F = FILLER
FULL = 65_535
WORKED = bytes.fromhex("0032 01 02 02 01 00000004 00000002 00 00000003 00000000 00000000 01 01 00000005 00000002 01 00000001 00000005 00000000")
WORKED_INPUT = WORKED + bytes.fromhex("0006 01 02 00 00  0006 01 01 0008")
WORKED_OUTPUT = b"tick server task\n0 0 0\n1 0 0\n2 1 0\n3 1 -\n4 0 0\n5 1 0\n6 1 -\n7 - -\nend 8\n"


def row(*used):
    return Row(tuple(used) + ((0, 0),) * (32 - len(used)), len(used))


def after(*events):
    """The row after inserts into an empty queue."""
    queue = EMPTY
    for id, delay in events:
        queue = model.insert(queue, id, delay)[1]
    return queue


def server(kind, P, C, *tasks):
    return Server(kind, len(tasks), P, C, model.filled(tasks, model.ZERO_TASK))


def table(*servers):
    return Table(len(servers), model.filled(servers, model.ZERO_SERVER))


WORKED_TABLE = table(server(DEFERRABLE, 4, 2, Task(ON_ARRIVAL, 3, 0, 0)), server(IDLING, 5, 2, Task(PERIODIC, 1, 5, 0)))
# The same with server 0 polling.
POLLED_TABLE = table(server(POLLING, 4, 2, Task(ON_ARRIVAL, 3, 0, 0)), server(IDLING, 5, 2, Task(PERIODIC, 1, 5, 0)))


TOP_TABLE = table(*[server(IDLING, 1_000_000, 1_000_000, *[Task(PERIODIC, 1_000_000, 1_000_000, 1_000_000)] * 8)] * 8)


def same(what, found, due):
    return [] if found == due else [f"{what}: {found} and not {due}"]


def refusal(what, answer, number, *rest, place=0):
    """The whole answer of a refused call."""
    return same(what, tuple(answer), (Refusal(number, place), *rest))


def queue_points():
    three = after((1, 65_536), (2, 70_000), (3, 70_000))
    zeros = [(id, 0) for id in range(17)]
    longest = after(*zeros[:16], (16, 1_000_000))
    return [
        *same("65,535", after((7, 65_535)), row((7, FULL))),
        *same("65,536", after((7, 65_536)), row((F, 1), (7, FULL))),
        *same("131,070", after((7, 131_070)), row((F, FULL), (7, FULL))),
        *same("131,071", after((7, 131_071)), row((F, 1), (F, FULL), (7, FULL))),
        *same("1,000,000", after((7, 1_000_000)), row((F, 16_975), *[(F, FULL)] * 14, (7, FULL))),
        *same("1 at 65,536, then 2 and 3 at 70,000", three, row((F, 1), (1, FULL), (2, 4_464), (3, 0))),
        *same("remove 1", model.remove(three, 1), (NONE, row((F, 4_465), (2, FULL), (3, 0)))),
        *same("clock on filler 1, event 65,535", model.clock(row((F, 1), (7, FULL))), (NONE, row((7, FULL)))),
        *same("push back gives the filler again", model.push_back(row((7, FULL))), (NONE, row((F, 1), (7, FULL)))),
        *same("16 events at 0, then one at 1,000,000", longest.count, 32),
        *refusal("17 events at 0, then one at 1,000,000", model.insert(after(*zeros), 17, 1_000_000), 25, after(*zeros)),
        *same("behind those that are due at the same time", model.meaning(after((1, 5), (2, 3), (3, 5), (4, 3))), [(2, 3), (4, 3), (1, 5), (3, 5)]),
        *same("an event between others' fillers", after((1, 1_000_000), (2, 500_000)),
              row((F, 41_255), *[(F, FULL)] * 6, (2, FULL), (F, 41_255), *[(F, FULL)] * 6, (1, FULL))),
        *same("time left", model.time_left(three, 3), (NONE, 70_000)),
        *same("take", model.take(after((5, 0), (4, 0), (6, 2))), (NONE, row((4, 0), (6, 2)), 5)),
        *same("an empty queue clocked", model.clock(EMPTY), (NONE, EMPTY)),
        *same("an empty queue pushed back", model.push_back(EMPTY), (NONE, EMPTY)),
        *same("clock and its filler's end, gap by gap", model.clock(after((1, 3), (2, 65_539))), (NONE, row((1, 2), (F, 1), (2, FULL)))),
    ]


def queue_refusals():
    one, far, at_now = after((1, 5)), after((1, 1_000_000)), after((1, 0), (2, 4))
    tight = after(*((id, 0) for id in range(17)), (17, 983_025))
    nearly = after(*((id, FULL) for id in range(16)), (16, 1_000_000))
    return [
        *refusal("22", model.insert(one, 255, 2_000_000), 22, one),
        *refusal("23", model.insert(one, 1, 2_000_000), 23, one),
        *refusal("24", model.insert(one, 2, 1_000_001), 24, one),
        *refusal("25, insert", model.insert(longest_row(), 40, 0), 25, longest_row()),
        *refusal("25, push back", model.push_back(packed_row()), 25, packed_row()),
        *same("no 25, push back: 32 cells stay 32", (tight.count, model.push_back(tight)[0]), (32, NONE)),
        *refusal("26, remove", model.remove(one, 2), 26, one),
        *refusal("26, remove 255", model.remove(far, 255), 26, far),
        *refusal("26, time left", model.time_left(one, 2), 26, 0),
        *refusal("26, time left 255", model.time_left(far, 255), 26, 0),
        *refusal("27", model.clock(at_now), 27, at_now),
        *refusal("28", model.take(one), 28, one, 0),
        *refusal("28, empty", model.take(EMPTY), 28, EMPTY, 0),
        *refusal("29", model.push_back(far), 29, far),
        *refusal("29, and 32 cells would do", model.push_back(nearly), 29, nearly),
        *refusal("25 before 29", model.push_back(packed_far_row()), 25, packed_far_row()),
    ]


def longest_row():
    """32 cells, which take no other event at 0."""
    return after(*((id, 0) for id in range(16)), (16, 1_000_000))


def packed_row():
    """32 cells, the first gap full: a tick further needs a filler more."""
    return after(*((id, FULL) for id in range(32)))


def packed_far_row():
    """32 cells, the first gap full and the last event at 1,000,000."""
    return after(*((id, FULL) for id in range(17)), (17, 1_000_000))


def unsound_rows():
    cell = (0, 0)
    return {
        "a count above 32": Row((cell,) * 32, 33),
        "a filler last": row((F, 1)),
        "a filler last behind an event": row((1, 4), (F, 1)),
        "a filler of 0": row((F, 0), (1, FULL)),
        "a filler that is not needed": row((F, 1), (1, 2)),
        "the remainder last": row((F, FULL), (1, 1)),
        "the remainder in the middle": row((F, FULL), (F, 1), (1, FULL)),
        "an id twice": row((1, 4), (1, 0)),
        "a distance of 1,000,001": row((F, 16_976), *[(F, FULL)] * 14, (1, FULL)),
        "a gap past the last cell": Row(((1, 4), (0, 1)) + (cell,) * 30, 1),
        "an id past the last cell": Row(((1, 4), (9, 0)) + (cell,) * 30, 1),
        "a cell in an empty queue": Row(((1, 4),) + (cell,) * 31, 0),
    }


def queue_soundness():
    found = []
    for name, bad in unsound_rows().items():
        found += same(f"sound: {name}", model.sound_row(bad), False)
        for call, rest in ((model.clock, ()), (model.push_back, ()), (model.take, (0,))):
            found += refusal(f"{call.__name__}: {name}", call(bad), 31, bad, *rest)
        found += refusal(f"insert: {name}", model.insert(bad, 255, 0), 31, bad)
        found += refusal(f"remove: {name}", model.remove(bad, 255), 31, bad)
        found += refusal(f"time left: {name}", model.time_left(bad, 255), 31, 0)
    for good in (EMPTY, longest_row(), packed_row(), row((254, 0), (0, 0)), row((1, FULL), (2, FULL))):
        found += same(f"sound: {good}", model.sound_row(good), True)
    return found


def setup_points():
    buffer = bytes(range(60))
    found = [
        *same("the worked setup read", model.read_setup(WORKED), (NONE, WORKED_TABLE)),
        *same("the worked setup with server 0 polling", model.read_setup(put(4, 3)), (NONE, POLLED_TABLE)),
        *same("and written", model.write_setup(POLLED_TABLE, bytes(50)), (NONE, 50, put(4, 3))),
        *same("the worked setup written", model.write_setup(WORKED_TABLE, buffer), (NONE, 50, WORKED + buffer[50:])),
        *same("the worked setup written to the full", model.write_setup(WORKED_TABLE, bytes(50)), (NONE, 50, WORKED)),
        *refusal("32, setup", model.write_setup(WORKED_TABLE, bytes(49)), 32, 0, bytes(49)),
        *refusal("31 before 32", model.write_setup(model.ZERO_TABLE, b""), 31, 0, b""),
        *same("all at the top", model.read_setup(model.setup_bytes(TOP_TABLE)), (NONE, TOP_TABLE)),
        *same("the longest setup", len(model.setup_bytes(table(*[server(IDLING, 1, 1, *[Task(ON_ARRIVAL, 1, 0, 0)] * 8)] * 8))), 916),
    ]
    for name, given, number, place in refused_setups():
        found += refusal(name, model.read_setup(given), number, model.ZERO_TABLE, place=place)
    return found


def put(at, *new):
    return WORKED[:at] + bytes(new) + WORKED[at + len(new):]


def refused_setups():
    """Name, bytes, number, place. In the worked setup the records start at 4, 14 (task), 27 and 37 (task)."""
    return [
        ("1, no byte", b"", 1, 0), ("1, three bytes", WORKED[:3], 1, 0), ("2, short", WORKED[:49], 2, 0), ("2, long", WORKED + b"\0", 2, 0),
        ("3", put(2, 2), 3, 2), ("4, none", put(3, 0), 4, 3), ("4, nine", put(3, 9), 4, 3),
        ("5, a server", put(1, 36)[:36], 5, 27), ("5, a task", put(1, 49)[:49], 5, 37), ("5, a third server", put(3, 3), 5, 50),
        ("6, 4", put(27, 4), 6, 27), ("6, 0", put(4, 0), 6, 4), ("6, 255", put(27, 255), 6, 27), ("7", put(28, 9), 7, 28), ("8, 0", put(29, 0, 0, 0, 0), 8, 29),
        ("8, 1,000,001", put(29, 0, 0x0F, 0x42, 0x41), 8, 29), ("9, 0", put(36, 0), 9, 33), ("9, above P", put(36, 6), 9, 33), ("10", put(37, 2), 10, 37),
        ("11, 0", put(41, 0), 11, 38), ("11, 1,000,001", put(38, 0, 0x0F, 0x42, 0x41), 11, 38), ("12, T 0", put(45, 0), 12, 42),
        ("12, O 1,000,001", put(46, 0, 0x0F, 0x42, 0x41), 12, 46), ("12, T on arrival", put(22, 1), 12, 19), ("12, O on arrival", put(26, 1), 12, 23),
        ("13", put(1, 51) + b"\0", 13, 50), ("13, one server less", put(3, 1), 13, 27), ("records in file order", put(22, 1)[:27] + put(27, 9)[27:], 12, 19),
        ("6 before 7", put(27, 4, 9), 6, 27), ("7 before 8", put(28, 9, 0, 0, 0, 0), 7, 28), ("8 before 9", put(29, 0, 0, 0, 0, 0, 0, 0, 0), 8, 29),
        ("10 before 11", put(37, 2, 0, 0, 0, 0), 10, 37), ("11 before 12", put(41, 0, 0, 0, 0, 0), 11, 38), ("T before O", put(45, 0, 1, 0, 0, 0), 12, 42),
    ]


def unsound_tables():
    task, periodic = Task(ON_ARRIVAL, 1, 0, 0), Task(PERIODIC, 1, 1, 0)
    good = server(IDLING, 4, 2, task)
    bad = {
        "no server": model.ZERO_TABLE,
        "nine servers": Table(9, (good,) * 8),
        "a server past the count": Table(1, (good, good) + (model.ZERO_SERVER,) * 6),
        "a task past the count": table(good._replace(tasks=(task, task) + (model.ZERO_TASK,) * 6)),
        "nine tasks": table(good._replace(count=9, tasks=(task,) * 8)),
    }
    for kind in (0, 4, 255):
        bad[f"kind {kind}"] = table(good._replace(kind=kind))
    for name, change in (("P 0", {"P": 0}), ("P", {"P": 1_000_001}), ("C 0", {"C": 0}), ("C", {"C": 5})):
        bad[name] = table(good._replace(**change))
    for name, change in (("E 0", {"E": 0}), ("E", {"E": 1_000_001}), ("release", {"release": 2}), ("T on arrival", {"T": 1}), ("O on arrival", {"O": 1})):
        bad[name] = table(server(IDLING, 4, 2, task._replace(**change)))
    for name, change in (("T 0", {"T": 0}), ("T", {"T": 1_000_001}), ("O", {"O": 1_000_001})):
        bad[name] = table(server(IDLING, 4, 2, periodic._replace(**change)))
    return bad


def table_soundness():
    found = same("sound: the worked table", model.sound_table(WORKED_TABLE), True)
    for name, bad in unsound_tables().items():
        found += same(f"sound: {name}", model.sound_table(bad), False)
        found += refusal(f"fresh: {name}", model.fresh(bad), 31, model.zero_state(bad))
        found += refusal(f"write: {name}", model.write_setup(bad, b""), 31, 0, b"")
    return found


def message_points():
    run8, zero = bytes.fromhex("0006 01 01 0008"), Message(1, 0, 0)
    found = [
        *same("run 8", model.read_message(run8 + b"more"), (NONE, Message(1, 0, 8))),
        *same("ticks of the longest run", model.ticks_of(Message(1, 255, 255)), 65_535),
        *same("arrival", model.read_message(bytes.fromhex("0006 01 02 03 fe")), (NONE, Message(2, 3, 254))),
        *same("run 8 written", model.write_message(Message(1, 0, 8), b"12345678"), (NONE, 6, run8 + b"78")),
        *refusal("17 before 32", model.write_message(Message(3, 0, 8), b""), 17, 0, b""),
        *refusal("32, message", model.write_message(Message(2, 0, 8), b"12345"), 32, 0, b"12345"),
    ]
    refused = {"": 14, "00": 14, "0005": 15, "0006": 14, "0006020900": 14, "010601010000": 15, "000602090000": 16, "000601090000": 17, "000601000000": 17}
    for given, number in refused.items():
        found += refusal(f"message {given}", model.read_message(bytes.fromhex(given)), number, zero)
    return found


def state_of(one_table, **changes):
    """The fresh state of a table, with some parts put in place of its own."""
    state = model.fresh(one_table)[1]
    for name, value in changes.items():
        setattr(state, name, value)
    return state


def changed(entries, at, value):
    return [*entries[:at], value, *entries[at + 1:]]


def unsound_states():
    good = model.fresh(WORKED_TABLE)[1]
    zeros = [0] * 8
    bad = {name: model.zero_state(wrong) for name, wrong in unsound_tables().items()}
    changes = {
        "budget above C": {"budgets": [3, 2] + [0] * 6},
        "a budget in an unused entry": {"budgets": [2, 2, 1] + [0] * 5},
        "work above 1,000,000": {"work": changed(good.work, 0, [1_000_001] + [0] * 7)},
        "work in an unused task": {"work": changed(good.work, 0, [0, 1] + [0] * 6)},
        "work in an unused server": {"work": changed(good.work, 7, [1] + [0] * 7)},
        "lost above 65,535": {"lost": changed(good.lost, 0, [65_536] + [0] * 7)},
        "lost in an unused task": {"lost": changed([zeros] * 8, 1, [0, 1] + [0] * 6)},
        "a replenishment missing": {"replenishments": row((0, 4))},
        "a replenishment too many": {"replenishments": row((0, 4), (1, 1), (2, 0))},
        "a replenishment at 0": {"replenishments": row((0, 0), (1, 5))},
        "a replenishment beyond P": {"replenishments": row((0, 5), (1, 0))},
        "replenishments not in normal form": {"replenishments": row((0, 4), (1, 1), (F, 1))},
        "no arrival of a periodic task": {"arrivals": [EMPTY] * 8},
        "an arrival of a task on arrival": {"arrivals": changed(good.arrivals, 0, row((0, 3)))},
        "an arrival at 0": {"arrivals": changed(good.arrivals, 1, row((0, 0)))},
        "an arrival beyond T and O": {"arrivals": changed(good.arrivals, 1, row((0, 6)))},
        "an arrival of an unused server": {"arrivals": changed(good.arrivals, 2, row((0, 1)))},
    }
    # server 0 of POLLED_TABLE has no work in its fresh state, and nor has a server without tasks
    bad["polling, no work, budget 1"] = state_of(POLLED_TABLE, budgets=[1, 2] + [0] * 6)
    bad["polling, no work, budget C"] = state_of(POLLED_TABLE, budgets=[2, 2] + [0] * 6)
    bad["polling, no task, budget 1"] = state_of(table(server(IDLING, 5, 2), server(POLLING, 4, 2)), budgets=[2, 1] + [0] * 6)
    bad["polling, work, budget above C"] = state_of(POLLED_TABLE, budgets=[3, 2] + [0] * 6, work=changed(good.work, 0, [3] + [0] * 7))
    return bad | {name: state_of(WORKED_TABLE, **change) for name, change in changes.items()}


def sound_polling():
    """States with a polling server that are sound: the rule is about budgets without work alone."""
    work = changed(model.fresh(POLLED_TABLE)[1].work, 0, [1] + [0] * 7)
    last = table(server(POLLING, 4, 2, *[Task(ON_ARRIVAL, 1, 0, 0)] * 8))
    return {
        "polling, no work, budget 0": state_of(POLLED_TABLE, budgets=[0, 2] + [0] * 6),
        "polling, work, budget 0": state_of(POLLED_TABLE, budgets=[0, 2] + [0] * 6, work=work),
        "polling, work, budget 1": state_of(POLLED_TABLE, budgets=[1, 2] + [0] * 6, work=work),
        "polling, work, budget C": state_of(POLLED_TABLE, budgets=[2, 2] + [0] * 6, work=work),
        "polling, work in the last task alone, budget C": state_of(last, budgets=[2] + [0] * 7, work=[[0] * 7 + [1]] + [[0] * 8] * 7),
        "deferrable, no work, budget 1": state_of(WORKED_TABLE, budgets=[1, 2] + [0] * 6),
        "idling, no work, budget 1": state_of(POLLED_TABLE, budgets=[0, 1] + [0] * 6, work=[[0] * 8] * 8),
    }


def state_soundness():
    found = []
    for name, bad in unsound_states().items():
        found += same(f"sound: {name}", model.sound_state(bad), False)
        found += refusal(f"tick: {name}", model.tick(bad), 31, bad, model.ZERO_ANSWER)
        found += refusal(f"arrive: {name}", model.arrive(bad, 9, 9), 31, bad, False)
    found += same("sound: full lost counts", model.sound_state(state_of(WORKED_TABLE, lost=[[65_535] + [0] * 7] * 2 + [[0] * 8] * 6)), True)
    found += same("sound: full work", model.sound_state(state_of(WORKED_TABLE, work=[[1_000_000] + [0] * 7] * 2 + [[0] * 8] * 6)), True)
    for name, good in sound_polling().items():
        found += same(f"sound: {name}", (model.sound_state(good), model.tick(good)[0], model.arrive(good, 0, 0)[0]), (True, NONE, NONE))
    late = table(server(IDLING, 1, 1, Task(PERIODIC, 1, 5, 9)))
    found += same("sound: an arrival up to O away", model.sound_state(model.fresh(late)[1]), True)
    return found


def ticks(state, count):
    """So many tick calls: the answers and the state. A refusal stands in place of an answer."""
    answers = []
    for _ in range(count):
        refusal, state, answer = model.tick(state)
        answers.append(refusal if refusal.number else tuple(answer))
    return answers, state


def load(E, work):
    """A state with one task on arrival that has work pending."""
    return state_of(table(server(DEFERRABLE, 1, 1, Task(ON_ARRIVAL, E, 0, 0))), work=[[work] + [0] * 7] + [[0] * 8] * 7)


def scheduler_points():
    state = model.fresh(WORKED_TABLE)[1]
    arrived = model.arrive(state, 0, 0)
    # tick 3 handles the refill at 4, tick 4 the refill and the arrival at 5, tick 7 the refill at 8
    worked = [(0, 0, 0), (0, 0, 0), (1, 0, 0), (1, None, 1), (0, 0, 2), (1, 0, 0), (1, None, 0), (None, None, 1)]
    burning, refilled = ticks(model.fresh(table(server(IDLING, 2, 2)))[1], 5)
    top = model.arrive(load(2, 999_999), 0, 0)
    offsets = table(server(IDLING, 9, 1, Task(PERIODIC, 5, 7, 0), Task(PERIODIC, 6, 7, 9), Task(PERIODIC, 4, 7, 0)))
    return [
        *same("the eight ticks", ticks(arrived[1], 8)[0], worked),
        *same("an arrival is accepted", (arrived[0], arrived[2], arrived[1].work[0][0]), (NONE, False, 3)),
        *same("P 2, C 2, idling: never idle", burning, [(0, None, 0), (0, None, 1), (0, None, 0), (0, None, 1), (0, None, 0)]),
        *same("a refill sets the budget to C and is put in again", (refilled.budgets[0], refilled.replenishments), (1, row((0, 1)))),
        *same("work 999,999 and E 1", model.arrive(load(1, 999_999), 0, 0)[2], False),
        *same("work 999,999 and E 2", (top[0], top[2], top[1].work[0][0], top[1].lost[0][0]), (NONE, True, 999_999, 1)),
        *refusal("18", model.arrive(state, 2, 0), 18, state, False),
        *refusal("19", model.arrive(state, 1, 1), 19, state, False),
        *refusal("20", model.arrive(state, 1, 0), 20, state, False),
        *same("W for server 1", model.W(WORKED_TABLE, 1), 4),
        *same("what server 1 is sure of", model.least(WORKED_TABLE, 1), 1),
        *same("W that is P or more", model.least(table(server(IDLING, 2, 1), server(IDLING, 3, 1), server(IDLING, 4, 1)), 2), None),
        *same("fresh work", model.fresh(offsets)[1].work[0][:3], [5, 0, 4]),
        *same("fresh arrivals", model.fresh(offsets)[1].arrivals[0], row((0, 7), (2, 0), (1, 2))),
        *same("the most cells that eight events need", len(model.cells([(id, 1) for id in range(7)] + [(7, 1_000_000)])), 23),
    ]


def lost_stops():
    """"lost count, which stops at 65,535"; a lost periodic arrival is put in again and handled."""
    one = table(server(DEFERRABLE, 3, 1, Task(PERIODIC, 1_000_000, 2, 1)))
    state = state_of(one, work=[[1] + [0] * 7] + [[0] * 8] * 7, lost=[[65_534] + [0] * 7] + [[0] * 8] * 7)
    # accepted from work 0 on tick 0, lost on ticks 2 and 4; refills on ticks 2 and 5
    answers, state = ticks(state, 6)
    return [
        *same("answers", answers, [(0, 0, 1), (None, None, 0), (None, None, 2), (0, 0, 0), (None, None, 1), (None, None, 1)]),
        *same("work, lost count and queue", (state.work[0][0], state.lost[0][0], state.arrivals[0]), (999_999, 65_535, row((0, 1)))),
    ]


def arrived(one_table, before, server, task):
    """The fresh state after so many ticks and an arrival."""
    return model.arrive(ticks(model.fresh(one_table)[1], before)[1], server, task)[1]


def readings():
    """"Readings to shut out", and what else a tick could be taken for."""
    keeps = table(server(DEFERRABLE, 10, 3, Task(ON_ARRIVAL, 5, 0, 0)))
    first, idle = (0, 0, 0), (None, None, 0)
    ranks = table(server(DEFERRABLE, 9, 9, Task(PERIODIC, 1, 9, 0), Task(PERIODIC, 2, 3, 0), Task(PERIODIC, 1, 3, 0)))
    pair = table(server(IDLING, 2, 1), server(IDLING, 2, 1))
    return [
        *same("a budget that ends on its refill is full", ticks(model.fresh(table(server(IDLING, 1, 1)))[1], 3)[1].budgets[0], 1),
        *same("C is not added to what is left", ticks(model.fresh(keeps)[1], 25)[1].budgets[0], 3),
        *same("a deferrable server keeps its budget", ticks(arrived(keeps, 6, 0, 0), 7)[0], [first, first, first, (None, None, 1), first, first, idle]),
        *same("tasks by rank; two arrivals of one queue on one tick", ticks(model.fresh(ranks)[1], 4)[0], [(0, 0, 0), (0, 1, 0), (0, 1, 2), (0, 1, 0)]),
        *same("two replenishments on one tick", ticks(model.fresh(pair)[1], 4)[0], [(0, None, 0), (1, None, 2), (0, None, 0), (1, None, 2)]),
    ]


def behind(one_table, *steps):
    """What the fresh state and each tick show: the fresh budgets, and a row (server, task, handled, budgets..) for each tick. A step is a number of ticks, or
    an arrival (server, task), which must be accepted and leave the budgets as they are."""
    state, rows = model.fresh(one_table)[1], []
    fresh = state.budgets[:one_table.count]
    for step in steps:
        if isinstance(step, tuple):
            before = list(state.budgets)
            refusal, state, lost = model.arrive(state, *step)
            rows += [] if (refusal, lost, state.budgets) == (NONE, False, before) else [f"an arrival: {refusal}, {lost}, {state.budgets}"]
            continue
        for _ in range(step):
            refusal, state, answer = model.tick(state)
            rows.append(refusal if refusal.number else (*answer, *state.budgets[:one_table.count]))
    return fresh, rows


def polling_points():
    """Document 02's polling servers. A row is a tick: its server and task, the events handled, and the budgets behind it."""
    idle = (None, None, 0, 0)
    at_once, later = (table(server(POLLING, 4, 2, Task(PERIODIC, 1, 4, O))) for O in (0, 4))
    long, short = table(server(POLLING, 5, 3, Task(ON_ARRIVAL, 2, 0, 0))), table(server(POLLING, 4, 2, Task(ON_ARRIVAL, 1, 0, 0)))
    below = table(server(DEFERRABLE, 6, 2, Task(ON_ARRIVAL, 1, 0, 0)), server(POLLING, 3, 2, Task(ON_ARRIVAL, 2, 0, 0)), server(IDLING, 9, 9))
    two = table(server(POLLING, 4, 3, Task(PERIODIC, 1, 8, 0), Task(ON_ARRIVAL, 1, 0, 0)))
    busy = table(server(POLLING, 6, 4, Task(PERIODIC, 2, 2, 0)))
    return [
        # the work that arrives waits for the refill on tick 3; on tick 7 a tick of it is left, so the next refill stays
        *same("A: the worked example", behind(POLLED_TABLE, (0, 0), 8), ([0, 2], [
            (1, 0, 0, 0, 1), (1, None, 0, 0, 0), (None, None, 0, 0, 0), (None, None, 1, 2, 0),
            (0, 0, 2, 1, 2), (0, 0, 0, 0, 2), (1, 0, 0, 0, 1), (1, None, 1, 2, 0)])),
        # fresh work counts; behind tick 0 none is left; tick 3 refills and brings work
        *same("B: O 0", behind(at_once, 5), ([2], [(0, 0, 0, 0), idle, idle, (None, None, 2, 2), (0, 0, 0, 0)])),
        # no fresh work; refill and arrival on tick 3: work is there, so the budget stays
        *same("C: O 4", behind(later, 5), ([0], [idle, idle, idle, (None, None, 2, 2), (0, 0, 0, 0)])),
        # the arrival behind tick 1 waits for the refill; on tick 6 the work ends with a tick of budget left; tick 9 refills without work
        *same("D: an arrival at a lapsed server", behind(long, 2, (0, 0), 8), ([0], [
            idle, idle, idle, idle, (None, None, 1, 3), (0, 0, 0, 2), (0, 0, 0, 0), idle, idle, (None, None, 1, 0)])),
        # on tick 4 the work ends; that of the next arrival waits for the refill on tick 7
        *same("E: work ends, then an arrival", behind(short, 3, (0, 0), 2, (0, 0), 3), ([0], [
            idle, idle, idle, (None, None, 1, 2), (0, 0, 0, 0), idle, idle, (None, None, 1, 2)])),
        # so period 1, ticks 4 to 7, runs 1 tick of the 2 that it would be sure of: its work was not pending at the end of tick 4
        *same("E: what it would be sure of", (model.W(short, 0), model.least(short, 0)), (0, 2)),
        # the deferrable server keeps its budget without work, the polling one below it does not, and the idling one gains and burns
        *same("F: below a deferrable and above an idling server", behind(below, 1, (0, 0), (1, 0), 6), ([2, 0, 9], [
            (2, None, 0, 2, 0, 8), (0, 0, 0, 1, 0, 8), (2, None, 1, 1, 2, 7),
            (1, 0, 0, 1, 1, 7), (1, 0, 0, 1, 0, 7), (2, None, 2, 2, 0, 6), (2, None, 0, 2, 0, 5)])),
        # work of another task holds the budget, and its end lets it go; tick 3 refills without work, tick 7 with
        *same("G: two tasks", behind(two, (0, 1), 8), ([3], [
            (0, 0, 0, 2), (0, 1, 0, 0), idle, (None, None, 1, 0), idle, idle, idle, (None, None, 2, 3)])),
        # tick 1 ends the work and brings more, with no refill: the budget that is left stays
        *same("H: work ends where more arrives", behind(busy, 6), ([4], [
            (0, 0, 0, 3), (0, 0, 1, 2), (0, 0, 0, 1), (0, 0, 1, 0), idle, (None, None, 2, 4)])),
    ]


def lines_of(setup, count):
    """A trace's tick lines from tick calls on rows, each of which looks whether the state is sound."""
    answers = ticks(model.fresh(model.read_setup(setup)[1])[1], count)[0]
    return [f"{k} {model.entry(answer[0])} {model.entry(answer[1])}" for k, answer in enumerate(answers)]


def calls_and_trace():
    found = []
    for name, servers in (("worked", cases.WORKED), ("mixed", cases.MIXED), ("full", cases.FULL), ("polled", cases.POLLED)):
        setup = cases.setup(servers)
        found += same(f"{name}: tick calls and trace", lines_of(setup, 150), model.trace(setup + cases.run(150)).decode().split("\n")[1:-2])
    return found


def trace_points():
    idle = bytes.fromhex("000e 01 01 01 00 00000002 00000002")
    head = b"tick server task\n"
    polled = put(4, 3) + WORKED_INPUT[50:]
    return [
        *same("the worked example", model.trace(WORKED_INPUT), WORKED_OUTPUT),
        *same("the worked example, polling", model.trace(polled), head + b"0 1 0\n1 1 -\n2 - -\n3 - -\n4 0 0\n5 0 0\n6 1 0\n7 1 -\nend 8\n"),
        *same("kind 4", model.trace(put(27, 4) + WORKED_INPUT[50:]), head + b"refused 6 at 27\n"),
        *same("no input", model.trace(b""), head + b"refused 1 at 0\n"),
        *same("one byte", model.trace(b"\0"), head + b"refused 1 at 0\n"),
        *same("a length of 0", model.trace(bytes(2) + WORKED_INPUT[2:]), head + b"refused 1 at 0\n"),
        *same("a cut setup", model.trace(WORKED[:49]), head + b"refused 2 at 0\n"),
        *same("no message", model.trace(WORKED), head + b"end 0\n"),
        *same("a cut message", model.trace(WORKED_INPUT[:-1]), head + b"refused 14 at 56\n"),
        *same("burning", model.trace(idle + bytes.fromhex("000601010003")), head + b"0 0 -\n1 0 -\n2 0 -\nend 3\n"),
        *same("a refused arrival goes on", model.trace(idle + bytes.fromhex("000601020100 000601010001")), head + b"refused 18 at 14\n0 0 -\nend 1\n"),
        *same("a wrong message stops", model.trace(idle + bytes.fromhex("000601010001 000601030100 000601010001")), head + b"0 0 -\nrefused 17 at 20\n"),
        *same("21 beyond 1,000,000 ticks", model.message_refusal(bytes.fromhex("000601010002"), 999_999)[0], 21),
        *same("1,000,000 ticks", model.message_refusal(bytes.fromhex("000601010001"), 999_999)[0], 0),
        *same("run 0 at 1,000,000 ticks", model.message_refusal(bytes.fromhex("000601010000"), 1_000_000)[0], 0),
    ]


GROUPS = (queue_points, queue_refusals, queue_soundness, setup_points, table_soundness, message_points, state_soundness, scheduler_points, lost_stops)
GROUPS += (readings, polling_points, calls_and_trace, trace_points)


def faults():
    """What is wrong with the model, as lines of text."""
    return [f"{group.__name__}: {line}" for group in GROUPS for line in group()]


if __name__ == "__main__":
    wrong = faults()
    print("\n".join(wrong) or "the model and the documents' points agree")
    sys.exit(1 if wrong else 0)
