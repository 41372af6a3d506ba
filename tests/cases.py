"""The inputs of the trace program that tests/traces.py runs. The list is the same in every run; long runs stand first.

A server is (kind, P, C, tasks) and a task (release, E, T, O), as a setup file has them. The bytes are made here and not by the model's writers."""
import itertools
import random
from collections import namedtuple

# drip: the input comes in small pieces, so that a read gives fewer bytes than were asked for
Case = namedtuple("Case", "name input drip", defaults=(False,))

SEED = 20_240_601
LONGEST = 1_000_000
LARGEST_GAP = 65_535
TOP = 2 ** 32 - 1


# SETUPS AND MESSAGES AS BYTES

def big(value, size):
    return value.to_bytes(size, "big")


def on_arrival(E):
    return 0, E, 0, 0


def periodic(E, T, O=0):
    return 1, E, T, O


def idling(P, C, *tasks):
    return 1, P, C, tasks


def deferrable(P, C, *tasks):
    return 2, P, C, tasks


def polling(P, C, *tasks):
    return 3, P, C, tasks


def task_bytes(task):
    release, E, T, O = task
    return big(release, 1) + big(E, 4) + big(T, 4) + big(O, 4)


def server_bytes(server):
    kind, P, C, tasks = server
    return big(kind, 1) + big(len(tasks), 1) + big(P, 4) + big(C, 4) + b"".join(task_bytes(task) for task in tasks)


def with_length(rest):
    return big(len(rest) + 2, 2) + rest


def setup(servers):
    return with_length(big(1, 1) + big(len(servers), 1) + b"".join(server_bytes(server) for server in servers))


def run(ticks):
    return bytes([0, 6, 1, 1]) + big(ticks, 2)


def arrival(server, task):
    return bytes([0, 6, 1, 2, server, task])


def runs(ticks):
    """Messages that run so many ticks, the longest first."""
    return run(LARGEST_GAP) * (ticks // LARGEST_GAP) + run(ticks % LARGEST_GAP)


def replaced(data, at, new):
    return data[:at] + new + data[at + len(new):]


# SETUPS THAT SEVERAL CASES USE

WORKED = [deferrable(4, 2, on_arrival(3)), idling(5, 2, periodic(1, 5))]
WORKED_MESSAGES = arrival(0, 0) + run(8)
MIXED = [
    idling(10, 2),
    deferrable(12, 5, periodic(2, 9, 30), on_arrival(4), periodic(1, 1_000_000, 3)),
    idling(100_000, 40, on_arrival(400_000), periodic(3, 20, 1)),
]
NO_TASKS = [idling(7, 3), deferrable(3, 1)]
# A polling server below a deferrable and above an idling one, whose work ends in most periods; and one that gives up its only budget at the start.
POLLED = [
    deferrable(12, 3, on_arrival(2), periodic(1, 9, 4)),
    polling(8, 3, periodic(2, 11), on_arrival(1)),
    idling(20, 6, periodic(4, 25)),
    polling(70_000, 9, periodic(5, 30, 7)),
]


def full_task(i, j):
    """Every third task on arrival; the others periodic, the last two of a server above the largest gap."""
    if (i + j) % 3 == 0:
        return on_arrival(2 + j)
    return periodic(1 + j % 3, 20 + 11 * i + 5 * j if j < 6 else 65_530 + 900 * j, (3 * i + 7 * j) % 40)


def full_server(i):
    """All kinds in turn. The last two servers have periods above the largest gap."""
    make = (idling, deferrable, polling)[i % 3]
    return make(10 + 7 * i if i < 6 else 60_000 + 9_000 * i, 1 + i, *(full_task(i, j) for j in range(8)))


FULL = [full_server(i) for i in range(8)]


# LONG RUNS

def million():
    """1,000,000 ticks and one beyond it: 21. The first also shows that a lost periodic arrival adds nothing and is put in again, and a refill at 999,999."""
    lasting = [idling(999_999, 1), deferrable(1, 1, periodic(700_000, 360_000))]
    small = [deferrable(5, 2, on_arrival(3)), idling(9, 4)]
    yield Case("1,000,000 ticks, lost periodic arrivals, then the end", setup(lasting) + runs(1_000_000))
    at_the_end = run(0) + arrival(0, 0) + arrival(2, 0) + run(0) + run(1) + run(0)
    yield Case("1,000,000 ticks, run 0 and arrivals, then 1 beyond", setup(small) + runs(1_000_000) + at_the_end)
    yield Case("983,025 ticks, then 65,535 more", setup(NO_TASKS) + run(LARGEST_GAP) * 16 + run(1))


def fillers():
    """Periods and offsets above the largest gap: their fillers end, and the events come."""
    near = (65_534, 65_535, 65_536, 65_537, 131_069, 131_070, 131_071, 131_072)
    yield Case("replenishments about the largest gap and twice it", setup([idling(P, 1) for P in near]) + runs(131_200))
    yield Case("offsets about the largest gap and twice it", setup([idling(1, 1, *(periodic(1, LONGEST, O) for O in near))]) + runs(131_200))
    yield Case("periods about the largest gap and twice it", setup([idling(1, 1, *(periodic(1, T) for T in near))]) + runs(131_200))
    at_once = [periodic(1 + j, 70_000, 70_000 - 7_000 * (j % 3)) for j in range(8)]
    yield Case("eight tasks, some due at once at 70,000", setup([deferrable(8, 3, *at_once)]) + runs(70_100))
    mixed = [periodic(1, 3 + j, j) for j in range(4)] + [periodic(20, 66_000 + 300 * j, 65_540 - 2 * j) for j in range(4)]
    yield Case("short periods before long ones", setup([deferrable(2, 1, *mixed), idling(66_666, 5, *mixed)]) + runs(67_000))
    yield Case("eight servers of eight tasks, long periods", setup(FULL) + runs(66_600))
    yield Case("short and long replenishments", setup([deferrable(4, 1, on_arrival(9)), idling(65_536, 2), idling(3, 1), idling(70_001, 70_001)])
               + arrival(0, 0) + runs(70_010))
    yield Case("offset 65,536 above T 2", setup([idling(1, 1, periodic(1, 2, 65_536))]) + runs(65_545))
    yield Case("a budget of 65,537 ends on its refill", setup([idling(65_537, 65_537, periodic(3, 40_000, 65_536)), idling(2, 1)]) + runs(65_550))


def lost_to_the_top():
    """Lost counts that reach 65,535."""
    yield Case("periodic arrivals lost more than 65,535 times", setup([idling(1, 1, periodic(LONGEST, 1), periodic(600_000, 1, 1))]) + runs(65_545))
    yield Case("arrivals by message lost more than 65,535 times, and a refused one behind them",
               setup([deferrable(2, 1, on_arrival(LONGEST))]) + arrival(0, 0) * 65_540 + arrival(0, 1) + run(3) + arrival(0, 0))


def pieces():
    """Input and output about 65,536 bytes, and 10,000 messages, where a program that reads or writes in such pieces begins the next one."""
    for ticks in range(7_401, 7_407):
        yield Case(f"about 65,536 bytes of output: {ticks} ticks", setup(NO_TASKS) + run(ticks))
    for count in range(3_366, 3_370):
        yield Case(f"about 65,536 bytes of output: {count} refused arrivals", setup(NO_TASKS) + arrival(2, 0) * count)
    yield Case("lost, refused and tick lines in turn", setup([deferrable(3, 1, on_arrival(LONGEST))]) + (arrival(0, 0) + arrival(0, 1) + run(1)) * 6_000)
    for size, servers in ((14, [idling(2, 1)]), (24, NO_TASKS), (27, [idling(3, 1, on_arrival(1))]), (34, [idling(3, 1)] * 3),
                          (37, [idling(3, 1), deferrable(2, 1, periodic(1, 3))]), (47, [idling(3, 1, on_arrival(1)), idling(2, 1), idling(1, 1)])):
        yield Case(f"messages across byte 65,536, setup of {size}", setup(servers) + run(0) * 10_900 + arrival(8, 0) * 40 + run(3))
    whole = setup(WORKED) + run(0) * 21_840 + run(2)
    for size in (65_534, 65_535, 65_536, 65_537, 65_540, 131_071, 131_072, 131_073):
        yield Case(f"input of {size} bytes", whole[:size])
    for count in (10_000, 20_000):
        whole = setup(WORKED) + run(0) * (count - 1) + run(2) + run(3)
        for more in (-1, 0, 1, 5):
            yield Case(f"{count} messages and {more} bytes", whole[:len(setup(WORKED)) + len(run(0)) * count + more])


# VALID INPUTS AT THE EDGES

def edges():
    one = [
        ("the worked example", WORKED, WORKED_MESSAGES),
        ("the worked example, 4,000 ticks", WORKED, (arrival(0, 0) + run(100)) * 40),
        ("a setup and no message", WORKED, b""),
        ("run 0 alone", WORKED, run(0)),
        ("run 0 many times", WORKED, run(0) * 20_000 + run(5)),
        ("P 1, C 1, idling", [idling(1, 1)], run(6)),
        ("P 1, C 1, deferrable, no tasks", [deferrable(1, 1)], run(6)),
        ("P 1, C 1, deferrable, on arrival", [deferrable(1, 1, on_arrival(2))], run(2) + arrival(0, 0) + run(4)),
        ("idling, no tasks, P 2, C 2: never idle", [idling(2, 2)], run(20)),
        ("P 2, C 1, idling", [idling(2, 1)], run(9)),
        ("C is P, work without end", [deferrable(3, 3, periodic(LONGEST, LONGEST))], run(30)),
        ("C is P 1,000,000", [idling(LONGEST, LONGEST), idling(1, 1)], run(300)),
        ("C 1 of P 1,000,000", [idling(LONGEST, 1), idling(LONGEST, 1), deferrable(LONGEST, 2, periodic(2, 3))], run(300)),
        ("a deferrable server keeps its budget without work", [deferrable(10, 3, on_arrival(5))], run(6) + arrival(0, 0) + run(20)),
        ("a refill does not add to what is left", [deferrable(5, 2, on_arrival(20))], run(11) + arrival(0, 0) + run(30)),
        ("work ends on the tick of the refill", [deferrable(4, 4, on_arrival(4))], (arrival(0, 0) + run(4)) * 3 + run(2)),
        ("eight servers of P 1", [deferrable(1, 1, periodic(1, 8, j)) for j in range(8)], run(40)),
        ("eight idling servers, budgets in turn", [idling(8, 1)] * 8, run(40)),
        ("eight idling servers that burn, P 9", [idling(9, 1)] * 8, run(40)),
        ("eight tasks of one server by rank", [deferrable(8, 8, *[on_arrival(1 + j) for j in range(8)])],
         b"".join(arrival(0, 7 - j) for j in range(8)) + run(50)),
        ("eight servers of eight tasks", FULL, run(700)),
        ("eight servers of eight tasks on arrival", [deferrable(9, 2, *[on_arrival(2)] * 8)] * 8,
         b"".join(arrival(i, j) + run(3) for i in range(8) for j in range(8)) + run(60)),
        ("eight servers of eight tasks, T 1", [idling(2, 1, *[periodic(1, 1)] * 8)] * 8, run(60)),
        ("eight servers, the last alone with tasks", [deferrable(5, 1)] * 7 + [deferrable(5, 1, periodic(1, 2), on_arrival(1))],
         run(9) + arrival(7, 1) + run(9)),
        ("T 1, O 0", [idling(3, 2, periodic(1, 1))], run(12)),
        ("T 1, O 1", [idling(3, 2, periodic(1, 1, 1))], run(12)),
        ("T 5, O 0 beside T 5, O 5", [deferrable(4, 2, periodic(1, 5), periodic(1, 5, 5))], run(32)),
        ("O above T", [idling(2, 2, periodic(1, 3, 20), periodic(2, 4, 5))], run(60)),
        ("O 1,000,000", [idling(2, 2, periodic(1, 3, LONGEST))], run(60)),
        ("T 1,000,000, O 1", [idling(2, 2, periodic(3, LONGEST, 1))], run(60)),
        ("E 1,000,000 periodic, accepted at the top", [idling(1, 1, periodic(LONGEST, LONGEST, 1))], run(5)),
        ("E 1,000,000 periodic from the start", [idling(3, 2, periodic(LONGEST, 2))], run(40)),
        ("E 1,000,000 on arrival, then lost", [idling(1, 1, on_arrival(LONGEST))], arrival(0, 0) * 3 + run(1) + arrival(0, 0) + run(3)),
        ("E 500,000: the third is lost", [deferrable(2, 1, on_arrival(500_000))], arrival(0, 0) * 3 + run(5) + arrival(0, 0)),
        ("E 500,001: the second is lost", [deferrable(2, 1, on_arrival(500_001))], arrival(0, 0) * 2 + run(5)),
        ("E 333,333: the fourth is lost", [idling(2, 1, on_arrival(333_333))], arrival(0, 0) * 4 + run(5)),
        ("E 999,999: the second is lost", [idling(2, 1, on_arrival(999_999))], arrival(0, 0) * 2 + run(3) + arrival(0, 0)),
        ("E 1,000: 1,000 arrivals, then lost until 1,000 ticks have run", [idling(1, 1, on_arrival(1_000))],
         arrival(0, 0) * 1_001 + run(999) + arrival(0, 0) + run(1) + arrival(0, 0) * 2 + run(2)),
        ("E 1: 3,000 arrivals in a row, then the work ends", [deferrable(3, 2, on_arrival(1))], arrival(0, 0) * 3_000 + run(4_600)),
        ("lost at two tasks of two servers", [deferrable(3, 1, on_arrival(1), on_arrival(700_000)), idling(4, 2, on_arrival(LONGEST))],
         (arrival(0, 1) + arrival(1, 0) + arrival(0, 0)) * 3 + run(9)),
        ("an arrival counts from the next tick", [deferrable(6, 3, on_arrival(1))], (run(1) + arrival(0, 0)) * 9 + run(4)),
        ("an arrival before the first tick and behind the last", [deferrable(6, 3, on_arrival(2))], arrival(0, 0) + run(4) + arrival(0, 0)),
        ("an arrival takes the processor from a lower server", [deferrable(8, 2, on_arrival(2)), idling(2, 2)], run(3) + arrival(0, 0) + run(9)),
        ("a lower server runs while the upper has no budget", [deferrable(9, 2, periodic(5, 9)), deferrable(9, 9, periodic(4, 9))], run(40)),
        ("the longest message", WORKED, run(3) + runs(65_535)),
    ]
    for name, servers, messages in one:
        yield Case(name, setup(servers) + messages)


def deferrable_instead(data):
    """An input with its polling servers deferrable."""
    at = 4
    for _ in range(data[3]):
        if data[at] == 3:
            data = replaced(data, at, big(2, 1))
        at += 10 + 13 * data[at + 1]
    return data


def polled():
    """Polling servers: each of these traces would be another if they were deferrable."""
    one = [
        ("the worked example", [polling(4, 2, on_arrival(3)), idling(5, 2, periodic(1, 5))], WORKED_MESSAGES),
        ("work that arrives before tick 0 waits", [polling(3, 1, on_arrival(1))], arrival(0, 0) + run(5)),
        ("work that arrives between refills waits", [polling(5, 3, on_arrival(2))], run(2) + arrival(0, 0) + run(18)),
        ("work ends, then an arrival", [polling(4, 2, on_arrival(1))], run(3) + arrival(0, 0) + run(2) + arrival(0, 0) + run(7)),
        ("an arrival behind each tick", [polling(6, 4, on_arrival(1)), idling(4, 2)], (run(1) + arrival(0, 0)) * 30 + run(9)),
        ("an arrival just before a refill, and just behind one", [polling(5, 2, on_arrival(1))], run(4) + arrival(0, 0) + run(6) + arrival(0, 0) + run(8)),
        ("a refill without work, then a periodic arrival a tick later", [polling(4, 2, periodic(1, 8, 5))], run(40)),
        ("a periodic arrival a tick before the refill", [polling(4, 2, periodic(1, 8, 3)), idling(6, 2)], run(40)),
        ("T and P that do not divide each other", [polling(7, 3, periodic(2, 5)), idling(3, 1)], run(150)),
        ("O 0 and work that ends, then an arrival", [polling(10, 5, periodic(1, 10), on_arrival(2))], run(3) + arrival(0, 1) + run(20)),
        ("work of a second task holds the budget", [polling(9, 6, on_arrival(1), on_arrival(3))],
         run(9) + arrival(0, 1) + run(10) + arrival(0, 0) + run(1) + arrival(0, 1) + run(15)),
        ("work of the eighth task holds the budget", [polling(9, 6, *[on_arrival(1)] * 7, on_arrival(3))],
         run(8) + arrival(0, 7) + run(5) + arrival(0, 0) + run(8)),
        ("the eighth server", [deferrable(5, 1)] * 7 + [polling(7, 3, periodic(2, 5))], run(60)),
        ("above an idling server", [polling(6, 3, periodic(1, 4)), idling(6, 6)], run(60)),
        ("below a deferrable server", [deferrable(6, 3, periodic(2, 7, 1)), polling(5, 3, periodic(1, 4)), idling(9, 9)], run(120)),
        ("below an idling server", [idling(4, 2, periodic(1, 3)), polling(6, 2, periodic(1, 5, 2))], run(120)),
        ("above and below itself", [polling(5, 2, periodic(1, 4)), polling(7, 3, periodic(2, 9, 3)), polling(11, 4, periodic(1, 6), on_arrival(2))],
         run(30) + arrival(2, 1) + run(60)),
        ("a setup of all three kinds", POLLED, (run(13) + arrival(0, 0) + run(17) + arrival(1, 1)) * 20),
        ("eight servers of eight tasks", [polling(10 + 7 * i, 1 + i, *(full_task(i, j) for j in range(8))) for i in range(8)],
         run(90) + b"".join(arrival(i, 3 - i % 3) + run(40) for i in range(8)) + run(300)),
        ("eight servers of one task on arrival", [polling(9, 2, on_arrival(3))] * 8, b"".join(arrival(7 - i, 0) + run(5) for i in range(8)) + run(60)),
        ("P 1, C 1: filled and given up on every tick", [polling(1, 1, on_arrival(2))], run(2) + arrival(0, 0) + run(4)),
        ("C is P", [polling(6, 6, on_arrival(2)), idling(2, 1)], (run(4) + arrival(0, 0)) * 8 + run(12)),
        ("P 1,000,000: what lapses at setup stays away", [polling(LONGEST, LONGEST, periodic(1, 4, 2)), idling(3, 2)], run(300)),
        ("P 1,000,000: the first end of work is the last tick", [polling(LONGEST, LONGEST, periodic(2, 5)), idling(3, 2)], run(300)),
        ("P above the largest gap", [polling(65_540, 4, periodic(1, 9, 3)), idling(70_000, 50_000)], runs(65_600)),
        ("lost at a lapsed server", [polling(7, 2, on_arrival(600_000))], run(2) + arrival(0, 0) * 3 + run(20)),
        ("a lost arrival behind work that ran", [polling(2, 1, on_arrival(LONGEST)), idling(5, 5)],
         run(1) + arrival(0, 0) * 2 + run(4) + arrival(0, 0) + run(3)),
        ("a refused arrival changes nothing", [polling(4, 2, on_arrival(3), periodic(1, 6, 2))],
         arrival(0, 1) + run(2) + arrival(0, 0) + arrival(0, 2) + run(12)),
    ]
    for name, servers, messages in one:
        yield Case(f"polling: {name}", setup(servers) + messages)


def polled_alike():
    """Polling servers whose trace a deferrable server would have too."""
    one = [
        ("no tasks", [polling(3, 2)], run(9)),
        ("no tasks, above and below an idling server", [polling(3, 2), idling(4, 1), polling(1, 1)], run(20)),
        ("O 0, work 1 in every period", [polling(4, 2, periodic(1, 4))], run(30)),
        ("O P: refill and arrival on one tick", [polling(4, 2, periodic(1, 4, 4))], run(30)),
        ("work without end", [polling(5, 2, periodic(LONGEST, LONGEST)), idling(3, 1)], run(60)),
        ("the budget ends before the work", [polling(6, 2, periodic(9, 30))], run(60)),
        ("work ends with the budget", [polling(4, 2, periodic(2, 4))], run(40)),
        ("work ends where more arrives", [polling(6, 4, periodic(2, 2)), idling(5, 1)], run(40)),
        ("a setup and no message", POLLED, b""),
    ]
    for name, servers, messages in one:
        yield Case(f"polling or deferrable: {name}", setup(servers) + messages)


def refused_arrivals():
    """18, 19, 20, and the run goes on."""
    by_server = {0: (0, 1, 8, 255), 1: (0, 1, 2, 3, 255), 2: (0, 1, 2), 3: (0, 9), 7: (0,), 8: (0, 8), 255: (0, 255)}
    for i, j in [(i, j) for i, tasks in by_server.items() for j in tasks]:
        yield Case(f"arrival ({i}, {j}) between runs", setup(MIXED) + run(2) + arrival(i, j) + run(3))
        yield Case(f"arrival ({i}, {j}) first and last", setup(MIXED) + arrival(i, j) + run(1) + arrival(1, 1) + run(4) + arrival(i, j))
    yield Case("all arrivals at all entries", setup(FULL) + b"".join(arrival(i, j) for i in range(9) for j in range(9)) + run(40))
    yield Case("refused arrivals in a row", setup(NO_TASKS) + arrival(0, 0) + arrival(1, 0) + arrival(2, 0) + arrival(0, 8) + run(4))


# DAMAGED SETUPS

def server_faults(i, server, at):
    """Each field of a server's record: its name, place and size, and values that are refused."""
    P = server[1]
    yield f"server {i} kind", at, 1, (0, 4, 255)
    yield f"server {i} tasks", at + 1, 1, (9, 255)
    yield f"server {i} P", at + 2, 4, (0, LONGEST + 1, TOP)
    yield f"server {i} C", at + 6, 4, (0, P + 1, TOP)


def task_faults(i, j, task, at):
    """As of a server; a release that is turned round does not suit its T."""
    periodic = task[0] == 1
    yield f"task {i} {j} release", at, 1, (2, 255, 1 - task[0])
    yield f"task {i} {j} E", at + 1, 4, (0, LONGEST + 1, TOP)
    yield f"task {i} {j} T", at + 5, 4, (0, LONGEST + 1, TOP) if periodic else (1, TOP)
    yield f"task {i} {j} O", at + 9, 4, (LONGEST + 1, TOP) if periodic else (1, TOP)


def faults(servers):
    """The faults of all records of a setup in file order."""
    at = 4
    for i, server in enumerate(servers):
        yield from server_faults(i, server, at)
        at += 10
        for j, task in enumerate(server[3]):
            yield from task_faults(i, j, task, at)
            at += 13


def record_of(fault):
    """Of the name `task 4 3 E`, `task 4 3`."""
    return fault[0].rsplit(" ", 1)[0]


def chosen_faults(servers):
    """Of a large setup only the first, some middle and the last records."""
    kept = {"server 0", "server 4", "server 7", "task 0 0", "task 0 7", "task 4 3", "task 7 7"}
    return [fault for fault in faults(servers) if record_of(fault) in kept]


BASES = (
    ("worked", WORKED, list(faults(WORKED))),
    ("mixed", MIXED, list(faults(MIXED))),
    ("polled", POLLED, list(faults(POLLED))),
    ("full", FULL, chosen_faults(FULL)),
)


def damaged_fields():
    """Each field in turn, in first and later records."""
    for base, servers, all_faults in BASES:
        for name, at, size, values in all_faults:
            for value in values:
                yield Case(f"{base}: {name} {value}", replaced(setup(servers), at, big(value, size)) + run(3))


def with_faults(base, servers, pair, chance):
    """A case with two fields at fault: the first in file order is named."""
    (name, at, size, values), (name2, at2, size2, values2) = pair
    data = replaced(setup(servers), at, big(chance.choice(values), size))
    return Case(f"{base}: {name} and {name2}", replaced(data, at2, big(chance.choice(values2), size2)) + run(3))


def damaged_twice(chance):
    """Pairs of fields of one record, in the first and the last records; and pairs from anywhere."""
    for base, servers, all_faults in BASES:
        pairs = list(itertools.combinations(all_faults, 2))
        near = [pair for pair in pairs if record_of(pair[0]) == record_of(pair[1])]
        far = [pair for pair in pairs if record_of(pair[0]) != record_of(pair[1])]
        for pair in near[:18] + near[18:][-18:] + chance.sample(far, 15):
            yield with_faults(base, servers, pair, chance)


def damaged_heads():
    for base, servers, _ in BASES:
        data = setup(servers)
        for version in (0, 2, 255):
            yield Case(f"{base}: version {version}", replaced(data, 2, big(version, 1)) + run(3))
        for count in sorted({0, 9, 255, len(servers) - 1, len(servers) + 1}):
            yield Case(f"{base}: {count} servers said", replaced(data, 3, big(count, 1)) + run(3))
        yield Case(f"{base}: version 2 and 9 servers said", replaced(data, 2, bytes([2, 9])) + run(3))
        yield Case(f"{base}: length wrong and version 2", replaced(data, 1, bytes([data[1] + 1, 2])))
        for count in (0, 1, 7, 8):
            if count != len(servers[0][3]):
                yield Case(f"{base}: {count} tasks of server 0 said", replaced(data, 5, big(count, 1)) + run(3))


def said_lengths():
    """A stated length that differs from the setup's own."""
    for base, servers, _ in BASES:
        data = setup(servers)
        own = len(data)
        for length in sorted({0, 1, 2, 3, 4, 5, 13, 14, own - 13, own - 1, own + 1, own + 6, own + 7, own + 256, LARGEST_GAP} - {own}):
            yield Case(f"{base}: length {length} said of {own}", replaced(data, 0, big(length, 2)) + run(3))


def cut_records():
    """The setup cut, with the length of what is left: a record runs past the end, or bytes are left."""
    whole = setup(WORKED)
    for size in range(4, len(whole)):
        yield Case(f"worked: setup cut to {size}, length right", with_length(whole[2:size]) + run(3))
    for more in (1, 2, 9, 10, 12, 13, 23):
        yield Case(f"worked: {more} bytes more, length right", with_length(whole[2:] + bytes(more)) + run(3))
        yield Case(f"worked: {more} bytes of its own again, length right", with_length(whole[2:] + whole[4:4 + more]) + run(3))
    whole = setup(FULL)
    for size in (915, 904, 903, 902, 803, 802, 801, 460, 118, 117, 13):
        yield Case(f"full: setup cut to {size}, length right", with_length(whole[2:size]) + run(3))
    for more in (1, 10, 13, 114):
        yield Case(f"full: {more} bytes more, length right", with_length(whole[2:] + whole[4:4 + more]) + run(3))


def long_setups(chance):
    """Stated lengths above 916, the longest of a sound setup, with the bytes there and without."""
    for length in (917, 1_000, 4_096, 32_768, 65_534, 65_535):
        for kind, rest in (("zeros", bytes(length)), ("ones", b"\xff" * length), ("any bytes", chance.randbytes(length)),
                           ("a setup and zeros", setup(WORKED)[2:] + bytes(length)), ("the longest setup and zeros", setup(FULL)[2:] + bytes(length))):
            data = big(length, 2) + rest[:length - 2]
            yield Case(f"length {length} with its bytes: {kind}", data + run(3))
        yield Case(f"length {length} without its bytes", replaced(setup(FULL), 0, big(length, 2)))
        yield Case(f"length {length}, one byte short", big(length, 2) + bytes(length - 3))


# DAMAGED MESSAGES

def damaged_messages():
    """Each byte of a message, in the first, a later and the last message."""
    good = [arrival(0, 0), run(2), run(3), arrival(0, 0), run(2)]
    faults = [("length 262", 0, b"\x01")] + [(f"length {n}", 1, big(n, 1)) for n in (0, 2, 5, 7, 255)]
    faults += [(f"version {n}", 2, big(n, 1)) for n in (0, 2, 255)] + [(f"kind {n}", 3, big(n, 1)) for n in (0, 3, 255)]
    faults += [("length 7 and version 2", 1, bytes([7, 2])), ("version 0 and kind 0", 2, bytes(2))]
    faults += [("all bytes 255", 0, b"\xff" * 6), ("all bytes 0", 0, bytes(6))]
    for which in (0, 2, 4):
        for name, at, new in faults:
            messages = good[:which] + [replaced(good[which], at, new)] + good[which + 1:]
            yield Case(f"message {which}: {name}", setup(WORKED) + b"".join(messages))


def short_messages():
    """The last message has too few bytes, and is right or wrong in those that are there."""
    some = {"run": run(4), "length 5": bytes([0, 5, 1, 1, 0, 4]), "version 2": bytes([0, 6, 2, 1, 0, 4]), "kind 9": bytes([0, 6, 1, 9, 0, 4])}
    for name, message in some.items():
        for size in range(1, 6):
            yield Case(f"last message of {size} bytes: {name}", setup(WORKED) + run(2) + message[:size])
            yield Case(f"only message of {size} bytes: {name}", setup(MIXED) + message[:size])


# CUT, APPENDED AND RANDOM INPUTS

def cuts(chance):
    """Input that ends early: in the two length bytes, in the setup, in a message."""
    whole = setup(WORKED) + WORKED_MESSAGES
    for size in range(len(whole)):
        yield Case(f"worked example cut to {size}", whole[:size])
    whole = setup(MIXED) + run(4) + arrival(1, 1) + arrival(9, 9) + run(20) + arrival(2, 0) + run(3)
    for size in sorted(chance.sample(range(len(whole)), 40)):
        yield Case(f"mixed input cut to {size}", whole[:size])
    whole = setup(FULL) + run(4)
    for size in sorted(chance.sample(range(len(whole)), 20)):
        yield Case(f"full input cut to {size}", whole[:size])


def appended(chance):
    whole = setup(WORKED) + WORKED_MESSAGES
    for size in range(1, 9):
        for kind, more in (("zeros", bytes(size)), ("any bytes", chance.randbytes(size)), ("ones", b"\xff" * size)):
            yield Case(f"worked example and {size} {kind}", whole + more)
    yield Case("worked example and itself", whole + whole)


def random_bytes(chance):
    for k in range(70):
        yield Case(f"random bytes {k}", chance.randbytes(chance.choice((1, 2, 3, 4, 5, 6, 14, 50, 200))))
    for k in range(50):
        rest = bytes([1, chance.randint(1, 8)]) + chance.randbytes(chance.choice((0, 5, 10, 23, 100)))
        yield Case(f"random records {k}", with_length(rest) + run(2))
    for k in range(50):
        yield Case(f"random messages {k}", setup(WORKED) + run(3) + bytes([0, 6]) + chance.randbytes(chance.randint(0, 9)))


# RANDOM VALID INPUTS

def random_period(chance):
    edge = chance.choice((1, 2, 65_535, 65_536, 131_071, 1_000_000, chance.randint(65_536, 1_000_000)))
    return chance.choice((edge, chance.randint(1, 6), chance.randint(2, 12), chance.randint(5, 60), chance.randint(20, 300)))


def random_budget(chance, P):
    return chance.choice((1, P, max(1, P - 1), chance.randint(1, P), max(1, P // 8), max(1, P // 8), max(1, P // 5)))


def random_task(chance):
    E = chance.choice((1, 1, 2, 3, chance.randint(1, 9), chance.randint(5, 50), chance.randint(300_000, 1_000_000), 1_000_000))
    if chance.random() < 0.4:
        return on_arrival(E)
    T = random_period(chance)
    return periodic(E, T, chance.choice((0, 0, 0, 1, min(T, 50), T, min(T + 1, LONGEST), chance.randint(0, 100), min(3 * T, LONGEST), 65_536, LONGEST)))


def random_server(chance, most_tasks):
    P = random_period(chance)
    return chance.choice((1, 2, 3)), P, random_budget(chance, P), tuple(random_task(chance) for _ in range(chance.randint(0, most_tasks)))


def random_setup(chance):
    most = chance.choice((1, 2, 3, 4, 8))
    return [random_server(chance, chance.choice((1, 2, 4, 8))) for _ in range(chance.randint(1, most))]


def random_arrival(chance, servers):
    """Mostly at a task that takes it."""
    takes = [(i, j) for i, server in enumerate(servers) for j, task in enumerate(server[3]) if task[0] == 0]
    if takes and chance.random() < 0.85:
        return arrival(*chance.choice(takes))
    return arrival(chance.randint(0, len(servers)), chance.choice((0, 1, 2, 7, 8, 255)))


def random_message(chance, servers):
    if chance.random() < 0.5:
        return random_arrival(chance, servers)
    return run(chance.choice((0, 1, 2, chance.randint(0, 40), chance.randint(0, 40), chance.randint(40, 400))))


def random_input(chance):
    servers = random_setup(chance)
    return setup(servers) + b"".join(random_message(chance, servers) for _ in range(chance.randint(1, 14)))


def random_valid(chance):
    for k in range(420):
        yield Case(f"random valid {k}", random_input(chance))


def busy_task(chance):
    if chance.random() < 0.3:
        return on_arrival(chance.randint(1, 30))
    return periodic(chance.randint(1, 4), chance.randint(3, 90), chance.randint(0, 120))


def busy_server(chance):
    P = chance.randint(4, 60)
    return chance.choice((1, 2, 3, 3)), P, chance.randint(1, 1 + P // 5), tuple(busy_task(chance) for _ in range(chance.randint(0, 8)))


def random_long(chance):
    """Small periods and budgets, so that every server comes to run in some thousand ticks."""
    for k in range(24):
        servers = [busy_server(chance) for _ in range(chance.randint(2, 8))]
        messages = [random_arrival(chance, servers) + run(chance.randint(0, 200)) for _ in range(chance.randint(20, 60))]
        yield Case(f"random long {k}", setup(servers) + b"".join(messages))


def mutated(data, chance):
    """One byte changed, taken out or put in."""
    at = chance.randrange(len(data))
    kind = chance.choice(("change", "change", "change", "out", "in"))
    if kind == "change":
        return replaced(data, at, bytes([chance.choice((0, 1, 2, 255, data[at] ^ 1 << chance.randrange(8), chance.randrange(256)))]))
    return data[:at] + (data[at + 1:] if kind == "out" else chance.randbytes(1) + data[at:])


def random_damaged(chance):
    for k in range(150):
        data = random_input(chance)
        for _ in range(chance.choice((1, 1, 2, 3))):
            data = mutated(data, chance)
        yield Case(f"random damaged {k}", data)


def drips(chance):
    """The input in small pieces."""
    yield Case("in drips: worked example", setup(WORKED) + WORKED_MESSAGES, True)
    yield Case("in drips: worked example cut in a message", (setup(WORKED) + WORKED_MESSAGES)[:-1], True)
    yield Case("in drips: worked example cut in the setup", setup(WORKED)[:49], True)
    yield Case("in drips: one byte", b"\x00", True)
    yield Case("in drips: mixed", setup(MIXED) + run(4) + arrival(1, 1) + arrival(9, 9) + run(20), True)
    yield Case("in drips: random valid", random_input(chance), True)


def once_each(found):
    """No input twice."""
    by_input = {}
    for case in found:
        by_input.setdefault((case.input, case.drip), case)
    return list(by_input.values())


def cases():
    chance = random.Random(SEED)
    found = [*million(), *fillers(), *lost_to_the_top(), *random_long(chance), *pieces(), *edges(), *polled(), *polled_alike(), *refused_arrivals()]
    found += [Case("empty input", b""), *damaged_fields(), *damaged_twice(chance), *damaged_heads(), *said_lengths(), *cut_records(), *long_setups(chance)]
    found += [*damaged_messages(), *short_messages(), *cuts(chance), *appended(chance), *random_bytes(chance)]
    found += [*random_valid(chance), *random_damaged(chance), *drips(chance)]
    return once_each(found)
