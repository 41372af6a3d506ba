"""Document 01 as a model, with what document 02 changes (#101): slow, obvious and written from the documents' sentences alone. Tests hold programs to it.

By its meaning a queue is the list of its events in queue order, each (id, distance). A row is what a program holds: 32 cells (id, gap) and how many of them are
used. A call on a row, a table or a state answers a refusal first, NONE where it is not refused; a refused call hands back what was handed in."""
import dataclasses
from collections import namedtuple

Refusal = namedtuple("Refusal", "number place")
NONE = Refusal(0, 0)


def refused(number, place=0):
    """"A refusal answers its number, the place (0 where none is named below)"."""
    return Refusal(number, place)


def first_refusal(checks):
    """The first of a row of checks that holds; each is (whether it holds, number, place)."""
    for holds, number, place in checks:
        if holds:
            return refused(number, place)
    return NONE


# THE QUEUE

LARGEST_GAP = 65_535
CELLS = 32
LONGEST = 1_000_000
FILLER = 255
ZERO_CELL = (0, 0)

Row = namedtuple("Row", "cells count")


def fewest(g):
    """"as few cells as can hold g"."""
    count = 1
    while count * LARGEST_GAP < g:
        count += 1
    return count


def cells_of_gap(id, g):
    """"The first cell has what remains; each other, the event included, has gap 65,535", the event last."""
    count = fewest(g)
    gaps = [g - (count - 1) * LARGEST_GAP] + [LARGEST_GAP] * (count - 1)
    return [(FILLER, gap) for gap in gaps[:-1]] + [(id, gaps[-1])]


def cells(events):
    """Normal form: "let g be the distance between an event and the event before it (or now)"."""
    row, before = [], 0
    for id, distance in events:
        row += cells_of_gap(id, distance - before)
        before = distance
    return row


def events_of(used):
    """"An event's distance is the sum of the gaps up to and with its own"."""
    events, distance = [], 0
    for id, gap in used:
        distance += gap
        if id != FILLER:
            events.append((id, distance))
    return events


def inserted(events, id, delay):
    """"the event stands at that distance, behind all that are due at the same time. All others keep their distance"."""
    return [event for event in events if event[1] <= delay] + [(id, delay)] + [event for event in events if event[1] > delay]


def removed(events, id):
    return [event for event in events if event[0] != id]


def clocked(events):
    """"every distance falls by 1"; the fillers follow from the normal form."""
    return [(id, distance - 1) for id, distance in events]


def pushed_back(events):
    """"every distance grows by 1; an empty queue stays empty"."""
    return [(id, distance + 1) for id, distance in events]


def has(events, id):
    return any(event[0] == id for event in events)


def some_at(events, distance):
    return any(event[1] == distance for event in events)


def row_of(events):
    """The row that holds these events: "cells past the last are zero"."""
    used = cells(events)
    return Row(tuple(used + [ZERO_CELL] * (CELLS - len(used))), len(used))


def sound_row(row):
    """"A queue alone is sound if it is in normal form, its events' ids differ, no distance is above 1,000,000, and cells past the last are zero"."""
    if len(row.cells) != CELLS or row.count > CELLS:
        return False
    used, rest = list(row.cells[:row.count]), row.cells[row.count:]
    events = events_of(used)
    ids = [id for id, _ in events]
    return (used == cells(events) and len(set(ids)) == len(ids) and all(distance <= LONGEST for _, distance in events)
            and all(cell == ZERO_CELL for cell in rest))


def meaning(row):
    return events_of(row.cells[:row.count])


EMPTY = row_of([])


def insert_checks(row, id, delay):
    yield not sound_row(row), 31, 0
    yield id == FILLER, 22, 0
    yield has(meaning(row), id), 23, 0
    yield delay > LONGEST, 24, 0
    yield len(cells(inserted(meaning(row), id, delay))) > CELLS, 25, 0


def insert(row, id, delay):
    """Answers (refusal, row)."""
    refusal = first_refusal(insert_checks(row, id, delay))
    return refusal, row if refusal.number else row_of(inserted(meaning(row), id, delay))


def find_checks(row, id):
    yield not sound_row(row), 31, 0
    yield not has(meaning(row), id), 26, 0


def remove(row, id):
    """Answers (refusal, row)."""
    refusal = first_refusal(find_checks(row, id))
    return refusal, row if refusal.number else row_of(removed(meaning(row), id))


def time_left(row, id):
    """Answers (refusal, distance)."""
    refusal = first_refusal(find_checks(row, id))
    return refusal, 0 if refusal.number else dict(meaning(row))[id]


def clock_checks(row):
    yield not sound_row(row), 31, 0
    yield some_at(meaning(row), 0), 27, 0


def clock(row):
    """Answers (refusal, row)."""
    refusal = first_refusal(clock_checks(row))
    return refusal, row if refusal.number else row_of(clocked(meaning(row)))


def take_checks(row):
    yield not sound_row(row), 31, 0
    yield not some_at(meaning(row), 0), 28, 0


def take(row):
    """"the first event at distance 0 is taken out". Answers (refusal, row, id)."""
    refusal = first_refusal(take_checks(row))
    if refusal.number:
        return refusal, row, 0
    first = meaning(row)[0][0]
    return refusal, row_of(removed(meaning(row), first)), first


def push_back_checks(row):
    """"Others in numeric order": 25 before 29."""
    yield not sound_row(row), 31, 0
    yield len(cells(pushed_back(meaning(row)))) > CELLS, 25, 0
    yield some_at(meaning(row), LONGEST), 29, 0


def push_back(row):
    """Answers (refusal, row)."""
    refusal = first_refusal(push_back_checks(row))
    return refusal, row if refusal.number else row_of(pushed_back(meaning(row)))


# SERVERS AND TASKS

ENTRIES = 8
IDLING, DEFERRABLE, POLLING = KINDS = 1, 2, 3
ON_ARRIVAL, PERIODIC = 0, 1

Task = namedtuple("Task", "release E T O")
Server = namedtuple("Server", "kind count P C tasks")
Table = namedtuple("Table", "count servers")

ZERO_TASK = Task(ON_ARRIVAL, 0, 0, 0)
ZERO_SERVER = Server(0, 0, 0, 0, (ZERO_TASK,) * ENTRIES)
ZERO_TABLE = Table(0, (ZERO_SERVER,) * ENTRIES)


def filled(entries, zero):
    """The eight entries of a table, the unused ones zero."""
    return tuple(entries) + (zero,) * (ENTRIES - len(entries))


def sound_task(task):
    """"A task has work E (1 to 1,000,000 ticks), and its release is either periodic, with a period T and an offset O, or on arrival with neither"."""
    if not 1 <= task.E <= LONGEST:
        return False
    if task.release == PERIODIC:
        return 1 <= task.T <= LONGEST and 0 <= task.O <= LONGEST
    return task.release == ON_ARRIVAL and task.T == 0 and task.O == 0


def sound_server(server):
    """"A server has a kind, a period P (1 to 1,000,000), a budget C (1 to P) and 0 to 8 tasks"."""
    return (server.kind in KINDS and 0 <= server.count <= ENTRIES and 1 <= server.P <= LONGEST and 1 <= server.C <= server.P
            and all(sound_task(task) for task in server.tasks[:server.count]) and all(task == ZERO_TASK for task in server.tasks[server.count:]))


def sound_table(table):
    """"A table alone is sound if its values are in range and its unused entries zero"."""
    return (1 <= table.count <= ENTRIES
            and all(sound_server(server) for server in table.servers[:table.count]) and all(server == ZERO_SERVER for server in table.servers[table.count:]))


def W(table, i):
    """"W is the sum of Cj × (1 + (P − 1) / Pj rounded up)" over the servers above."""
    P = table.servers[i].P
    return sum(above.C * (1 + -(-(P - 1) // above.P)) for above in table.servers[:i])


def least(table, i):
    """What a server is sure of in a period, if it wants every tick on which it has budget; a polling server, "if work is pending at the end of the tick before
    the period (in the fresh state, for a period that begins at tick 0) and at the end of each of its ticks but the last". "where W is P or more, the least
    amount says nothing"."""
    server = table.servers[i]
    return None if W(table, i) >= server.P else min(server.C, server.P - W(table, i))


# SETUP FILES

HEAD, SERVER_RECORD, TASK_RECORD = 4, 10, 13


def number(given, at, size):
    """"All numbers big-endian"."""
    return int.from_bytes(given[at:at + size], "big")


def big(value, size):
    return value.to_bytes(size, "big")


def setup_checks(given):
    """"Setup: 1 to 4, then records in file order, each whole (5) before its fields in file order, then 13"."""
    yield len(given) < HEAD, 1, 0
    yield number(given, 0, 2) != len(given), 2, 0
    yield given[2] != 1, 3, 2
    yield not 1 <= given[3] <= ENTRIES, 4, 3
    at = HEAD
    for _ in range(given[3]):
        yield from server_checks(given, at)
        tasks = given[at + 1]
        at += SERVER_RECORD
        for _ in range(tasks):
            yield from task_checks(given, at)
            at += TASK_RECORD
    yield at < len(given), 13, at


def server_checks(given, at):
    """A place is "the record's start for 5", "else the field's first byte". "Setup code 6 now allows 3"."""
    P, C = number(given, at + 2, 4), number(given, at + 6, 4)
    yield at + SERVER_RECORD > len(given), 5, at
    yield given[at] not in KINDS, 6, at
    yield given[at + 1] > ENTRIES, 7, at + 1
    yield not 1 <= P <= LONGEST, 8, at + 2
    yield not 1 <= C <= P, 9, at + 6


def task_checks(given, at):
    """"On arrival, T and O must be 0"."""
    E, T, O = number(given, at + 1, 4), number(given, at + 5, 4), number(given, at + 9, 4)
    yield at + TASK_RECORD > len(given), 5, at
    yield given[at] not in (ON_ARRIVAL, PERIODIC), 10, at
    yield not 1 <= E <= LONGEST, 11, at + 1
    if given[at] == PERIODIC:
        yield not 1 <= T <= LONGEST, 12, at + 5
        yield not 0 <= O <= LONGEST, 12, at + 9
    else:
        yield T != 0, 12, at + 5
        yield O != 0, 12, at + 9


def task_at(given, at):
    return Task(given[at], number(given, at + 1, 4), number(given, at + 5, 4), number(given, at + 9, 4))


def server_at(given, at):
    tasks = [task_at(given, at + SERVER_RECORD + TASK_RECORD * j) for j in range(given[at + 1])]
    return Server(given[at], given[at + 1], number(given, at + 2, 4), number(given, at + 6, 4), filled(tasks, ZERO_TASK))


def table_of(given):
    """The table of a setup that is not refused."""
    servers, at = [], HEAD
    for _ in range(given[3]):
        servers.append(server_at(given, at))
        at += SERVER_RECORD + TASK_RECORD * servers[-1].count
    return Table(given[3], filled(servers, ZERO_SERVER))


def read_setup(given):
    """Answers (refusal, table)."""
    refusal = first_refusal(setup_checks(given))
    return refusal, ZERO_TABLE if refusal.number else table_of(given)


def task_bytes(task):
    """"release (0 on arrival, 1 periodic), E (4), T (4), O (4)"."""
    return big(task.release, 1) + big(task.E, 4) + big(task.T, 4) + big(task.O, 4)


def server_bytes(server):
    """"each server: kind, number of tasks, P (4), C (4), then its tasks"."""
    head = big(server.kind, 1) + big(server.count, 1) + big(server.P, 4) + big(server.C, 4)
    return head + b"".join(task_bytes(task) for task in server.tasks[:server.count])


def setup_bytes(table):
    """"total length (2 bytes), version 1, number of servers, then each server"."""
    rest = big(1, 1) + big(table.count, 1) + b"".join(server_bytes(server) for server in table.servers[:table.count])
    return big(len(rest) + 2, 2) + rest


def written(output, buffer):
    """"Writers leave bytes past the output unchanged"."""
    return output + buffer[len(output):]


def write_setup(table, buffer):
    """"31 comes first everywhere, 32 last". Answers (refusal, how many bytes were written, buffer)."""
    if not sound_table(table):
        return refused(31), 0, buffer
    output = setup_bytes(table)
    if len(buffer) < len(output):
        return refused(32), 0, buffer
    return NONE, len(output), written(output, buffer)


# MESSAGES

MESSAGE = 6
RUN, ARRIVAL = 1, 2

Message = namedtuple("Message", "kind first second")  # its kind and its two bytes
ZERO_MESSAGE = Message(RUN, 0, 0)


def ticks_of(message):
    """"Kind 1: a number of ticks to run, 0 to 65,535"."""
    return message.first * 256 + message.second


def message_checks(given):
    """"Messages: under 2 bytes 14, then 15, under 6 bytes 14, 16, 17"."""
    yield len(given) < 2, 14, 0
    yield number(given, 0, 2) != MESSAGE, 15, 0
    yield len(given) < MESSAGE, 14, 0
    yield given[2] != 1, 16, 0
    yield given[3] not in (RUN, ARRIVAL), 17, 0


def read_message(given):
    """"The message reader doesn't look past the sixth byte". Answers (refusal, message)."""
    refusal = first_refusal(message_checks(given))
    return refusal, ZERO_MESSAGE if refusal.number else Message(given[3], given[4], given[5])


def write_message(message, buffer):
    """"The message writer takes any two bytes; a kind not 1 or 2 is 17". Answers (refusal, how many bytes were written, buffer)."""
    if message.kind not in (RUN, ARRIVAL):
        return refused(17), 0, buffer
    output = big(MESSAGE, 2) + big(1, 1) + big(message.kind, 1) + big(message.first, 1) + big(message.second, 1)
    if len(buffer) < len(output):
        return refused(32), 0, buffer
    return NONE, len(output), written(output, buffer)


# THE SCHEDULER, ITS QUEUES BY THEIR MEANING

MOST_WORK = 1_000_000
MOST_LOST = 65_535


@dataclasses.dataclass
class State:
    """Budgets and arrival queues by server; pending work and lost counts by server and task. "replenishments have one for all servers"."""
    table: Table
    budgets: list
    work: list
    lost: list
    replenishments: list
    arrivals: list


# "A tick's answer names idle, burning (server) or running (server, task), and how many events it handled": None for no server, None for no task.
Answer = namedtuple("Answer", "server task handled")
ZERO_ANSWER = Answer(None, None, 0)


def fresh_work(task):
    """"A periodic task with O = 0 has work E .. with O > 0, work 0"."""
    return task.E if task.release == PERIODIC and task.O == 0 else 0


def first_arrival(task):
    """"its next arrival T away; with O > 0, .. its arrival O away"."""
    return task.O if task.O > 0 else task.T


def fresh_arrivals(server):
    """"Server and task events go in by table order; a server's tasks have a queue of their own .. Event ids are the places in the table"."""
    events = []
    for j in range(server.count):
        if server.tasks[j].release == PERIODIC:
            events = inserted(events, j, first_arrival(server.tasks[j]))
    return events


def fresh_replenishments(table):
    """"each replenishment is P away"."""
    events = []
    for i in range(table.count):
        events = inserted(events, i, table.servers[i].P)
    return events


def lapse(state):
    """"a polling server with no pending work has its budget set to 0 until its next refill"."""
    for i in range(state.table.count):
        if state.table.servers[i].kind == POLLING and not any(state.work[i]):
            state.budgets[i] = 0


def fresh_state(table):
    """"Fresh state: each budget is C", but for what lapses "at setup"."""
    state = State(
        table=table,
        budgets=[server.C for server in table.servers],
        work=[[fresh_work(task) for task in server.tasks] for server in table.servers],
        lost=[[0] * ENTRIES for _ in table.servers],
        replenishments=fresh_replenishments(table),
        arrivals=[fresh_arrivals(server) for server in table.servers])
    lapse(state)
    return state


def wants(state, i):
    """"A server wants a tick if it is idling (kind 1), or deferrable (kind 2) with work pending in some task". "Kind 3 wants a tick as kind 2 does"."""
    return state.table.servers[i].kind == IDLING or any(state.work[i])


def chosen_server(state):
    """"1. The highest server that wants and has budget is chosen; none: idle"."""
    for i in range(state.table.count):
        if state.budgets[i] > 0 and wants(state, i):
            return i
    return None


def chosen_task(state, i):
    """"2. In it, the first task with pending work is chosen. An idling server without work burns the tick"."""
    for j in range(ENTRIES):
        if state.work[i][j] > 0:
            return j
    return None


def charge(state, i, j):
    """"3. The server's budget and the chosen task's work fall by 1"."""
    state.budgets[i] -= 1
    if j is not None:
        state.work[i][j] -= 1


def clock_all(state):
    """"4. All queues are clocked"."""
    state.replenishments = clocked(state.replenishments)
    state.arrivals = [clocked(events) for events in state.arrivals]


def due(events):
    return bool(events) and events[0][1] == 0


def replenish(state):
    """"Due replenishments set the budget to C and are put in again P away". Answers how many there were."""
    handled = 0
    while due(state.replenishments):
        i = state.replenishments[0][0]
        server = state.table.servers[i]
        state.budgets[i] = server.C
        state.replenishments = inserted(state.replenishments[1:], i, server.P)
        handled += 1
    return handled


def add_work(state, i, j):
    """"An arrival whose E would bring pending work above 1,000,000 is lost and adds 1 to the task's lost count, which stops at 65,535". True: lost."""
    E = state.table.servers[i].tasks[j].E
    if state.work[i][j] + E > MOST_WORK:
        state.lost[i][j] = min(state.lost[i][j] + 1, MOST_LOST)
        return True
    state.work[i][j] += E
    return False


def release(state, i):
    """"Then due task arrivals .. add E and go in again T away", for one server. "A periodic arrival that is lost is still put in again"."""
    handled = 0
    while due(state.arrivals[i]):
        j = state.arrivals[i][0][0]
        add_work(state, i, j)
        state.arrivals[i] = inserted(state.arrivals[i][1:], j, state.table.servers[i].tasks[j].T)
        handled += 1
    return handled


def one_tick(state):
    """"One tick": alters the state and answers."""
    i = chosen_server(state)
    j = None
    if i is not None:
        j = chosen_task(state, i)
        charge(state, i, j)
    clock_all(state)
    handled = replenish(state)
    for rank in range(state.table.count):
        handled += release(state, rank)
    lapse(state)  # "at the end of every tick after all events are handled"
    return Answer(i, j, handled)


def arrival_checks(table, server, task):
    """"18, 19, 20: arrival: no such server; no such task; task is periodic"."""
    yield server >= table.count, 18, 0
    yield task >= table.servers[server].count, 19, 0
    yield table.servers[server].tasks[task].release == PERIODIC, 20, 0


# THE SCHEDULER'S CALLS, ON STATES WHOSE QUEUES ARE ROWS

def copied(state, queue):
    """The state with its queues put another way, and nothing shared with it."""
    work, lost = [list(tasks) for tasks in state.work], [list(tasks) for tasks in state.lost]
    return State(state.table, list(state.budgets), work, lost, queue(state.replenishments), [queue(arrivals) for arrivals in state.arrivals])


def with_rows(state):
    """The state as a program holds it. No row needs more than 32 cells: 8 events and 15 fillers are 23. So 30 is never given."""
    return copied(state, row_of)


def by_meaning(state):
    return copied(state, meaning)


def holds_each_once(row, reach):
    """The row is sound alone and holds exactly the events of `reach`, {id: longest distance}, each once and 1 to that distance away."""
    if not sound_row(row):
        return False
    events = meaning(row)
    return sorted(id for id, _ in events) == sorted(reach) and all(1 <= distance <= reach[id] for id, distance in events)


def reach_of_replenishments(table):
    """"a replenishment is 1 to P away"."""
    return {i: table.servers[i].P for i in range(table.count)}


def reach_of_arrivals(server):
    """"an arrival 1 to the larger of T and O"."""
    return {j: max(task.T, task.O) for j, task in enumerate(server.tasks) if task.release == PERIODIC}


def sound_load(task, work, lost):
    """"pending work is at most 1,000,000, lost counts at most 65,535", and zero in an unused entry."""
    return (work, lost) == (0, 0) if task == ZERO_TASK else 0 <= work <= MOST_WORK and 0 <= lost <= MOST_LOST


def most_budget(server, work):
    """"budgets are at most C". "In a sound state a polling server with no pending work has budget 0"."""
    return 0 if server.kind == POLLING and not any(work) else server.C


def sound_entry(server, budget, work, lost, row):
    """One server's part of a sound state. An unused entry has C 0 and tasks of zero, so all its parts are zero."""
    loads = all(sound_load(server.tasks[j], work[j], lost[j]) for j in range(ENTRIES))
    return 0 <= budget <= most_budget(server, work) and loads and holds_each_once(row, reach_of_arrivals(server))


def sound_state(state):
    """"A state is sound if .."."""
    if not sound_table(state.table) or not holds_each_once(state.replenishments, reach_of_replenishments(state.table)):
        return False
    return all(sound_entry(state.table.servers[i], state.budgets[i], state.work[i], state.lost[i], state.arrivals[i]) for i in range(ENTRIES))


def zero_state(table):
    """A state that is zero but for the table that was handed in."""
    zeros = [[0] * ENTRIES for _ in range(ENTRIES)]
    return State(table, [0] * ENTRIES, zeros, [list(row) for row in zeros], EMPTY, [EMPTY] * ENTRIES)


def fresh(table):
    """Answers (refusal, state)."""
    if not sound_table(table):
        return refused(31), zero_state(table)
    return NONE, with_rows(fresh_state(table))


def tick(state):
    """Answers (refusal, state, answer)."""
    if not sound_state(state):
        return refused(31), state, ZERO_ANSWER
    after = by_meaning(state)
    answer = one_tick(after)
    return NONE, with_rows(after), answer


def arrive(state, server, task):
    """"The arrival call (server, task) takes effect for the next tick. It says accepted or lost". Answers (refusal, state, whether it is lost)."""
    if not sound_state(state):
        return refused(31), state, False
    refusal = first_refusal(arrival_checks(state.table, server, task))
    if refusal.number:
        return refusal, state, False
    after = by_meaning(state)
    lost = add_work(after, server, task)
    return NONE, with_rows(after), lost


# THE TRACE PROGRAM

MOST_TICKS = 1_000_000


def entry(place):
    """"`-` for the task means burning; two mean idle"."""
    return "-" if place is None else str(place)


def refused_line(number, at):
    return f"refused {number} at {at}"


def setup_part(input):
    """"as many setup bytes as the first two say (or all there are)"."""
    return input if len(input) < 2 else input[:number(input, 0, 2)]


def run_lines(state, first, count):
    """"a line for each tick"."""
    for tick in range(first, first + count):
        answer = one_tick(state)
        yield f"{tick} {entry(answer.server)} {entry(answer.task)}"


def arrival_lines(state, server, task, at):
    """"A refused arrival writes `refused N at K` .. and the run goes on"; a lost one writes `lost S T`, "an accepted one .. nothing"."""
    refusal = first_refusal(arrival_checks(state.table, server, task))
    if refusal.number:
        yield refused_line(refusal.number, at)
    elif add_work(state, server, task):
        yield f"lost {server} {task}"


def message_refusal(given, ticks):
    """The refusals that stop a run; "A message refused with 21 runs none of its ticks". Answers (number, message)."""
    refusal, message = read_message(given)
    if not refusal.number and message.kind == RUN and ticks + ticks_of(message) > MOST_TICKS:
        return 21, message
    return refusal.number, message


def message_lines(state, input, at):
    """The messages from the place `at` on. "At the end of input it writes `end` and the ticks run"."""
    ticks = 0
    while at < len(input):
        refusal, message = message_refusal(input[at:at + MESSAGE], ticks)
        if refusal:
            yield refused_line(refusal, at)
            return
        if message.kind == RUN:
            yield from run_lines(state, ticks, ticks_of(message))
            ticks += ticks_of(message)
        else:
            yield from arrival_lines(state, message.first, message.second, at)
        at += MESSAGE
    yield f"end {ticks}"


def lines(input):
    """"It writes the header `tick server task` in every run"."""
    yield "tick server task"
    given = setup_part(input)
    refusal, table = read_setup(given)
    if refusal.number:
        yield refused_line(refusal.number, refusal.place)
    else:
        yield from message_lines(fresh_state(table), input, len(given))


def trace(input):
    """The whole output for a whole input."""
    return "".join(line + "\n" for line in lines(input)).encode()
