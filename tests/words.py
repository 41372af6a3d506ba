"""The words of 32 bits in which include/ribascenzo.h holds a queue, a table and a state: the model's values from words, words from the model's values, and the
names that the header gives to the words, in their order."""
import model

QUEUE = 1 + model.CELLS
LOAD = 2
ENTRY = 1 + LOAD * model.ENTRIES + QUEUE
TASK = 4
SERVER = 4 + TASK * model.ENTRIES
TABLE = 1 + SERVER * model.ENTRIES
STATE = TABLE + QUEUE + ENTRY * model.ENTRIES

LARGEST_CELL = 2 ** 24 - 1
NO_CELL = (model.FILLER, 0)  # what a larger word is: a filler of gap 0, which no sound queue has


def each(words, at, size, count):
    """So many parts of `size` words each from the place `at` on."""
    return [words[at + size * k:at + size * (k + 1)] for k in range(count)]


def joined(parts):
    return [word for part in parts for word in part]


# QUEUES

def cell(word):
    return (word >> 16, word & 65_535) if word <= LARGEST_CELL else NO_CELL


def row(words):
    return model.Row(tuple(cell(word) for word in words[1:QUEUE]), words[0])


def row_words(one):
    return [one.count] + [id * 65_536 + gap for id, gap in one.cells]


# TABLES

def server(words):
    tasks = tuple(model.Task(*task) for task in each(words, 4, TASK, model.ENTRIES))
    return model.Server(*words[:4], tasks)


def server_words(one):
    return [one.kind, one.count, one.P, one.C] + joined(one.tasks)


def table(words):
    return model.Table(words[0], tuple(server(part) for part in each(words, 1, SERVER, model.ENTRIES)))


def table_words(one):
    return [one.count] + joined(server_words(part) for part in one.servers)


# STATES

def state(words):
    entries = each(words, TABLE + QUEUE, ENTRY, model.ENTRIES)
    loads = [each(entry, 1, LOAD, model.ENTRIES) for entry in entries]
    return model.State(
        table=table(words),
        budgets=[entry[0] for entry in entries],
        work=[[pending for pending, _ in parts] for parts in loads],
        lost=[[lost for _, lost in parts] for parts in loads],
        replenishments=row(words[TABLE:]),
        arrivals=[row(entry[1 + LOAD * model.ENTRIES:]) for entry in entries])


def entry_words(one, i):
    return [one.budgets[i]] + joined(zip(one.work[i], one.lost[i])) + row_words(one.arrivals[i])


def state_words(one):
    return table_words(one.table) + row_words(one.replenishments) + joined(entry_words(one, i) for i in range(model.ENTRIES))


# ANSWERS

def answer_words(answer):
    """0 idle, 1 burning, 2 running; then the server and the task, 0 where there is none, and the events handled."""
    choice = 0 if answer.server is None else 1 if answer.task is None else 2
    return [choice, answer.server or 0, answer.task or 0, answer.handled]


def message_words(message):
    if message.kind == model.RUN:
        return [message.kind, model.ticks_of(message), 0]
    return list(message)


# NAMES

def queue_names(of):
    return [f"{of}.count"] + [f"{of}.cells[{k}]" for k in range(model.CELLS)]


def server_names(of):
    tasks = [f"{of}.tasks[{j}].{field}" for j in range(model.ENTRIES) for field in ("release", "work", "period", "offset")]
    return [f"{of}.{field}" for field in ("kind", "count", "period", "budget")] + tasks


def table_names(of):
    return [f"{of}.count"] + joined(server_names(f"{of}.servers[{i}]") for i in range(model.ENTRIES))


def entry_names(of):
    loads = [f"{of}.loads[{j}].{field}" for j in range(model.ENTRIES) for field in ("pending", "lost")]
    return [f"{of}.budget"] + loads + queue_names(f"{of}.arrivals")


def state_names(of):
    return table_names(f"{of}.table") + queue_names(f"{of}.refills") + joined(entry_names(f"{of}.entries[{i}]") for i in range(model.ENTRIES))
