// The calls of include/ribascenzo.h in plain C: the same checks, refusals and words, altered where they lie. bench/port measures it beside the archive, and
// tests/port.py --plain holds it to the model.
#include "ribascenzo.h"
#include <string.h>

enum { CELLS = RIBASCENZO_CELLS, ENTRIES = RIBASCENZO_ENTRIES, FULL = RIBASCENZO_LARGEST_GAP, FILLER = RIBASCENZO_FILLER, LONGEST = RIBASCENZO_LONGEST };
enum { HEAD = 4, SERVER_RECORD = 10, TASK_RECORD = 13 };

typedef struct ribascenzo_refusal Refusal;
typedef struct ribascenzo_queue Queue;
typedef struct ribascenzo_task Task;
typedef struct ribascenzo_server Server;
typedef struct ribascenzo_table Table;
typedef struct ribascenzo_load Load;
typedef struct ribascenzo_entry Entry;
typedef struct ribascenzo_state State;

static Refusal none(void)
{
    return (Refusal){ 0, 0 };
}

static Refusal refused(uint8_t number)
{
    return (Refusal){ number, 0 };
}

static Refusal refused_at(uint8_t number, size_t place)
{
    return (Refusal){ number, place };
}

static bool in_range(uint32_t n, uint32_t least, uint32_t most)
{
    return least <= n && n <= most;
}

// Whether words are all 0.
static bool zero(const void *from, uint32_t words)
{
    const uint32_t *w = from;
    uint32_t some = 0;
    for (uint32_t i = 0; i < words; i++)
        some |= w[i];
    return !some;
}

// THE QUEUE

static uint32_t id_of(uint32_t cell)
{
    return cell >> 16;
}

static uint32_t gap_of(uint32_t cell)
{
    return cell & FULL;
}

static uint32_t cell(uint32_t id, uint32_t gap)
{
    return id << 16 | gap;
}

// In a chain of fillers the first has what remains, and each cell behind it a full gap.
static bool sound_queue(const Queue *q)
{
    uint64_t seen[4] = { 0 };
    uint32_t at = 0;
    bool filler = false;
    if (q->count > CELLS)
        return false;
    for (uint32_t i = 0; i < q->count; i++) {
        uint32_t id = id_of(q->cells[i]), gap = gap_of(q->cells[i]);
        if (id > FILLER || (filler && gap != FULL))
            return false;
        at += gap;
        filler = id == FILLER;
        if (filler ? !gap : seen[id / 64] >> id % 64 & 1)
            return false;
        if (!filler)
            seen[id / 64] |= (uint64_t)1 << id % 64;
    }
    return !filler && at <= LONGEST && zero(q->cells + q->count, CELLS - q->count);
}

// Where an event stands in a queue.
typedef struct {
    uint32_t start; // the first cell of its gap
    uint32_t at;    // its own cell; the count where there is no such event
    uint32_t before, distance;
} Found;

static Found find(const Queue *q, uint8_t id)
{
    Found f = { 0, 0, 0, 0 };
    for (; f.at < q->count; f.at++) {
        f.distance += gap_of(q->cells[f.at]);
        if (id_of(q->cells[f.at]) == FILLER)
            continue;
        if (id_of(q->cells[f.at]) == id)
            break;
        f.start = f.at + 1;
        f.before = f.distance;
    }
    return f;
}

static bool due(const Queue *q)
{
    return q->count && gap_of(q->cells[0]) == 0;
}

// How many cells a gap takes.
static uint32_t cells_of(uint32_t gap)
{
    return gap ? (gap - 1) / FULL + 1 : 1;
}

static void put(uint32_t *to, uint32_t cells, uint32_t id, uint32_t gap)
{
    uint32_t first = gap - (cells - 1) * FULL;
    for (; cells > 1; cells--) {
        *to++ = cell(FILLER, first);
        first = FULL;
    }
    *to = cell(id, first);
}

// The cells from `from` on go to `to`; what is left behind the last is 0.
static void move_tail(Queue *q, uint32_t from, uint32_t to)
{
    uint32_t before = q->count;
    memmove(q->cells + to, q->cells + from, (before - from) * sizeof *q->cells);
    q->count = before - from + to;
    for (uint32_t i = q->count; i < before; i++)
        q->cells[i] = 0;
}

static uint32_t take(Queue *q)
{
    uint32_t id = id_of(q->cells[0]);
    move_tail(q, 1, 0);
    return id;
}

// The event goes in behind all that are due at the same time, and takes its part of the gap of the event behind it. False, and nothing is done: no room.
static bool insert(Queue *q, uint32_t id, uint32_t delay)
{
    uint32_t i = 0, at = 0, start = 0, last = 0;
    while (i < q->count && at + gap_of(q->cells[i]) <= delay) {
        at += gap_of(q->cells[i]);
        if (id_of(q->cells[i++]) != FILLER) {
            start = i;
            last = at;
        }
    }
    uint32_t own = cells_of(delay - last), then = 0, next = 0;
    if (i == q->count) {
        i = start;
    } else {
        do
            at += gap_of(q->cells[i]);
        while (id_of(q->cells[i++]) == FILLER);
        next = id_of(q->cells[i - 1]);
        then = cells_of(at - delay);
    }
    if (start + own + then + q->count - i > CELLS)
        return false;
    move_tail(q, i, start + own + then);
    put(q->cells + start, own, id, delay - last);
    if (then)
        put(q->cells + start + own, then, next, at - delay);
    return true;
}

// Every distance falls by 1, and a filler that reaches 0 goes.
static void clock_down(Queue *q)
{
    if (!q->count)
        return;
    q->cells[0]--;
    if (q->cells[0] == cell(FILLER, 0))
        take(q);
}

void ribascenzo_queue_empty(Queue *q)
{
    memset(q, 0, sizeof *q);
}

bool ribascenzo_queue_sound(const Queue *q)
{
    return sound_queue(q);
}

Refusal ribascenzo_queue_insert(Queue *q, uint8_t id, uint32_t delay)
{
    if (!sound_queue(q))
        return refused(RIBASCENZO_UNSOUND);
    if (id == FILLER)
        return refused(RIBASCENZO_ID_OF_FILLER);
    if (find(q, id).at < q->count)
        return refused(RIBASCENZO_ID_THERE);
    if (delay > LONGEST)
        return refused(RIBASCENZO_DELAY_TOO_LONG);
    return insert(q, id, delay) ? none() : refused(RIBASCENZO_NO_ROOM);
}

Refusal ribascenzo_queue_remove(Queue *q, uint8_t id)
{
    if (!sound_queue(q))
        return refused(RIBASCENZO_UNSOUND);
    Found f = find(q, id);
    if (f.at == q->count)
        return refused(RIBASCENZO_NO_SUCH_EVENT);
    uint32_t i = f.at + 1, at = f.distance;
    if (i == q->count) {
        move_tail(q, i, f.start);
        return none();
    }
    do
        at += gap_of(q->cells[i]);
    while (id_of(q->cells[i++]) == FILLER);
    uint32_t next = id_of(q->cells[i - 1]), cells = cells_of(at - f.before);
    move_tail(q, i, f.start + cells);
    put(q->cells + f.start, cells, next, at - f.before);
    return none();
}

Refusal ribascenzo_queue_time_left(const Queue *q, uint8_t id, uint32_t *distance)
{
    if (!sound_queue(q))
        return refused(RIBASCENZO_UNSOUND);
    Found f = find(q, id);
    if (f.at == q->count)
        return refused(RIBASCENZO_NO_SUCH_EVENT);
    *distance = f.distance;
    return none();
}

Refusal ribascenzo_queue_clock(Queue *q)
{
    if (!sound_queue(q))
        return refused(RIBASCENZO_UNSOUND);
    if (due(q))
        return refused(RIBASCENZO_EVENT_DUE);
    clock_down(q);
    return none();
}

Refusal ribascenzo_queue_take(Queue *q, uint8_t *id)
{
    if (!sound_queue(q))
        return refused(RIBASCENZO_UNSOUND);
    if (!due(q))
        return refused(RIBASCENZO_NOTHING_DUE);
    *id = take(q);
    return none();
}

static uint32_t longest_distance(const Queue *q)
{
    uint32_t at = 0;
    for (uint32_t i = 0; i < q->count; i++)
        at += gap_of(q->cells[i]);
    return at;
}

Refusal ribascenzo_queue_push_back(Queue *q)
{
    if (!sound_queue(q))
        return refused(RIBASCENZO_UNSOUND);
    if (!q->count)
        return none();
    bool grows = gap_of(q->cells[0]) == FULL;
    if (grows && q->count == CELLS)
        return refused(RIBASCENZO_NO_ROOM);
    if (longest_distance(q) == LONGEST)
        return refused(RIBASCENZO_AT_LONGEST);
    if (grows) {
        move_tail(q, 0, 1);
        q->cells[0] = cell(FILLER, 0);
    }
    q->cells[0]++;
    return none();
}

// TABLES AND STATES

static bool sound_task(const Task *t)
{
    if (!in_range(t->work, 1, RIBASCENZO_MOST_WORK))
        return false;
    if (t->release == RIBASCENZO_PERIODIC)
        return in_range(t->period, 1, LONGEST) && t->offset <= LONGEST;
    return t->release == RIBASCENZO_ON_ARRIVAL && !t->period && !t->offset;
}

static bool sound_server(const Server *v)
{
    if (!in_range(v->kind, RIBASCENZO_IDLING, RIBASCENZO_POLLING) || v->count > ENTRIES)
        return false;
    if (!in_range(v->period, 1, LONGEST) || !in_range(v->budget, 1, v->period))
        return false;
    for (uint32_t j = 0; j < v->count; j++)
        if (!sound_task(&v->tasks[j]))
            return false;
    return zero(v->tasks + v->count, (ENTRIES - v->count) * sizeof(Task) / 4);
}

static bool sound_table(const Table *t)
{
    if (!in_range(t->count, 1, ENTRIES))
        return false;
    for (uint32_t i = 0; i < t->count; i++)
        if (!sound_server(&t->servers[i]))
            return false;
    return zero(t->servers + t->count, (ENTRIES - t->count) * sizeof(Server) / 4);
}

// Whether a queue is sound and holds one event for each reach above 0, 1 to the reach away, and no other.
static bool holds(const Queue *q, const uint32_t reach[ENTRIES])
{
    uint32_t at = 0, events = 0, wanted = 0;
    if (!sound_queue(q))
        return false;
    for (uint32_t i = 0; i < q->count; i++) {
        uint32_t id = id_of(q->cells[i]);
        at += gap_of(q->cells[i]);
        if (id == FILLER)
            continue;
        if (id >= ENTRIES || !in_range(at, 1, reach[id]))
            return false;
        events++;
    }
    for (uint32_t i = 0; i < ENTRIES; i++)
        wanted += reach[i] > 0;
    return events == wanted;
}

static uint32_t first_pending(const Server *v, const Entry *e)
{
    for (uint32_t j = 0; j < v->count; j++)
        if (e->loads[j].pending)
            return j;
    return ENTRIES;
}

// Whether a server has a budget that it must have given up: it is polling, and has no work.
static bool lapses(const Server *v, const Entry *e)
{
    return v->kind == RIBASCENZO_POLLING && e->budget && first_pending(v, e) == ENTRIES;
}

// An unused entry belongs to a server that is 0, which leaves no budget, no load and no event.
static bool sound_entry(const Server *v, const Entry *e)
{
    uint32_t reach[ENTRIES];
    if (e->budget > v->budget)
        return false;
    for (uint32_t j = 0; j < v->count; j++)
        if (e->loads[j].pending > RIBASCENZO_MOST_WORK || e->loads[j].lost > RIBASCENZO_MOST_LOST)
            return false;
    if (lapses(v, e) || !zero(e->loads + v->count, (ENTRIES - v->count) * sizeof(Load) / 4))
        return false;
    for (uint32_t j = 0; j < ENTRIES; j++)
        reach[j] = v->tasks[j].period > v->tasks[j].offset ? v->tasks[j].period : v->tasks[j].offset;
    return holds(&e->arrivals, reach);
}

static bool sound_state(const State *s)
{
    uint32_t reach[ENTRIES];
    if (!sound_table(&s->table))
        return false;
    for (uint32_t i = 0; i < ENTRIES; i++) {
        if (!sound_entry(&s->table.servers[i], &s->entries[i]))
            return false;
        reach[i] = s->table.servers[i].period;
    }
    return holds(&s->refills, reach);
}

bool ribascenzo_sound(const State *s)
{
    return sound_state(s);
}

// THE TICK

// The highest server that wants a tick and has budget, and in it the first task with pending work; both are charged.
static void serve(State *s, struct ribascenzo_tick_answer *a)
{
    *a = (struct ribascenzo_tick_answer){ RIBASCENZO_IDLE, 0, 0, 0 };
    for (uint32_t i = 0; i < s->table.count; i++) {
        const Server *v = &s->table.servers[i];
        Entry *e = &s->entries[i];
        if (!e->budget)
            continue;
        uint32_t j = first_pending(v, e);
        if (v->kind != RIBASCENZO_IDLING && j == ENTRIES)
            continue;
        a->server = i;
        e->budget--;
        a->choice = RIBASCENZO_BURNING;
        if (j < ENTRIES) {
            a->choice = RIBASCENZO_RUNNING;
            a->task = j;
            e->loads[j].pending--;
        }
        return;
    }
}

// True where the work is lost.
static bool arrive(const Task *t, Load *l)
{
    bool lost = l->pending + t->work > RIBASCENZO_MOST_WORK;
    if (!lost)
        l->pending += t->work;
    else if (l->lost < RIBASCENZO_MOST_LOST)
        l->lost++;
    return lost;
}

static uint32_t refill(State *s)
{
    uint32_t handled = 0;
    clock_down(&s->refills);
    for (; due(&s->refills); handled++) {
        uint32_t i = take(&s->refills);
        s->entries[i].budget = s->table.servers[i].budget;
        insert(&s->refills, i, s->table.servers[i].period);
    }
    return handled;
}

// The last of a server's events on a tick: behind them a polling server without work gives its budget up.
static uint32_t release(const Server *v, Entry *e)
{
    uint32_t handled = 0;
    clock_down(&e->arrivals);
    for (; due(&e->arrivals); handled++) {
        uint32_t j = take(&e->arrivals);
        arrive(&v->tasks[j], &e->loads[j]);
        insert(&e->arrivals, j, v->tasks[j].period);
    }
    if (lapses(v, e))
        e->budget = 0;
    return handled;
}

Refusal ribascenzo_tick(State *s, struct ribascenzo_tick_answer *answer)
{
    if (!sound_state(s))
        return refused(RIBASCENZO_UNSOUND);
    serve(s, answer);
    answer->handled = refill(s);
    for (uint32_t i = 0; i < s->table.count; i++)
        answer->handled += release(&s->table.servers[i], &s->entries[i]);
    return none();
}

Refusal ribascenzo_arrive(State *s, uint8_t server, uint8_t task, uint32_t *lost)
{
    if (!sound_state(s))
        return refused(RIBASCENZO_UNSOUND);
    if (server >= s->table.count)
        return refused(RIBASCENZO_NO_SERVER);
    if (task >= s->table.servers[server].count)
        return refused(RIBASCENZO_NO_TASK);
    const Task *t = &s->table.servers[server].tasks[task];
    if (t->release == RIBASCENZO_PERIODIC)
        return refused(RIBASCENZO_TASK_PERIODIC);
    *lost = arrive(t, &s->entries[server].loads[task]);
    return none();
}

Refusal ribascenzo_budget(const State *s, uint8_t server, uint32_t *budget)
{
    if (!sound_state(s))
        return refused(RIBASCENZO_UNSOUND);
    if (server >= s->table.count)
        return refused(RIBASCENZO_NO_SERVER);
    *budget = s->entries[server].budget;
    return none();
}

Refusal ribascenzo_load(const State *s, uint8_t server, uint8_t task, Load *load)
{
    if (!sound_state(s))
        return refused(RIBASCENZO_UNSOUND);
    if (server >= s->table.count)
        return refused(RIBASCENZO_NO_SERVER);
    if (task >= s->table.servers[server].count)
        return refused(RIBASCENZO_NO_TASK);
    *load = s->entries[server].loads[task];
    return none();
}

// SETUP FILES

static uint32_t field(const uint8_t *bytes, int size)
{
    uint32_t n = 0;
    while (size--)
        n = n << 8 | *bytes++;
    return n;
}

static Refusal server_refusal(const uint8_t *setup, size_t at, size_t length)
{
    const uint8_t *r = setup + at;
    if (length - at < SERVER_RECORD)
        return refused_at(RIBASCENZO_RECORD_CUT, at);
    if (!in_range(r[0], RIBASCENZO_IDLING, RIBASCENZO_POLLING))
        return refused_at(RIBASCENZO_SERVER_KIND, at);
    if (r[1] > ENTRIES)
        return refused_at(RIBASCENZO_TASK_COUNT, at + 1);
    if (!in_range(field(r + 2, 4), 1, LONGEST))
        return refused_at(RIBASCENZO_PERIOD_RANGE, at + 2);
    if (!in_range(field(r + 6, 4), 1, field(r + 2, 4)))
        return refused_at(RIBASCENZO_BUDGET_RANGE, at + 6);
    return none();
}

static Refusal task_refusal(const uint8_t *setup, size_t at, size_t length)
{
    const uint8_t *r = setup + at;
    if (length - at < TASK_RECORD)
        return refused_at(RIBASCENZO_RECORD_CUT, at);
    if (r[0] > RIBASCENZO_PERIODIC)
        return refused_at(RIBASCENZO_RELEASE_KIND, at);
    if (!in_range(field(r + 1, 4), 1, RIBASCENZO_MOST_WORK))
        return refused_at(RIBASCENZO_WORK_RANGE, at + 1);
    uint32_t least = r[0], most = r[0] ? LONGEST : 0;
    if (!in_range(field(r + 5, 4), least, most))
        return refused_at(RIBASCENZO_RELEASE_TIMES, at + 5);
    if (!in_range(field(r + 9, 4), 0, most))
        return refused_at(RIBASCENZO_RELEASE_TIMES, at + 9);
    return none();
}

static Refusal records_refusal(const uint8_t *setup, size_t length)
{
    size_t at = HEAD;
    for (uint32_t i = 0; i < setup[3]; i++) {
        Refusal r = server_refusal(setup, at, length);
        if (r.number)
            return r;
        uint32_t tasks = setup[at + 1];
        at += SERVER_RECORD;
        for (; tasks; tasks--) {
            r = task_refusal(setup, at, length);
            if (r.number)
                return r;
            at += TASK_RECORD;
        }
    }
    return at < length ? refused_at(RIBASCENZO_BYTES_LEFT, at) : none();
}

static Refusal setup_refusal(const uint8_t *setup, size_t length)
{
    if (length < HEAD)
        return refused(RIBASCENZO_SETUP_SHORT);
    if (field(setup, 2) != length)
        return refused(RIBASCENZO_LENGTH_DIFFERS);
    if (setup[2] != 1)
        return refused_at(RIBASCENZO_SETUP_VERSION, 2);
    if (!in_range(setup[3], 1, ENTRIES))
        return refused_at(RIBASCENZO_SERVER_COUNT, 3);
    return records_refusal(setup, length);
}

// The table of a setup that is not refused.
static void read_table(const uint8_t *setup, Table *t)
{
    const uint8_t *r = setup + HEAD;
    memset(t, 0, sizeof *t);
    t->count = setup[3];
    for (uint32_t i = 0; i < t->count; i++) {
        Server *v = &t->servers[i];
        *v = (Server){ .kind = r[0], .count = r[1], .period = field(r + 2, 4), .budget = field(r + 6, 4) };
        r += SERVER_RECORD;
        for (uint32_t j = 0; j < v->count; j++, r += TASK_RECORD)
            v->tasks[j] = (Task){ .release = r[0], .work = field(r + 1, 4), .period = field(r + 5, 4), .offset = field(r + 9, 4) };
    }
}

Refusal ribascenzo_setup_read(const uint8_t *setup, size_t length, Table *table)
{
    Refusal r = setup_refusal(setup, length);
    if (!r.number)
        read_table(setup, table);
    return r;
}

static void fresh_entry(const Server *v, Entry *e)
{
    e->budget = v->budget;
    for (uint32_t j = 0; j < v->count; j++) {
        const Task *t = &v->tasks[j];
        if (t->release != RIBASCENZO_PERIODIC)
            continue;
        e->loads[j].pending = t->offset ? 0 : t->work;
        insert(&e->arrivals, j, t->offset ? t->offset : t->period);
    }
    if (lapses(v, e))
        e->budget = 0;
}

Refusal ribascenzo_fresh(State *s, const uint8_t *setup, size_t length)
{
    Refusal r = setup_refusal(setup, length);
    if (r.number)
        return r;
    memset(s, 0, sizeof *s);
    read_table(setup, &s->table);
    for (uint32_t i = 0; i < s->table.count; i++) {
        insert(&s->refills, i, s->table.servers[i].period);
        fresh_entry(&s->table.servers[i], &s->entries[i]);
    }
    return r;
}

static uint8_t *put_field(uint8_t *out, uint32_t n, int size)
{
    while (size--)
        *out++ = n >> 8 * size;
    return out;
}

static uint8_t *put_server(uint8_t *out, const Server *v)
{
    out = put_field(put_field(out, v->kind, 1), v->count, 1);
    out = put_field(put_field(out, v->period, 4), v->budget, 4);
    for (uint32_t j = 0; j < v->count; j++) {
        const Task *t = &v->tasks[j];
        out = put_field(put_field(out, t->release, 1), t->work, 4);
        out = put_field(put_field(out, t->period, 4), t->offset, 4);
    }
    return out;
}

static uint32_t setup_length(const Table *t)
{
    uint32_t n = HEAD;
    for (uint32_t i = 0; i < t->count; i++)
        n += SERVER_RECORD + TASK_RECORD * t->servers[i].count;
    return n;
}

Refusal ribascenzo_setup_write(const Table *table, uint8_t *out, size_t length, uint32_t *written)
{
    if (!sound_table(table))
        return refused(RIBASCENZO_UNSOUND);
    uint32_t n = setup_length(table);
    if (length < n)
        return refused(RIBASCENZO_BUFFER_SHORT);
    out = put_field(put_field(put_field(out, n, 2), 1, 1), table->count, 1);
    for (uint32_t i = 0; i < table->count; i++)
        out = put_server(out, &table->servers[i]);
    *written = n;
    return none();
}

// MESSAGES

static uint8_t message_refusal(const uint8_t *m, size_t length)
{
    if (length < 2)
        return RIBASCENZO_MESSAGE_CUT;
    if (field(m, 2) != RIBASCENZO_MESSAGE_BYTES)
        return RIBASCENZO_MESSAGE_LENGTH;
    if (length < RIBASCENZO_MESSAGE_BYTES)
        return RIBASCENZO_MESSAGE_CUT;
    if (m[2] != 1)
        return RIBASCENZO_MESSAGE_VERSION;
    return in_range(m[3], RIBASCENZO_RUN, RIBASCENZO_ARRIVAL) ? 0 : RIBASCENZO_MESSAGE_KIND;
}

Refusal ribascenzo_message_read(const uint8_t *bytes, size_t length, struct ribascenzo_message *message)
{
    uint8_t number = message_refusal(bytes, length);
    if (number)
        return refused(number);
    bool run = bytes[3] == RIBASCENZO_RUN;
    *message = (struct ribascenzo_message){ bytes[3], run ? field(bytes + 4, 2) : bytes[4], run ? 0 : bytes[5] };
    return none();
}

Refusal ribascenzo_message_write(uint8_t kind, uint8_t a, uint8_t b, uint8_t *out, size_t length)
{
    if (!in_range(kind, RIBASCENZO_RUN, RIBASCENZO_ARRIVAL))
        return refused(RIBASCENZO_MESSAGE_KIND);
    if (length < RIBASCENZO_MESSAGE_BYTES)
        return refused(RIBASCENZO_BUFFER_SHORT);
    put_field(put_field(put_field(out, RIBASCENZO_MESSAGE_BYTES, 2), 1, 1), kind, 1);
    out[4] = a;
    out[5] = b;
    return none();
}
