// The documents' servers and tasks in plain C, with no check of the state: ticks over relative queues with fillers. bench/ticks.c and bench/trace.c stand on it.
#include <stdbool.h>
#include <stdint.h>
#include <stdio.h>
#include <string.h>

enum { ENTRIES = 8, CELLS = 32, FULL = 65535, FILLER = 255, IDLING = 1, POLLING = 3, MOST_PENDING = 1000000, MOST_LOST = 65535 };

typedef struct { uint8_t id; uint16_t gap; } Cell;
typedef struct { Cell cells[CELLS]; uint32_t len; } Queue;
typedef struct { uint32_t work, period, offset, pending; uint16_t lost; bool periodic; } Task;
typedef struct { Task tasks[ENTRIES]; Queue arrivals; uint32_t count, period, full, budget; uint8_t kind; } Server;
typedef struct { Server servers[ENTRIES]; Queue refills; uint32_t count, polled; } State; // polled: the place behind the last polling server
typedef struct { uint32_t handled; uint8_t server, task; } Answer; // ENTRIES: none

// THE QUEUE

static bool due(const Queue *q)
{
    return q->len && q->cells[0].gap == 0;
}

static uint8_t take(Queue *q)
{
    uint8_t id = q->cells[0].id;
    q->len--;
    memmove(q->cells, q->cells + 1, q->len * sizeof(Cell));
    q->cells[q->len] = (Cell){ 0, 0 };
    return id;
}

// How many cells a gap takes.
static uint32_t cells_of(uint32_t gap)
{
    return gap ? (gap - 1) / FULL + 1 : 1;
}

// The cells of one gap: the first has what remains, each other a full gap, and the last is the event.
static void put(Cell *c, uint32_t cells, uint8_t id, uint32_t gap)
{
    uint16_t first = gap - (cells - 1) * FULL;
    for (; cells > 1; cells--) {
        *c++ = (Cell){ FILLER, first };
        first = FULL;
    }
    *c = (Cell){ id, first };
}

// The event goes in behind all that are due at the same time, and takes its part of the gap of the event behind it.
static void insert(Queue *q, uint8_t id, uint32_t delay)
{
    uint32_t i = 0, at = 0, start = 0, last = 0;
    while (i < q->len && at + q->cells[i].gap <= delay) {
        at += q->cells[i].gap;
        if (q->cells[i++].id != FILLER) {
            start = i;
            last = at;
        }
    }
    uint32_t own = cells_of(delay - last);
    if (i == q->len) {
        put(q->cells + start, own, id, delay - last);
        q->len = start + own;
        return;
    }
    do
        at += q->cells[i].gap;
    while (q->cells[i++].id == FILLER);
    uint8_t next = q->cells[i - 1].id;
    uint32_t then = cells_of(at - delay), to = start + own + then;
    memmove(q->cells + to, q->cells + i, (q->len - i) * sizeof(Cell));
    q->len = q->len - i + to;
    put(q->cells + start, own, id, delay - last);
    put(q->cells + start + own, then, next, at - delay);
}

// Every distance falls by 1, and a filler that reaches 0 goes. True where an event is then due.
static bool clock_down(Queue *q)
{
    if (!q->len || --q->cells[0].gap)
        return false;
    if (q->cells[0].id == FILLER)
        take(q);
    return due(q);
}

// THE TICK

static uint32_t first_pending(const Server *s)
{
    for (uint32_t j = 0; j < s->count; j++)
        if (s->tasks[j].pending)
            return j;
    return ENTRIES;
}

// The highest server that wants a tick and has budget, and in it the first task with pending work.
static Answer choose(const State *s)
{
    for (uint32_t i = 0; i < s->count; i++) {
        const Server *v = &s->servers[i];
        if (!v->budget)
            continue;
        uint32_t j = first_pending(v);
        if (v->kind == IDLING || j < ENTRIES)
            return (Answer){ 0, i, j };
    }
    return (Answer){ 0, ENTRIES, ENTRIES };
}

// False where the arrival is lost.
static bool arrive(Task *t)
{
    bool fits = t->pending + t->work <= MOST_PENDING;
    if (fits)
        t->pending += t->work;
    else if (t->lost < MOST_LOST)
        t->lost++;
    return fits;
}

// Polling servers without work give their budget up.
static void lapse(State *s)
{
    for (uint32_t i = 0; i < s->polled; i++) {
        Server *v = &s->servers[i];
        if (v->kind == POLLING && v->budget && first_pending(v) == ENTRIES)
            v->budget = 0;
    }
}

static Answer tick(State *s)
{
    Answer a = choose(s);
    if (a.server < ENTRIES) {
        Server *v = &s->servers[a.server];
        v->budget--;
        if (a.task < ENTRIES)
            v->tasks[a.task].pending--;
    }
    if (clock_down(&s->refills))
        do {
            uint8_t i = take(&s->refills);
            s->servers[i].budget = s->servers[i].full;
            insert(&s->refills, i, s->servers[i].period);
            a.handled++;
        } while (due(&s->refills));
    for (uint32_t i = 0; i < s->count; i++) {
        Server *v = &s->servers[i];
        if (clock_down(&v->arrivals))
            do {
                uint8_t j = take(&v->arrivals);
                arrive(&v->tasks[j]);
                insert(&v->arrivals, j, v->tasks[j].period);
                a.handled++;
            } while (due(&v->arrivals));
    }
    lapse(s);
    return a;
}

// THE SETUP, which is taken to be sound

static uint32_t field(const uint8_t **p, int bytes)
{
    uint32_t n = 0;
    while (bytes--)
        n = n << 8 | *(*p)++;
    return n;
}

static void fresh_task(Server *v, uint8_t j, const uint8_t **p)
{
    Task *t = &v->tasks[j];
    t->periodic = field(p, 1);
    t->work = field(p, 4);
    t->period = field(p, 4);
    t->offset = field(p, 4);
    if (!t->periodic)
        return;
    t->pending = t->offset ? 0 : t->work;
    insert(&v->arrivals, j, t->offset ? t->offset : t->period);
}

static void fresh(State *s, const uint8_t **p)
{
    *p += 3;
    s->count = field(p, 1);
    for (uint8_t i = 0; i < s->count; i++) {
        Server *v = &s->servers[i];
        v->kind = field(p, 1);
        v->count = field(p, 1);
        v->period = field(p, 4);
        v->full = field(p, 4);
        v->budget = v->full;
        insert(&s->refills, i, v->period);
        for (uint8_t j = 0; j < v->count; j++)
            fresh_task(v, j, p);
        if (v->kind == POLLING)
            s->polled = i + 1;
    }
    lapse(s);
}
