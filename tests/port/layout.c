/* What the archive stores, read by the names that the header gives it: a line `NAME VALUE` for each field. tests/port.py compares the lines with the model's.
 *     layout < SETUP     a setup whose server 0 has a first task on arrival */
#include "ribascenzo.h"
#include <stdio.h>
#include <stdlib.h>
#include <string.h>

enum { TICKS = 40 };

/* What the next lines are of, as `later.entries[3].loads[5]`. */
static char path[200];

/* Goes down to a part, and answers where its name begins, for `leave`. */
static size_t enter(const char *part, int place)
{
    size_t was = strlen(path), left = sizeof path - was;
    const char *dot = was ? "." : "";
    int length = place < 0 ? snprintf(path + was, left, "%s%s", dot, part) : snprintf(path + was, left, "%s%s[%d]", dot, part, place);
    if (length < 0 || (size_t)length >= left)
        exit(2);
    return was;
}

static void leave(size_t was)
{
    path[was] = 0;
}

static void line(const char *field, uint32_t value)
{
    printf("%s.%s %lu\n", path, field, (unsigned long)value);
}

static void line_of(const char *part, const char *field, uint32_t value)
{
    size_t was = enter(part, -1);
    line(field, value);
    leave(was);
}

static void accepted(struct ribascenzo_refusal r)
{
    if (r.number) {
        printf("refused %u at %zu\n", (unsigned)r.number, r.place);
        exit(1);
    }
}

static void write_refusal(const char *part, struct ribascenzo_refusal r)
{
    line_of(part, "number", r.number);
    line_of(part, "place", r.place);
}

static void write_queue(const char *part, const struct ribascenzo_queue *q)
{
    size_t was = enter(part, -1);
    line("count", q->count);
    for (int k = 0; k < RIBASCENZO_CELLS; k++)
        printf("%s.cells[%d] %lu\n", path, k, (unsigned long)(RIBASCENZO_CELL_ID(q->cells[k]) * 65536 + RIBASCENZO_CELL_GAP(q->cells[k])));
    leave(was);
}

static void write_task(int j, const struct ribascenzo_task *t)
{
    size_t was = enter("tasks", j);
    line("release", t->release);
    line("work", t->work);
    line("period", t->period);
    line("offset", t->offset);
    leave(was);
}

static void write_server(int i, const struct ribascenzo_server *v)
{
    size_t was = enter("servers", i);
    line("kind", v->kind);
    line("count", v->count);
    line("period", v->period);
    line("budget", v->budget);
    for (int j = 0; j < RIBASCENZO_ENTRIES; j++)
        write_task(j, &v->tasks[j]);
    leave(was);
}

static void write_table(const char *part, const struct ribascenzo_table *t)
{
    size_t was = enter(part, -1);
    line("count", t->count);
    for (int i = 0; i < RIBASCENZO_ENTRIES; i++)
        write_server(i, &t->servers[i]);
    leave(was);
}

static void write_load(const char *part, int j, const struct ribascenzo_load *l)
{
    size_t was = enter(part, j);
    line("pending", l->pending);
    line("lost", l->lost);
    leave(was);
}

static void write_entry(int i, const struct ribascenzo_entry *e)
{
    size_t was = enter("entries", i);
    line("budget", e->budget);
    for (int j = 0; j < RIBASCENZO_ENTRIES; j++)
        write_load("loads", j, &e->loads[j]);
    write_queue("arrivals", &e->arrivals);
    leave(was);
}

static void write_state(const char *part, const struct ribascenzo_state *s)
{
    size_t was = enter(part, -1);
    write_table("table", &s->table);
    write_queue("refills", &s->refills);
    for (int i = 0; i < RIBASCENZO_ENTRIES; i++)
        write_entry(i, &s->entries[i]);
    leave(was);
}

static void write_answer(const char *part, const struct ribascenzo_tick_answer *a)
{
    size_t was = enter(part, -1);
    line("choice", a->choice);
    line("server", a->server);
    line("task", a->task);
    line("handled", a->handled);
    leave(was);
}

static void write_message(const char *part, const struct ribascenzo_message *m)
{
    size_t was = enter(part, -1);
    line("kind", m->kind);
    line("first", m->first);
    line("second", m->second);
    leave(was);
}

/* A table that the caller fills by the header's names, field by field. */
static struct ribascenzo_table filled(const struct ribascenzo_table *t)
{
    struct ribascenzo_table copy;
    memset(&copy, 0, sizeof copy);
    copy.count = t->count;
    for (uint32_t i = 0; i < t->count; i++) {
        const struct ribascenzo_server *v = &t->servers[i];
        struct ribascenzo_server *to = &copy.servers[i];
        to->kind = v->kind;
        to->count = v->count;
        to->period = v->period;
        to->budget = v->budget;
        for (uint32_t j = 0; j < v->count; j++) {
            to->tasks[j].release = v->tasks[j].release;
            to->tasks[j].work = v->tasks[j].work;
            to->tasks[j].period = v->tasks[j].period;
            to->tasks[j].offset = v->tasks[j].offset;
        }
    }
    return copy;
}

static void states(const uint8_t *setup, size_t length)
{
    static struct ribascenzo_state s;
    struct ribascenzo_tick_answer a;
    struct ribascenzo_load l;
    uint32_t lost, budget;
    accepted(ribascenzo_fresh(&s, setup, length));
    write_state("fresh", &s);
    for (int k = 0; k < TICKS; k++) {
        accepted(ribascenzo_arrive(&s, 0, 0, &lost));
        line_of("arrival", "lost", lost);
        accepted(ribascenzo_tick(&s, &a));
        write_answer("answer", &a);
    }
    write_state("later", &s);
    accepted(ribascenzo_budget(&s, 1, &budget));
    line_of("read", "budget", budget);
    accepted(ribascenzo_load(&s, 0, 0, &l));
    write_load("load", -1, &l);
    write_refusal("no task", ribascenzo_load(&s, 0, 8, &l));
}

static void files(uint8_t *setup, size_t length)
{
    static struct ribascenzo_table t, own;
    static uint8_t out[RIBASCENZO_LONGEST_SETUP];
    uint8_t bytes[RIBASCENZO_MESSAGE_BYTES];
    struct ribascenzo_message m;
    uint32_t written;
    accepted(ribascenzo_setup_read(setup, length, &t));
    write_table("table", &t);
    own = filled(&t);
    accepted(ribascenzo_setup_write(&own, out, sizeof out, &written));
    line_of("written", "bytes", written);
    line_of("written", "same", !memcmp(out, setup, length));
    setup[length - 1] ^= 255;
    setup[length - 4] = 255;
    write_refusal("damaged", ribascenzo_setup_read(setup, length, &t));
    accepted(ribascenzo_message_write(RIBASCENZO_ARRIVAL, 3, 5, bytes, sizeof bytes));
    accepted(ribascenzo_message_read(bytes, sizeof bytes, &m));
    write_message("arrival", &m);
    accepted(ribascenzo_message_write(RIBASCENZO_RUN, 3, 5, bytes, sizeof bytes));
    accepted(ribascenzo_message_read(bytes, sizeof bytes, &m));
    write_message("run", &m);
}

static void queues(void)
{
    struct ribascenzo_queue q;
    uint32_t distance;
    uint8_t id;
    ribascenzo_queue_empty(&q);
    accepted(ribascenzo_queue_insert(&q, 7, 0));
    accepted(ribascenzo_queue_insert(&q, 200, 70000));
    accepted(ribascenzo_queue_insert(&q, 9, 11));
    write_queue("queue", &q);
    accepted(ribascenzo_queue_time_left(&q, 200, &distance));
    line_of("queue", "distance", distance);
    accepted(ribascenzo_queue_take(&q, &id));
    line_of("queue", "taken", id);
    accepted(ribascenzo_queue_clock(&q));
    accepted(ribascenzo_queue_remove(&q, 9));
    accepted(ribascenzo_queue_push_back(&q));
    write_queue("queue", &q);
    line_of("queue", "sound", ribascenzo_queue_sound(&q));
    q.count = RIBASCENZO_CELLS + 1;
    line_of("queue", "sound", ribascenzo_queue_sound(&q));
}

int main(void)
{
    static uint8_t setup[RIBASCENZO_LONGEST_SETUP];
    size_t length = fread(setup, 1, sizeof setup, stdin);
    states(setup, length);
    queues();
    files(setup, length);
    return 0;
}
