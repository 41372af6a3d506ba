// Document 01's trace program in plain C, with no check of the state: the lines and refusals of crate trace. bench/trace compares the two.
#include "scheduler.h"

enum { LONGEST_SETUP = 65535, HEAD = 4, SERVER_RECORD = 10, TASK_RECORD = 13, MESSAGE = 6, RUN = 1, LONGEST = 1000000 };
enum { MOST_TICKS = 1000000, PIECE = 65536, LINE = 64 };

typedef struct { uint32_t number, place; } Refusal; // number 0: not refused

// OUTPUT, in large pieces

static char out[PIECE];
static uint32_t used;

static void flush_out(void)
{
    fwrite(out, 1, used, stdout);
    used = 0;
}

// Room for one more line.
static void begin_line(void)
{
    if (used > PIECE - LINE)
        flush_out();
}

static void word(const char *text)
{
    while (*text)
        out[used++] = *text++;
}

static void number(uint64_t n)
{
    char digits[20];
    uint32_t k = sizeof digits;
    do
        digits[--k] = '0' + n % 10;
    while (n /= 10);
    memcpy(out + used, digits + k, sizeof digits - k);
    used += sizeof digits - k;
}

// `-` where there is none.
static void place_in_table(uint8_t entry)
{
    out[used++] = ' ';
    out[used++] = entry < ENTRIES ? '0' + entry : '-';
}

static void tick_line(uint32_t tick, Answer a)
{
    begin_line();
    number(tick);
    place_in_table(a.server);
    place_in_table(a.task);
    out[used++] = '\n';
}

static void lost_line(uint8_t server, uint8_t task)
{
    begin_line();
    word("lost");
    place_in_table(server);
    place_in_table(task);
    out[used++] = '\n';
}

static void refused_line(uint32_t refusal, uint64_t at)
{
    begin_line();
    word("refused ");
    number(refusal);
    word(" at ");
    number(at);
    out[used++] = '\n';
}

static void end_line(uint32_t ticks)
{
    begin_line();
    word("end ");
    number(ticks);
    out[used++] = '\n';
}

// THE SETUP'S REFUSALS

static uint32_t field_at(const uint8_t *bytes, int size)
{
    return field(&bytes, size);
}

static bool in_range(uint32_t n, uint32_t least, uint32_t most)
{
    return least <= n && n <= most;
}

static Refusal server_refusal(const uint8_t *s, uint32_t at, uint32_t len)
{
    const uint8_t *r = s + at;
    if (len - at < SERVER_RECORD)
        return (Refusal){ 5, at };
    if (!in_range(r[0], IDLING, POLLING))
        return (Refusal){ 6, at };
    if (r[1] > ENTRIES)
        return (Refusal){ 7, at + 1 };
    if (!in_range(field_at(r + 2, 4), 1, LONGEST))
        return (Refusal){ 8, at + 2 };
    if (!in_range(field_at(r + 6, 4), 1, field_at(r + 2, 4)))
        return (Refusal){ 9, at + 6 };
    return (Refusal){ 0, 0 };
}

static Refusal task_refusal(const uint8_t *s, uint32_t at, uint32_t len)
{
    const uint8_t *r = s + at;
    if (len - at < TASK_RECORD)
        return (Refusal){ 5, at };
    bool periodic = r[0] == 1;
    if (r[0] > 1)
        return (Refusal){ 10, at };
    if (!in_range(field_at(r + 1, 4), 1, LONGEST))
        return (Refusal){ 11, at + 1 };
    if (!in_range(field_at(r + 5, 4), periodic, periodic ? LONGEST : 0))
        return (Refusal){ 12, at + 5 };
    if (!in_range(field_at(r + 9, 4), 0, periodic ? LONGEST : 0))
        return (Refusal){ 12, at + 9 };
    return (Refusal){ 0, 0 };
}

static Refusal records_refusal(const uint8_t *s, uint32_t len)
{
    uint32_t at = HEAD;
    for (uint32_t i = 0; i < s[3]; i++) {
        Refusal r = server_refusal(s, at, len);
        if (r.number)
            return r;
        uint32_t tasks = s[at + 1];
        at += SERVER_RECORD;
        for (uint32_t j = 0; j < tasks; j++) {
            r = task_refusal(s, at, len);
            if (r.number)
                return r;
            at += TASK_RECORD;
        }
    }
    return at < len ? (Refusal){ 13, at } : (Refusal){ 0, 0 };
}

static Refusal setup_refusal(const uint8_t *s, uint32_t len)
{
    if (len < HEAD)
        return (Refusal){ 1, 0 };
    if (field_at(s, 2) != len)
        return (Refusal){ 2, 0 };
    if (s[2] != 1)
        return (Refusal){ 3, 2 };
    if (!in_range(s[3], 1, ENTRIES))
        return (Refusal){ 4, 3 };
    return records_refusal(s, len);
}

// As many bytes as the first two say, or all there are.
static uint32_t read_setup(uint8_t *s)
{
    uint32_t len = fread(s, 1, 2, stdin);
    if (len < 2)
        return len;
    uint32_t stated = field_at(s, 2);
    return stated < 2 ? stated : 2 + fread(s + 2, 1, stated - 2, stdin);
}

// MESSAGES

static uint32_t message_refusal(const uint8_t *m, uint32_t len)
{
    if (len < 2)
        return 14;
    if (field_at(m, 2) != MESSAGE)
        return 15;
    if (len < MESSAGE)
        return 14;
    if (m[2] != 1)
        return 16;
    return in_range(m[3], 1, 2) ? 0 : 17;
}

static uint32_t arrival_refusal(const State *s, uint8_t server, uint8_t task)
{
    if (server >= s->count)
        return 18;
    if (task >= s->servers[server].count)
        return 19;
    return s->servers[server].tasks[task].periodic ? 20 : 0;
}

static void arrival(State *s, uint8_t server, uint8_t task, uint64_t at)
{
    uint32_t refusal = arrival_refusal(s, server, task);
    if (refusal)
        refused_line(refusal, at);
    else if (!arrive(&s->servers[server].tasks[task]))
        lost_line(server, task);
}

// The messages from `at` on, to the end of the input or to one that is refused.
static void messages(State *s, uint64_t at)
{
    uint8_t m[MESSAGE];
    uint32_t ticks = 0, len;
    for (; (len = fread(m, 1, MESSAGE, stdin)); at += MESSAGE) {
        uint32_t refusal = message_refusal(m, len);
        if (!refusal && m[3] == RUN && field_at(m + 4, 2) > MOST_TICKS - ticks)
            refusal = 21;
        if (refusal) {
            refused_line(refusal, at);
            return;
        }
        if (m[3] == RUN)
            for (uint32_t end = ticks + field_at(m + 4, 2); ticks < end; ticks++)
                tick_line(ticks, tick(s));
        else
            arrival(s, m[4], m[5], at);
    }
    end_line(ticks);
}

int main(void)
{
    static uint8_t setup[LONGEST_SETUP];
    static State s;
    uint32_t len = read_setup(setup);
    Refusal r = setup_refusal(setup, len);
    word("tick server task\n");
    if (r.number) {
        refused_line(r.number, r.place);
    } else {
        const uint8_t *p = setup;
        fresh(&s, &p);
        messages(&s, len);
    }
    flush_out();
    return 0;
}
