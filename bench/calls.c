// One call of include/ribascenzo.h many times over, for bench/port to count; or what it takes of the stack.
//   calls list               the cases, a line each: NAME BASE what
//   calls CASE TIMES         makes the case's call so many times, each time on the same memory (a case that goes on: on what the last one left)
//   calls stack CASE         how many bytes of stack the case's call touches, its return address included
//   calls bytes              what the memory that a caller lends takes
// The instructions of a call are those of its case less those of its base, which does everything but the call.
#include "ribascenzo.h"
#include <stdio.h>
#include <stdlib.h>
#include <string.h>

enum { STACK = 1 << 18, WORST_SETUP = RIBASCENZO_LONGEST_SETUP };

typedef struct ribascenzo_refusal Refusal;

static struct ribascenzo_queue q, first_q;
static struct ribascenzo_state s, first_s;
static struct ribascenzo_tick_answer answer;
static Refusal refusal;
static uint32_t distance;
static uint8_t id;

static void die(const char *why)
{
    fprintf(stderr, "calls: %s\n", why);
    exit(2);
}

// WHAT A CASE BEGINS WITH

static void put_in(uint8_t event, uint32_t delay)
{
    if (ribascenzo_queue_insert(&first_q, event, delay).number)
        die("an event cannot be put in");
}

// `count` events, the first `first` ticks away and the others `step` apart.
static void row(uint32_t count, uint32_t first, uint32_t step)
{
    ribascenzo_queue_empty(&first_q);
    for (uint32_t k = 0; k < count; k++)
        put_in(k, first + k * step);
}

static void empty(void) { row(0, 0, 0); }
static void eight_soon(void) { row(8, 10, 90); }
static void eight_due(void) { row(8, 0, 90); }
static void all_due(void) { row(32, 0, 0); }
static void one_left(void) { row(31, 0, 0); }

// 32 cells of which the first is a filler with gap 1: all others move.
static void filler_ends(void)
{
    row(31, 65536, 0);
}

// 15 events at 0 and one at 1,000,000: the event that goes in between has fillers on both sides.
static void fillers(void)
{
    row(15, 0, 0);
    put_in(200, 1000000);
}

static uint8_t setup[WORST_SETUP], *end;

static void field(uint32_t value, int bytes)
{
    while (bytes--)
        *end++ = value >> 8 * bytes;
}

static void begin(uint32_t servers)
{
    end = setup + 2;
    field(1, 1);
    field(servers, 1);
}

static void server(uint32_t kind, uint32_t tasks, uint32_t period, uint32_t budget)
{
    field(kind, 1);
    field(tasks, 1);
    field(period, 4);
    field(budget, 4);
}

static void task(uint32_t work, uint32_t period, uint32_t offset)
{
    field(period > 0, 1);
    field(work, 4);
    field(period, 4);
    field(offset, 4);
}

static void fresh(void)
{
    size_t length = end - setup;
    setup[0] = length >> 8;
    setup[1] = length;
    if (ribascenzo_fresh(&first_s, setup, length).number)
        die("a setup is refused");
}

// One deferrable server without work, and its refill far away.
static void nothing_to_do(void)
{
    begin(1);
    server(RIBASCENZO_DEFERRABLE, 1, 1000000, 1);
    task(1, 0, 0);
    fresh();
}

// `realistic` of bench/setups.py: eight servers of eight tasks, with periods of 10 to 2,000 ticks.
static void realistic(void)
{
    static const uint32_t periods[] = { 10, 15, 20, 30, 40, 50, 80, 100 }, steps[] = { 1, 2, 4, 5, 8, 10, 16, 20 };
    begin(8);
    for (uint32_t i = 0; i < 8; i++) {
        server(i % 2 ? RIBASCENZO_DEFERRABLE : RIBASCENZO_IDLING, 8, periods[i], periods[i] / 9 ? periods[i] / 9 : 1);
        for (uint32_t j = 0; j < 8; j++)
            task(1 + j % 3, periods[i] * steps[j], (7 * i + 3 * j) % periods[i]);
    }
    fresh();
}

// All 8 refills and all 64 arrivals are due on the first tick, and go in again `period` away, each `less` nearer than the one before it.
static void all_events(uint32_t period, uint32_t less)
{
    begin(8);
    for (uint32_t i = 0; i < 8; i++) {
        server(RIBASCENZO_DEFERRABLE, 8, period - less * i, 1);
        for (uint32_t j = 0; j < 8; j++)
            task(1, period - less * j, 1);
    }
    fresh();
    ribascenzo_queue_empty(&first_s.refills);
    for (uint32_t i = 0; i < 8; i++)
        if (ribascenzo_queue_insert(&first_s.refills, i, 1).number)
            die("a refill cannot be put in");
    if (!ribascenzo_sound(&first_s))
        die("a state is not sound");
}

static void all_near(void) { all_events(1, 0); }
static void all_far(void) { all_events(1000000, 1); }

// As all_near, but for the last word, which is not zero: all is looked at, and the call is refused.
static void last_word_wrong(void)
{
    all_near();
    first_s.entries[7].arrivals.cells[RIBASCENZO_CELLS - 1] = 1;
}

// THE CALLS

static __attribute__((noinline)) Refusal nothing(void *memory)
{
    __asm__ volatile("" : : "r"(memory) : "memory");
    return (Refusal){ 0, 0 };
}

static void no_call(void) { refusal = nothing(&q); }
static void clock_call(void) { refusal = ribascenzo_queue_clock(&q); }
static void take_call(void) { refusal = ribascenzo_queue_take(&q, &id); }
static void insert_call(void) { refusal = ribascenzo_queue_insert(&q, 99, 333); }
static void insert_far_call(void) { refusal = ribascenzo_queue_insert(&q, 99, 500000); }
static void time_left_call(void) { refusal = ribascenzo_queue_time_left(&q, 7, &distance); }
static void tick_call(void) { refusal = ribascenzo_tick(&s, &answer); }
static void arrive_call(void) { refusal = ribascenzo_arrive(&s, 0, 0, &distance); }
static void fresh_call(void) { refusal = ribascenzo_fresh(&s, setup, end - setup); }

// THE CASES

static void reset_queue(void) { q = first_q; }
static void reset_state(void) { s = first_s; }
static void go_on(void) { }

typedef struct {
    const char *name, *base, *what;
    void (*start)(void), (*reset)(void), (*call)(void);
    uint8_t number; // the refusal that is due
} Case;

static const Case cases[] = {
    { "none", "", "nothing", empty, go_on, no_call, 0 },
    { "queue", "", "a queue is put back", empty, reset_queue, no_call, 0 },
    { "state", "", "a state is put back", nothing_to_do, reset_state, no_call, 0 },
    { "clock-idle", "queue", "an empty queue", empty, reset_queue, clock_call, 0 },
    { "clock-typical", "queue", "8 events", eight_soon, reset_queue, clock_call, 0 },
    { "clock-worst", "queue", "32 cells, and the first filler ends", filler_ends, reset_queue, clock_call, 0 },
    { "take-idle", "queue", "8 events, and nothing is due (28)", eight_soon, reset_queue, take_call, RIBASCENZO_NOTHING_DUE },
    { "take-typical", "queue", "8 events, one due", eight_due, reset_queue, take_call, 0 },
    { "take-worst", "queue", "32 events, all due", all_due, reset_queue, take_call, 0 },
    { "insert-idle", "queue", "into an empty queue", empty, reset_queue, insert_call, 0 },
    { "insert-typical", "queue", "among 8 events", eight_soon, reset_queue, insert_call, 0 },
    { "insert-worst", "queue", "behind 31 events", one_left, reset_queue, insert_call, 0 },
    { "insert-fillers", "queue", "among fillers, to 32 cells", fillers, reset_queue, insert_far_call, 0 },
    { "time-left", "queue", "8 events", eight_soon, reset_queue, time_left_call, 0 },
    { "tick-idle", "none", "one server without work, nothing due", nothing_to_do, go_on, tick_call, 0 },
    { "tick-typical", "none", "8 servers of 8 tasks, periods of 10 to 2,000", realistic, go_on, tick_call, 0 },
    { "tick-busy", "state", "72 events, put in again 1 tick away", all_near, reset_state, tick_call, 0 },
    { "tick-worst", "state", "72 events, put in again about 1,000,000 ticks away", all_far, reset_state, tick_call, 0 },
    { "tick-refused", "state", "8 servers of 8 tasks, the last word wrong (31)", last_word_wrong, reset_state, tick_call, RIBASCENZO_UNSOUND },
    { "arrive", "state", "one server", nothing_to_do, reset_state, arrive_call, 0 },
    { "fresh", "state", "8 servers of 8 tasks", realistic, reset_state, fresh_call, 0 },
};

static const Case *find(const char *name)
{
    for (size_t k = 0; k < sizeof cases / sizeof *cases; k++)
        if (!strcmp(cases[k].name, name))
            return &cases[k];
    die("no such case");
    return NULL;
}

static void start(const Case *c)
{
    c->start();
    reset_queue();
    reset_state();
}

static int times(const Case *c, unsigned long count)
{
    start(c);
    for (; count; count--) {
        c->reset();
        c->call();
        if (refusal.number != c->number)
            die("the call answers another refusal");
    }
    return 0;
}

// THE STACK

static uint8_t stack[STACK] __attribute__((aligned(64)));

static void run_on_stack(void (*call)(void))
{
    __asm__ volatile("movq %%rsp, %%rbx\n\tmovq %0, %%rsp\n\tcall *%1\n\tmovq %%rbx, %%rsp"
                     :
                     : "r"(stack + STACK), "r"(call)
                     : "rax", "rbx", "rcx", "rdx", "rsi", "rdi", "r8", "r9", "r10", "r11", "memory", "cc", "xmm0", "xmm1", "xmm2", "xmm3", "xmm4", "xmm5",
                       "xmm6", "xmm7", "xmm8", "xmm9", "xmm10", "xmm11", "xmm12", "xmm13", "xmm14", "xmm15");
}

// Bytes from the top of the stack to the last that is touched, with the stack filled in two ways, so that a byte that is stored as it was counts too.
static size_t touched(void (*call)(void), const Case *c)
{
    size_t most = 0;
    for (int fill = 0x5a; fill <= 0xa5; fill += 0xa5 - 0x5a) {
        size_t k = 0;
        memset(stack, fill, STACK);
        c->reset();
        run_on_stack(call);
        while (k < STACK && stack[k] == fill)
            k++;
        if (STACK - k > most)
            most = STACK - k;
    }
    return most;
}

static int write_stack(const Case *c)
{
    start(c);
    // `nothing` takes its return address alone
    printf("%zu\n", touched(c->call, c) - touched(no_call, c) + 8);
    return 0;
}

static int write_bytes(void)
{
    printf("a queue %zu, a table %zu, a state %zu, a tick's answer %zu\n", sizeof q, sizeof s.table, sizeof s, sizeof answer);
    return 0;
}

static int write_cases(void)
{
    for (size_t k = 0; k < sizeof cases / sizeof *cases; k++)
        if (*cases[k].base)
            printf("%s %s %s\n", cases[k].name, cases[k].base, cases[k].what);
    return 0;
}

int main(int words, char **word)
{
    if (words == 2 && !strcmp(word[1], "list"))
        return write_cases();
    if (words == 2 && !strcmp(word[1], "bytes"))
        return write_bytes();
    if (words == 3 && !strcmp(word[1], "stack"))
        return write_stack(find(word[2]));
    if (words == 3)
        return times(find(word[1]), strtoul(word[2], NULL, 10));
    die("usage: calls list | bytes | stack CASE | CASE TIMES");
    return 2;
}
