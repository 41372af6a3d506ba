/* A ticking scheduler in one file: a setup in the program, two arrivals, and 20 ticks. In a kernel the body of `on_tick` is the timer interrupt's, and what is
 * printed here is what the kernel acts on. docs/PORTING.md says how to build it; `stdout` beside this file is what it writes. */
#include "ribascenzo.h"
#include <stdio.h>

/* Server 0 is deferrable: of every 4 ticks it may have 2; its task comes on arrival and takes 3 ticks.
 * Server 1 is idling: of every 5 ticks it has 2; its task comes every 5 ticks, the first time at once, and takes 1. */
static const uint8_t setup[] = {
    0, 50, 1, 2,                           /* length, version, servers */
    2, 1, 0, 0, 0, 4, 0, 0, 0, 2,          /* server 0: kind, tasks, P, C */
    0, 0, 0, 0, 3, 0, 0, 0, 0, 0, 0, 0, 0, /* its task: release, E, T, O */
    1, 1, 0, 0, 0, 5, 0, 0, 0, 2,          /* server 1 */
    1, 0, 0, 0, 1, 0, 0, 0, 5, 0, 0, 0, 0,
};

/* The whole scheduler, at a fixed address. */
static struct ribascenzo_state scheduler;

/* True where the call was not refused. A kernel would stop here: a refused call has changed nothing, but its caller expected something else. */
static bool done(const char *call, struct ribascenzo_refusal r)
{
    if (r.number)
        printf("%s is refused with %u at %zu\n", call, (unsigned)r.number, r.place);
    return !r.number;
}

static void on_arrival(uint8_t server, uint8_t task)
{
    uint32_t lost;
    if (done("the arrival", ribascenzo_arrive(&scheduler, server, task, &lost)))
        printf("arrival at server %u, task %u: %s\n", (unsigned)server, (unsigned)task, lost ? "lost" : "accepted");
}

static bool on_tick(int tick)
{
    struct ribascenzo_tick_answer a;
    if (!done("the tick", ribascenzo_tick(&scheduler, &a)))
        return false;
    if (a.choice == RIBASCENZO_RUNNING)
        printf("%2d: server %u runs task %u", tick, (unsigned)a.server, (unsigned)a.task);
    else if (a.choice == RIBASCENZO_BURNING)
        printf("%2d: server %u has no work", tick, (unsigned)a.server);
    else
        printf("%2d: idle", tick);
    printf(", %u events\n", (unsigned)a.handled);
    return true;
}

/* What is left behind the last tick. */
static void report(void)
{
    struct ribascenzo_load load;
    uint32_t budget;
    for (uint8_t i = 0; i < scheduler.table.count; i++)
        if (done("the budget", ribascenzo_budget(&scheduler, i, &budget)) && done("the load", ribascenzo_load(&scheduler, i, 0, &load)))
            printf("server %u: budget %u; task 0: %u ticks of work, %u arrivals lost\n",
                (unsigned)i, (unsigned)budget, (unsigned)load.pending, (unsigned)load.lost);
}

int main(void)
{
    if (!done("the setup", ribascenzo_fresh(&scheduler, setup, sizeof setup)))
        return 1;
    on_arrival(0, 0);
    on_arrival(1, 0); /* a periodic task: refused */
    for (int tick = 0; tick < 20; tick++) {
        if (tick == 12)
            on_arrival(0, 0);
        if (!on_tick(tick))
            return 1;
    }
    report();
    return 0;
}
