// The work of crates/laps in plain C, with no check of the state. bench/run compares the two.
#include "scheduler.h"

enum { BATCH = 64 };

static void run(State *s, Answer answers[BATCH])
{
    for (int k = 0; k < BATCH; k++)
        answers[k] = tick(s);
}

int main(void)
{
    static uint8_t input[918];
    static State s;
    const uint8_t *p = input;
    Answer answers[BATCH];
    unsigned long ticks = 0, handled = 0, idle = 0, burned = 0, running = 0;
    if (fread(input, 1, sizeof input, stdin) < 6)
        return 1;
    fresh(&s, &p);
    for (uint32_t n = field(&p, 2); n; n--) {
        run(&s, answers);
        for (int k = 0; k < BATCH; k++) {
            ticks++;
            handled += answers[k].handled;
            if (answers[k].server == ENTRIES)
                idle++;
            else if (answers[k].task == ENTRIES)
                burned++;
            else
                running++;
        }
    }
    printf("ticks %lu handled %lu idle %lu burned %lu running %lu\n", ticks, handled, idle, burned, running);
    return 0;
}
