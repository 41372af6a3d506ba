/* The two calls of crate queue_c on a queue that is lent, for a script of tests/lent.py (tests/script.h). The structs are declared here once more, as a kernel in
 * C declares them: with C's layout, in which a cell has a byte of padding behind its id. */
#define _DEFAULT_SOURCE
#include <stddef.h>
#include <stdint.h>

enum { CELLS = 32 };

typedef struct refusal {
    uint8_t number;
    size_t place;
} Refusal;

struct cell {
    uint8_t id;
    uint16_t gap;
};

struct queue {
    struct cell cells[CELLS];
    size_t len;
};

struct took {
    Refusal refusal;
    uint8_t id;
};

Refusal clock_in(struct queue *q);
struct took take_in(struct queue *q);

#include "../script.h"

/* What the script's bytes are by: a wrong one is an array of -1 elements. */
#define CHECK(name, holds) typedef char check_##name[(holds) ? 1 : -1]
CHECK(gap, offsetof(struct cell, gap) == 2 && sizeof(struct cell) == 4);
CHECK(len, offsetof(struct queue, len) == 128 && sizeof(struct queue) == 136);
CHECK(place, offsetof(Refusal, place) == 8 && sizeof(Refusal) == 16);
CHECK(id, offsetof(struct took, id) == 16 && sizeof(struct took) == 24);

/* C leaves padding free: behind a call it may be any byte. All other bytes of the arena are due. */
static void free_padding(uint32_t place)
{
    for (size_t i = place; i < place + CELLS * sizeof(struct cell); i += sizeof(struct cell))
        memcpy(due + i + sizeof(uint8_t), arena + i + sizeof(uint8_t), offsetof(struct cell, gap) - sizeof(uint8_t));
}

/* The id that a take answers goes to a place in the arena. */
static Refusal taken(struct queue *q, uint8_t *id)
{
    struct took t = take_in(q);
    *id = t.id;
    return t.refusal;
}

static Refusal call(uint32_t which, const uint32_t *a)
{
    Refusal r = { 0, 0 };
    switch (which) {
    case 0: r = clock_in(at(a[0])); break;
    case 1: r = taken(at(a[0]), at(a[1])); break;
    default: fail("the script has a call that there is not");
    }
    free_padding(a[0]);
    return r;
}
