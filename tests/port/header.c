/* The header alone: it compiles as C99 and as C++ by itself, and the sizes, places and alignments of its structs are those that docs/PORTING.md gives. A wrong
 * one is an array of -1 elements. */
#include "ribascenzo.h"

#define CHECK(name, holds) typedef char check_##name[(holds) ? 1 : -1]
#define SIZE(type, bytes) CHECK(type##_size, sizeof(struct ribascenzo_##type) == (bytes))
#define ALIGNMENT(type, bytes) struct around_##type { char first; struct ribascenzo_##type then; }; \
    CHECK(type##_alignment, offsetof(struct around_##type, then) == (bytes))
#define PLACE(type, field, at, bytes) CHECK(type##_##field, offsetof(struct ribascenzo_##type, field) == (at) && \
    sizeof(((struct ribascenzo_##type *)0)->field) == (bytes))

SIZE(refusal, 16);
ALIGNMENT(refusal, 8);
PLACE(refusal, number, 0, 1);
PLACE(refusal, place, 8, 8);

SIZE(queue, 132);
ALIGNMENT(queue, 4);
PLACE(queue, count, 0, 4);
PLACE(queue, cells, 4, 128);

SIZE(task, 16);
ALIGNMENT(task, 4);
PLACE(task, release, 0, 4);
PLACE(task, work, 4, 4);
PLACE(task, period, 8, 4);
PLACE(task, offset, 12, 4);

SIZE(server, 144);
ALIGNMENT(server, 4);
PLACE(server, kind, 0, 4);
PLACE(server, count, 4, 4);
PLACE(server, period, 8, 4);
PLACE(server, budget, 12, 4);
PLACE(server, tasks, 16, 128);

SIZE(table, 1156);
ALIGNMENT(table, 4);
PLACE(table, count, 0, 4);
PLACE(table, servers, 4, 1152);

SIZE(load, 8);
ALIGNMENT(load, 4);
PLACE(load, pending, 0, 4);
PLACE(load, lost, 4, 4);

SIZE(entry, 200);
ALIGNMENT(entry, 4);
PLACE(entry, budget, 0, 4);
PLACE(entry, loads, 4, 64);
PLACE(entry, arrivals, 68, 132);

SIZE(state, 2888);
ALIGNMENT(state, 4);
PLACE(state, table, 0, 1156);
PLACE(state, refills, 1156, 132);
PLACE(state, entries, 1288, 1600);

SIZE(tick_answer, 16);
ALIGNMENT(tick_answer, 4);
PLACE(tick_answer, choice, 0, 4);
PLACE(tick_answer, server, 4, 4);
PLACE(tick_answer, task, 8, 4);
PLACE(tick_answer, handled, 12, 4);

SIZE(message, 12);
ALIGNMENT(message, 4);
PLACE(message, kind, 0, 4);
PLACE(message, first, 4, 4);
PLACE(message, second, 8, 4);

CHECK(bool_size, sizeof(bool) == 1);
CHECK(place_size, sizeof(size_t) == 8);
