/* Relative event queues and a two-level server scheduler for a kernel in C: the calls of libport.a (x86-64). docs/PORTING.md says how to link it and what a
 * caller owes.
 *
 * Queues, tables and states are plain memory of the caller's: words of 32 bits, in the order in which the structs below declare them, with no padding. No call
 * keeps a pointer, allocates, or holds memory of its own.
 *
 * A refused call answers a number above 0 and changes no byte of what it was lent. A call that is not refused answers number 0 and place 0.
 * Every call whose first words say "a sound .." is refused with RIBASCENZO_UNSOUND before all else where the memory is not sound. */
#ifndef RIBASCENZO_H
#define RIBASCENZO_H

#include <stdbool.h>
#include <stddef.h>
#include <stdint.h>

#ifdef __cplusplus
extern "C" {
#endif

/* LIMITS */

#define RIBASCENZO_CELLS 32           /* cells of a queue */
#define RIBASCENZO_ENTRIES 8          /* servers of a table, and tasks of a server */
#define RIBASCENZO_FILLER 255         /* the id of a filler; an event has 0 to 254 */
#define RIBASCENZO_LARGEST_GAP 65535  /* ticks, of one cell */
#define RIBASCENZO_LONGEST 1000000    /* ticks: the longest distance, period and offset */
#define RIBASCENZO_MOST_WORK 1000000  /* ticks: the most work of a task, and the most that is pending */
#define RIBASCENZO_MOST_LOST 65535    /* where a lost count stops */
#define RIBASCENZO_LONGEST_SETUP 916  /* bytes of a setup of eight servers of eight tasks */
#define RIBASCENZO_MESSAGE_BYTES 6    /* bytes of a message */

/* REFUSALS */

#define RIBASCENZO_SETUP_SHORT 1      /* setup under 4 bytes */
#define RIBASCENZO_LENGTH_DIFFERS 2   /* stated length differs from what was given */
#define RIBASCENZO_SETUP_VERSION 3    /* setup version not 1 */
#define RIBASCENZO_SERVER_COUNT 4     /* 0 or more than 8 servers */
#define RIBASCENZO_RECORD_CUT 5       /* a server or task record runs past the end */
#define RIBASCENZO_SERVER_KIND 6      /* kind not 1, 2 or 3 */
#define RIBASCENZO_TASK_COUNT 7       /* more than 8 tasks */
#define RIBASCENZO_PERIOD_RANGE 8     /* a server's period out of range */
#define RIBASCENZO_BUDGET_RANGE 9     /* a server's budget is 0 or above its period */
#define RIBASCENZO_RELEASE_KIND 10    /* release not 0 or 1 */
#define RIBASCENZO_WORK_RANGE 11      /* a task's work out of range */
#define RIBASCENZO_RELEASE_TIMES 12   /* a task's period or offset wrong for the release */
#define RIBASCENZO_BYTES_LEFT 13      /* bytes after the last record */
#define RIBASCENZO_MESSAGE_CUT 14     /* message not whole */
#define RIBASCENZO_MESSAGE_LENGTH 15  /* message length not 6 */
#define RIBASCENZO_MESSAGE_VERSION 16 /* message version not 1 */
#define RIBASCENZO_MESSAGE_KIND 17    /* message kind not 1 or 2 */
#define RIBASCENZO_NO_SERVER 18       /* no such server */
#define RIBASCENZO_NO_TASK 19         /* no such task */
#define RIBASCENZO_TASK_PERIODIC 20   /* arrival: the task is periodic */
#define RIBASCENZO_TICKS_PASSED 21    /* the trace program's: no call here gives it */
#define RIBASCENZO_ID_OF_FILLER 22    /* insert: id 255 */
#define RIBASCENZO_ID_THERE 23        /* insert: id already there */
#define RIBASCENZO_DELAY_TOO_LONG 24  /* insert: delay above 1,000,000 */
#define RIBASCENZO_NO_ROOM 25         /* insert, push back: more than 32 cells would be needed */
#define RIBASCENZO_NO_SUCH_EVENT 26   /* remove, time left: no such event (255 included) */
#define RIBASCENZO_EVENT_DUE 27       /* clock: an event is at distance 0 */
#define RIBASCENZO_NOTHING_DUE 28     /* take: nothing at distance 0 */
#define RIBASCENZO_AT_LONGEST 29      /* push back: an event is at 1,000,000 */
#define RIBASCENZO_NO_ROOM_AGAIN 30   /* tick: no room to put an event in again; on a sound state it is never given */
#define RIBASCENZO_UNSOUND 31         /* the queue, table or state is not sound */
#define RIBASCENZO_BUFFER_SHORT 32    /* buffer too short for what is written */

/* Number 0: not refused. The place is that of the byte of a setup at which it is refused, and 0 for every other refusal. */
struct ribascenzo_refusal {
    uint8_t number;
    size_t place;
};

/* QUEUES */

/* The first `count` cells are used, and the others are 0. A cell is its id times 65,536 and its gap to the cell before it. */
struct ribascenzo_queue {
    uint32_t count;
    uint32_t cells[RIBASCENZO_CELLS];
};

#define RIBASCENZO_CELL_ID(cell) ((uint32_t)(cell) >> 16)
#define RIBASCENZO_CELL_GAP(cell) ((uint32_t)(cell) & 65535u)

/* Stores the empty queue, whatever the memory held. */
void ribascenzo_queue_empty(struct ribascenzo_queue *q);

/* Answers whether the words are a sound queue: in normal form, ids apart, no distance above 1,000,000, and 0 past the last cell. */
bool ribascenzo_queue_sound(const struct ribascenzo_queue *q);

/* A sound queue. The event stands `delay` ticks away, behind all that are due at the same time; all others keep their distance.
 * Refused: 31; 22 id 255; 23 the id is there; 24 the delay is above 1,000,000; 25 no room. */
struct ribascenzo_refusal ribascenzo_queue_insert(struct ribascenzo_queue *q, uint8_t id, uint32_t delay);

/* A sound queue. The event goes; all others keep their distance. Refused: 31; 26 no such event. */
struct ribascenzo_refusal ribascenzo_queue_remove(struct ribascenzo_queue *q, uint8_t id);

/* A sound queue, which is only read. Stores the event's distance in *distance. Refused: 31; 26 no such event. */
struct ribascenzo_refusal ribascenzo_queue_time_left(const struct ribascenzo_queue *q, uint8_t id, uint32_t *distance);

/* A sound queue. Every distance falls by 1; an empty queue stays empty. Refused: 31; 27 an event is at distance 0 and must be taken first. */
struct ribascenzo_refusal ribascenzo_queue_clock(struct ribascenzo_queue *q);

/* A sound queue. The first event at distance 0 goes, and its id is stored in *id. Refused: 31; 28 nothing is at distance 0. */
struct ribascenzo_refusal ribascenzo_queue_take(struct ribascenzo_queue *q, uint8_t *id);

/* A sound queue. Every distance grows by 1; an empty queue stays empty. Refused: 31; 25 no room; 29 an event is at 1,000,000. */
struct ribascenzo_refusal ribascenzo_queue_push_back(struct ribascenzo_queue *q);

/* TABLES AND STATES */

#define RIBASCENZO_ON_ARRIVAL 0
#define RIBASCENZO_PERIODIC 1

/* On arrival, the period and the offset are 0. An unused task is 0 in all words. */
struct ribascenzo_task {
    uint32_t release; /* RIBASCENZO_ON_ARRIVAL or RIBASCENZO_PERIODIC */
    uint32_t work;    /* E, 1 to 1,000,000 */
    uint32_t period;  /* T, 1 to 1,000,000 */
    uint32_t offset;  /* O, 0 to 1,000,000 */
};

#define RIBASCENZO_IDLING 1     /* it wants every tick */
#define RIBASCENZO_DEFERRABLE 2 /* it wants a tick where it has work, and keeps its budget where it has none */
#define RIBASCENZO_POLLING 3    /* it wants a tick where it has work, and where it has none gives its budget up until the next refill */

/* The first `count` tasks are used; their place is their rank, 0 the highest. An unused server is 0 in all words. */
struct ribascenzo_server {
    uint32_t kind;   /* RIBASCENZO_IDLING, RIBASCENZO_DEFERRABLE or RIBASCENZO_POLLING */
    uint32_t count;  /* tasks, 0 to 8 */
    uint32_t period; /* P, 1 to 1,000,000 */
    uint32_t budget; /* C, 1 to P: what a refill sets */
    struct ribascenzo_task tasks[RIBASCENZO_ENTRIES];
};

/* The first `count` servers are used, 1 to 8; their place is their rank, 0 the highest. */
struct ribascenzo_table {
    uint32_t count;
    struct ribascenzo_server servers[RIBASCENZO_ENTRIES];
};

/* A task's pending work in ticks, and how many of its arrivals were lost. */
struct ribascenzo_load {
    uint32_t pending;
    uint32_t lost;
};

/* What a server has besides its record in the table: the budget that is left, its tasks' loads, and the queue of its periodic tasks' arrivals (id: task). */
struct ribascenzo_entry {
    uint32_t budget;
    struct ribascenzo_load loads[RIBASCENZO_ENTRIES];
    struct ribascenzo_queue arrivals;
};

/* The whole scheduler: the table, the queue of all servers' refills (id: the server), and an entry for each server. */
struct ribascenzo_state {
    struct ribascenzo_table table;
    struct ribascenzo_queue refills;
    struct ribascenzo_entry entries[RIBASCENZO_ENTRIES];
};

#define RIBASCENZO_IDLE 0    /* no server is chosen */
#define RIBASCENZO_BURNING 1 /* a server is chosen, and it has no work */
#define RIBASCENZO_RUNNING 2 /* a task of a server is chosen */

/* What a tick chose, and how many refills and arrivals it handled, lost ones included. A server or task that there is not is 0. */
struct ribascenzo_tick_answer {
    uint32_t choice;
    uint32_t server;
    uint32_t task;
    uint32_t handled;
};

/* Reads a setup of `length` bytes and stores the state in which it begins, whatever the memory held. A state that is stored is sound.
 * Refused as ribascenzo_setup_read: 1 to 13, with the place. */
struct ribascenzo_refusal ribascenzo_fresh(struct ribascenzo_state *s, const uint8_t *setup, size_t length);

/* Answers whether the words are a sound state: a sound table, budgets and loads in range, queues with each refill and each periodic arrival once, and each
 * polling server without work has budget 0. */
bool ribascenzo_sound(const struct ribascenzo_state *s);

/* A sound state. Runs one tick: chooses, charges, clocks all queues, refills and releases, and sets the budget of each polling server without work to 0; stores
 * what it chose in *answer. Refused: 31. */
struct ribascenzo_refusal ribascenzo_tick(struct ribascenzo_state *s, struct ribascenzo_tick_answer *answer);

/* A sound state. Adds the work of a task on arrival, for the next tick. *lost is 0 where it is accepted, and 1 where pending work would pass 1,000,000: then
 * the lost count grows by 1, to 65,535 at most. A polling server that has given its budget up runs the work after its next refill. Refused: 31; 18 no such
 * server; 19 no such task; 20 the task is periodic. */
struct ribascenzo_refusal ribascenzo_arrive(struct ribascenzo_state *s, uint8_t server, uint8_t task, uint32_t *lost);

/* A sound state, which is only read. Stores what is left of a server's budget in *budget. Refused: 31; 18 no such server. */
struct ribascenzo_refusal ribascenzo_budget(const struct ribascenzo_state *s, uint8_t server, uint32_t *budget);

/* A sound state, which is only read. Stores a task's pending work and lost count in *load. Refused: 31; 18 no such server; 19 no such task. */
struct ribascenzo_refusal ribascenzo_load(const struct ribascenzo_state *s, uint8_t server, uint8_t task, struct ribascenzo_load *load);

/* FILES AND MESSAGES. All numbers in them are big-endian. */

/* Reads a setup of `length` bytes, any number of them, and stores its table. A table that is stored is sound.
 * Refused, the first that holds in file order: 1 to 4, 5 to 12 by record, 13; the place is the record's start for 5, the first byte left for 13, 0 for 1 and 2,
 * and else the field's first byte. */
struct ribascenzo_refusal ribascenzo_setup_read(const uint8_t *setup, size_t length, struct ribascenzo_table *table);

/* A sound table, which is only read. Writes its setup to the first bytes of `out`, which has `length` bytes, and stores their number in *written; the bytes
 * behind them stay. Refused: 31; 32 `out` is too short. */
struct ribascenzo_refusal ribascenzo_setup_write(const struct ribascenzo_table *table, uint8_t *out, size_t length, uint32_t *written);

#define RIBASCENZO_RUN 1
#define RIBASCENZO_ARRIVAL 2

/* RIBASCENZO_RUN: `first` is the number of ticks, 0 to 65,535, and `second` is 0. RIBASCENZO_ARRIVAL: the server and the task. */
struct ribascenzo_message {
    uint32_t kind;
    uint32_t first;
    uint32_t second;
};

/* Reads a message from the first six of `length` bytes and stores it.
 * Refused: 14 under 2 bytes, 15 length, 14 under 6 bytes, 16 version, 17 kind, in this order. */
struct ribascenzo_refusal ribascenzo_message_read(const uint8_t *bytes, size_t length, struct ribascenzo_message *message);

/* Writes a message of this kind and these two bytes to the first six bytes of `out`, which has `length` bytes; the bytes behind them stay. For RIBASCENZO_RUN
 * `a` and `b` are the number of ticks, big-endian. Refused: 17 kind not 1 or 2; 32 `out` is too short. */
struct ribascenzo_refusal ribascenzo_message_write(uint8_t kind, uint8_t a, uint8_t b, uint8_t *out, size_t length);

#ifdef __cplusplus
}
#endif

#endif
