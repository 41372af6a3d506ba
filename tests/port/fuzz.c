/* Calls on random bytes and words, with checks that need no model: a refused call changes no byte; an accepted one changes only what it may, and leaves what is
 * sound; 31 is given exactly where the test of soundness says no; what is written and read, put in and taken out, or moved there and back, is the same again.
 *     fuzz [ROUNDS]     the same rounds in every run; writes how many calls were made, or the first round that is wrong, and ends with 1 */
#include "ribascenzo.h"
#include <stdarg.h>
#include <stdio.h>
#include <stdlib.h>
#include <string.h>

enum { GUARD = 16, ROUNDS = 100000, LONG = 1024, QUEUE_WORDS = sizeof(struct ribascenzo_queue) / 4, STATE_WORDS = sizeof(struct ribascenzo_state) / 4 };
enum { TABLE_WORDS = sizeof(struct ribascenzo_table) / 4, UNSOUND = RIBASCENZO_UNSOUND };

typedef struct ribascenzo_refusal Refusal;
typedef struct ribascenzo_queue Queue;
typedef struct ribascenzo_state State;
typedef struct ribascenzo_table Table;

/* All memory that is lent, with guards between. */
static struct Room {
    uint32_t guard0[GUARD];
    Queue q;
    uint32_t guard1[GUARD];
    Table t;
    uint32_t guard2[GUARD];
    State s;
    uint32_t guard3[GUARD];
    uint32_t answer[4];
    uint32_t guard4[GUARD];
    uint8_t id;
    uint8_t guard5[GUARD];
    uint8_t bytes[LONG];
    uint8_t guard6[GUARD];
    uint8_t out[LONG];
    uint8_t guard7[GUARD];
} room, before;

static unsigned long round_number, made, answered[RIBASCENZO_BUFFER_SHORT + 1];

static void wrong(const char *what)
{
    printf("fuzz: round %lu: %s\n", round_number, what);
    exit(1);
}

/* CHANCE. No expression asks for it twice, since C leaves open which part of an expression comes first. */

static uint64_t seed = UINT64_C(0x9e3779b97f4a7c15);

static uint32_t any(void)
{
    seed ^= seed << 13;
    seed ^= seed >> 7;
    seed ^= seed << 17;
    return (uint32_t)(seed >> 32);
}

static uint32_t below(uint32_t n)
{
    return any() % n;
}

static uint32_t between(uint32_t least, uint32_t most)
{
    return least + below(most - least + 1);
}

/* A value near a limit, or any in reach. */
static uint32_t some_ticks(void)
{
    static const uint32_t edges[] = { 1, 2, 3, 65534, 65535, 65536, 65537, 131070, 131071, 999999, 1000000 };
    return below(3) ? between(1, 40) : below(2) ? edges[below(sizeof edges / sizeof *edges)] : between(1, RIBASCENZO_LONGEST);
}

static void flip_words(void *memory, uint32_t words, uint32_t times)
{
    uint32_t *w = memory;
    while (times--) {
        uint32_t k = below(words);
        switch (below(5)) {
        case 0: w[k] = any(); break;
        case 1: w[k]++; break;
        case 2: w[k]--; break;
        case 3: w[k] = 0; break;
        default: w[k] ^= (uint32_t)1 << below(32);
        }
    }
}

static void flip_bytes(uint8_t *b, uint32_t length, uint32_t times)
{
    while (length && times--) {
        uint32_t k = below(length);
        b[k] = below(2) ? below(4) : any();
    }
}

/* WHAT HOLDS OF EVERY CALL */

static void begin(void)
{
    before = room;
}

static void same(const void *from, const void *to)
{
    size_t at = (size_t)((const uint8_t *)from - (const uint8_t *)&room);
    if (memcmp(from, (const uint8_t *)&before + at, (size_t)((const uint8_t *)to - (const uint8_t *)from)))
        wrong("memory that is not the call's to change is another");
}

/* Behind a call: `parts` (a pointer and a size_t each, in the room's order) are what it may change where it is not refused. */
static void check(Refusal r, int parts, ...)
{
    const uint8_t *at = (const uint8_t *)&room;
    va_list given;
    made++;
    if (r.number > RIBASCENZO_BUFFER_SHORT)
        wrong("a refusal that there is not");
    answered[r.number]++;
    va_start(given, parts);
    for (; parts && !r.number; parts--) {
        const uint8_t *part = va_arg(given, const void *);
        same(at, part);
        at = part + va_arg(given, size_t);
    }
    va_end(given);
    same(at, &room + 1);
    if (!r.number && r.place)
        wrong("a place without a refusal");
}

static bool one_of(uint8_t number, const char *numbers)
{
    return !number || strchr(numbers, number);
}

static void refuses(Refusal r, bool sound, const char *numbers)
{
    if (!one_of(r.number, numbers) || r.place)
        wrong("a refusal that is not this call's");
    if (sound == (r.number == UNSOUND))
        wrong("31 and the test of soundness differ");
}

/* QUEUES */

static Queue held; /* a sound queue, from round to round */

static uint8_t some_id(void)
{
    uint32_t k = below(RIBASCENZO_CELLS);
    return below(2) && k < held.count ? RIBASCENZO_CELL_ID(held.cells[k]) : below(3) ? below(20) : any();
}

static Refusal insert(uint8_t id, uint32_t delay)
{
    bool sound = ribascenzo_queue_sound(&room.q);
    begin();
    Refusal r = ribascenzo_queue_insert(&room.q, id, delay);
    check(r, 1, (void *)&room.q, sizeof room.q);
    refuses(r, sound, "\37\26\27\30\31");
    return r;
}

static Refusal remove_event(uint8_t id)
{
    bool sound = ribascenzo_queue_sound(&room.q);
    begin();
    Refusal r = ribascenzo_queue_remove(&room.q, id);
    check(r, 1, (void *)&room.q, sizeof room.q);
    refuses(r, sound, "\37\32");
    return r;
}

static Refusal time_left(uint8_t id)
{
    bool sound = ribascenzo_queue_sound(&room.q);
    begin();
    Refusal r = ribascenzo_queue_time_left(&room.q, id, room.answer);
    check(r, 1, (void *)room.answer, sizeof(uint32_t));
    refuses(r, sound, "\37\32");
    return r;
}

static Refusal clock_queue(void)
{
    bool sound = ribascenzo_queue_sound(&room.q);
    begin();
    Refusal r = ribascenzo_queue_clock(&room.q);
    check(r, 1, (void *)&room.q, sizeof room.q);
    refuses(r, sound, "\37\33");
    return r;
}

static Refusal take(void)
{
    bool sound = ribascenzo_queue_sound(&room.q);
    begin();
    Refusal r = ribascenzo_queue_take(&room.q, &room.id);
    check(r, 2, (void *)&room.q, sizeof room.q, (void *)&room.id, sizeof room.id);
    refuses(r, sound, "\37\34");
    return r;
}

static Refusal push_back(void)
{
    bool sound = ribascenzo_queue_sound(&room.q);
    begin();
    Refusal r = ribascenzo_queue_push_back(&room.q);
    check(r, 1, (void *)&room.q, sizeof room.q);
    refuses(r, sound, "\37\31\35");
    return r;
}

static void as_it_was(const Queue *q)
{
    if (memcmp(q, &room.q, sizeof *q))
        wrong("a queue is not as it was, after a call and its opposite");
}

/* An event that is put in has its distance, and when it is removed the queue is as it was. */
static void in_and_out(void)
{
    Queue was = room.q;
    uint8_t id = some_id();
    uint32_t delay = below(2), ticks = some_ticks();
    delay = below(20) ? ticks - delay : any();
    if (insert(id, delay).number)
        return;
    if (time_left(id).number || room.answer[0] != delay)
        wrong("an event that was put in is at another distance");
    Queue with = room.q;
    if (remove_event(id).number)
        wrong("an event that was put in cannot be removed");
    as_it_was(&was);
    if (below(4))
        room.q = with;
}

static void there_and_back(void)
{
    Queue was = room.q;
    bool forth = below(2);
    if ((forth ? clock_queue() : push_back()).number)
        return;
    if (was.count == 0)
        as_it_was(&was);
    Queue moved = room.q;
    if ((forth ? push_back() : clock_queue()).number)
        wrong("a move cannot be taken back");
    as_it_was(&was);
    if (below(8))
        room.q = moved;
}

/* The event that is taken was at distance 0, and is there no more. */
static void take_first(void)
{
    Queue was = room.q;
    if (take().number)
        return;
    Queue without = room.q;
    room.q = was;
    if (time_left(room.id).number || room.answer[0])
        wrong("what is taken was not due");
    room.q = without;
    if (time_left(room.id).number != RIBASCENZO_NO_SUCH_EVENT)
        wrong("what was taken is still there");
}

static void all_queue_calls(void)
{
    uint8_t id = some_id();
    insert(id, some_ticks());
    remove_event(some_id());
    time_left(some_id());
    clock_queue();
    take();
    push_back();
}

/* Any words are emptied. */
static void empty(void)
{
    flip_words(&room.q, QUEUE_WORDS, 200);
    all_queue_calls();
    begin();
    ribascenzo_queue_empty(&room.q);
    check((Refusal){ 0, 0 }, 1, (void *)&room.q, sizeof room.q);
}

static void queue_round(void)
{
    bool growing = round_number / 256 % 2; /* to a full queue, for a while */
    room.q = held;
    switch (below(growing ? 4 : 8)) {
    case 0:
    case 1: in_and_out(); break;
    case 2: there_and_back(); break;
    case 3:
        flip_words(&room.q, QUEUE_WORDS, 1 + below(3));
        all_queue_calls();
        return;
    case 4:
    case 5: take_first(); break;
    case 6: remove_event(some_id()); break;
    default:
        if (!below(8))
            empty();
    }
    if (!ribascenzo_queue_sound(&room.q))
        wrong("a queue is not sound after calls on a sound one");
    held = room.q;
}

/* SETUPS */

static uint8_t *put(uint8_t *to, uint32_t value, int bytes)
{
    while (bytes--)
        *to++ = (uint8_t)(value >> 8 * bytes);
    return to;
}

static uint8_t *some_task(uint8_t *to)
{
    bool periodic = below(3);
    uint32_t period = some_ticks();
    to = put(put(to, periodic, 1), some_ticks(), 4);
    to = put(to, periodic ? period : 0, 4);
    return put(to, periodic && below(2) ? some_ticks() : 0, 4);
}

static uint8_t *some_server(uint8_t *to)
{
    uint32_t period = some_ticks(), tasks = below(RIBASCENZO_ENTRIES + 1);
    to = put(put(to, between(RIBASCENZO_IDLING, RIBASCENZO_POLLING), 1), tasks, 1);
    to = put(put(to, period, 4), below(2) ? between(1, period) : 1, 4);
    while (tasks--)
        to = some_task(to);
    return to;
}

/* A sound setup in the room's bytes; answers its length. */
static uint32_t some_setup(void)
{
    uint32_t servers = between(1, RIBASCENZO_ENTRIES);
    uint8_t *to = put(put(room.bytes + 2, 1, 1), servers, 1);
    while (servers--)
        to = some_server(to);
    put(room.bytes, (uint32_t)(to - room.bytes), 2);
    return (uint32_t)(to - room.bytes);
}

/* Bytes changed, cut or appended, often with the length put right. */
static uint32_t damage(uint32_t length)
{
    if (below(2))
        flip_bytes(room.bytes, length, 1 + below(2));
    if (!below(3))
        length = below(2) ? below(length + 1) : length + below(30);
    if (below(2))
        put(room.bytes, length, 2);
    return length;
}

static void setup_refusal(Refusal r, uint32_t length)
{
    if (r.number > RIBASCENZO_BYTES_LEFT || r.place > length || (r.number <= RIBASCENZO_LENGTH_DIFFERS && r.place))
        wrong("a setup's refusal or its place");
}

/* The setup of a table, written into so many bytes. */
static Refusal write_setup(size_t length)
{
    begin();
    Refusal r = ribascenzo_setup_write(&room.t, room.out, length, room.answer);
    check(r, 2, (void *)room.answer, sizeof(uint32_t), (void *)room.out, length);
    if (!one_of(r.number, "\37\40") || r.place)
        wrong("a refusal that is not the setup writer's");
    return r;
}

static void write_again(uint32_t length)
{
    uint32_t room_for = length + below(9);
    memset(room.out, 0xa5, sizeof room.out);
    if (write_setup(room_for).number || room.answer[0] != length || memcmp(room.out, room.bytes, length))
        wrong("an accepted setup is written another way");
    for (uint32_t i = length; i < room_for; i++)
        if (room.out[i] != 0xa5)
            wrong("bytes past the output are others");
    if (write_setup(below(length)).number != RIBASCENZO_BUFFER_SHORT)
        wrong("a buffer that is too short is not refused");
}

/* Whether a server of the room's state must have no budget: it is polling, and no task of it has work. */
static bool gives_up(uint32_t i)
{
    uint32_t work = 0;
    for (uint32_t j = 0; j < RIBASCENZO_ENTRIES; j++)
        work |= room.s.entries[i].loads[j].pending;
    return room.s.table.servers[i].kind == RIBASCENZO_POLLING && !work;
}

static void fresh_budgets(void)
{
    for (uint32_t i = 0; i < RIBASCENZO_ENTRIES; i++)
        if (room.s.entries[i].budget != (gives_up(i) ? 0 : room.s.table.servers[i].budget))
            wrong("a fresh budget");
}

static void setup_round(void)
{
    uint32_t length = some_setup();
    if (below(3))
        length = damage(length);
    else if (!below(6))
        flip_bytes(room.bytes, length = below(LONG), LONG);
    begin();
    Refusal r = ribascenzo_setup_read(room.bytes, length, &room.t);
    check(r, 1, (void *)&room.t, sizeof room.t);
    setup_refusal(r, length);
    begin();
    Refusal f = ribascenzo_fresh(&room.s, room.bytes, length);
    check(f, 1, (void *)&room.s, sizeof room.s);
    if (f.number != r.number || f.place != r.place)
        wrong("the setup reader and fresh differ");
    if (r.number)
        return;
    if (!ribascenzo_sound(&room.s) || memcmp(&room.s.table, &room.t, sizeof room.t))
        wrong("a fresh state is not sound, or has another table");
    fresh_budgets();
    write_again(length);
    flip_words(&room.t, TABLE_WORDS, 1);
    write_setup(LONG);
}

/* STATES */

static State state; /* a sound one, from round to round */

/* Behind a tick a budget is what was left of it, or full; or it is given up. */
static void tick_budgets(const State *was)
{
    for (uint32_t i = 0; i < RIBASCENZO_ENTRIES; i++) {
        uint32_t charged = room.answer[0] != RIBASCENZO_IDLE && room.answer[1] == i, budget = room.s.entries[i].budget;
        if (gives_up(i) ? budget != 0 : budget != was->entries[i].budget - charged && budget != was->table.servers[i].budget)
            wrong("a budget behind a tick");
    }
}

static void ticked(const State *was)
{
    const uint32_t *a = room.answer;
    if (a[0] > RIBASCENZO_RUNNING || (a[0] != RIBASCENZO_IDLE && a[1] >= was->table.count) || (a[0] != RIBASCENZO_RUNNING && a[2]) || a[3] > 72)
        wrong("a tick's answer");
    if (a[0] == RIBASCENZO_RUNNING && !was->entries[a[1]].loads[a[2]].pending)
        wrong("a task without work was run");
    if (a[0] != RIBASCENZO_IDLE && !was->entries[a[1]].budget)
        wrong("a server without budget was chosen");
    if (memcmp(&was->table, &room.s.table, sizeof was->table))
        wrong("a tick changed the table");
    tick_budgets(was);
}

static void sound_budgets(void)
{
    for (uint32_t i = 0; i < RIBASCENZO_ENTRIES; i++)
        if (room.s.entries[i].budget > (gives_up(i) ? 0 : room.s.table.servers[i].budget))
            wrong("a sound state with a budget that is too large");
}

static void tick(void)
{
    bool sound = ribascenzo_sound(&room.s);
    State was = room.s;
    if (sound)
        sound_budgets();
    begin();
    Refusal r = ribascenzo_tick(&room.s, (struct ribascenzo_tick_answer *)(void *)room.answer);
    check(r, 2, (void *)&room.s, sizeof room.s, (void *)room.answer, sizeof room.answer);
    refuses(r, sound, "\37");
    if (!r.number)
        ticked(&was);
}

static void arrive(void)
{
    bool sound = ribascenzo_sound(&room.s);
    uint8_t i = below(RIBASCENZO_ENTRIES + 1), j = below(RIBASCENZO_ENTRIES + 1);
    begin();
    Refusal r = ribascenzo_arrive(&room.s, i, j, room.answer);
    if (r.number)
        check(r, 0);
    else
        check(r, 2, (void *)&room.s.entries[i].loads[j], sizeof room.s.entries[i].loads[j], (void *)room.answer, sizeof(uint32_t));
    refuses(r, sound, "\37\22\23\24");
    if (!r.number && room.answer[0] > 1)
        wrong("an arrival is neither accepted nor lost");
}

static void look(void)
{
    bool sound = ribascenzo_sound(&room.s);
    uint8_t i = below(RIBASCENZO_ENTRIES + 1), j = below(RIBASCENZO_ENTRIES + 1);
    begin();
    Refusal r = ribascenzo_budget(&room.s, i, room.answer);
    check(r, 1, (void *)room.answer, sizeof(uint32_t));
    refuses(r, sound, "\37\22");
    if (!r.number && room.answer[0] != room.s.entries[i].budget)
        wrong("a budget that is read is another");
    begin();
    r = ribascenzo_load(&room.s, i, j, (struct ribascenzo_load *)(void *)room.answer);
    check(r, 1, (void *)room.answer, 2 * sizeof(uint32_t));
    refuses(r, sound, "\37\22\23");
    if (!r.number && memcmp(room.answer, &room.s.entries[i].loads[j], 2 * sizeof(uint32_t)))
        wrong("a load that is read is another");
}

static void next_state(void)
{
    uint32_t length = some_setup();
    if (ribascenzo_fresh(&state, room.bytes, length).number)
        wrong("a sound setup is refused");
}

static void state_round(void)
{
    if (!below(50))
        next_state();
    room.s = state;
    if (!below(3)) {
        flip_words(&room.s, STATE_WORDS, 1 + below(2));
        tick();
        arrive();
        look();
        return;
    }
    for (uint32_t k = below(4); k; k--)
        arrive();
    tick();
    look();
    if (!ribascenzo_sound(&room.s))
        wrong("a state is not sound after calls on a sound one");
    state = room.s;
}

/* MESSAGES */

static void write_message(const uint8_t *m, bool good)
{
    size_t length = below(12);
    begin();
    Refusal r = ribascenzo_message_write(m[3], m[4], m[5], room.out, length);
    check(r, 1, (void *)room.out, (size_t)RIBASCENZO_MESSAGE_BYTES);
    if (!one_of(r.number, "\21\40") || r.place)
        wrong("a refusal that is not the message writer's");
    if (!r.number != (length >= RIBASCENZO_MESSAGE_BYTES && m[3] >= 1 && m[3] <= 2))
        wrong("a message that is refused, or not");
    if (!r.number && good && memcmp(room.out, m, RIBASCENZO_MESSAGE_BYTES))
        wrong("an accepted message is written another way");
}

static void message_round(void)
{
    size_t length = below(4) ? 6 + below(20) : below(6);
    put(put(put(room.bytes, 6, 2), 1, 1), 1 + below(2), 1);
    put(room.bytes + 4, any(), 2);
    if (below(2))
        flip_bytes(room.bytes, 6, 1 + below(2));
    begin();
    Refusal r = ribascenzo_message_read(room.bytes, length, (struct ribascenzo_message *)(void *)room.answer);
    check(r, 1, (void *)room.answer, 3 * sizeof(uint32_t));
    if (!one_of(r.number, "\16\17\20\21") || r.place)
        wrong("a refusal that is not the message reader's");
    write_message(room.bytes, !r.number);
}

/* ALL ROUNDS */

/* Every refusal but the trace program's (21) and the one that a sound state does not give (30), and acceptance. */
static void reached(void)
{
    for (uint32_t number = 0; number <= RIBASCENZO_BUFFER_SHORT; number++)
        if (!answered[number] != (number == RIBASCENZO_TICKS_PASSED || number == RIBASCENZO_NO_ROOM_AGAIN)) {
            printf("fuzz: %lu calls were refused with %lu\n", answered[number], (unsigned long)number);
            exit(1);
        }
}

int main(int words, char **word)
{
    unsigned long rounds = words > 1 ? strtoul(word[1], NULL, 10) : ROUNDS;
    flip_bytes((uint8_t *)&room, sizeof room, 4 * sizeof room);
    ribascenzo_queue_empty(&held);
    next_state();
    for (; round_number < rounds; round_number++) {
        switch (below(6)) {
        case 0:
        case 1: queue_round(); break;
        case 2:
        case 3: state_round(); break;
        case 4: setup_round(); break;
        default: message_round();
        }
    }
    reached();
    printf("%lu calls, %lu of them accepted\n", made, answered[0]);
    return 0;
}
