/* The calls of include/ribascenzo.h, for a script of tests/port_calls.py (tests/script.h). */
#define _DEFAULT_SOURCE
#include "ribascenzo.h"

typedef struct ribascenzo_refusal Refusal;

#include "../script.h"

/* THE CALLS, in the order of tests/port_calls.py */

static Refusal said(bool yes)
{
    Refusal r = { yes, 0 };
    return r;
}

static Refusal emptied(struct ribascenzo_queue *q)
{
    ribascenzo_queue_empty(q);
    return said(false);
}

static Refusal call(uint32_t which, const uint32_t *a)
{
    switch (which) {
    case 0: return emptied(at(a[0]));
    case 1: return said(ribascenzo_queue_sound(at(a[0])));
    case 2: return ribascenzo_queue_insert(at(a[0]), a[1], a[2]);
    case 3: return ribascenzo_queue_remove(at(a[0]), a[1]);
    case 4: return ribascenzo_queue_time_left(at(a[0]), a[1], at(a[2]));
    case 5: return ribascenzo_queue_clock(at(a[0]));
    case 6: return ribascenzo_queue_take(at(a[0]), at(a[1]));
    case 7: return ribascenzo_queue_push_back(at(a[0]));
    case 8: return ribascenzo_fresh(at(a[0]), at(a[1]), a[2]);
    case 9: return said(ribascenzo_sound(at(a[0])));
    case 10: return ribascenzo_tick(at(a[0]), at(a[1]));
    case 11: return ribascenzo_arrive(at(a[0]), a[1], a[2], at(a[3]));
    case 12: return ribascenzo_budget(at(a[0]), a[1], at(a[2]));
    case 13: return ribascenzo_load(at(a[0]), a[1], a[2], at(a[3]));
    case 14: return ribascenzo_setup_read(at(a[0]), a[1], at(a[2]));
    case 15: return ribascenzo_setup_write(at(a[0]), at(a[1]), a[2], at(a[3]));
    case 16: return ribascenzo_message_read(at(a[0]), a[1], at(a[2]));
    case 17: return ribascenzo_message_write(a[0], a[1], a[2], at(a[3]), a[4]);
    default: fail("the script has a call that there is not");
    }
    return said(false);
}
