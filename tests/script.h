/* A driver that runs a script of tests/port_calls.py: it makes each call, and holds its answer and the whole arena, lent memory and all about it, to what the
 * script says.
 *     DRIVER SCRIPT     writes `N calls`; or the first call that differs, counted from 0, and what differs, and ends with 1
 * On both sides of the arena are pages that nothing may touch, so that a read past its end stops the program too. The file that includes this one declares
 * `Refusal`, with a number and a place, before it, and defines `call` behind it. */
#include <stdbool.h>
#include <stddef.h>
#include <stdint.h>
#include <stdio.h>
#include <stdlib.h>
#include <string.h>
#include <sys/mman.h>

enum { PAGE = 4096, ARGUMENTS = 5, PUT = 1, CALL = 2 };

static uint8_t *arena, *due;
static size_t size;
static unsigned long calls;

static void fail(const char *why)
{
    fprintf(stderr, "calls: %s\n", why);
    exit(2);
}

/* THE SCRIPT */

static const uint8_t *script, *end;

static uint32_t next(void)
{
    if (end - script < 4)
        fail("the script ends early");
    const uint8_t *b = script;
    script += 4;
    return b[0] | (uint32_t)b[1] << 8 | (uint32_t)b[2] << 16 | (uint32_t)b[3] << 24;
}

static void read_script(const char *path)
{
    FILE *f = fopen(path, "rb");
    long length;
    uint8_t *bytes;
    if (!f || fseek(f, 0, SEEK_END) || (length = ftell(f)) < 0 || fseek(f, 0, SEEK_SET))
        fail("the script cannot be read");
    bytes = malloc(length + 1);
    if (!bytes || fread(bytes, 1, length, f) != (size_t)length)
        fail("the script cannot be read");
    fclose(f);
    script = bytes;
    end = bytes + length;
}

/* A place, a number of bytes and the bytes: what is due there, and, where the caller puts them, what is there. */
static void block(bool put)
{
    uint32_t at = next(), length = next(), filled = (length + 3) / 4 * 4;
    if (at > size || length > size - at || (size_t)(end - script) < filled)
        fail("a block of the script lies outside the arena");
    memcpy(due + at, script, length);
    if (put)
        memcpy(arena + at, script, length);
    script += filled;
}

/* THE ARENA */

static uint8_t *guarded(size_t length)
{
    size_t pages = (length + PAGE - 1) / PAGE * PAGE;
    uint8_t *all = mmap(NULL, pages + 2 * PAGE, PROT_READ | PROT_WRITE, MAP_PRIVATE | MAP_ANONYMOUS, -1, 0);
    if (all == MAP_FAILED || mprotect(all, PAGE, PROT_NONE) || mprotect(all + PAGE + pages, PAGE, PROT_NONE))
        fail("no memory");
    return all + PAGE + pages - length;
}

static void make_arena(void)
{
    size = next();
    arena = guarded(size);
    due = guarded(size);
    for (size_t i = 0; i < size; i++)
        arena[i] = due[i] = (uint8_t)(i * 37 + 11);
}

static void *at(uint32_t place)
{
    if (place > size)
        fail("an argument of the script lies outside the arena");
    return arena + place;
}

/* THE CALLS */

/* Makes a call of the script. Its arguments are numbers and places in the arena. */
static Refusal call(uint32_t which, const uint32_t *arguments);

/* What differs, for tests/drivers.py to explain. */
static void compare(Refusal r, uint32_t number, size_t place)
{
    size_t i = 0;
    if (r.number != number || r.place != place) {
        printf("call %lu answers %u at %zu, due is %u at %zu\n", calls, (unsigned)r.number, r.place, (unsigned)number, place);
        exit(1);
    }
    if (!memcmp(arena, due, size))
        return;
    while (arena[i] == due[i])
        i++;
    printf("call %lu leaves byte %zu of the arena as %u, due is %u\n", calls, i, (unsigned)arena[i], (unsigned)due[i]);
    exit(1);
}

static void make_call(void)
{
    uint32_t which = next(), arguments[ARGUMENTS], number, place, changes;
    for (int i = 0; i < ARGUMENTS; i++)
        arguments[i] = next();
    number = next();
    place = next();
    for (changes = next(); changes; changes--)
        block(false);
    compare(call(which, arguments), number, place);
    calls++;
}

int main(int words, char **word)
{
    uint32_t kind;
    if (words != 2)
        fail("usage: DRIVER SCRIPT");
    read_script(word[1]);
    make_arena();
    while ((kind = next())) {
        if (kind == PUT)
            block(true);
        else if (kind == CALL)
            make_call();
        else
            fail("the script has a record that there is not");
    }
    printf("%lu calls\n", calls);
    return 0;
}
