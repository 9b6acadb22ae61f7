/*
 * The functions of a day's file, for served.c.
 *
 * A request of one of them is seven numbers of 64 bits: the function (8
 * bundle_read, 9 bundle_write, 10 day, 12 sheet), how many bytes each of three
 * parts has, for bundle_write the edition, and zeros; then those parts. They are
 * what the function takes, in its order: file, lengths and words; lengths, words
 * and file; of day and sheet file, text and nothing. The reply is four numbers of 64 bits, what the function returned
 * (of bundle_read: refused, edition and bodies), and then all parts again.
 *
 * Each part lies between guards. A function that changes a guard, or a part that
 * it was lent to read, ends the program with a message.
 */
#include "served.h"

#include <string.h>

#define PARTS 3
#define GUARD_BYTES 32
#define MOST_BYTES (1 << 20)

/* Each is aligned for words. */
static int32_t parts[PARTS][(MOST_BYTES + 2 * GUARD_BYTES) / 4];
static uint8_t before[PARTS][MOST_BYTES];

/* Which parts are lent to be read alone, function by function. */
static const bool ONLY_READ[][PARTS] = {
    {true, false, false}, {true, true, false}, {true, false, true}, {false, false, false}, {true, false, true},
};

static uint8_t *bytes(size_t part)
{
    return (uint8_t *)parts[part] + GUARD_BYTES;
}

static int32_t *words(size_t part)
{
    return parts[part] + GUARD_BYTES / 4;
}

static void put_guards(size_t part, size_t count)
{
    memset(parts[part], 0xa5, GUARD_BYTES);
    memset(bytes(part) + count, 0x5a, GUARD_BYTES);
}

static bool are_guards_whole(size_t part, size_t count)
{
    const uint8_t *first = (const uint8_t *)parts[part], *last = bytes(part) + count;
    size_t whole = 0;

    for (size_t place = 0; place < GUARD_BYTES; place++)
        whole += first[place] == 0xa5 && last[place] == 0x5a;
    return whole == GUARD_BYTES;
}

static void call(uint64_t function, uint32_t edition, const size_t *counts, uint64_t *reply)
{
    struct scatterflock_contents told;

    switch (function) {
    case 8:
        told = scatterflock_bundle_read(bytes(0), counts[0], words(1), counts[1] / 4, words(2), counts[2] / 4);
        reply[0] = told.refused;
        reply[1] = told.edition;
        reply[2] = told.bodies;
        break;
    case 9:
        reply[0] = scatterflock_bundle_write(edition, words(0), counts[0] / 4, words(1), counts[1] / 4,
                                             bytes(2), counts[2]);
        break;
    case 10:
        reply[0] = scatterflock_day(bytes(0), counts[0], bytes(1), counts[1]);
        break;
    default:
        reply[0] = scatterflock_sheet(bytes(0), counts[0], bytes(1), counts[1]);
    }
}

void serve_bundle(const uint64_t *request)
{
    uint64_t reply[4] = { 0 };
    size_t counts[PARTS];

    for (size_t part = 0; part < PARTS; part++) {
        counts[part] = request[1 + part];
        if (counts[part] > MOST_BYTES)
            stop("a request is too long");
        put_guards(part, counts[part]);
        take(bytes(part), counts[part]);
        memcpy(before[part], bytes(part), counts[part]);
    }
    call(request[0], (uint32_t)request[4], counts, reply);
    for (size_t part = 0; part < PARTS; part++) {
        if (!are_guards_whole(part, counts[part]))
            stop("bytes beside a part have changed");
        if (ONLY_READ[request[0] - 8][part] && memcmp(before[part], bytes(part), counts[part]) != 0)
            stop("a part that was lent to read has changed");
    }
    give(reply, sizeof reply);
    for (size_t part = 0; part < PARTS; part++)
        give(bytes(part), counts[part]);
}
