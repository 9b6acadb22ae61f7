/*
 * Serves the functions of the archive over standard input and output,
 * for a machine that cannot link the archive and can run this program under
 * an emulator.
 *
 * A request is seven numbers of 64 bits: the function (0 solve, 1 check,
 * 2 times, 3 slice_start, 4 slice_continue, 5 session_open, 6 session_switch,
 * 7 session_check, 11 solve_within, 13 replay, 14 trace, 15 smtlib_write,
 * 16 check_wide, 17 check_times, 18 smtlib_read, 19 first_violation,
 * 20 session_violation), how many 32-bit words there are to read, how many 64-bit
 * words the output (of checks: the answer; of a replay: the trace) has, and what
 * else the function takes:
 * slice_continue the number of the slice and the pivots, session_switch,
 * session_check and session_violation the number of the session, session_switch
 * variable, upper and on, solve_within the most rows, smtlib_write how many bytes
 * of the output are lent, and smtlib_read how many bytes of the words are the text.
 * Then come those words. The reply is four numbers of 64 bits: what the
 * function returned, and of slices and sessions whether it answered, the number of
 * the one that came back and its count, of a replay 0, word and step, of a trace,
 * a text and its words 0, 0 and the count; and then all words of the output. Those
 * of a violation are its other six numbers. Numbers are little-endian, as the
 * machine's own. The words of a trace, and those that are read from a text, have
 * 32 bits: they are lent in a slice of their own. Requests with 8, 9, 10 or 12 are
 * bundle.c's.
 *
 * Slices and sessions are kept here, the last so many of them.
 *
 * Both slices lie between guard words. A function that changes a guard, or a
 * word that it was lent to read, ends the program with a message.
 */
#include "served.h"

#include <stdio.h>
#include <stdlib.h>
#include <string.h>

#define GUARD 4
#define MOST_WORDS (1 << 20)
#define KEPT 64
#define SESSIONS_KEPT 4096

static const int32_t WORD_GUARD = -1431655766;
static const int64_t OUT_GUARD = -6148914691236517206;

static int32_t words[MOST_WORDS + 2 * GUARD], words_before[MOST_WORDS];
static int64_t out[MOST_WORDS + 2 * GUARD], out_before[MOST_WORDS];

static uint32_t steps[MOST_WORDS + 2 * GUARD];

static struct scatterflock_slice kept[KEPT];
static uint64_t slices;

static struct scatterflock_session sessions_kept[SESSIONS_KEPT];
static uint64_t sessions;

void stop(const char *what)
{
    fprintf(stderr, "served: %s\n", what);
    exit(1);
}

void take(void *to, size_t size)
{
    if (size != 0 && fread(to, size, 1, stdin) != 1)
        stop("a request ends early");
}

void give(const void *from, size_t size)
{
    if (size != 0 && fwrite(from, size, 1, stdout) != 1)
        stop("a reply cannot be written");
}

static void put_guards(size_t word_count, size_t out_count)
{
    for (size_t place = 0; place < GUARD; place++) {
        words[place] = words[GUARD + word_count + place] = WORD_GUARD;
        out[place] = out[GUARD + out_count + place] = OUT_GUARD;
    }
}

static void look_at_guards(size_t word_count, size_t out_count)
{
    for (size_t place = 0; place < GUARD; place++) {
        if (words[place] != WORD_GUARD || words[GUARD + word_count + place] != WORD_GUARD)
            stop("words beside those to read have changed");
        if (out[place] != OUT_GUARD || out[GUARD + out_count + place] != OUT_GUARD)
            stop("words beside the output have changed");
    }
}

static void keep(uint64_t *reply, struct scatterflock_slice slice)
{
    reply[2] = slices;
    reply[3] = slice.count;
    kept[slices % KEPT] = slice;
    slices++;
}

static void start(size_t word_count, uint64_t *reply)
{
    struct scatterflock_begun begun = scatterflock_slice_start(words + GUARD, word_count);

    reply[0] = begun.refused;
    keep(reply, begun.slice);
}

static void go_on(uint64_t number, uint64_t pivots, size_t out_count, uint64_t *reply)
{
    struct scatterflock_continued next;

    if (number >= slices || number + KEPT < slices)
        stop("there is no such slice any more");
    next = scatterflock_slice_continue(kept[number % KEPT], pivots, out + GUARD, out_count);
    reply[0] = next.refused;
    reply[1] = next.answered;
    keep(reply, next.slice);
}

static void keep_session(uint64_t *reply, uint32_t refused, struct scatterflock_session session)
{
    reply[0] = refused;
    reply[2] = sessions;
    sessions_kept[sessions % SESSIONS_KEPT] = session;
    sessions++;
}

static struct scatterflock_session session_of(uint64_t number)
{
    if (number >= sessions || number + SESSIONS_KEPT < sessions)
        stop("there is no such session any more");
    return sessions_kept[number % SESSIONS_KEPT];
}

static void open_session(size_t word_count, uint64_t *reply)
{
    struct scatterflock_opened opened = scatterflock_session_open(words + GUARD, word_count);

    keep_session(reply, opened.refused, opened.session);
}

static void switch_limit(const uint64_t *more, uint64_t *reply)
{
    struct scatterflock_switched next =
        scatterflock_session_switch(session_of(more[0]), (uint32_t)more[1], more[2] != 0, more[3] != 0);

    keep_session(reply, next.refused, next.session);
}

static void check_session(const uint64_t *more, size_t out_count, uint64_t *reply)
{
    struct scatterflock_checked next =
        scatterflock_session_check(session_of(more[0]), out + GUARD, out_count);

    keep_session(reply, next.refused, next.session);
}

/* The words of the output as those of a trace, between guards. */
static void narrow(size_t count)
{
    for (size_t place = 0; place < GUARD; place++)
        steps[place] = steps[GUARD + count + place] = (uint32_t)WORD_GUARD;
    for (size_t place = 0; place < count; place++)
        steps[GUARD + place] = (uint32_t)out[GUARD + place];
}

/* .. and back. */
static void widen(size_t count)
{
    for (size_t place = 0; place < GUARD; place++)
        if (steps[place] != (uint32_t)WORD_GUARD || steps[GUARD + count + place] != (uint32_t)WORD_GUARD)
            stop("words beside the trace have changed");
    for (size_t place = 0; place < count; place++)
        out[GUARD + place] = steps[GUARD + place];
}

static void replay(size_t word_count, size_t count, uint64_t *reply)
{
    struct scatterflock_replayed told;

    narrow(count);
    told = scatterflock_replay(words + GUARD, word_count, steps + GUARD, count);
    widen(count);
    reply[0] = told.number;
    reply[2] = told.word;
    reply[3] = told.step;
}

static void trace(size_t word_count, size_t count, uint64_t *reply)
{
    struct scatterflock_traced told;

    narrow(count);
    told = scatterflock_trace(words + GUARD, word_count, steps + GUARD, count);
    widen(count);
    reply[0] = told.refused;
    reply[3] = told.count;
}

static void write_smtlib(size_t word_count, size_t out_count, size_t room, uint64_t *reply)
{
    struct scatterflock_exchanged written;

    if (room > out_count * sizeof *out)
        stop("there are fewer bytes than are to be lent");
    written = scatterflock_smtlib_write(words + GUARD, word_count, (uint8_t *)(out + GUARD), room);
    reply[0] = written.refused;
    reply[3] = written.count;
}

static void show(struct scatterflock_violation shown, size_t out_count, uint64_t *reply)
{
    const int64_t numbers[] = { shown.variable, shown.violated, shown.rises,
                                shown.denominator, shown.shortfall, shown.small };

    if (out_count != sizeof numbers / sizeof *numbers)
        stop("a violation has six numbers");
    memcpy(out + GUARD, numbers, sizeof numbers);
    reply[0] = shown.refused;
}

static void read_smtlib(size_t word_count, size_t text_count, size_t count, uint64_t *reply)
{
    struct scatterflock_exchanged told;

    if (text_count > word_count * sizeof *words)
        stop("there are fewer bytes than are to be read");
    narrow(count);
    told = scatterflock_smtlib_read((const uint8_t *)(words + GUARD), text_count, (int32_t *)steps + GUARD, count);
    widen(count);
    reply[0] = told.refused;
    reply[3] = told.count;
}

static uint64_t answer(uint64_t function, size_t word_count, size_t out_count)
{
    const int32_t *read = words + GUARD;
    int64_t *lent = out + GUARD;

    switch (function) {
    case 0:
        return scatterflock_solve(read, word_count, lent, out_count);
    case 1:
        return scatterflock_check(read, word_count, lent, out_count);
    case 2:
        return scatterflock_times(read, word_count, lent, out_count);
    case 16:
        return scatterflock_check_wide(read, word_count, lent, out_count);
    case 17:
        return scatterflock_check_times(read, word_count, lent, out_count);
    }
    stop("there is no such function");
    return 0;
}

/* Whether the function is lent no output, but an answer or a trace. */
static bool only_reads(uint64_t function)
{
    return function == 1 || function == 13 || function == 16 || function == 17;
}

int main(void)
{
    uint64_t request[7];

    while (fread(request, sizeof request, 1, stdin) == 1) {
        uint64_t reply[4] = { 0 }, word_count = request[1], out_count = request[2];

        if ((request[0] >= 8 && request[0] <= 10) || request[0] == 12) {
            serve_bundle(request);
            if (fflush(stdout) != 0)
                stop("a reply cannot be written");
            continue;
        }
        if (word_count > MOST_WORDS || out_count > MOST_WORDS)
            stop("a request is too long");
        put_guards(word_count, out_count);
        take(words + GUARD, word_count * sizeof *words);
        take(out + GUARD, out_count * sizeof *out);
        memcpy(words_before, words + GUARD, word_count * sizeof *words);
        memcpy(out_before, out + GUARD, out_count * sizeof *out);

        switch (request[0]) {
        case 3:
            start(word_count, reply);
            break;
        case 4:
            go_on(request[3], request[4], out_count, reply);
            break;
        case 5:
            open_session(word_count, reply);
            break;
        case 6:
            switch_limit(request + 3, reply);
            break;
        case 7:
            check_session(request + 3, out_count, reply);
            break;
        case 11:
            reply[0] = scatterflock_solve_within((uint32_t)request[3], words + GUARD, word_count,
                                                 out + GUARD, out_count);
            break;
        case 13:
            replay(word_count, out_count, reply);
            break;
        case 14:
            trace(word_count, out_count, reply);
            break;
        case 15:
            write_smtlib(word_count, out_count, request[3], reply);
            break;
        case 18:
            read_smtlib(word_count, request[3], out_count, reply);
            break;
        case 19:
            show(scatterflock_first_violation(words + GUARD, word_count), out_count, reply);
            break;
        case 20:
            show(scatterflock_session_violation(session_of(request[3])), out_count, reply);
            break;
        default:
            reply[0] = answer(request[0], word_count, out_count);
        }

        look_at_guards(word_count, out_count);
        if (memcmp(words_before, words + GUARD, word_count * sizeof *words) != 0)
            stop("words that were lent to read have changed");
        if (only_reads(request[0]) && memcmp(out_before, out + GUARD, out_count * sizeof *out) != 0)
            stop("an answer or a trace that was lent to read has changed");
        give(reply, sizeof reply);
        give(out + GUARD, out_count * sizeof *out);
        if (fflush(stdout) != 0)
            stop("a reply cannot be written");
    }
    return 0;
}
