/*
 * Calls the archive through include/scatterflock.h and compares what it gives:
 * cases A, C and J of docs/RULES.md, case A in slices, its trace, its first violation, the first session of
 * docs/formats/session.md, strict limits, answers that are right and wrong,
 * case A as SMT-LIB text in every room, its answer in wide numbers, times from elsewhere, refusals, and on x86-64 how long the records are that come back. It is C and
 * C++ at once, and header.rs compiles it as both, with MOST_SMTLIB by -D. Each
 * difference is a line, and any makes the program fail.
 */
#include "scatterflock.h"

#include <stdio.h>

#define COUNT(list) (sizeof(list) / sizeof *(list))
#define ROOM 16

static const int32_t A[] = {2, 3, 1, 1, 2, -1, -1, 2, 0, 0, 0, 0, 0, 0, 1, 2, 0, 1, 0, 0, 1, 1, 0};
static const int64_t A_ANSWER[] = {1, 2, 3, 3, 3, 6, 3, 3, 0, 0, 0, 0, 0};
static const int64_t A_WRONG[] = {1, 2, 3, 3, 3, 6, 3, 4, 0, 0, 0, 0, 0};

static const int32_t C[] = {2, 3, 1, 1, -1, -2, -1, 1, 0, 0, 0, 0, 0, 0, 1, 0, 0, 1, 2, 0, 1, 1, 0};
static const int64_t C_ANSWER[] = {2, 2, 0, 0, 0, 3, 2, 1, 0, 0, 0, 0, 0};
static const int64_t C_WRONG[] = {2, 2, 0, 0, 0, 3, 2, 2, 0, 0, 0, 0, 0};

/* x > 0, y < 3, x + y > 3 */
static const int32_t STRICT[] = {2, 1, 1, 1,
                                 SCATTERFLOCK_ABOVE, 0, 0,
                                 SCATTERFLOCK_BELOW, 0, 3,
                                 SCATTERFLOCK_AT_LEAST + SCATTERFLOCK_STRICT_LOWER, 3, 0};
static const int64_t STRICT_ANSWER[] = {1, 1, 1, 3, 0, 3, 1, 0, 1};
static const int64_t STRICT_WRONG[] = {1, 1, 1, 3, 0, 3, 0, 0, 0};
#define MOST SCATTERFLOCK_LARGEST_SMALL
static const int64_t STRICT_FAR[] = {1, 1, 1, 4, 0, 4, -MOST, 0, -MOST};
static const int64_t STRICT_BEYOND[] = {1, 1, 1, 4, 0, 4, MOST + 1, 0, MOST + 1};
static const int32_t STRICT_MISSING[] = {1, 0, SCATTERFLOCK_AT_LEAST + SCATTERFLOCK_STRICT_UPPER, 0, 0};

static const int32_t J[] = {4, 6, 0, 1, 0, 5, 1, 0, 0, -5, 1, 2, 0, -2,
                            0, 2, 0, -3, 3, 0, 0, 2, 0, 3, 0, -2};
static const int64_t J_TIMES[] = {1, 4, 5, 0, 8, 7, 0, 0, 0, 0};

/* x >= 5, y >= 3, 2x + y <= 12, x - 3y <= 2 */
static const int32_t FOUR[] = {2, 2, 2, 1, 1, -3,
                               SCATTERFLOCK_AT_LEAST, 5, 0, SCATTERFLOCK_AT_LEAST, 3, 0,
                               SCATTERFLOCK_AT_MOST, 0, 12, SCATTERFLOCK_AT_MOST, 0, 2};
static const int32_t FOUR_LIVE[] = {2, 2, 2, 1, 1, -3, 0, 0, 0, 1, 3, 0, 2, 0, 12, 2, 0, 2};
static const int64_t FOUR_ANSWERS[][11] = {{1, 0, 1, 5, 3, 13, -4, 0, 0, 0, 0},
                                           {2, 0, 0, 2, 1, 0, 0, 0, 0, 1, 0},
                                           {1, 1, 2, 9, 6, 24, -9, 0, 0, 0, 0}};

static const uint32_t A_TRACE[] = {2, 0, 25, 4, 1, 11, 0, 0, 0};
static const uint32_t A_TRACE_WRONG[] = {2, 0, 25, 4, 1, 25};

static const int32_t NINE_VARIABLES[] = {9, 0};
static const int32_t NO_SUCH_VERTEX[] = {1, 1, 0, 1, 0, 0};

static int differences = 0;

static void number(const char *call, uint32_t found, uint32_t expected)
{
    if (found != expected) {
        printf("%s returns %lu, not %lu\n", call, (unsigned long)found, (unsigned long)expected);
        differences++;
    }
}

static int64_t before(size_t place)
{
    return -1000 - (int64_t)place;
}

/* The expected words, and then what was there before. */
static void words(const char *call, const int64_t *out, const int64_t *expected, size_t count)
{
    for (size_t place = 0; place < ROOM; place++) {
        int64_t word = place < count ? expected[place] : before(place);

        if (out[place] != word) {
            printf("%s leaves %lld in word %lu, not %lld\n", call, (long long)out[place],
                   (unsigned long)place, (long long)word);
            differences++;
        }
    }
}

static int64_t *fresh(void)
{
    static int64_t out[ROOM];

    for (size_t place = 0; place < ROOM; place++)
        out[place] = before(place);
    return out;
}

/* Case A by 0, 1, 0, 1 and 5 pivots: the answer comes with the second. */
static void in_slices(void)
{
    static const size_t PIVOTS[] = {0, 1, 0, 1, 5};
    static const size_t COMPLETED[] = {0, 1, 1, 2, 2};
    struct scatterflock_begun begun = scatterflock_slice_start(A, COUNT(A));
    struct scatterflock_slice slice = begun.slice;

    number("start A", begun.refused, 0);
    for (size_t place = 0; place < COUNT(PIVOTS); place++) {
        int64_t *out = fresh();
        bool ends = COMPLETED[place] == 2;
        struct scatterflock_continued next = scatterflock_slice_continue(slice, PIVOTS[place], out, ROOM);

        number("continue A", next.refused, 0);
        number("continue A, answered", next.answered, ends);
        number("continue A, count", (uint32_t)next.slice.count, (uint32_t)COMPLETED[place]);
        words("continue A", out, A_ANSWER, ends ? COUNT(A_ANSWER) : 0);
        out = fresh();
        next = scatterflock_slice_continue(slice, PIVOTS[place], out, COUNT(A_ANSWER) - 1);
        number("continue A short", next.refused, SCATTERFLOCK_SHORT);
        words("continue A short", out, NULL, 0);
        slice = scatterflock_slice_continue(next.slice, PIVOTS[place], out, ROOM).slice;
    }
    begun = scatterflock_slice_start(NINE_VARIABLES, COUNT(NINE_VARIABLES));
    number("start nine", begun.refused, 2);
    number("continue nine", scatterflock_slice_continue(begun.slice, 1, fresh(), ROOM).answered, 1);
}

/* Case A, of three rows, within each number of rows. */
static void within_rows(void)
{
    for (uint32_t most = 0; most < SCATTERFLOCK_MOST_ROWS + 6; most++) {
        int64_t *out = fresh();
        bool fits = most >= 3;

        number("solve A within", scatterflock_solve_within(most, A, COUNT(A), out, ROOM),
               fits ? SCATTERFLOCK_ANSWERED : SCATTERFLOCK_SIZES);
        words("solve A within", out, A_ANSWER, fits ? COUNT(A_ANSWER) : 0);
        number("solve A within, short",
               scatterflock_solve_within(most, A, COUNT(A), out, COUNT(A_ANSWER) - 1), fits ? 7 : 2);
        number("solve nine within",
               scatterflock_solve_within(most, NINE_VARIABLES, COUNT(NINE_VARIABLES), out, ROOM), 2);
    }
}

static uint32_t wide(const int64_t *answer, size_t count)
{
    return scatterflock_check_wide(A, COUNT(A), answer, count);
}

/* The answer to case A with each number in four words, and words bent. */
static void in_wide_numbers(void)
{
    int64_t answer[2 + 4 * (COUNT(A_ANSWER) - 2)];

    for (size_t place = 0; place < COUNT(answer); place++)
        answer[place] = place < 2 ? A_ANSWER[place] : place % 4 == 2 ? A_ANSWER[2 + place / 4] : 0;
    number("check wide A", wide(answer, COUNT(answer)), SCATTERFLOCK_ACCEPTED);
    number("check wide A short", wide(answer, COUNT(answer) - 1), SCATTERFLOCK_SHORT);
    number("check wide nine",
           scatterflock_check_wide(NINE_VARIABLES, COUNT(NINE_VARIABLES), answer, COUNT(answer)), 2);
    answer[1] = -7;
    number("check wide A, other pivots", wide(answer, COUNT(answer)), 8);
    for (size_t place = 2; place < 30; place++) {
        answer[place] += 1;
        number("check wide A bent", wide(answer, COUNT(answer)), SCATTERFLOCK_REJECTED);
        answer[place] -= 1;
    }
    answer[COUNT(answer) - 2] = INT64_C(4294967296);
    number("check wide A, a limb too large", wide(answer, COUNT(answer)), 9);
}

/* The times of J, later, apart and short; and a cycle of one row, x - x < 0. */
static void about_times(void)
{
    static const int32_t ROUND[] = {1, 1, 0, 0, 1, 0};
    static const int64_t CYCLE[] = {2, 1, 0, 0};
    static const int64_t NO_CYCLE[] = {2, 1, 1, 0};
    int64_t times[COUNT(J_TIMES)];

    number("check times J", scatterflock_check_times(J, COUNT(J), J_TIMES, COUNT(J_TIMES)), SCATTERFLOCK_ACCEPTED);
    number("check times J short", scatterflock_check_times(J, COUNT(J), J_TIMES, COUNT(J_TIMES) - 1),
           SCATTERFLOCK_TIMES_SHORT);
    for (size_t place = 0; place < COUNT(times); place++)
        times[place] = J_TIMES[place] + (place >= 2 && place < 6 ? INT64_MAX - 8 : 0);
    number("check times J, late", scatterflock_check_times(J, COUNT(J), times, COUNT(times)), 8);
    times[2] -= 1;
    number("check times J, apart", scatterflock_check_times(J, COUNT(J), times, COUNT(times)), SCATTERFLOCK_REJECTED);
    number("check times vertex",
           scatterflock_check_times(NO_SUCH_VERTEX, COUNT(NO_SUCH_VERTEX), times, COUNT(times)), 14);
    number("check times round", scatterflock_check_times(ROUND, COUNT(ROUND), CYCLE, COUNT(CYCLE)), 8);
    number("check times no cycle", scatterflock_check_times(ROUND, COUNT(ROUND), NO_CYCLE, COUNT(NO_CYCLE)), 9);
}

static void replayed(const char *call, const uint32_t *trace, size_t count, uint32_t expected,
                     uint32_t word, size_t step)
{
    struct scatterflock_replayed told = scatterflock_replay(A, COUNT(A), trace, count);

    number(call, told.number, expected);
    number("the wrong word", told.word, word);
    number("the wrong step", (uint32_t)told.step, (uint32_t)step);
}

/* Case A's own trace: accepted, wrong, early, past, left over; written into room for none to all of it. */
static void in_a_trace(void)
{
    uint32_t room[COUNT(A_TRACE)];

    replayed("replay A", A_TRACE, 6, 0, 0, 0);
    replayed("replay A wrong", A_TRACE_WRONG, 6, SCATTERFLOCK_TRACE_WRONG, SCATTERFLOCK_MASK, 1);
    replayed("replay A begun late", A_TRACE + 1, 3, SCATTERFLOCK_TRACE_WRONG, SCATTERFLOCK_LEAVING, 0);
    replayed("replay A early", A_TRACE, 3, SCATTERFLOCK_TRACE_EARLY, 0, 0);
    replayed("replay A past", A_TRACE, 9, SCATTERFLOCK_TRACE_PAST, 0, 0);
    replayed("replay A left over", A_TRACE, 7, SCATTERFLOCK_TRACE_LEFT_OVER, 0, 0);
    number("replay nine", scatterflock_replay(NINE_VARIABLES, COUNT(NINE_VARIABLES), A_TRACE, 7).number, 2);

    for (size_t long_enough = 0; long_enough <= COUNT(room); long_enough++) {
        size_t written = long_enough < 6 ? 0 : 6;
        struct scatterflock_traced told;

        for (size_t place = 0; place < COUNT(room); place++)
            room[place] = 4000000000u;
        told = scatterflock_trace(A, COUNT(A), room, long_enough);
        number("trace A", told.refused, written == 0 ? SCATTERFLOCK_SHORT : 0);
        number("trace A, count", (uint32_t)told.count, (uint32_t)written);
        for (size_t place = 0; place < COUNT(room); place++)
            number("trace A, a word", room[place], place < written ? A_TRACE[place] : 4000000000u);
    }
    number("trace nine", scatterflock_trace(NINE_VARIABLES, COUNT(NINE_VARIABLES), room, 0).refused, 2);
}

static struct scatterflock_session switched(struct scatterflock_session session, uint32_t variable,
                                            bool upper, bool on, uint32_t expected)
{
    struct scatterflock_switched next = scatterflock_session_switch(session, variable, upper, on);

    number("switch", next.refused, expected);
    return next.session;
}

static struct scatterflock_session checked(struct scatterflock_session session, const int64_t *answer)
{
    int64_t *out = fresh();
    struct scatterflock_checked next = scatterflock_session_check(session, out, 10);

    number("session short", next.refused, SCATTERFLOCK_SHORT);
    words("session short", out, NULL, 0);
    next = scatterflock_session_check(next.session, out, ROOM);
    number("session", next.refused, 0);
    words("session", out, answer, 11);
    return next.session;
}

/* Can without a pivot, then cannot, then with one limit off can by one pivot. */
static void in_a_session(void)
{
    struct scatterflock_opened opened = scatterflock_session_open(FOUR, COUNT(FOUR));
    struct scatterflock_session session = opened.session, earlier;

    number("open", opened.refused, 0);
    session = switched(session, 0, false, true, 0);
    session = switched(session, 1, false, true, 0);
    session = switched(session, 3, true, true, 0);
    session = checked(session, FOUR_ANSWERS[0]);
    earlier = session;
    session = switched(session, 2, true, true, 0);
    session = checked(session, FOUR_ANSWERS[1]);
    session = switched(session, 0, false, true, SCATTERFLOCK_SWITCH_ALREADY_ON);
    session = switched(session, 0, true, true, SCATTERFLOCK_SWITCH_NO_LIMIT);
    session = switched(session, 9, false, true, SCATTERFLOCK_SWITCH_NO_VARIABLE);
    session = switched(session, 0, false, false, 0);
    session = switched(session, 0, false, false, SCATTERFLOCK_SWITCH_ALREADY_OFF);
    session = checked(session, FOUR_ANSWERS[2]);
    number("check session", scatterflock_check(FOUR_LIVE, COUNT(FOUR_LIVE), FOUR_ANSWERS[2], 11), 8);
    earlier = checked(earlier, FOUR_ANSWERS[0]);
    opened = scatterflock_session_open(NINE_VARIABLES, COUNT(NINE_VARIABLES));
    number("open nine", opened.refused, 2);
    switched(opened.session, 0, false, true, 42);
    switched(opened.session, 1, false, true, 41);
}

static void shown(const char *call, struct scatterflock_violation found, uint32_t variable,
                  bool rises, int64_t shortfall, int64_t small)
{
    bool right = found.refused == 0 && found.violated && found.variable == variable
                 && found.rises == rises && found.denominator == 1
                 && found.shortfall == shortfall && found.small == small;

    number(call, right, 1);
}

/* The first violation: at the start of case A, of words that are refused, and of a session. */
static void at_first(void)
{
    static const int32_t STRICT_ROW[] = {1, 1, 2, 1, 5, 0, 10, 0, 7};
    struct scatterflock_violation none = scatterflock_first_violation(NINE_VARIABLES, COUNT(NINE_VARIABLES));
    struct scatterflock_session session = scatterflock_session_open(A, COUNT(A)).session;

    shown("first of A", scatterflock_first_violation(A, COUNT(A)), 2, true, 2, 0);
    shown("first of 2 x < 7", scatterflock_first_violation(STRICT_ROW, COUNT(STRICT_ROW)), 1, false, 3, 1);
    number("first of nine", none.refused, 2);
    number("first of nine, violated", none.violated || none.rises || none.variable != 0, 0);
    number("first of nine, numbers", none.denominator != 0 || none.shortfall != 0 || none.small != 0, 0);
    number("first of a session", scatterflock_session_violation(session).violated, 0);
    session = scatterflock_session_switch(session, 4, false, true).session;
    shown("first of a session", scatterflock_session_violation(session), 4, true, 1, 0);
    session = scatterflock_session_switch(session, 2, false, true).session;
    shown("first of a session", scatterflock_session_violation(session), 2, true, 2, 0);
}

/* The words of case A's text, in every room up to a little more than they need,
 * and every text that it begins with: refused where it ends, or at a word that is cut. */
static void from_smtlib(const uint8_t *text, size_t length)
{
    int32_t read[COUNT(A) + 2];

    for (size_t room = 0; room < COUNT(A) + 3; room++) {
        bool fits = room >= COUNT(A);
        size_t changed = 0;
        struct scatterflock_exchanged told;

        for (size_t place = 0; place < COUNT(A) + 2; place++)
            read[place] = -77;
        told = scatterflock_smtlib_read(text, length, read, room);
        number("smtlib A back", told.refused, fits ? 0 : SCATTERFLOCK_SHORT);
        number("smtlib A back, count", (uint32_t)told.count, fits ? (uint32_t)COUNT(A) : 0);
        for (size_t place = 0; place < COUNT(A) + 2; place++)
            changed += read[place] != (fits && place < COUNT(A) ? A[place] : -77);
        number("smtlib A back, words that differ,", (uint32_t)changed, 0);
    }
    for (size_t count = 0; count < length - 1; count++) {
        struct scatterflock_exchanged told = scatterflock_smtlib_read(text, count, read, COUNT(read));

        number("smtlib A cut", told.refused, SCATTERFLOCK_SMTLIB_TOKEN);
        number("smtlib A cut, behind its end", told.count > count, 0);
    }
    number("smtlib A cut at (set-log", (uint32_t)scatterflock_smtlib_read(text, 8, read, COUNT(read)).count, 1);
}

/* Case A as text, in every room up to a little more than it needs. */
static void as_smtlib(void)
{
    static const char TEXT[] =
        "(set-logic QF_LRA)\n"
        "(declare-const x0 Real)\n"
        "(declare-const x1 Real)\n"
        "(declare-const r0 Real)\n"
        "(declare-const r1 Real)\n"
        "(declare-const r2 Real)\n"
        "(assert (= r0 (+ (* 1 x0) (* 1 x1))))\n"
        "(assert (= r1 (+ (* 2 x0) (* (- 1) x1))))\n"
        "(assert (= r2 (+ (* (- 1) x0) (* 2 x1))))\n"
        "(assert (>= r0 2))\n"
        "(assert (>= r1 0))\n"
        "(assert (>= r2 1))\n"
        "(check-sat)\n";
    static uint8_t text[SCATTERFLOCK_MOST_SMTLIB];
    const size_t length = COUNT(TEXT) - 1;

    number("the most bytes of a text", sizeof text, MOST_SMTLIB);
    for (size_t room = 0; room < length + 3; room++) {
        bool fits = room >= length;
        size_t changed = 0;
        struct scatterflock_exchanged written;

        for (size_t place = 0; place < sizeof text; place++)
            text[place] = 0xA5;
        written = scatterflock_smtlib_write(A, COUNT(A), text, room);
        number("smtlib A", written.refused, fits ? 0 : SCATTERFLOCK_SHORT);
        number("smtlib A, count", (uint32_t)written.count, fits ? (uint32_t)length : 0);
        for (size_t place = 0; place < sizeof text; place++)
            changed += text[place] != (fits && place < length ? (uint8_t)TEXT[place] : 0xA5);
        number("smtlib A, bytes that differ,", (uint32_t)changed, 0);
    }
    from_smtlib((const uint8_t *)TEXT, length);
    number("smtlib nine", scatterflock_smtlib_write(NINE_VARIABLES, COUNT(NINE_VARIABLES), text, sizeof text).refused, 2);
}

#ifdef __x86_64__
/* A record that is handed back is written where a hidden first argument points,
 * so a call that names this argument sees how far the archive itself writes. */
typedef void *(*into)(void *, const int32_t *, size_t);

#define BEYOND 4096

static void length(const char *call, into hand_back, size_t size)
{
    static unsigned char room[sizeof(struct scatterflock_begun) + BEYOND];
    size_t end = 0;

    for (int fill = 0; fill < 2; fill++) {
        for (size_t place = 0; place < sizeof room; place++)
            room[place] = fill == 0 ? 0x55 : 0xAA;
        hand_back(room, A, COUNT(A));
        for (size_t place = end; place < sizeof room; place++)
            if (room[place] != (fill == 0 ? 0x55 : 0xAA))
                end = place + 1;
    }
    /* The last word may have bytes that nobody writes. */
    number(call, (uint32_t)(end + 7) / 8, (uint32_t)size / 8);
}

static void lengths(void)
{
    length("start A, in words,", (into)(void (*)(void))scatterflock_slice_start,
           sizeof(struct scatterflock_begun));
    length("open A, in words,", (into)(void (*)(void))scatterflock_session_open,
           sizeof(struct scatterflock_opened));
}
#else
static void lengths(void)
{
}
#endif

int main(void)
{
    int64_t *out = fresh();

    number("solve A", scatterflock_solve(A, COUNT(A), out, ROOM), SCATTERFLOCK_ANSWERED);
    words("solve A", out, A_ANSWER, COUNT(A_ANSWER));
    out = fresh();
    number("solve C", scatterflock_solve(C, COUNT(C), out, ROOM), 0);
    words("solve C", out, C_ANSWER, COUNT(C_ANSWER));
    out = fresh();
    number("solve strict", scatterflock_solve(STRICT, COUNT(STRICT), out, ROOM), 0);
    words("solve strict", out, STRICT_ANSWER, COUNT(STRICT_ANSWER));
    out = fresh();
    number("solve missing", scatterflock_solve(STRICT_MISSING, COUNT(STRICT_MISSING), out, ROOM), SCATTERFLOCK_KIND);
    number("solve nine", scatterflock_solve(NINE_VARIABLES, COUNT(NINE_VARIABLES), out, ROOM), 2);
    words("solve nine", out, NULL, 0);
    number("solve A short", scatterflock_solve(A, COUNT(A), out, COUNT(A_ANSWER) - 1), 7);
    words("solve A short", out, NULL, 0);
    within_rows();
    out = fresh();

    number("check A", scatterflock_check(A, COUNT(A), A_ANSWER, COUNT(A_ANSWER)), SCATTERFLOCK_ACCEPTED);
    number("check A wrong", scatterflock_check(A, COUNT(A), A_WRONG, COUNT(A_WRONG)), 9);
    number("check A short", scatterflock_check(A, COUNT(A), A_ANSWER, COUNT(A_ANSWER) - 1), 7);
    number("check C", scatterflock_check(C, COUNT(C), C_ANSWER, COUNT(C_ANSWER)), 8);
    number("check C wrong", scatterflock_check(C, COUNT(C), C_WRONG, COUNT(C_WRONG)), SCATTERFLOCK_REJECTED);

    number("check strict", scatterflock_check(STRICT, COUNT(STRICT), STRICT_ANSWER, COUNT(STRICT_ANSWER)), 8);
    number("check strict wrong", scatterflock_check(STRICT, COUNT(STRICT), STRICT_WRONG, COUNT(STRICT_WRONG)), 9);
    number("check strict far", scatterflock_check(STRICT, COUNT(STRICT), STRICT_FAR, COUNT(STRICT_FAR)), 8);
    number("check strict beyond", scatterflock_check(STRICT, COUNT(STRICT), STRICT_BEYOND, COUNT(STRICT_BEYOND)), 9);

    number("times J", scatterflock_times(J, COUNT(J), out, ROOM), 0);
    words("times J", out, J_TIMES, COUNT(J_TIMES));
    out = fresh();
    number("times vertex", scatterflock_times(NO_SUCH_VERTEX, COUNT(NO_SUCH_VERTEX), out, ROOM), 14);
    words("times vertex", out, NULL, 0);

    in_wide_numbers();
    about_times();
    in_slices();
    in_a_trace();
    in_a_session();
    at_first();
    as_smtlib();
    lengths();
    return differences == 0 ? 0 : 1;
}
