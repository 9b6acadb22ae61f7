/*
 * What stays of include/scatterflock.h in every version 1, as docs/STABLE.md says:
 * each function with its type, each record with its size, its fields, their types
 * and places, and each name of a number. More may be in the header; what is listed
 * here and is not there, or is another, does not compile or is a line of output,
 * and any makes the program fail. It is C and C++ at once, and header.rs compiles
 * it as both. The numbers that functions return are in docs/formats/numbers.md.
 */
#include "scatterflock.h"

#include <stdio.h>

/* The words of 64 bits in a session, and in a slice beside its count. */
#define STATE_WORDS 187

static int differences = 0;

static void same(const char *what, long long found, long long listed)
{
    if (found != listed) {
        printf("%s is %lld, not %lld\n", what, found, listed);
        differences++;
    }
}

/* A pointer of that type takes the function. It is read, so that it is linked. */
#define FUNCTION(result, name, arguments) \
    do { \
        result(*volatile kept) arguments = name; \
        same(#name, kept != NULL, 1); \
    } while (0)

#define RECORD(name, size) same("the size of " #name, (long long)sizeof(struct name), size)

/* A pointer of that type takes the field. */
#define FIELD(record, type, name, place) \
    do { \
        static struct record whole; \
        type *kept = &whole.name; \
        same(#record "." #name, (long long)((char *)kept - (char *)&whole), place); \
    } while (0)

#define NUMBER(name, number) same(#name, SCATTERFLOCK_##name, number)

typedef uint64_t state[STATE_WORDS];

static void functions(void)
{
    FUNCTION(uint32_t, scatterflock_solve, (const int32_t *, size_t, int64_t *, size_t));
    FUNCTION(uint32_t, scatterflock_solve_within, (uint32_t, const int32_t *, size_t, int64_t *, size_t));
    FUNCTION(uint32_t, scatterflock_check, (const int32_t *, size_t, const int64_t *, size_t));
    FUNCTION(uint32_t, scatterflock_check_wide, (const int32_t *, size_t, const int64_t *, size_t));
    FUNCTION(uint32_t, scatterflock_times, (const int32_t *, size_t, int64_t *, size_t));
    FUNCTION(uint32_t, scatterflock_check_times, (const int32_t *, size_t, const int64_t *, size_t));

    FUNCTION(struct scatterflock_begun, scatterflock_slice_start, (const int32_t *, size_t));
    FUNCTION(struct scatterflock_continued, scatterflock_slice_continue,
             (struct scatterflock_slice, size_t, int64_t *, size_t));

    FUNCTION(struct scatterflock_replayed, scatterflock_replay,
             (const int32_t *, size_t, const uint32_t *, size_t));
    FUNCTION(struct scatterflock_traced, scatterflock_trace, (const int32_t *, size_t, uint32_t *, size_t));

    FUNCTION(struct scatterflock_opened, scatterflock_session_open, (const int32_t *, size_t));
    FUNCTION(struct scatterflock_switched, scatterflock_session_switch,
             (struct scatterflock_session, uint32_t, bool, bool));
    FUNCTION(struct scatterflock_checked, scatterflock_session_check,
             (struct scatterflock_session, int64_t *, size_t));

    FUNCTION(struct scatterflock_violation, scatterflock_first_violation, (const int32_t *, size_t));
    FUNCTION(struct scatterflock_violation, scatterflock_session_violation, (struct scatterflock_session));

    FUNCTION(struct scatterflock_contents, scatterflock_bundle_read,
             (const uint8_t *, size_t, int32_t *, size_t, int32_t *, size_t));
    FUNCTION(uint32_t, scatterflock_bundle_write,
             (uint32_t, const int32_t *, size_t, const int32_t *, size_t, uint8_t *, size_t));
    FUNCTION(size_t, scatterflock_day, (const uint8_t *, size_t, uint8_t *, size_t));
    FUNCTION(size_t, scatterflock_sheet, (const uint8_t *, size_t, uint8_t *, size_t));

    FUNCTION(struct scatterflock_exchanged, scatterflock_smtlib_write,
             (const int32_t *, size_t, uint8_t *, size_t));
    FUNCTION(struct scatterflock_exchanged, scatterflock_smtlib_read,
             (const uint8_t *, size_t, int32_t *, size_t));

    FUNCTION(const char *, scatterflock_number_text, (uint32_t));
}

static void records_of_runs(void)
{
    RECORD(scatterflock_slice, 8 + 8 * STATE_WORDS);
    FIELD(scatterflock_slice, size_t, count, 0);
    FIELD(scatterflock_slice, state, tableau, 8);

    RECORD(scatterflock_begun, 16 + 8 * STATE_WORDS);
    FIELD(scatterflock_begun, uint32_t, refused, 0);
    FIELD(scatterflock_begun, struct scatterflock_slice, slice, 8);

    RECORD(scatterflock_continued, 16 + 8 * STATE_WORDS);
    FIELD(scatterflock_continued, uint32_t, refused, 0);
    FIELD(scatterflock_continued, bool, answered, 4);
    FIELD(scatterflock_continued, struct scatterflock_slice, slice, 8);

    RECORD(scatterflock_session, 8 * STATE_WORDS);
    FIELD(scatterflock_session, state, tableau, 0);

    RECORD(scatterflock_opened, 8 + 8 * STATE_WORDS);
    FIELD(scatterflock_opened, uint32_t, refused, 0);
    FIELD(scatterflock_opened, struct scatterflock_session, session, 8);

    RECORD(scatterflock_switched, 8 + 8 * STATE_WORDS);
    FIELD(scatterflock_switched, uint32_t, refused, 0);
    FIELD(scatterflock_switched, struct scatterflock_session, session, 8);

    RECORD(scatterflock_checked, 8 + 8 * STATE_WORDS);
    FIELD(scatterflock_checked, uint32_t, refused, 0);
    FIELD(scatterflock_checked, struct scatterflock_session, session, 8);
}

static void other_records(void)
{
    RECORD(scatterflock_replayed, 16);
    FIELD(scatterflock_replayed, uint32_t, number, 0);
    FIELD(scatterflock_replayed, uint32_t, word, 4);
    FIELD(scatterflock_replayed, size_t, step, 8);

    RECORD(scatterflock_traced, 16);
    FIELD(scatterflock_traced, uint32_t, refused, 0);
    FIELD(scatterflock_traced, size_t, count, 8);

    RECORD(scatterflock_violation, 40);
    FIELD(scatterflock_violation, uint32_t, refused, 0);
    FIELD(scatterflock_violation, uint32_t, variable, 4);
    FIELD(scatterflock_violation, bool, violated, 8);
    FIELD(scatterflock_violation, bool, rises, 9);
    FIELD(scatterflock_violation, int64_t, denominator, 16);
    FIELD(scatterflock_violation, int64_t, shortfall, 24);
    FIELD(scatterflock_violation, int64_t, small, 32);

    RECORD(scatterflock_contents, 16);
    FIELD(scatterflock_contents, uint32_t, refused, 0);
    FIELD(scatterflock_contents, uint32_t, edition, 4);
    FIELD(scatterflock_contents, size_t, bodies, 8);

    RECORD(scatterflock_exchanged, 16);
    FIELD(scatterflock_exchanged, uint32_t, refused, 0);
    FIELD(scatterflock_exchanged, size_t, count, 8);
}

static void sizes(void)
{
    NUMBER(MOST_VARIABLES, 8);
    NUMBER(MOST_ROWS, 24);
    NUMBER(LARGEST_COEFFICIENT, 1000);
    NUMBER(LARGEST_LIMIT, 30000);
    NUMBER(LARGEST_NUMBER, 2147483647);
    NUMBER(LARGEST_SMALL, 17179869176);
    NUMBER(MOST_WORDS, 290);
    NUMBER(MOST_ANSWER, 67);
    NUMBER(MOST_WIDE, 262);
    NUMBER(MOST_SMTLIB, 6199);
    NUMBER(MOST_VERTICES, 64);
    NUMBER(MOST_TIME_ROWS, 256);
    NUMBER(LARGEST_LENGTH, 30000);
    NUMBER(MOST_TIME_WORDS, 1026);
    NUMBER(MOST_TIMES, 130);
    NUMBER(SLICE_WORDS, STATE_WORDS);
    NUMBER(SESSION_WORDS, STATE_WORDS);
    NUMBER(MOST_BODIES, 64);
    NUMBER(FIRST_BODIES, 64);
    NUMBER(FIRST_ROWS, 16);
    NUMBER(SECOND_BODIES, 48);
    NUMBER(MOST_FILE_WORDS, 16384);
    NUMBER(MOST_DAY_TEXT, 125120);
    NUMBER(MOST_SHEET, 857);
    NUMBER(VERSION_MAJOR, 1);
}

static void words(void)
{
    NUMBER(FREE, 0);
    NUMBER(AT_LEAST, 1);
    NUMBER(AT_MOST, 2);
    NUMBER(BETWEEN, 3);
    NUMBER(STRICT_LOWER, 4);
    NUMBER(STRICT_UPPER, 8);
    NUMBER(ABOVE, 5);
    NUMBER(BELOW, 10);

    NUMBER(CAN, 1);
    NUMBER(CANNOT, 2);
    NUMBER(OUT_OF_RANGE, 3);
    NUMBER(TIMES, 1);
    NUMBER(CYCLE, 2);

    NUMBER(LEAVING, 0);
    NUMBER(ENTERING, 1);
    NUMBER(MASK, 2);
}

int main(void)
{
    functions();
    records_of_runs();
    other_records();
    sizes();
    words();
    return differences == 0 ? 0 : 1;
}
