/*
 * Scatterflock: exact answers about limits and times, from proved code.
 *
 * libscatterflock.a has the functions below. docs/RULES.md says what the words
 * mean; docs/formats has whole examples; docs/STABLE.md lists what stays in every
 * version 1.
 *
 * A problem of two zones (from examples/planner.c):
 *
 *     static const int32_t problem[] = {
 *         2, 1,                           // two variables, one row
 *         -1, 1,                          // the row is zone 1 less zone 0
 *         SCATTERFLOCK_BETWEEN, 20, 60,   // zone 0 is from 20 to 60 degrees
 *         SCATTERFLOCK_AT_LEAST, 95, 0,   // zone 1 is at least 95
 *         SCATTERFLOCK_AT_MOST, 0, 50,    // the row, variable 2, is at most 50
 *     };
 *
 *     int64_t answer[SCATTERFLOCK_MOST_ANSWER];
 *     uint32_t number = scatterflock_solve(problem, COUNT(problem), answer, COUNT(answer));
 *
 * Now number is SCATTERFLOCK_ANSWERED, answer[0] is SCATTERFLOCK_CAN, and the
 * set point of zone 1 is answer[4] over answer[2].
 *
 * What the caller owes, of every call:
 *
 *   - each pointer is aligned for its type and valid for its count: that many
 *     words can be read through it and, where it is not const, written;
 *   - no pointer is null, not even where its count is 0 (any aligned address
 *     will do there: nothing is read or written through it);
 *   - the words that may be written do not overlap the words that are read,
 *     and nobody else writes any of them, or reads what may be written, until
 *     the call returns;
 *   - there is room on the stack: 256 KiB for scatterflock_day, which uses
 *     206,000 bytes, and 128 KiB for scatterflock_sheet, which keeps the
 *     65,536 bytes of a file there; 64 KiB is more than any other function uses;
 *   - the state of a run in slices, and a session, is handed in as it was
 *     handed back.
 *
 * Nothing else is owed. Any words at all may be handed in, of any count: words
 * that are no problem are refused with a number. The functions use no heap,
 * keep nothing between calls, call nothing but memcpy and memset, may run at
 * once in any number of threads, and always return.
 */
#ifndef SCATTERFLOCK_H
#define SCATTERFLOCK_H

#include <stdbool.h>
#include <stddef.h>
#include <stdint.h>

#ifdef __cplusplus
extern "C" {
#endif

#define SCATTERFLOCK_VERSION "1.0.0"
#define SCATTERFLOCK_VERSION_MAJOR 1
#define SCATTERFLOCK_VERSION_MINOR 0
#define SCATTERFLOCK_VERSION_PATCH 0

/* Sizes and ranges. */
enum {
    SCATTERFLOCK_MOST_VARIABLES = 8,
    SCATTERFLOCK_MOST_ROWS = 24,
    SCATTERFLOCK_LARGEST_COEFFICIENT = 1000,
    SCATTERFLOCK_LARGEST_LIMIT = 30000,
    SCATTERFLOCK_LARGEST_NUMBER = 2147483647,
    SCATTERFLOCK_MOST_WORDS = 290,  /* of a limit problem */
    SCATTERFLOCK_MOST_ANSWER = 67,  /* words of an answer to one */
    SCATTERFLOCK_MOST_WIDE = 262,   /* words of one with four words a number */
    SCATTERFLOCK_MOST_VERTICES = 64,
    SCATTERFLOCK_MOST_TIME_ROWS = 256,
    SCATTERFLOCK_LARGEST_LENGTH = 30000, /* the c of a time row */
    SCATTERFLOCK_MOST_TIME_WORDS = 1026,
    SCATTERFLOCK_MOST_TIMES = 130,  /* words of an answer to time rows */
    SCATTERFLOCK_SLICE_WORDS = 187, /* of 64 bits, beside the count, in the state of a run */
    SCATTERFLOCK_SESSION_WORDS = 187, /* of 64 bits, in a session */
    SCATTERFLOCK_MOST_BODIES = 64,  /* of a day's file, in any edition */
    SCATTERFLOCK_FIRST_BODIES = 64, /* .. of edition 1 */
    SCATTERFLOCK_FIRST_ROWS = 16,   /* of a body there */
    SCATTERFLOCK_SECOND_BODIES = 48, /* of edition 2, whose bodies may have MOST_ROWS */
    SCATTERFLOCK_MOST_FILE_WORDS = 16384, /* of a day's file, four bytes each */
    SCATTERFLOCK_MOST_DAY_TEXT = 125120, /* bytes that are printed for a day's file */
    SCATTERFLOCK_MOST_SHEET = 857   /* bytes of the sheet of a day's file */
};
#define SCATTERFLOCK_LARGEST_SMALL INT64_C(17179869176) /* small part of a numerator */

/* No SMT-LIB text of a limit problem has more bytes. */
#define SCATTERFLOCK_MOST_SMTLIB \
    (31 + 81 * (SCATTERFLOCK_MOST_VARIABLES + SCATTERFLOCK_MOST_ROWS) \
     + (21 + 16 * SCATTERFLOCK_MOST_VARIABLES) * SCATTERFLOCK_MOST_ROWS)

/*
 * The kind of a variable's limits, in a limit problem. For a strict limit, one
 * that leaves its own number out, STRICT_LOWER or STRICT_UPPER is added:
 * BETWEEN + STRICT_UPPER is from the lower limit on and below the upper one.
 */
enum {
    SCATTERFLOCK_FREE = 0,
    SCATTERFLOCK_AT_LEAST = 1,
    SCATTERFLOCK_AT_MOST = 2,
    SCATTERFLOCK_BETWEEN = 3,
    SCATTERFLOCK_STRICT_LOWER = 4,
    SCATTERFLOCK_STRICT_UPPER = 8,
    SCATTERFLOCK_ABOVE = 5,  /* AT_LEAST + STRICT_LOWER */
    SCATTERFLOCK_BELOW = 10  /* AT_MOST + STRICT_UPPER */
};

/* Word 0 of an answer to a limit problem. */
enum {
    SCATTERFLOCK_CAN = 1,
    SCATTERFLOCK_CANNOT = 2,
    SCATTERFLOCK_OUT_OF_RANGE = 3
};

/* The words of a step of a trace, by their places. */
enum {
    SCATTERFLOCK_LEAVING = 0,
    SCATTERFLOCK_ENTERING = 1,
    SCATTERFLOCK_MASK = 2
};

/* Word 0 of an answer to time rows. */
enum {
    SCATTERFLOCK_TIMES = 1,
    SCATTERFLOCK_CYCLE = 2
};

/* What the functions return. More refusals may come. */
enum {
    SCATTERFLOCK_ANSWERED = 0,
    SCATTERFLOCK_FEW_WORDS = 1,
    SCATTERFLOCK_SIZES = 2,
    SCATTERFLOCK_LENGTH = 3,
    SCATTERFLOCK_COEFFICIENT = 4,
    SCATTERFLOCK_KIND = 5,
    SCATTERFLOCK_LIMIT = 6,
    SCATTERFLOCK_BLANK_ROW = 10, /* asked after 6 and before 7 */
    SCATTERFLOCK_SHORT = 7,
    SCATTERFLOCK_ACCEPTED = 8,
    SCATTERFLOCK_REJECTED = 9,
    SCATTERFLOCK_TIMES_FEW_WORDS = 11,
    SCATTERFLOCK_TIMES_SIZES = 12,
    SCATTERFLOCK_TIMES_LENGTH = 13,
    SCATTERFLOCK_TIMES_VERTEX = 14,
    SCATTERFLOCK_TIMES_STRICT = 15,
    SCATTERFLOCK_TIMES_BOUND = 16,
    SCATTERFLOCK_TIMES_SHORT = 17,
    SCATTERFLOCK_BUNDLE_SIZE = 30,
    SCATTERFLOCK_BUNDLE_EDITION = 31,
    SCATTERFLOCK_BUNDLE_BODIES = 32,
    SCATTERFLOCK_BUNDLE_TABLE = 33,
    SCATTERFLOCK_BUNDLE_PAIR = 34,
    SCATTERFLOCK_BUNDLE_TOTAL = 35,
    SCATTERFLOCK_BUNDLE_SHORT = 36,
    SCATTERFLOCK_SWITCH_NO_VARIABLE = 41,
    SCATTERFLOCK_SWITCH_NO_LIMIT = 42,
    SCATTERFLOCK_SWITCH_ALREADY_ON = 43,
    SCATTERFLOCK_SWITCH_ALREADY_OFF = 44,
    SCATTERFLOCK_TRACE_LEFT_OVER = 51,
    SCATTERFLOCK_TRACE_WRONG = 52,
    SCATTERFLOCK_TRACE_EARLY = 53,
    SCATTERFLOCK_TRACE_PAST = 54,
    SCATTERFLOCK_SMTLIB_TOKEN = 60
};

/*
 * Answers a limit problem of n variables and m rows.
 *
 * Returns 0 when it is answered. Then out[0] is 1 (can), 2 (cannot) or 3 (out
 * of range), out[1] the number of pivots, and the first 3 + 2 (n + m) words
 * are the answer of the rules: for "can" a denominator, numerators and their
 * small parts that meet every row and limit, for "cannot" multipliers that show
 * that no fractions do, for "out of range" zeros, which say nothing about the
 * limits. Words past those keep what they had. No limit has a multiplier other
 * than 0 for nothing: without any one of those that have, fractions meet the
 * others.
 *
 * The value of variable v is out[3 + v] over out[2] and, out[3 + n + m + v]
 * over out[2] times, an amount above 0 that is as small as one likes. Where no
 * limit is strict these small parts are 0. Else any fraction above 0 and up to
 * 1 / 17,179,869,177 may be put for the amount: with K for 17,179,869,177 the
 * value is (K * out[3 + v] + out[3 + n + m + v]) / (K * out[2]), which takes
 * more than 64 bits.
 *
 * Returns another number when the words or the room for the answer are
 * refused: 1 fewer than two words, 2 n or m out of range, 3 another count of
 * words, 4 a coefficient out of range, 5 a kind that is none or that marks a
 * missing limit as strict, 6 a limit out of range or a number where a limit is
 * missing, 10 a row whose coefficients are all 0, 7 out_count below
 * 3 + 2 (n + m). It is the first that applies, in this order, and every word of
 * out keeps what it had.
 *
 * The number returned follows from the words and out_count, and every word of
 * out from these and from what out held before: the promise allows no other.
 */
uint32_t scatterflock_solve(const int32_t *words, size_t word_count,
                            int64_t *out, size_t out_count);

/*
 * The same where a problem may have only so many rows: 2 is returned for an m
 * above most_rows too, in its place among the refusals, and all else is that of
 * scatterflock_solve. With 0 no row is allowed. A number above
 * SCATTERFLOCK_MOST_ROWS stands for that one.
 */
uint32_t scatterflock_solve_within(uint32_t most_rows,
                                   const int32_t *words, size_t word_count,
                                   int64_t *out, size_t out_count);

/*
 * Judges an answer to a limit problem, whoever gave it. Write N for n + m.
 *
 * Returns 1 to 6 or 10 if the problem is refused as in scatterflock_solve, 7
 * if it is not and answer_count is below 3 + 2 N, else 8 (accepted) or 9
 * (not). 8 comes exactly if
 *
 *   - answer[0] is 1, answer[2] is from 1 to 2,147,483,647, the next N words
 *     are at most 515,396,075,280,000 in size, the N small parts after them at
 *     most 17,179,869,176, and over answer[2] they meet every row, each half by
 *     itself, and every limit, a strict one by a small part at least; or
 *   - answer[0] is 2, answer[2] is 0, the next 2 N words are from 0 to
 *     2,147,483,647 and 0 where the limit is missing, and as multipliers of
 *     the lower and of the upper limits they add up to a contradiction: to more
 *     than 0, or to 0 where one of a strict limit is not 0.
 *
 * So 8 means that fractions meet the problem, or that none do, as answer[0]
 * says. 9 says nothing about the problem, and does not tell which test failed:
 * an answer with a number out of range or with a word that should be 0 gets 9
 * as well. answer[1] and words past 3 + 2 N never matter. Nothing is written.
 * What scatterflock_solve answers with 1 or 2 gets 8.
 */
uint32_t scatterflock_check(const int32_t *words, size_t word_count,
                            const int64_t *answer, size_t answer_count);

/*
 * Judges an answer to a limit problem in wide numbers, whoever gave it. Write N
 * for n + m.
 *
 * answer[0] is 1 or 2, answer[1] is not judged, and then come 1 + 2 N numbers of
 * four words each, where an answer of scatterflock_solve has one word each: the
 * denominator, N numerators or lower multipliers, N small parts or upper
 * multipliers. The words a, b, c, d stand for a + 2^32 b + 2^64 c + 2^96 d; a, b
 * and c are from 0 to 4,294,967,295, d is from -2,147,483,648 to 2,147,483,647.
 *
 * Returns 1 to 6 or 10 if the problem is refused as in scatterflock_solve, 7 if
 * it is not and answer_count is below 6 + 8 N, else 8 (accepted) or 9 (not). 8
 * comes exactly if every word of the numbers is in its range and the numbers are
 * right, as scatterflock_check asks it of an answer with verdict 1 or 2, but for
 * the sizes that it asks for. So 8 means that fractions meet the problem, or that
 * none do, as answer[0] says; any fraction above 0 and up to 1 / (2^127 + 1) may
 * be put for the small amount.
 *
 * answer[1] and words past 6 + 8 N never matter. Nothing is written. What
 * scatterflock_check accepts gets 8, its numbers put into four words each.
 */
uint32_t scatterflock_check_wide(const int32_t *words, size_t word_count,
                                 const int64_t *answer, size_t answer_count);

/*
 * Answers time rows over n vertices.
 *
 * Returns 0 when they are answered. Then either out[0] is 1, out[1] is n and
 * the next 2 n words are times that meet every row: n words of minutes, then
 * n words that say how often a small amount is added, from 0 to n - 1. Any
 * fraction of a minute up to 1 / n may be put for the small amount: with 1 / n
 * the time of vertex v is (n * out[2 + v] + out[2 + n + v]) / n. Or out[0] is
 * 2, out[1] is k, the next k words are the numbers of rows that lead round and
 * whose c sum below 0, or to 0 with a strict row among them, so that no
 * fractions meet all rows, and zeros follow up to word 2 + 2 n. Words past
 * 2 + 2 n keep what they had. Which such rows are named is the one thing that
 * the promise leaves open.
 *
 * Returns 11 to 17 when the words or the room are refused: 11 fewer than two
 * words, 12 n or m not in its range, 13 another count of words, 14 a vertex that
 * is none, 15 a strict word that is not 0 or 1, 16 a length out of range, 17
 * out_count below 2 + 2 n. It is the first that applies, and every word of out
 * keeps what it had.
 */
uint32_t scatterflock_times(const int32_t *words, size_t word_count,
                            int64_t *out, size_t out_count);

/*
 * Judges an answer to time rows over n vertices, whoever gave it.
 *
 * Returns 11 to 16 if the rows are refused as in scatterflock_times, 17 if they
 * are not and answer_count is below 2 + 2 n, else 8 (accepted) or 9 (not). 8
 * comes exactly if
 *
 *   - answer[0] is 1, answer[1] is n, and the times, answer[2 + v] minutes and
 *     answer[2 + n + v] small amounts for each vertex v, meet every row: x less
 *     y, part by part, is at most c and minus the strict word, the minutes
 *     compared first. The words may be any, and nothing wraps; or
 *   - answer[0] is 2, answer[1] is k from 1 to n, the next k words are rows that
 *     lead round through no vertex twice and whose c sum below 0, or to 0 with a
 *     strict row among them, and all words from there to 2 + 2 n are 0.
 *
 * So 8 means that times meet all rows, or that none do, as answer[0] says. Words
 * past 2 + 2 n never matter. Nothing is written. What scatterflock_times answers
 * gets 8.
 */
uint32_t scatterflock_check_times(const int32_t *words, size_t word_count,
                                  const int64_t *answer, size_t answer_count);

/*
 * A run at some point, to go on with: how many pivots are completed, and the
 * problem, tableau and values there. What is in tableau is the archive's own;
 * another version may have it otherwise. It may be copied and kept, and is to
 * be handed in as it was handed back. A state that was altered is no state:
 * then nothing is promised.
 */
struct scatterflock_slice {
    size_t count;
    uint64_t tableau[SCATTERFLOCK_SLICE_WORDS];
};

/* What scatterflock_slice_start hands back. */
struct scatterflock_begun {
    uint32_t refused;
    struct scatterflock_slice slice;
};

/* What scatterflock_slice_continue hands back. */
struct scatterflock_continued {
    uint32_t refused;
    bool answered;
    struct scatterflock_slice slice;
};

/*
 * Starts a run that is made in slices: no pivot yet, and no answer.
 *
 * In refused is 0, or the number of the refusal as in scatterflock_solve, 1 to
 * 6 or 10. Then slice is the state of one variable without rows and limits,
 * which is safe to go on with.
 */
struct scatterflock_begun scatterflock_slice_start(const int32_t *words, size_t word_count);

/*
 * Goes on with the run of a state, so many pivots, or as many as are left if
 * those are fewer.
 *
 * In refused is 7 if out_count is below 3 + 2 (n + m), whether or not there
 * would be an answer; then slice is the state that was handed in, and out
 * keeps every word. Else refused is 0, and slice is the state after those
 * pivots, with all that were completed since the start in slice.count.
 *
 * If the run has no more pivots then, answered is true, and the first words
 * of out are what scatterflock_solve writes. Else answered is false, and out
 * keeps every word. A run that is over gives the same state and the same
 * answer again.
 */
struct scatterflock_continued scatterflock_slice_continue(struct scatterflock_slice slice,
                                                          size_t pivots,
                                                          int64_t *out, size_t out_count);

/* What scatterflock_replay hands back. */
struct scatterflock_replayed {
    uint32_t number;
    uint32_t word;
    size_t step;
};

/* What scatterflock_trace hands back. */
struct scatterflock_traced {
    uint32_t refused;
    size_t count;
};

/*
 * Holds another solver's trace against the run of a problem.
 *
 * A trace has three words for each pivot: the variable that leaves, the one
 * that enters, and the basic variables afterwards as a mask, variable v at bit
 * v. It is accepted exactly if the run completes each of its steps in turn,
 * and is over after the last: a run that goes out of range is over at its last
 * completed pivot, and limits that cross leave no pivot.
 *
 * number is 0 if the trace is accepted. Else it is the number of the refusal as
 * in scatterflock_solve, 1 to 6 or 10; 51 if trace_count is no multiple of
 * three; 52 if a step is wrong; 53 if the steps are right and the run goes on
 * past them; 54 if they are right up to the end of the run, and there are more.
 * Of 52 step is the first wrong step, from 0, and word the first of its three
 * words that differs: 0 leaving, 1 entering, 2 the mask. Else both are 0.
 * Nothing is written.
 */
struct scatterflock_replayed scatterflock_replay(const int32_t *words, size_t word_count,
                                                 const uint32_t *trace, size_t trace_count);

/*
 * Writes the trace of a problem's own run. scatterflock_replay accepts it, and
 * no other.
 *
 * In refused is 0, and in count how many words were written at the start of
 * trace: three for each pivot. Words past those keep what they had. Or refused
 * is the number of the refusal as in scatterflock_solve, 1 to 6 or 10, or 7 if
 * trace_room is below three words for each pivot; then count is 0, and trace
 * keeps every word.
 */
struct scatterflock_traced scatterflock_trace(const int32_t *words, size_t word_count,
                                              uint32_t *trace, size_t trace_room);

/*
 * A session: a problem, which of its limits are on, and the tableau and the
 * values that the next check starts from. What is in tableau is the archive's
 * own; another version may have it otherwise. It may be copied and kept, also
 * to come back to an earlier one, and is to be handed in as it was handed back.
 * A session that was altered is no session: then nothing is promised.
 */
struct scatterflock_session {
    uint64_t tableau[SCATTERFLOCK_SESSION_WORDS];
};

/* What scatterflock_session_open hands back. */
struct scatterflock_opened {
    uint32_t refused;
    struct scatterflock_session session;
};

/* What scatterflock_session_switch hands back. */
struct scatterflock_switched {
    uint32_t refused;
    struct scatterflock_session session;
};

/* What scatterflock_session_check hands back. */
struct scatterflock_checked {
    uint32_t refused;
    struct scatterflock_session session;
};

/*
 * Opens a session of a problem with all its rows and limits. Every limit is
 * off, and each of the n variables is nonbasic at 0.
 *
 * In refused is 0, or the number of the refusal as in scatterflock_solve, 1 to
 * 6 or 10. Then session is that of one variable without rows and limits, which
 * is safe to go on with.
 */
struct scatterflock_opened scatterflock_session_open(const int32_t *words, size_t word_count);

/*
 * Switches a limit on or off: the upper one of the variable where upper is
 * true, else the lower one.
 *
 * If the variable is nonbasic, its limits that are on now do not cross, and its
 * value is outside of one of them, its value becomes that limit; a strict one
 * is a small amount farther in. No other value changes.
 *
 * In refused is 0, or the first of these that applies, and then session is the
 * one that was handed in: 41 variable is not below n + m, 42 the problem has no
 * such limit, 43 it is to be on and is, 44 it is to be off and is.
 */
struct scatterflock_switched scatterflock_session_switch(struct scatterflock_session session,
                                                         uint32_t variable, bool upper, bool on);

/*
 * Answers the problem with the limits that are on and no others.
 *
 * In refused is 7 if out_count is below 3 + 2 (n + m), whatever is on; then
 * session is the one that was handed in, and out keeps every word. Else refused
 * is 0, and the first words of out are an answer as scatterflock_solve writes
 * one, but for where the run starts: at the tableau and the values of the
 * session. out[1] counts the pivots of this check alone. Words past the answer
 * keep what they had. While the limits of some variable that are on cross, it
 * is "cannot", without a pivot: both limits of the first variable of which
 * that is so are named.
 *
 * The session that comes back has the last completed tableau and its values,
 * whatever the answer is. scatterflock_check gives 8 for an answer with 1 or 2,
 * handed in with the words of the problem in which the limits that are off are
 * missing: bits and mark taken out of the kind, and 0 for the number.
 */
struct scatterflock_checked scatterflock_session_check(struct scatterflock_session session,
                                                       int64_t *out, size_t out_count);

/*
 * The first violation: of the basic variables that are outside of a limit, the
 * lowest-numbered, which a run would move first. Where violated is false, no basic variable is
 * outside, and all other numbers are 0; so they are where refused is not 0.
 */
struct scatterflock_violation {
    uint32_t refused;
    uint32_t variable;
    bool violated;
    bool rises;          /* it is below its lower limit; else above its upper one */
    int64_t denominator; /* above 0 */
    int64_t shortfall;   /* how far from that limit, over the denominator; not below 0 */
    int64_t small;       /* .. and how many small amounts more, over it too */
};

/*
 * Shows the first violation at the start of a limit problem: the rows are basic,
 * and the denominator is 1. Whether limits cross is not asked.
 *
 * In refused is 0, or the number of the refusal as in scatterflock_solve, 1 to 6
 * or 10.
 *
 * The shortfall is at most 579,820,584,690,000. Where it is 0, small is above 0:
 * then nothing but a small amount is lacking, for a strict limit. small is from
 * -19,327,352,823 to 19,327,352,823.
 */
struct scatterflock_violation scatterflock_first_violation(const int32_t *words, size_t word_count);

/*
 * The same of a session as it stands: by the limits that are on, in the tableau
 * from which the next scatterflock_session_check starts. In refused is 0.
 */
struct scatterflock_violation scatterflock_session_violation(struct scatterflock_session session);

/*
 * A day's file is bytes: words of 32 bits, signed, the lowest byte first. Word
 * 0 is its edition, 1 or 2, and word 1 is k, how many bodies it has: from 0 to
 * 64 in edition 1, from 0 to 48 in edition 2. Then come k pairs of words, for
 * each body where it starts and how many words it has, and then the bodies in
 * that order: the first at word 2 + 2 k, each other one right behind the one
 * before it, and nothing behind the last. A body is the words of a limit
 * problem, or any others: reader and writer do not judge it. Where it is printed
 * it may have 16 rows in edition 1, and 24 in edition 2.
 */

/* What scatterflock_bundle_read tells of a file. */
struct scatterflock_contents {
    uint32_t refused;
    uint32_t edition; /* 0 where it is refused */
    size_t bodies;    /* 0 where it is refused */
};

/*
 * Reads a day's file of file_count bytes.
 *
 * In refused is 0, or the first of these that applies, each asked of the whole
 * file before the next: 30 file_count is no multiple of 4, is below 8 or is
 * above 65,536; 31 word 0 is neither 1 nor 2; 32 word 1, k, is not from 0 to the
 * most bodies of that edition; 33 there are fewer than 2 + 2 k words; 34 some
 * length is negative, or some body does not start where the one before it ends,
 * the first at 2 + 2 k, in whole numbers that do not wrap; 35 the last body does
 * not end where the file does; 36 length_room is below k, or word_room is below
 * the words of all bodies.
 *
 * Where it is 0, the first k words of lengths are the lengths of the bodies, the
 * first words of words are those of all bodies, one body behind the other, and
 * words past these keep what they had. Else both keep every word.
 *
 * scatterflock_bundle_write makes the same bytes of what was read.
 */
struct scatterflock_contents scatterflock_bundle_read(const uint8_t *file, size_t file_count,
                                                      int32_t *lengths, size_t length_room,
                                                      int32_t *words, size_t word_room);

/*
 * Writes a day's file of an edition and of so many bodies: lengths has their
 * lengths, and words the words of all of them, one body behind the other.
 *
 * Returns 0 when it is written: 4 (2 + 2 bodies + word_count) bytes at the
 * start of file. Bytes past those keep what they had. Else it returns the first
 * of these that applies, and file keeps every byte: 31 edition is neither 1 nor
 * 2; 32 bodies is above the most of that edition; 34 some length is negative; 35
 * the lengths do not add up to word_count; 30 the file would have more than
 * 16,384 words; 36 file_room, which counts bytes, is too short for it.
 *
 * scatterflock_bundle_read gives the same edition, lengths and words of what was
 * written.
 */
uint32_t scatterflock_bundle_write(uint32_t edition,
                                   const int32_t *lengths, size_t bodies,
                                   const int32_t *words, size_t word_count,
                                   uint8_t *file, size_t file_room);

/*
 * Prints a day's file of file_count bytes: for each body, in their order, what
 * the program ramp prints for it, and nothing between them. A body is judged as
 * scatterflock_solve_within judges words, with 16 rows in edition 1 and with 24
 * in edition 2, and one that is refused has its line as the others have theirs.
 * For a file that scatterflock_bundle_read would refuse with 30 to 35 it is one
 * line, "refused 30" and so on.
 *
 * Returns how many bytes the text has, which is at most 125,120. Where text_room
 * is at least that, the text stands at the start of text, and bytes past it keep
 * what they had; no byte with 0 is put behind it. Else text keeps every byte.
 */
size_t scatterflock_day(const uint8_t *file, size_t file_count,
                        uint8_t *text, size_t text_room);

/* What scatterflock_smtlib_write and scatterflock_smtlib_read hand back. */
struct scatterflock_exchanged {
    uint32_t refused;
    size_t count;
};

/*
 * Writes a limit problem as SMT-LIB text, version 2, logic QF_LRA, byte for
 * byte as docs/formats/smtlib.md has it. Other solvers say sat for it where
 * fractions meet the problem, and unsat where none do.
 *
 * In refused is 0, and in count how many bytes the text has: it stands at the
 * start of text, without a zero byte behind it, and bytes past it keep what
 * they had. Or refused is the number of the refusal as in scatterflock_solve,
 * 1 to 6 or 10, or 7 if text_room is below the bytes of the text. Then count is
 * 0, and every byte of text keeps what it had. SCATTERFLOCK_MOST_SMTLIB bytes
 * are always enough.
 */
struct scatterflock_exchanged scatterflock_smtlib_write(const int32_t *words, size_t word_count,
                                                        uint8_t *text, size_t text_room);

/*
 * Reads SMT-LIB text of text_count bytes back into the words of a limit problem.
 * Exactly those texts are read that have the tokens of one that
 * scatterflock_smtlib_write writes, with any white space and comments between
 * them.
 *
 * In refused is 0, and in count how many words the problem has: they stand at the
 * start of words, and words past them keep what they had. scatterflock_solve does
 * not refuse them. Or refused is SCATTERFLOCK_SMTLIB_TOKEN, 60, and count the
 * place, in bytes from the start of text, of the first token that cannot stand
 * where it does, so that no text of a problem begins with the tokens up to it; or
 * text_count where the text ends too early. Or the text is read, word_room is below
 * the words of the problem, refused is 7 and count 0. Where it is refused every
 * word of words keeps what it had. SCATTERFLOCK_MOST_WORDS words are always enough.
 */
struct scatterflock_exchanged scatterflock_smtlib_read(const uint8_t *text, size_t text_count,
                                                       int32_t *words, size_t word_room);

/*
 * Prints the auditor's sheet of a day's file of file_count bytes: exact totals
 * over its bodies, each judged and answered as scatterflock_day does it. Every
 * line is always there, in this order:
 *
 *   bodies B           how many there are; each is counted in one of the next lines
 *   can N, cannot N, range N        how many have each verdict, a line each
 *   refused K N        how many are refused with K: 1 to 6 and 10, a line each
 *   pivots P           those of all verdicts together
 *   largest P body B   the most of one, and the lowest body that has so many, from 0;
 *                      "largest 0 body none" where no body has a verdict
 *   V lower A upper B  for each variable, 0 to 31, in how many "cannot" answers its
 *                      lower and its upper limit has a multiplier other than 0
 *
 * For a file that scatterflock_bundle_read would refuse with 30 to 35 it is one
 * line, "refused 30" and so on.
 *
 * Returns how many bytes the sheet has, which is at most 857. Where text_room is
 * at least that, it stands at the start of text, and bytes past it keep what they
 * had; no byte with 0 is put behind it. Else text keeps every byte.
 */
size_t scatterflock_sheet(const uint8_t *file, size_t file_count,
                          uint8_t *text, size_t text_room);

/*
 * What a number says that one of the functions returned: of SCATTERFLOCK_BLANK_ROW
 * "all coefficients of a row are 0". For a number that none of them returns it is
 * null. It is no function of the libraries: this file is all that it needs.
 */
static inline const char *scatterflock_number_text(uint32_t number)
{
    switch (number) {
    case SCATTERFLOCK_ANSWERED:
        return "answered";
    case SCATTERFLOCK_FEW_WORDS:
        return "the words end before both sizes are told";
    case SCATTERFLOCK_SIZES:
        return "there must be 1 to 8 variables and 0 to 24 rows, or fewer where fewer are allowed";
    case SCATTERFLOCK_LENGTH:
        return "the sizes ask for another number of words";
    case SCATTERFLOCK_COEFFICIENT:
        return "a coefficient is not from -1,000 to 1,000";
    case SCATTERFLOCK_KIND:
        return "a kind of limit is not from 0 to 15, or marks a missing limit as strict";
    case SCATTERFLOCK_LIMIT:
        return "a limit is not from -30,000 to 30,000, or a missing one is not written as 0";
    case SCATTERFLOCK_BLANK_ROW:
        return "all coefficients of a row are 0";
    case SCATTERFLOCK_SHORT:
        return "there is no room for a whole answer";
    case SCATTERFLOCK_ACCEPTED:
        return "accepted";
    case SCATTERFLOCK_REJECTED:
        return "not accepted";
    case SCATTERFLOCK_TIMES_FEW_WORDS:
        return "the words end before both sizes are told";
    case SCATTERFLOCK_TIMES_SIZES:
        return "there must be 1 to 64 vertices and 0 to 256 rows";
    case SCATTERFLOCK_TIMES_LENGTH:
        return "the sizes ask for another number of words";
    case SCATTERFLOCK_TIMES_VERTEX:
        return "a row names a vertex that there is not";
    case SCATTERFLOCK_TIMES_STRICT:
        return "a row is neither marked strict by 1 nor not strict by 0";
    case SCATTERFLOCK_TIMES_BOUND:
        return "a row's number is not from -30,000 to 30,000";
    case SCATTERFLOCK_TIMES_SHORT:
        return "there is no room for a whole answer";
    case SCATTERFLOCK_BUNDLE_SIZE:
        return "a day's file has 2 to 16,384 words of four bytes each";
    case SCATTERFLOCK_BUNDLE_EDITION:
        return "there is no such edition: a day's file has edition 1 or 2";
    case SCATTERFLOCK_BUNDLE_BODIES:
        return "there must be 0 to 64 bodies in edition 1, 0 to 48 in edition 2";
    case SCATTERFLOCK_BUNDLE_TABLE:
        return "the file ends before it has told where each body is";
    case SCATTERFLOCK_BUNDLE_PAIR:
        return "a body has a negative length, or does not start where the one before it ends";
    case SCATTERFLOCK_BUNDLE_TOTAL:
        return "the bodies do not have as many words as there are";
    case SCATTERFLOCK_BUNDLE_SHORT:
        return "there is no room for all of it";
    case SCATTERFLOCK_SWITCH_NO_VARIABLE:
        return "there is no such variable";
    case SCATTERFLOCK_SWITCH_NO_LIMIT:
        return "the variable has no such limit";
    case SCATTERFLOCK_SWITCH_ALREADY_ON:
        return "the limit is on already";
    case SCATTERFLOCK_SWITCH_ALREADY_OFF:
        return "the limit is off already";
    case SCATTERFLOCK_TRACE_LEFT_OVER:
        return "the words are not three for each step";
    case SCATTERFLOCK_TRACE_WRONG:
        return "a step is not the run's own";
    case SCATTERFLOCK_TRACE_EARLY:
        return "the run goes on after the last step";
    case SCATTERFLOCK_TRACE_PAST:
        return "the run is over before the last step";
    case SCATTERFLOCK_SMTLIB_TOKEN:
        return "a token cannot stand where it does";
    default:
        return NULL;
    }
}

#ifdef __cplusplus
}
#endif

#endif
