/*
 * Calls the reader and the writer of a day's file, and its text, through
 * include/scatterflock.h and compares what they give: a file of three bodies
 * written, read and printed in both editions, every refusal of both, rooms that
 * are too short by one, a body of 17 rows, and all that has to be kept. It is C and C++ at once, and header.rs
 * compiles it as both. Each difference is a line, and any makes the program
 * fail.
 */
#include "scatterflock.h"

#include <stdio.h>
#include <string.h>

#define COUNT(list) (sizeof(list) / sizeof *(list))
#define ROOM 16
#define BYTES 96
#define KEPT_WORD (-77)
#define KEPT_BYTE 0xa5

/* x is at least 5; one word; and no word */
static const int32_t LENGTHS[] = {5, 1, 0};
static const int32_t WORDS[] = {1, 0, SCATTERFLOCK_AT_LEAST, 5, 0, -7};
static const int32_t FILE_WORDS[] = {1, 3, 8, 5, 13, 1, 14, 0, 1, 0, 1, 5, 0, -7};
static const int32_t SECOND_WORDS[] = {2, 3, 8, 5, 13, 1, 14, 0, 1, 0, 1, 5, 0, -7};
static const char TEXT[] = "can\npivots 0\nover 1\n0 5\nrefused 1\nrefused 1\n";
#define TEXT_COUNT (sizeof TEXT - 1)

static int differences = 0;

static void same(const char *what, size_t found, size_t expected)
{
    if (found != expected) {
        printf("%s is %lu, not %lu\n", what, (unsigned long)found, (unsigned long)expected);
        differences++;
    }
}

/* The expected words, and then what was there before. */
static void words_are(const char *what, const int32_t *found, const int32_t *expected, size_t count)
{
    for (size_t place = 0; place < ROOM; place++)
        same(what, (uint32_t)found[place], (uint32_t)(place < count ? expected[place] : KEPT_WORD));
}

static void bytes_are(const char *what, const uint8_t *found, const uint8_t *expected, size_t count)
{
    for (size_t place = 0; place < BYTES; place++)
        same(what, found[place], place < count ? expected[place] : KEPT_BYTE);
}

static void put_bytes(uint8_t *file, const int32_t *words, size_t count)
{
    for (size_t place = 0; place < 4 * count; place++)
        file[place] = (uint8_t)((uint32_t)words[place / 4] >> 8 * (place % 4));
}

/* Reads these words as a file. The number is a refusal, or 0 for the file of three bodies. */
static void reads(const char *what, const int32_t *list, size_t count, const size_t *rooms, uint32_t number)
{
    uint8_t file[BYTES], before[BYTES];
    int32_t lengths[ROOM], words[ROOM];
    struct scatterflock_contents told;
    uint32_t text_count = number == 36 ? 0 : number;

    memset(file, KEPT_BYTE, sizeof file);
    put_bytes(file, list, count);
    memcpy(before, file, sizeof file);
    for (size_t place = 0; place < ROOM; place++)
        lengths[place] = words[place] = KEPT_WORD;
    told = scatterflock_bundle_read(file, 4 * count, lengths, rooms[0], words, rooms[1]);
    same(what, told.refused, number);
    same("the edition told", told.edition, number == 0 ? (uint32_t)list[0] : 0);
    same("the bodies told", told.bodies, number == 0 ? COUNT(LENGTHS) : 0);
    words_are("a length", lengths, LENGTHS, number == 0 ? COUNT(LENGTHS) : 0);
    words_are("a word", words, WORDS, number == 0 ? COUNT(WORDS) : 0);
    if (text_count != 0) {
        uint8_t text[BYTES];
        char line[16];
        size_t size = (size_t)sprintf(line, "refused %lu\n", (unsigned long)number);

        memset(text, KEPT_BYTE, sizeof text);
        same("the text of a refused file", scatterflock_day(file, 4 * count, text, size), size);
        bytes_are("a byte of its text", text, (const uint8_t *)line, size);
    }
    same("a file that is read", (size_t)memcmp(file, before, sizeof file), 0);
}

static void writes(const char *what, uint32_t edition, const int32_t *lengths, size_t bodies,
                   size_t word_count, size_t room, uint32_t number)
{
    uint8_t file[BYTES], expected[BYTES];

    memset(file, KEPT_BYTE, sizeof file);
    put_bytes(expected, edition == 1 ? FILE_WORDS : SECOND_WORDS, COUNT(FILE_WORDS));
    same(what, scatterflock_bundle_write(edition, lengths, bodies, WORDS, word_count, file, room), number);
    bytes_are("a byte that is written", file, expected, number == 0 ? 4 * COUNT(FILE_WORDS) : 0);
}

static void reader(void)
{
    static const size_t ENOUGH[] = {COUNT(LENGTHS), COUNT(WORDS)}, ALL[] = {ROOM, ROOM};
    static const size_t FEW_LENGTHS[] = {COUNT(LENGTHS) - 1, ROOM}, FEW_WORDS[] = {ROOM, COUNT(WORDS) - 1};
    static const int32_t EDITION[] = {3, 0}, NO_EDITION[] = {0, 0}, TABLE[] = {1, 1, 4};
    static const int32_t BODIES[] = {1, 65}, SECOND_BODIES[] = {2, 49};
    static const int32_t NEGATIVE[] = {1, 1, 4, -1}, WRAPS[] = {1, 2, 6, 2147483647, -2147483643, 0};
    static const int32_t TOTAL[] = {1, 0, 0};

    reads("reading", FILE_WORDS, COUNT(FILE_WORDS), ENOUGH, 0);
    reads("reading with room", FILE_WORDS, COUNT(FILE_WORDS), ALL, 0);
    reads("reading edition 2", SECOND_WORDS, COUNT(SECOND_WORDS), ENOUGH, 0);
    reads("few lengths", FILE_WORDS, COUNT(FILE_WORDS), FEW_LENGTHS, SCATTERFLOCK_BUNDLE_SHORT);
    reads("few words", FILE_WORDS, COUNT(FILE_WORDS), FEW_WORDS, SCATTERFLOCK_BUNDLE_SHORT);
    reads("one word", FILE_WORDS, 1, ALL, SCATTERFLOCK_BUNDLE_SIZE);
    reads("edition 3", EDITION, COUNT(EDITION), ALL, SCATTERFLOCK_BUNDLE_EDITION);
    reads("edition 0", NO_EDITION, COUNT(NO_EDITION), ALL, SCATTERFLOCK_BUNDLE_EDITION);
    reads("65 bodies", BODIES, COUNT(BODIES), ALL, SCATTERFLOCK_BUNDLE_BODIES);
    reads("49 bodies", SECOND_BODIES, COUNT(SECOND_BODIES), ALL, SCATTERFLOCK_BUNDLE_BODIES);
    reads("half a pair", TABLE, COUNT(TABLE), ALL, SCATTERFLOCK_BUNDLE_TABLE);
    reads("a negative length", NEGATIVE, COUNT(NEGATIVE), ALL, SCATTERFLOCK_BUNDLE_PAIR);
    reads("a sum that would wrap", WRAPS, COUNT(WRAPS), ALL, SCATTERFLOCK_BUNDLE_PAIR);
    reads("a word too many", TOTAL, COUNT(TOTAL), ALL, SCATTERFLOCK_BUNDLE_TOTAL);
}

static void writer(void)
{
    static const int32_t ZEROS[65] = {0}, NEGATIVE[] = {7, -1};
    static const int32_t LONG[] = {16381};
    static int32_t many[16381];
    uint8_t file[1];

    for (uint32_t edition = 1; edition <= 2; edition++) {
        writes("writing", edition, LENGTHS, COUNT(LENGTHS), COUNT(WORDS), 4 * COUNT(FILE_WORDS), 0);
        writes("writing with room", edition, LENGTHS, COUNT(LENGTHS), COUNT(WORDS), BYTES, 0);
        writes("a byte too few", edition, LENGTHS, COUNT(LENGTHS), COUNT(WORDS), 4 * COUNT(FILE_WORDS) - 1,
               SCATTERFLOCK_BUNDLE_SHORT);
        writes("a negative length", edition, NEGATIVE, COUNT(NEGATIVE), COUNT(WORDS), BYTES,
               SCATTERFLOCK_BUNDLE_PAIR);
        writes("a word too few", edition, LENGTHS, COUNT(LENGTHS), COUNT(WORDS) - 1, BYTES,
               SCATTERFLOCK_BUNDLE_TOTAL);
        same("a file too long", scatterflock_bundle_write(edition, LONG, 1, many, COUNT(many), file, 1),
             SCATTERFLOCK_BUNDLE_SIZE);
    }
    writes("edition 0", 0, ZEROS, COUNT(ZEROS), 1, 0, SCATTERFLOCK_BUNDLE_EDITION);
    writes("edition 3", 3, ZEROS, COUNT(ZEROS), 1, 0, SCATTERFLOCK_BUNDLE_EDITION);
    writes("65 lengths", 1, ZEROS, SCATTERFLOCK_FIRST_BODIES + 1, 1, BYTES, SCATTERFLOCK_BUNDLE_BODIES);
    writes("64 lengths", 1, ZEROS, SCATTERFLOCK_FIRST_BODIES, 1, BYTES, SCATTERFLOCK_BUNDLE_TOTAL);
    writes("49 lengths", 2, ZEROS, SCATTERFLOCK_SECOND_BODIES + 1, 1, BYTES, SCATTERFLOCK_BUNDLE_BODIES);
    writes("48 lengths", 2, ZEROS, SCATTERFLOCK_SECOND_BODIES, 1, BYTES, SCATTERFLOCK_BUNDLE_TOTAL);
}

static void day(void)
{
    uint8_t file[BYTES], text[BYTES];

    put_bytes(file, FILE_WORDS, COUNT(FILE_WORDS));
    memset(text, KEPT_BYTE, sizeof text);
    same("a text without room", scatterflock_day(file, 4 * COUNT(FILE_WORDS), text, TEXT_COUNT - 1), TEXT_COUNT);
    bytes_are("a byte that is kept", text, NULL, 0);
    same("a text", scatterflock_day(file, 4 * COUNT(FILE_WORDS), text, TEXT_COUNT), TEXT_COUNT);
    bytes_are("a byte of the text", text, (const uint8_t *)TEXT, TEXT_COUNT);
    same("a text of bytes", scatterflock_day(file, 7, text, 0), 11);
    bytes_are("a byte that is kept still", text, (const uint8_t *)TEXT, TEXT_COUNT);
    file[0] = 2;
    same("a text of edition 2", scatterflock_day(file, 4 * COUNT(FILE_WORDS), text, TEXT_COUNT), TEXT_COUNT);
    bytes_are("a byte of that text", text, (const uint8_t *)TEXT, TEXT_COUNT);
}

/* One variable and 17 rows, each 1 time the variable, without limits: 73 words. */
static void seventeen_rows(void)
{
    static int32_t list[4 + 73] = {1, 1, 4, 73, 1, SCATTERFLOCK_FIRST_ROWS + 1};
    static uint8_t file[sizeof list];
    uint8_t text[BYTES];

    for (size_t row = 0; row < 17; row++)
        list[6 + row] = 1;
    put_bytes(file, list, COUNT(list));
    memset(text, KEPT_BYTE, sizeof text);
    same("its text in edition 1", scatterflock_day(file, sizeof file, text, BYTES), 10);
    bytes_are("a byte of its refusal", text, (const uint8_t *)"refused 2\n", 10);
    file[0] = 2;
    same("its text in edition 2", scatterflock_day(file, sizeof file, text, 0), 20 + 10 * 4 + 8 * 5);
}

int main(void)
{
    reader();
    writer();
    day();
    seventeen_rows();
    return differences == 0 ? 0 : 1;
}
