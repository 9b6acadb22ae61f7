/*
 * Calls the auditor's sheet of a day's file through include/scatterflock.h and
 * compares what it gives: the sheet of three bodies in both editions, the line of
 * a file that is refused, a body of 17 rows in either edition, and rooms that are
 * too short by one. It is C and C++ at once, and header.rs compiles it as both.
 * Each difference is a line, and any makes the program fail.
 */
#include "scatterflock.h"

#include <stdio.h>
#include <string.h>

#define COUNT(list) (sizeof(list) / sizeof *(list))
#define ROOM (SCATTERFLOCK_MOST_SHEET + 8)
#define KEPT_BYTE 0xa5
#define VARIABLES (SCATTERFLOCK_MOST_VARIABLES + SCATTERFLOCK_MOST_ROWS)

/* x is at least 5; x is from 1 to 0; and one word */
static const int32_t THREE[] = {1, 3, 8, 5, 13, 5, 18, 1, 1, 0, 1, 5, 0, 1, 0, 3, 1, 0, 7};
static const char THREE_TOP[] = "bodies 3\ncan 1\ncannot 1\nrange 0\nrefused 1 1\nrefused 2 0\nrefused 3 0\n"
                                "refused 4 0\nrefused 5 0\nrefused 6 0\nrefused 10 0\npivots 0\nlargest 0 body 0\n"
                                "0 lower 1 upper 1\n";

static int differences = 0;

static void same(const char *what, size_t found, size_t expected)
{
    if (found != expected) {
        printf("%s is %lu, not %lu\n", what, (unsigned long)found, (unsigned long)expected);
        differences++;
    }
}

static void put_bytes(uint8_t *file, const int32_t *words, size_t count)
{
    for (size_t place = 0; place < 4 * count; place++)
        file[place] = (uint8_t)((uint32_t)words[place / 4] >> 8 * (place % 4));
}

/* The sheet of a file is this text, in any room; and the file is kept. */
static void prints(const char *what, const uint8_t *file, size_t count, const char *expected)
{
    size_t size = strlen(expected), rooms[] = {0, size - 1, size, size + 1, ROOM};
    uint8_t before[1024], text[ROOM];

    memcpy(before, file, count);
    for (size_t room = 0; room < COUNT(rooms); room++) {
        size_t written = rooms[room] < size ? 0 : size;

        memset(text, KEPT_BYTE, sizeof text);
        same(what, scatterflock_sheet(file, count, text, rooms[room]), size);
        for (size_t place = 0; place < ROOM; place++)
            same("a byte of a sheet", text[place], place < written ? (uint8_t)expected[place] : KEPT_BYTE);
    }
    same("a file that is read", (size_t)memcmp(file, before, count), 0);
}

/* The lines of variables that no answer names, from one on. */
static void put_idle(char *text, int first)
{
    for (int variable = first; variable < VARIABLES; variable++)
        text += sprintf(text, "%d lower 0 upper 0\n", variable);
}

static void three_bodies(void)
{
    uint8_t file[sizeof THREE];
    char expected[ROOM];

    strcpy(expected, THREE_TOP);
    put_idle(expected + strlen(expected), 1);
    put_bytes(file, THREE, COUNT(THREE));
    prints("a sheet", file, sizeof file, expected);
    file[0] = 2;
    prints("a sheet of edition 2", file, sizeof file, expected);
    file[0] = 3;
    prints("a sheet of edition 3", file, sizeof file, "refused 31\n");
    prints("a sheet of bytes", file, 7, "refused 30\n");
}

/* One variable and 17 rows, each 1 time the variable, without limits: 73 words. */
static void seventeen_rows(void)
{
    static int32_t list[4 + 73] = {1, 1, 4, 73, 1, SCATTERFLOCK_FIRST_ROWS + 1};
    static uint8_t file[sizeof list];
    char expected[ROOM];

    for (size_t row = 0; row < 17; row++)
        list[6 + row] = 1;
    put_bytes(file, list, COUNT(list));
    for (int edition = 1; edition <= 2; edition++) {
        file[0] = (uint8_t)edition;
        sprintf(expected,
                "bodies 1\ncan %d\ncannot 0\nrange 0\nrefused 1 0\nrefused 2 %d\nrefused 3 0\nrefused 4 0\n"
                "refused 5 0\nrefused 6 0\nrefused 10 0\npivots 0\nlargest 0 body %s\n",
                edition == 2, edition == 1, edition == 1 ? "none" : "0");
        put_idle(expected + strlen(expected), 0);
        prints("a sheet of 17 rows", file, sizeof file, expected);
    }
}

int main(void)
{
    three_bodies();
    seventeen_rows();
    return differences == 0 ? 0 : 1;
}
