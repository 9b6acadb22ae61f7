/* Counts the bytes that a solve copies. Reads lines from standard input, each
   the name of a set, a tab, and the words of a problem; prints a line a set:
   the mean number of bytes copied, by how many calls, and what sizes they have.
   It is linked with --wrap for memcpy and memmove, so that the archive's calls
   come here; a copy that the compiler makes in place is not among them. */
#include "../../include/scatterflock.h"
#include <stdio.h>
#include <stdlib.h>
#include <string.h>

enum { MOST_WORDS = 290, MOST_ANSWER = 67, MOST_SIZE = 4096, MOST_NAME = 32, MOST_LINE = 4096, LONG = 256 };

void *__real_memcpy(void *to, const void *from, size_t size);
void *__real_memmove(void *to, const void *from, size_t size);
void *__wrap_memcpy(void *to, const void *from, size_t size);
void *__wrap_memmove(void *to, const void *from, size_t size);

static int counting;
static long calls[MOST_SIZE];

static void count(size_t size) {
    if (counting) calls[size < MOST_SIZE ? size : MOST_SIZE - 1]++;
}

void *__wrap_memcpy(void *to, const void *from, size_t size) {
    count(size);
    return __real_memcpy(to, from, size);
}

void *__wrap_memmove(void *to, const void *from, size_t size) {
    count(size);
    return __real_memmove(to, from, size);
}

static void print(const char *name, long problems) {
    double bytes = 0, all = 0;
    size_t size;
    if (problems == 0) return;
    for (size = 0; size < MOST_SIZE; size++) {
        bytes += (double)size * (double)calls[size];
        all += (double)calls[size];
    }
    printf("%-16s%10.0f%10.1f  ", name, bytes / (double)problems, all / (double)problems);
    for (size = 0; size < MOST_SIZE; size++) {
        if (size >= LONG && 2 * calls[size] >= problems) printf(" %zu: %.1f", size, (double)calls[size] / (double)problems);
        calls[size] = 0;
    }
    putchar('\n');
}

int main(void) {
    static char line[MOST_LINE], name[MOST_NAME];
    long problems = 0;
    printf("%-16s%10s%10s   calls by size, from 256 bytes and 0.5 calls on\n", "bytes copied", "a solve", "calls");
    while (fgets(line, sizeof line, stdin) != NULL) {
        int32_t words[MOST_WORDS];
        int64_t answer[MOST_ANSWER];
        size_t many = 0;
        char *at = strchr(line, '\t'), *end;
        if (at == NULL || at - line >= MOST_NAME) return 1;
        *at++ = 0;
        if (strcmp(line, name) != 0) {
            print(name, problems);
            problems = 0;
            strcpy(name, line);
        }
        for (; many < MOST_WORDS; many++, at = end) {
            long word = strtol(at, &end, 10);
            if (end == at) break;
            words[many] = (int32_t)word;
        }
        counting = 1;
        if (scatterflock_solve(words, many, answer, MOST_ANSWER) != 0) return 1;
        counting = 0;
        problems++;
    }
    print(name, problems);
    return 0;
}
