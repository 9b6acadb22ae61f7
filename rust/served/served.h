/* What served.c and bundle.c share. */
#ifndef SERVED_H
#define SERVED_H

#include "../../include/scatterflock.h"

/* Ends the program with a message. */
void stop(const char *what);

/* Reads so many bytes from standard input. */
void take(void *to, size_t size);

/* Writes so many bytes to standard output. */
void give(const void *from, size_t size);

/* Answers a request about a day's file: the function is 8, 9, 10 or 12. */
void serve_bundle(const uint64_t *request);

#endif
