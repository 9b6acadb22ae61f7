/*
 * Prints what include/scatterflock.h says of each number up to 199: the number and
 * its text, a line each. Numbers without one have no line.
 */
#include "scatterflock.h"

#include <stdio.h>

int main(void)
{
    uint32_t number;
    for (number = 0; number < 200; number++) {
        const char *text = scatterflock_number_text(number);
        if (text != NULL) {
            printf("%lu %s\n", (unsigned long)number, text);
        }
    }
    return 0;
}
