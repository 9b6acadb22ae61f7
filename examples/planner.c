/*
 * A planner that asks whether an oven of two zones may start.
 *
 *     cc planner.c $(pkg-config --cflags --libs scatterflock) -o planner
 *
 * It prints the set points, or the limits that clash. Its status is 0 if the
 * oven may start, 1 if not, and 2 if there is no answer.
 */
#include <scatterflock.h>

#include <inttypes.h>
#include <stdio.h>

#define COUNT(list) (sizeof(list) / sizeof *(list))

static const int32_t problem[] = {
    2, 1,                           // two variables, one row
    -1, 1,                          // the row is zone 1 less zone 0
    SCATTERFLOCK_BETWEEN, 20, 60,   // zone 0 is from 20 to 60 degrees
    SCATTERFLOCK_AT_LEAST, 95, 0,   // zone 1 is at least 95
    SCATTERFLOCK_AT_MOST, 0, 50,    // the row, variable 2, is at most 50
};

// No limit above is strict, so no value has a small part.
static void print_values(const int64_t *answer)
{
    for (int zone = 0; zone < problem[0]; zone++)
        printf("zone %d: %" PRId64 "/%" PRId64 " degrees\n", zone, answer[3 + zone], answer[2]);
}

static void print_clash(const int64_t *answer)
{
    int count = problem[0] + problem[1];

    for (int variable = 0; variable < count; variable++) {
        int64_t lower = answer[3 + variable], upper = answer[3 + count + variable];

        if (lower != 0)
            printf("%" PRId64 " times the lower limit of variable %d\n", lower, variable);
        if (upper != 0)
            printf("%" PRId64 " times the upper limit of variable %d\n", upper, variable);
    }
}

int main(void)
{
    int64_t answer[SCATTERFLOCK_MOST_ANSWER];
    uint32_t number = scatterflock_solve(problem, COUNT(problem), answer, COUNT(answer));

    if (number != SCATTERFLOCK_ANSWERED) {
        fprintf(stderr, "refused with %" PRIu32 "\n", number);
        return 2;
    }
    if (answer[0] == SCATTERFLOCK_OUT_OF_RANGE) {
        fprintf(stderr, "out of range\n");
        return 2;
    }
    // Whoever does not want to believe the solver asks the checker.
    if (scatterflock_check(problem, COUNT(problem), answer, COUNT(answer)) != SCATTERFLOCK_ACCEPTED) {
        fprintf(stderr, "the checker does not accept the answer\n");
        return 2;
    }
    if (answer[0] == SCATTERFLOCK_CAN)
        print_values(answer);
    else
        print_clash(answer);
    return answer[0] == SCATTERFLOCK_CAN ? 0 : 1;
}
