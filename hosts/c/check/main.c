/* Calls every function of include/brothwagon.h where it is refused and where it is done, and ends with status 1 at the first
 * number, answer, entry of a lent buffer or word beside one that is not as the rules say. With any word, says instead which
 * numbers each function tests, as its comment in the header has them. */
#include "call.h"

#include <stdio.h>

static void say_tests(const Operation *operation) {
    const char *before = " ";
    printf("%s", operation->name);
    for (const uint32_t *test = operation->tests; *test != 0; test++) {
        printf("%s%u%s", before, (unsigned)*test, *test == 3 && !collides(operation) ? " (the floor alone)" : "");
        before = ", ";
    }
    printf("\n");
}

int main(int words, char **word) {
    (void)word;
    for (int k = 0; words > 1 && k < OPERATIONS; k++) {
        say_tests(ALL[k]);
    }
    if (words > 1) {
        return 0;
    }
    check_refusals();
    check_readings();
    check_streaming();
    check_steps();
    check_floors();
    check_obstacles();
    check_checkpoints();
    check_tallies();
    printf("check: %lu calls of %d functions, %lu numbers as expected\n", calls_checked, (int)OPERATIONS, numbers_checked);
    return 0;
}
