/* The self-test as a program: says what failed. Exit status: 0 where it passed, else 1. */
#include <stdio.h>
#include "self_test.h"

int main(void)
{
    uint32_t failed = link_survey_self_test();

    if (failed == LINK_SURVEY_SELF_TEST_PASSED) {
        printf("passed\n");
        return 0;
    }
    printf("failed: case %u\n", (unsigned)failed);
    return 1;
}
