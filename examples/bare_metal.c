/*
 * A set without an operating system, in small: the self-test, and then the survey of document 01's case B by a few
 * rounds a turn of the loop, as a set with a watchdog makes it. bare_metal_start.c starts it on an Arm Cortex-M;
 * `tools/cross thumbv7em-none-eabi` builds both and runs them in an emulator.
 */
#include <stdint.h>
#include "link_survey.h"
#include "self_test.h"

/* Rounds that a turn of the loop may take before the watchdog is fed: docs/MANUAL.md says what a call takes. */
enum { BUDGET = 4 };

static uint16_t state[LINK_SURVEY_STATE_WORDS];

int putchar(int character);

static void say(const char *text)
{
    for (; *text != '\0'; text++)
        putchar(*text);
}

static void say_number(uint32_t number)
{
    if (number >= 10)
        say_number(number / 10);
    putchar((int)('0' + number % 10));
}

/* A set writes to its watchdog here. */
static void feed_watchdog(void)
{
}

/* One turn after the other until the survey is finished; the rounds that were made. */
static uint32_t surveyed(uint16_t *rounds)
{
    uint16_t status[LINK_SURVEY_STATUS_WORDS], made;
    uint32_t refused;

    do {
        feed_watchdog();
        refused = link_survey_run(state, BUDGET, &made);
        if (refused == LINK_SURVEY_DONE)
            refused = link_survey_status(state, status);
        if (refused != LINK_SURVEY_DONE)
            return refused;
    } while (status[LINK_SURVEY_STATUS_COUNTDOWN] != 0);
    *rounds = status[LINK_SURVEY_STATUS_ROUNDS];
    return LINK_SURVEY_DONE;
}

static uint32_t case_b(void)
{
    static const uint16_t table[] = {0, 1, 1, 2, 0, 2, 2, 3};
    static const int16_t levels[] = {-61, -70, -58, -83};
    uint16_t rounds, unit[LINK_SURVEY_UNIT_WORDS];
    uint32_t refused = link_survey_load(state, 4, table, 8, levels, 4);

    if (refused == LINK_SURVEY_DONE)
        refused = surveyed(&rounds);
    if (refused != LINK_SURVEY_DONE)
        return refused;
    say("case B: ");
    say_number(rounds);
    say(" rounds");
    for (uint16_t v = 0; v < 4 && refused == LINK_SURVEY_DONE; v++) {
        refused = link_survey_unit(state, v, unit);
        if (refused == LINK_SURVEY_DONE && unit[LINK_SURVEY_UNIT_SINGLE] == 1) {
            say(", unit ");
            say_number(v);
            say(" is a single point");
        }
    }
    say("\n");
    return refused;
}

int main(void)
{
    uint32_t failed = link_survey_self_test();

    if (failed == LINK_SURVEY_SELF_TEST_PASSED) {
        say("self-test passed\n");
        failed = case_b();
    }
    if (failed != 0) {
        say("failed: ");
        say_number(failed);
        say("\n");
    }
    return failed != 0;
}
