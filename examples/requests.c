/*
 * The calls of document 02's requests, on document 01's case E: two rings, 0-1-2 and 2-3-4, that meet in unit 2. Rings,
 * doubtful links, lifting orders, one-way links, and a live table that is changed and surveyed anew.
 */
#include <stdint.h>
#include <stdio.h>
#include <string.h>
#include "link_survey.h"

enum { UNITS = 5, LINKS = 6 };

static uint16_t state[LINK_SURVEY_STATE_WORDS], live[LINK_SURVEY_LIVE_WORDS];

/* The finished survey of a table. */
static uint32_t surveyed(const uint16_t *table, const int16_t *levels, size_t links)
{
    uint16_t made;
    uint32_t refused = link_survey_load(state, UNITS, table, 2 * links, levels, links);

    return refused != LINK_SURVEY_DONE ? refused : link_survey_run(state, LINK_SURVEY_MAX_ROUNDS, &made);
}

static void told(const char *what, uint32_t refused, const uint16_t *units, unsigned count)
{
    printf("%s:", what);
    if (refused != LINK_SURVEY_DONE)
        printf(" refused, %u", (unsigned)refused);
    else if (count == 0)
        printf(" none");
    for (unsigned i = 0; refused == LINK_SURVEY_DONE && i < count; i++)
        printf(" %u", (unsigned)units[i]);
    printf("\n");
}

static void show_ring(const char *what, uint16_t first, uint16_t second)
{
    uint16_t units[UNITS], count = 0;
    uint32_t refused = link_survey_ring(state, first, second, units, UNITS, &count);

    told(what, refused, units, count);
}

static void show_doubt(const char *what, uint16_t first, uint16_t second, const uint8_t *marks)
{
    static const char *const verdicts[] = {"never", "perhaps", "always"};
    uint16_t verdict;

    if (link_survey_doubtful(state, first, second, marks, LINKS, &verdict) == LINK_SURVEY_DONE)
        printf("%s: %s\n", what, verdicts[verdict]);
}

static void show_order(const char *what, const uint16_t *pairs, size_t words)
{
    uint16_t units[UNITS];
    uint32_t refused = link_survey_lifting_order(state, pairs, words, units, UNITS);

    told(what, refused, units, UNITS);
}

static void show_live(const char *what, uint32_t refused)
{
    char line[64];

    sprintf(line, "%s, %u links, at each unit", what, (unsigned)live[LINK_SURVEY_LIVE_LINKS]);
    told(line, refused, live + LINK_SURVEY_LIVE_COUNTS, UNITS);
}

int main(void)
{
    const uint16_t table[] = {0, 1, 1, 2, 0, 2, 2, 3, 3, 4, 2, 4};
    const int16_t levels[] = {-61, -70, -58, -83, -66, -79};
    const uint8_t lorry[] = {0, 0, 1, 0, 0, 0};
    const uint16_t after[] = {1, 2}, first[] = {0, 3};
    const uint16_t heard[] = {0, 1, 1, 2, 2, 0, 2, 3};
    uint16_t numbers[4], passes = 0, unit[LINK_SURVEY_UNIT_WORDS];
    int16_t changed[LINK_SURVEY_MAX_LINKS];
    uint32_t refused = surveyed(table, levels, LINKS);

    if (refused == LINK_SURVEY_DONE) {
        show_ring("ring of links 0 and 1", 0, 1);
        show_ring("ring of links 0 and 4", 0, 4);
        show_doubt("a lorry in link 2, links 3 and 5", 3, 5, lorry);
        show_doubt("a lorry in link 2, links 0 and 1", 0, 1, lorry);
        show_doubt("a lorry in link 2, links 0 and 3", 0, 3, lorry);
        show_order("lifting order", after, 0);
        show_order("lifting order, 1 before 2", after, 2);
        show_order("lifting order, 0 before 3", first, 2);
        refused = link_survey_one_way(4, heard, 8, numbers, 4, &passes);
        told("one-way links", refused, numbers, 4);
        printf("passes: %u\n", (unsigned)passes);

        show_live("opened", link_survey_live_open(live, UNITS, table, 12, levels, LINKS));
        show_live("1-3 added", link_survey_live_add(live, 1, 3, -75));
        show_live("2-0 withdrawn", link_survey_live_withdraw(live, 2, 0));
        show_live("2-0 withdrawn again", link_survey_live_withdraw(live, 2, 0));
        memcpy(changed, live + LINK_SURVEY_LIVE_LEVELS, sizeof changed);
        refused = surveyed(live + LINK_SURVEY_LIVE_ENDS, changed, live[LINK_SURVEY_LIVE_LINKS]);
    }
    if (refused != LINK_SURVEY_DONE) {
        printf("refused: %u\n", (unsigned)refused);
        return 1;
    }
    printf("level of the last link: %d dBm\n", changed[live[LINK_SURVEY_LIVE_LINKS] - 1]);
    for (uint16_t v = 0; v < UNITS; v++)
        if (link_survey_unit(state, v, unit) == LINK_SURVEY_DONE && unit[LINK_SURVEY_UNIT_SINGLE] == 1)
            printf("unit %u is a single point\n", (unsigned)v);
    return 0;
}
