/*
 * The acceptance of a new set, T-13 of document 02: each set of links among one to five units, opened as a stored table
 * and surveyed, prints a line of kind 22 with its single points. On every processor these are the 1,099 lines of
 * crates/small_sites/stdout. Of the C library it takes putchar alone; a set without one has its own.
 *
 * Exit status: 0, or the number of a refusal, after which no line follows.
 */
#include <stdint.h>
#include "link_survey.h"

/* As in stdio.h, which a set need not have. */
int putchar(int character);

enum { KIND = 0x22, MOST_UNITS = 5, MOST_LINKS = 10 };

static uint16_t state[LINK_SURVEY_STATE_WORDS];

/* The links of a number: bit 0 is the first pair of units, in the order 0-1, 0-2, .., 1-2, and so on. */
static uint16_t links_of(uint16_t units, uint16_t number, uint16_t table[2 * MOST_LINKS])
{
    uint16_t links = 0, bit = 0;

    for (uint16_t a = 0; a < units; a++)
        for (uint16_t b = (uint16_t)(a + 1); b < units; b++, bit++)
            if ((number >> bit & 1) != 0) {
                table[2 * links] = a;
                table[2 * links + 1] = b;
                links++;
            }
    return links;
}

/* One byte of single points: bit v is set when unit v is one. */
static uint32_t single_points(uint16_t units, uint16_t number, uint8_t *points)
{
    const int16_t levels[MOST_LINKS] = {0};
    uint16_t table[2 * MOST_LINKS], made, unit[LINK_SURVEY_UNIT_WORDS];
    uint16_t links = links_of(units, number, table);
    uint32_t refused = link_survey_load_stored(state, units, table, 2u * links, levels, links);

    if (refused == LINK_SURVEY_DONE)
        refused = link_survey_run(state, LINK_SURVEY_MAX_ROUNDS, &made);
    *points = 0;
    for (uint16_t v = 0; v < units && refused == LINK_SURVEY_DONE; v++) {
        refused = link_survey_unit(state, v, unit);
        if (refused == LINK_SURVEY_DONE)
            *points = (uint8_t)(*points | unit[LINK_SURVEY_UNIT_SINGLE] << v);
    }
    return refused;
}

static void put_byte(uint8_t byte)
{
    putchar("0123456789ABCDEF"[byte >> 4]);
    putchar("0123456789ABCDEF"[byte & 15]);
}

/* A frame: its bytes, and the one that brings their sum to 0 in eight bits. */
static void put_line(uint16_t units, uint16_t number, uint8_t points)
{
    const uint8_t bytes[] = {KIND, 0, (uint8_t)units, (uint8_t)(number >> 8), (uint8_t)number, points};
    uint8_t sum = 0;

    for (unsigned i = 0; i < sizeof bytes; i++) {
        put_byte(bytes[i]);
        sum = (uint8_t)(sum + bytes[i]);
    }
    put_byte((uint8_t)-sum);
    putchar('\n');
}

int main(void)
{
    for (uint16_t units = 1; units <= MOST_UNITS; units++)
        for (uint16_t number = 0; number < 1u << units * (units - 1) / 2; number++) {
            uint8_t points;
            uint32_t refused = single_points(units, number, &points);

            if (refused != LINK_SURVEY_DONE)
                return (int)refused;
            put_line(units, number, points);
        }
    return 0;
}
