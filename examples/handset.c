/*
 * A handset in small: reads a survey file, opens it as a stored table, makes its survey round by round and shows how it
 * goes, with the foreman's line, then says where the site is weak and prints the report.
 *
 *     handset [-v] [FILE]      without FILE: standard input; -v: every round, not only where a stage begins
 *
 * Exit status: 0, 1 where a call was refused, 2 where a file could not be read or the command is wrong.
 */
#include <stdint.h>
#include <stdio.h>
#include <string.h>
#include "link_survey.h"

/* What the program link_survey takes, too. */
#define MAX_INPUT 65535u

static uint8_t file[MAX_INPUT + 1];
static uint16_t table[2 * LINK_SURVEY_MAX_LINKS];
static int16_t levels[LINK_SURVEY_MAX_LINKS];
static uint16_t state[LINK_SURVEY_STATE_WORDS];
static uint8_t report[LINK_SURVEY_MAX_REPORT_BYTES];

static const char *const refusals[] = {
    "not refused",
    "a line of the file is faulty, or the file is too long",
    "the lines are not one 01, any number of 02 and 03, one 0F",
    "the last line does not give the number of links",
    "the unit count is 0 or above 256",
    "the table has an odd number of words",
    "there are more than 1,024 links",
    "an end of a link is no unit of the site",
    "a link has equal ends",
    "two links join the same two units",
    "the state is not kept",
    "the survey is finished",
    "the survey is not finished",
    "there is no such unit or link",
    "there is too little room",
    "the levels, or the marks, are not as many as the links",
    "a level is below -127 or above 0 dBm",
    "the parents are not as many as the units",
    "the parents are no tree of the site",
    "there are too many pairs, an odd number of words, or a pair names no unit",
    "there is no lifting order",
    "no link joins the two units",
    "a unit has no link",
    "there is no such seat"
};

static const char *const stages[] = {
    "not begun", "colour", "tree", "tour", "first ranking", "marks", "second ranking", "least and greatest", "joins",
    "classes", "labels", "finished"
};

/* Tells a refusal in words; the exit status that goes with it. */
static int told(uint32_t refused)
{
    const char *words = "unknown";

    if (refused < sizeof refusals / sizeof refusals[0])
        words = refusals[refused];
    fprintf(stderr, "refused, number %u: %s\n", (unsigned)refused, words);
    return 1;
}

/* One row of the display: where the survey stands, in words, and then the foreman's line, which ends the row. */
static uint32_t show(const uint16_t status[LINK_SURVEY_STATUS_WORDS])
{
    uint8_t line[LINK_SURVEY_FOREMAN_LINE_BYTES];
    uint32_t refused = link_survey_foreman_line(state, line, sizeof line);

    if (refused != LINK_SURVEY_DONE)
        return refused;
    printf("round %3u  countdown %3u  %-18s  ", (unsigned)status[LINK_SURVEY_STATUS_ROUNDS],
           (unsigned)status[LINK_SURVEY_STATUS_COUNTDOWN], stages[status[LINK_SURVEY_STATUS_STAGE]]);
    fwrite(line, 1, sizeof line, stdout);
    return LINK_SURVEY_DONE;
}

/* The survey from its load to its end, one round at a time. */
static uint32_t surveyed(int every_round)
{
    uint16_t status[LINK_SURVEY_STATUS_WORDS];
    uint16_t shown = 0;
    uint32_t refused = link_survey_status(state, status);

    while (refused == LINK_SURVEY_DONE) {
        uint16_t stage = status[LINK_SURVEY_STATUS_STAGE];

        if (every_round || stage != shown)
            refused = show(status);
        shown = stage;
        if (stage == LINK_SURVEY_STAGE_FINISHED || refused != LINK_SURVEY_DONE)
            break;
        refused = link_survey_round(state);
        if (refused == LINK_SURVEY_DONE)
            refused = link_survey_status(state, status);
    }
    return refused;
}

/* Every single point, in words. */
static uint32_t single_points(uint16_t units)
{
    unsigned found = 0;

    for (uint16_t v = 0; v < units; v++) {
        uint16_t unit[LINK_SURVEY_UNIT_WORDS];
        uint32_t refused = link_survey_unit(state, v, unit);

        if (refused != LINK_SURVEY_DONE)
            return refused;
        if (unit[LINK_SURVEY_UNIT_SINGLE] == 1) {
            printf("unit %u is a single point: without it, others lose each other\n", (unsigned)v);
            found++;
        }
    }
    if (found == 0)
        printf("there is no single point\n");
    return LINK_SURVEY_DONE;
}

/* Every lone link, in words. */
static uint32_t lone_links(uint16_t links)
{
    unsigned found = 0;

    for (uint16_t j = 0; j < links; j++) {
        uint16_t link[LINK_SURVEY_LINK_WORDS];
        uint32_t refused = link_survey_link(state, j, link);

        if (refused != LINK_SURVEY_DONE)
            return refused;
        if (link[LINK_SURVEY_LINK_LONE] == 1) {
            printf("link %u, between units %u and %u, at %d dBm, is lone: no ring backs it up\n", (unsigned)j,
                   (unsigned)table[2 * j], (unsigned)table[2 * j + 1], (int)levels[j]);
            found++;
        }
    }
    if (found == 0)
        printf("there is no lone link\n");
    return LINK_SURVEY_DONE;
}

/* All that the handset does with the bytes of a file; the number of a refusal. */
static uint32_t handled(size_t length, int every_round)
{
    uint16_t units, links;
    uint32_t refused;

    if (length > MAX_INPUT)
        return LINK_SURVEY_FAULTY_LINE;
    refused = link_survey_read(file, length, table, sizeof table / sizeof table[0], levels,
                               sizeof levels / sizeof levels[0], &units, &links);
    if (refused == LINK_SURVEY_DONE)
        refused = link_survey_load_stored(state, units, table, (size_t)2 * links, levels, links);
    if (refused != LINK_SURVEY_DONE)
        return refused;
    printf("%u units, %u links\n", (unsigned)units, (unsigned)links);
    refused = surveyed(every_round);
    if (refused == LINK_SURVEY_DONE)
        refused = single_points(units);
    if (refused == LINK_SURVEY_DONE)
        refused = lone_links(links);
    if (refused == LINK_SURVEY_DONE)
        refused = link_survey_state_report(state, report, sizeof report);
    if (refused == LINK_SURVEY_DONE)
        fwrite(report, 1, LINK_SURVEY_REPORT_BYTES(units, links), stdout);
    return refused;
}

int main(int argc, char **argv)
{
    int every_round = argc > 1 && strcmp(argv[1], "-v") == 0;
    const char *name = argc > 1 + every_round ? argv[1 + every_round] : NULL;
    FILE *in = stdin;
    size_t length;
    int failed;
    uint32_t refused;

    if (argc > 2 + every_round) {
        fprintf(stderr, "usage: handset [-v] [FILE]\n");
        return 2;
    }
    if (name != NULL)
        in = fopen(name, "rb");
    if (in == NULL) {
        fprintf(stderr, "%s cannot be opened\n", name);
        return 2;
    }
    length = fread(file, 1, sizeof file, in);
    failed = ferror(in);
    if (in != stdin)
        fclose(in);
    if (failed) {
        fprintf(stderr, "the file cannot be read\n");
        return 2;
    }
    refused = handled(length, every_round);
    if (refused != LINK_SURVEY_DONE)
        return told(refused);
    return fflush(stdout) == 0 ? 0 : 2;
}
