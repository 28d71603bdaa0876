/* The self-test of self_test.h. A function of a case returns 1 where all is as expected. */
#include "self_test.h"
#include "link_survey.h"

#ifdef LINK_SURVEY_SELF_TEST_ONE_SEAT
enum { SEATS = 1 };
#else
enum { SEATS = LINK_SURVEY_SEATS };
#endif

/* What stands in lent words before a call, and is no answer. */
enum { OTHER = 7777 };

/* The stage in the words of a state, and the tables of a ranking: predecessors, sums. */
enum { STAGE = 2050, JUMP = 3846, SUM = 4358 };

/* Which figures document 01 gives of a case. */
enum { LABELS = 1, SINGLES = 2, LONE = 4, PLACES = 8 };

struct site {
    uint16_t units, links, table[12];
    uint16_t rounds, countdown; /* 0: not given */
    unsigned given;
    uint16_t labels[6], singles, lone, places[6]; /* of singles and lone links: bit v or j is set */
};

/* Document 01's cases A to G. */
static const struct site cases[] = {
    {1, 0, {0}, 16, 16, SINGLES, {0}, 0, 0, {0}},
    {4, 4, {0, 1, 1, 2, 0, 2, 2, 3}, 27, 30, LABELS | SINGLES | LONE | PLACES, {0, 0, 0, 3}, 4, 8, {0, 1, 2, 3}},
    {2, 1, {0, 1}, 20, 0, SINGLES | LONE, {0}, 0, 1, {0}},
    {4, 4, {0, 1, 1, 2, 2, 3, 3, 0}, 0, 0, LABELS | SINGLES, {0, 0, 0, 0}, 0, 0, {0}},
    {5, 6, {0, 1, 1, 2, 0, 2, 2, 3, 3, 4, 2, 4}, 0, 0, LABELS | SINGLES, {0, 0, 0, 3, 3, 3}, 4, 0, {0}},
    {6, 6, {0, 1, 1, 2, 0, 2, 3, 4, 4, 5, 3, 5}, 0, 0, LABELS | SINGLES, {0, 0, 0, 3, 3, 3}, 0, 0, {0}},
    {5, 4, {0, 3, 3, 1, 1, 2, 1, 4}, 0, 0, PLACES, {0}, 0, 0, {0, 2, 4, 1, 3}}
};

static const struct site *const case_b = &cases[1], *const case_c = &cases[2], *const case_e = &cases[4];
static const int16_t levels[6] = {-61, -61, -61, -61, -61, -61};

static uint16_t seats[SEATS][LINK_SURVEY_STATE_WORDS];
static uint16_t *const state = seats[0];
static uint16_t live[LINK_SURVEY_LIVE_WORDS];
static uint8_t out[256];

static int same_words(const uint16_t *words, const uint16_t *expected, unsigned count)
{
    unsigned i = 0;

    while (i < count && words[i] == expected[i])
        i++;
    return i == count;
}

/* The bytes of out are those of a text, and the one after them was not touched. */
static int written(const char *expected, unsigned count)
{
    unsigned i = 0;

    while (i < count && out[i] == (uint8_t)expected[i])
        i++;
    return i == count && expected[count] == '\0' && out[count] == 0;
}

static void clear_out(void)
{
    for (unsigned i = 0; i < sizeof out; i++)
        out[i] = 0;
}

static uint32_t loaded(const struct site *site)
{
    return link_survey_load(state, site->units, site->table, 2u * site->links, levels, site->links);
}

static uint32_t finished(const struct site *site)
{
    uint16_t made;
    uint32_t refused = loaded(site);

    return refused != LINK_SURVEY_DONE ? refused : link_survey_run(state, LINK_SURVEY_MAX_ROUNDS, &made);
}

/* ---- cases A to K */

static int units_as_given(const struct site *site)
{
    uint16_t unit[LINK_SURVEY_UNIT_WORDS];

    for (uint16_t v = 0; v < site->units; v++) {
        if (link_survey_unit(state, v, unit) != LINK_SURVEY_DONE)
            return 0;
        if ((site->given & SINGLES) != 0 && unit[LINK_SURVEY_UNIT_SINGLE] != (site->singles >> v & 1))
            return 0;
        if ((site->given & PLACES) != 0 && unit[LINK_SURVEY_UNIT_PLACE] != site->places[v])
            return 0;
    }
    return 1;
}

static int links_as_given(const struct site *site)
{
    uint16_t link[LINK_SURVEY_LINK_WORDS];

    for (uint16_t j = 0; j < site->links; j++) {
        if (link_survey_link(state, j, link) != LINK_SURVEY_DONE)
            return 0;
        if ((site->given & LABELS) != 0 && link[LINK_SURVEY_LINK_LABEL] != site->labels[j])
            return 0;
        if ((site->given & LONE) != 0 && link[LINK_SURVEY_LINK_LONE] != (site->lone >> j & 1))
            return 0;
    }
    return 1;
}

static int site_as_given(const struct site *site)
{
    uint16_t status[LINK_SURVEY_STATUS_WORDS], made = 0;

    if (loaded(site) != LINK_SURVEY_DONE || link_survey_status(state, status) != LINK_SURVEY_DONE)
        return 0;
    if (site->countdown != 0 && status[LINK_SURVEY_STATUS_COUNTDOWN] != site->countdown)
        return 0;
    if (link_survey_run(state, LINK_SURVEY_MAX_ROUNDS, &made) != LINK_SURVEY_DONE)
        return 0;
    if (site->rounds != 0 && made != site->rounds)
        return 0;
    return units_as_given(site) && links_as_given(site);
}

/* Case H: a ranking of five objects, laid into the words of four units at stage 4, makes 4 rounds and 8 requests. */
static int list_of_five(void)
{
    const uint16_t ranks[5] = {1, 2, 3, 4, 5};
    uint16_t status[LINK_SURVEY_STATUS_WORDS], rounds = 0;

    if (link_survey_load_stored(state, 4, case_b->table, 0, levels, 0) != LINK_SURVEY_DONE)
        return 0;
    state[STAGE] = LINK_SURVEY_STAGE_FIRST_RANKING;
    for (unsigned i = 0; i < 5; i++) {
        state[JUMP + i] = i == 0 ? LINK_SURVEY_ABSENT : (uint16_t)(i - 1);
        state[SUM + i] = 1;
    }
    do {
        rounds++;
        if (link_survey_round(state) != LINK_SURVEY_DONE || link_survey_status(state, status) != LINK_SURVEY_DONE)
            return 0;
    } while (status[LINK_SURVEY_STATUS_STAGE] == LINK_SURVEY_STAGE_FIRST_RANKING && rounds < 5);
    return rounds == 4 && status[LINK_SURVEY_STATUS_REQUESTS] == 8 && same_words(state + SUM, ranks, 5);
}

static uint32_t first_failed_of_cases(void)
{
    const uint16_t both_ways[] = {0, 1, 1, 0}, missing[] = {3, 3};
    uint32_t number = LINK_SURVEY_SELF_TEST_CASE_A;

    for (unsigned i = 0; i < sizeof cases / sizeof cases[0]; i++, number++)
        if (!site_as_given(&cases[i]))
            return number;
    if (!list_of_five())
        return number;
    number++;
    if (link_survey_load_stored(state, 257, missing, 0, levels, 0) != LINK_SURVEY_BAD_UNIT_COUNT
        || link_survey_load_stored(state, 256, missing, 0, levels, 0) != LINK_SURVEY_DONE)
        return number;
    number++;
    if (link_survey_load(state, 2, both_ways, 4, levels, 2) != LINK_SURVEY_REPEATED_LINK)
        return number;
    number++;
    if (link_survey_load(state, 3, missing, 2, levels, 1) != LINK_SURVEY_END_MISSING)
        return number;
    return LINK_SURVEY_SELF_TEST_PASSED;
}

/* ---- a refusal of each number */

/* 1 to 3: of files. */
static uint32_t refused_file(uint32_t number)
{
    static const char *const files[] = {"\n", "0F0000F1\n", "010001FE\n0F0001F0\n"};
    const char *file = files[number - 1];
    uint16_t table[2], units, links;
    int16_t heard[1];
    link_survey_length length = 0;

    while (file[length] != '\0')
        length++;
    return link_survey_read((const uint8_t *)file, length, table, 2, heard, 1, &units, &links);
}

/* 4 to 9, 15, 16 and 22: of fresh tables. The live table's words serve for a table that is too long. */
static uint32_t refused_table(uint32_t number)
{
    static const uint16_t one[] = {0, 1}, missing[] = {0, 2}, equal[] = {1, 1}, repeated[] = {0, 1, 1, 0};
    static const int16_t loud[] = {1};

    switch (number) {
    case LINK_SURVEY_BAD_UNIT_COUNT: return link_survey_load(state, 0, one, 2, levels, 1);
    case LINK_SURVEY_ODD_WORDS: return link_survey_load(state, 2, one, 1, levels, 1);
    case LINK_SURVEY_TOO_MANY_LINKS: return link_survey_load(state, 2, live, 2050, levels, 1);
    case LINK_SURVEY_END_MISSING: return link_survey_load(state, 2, missing, 2, levels, 1);
    case LINK_SURVEY_EQUAL_ENDS: return link_survey_load(state, 2, equal, 2, levels, 1);
    case LINK_SURVEY_REPEATED_LINK: return link_survey_load(state, 2, repeated, 4, levels, 2);
    case LINK_SURVEY_LEVELS_DIFFER: return link_survey_load(state, 2, one, 2, levels, 2);
    case LINK_SURVEY_LEVEL_OUTSIDE: return link_survey_load(state, 2, one, 2, loud, 1);
    default: return link_survey_load(state, 3, one, 2, levels, 1);
    }
}

/* 11, 13, 14, 19 and 20: of calls on the finished survey of case B. */
static uint32_t refused_when_finished(uint32_t number)
{
    static const uint16_t no_unit[] = {0, 4}, unit_0_first[] = {0, 3};
    uint16_t unit[LINK_SURVEY_UNIT_WORDS], order[4];

    switch (number) {
    case LINK_SURVEY_AT_END: return link_survey_round(state);
    case LINK_SURVEY_NO_SUCH_NAME: return link_survey_unit(state, 4, unit);
    case LINK_SURVEY_TOO_SHORT: return link_survey_state_report(state, out, LINK_SURVEY_REPORT_BYTES(4u, 4u) - 1);
    case LINK_SURVEY_BAD_PAIRS: return link_survey_lifting_order(state, no_unit, 2, order, 4);
    default: return link_survey_lifting_order(state, unit_0_first, 2, order, 4);
    }
}

/* The others. */
static uint32_t refused_else(uint32_t number)
{
    static const uint16_t one[] = {0, 1}, no_tree[] = {LINK_SURVEY_ABSENT, LINK_SURVEY_ABSENT};
    uint16_t reply[LINK_SURVEY_UNIT_WORDS];

    switch (number) {
    case LINK_SURVEY_NOT_KEPT: return link_survey_status(state, reply);
    case LINK_SURVEY_BEFORE_END: return link_survey_unit(state, 0, reply);
    case LINK_SURVEY_PLAN_LENGTH: return link_survey_load_planned(state, 2, one, 2, levels, 1, no_tree, 1);
    case LINK_SURVEY_PLAN_NO_TREE: return link_survey_load_planned(state, 2, one, 2, levels, 1, no_tree, 2);
    case LINK_SURVEY_NO_SUCH_LINK: return link_survey_live_withdraw(live, 0, 3);
#ifndef LINK_SURVEY_SELF_TEST_ONE_SEAT
    case LINK_SURVEY_NO_SUCH_SEAT: return link_survey_seat_load(seats, LINK_SURVEY_SEATS, 2, one, 2, levels, 1);
#endif
    default: return number;
    }
}

static uint32_t refused_with(uint32_t number)
{
    switch (number) {
    case LINK_SURVEY_FAULTY_LINE:
    case LINK_SURVEY_OUT_OF_ORDER:
    case LINK_SURVEY_COUNT_DIFFERS:
        return refused_file(number);
    case LINK_SURVEY_BAD_UNIT_COUNT:
    case LINK_SURVEY_ODD_WORDS:
    case LINK_SURVEY_TOO_MANY_LINKS:
    case LINK_SURVEY_END_MISSING:
    case LINK_SURVEY_EQUAL_ENDS:
    case LINK_SURVEY_REPEATED_LINK:
    case LINK_SURVEY_LEVELS_DIFFER:
    case LINK_SURVEY_LEVEL_OUTSIDE:
    case LINK_SURVEY_UNLINKED_UNIT:
        return refused_table(number);
    case LINK_SURVEY_AT_END:
    case LINK_SURVEY_NO_SUCH_NAME:
    case LINK_SURVEY_TOO_SHORT:
    case LINK_SURVEY_BAD_PAIRS:
    case LINK_SURVEY_NO_ORDER:
        return refused_when_finished(number);
    default:
        return refused_else(number);
    }
}

/* A sum of all words, each weighed by its place: a word that a refused call alters shows. */
static uint32_t weighed(const uint16_t *words, uint32_t count)
{
    uint32_t sum = 0;

    for (uint32_t i = 0; i < count; i++)
        sum = sum * 31 + words[i];
    return sum;
}

static uint32_t first_failed_of_refusals(void)
{
    if (link_survey_live_open(live, 4, case_b->table, 8, levels, 4) != LINK_SURVEY_DONE)
        return LINK_SURVEY_SELF_TEST_REFUSAL;
    for (uint32_t number = 1; number <= LINK_SURVEY_NO_SUCH_SEAT; number++) {
        int begun = number == LINK_SURVEY_BEFORE_END;
        uint32_t before, live_before;

        if ((begun ? loaded(case_b) : finished(case_b)) != LINK_SURVEY_DONE)
            return LINK_SURVEY_SELF_TEST_REFUSAL + number;
        if (number == LINK_SURVEY_NOT_KEPT)
            state[STAGE] = LINK_SURVEY_STAGE_FINISHED + 1;
        before = weighed(state, LINK_SURVEY_STATE_WORDS);
        live_before = weighed(live, LINK_SURVEY_LIVE_WORDS);
        if (refused_with(number) != number || weighed(state, LINK_SURVEY_STATE_WORDS) != before
            || weighed(live, LINK_SURVEY_LIVE_WORDS) != live_before)
            return LINK_SURVEY_SELF_TEST_REFUSAL + number;
    }
    return LINK_SURVEY_SELF_TEST_PASSED;
}

/* ---- files, lines and requests */

/* Document 01 prints case B whole. */
static int report(void)
{
    static const char file[] = "010004FB\n0200000001FD\n0200010002FB\n0200000002FC\n0200020003F9\n0F0004ED\n";
    static const char printed[] =
        "11001B0016BE\n1200000000FFFF000000F0\n12000100000000000100EC\n12000200000000000201E9\n"
        "12000300000002000300E6\n130000000000ED\n130001000000EC\n130002000000EB\n130003000301E6\n1F00010001DF\n";

    clear_out();
    return link_survey_report((const uint8_t *)file, sizeof file - 1, out, sizeof out) == sizeof printed - 1
           && written(printed, sizeof printed - 1);
}

static int file_and_back(void)
{
    static const char file[] =
        "010004FB\n0300000001C339\n0300010002C337\n0300000002C338\n0300020003C335\n0F0004ED\n";
    uint16_t table[8], units = OTHER, links = OTHER;
    int16_t heard[4];

    clear_out();
    if (link_survey_write(4, case_b->table, 8, levels, 4, out, sizeof out) != LINK_SURVEY_DONE
        || !written(file, LINK_SURVEY_FILE_BYTES(4u)))
        return 0;
    return link_survey_read(out, LINK_SURVEY_FILE_BYTES(4u), table, 8, heard, 4, &units, &links) == LINK_SURVEY_DONE
           && units == 4 && links == 4 && same_words(table, case_b->table, 8) && heard[0] == -61 && heard[3] == -61;
}

static int lines(void)
{
    clear_out();
    if (loaded(case_b) != LINK_SURVEY_DONE
        || link_survey_foreman_line(state, out, LINK_SURVEY_FOREMAN_LINE_BYTES) != LINK_SURVEY_DONE
        || !written("2001001EC1\n", LINK_SURVEY_FOREMAN_LINE_BYTES))
        return 0;
    return finished(case_b) == LINK_SURVEY_DONE
           && link_survey_service_line(state, out, LINK_SURVEY_SERVICE_LINE_BYTES) == LINK_SURVEY_DONE
           && written("210B0000001B0016A3\n", LINK_SURVEY_SERVICE_LINE_BYTES);
}

/* Case B along the path 0-1-2-3: labels, lone links and single points are those of the survey's own tree. */
static int plan(void)
{
    static const uint16_t parents[] = {LINK_SURVEY_ABSENT, 0, 1, 2};
    uint16_t made, unit[LINK_SURVEY_UNIT_WORDS];

    return link_survey_load_planned(state, 4, case_b->table, 8, levels, 4, parents, 4) == LINK_SURVEY_DONE
           && link_survey_run(state, LINK_SURVEY_MAX_ROUNDS, &made) == LINK_SURVEY_DONE
           && link_survey_unit(state, 2, unit) == LINK_SURVEY_DONE && unit[LINK_SURVEY_UNIT_PARENT] == 1
           && unit[LINK_SURVEY_UNIT_SINGLE] == 1 && links_as_given(case_b);
}

/* In case E one ring alone holds links 0 and 1, that of units 0, 1 and 2; none holds links 0 and 4. */
static int ring(void)
{
    uint16_t units[5] = {OTHER, OTHER, OTHER, OTHER, OTHER}, count = OTHER;

    if (finished(case_e) != LINK_SURVEY_DONE || link_survey_ring(state, 0, 4, units, 5, &count) != LINK_SURVEY_DONE
        || count != 0 || units[0] != OTHER)
        return 0;
    return link_survey_ring(state, 0, 1, units, 5, &count) == LINK_SURVEY_DONE && count == 3
           && units[0] + units[1] == 1 && units[2] == 2 && units[3] == OTHER;
}

static int order(void)
{
    static const uint16_t pair[] = {1, 2}, alone[] = {4, 3, 2, 1, 0}, with_pair[] = {4, 3, 1, 2, 0};
    uint16_t units[5];

    return finished(case_e) == LINK_SURVEY_DONE
           && link_survey_lifting_order(state, pair, 0, units, 5) == LINK_SURVEY_DONE && same_words(units, alone, 5)
           && link_survey_lifting_order(state, pair, 2, units, 5) == LINK_SURVEY_DONE
           && same_words(units, with_pair, 5);
}

/* In case E a lorry in link 2, 0-2, opens the ring of links 0 and 1 and leaves that of links 3 and 5. */
static int doubtful(void)
{
    static const uint8_t lorry[] = {0, 0, 1, 0, 0, 0};
    static const uint16_t asked[3][3] = {
        {3, 5, LINK_SURVEY_ALWAYS}, {0, 1, LINK_SURVEY_PERHAPS}, {0, 3, LINK_SURVEY_NEVER}
    };

    if (finished(case_e) != LINK_SURVEY_DONE)
        return 0;
    for (unsigned i = 0; i < 3; i++) {
        uint16_t verdict = OTHER;

        if (link_survey_doubtful(state, asked[i][0], asked[i][1], lorry, 6, &verdict) != LINK_SURVEY_DONE
            || verdict != asked[i][2])
            return 0;
    }
    return 1;
}

/* 0, 1 and 2 reach each other; 3 is reached and reaches none: two groups, and no more passes than these. */
static int one_way(void)
{
    static const uint16_t heard[] = {0, 1, 1, 2, 2, 0, 2, 3}, expected[] = {0, 0, 0, 3, OTHER};
    uint16_t numbers[5] = {OTHER, OTHER, OTHER, OTHER, OTHER}, passes = 0;

    return link_survey_one_way(4, heard, 8, numbers, 5, &passes) == LINK_SURVEY_DONE && same_words(numbers, expected, 5)
           && passes >= 1 && passes <= 2;
}

/* Case B with a link 1-3 more, and then without 0-1. */
static int live_table(void)
{
    static const uint16_t opened[] = {2, 2, 3, 1}, added[] = {2, 3, 3, 2}, left[] = {1, 2, 3, 2};
    static const uint16_t ends[] = {1, 2, 0, 2, 2, 3, 1, 3, LINK_SURVEY_ABSENT};
    const uint16_t *counts = live + LINK_SURVEY_LIVE_COUNTS;

    return link_survey_live_open(live, 4, case_b->table, 8, levels, 4) == LINK_SURVEY_DONE
           && same_words(counts, opened, 4) && link_survey_live_add(live, 1, 3, -70) == LINK_SURVEY_DONE
           && same_words(counts, added, 4) && link_survey_live_withdraw(live, 1, 0) == LINK_SURVEY_DONE
           && same_words(counts, left, 4) && live[LINK_SURVEY_LIVE_LINKS] == 4
           && same_words(live + LINK_SURVEY_LIVE_ENDS, ends, 9) && live[LINK_SURVEY_LIVE_LEVELS + 3] == (uint16_t)-70;
}

/* A seat by the other two loads: a stored table with a unit without a link, and case C with its tree drawn. */
static int seats_otherwise_loaded(void)
{
#ifndef LINK_SURVEY_SELF_TEST_ONE_SEAT
    static const uint16_t one_link[2] = {0, 1}, parents[2] = {LINK_SURVEY_ABSENT, 0};
    uint16_t status[LINK_SURVEY_STATUS_WORDS];

    return link_survey_seat_load(seats, 5, 3, one_link, 2, levels, 1) == LINK_SURVEY_UNLINKED_UNIT
           && link_survey_seat_load_stored(seats, 5, 3, one_link, 2, levels, 1) == LINK_SURVEY_DONE
           && link_survey_status(seats[5], status) == LINK_SURVEY_DONE
           && link_survey_seat_load_planned(seats, 6, 2, one_link, 2, levels, 1, parents, 1) == LINK_SURVEY_PLAN_LENGTH
           && link_survey_seat_load_planned(seats, 6, 2, one_link, 2, levels, 1, parents, 2) == LINK_SURVEY_DONE
           && link_survey_status(seats[6], status) == LINK_SURVEY_DONE;
#else
    return 1;
#endif
}

/* Cases B and C, 27 and 20 rounds, by turns from seat 0 on: C ends with tick 40, B with tick 20 + 27. */
static int seats_by_turns(void)
{
#ifndef LINK_SURVEY_SELF_TEST_ONE_SEAT
    struct link_survey_turn turn = LINK_SURVEY_FIRST_TURN;
    uint16_t status[LINK_SURVEY_STATUS_WORDS];

    for (unsigned i = 0; i < SEATS; i++)
        seats[i][0] = 0;
    if (link_survey_seat_load(seats, 0, 4, case_b->table, 8, levels, 4) != LINK_SURVEY_DONE
        || link_survey_seat_load(seats, 3, 2, case_c->table, 2, levels, 1) != LINK_SURVEY_DONE)
        return 0;
    for (unsigned tick = 1; tick <= 47; tick++)
        if (link_survey_tick(&turn, seats) != LINK_SURVEY_DONE || turn.last != (tick <= 40 && tick % 2 == 0 ? 3 : 0))
            return 0;
    return link_survey_tick(&turn, seats) == LINK_SURVEY_AT_END && turn.last == 0
           && link_survey_status(seats[3], status) == LINK_SURVEY_DONE && status[LINK_SURVEY_STATUS_ROUNDS] == 20;
#else
    (void)case_c;
    return 1;
#endif
}

static uint32_t first_failed_of_requests(void)
{
    static int (*const tests[])(void) = {
        report, file_and_back, lines, plan, ring, order, doubtful, one_way, live_table, seats_by_turns,
        seats_otherwise_loaded
    };

    for (uint32_t i = 0; i < sizeof tests / sizeof tests[0]; i++)
        if (!tests[i]())
            return LINK_SURVEY_SELF_TEST_REPORT + i;
    return LINK_SURVEY_SELF_TEST_PASSED;
}

uint32_t link_survey_self_test(void)
{
    uint32_t failed = first_failed_of_cases();

    if (failed == LINK_SURVEY_SELF_TEST_PASSED)
        failed = first_failed_of_refusals();
    if (failed == LINK_SURVEY_SELF_TEST_PASSED)
        failed = first_failed_of_requests();
    if (failed == LINK_SURVEY_SELF_TEST_PASSED && link_survey_version() != LINK_SURVEY_VERSION)
        failed = LINK_SURVEY_SELF_TEST_VERSION;
    return failed;
}
