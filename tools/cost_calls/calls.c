/*
 * What every call of the header costs on the largest sites: a line for each with its name, the bytes of stack that it
 * takes at most, and the instructions of its dearest call. No call is refused. tools/costs.py builds and runs it.
 */
#include "link_survey.h"
#include "port.h"

enum { UNITS = 256, LINKS = 1024, PAIRS = 256 };

/* The rounds made in the stage, in the words of a state. */
enum { STAGE_ROUNDS = 2051 };

static uint16_t seats[LINK_SURVEY_SEATS][LINK_SURVEY_STATE_WORDS], begun[LINK_SURVEY_STATE_WORDS];
static uint16_t *const state = seats[0];
static uint16_t live[LINK_SURVEY_LIVE_WORDS];
static uint16_t table[2 * LINKS], read_table[2 * LINKS], parents[UNITS], pairs[2 * PAIRS], out[UNITS];
static int16_t levels[LINKS], read_levels[LINKS];
static uint8_t file[LINK_SURVEY_MAX_FILE_BYTES], report[LINK_SURVEY_MAX_REPORT_BYTES], marks[LINKS];
static uint16_t links, reply[8], word, other_word;
static struct link_survey_turn turn;
static uint32_t refused;
static int failed;

/* ---- the sites, each of 256 units */

static void add(uint16_t a, uint16_t b)
{
    for (uint16_t j = 0; j < links; j++)
        if ((table[2 * j] == a && table[2 * j + 1] == b) || (table[2 * j] == b && table[2 * j + 1] == a))
            return;
    if (a == b || links == LINKS)
        return;
    table[2 * links] = a;
    table[2 * links + 1] = b;
    levels[links] = (int16_t)-(links * 37 % 128);
    links++;
}

static void path(void)
{
    for (uint16_t v = 1; v < UNITS; v++)
        add((uint16_t)(v - 1), v);
}

static void ring(void)
{
    path();
    add(UNITS - 1, 0);
}

static void star(void)
{
    for (uint16_t v = 1; v < UNITS; v++)
        add(0, v);
}

static void ladder(void)
{
    for (uint16_t v = 0; v < UNITS; v++) {
        if (v % 2 == 0)
            add(v, (uint16_t)(v + 1));
        if (v + 2 < UNITS)
            add(v, (uint16_t)(v + 2));
    }
}

/* A ring, and links that chance picks up to 1,024. */
static void full(void)
{
    uint32_t chance = 1;

    ring();
    while (links < LINKS) {
        chance = chance * 1103515245u + 12345u;
        add((uint16_t)(chance >> 16 & 255), (uint16_t)(chance >> 8 & 255));
    }
}

/* Each unit with the next four: every other unit joins a ring by a way of its own. */
static void strip(void)
{
    for (uint16_t d = 1; d <= 4; d++)
        for (uint16_t v = 0; v + d < UNITS; v++)
            add(v, (uint16_t)(v + d));
}

static void (*const sites[])(void) = {path, ring, star, ladder, full, strip};

/* ---- the calls */

static void copy_begun(void)
{
    for (uint32_t i = 0; i < LINK_SURVEY_STATE_WORDS; i++)
        state[i] = begun[i];
}

static void do_version(void) { refused = link_survey_version() - LINK_SURVEY_VERSION; }
static void do_write(void) { refused = link_survey_write(UNITS, table, 2u * links, levels, links, file, sizeof file); }
static void do_read(void)
{
    refused = link_survey_read(file, LINK_SURVEY_FILE_BYTES((uint32_t)links), read_table, 2 * LINKS, read_levels, LINKS,
                               &word, &other_word);
}
static void do_report(void)
{
    refused = link_survey_report(file, LINK_SURVEY_FILE_BYTES((uint32_t)links), report, sizeof report)
              - LINK_SURVEY_REPORT_BYTES((uint32_t)UNITS, links);
}
static void do_load(void) { refused = link_survey_load(state, UNITS, table, 2u * links, levels, links); }
static void do_load_stored(void) { refused = link_survey_load_stored(state, UNITS, table, 2u * links, levels, links); }
static void do_load_planned(void)
{
    refused = link_survey_load_planned(state, UNITS, table, 2u * links, levels, links, parents, UNITS);
}
static void do_round(void) { refused = link_survey_round(state); }
static void do_run_1(void) { refused = link_survey_run(state, 1, &word); }
static void do_run_4(void) { refused = link_survey_run(state, 4, &word); }
static void do_run_16(void) { refused = link_survey_run(state, 16, &word); }
static void do_run_64(void) { refused = link_survey_run(state, 64, &word); }
static void do_run(void) { refused = link_survey_run(state, LINK_SURVEY_MAX_ROUNDS, &word); }
static void do_status(void) { refused = link_survey_status(state, reply); }
static void do_foreman_line(void) { refused = link_survey_foreman_line(state, report, sizeof report); }
static void do_service_line(void) { refused = link_survey_service_line(state, report, sizeof report); }
static void do_unit(void) { refused = link_survey_unit(state, UNITS - 1, reply); }
static void do_link(void) { refused = link_survey_link(state, (uint16_t)(links - 1), reply); }
static void do_state_report(void) { refused = link_survey_state_report(state, report, sizeof report); }
static void do_ring(void) { refused = link_survey_ring(state, (uint16_t)(links - 1), 0, out, UNITS, &word); }
static void do_lifting_order(void) { refused = link_survey_lifting_order(state, pairs, 2 * PAIRS, out, UNITS); }
static void do_doubtful(void)
{
    refused = link_survey_doubtful(state, (uint16_t)(links - 1), 0, marks, links, &word);
}
static void do_one_way(void) { refused = link_survey_one_way(UNITS, table, 2u * links, out, UNITS, &word); }
static void do_live_open(void) { refused = link_survey_live_open(live, UNITS, table, 2u * links, levels, links); }
/* the link that add_back takes away before */
static void do_live_add(void) { refused = link_survey_live_add(live, table[0], table[1], -1); }
static void do_live_withdraw(void) { refused = link_survey_live_withdraw(live, table[0], table[1]); }
static void do_seat_load(void) { refused = link_survey_seat_load(seats, 7, UNITS, table, 2u * links, levels, links); }
static void do_tick(void) { refused = link_survey_tick(&turn, seats); }
static void do_nothing(void) { refused = 0; }

/* Where a call stands in `costs`, in the order in which `measured` makes them. */
static const struct {
    const char *name;
    void (*make)(void);
} calls[] = {
    {"version", do_version}, {"write", do_write}, {"read", do_read}, {"report", do_report}, {"load", do_load},
    {"load_stored", do_load_stored}, {"load_planned", do_load_planned}, {"round", do_round}, {"run, 1 round", do_run_1},
    {"run, 4 rounds", do_run_4}, {"run, 16 rounds", do_run_16}, {"run, 64 rounds", do_run_64},
    {"run, to the end", do_run}, {"status", do_status}, {"foreman_line", do_foreman_line},
    {"service_line", do_service_line}, {"unit", do_unit}, {"link", do_link}, {"state_report", do_state_report},
    {"ring", do_ring}, {"lifting_order", do_lifting_order}, {"doubtful", do_doubtful}, {"one_way", do_one_way},
    {"live_open", do_live_open}, {"live_withdraw", do_live_withdraw}, {"live_add", do_live_add},
    {"seat_load", do_seat_load}, {"tick", do_tick}
};

/* Where the run to the end stands, and live_open. */
enum { CALLS = sizeof calls / sizeof calls[0], RUN = 12, LIVE_OPEN = 23 };

static uint32_t stacks[CALLS], instructions[CALLS], entry;

/* Makes a call three times from the same words: with a clock beside it, and on a stack of either paint. */
static void measure(uint32_t i, void (*before)(void))
{
    for (int time = 0; time < 3; time++) {
        uint32_t cost;

        before();
        if (time == 0) {
            cost = port_instructions();
            calls[i].make();
            cost = port_instructions() - cost;
            if (cost > instructions[i])
                instructions[i] = cost;
        } else {
            cost = port_depth(calls[i].make, time == 1 ? 0xA5 : 0x5A) - entry;
            if (cost > stacks[i])
                stacks[i] = cost;
        }
        if (refused != 0)
            failed = 1;
    }
}

static void loaded(void)
{
    do_load();
}

static void take_away(void)
{
    do_live_open();
    do_live_withdraw();
}

/* Seat 0, whose turn it is, as begun. */
static void first_turn(void)
{
    const struct link_survey_turn first = LINK_SURVEY_FIRST_TURN;

    copy_begun();
    turn = first;
}

static void other_seats(int empty)
{
    for (uint16_t i = 1; i < LINK_SURVEY_SEATS; i++)
        if (empty)
            seats[i][0] = 0;
        else
            refused |= link_survey_seat_load(seats, i, UNITS, table, 2u * links, levels, links);
}

/* Rounds of a survey, each by one call: all of them, or the first two of every stage. */
static void rounds(uint32_t i, void (*before)(void), int all)
{
    do_load();
    for (;;) {
        do_status();
        if (reply[LINK_SURVEY_STATUS_STAGE] == LINK_SURVEY_STAGE_FINISHED || refused != 0)
            break;
        for (uint32_t k = 0; k < LINK_SURVEY_STATE_WORDS; k++)
            begun[k] = state[k];
        if (all || state[STAGE_ROUNDS] < 2)
            measure(i, before);
        else
            do_round();
    }
}

/* The survey's own tree as a plan, 256 pairs "this unit before unit 0", and marks that leave unit 0 one sure link. */
static void plan(void)
{
    for (uint16_t v = 0; v < UNITS; v++) {
        refused |= link_survey_unit(state, v, reply);
        parents[v] = reply[LINK_SURVEY_UNIT_PARENT];
        pairs[2 * v] = v == 0 ? 1 : v;
        pairs[2 * v + 1] = 0;
    }
    for (uint16_t j = 0; j < links; j++)
        marks[j] = j != 0 && (table[2 * j] == 0 || table[2 * j + 1] == 0);
}

static void measured(void)
{
    static void (*const befores[])(void) = {do_nothing, do_nothing, do_nothing, do_nothing, loaded, loaded};
    uint32_t i = 0;

    for (; i < 6; i++)
        measure(i, befores[i]);
    do_load();
    do_run();
    plan();
    measure(i++, do_nothing);
    for (; i < RUN; i++)
        rounds(i, copy_begun, 1);
    measure(i++, loaded);
    for (; i < LIVE_OPEN; i++)
        measure(i, do_nothing);
    measure(i++, do_nothing);
    measure(i++, do_live_open);
    measure(i++, take_away);
    measure(i++, do_nothing);
    /* with one seat every round, for the deepest; with eight, which take long, a few of each stage */
    other_seats(1);
    rounds(i, first_turn, 1);
    other_seats(0);
    rounds(i++, first_turn, 0);
}

static void say_number(uint32_t number)
{
    char digits[11];
    unsigned at = sizeof digits - 1;

    digits[at] = '\0';
    do {
        digits[--at] = (char)('0' + number % 10);
        number /= 10;
    } while (number != 0);
    port_say(digits + at);
}

int main(void)
{
    uint32_t second = port_depth(do_nothing, 0x5A);

    entry = port_depth(do_nothing, 0xA5);
    if (second > entry)
        entry = second;
    for (unsigned s = 0; s < sizeof sites / sizeof sites[0]; s++) {
        links = 0;
        sites[s]();
        measured();
    }
    for (uint32_t i = 0; i < CALLS; i++) {
        port_say(calls[i].name);
        port_say(": ");
        say_number(stacks[i]);
        port_say(" ");
        say_number(instructions[i]);
        port_say("\n");
    }
    return failed;
}
