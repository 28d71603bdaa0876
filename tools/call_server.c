/*
 * Calls of the library for tools/test_cross.py, which plays the vectors of the requests on another processor: a call
 * comes in on standard input and its answer goes out. In, numbers of 64 bits: which call, three numbers, the bytes of
 * three arrays; then the arrays. Out: the number that the call gave, and the three arrays. The state stays here.
 */
#include <stdint.h>
#include <stdio.h>
#include "link_survey.h"

enum { LOAD, RUN, RING, LIFTING_ORDER, DOUBTFUL, ONE_WAY, LIVE_OPEN, LIVE_ADD, LIVE_WITHDRAW };
enum { ARRAYS = 3, MOST = 1 << 16 };

static uint16_t state[LINK_SURVEY_STATE_WORDS];
/* what an array holds is for the call to say */
static union {
    uint16_t words[MOST / 2];
    int16_t levels[MOST / 2];
    uint8_t bytes[MOST];
} arrays[ARRAYS];

static uint64_t answer(const uint64_t *given)
{
    uint16_t *x = arrays[0].words, *y = arrays[1].words, *z = arrays[2].words;
    uint16_t a = (uint16_t)given[1], b = (uint16_t)given[2];

    switch (given[0]) {
    case LOAD: return link_survey_load(state, a, x, given[2], arrays[1].levels, given[3]);
    case RUN: return link_survey_run(state, a, x);
    case RING: return link_survey_ring(state, a, b, x, given[3], y);
    case LIFTING_ORDER: return link_survey_lifting_order(state, x, given[1], y, given[2]);
    case DOUBTFUL: return link_survey_doubtful(state, a, b, arrays[0].bytes, given[3], y);
    case ONE_WAY: return link_survey_one_way(a, x, given[2], y, given[3], z);
    case LIVE_OPEN: return link_survey_live_open(x, a, y, given[2], arrays[2].levels, given[3]);
    case LIVE_ADD: return link_survey_live_add(x, a, b, (int16_t)given[3]);
    default: return link_survey_live_withdraw(x, a, b);
    }
}

int main(void)
{
    uint64_t given[4 + ARRAYS];

    while (fread(given, sizeof given, 1, stdin) == 1) {
        uint64_t number;

        for (int i = 0; i < ARRAYS; i++)
            if (given[4 + i] > MOST || fread(arrays[i].bytes, 1, (size_t)given[4 + i], stdin) != given[4 + i])
                return 2;
        number = answer(given);
        fwrite(&number, sizeof number, 1, stdout);
        for (int i = 0; i < ARRAYS; i++)
            fwrite(arrays[i].bytes, 1, (size_t)given[4 + i], stdout);
        if (fflush(stdout) != 0)
            return 2;
    }
    return 0;
}
