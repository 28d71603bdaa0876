#include <stdint.h>
#include <stdio.h>
#include "link_survey.h"

static uint16_t state[LINK_SURVEY_STATE_WORDS];

int main(void)
{
    const uint16_t table[] = {0, 1, 1, 2, 0, 2, 2, 3};
    const int16_t levels[] = {-61, -70, -58, -83};
    uint16_t made, unit[LINK_SURVEY_UNIT_WORDS];
    uint32_t refused = link_survey_load(state, 4, table, 8, levels, 4);

    if (refused == LINK_SURVEY_DONE)
        refused = link_survey_run(state, LINK_SURVEY_MAX_ROUNDS, &made);
    if (refused != LINK_SURVEY_DONE) {
        printf("refused: %u\n", (unsigned)refused);
        return 1;
    }
    printf("%u rounds\n", (unsigned)made);
    for (uint16_t v = 0; v < 4; v++)
        if (link_survey_unit(state, v, unit) == LINK_SURVEY_DONE && unit[LINK_SURVEY_UNIT_SINGLE] == 1)
            printf("unit %u is a single point\n", (unsigned)v);
    return 0;
}
