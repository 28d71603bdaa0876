/* Two sites over one channel: document 01's cases B and E in seats 0 and 3, tick by tick to the end. */
#include <stdint.h>
#include <stdio.h>
#include "link_survey.h"

static uint16_t seats[LINK_SURVEY_SEATS][LINK_SURVEY_STATE_WORDS];

int main(void)
{
    const uint16_t b[] = {0, 1, 1, 2, 0, 2, 2, 3};
    const uint16_t e[] = {0, 1, 1, 2, 0, 2, 2, 3, 3, 4, 2, 4};
    const int16_t levels[] = {-70, -70, -70, -70, -70, -70};
    struct link_survey_turn turn = LINK_SURVEY_FIRST_TURN;
    uint16_t status[LINK_SURVEY_STATUS_WORDS];
    unsigned ticks = 0;
    uint32_t refused = link_survey_seat_load(seats, 0, 4, b, 8, levels, 4);

    if (refused == LINK_SURVEY_DONE)
        refused = link_survey_seat_load(seats, 3, 5, e, 12, levels, 6);
    while (refused == LINK_SURVEY_DONE) {
        refused = link_survey_tick(&turn, seats);
        if (refused != LINK_SURVEY_DONE)
            break;
        ticks++;
        if (link_survey_status(seats[turn.last], status) == LINK_SURVEY_DONE &&
            status[LINK_SURVEY_STATUS_COUNTDOWN] == 0)
            printf("tick %u: seat %u is finished after %u rounds\n", ticks, (unsigned)turn.last,
                   (unsigned)status[LINK_SURVEY_STATUS_ROUNDS]);
    }
    if (refused != LINK_SURVEY_AT_END) {
        printf("refused: %u\n", (unsigned)refused);
        return 1;
    }
    return 0;
}
