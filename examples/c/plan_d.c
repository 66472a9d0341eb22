/* Plans recording D of document 01 at 250, 500 and 1000 bits per second: the table of least
 * buckets, a schedule, a lookup between two rows and the reading of the driver's panel. */
#include <inttypes.h>
#include <stdio.h>

#include "planner.h"

enum { PICTURES = 12, ROWS = 3 };

static int refused(uint64_t number, uint64_t place) {
    fprintf(stderr, "refused %" PRIu64 " at %" PRIu64 "\n", number, place);
    return 1;
}

int main(void) {
    if (planner_version() != PLANNER_VERSION) {
        fprintf(stderr, "planner.h belongs to another library\n");
        return 1;
    }

    const uint64_t sizes[PICTURES] = {5000, 1000, 1000, 1000, 1000, 1000,
                                      500,  500,  500,  500,  500,  500};
    const uint64_t ticks[PICTURES] = {0, 1, 2, 3, 4, 5, 6, 7, 8, 9, 10, 11};
    const uint64_t rates[ROWS] = {250, 500, 1000};
    uint64_t buffers[ROWS];
    uint64_t fullnesses[ROWS];
    uint64_t starts[PICTURES];
    uint64_t ends[PICTURES];

    PlannerJudgement tabled = planner_table(sizes, PICTURES, ticks, PICTURES, 1, 1, rates, ROWS, 0,
                                            buffers, ROWS, fullnesses, ROWS);
    if (tabled.kind == PLANNER_KIND_REFUSED) {
        return refused(tabled.number, tabled.place);
    }
    printf("rate buffer start\n");
    for (int row = 0; row < ROWS; row++) {
        printf("%" PRIu64 " %" PRIu64 " %" PRIu64 "\n", rates[row], buffers[row], fullnesses[row]);
    }

    PlannerVerdict verdict = planner_schedule(sizes, PICTURES, ticks, PICTURES, 1, 1, 1000, 10000,
                                              10000, 0, starts, PICTURES, ends, PICTURES);
    if (verdict.kind == PLANNER_KIND_REFUSED) {
        return refused(verdict.number, verdict.place);
    }
    if (verdict.kind == PLANNER_KIND_HOLDS) {
        printf("schedule at 1000: holds, last end %" PRIu64 "\n", ends[PICTURES - 1]);
    } else {
        printf("schedule at 1000: picture %" PRIu64 " late by %" PRIu64 "\n", verdict.picture,
               verdict.units);
    }

    PlannerBucket found =
        planner_look_up(rates, ROWS, buffers, ROWS, fullnesses, ROWS, 1, 1, 11, 625);
    if (found.kind == PLANNER_KIND_REFUSED) {
        return refused(found.number, found.place);
    }
    printf("lookup at 625: %" PRIu64 " %" PRIu64 "\n", found.buffer, found.fullness);

    PlannerPanelReading reading = planner_panel(625, found.buffer, found.fullness, 10.0);
    if (reading.kind == PLANNER_KIND_REFUSED) {
        return refused(reading.number, reading.place);
    }
    if (reading.kind == PLANNER_KIND_WITHIN) {
        printf("panel at 625: within, wait %.1f\n", reading.wait);
    } else {
        printf("panel at 625: over, wait %.1f, limit %.1f\n", reading.wait, reading.limit);
    }
    return 0;
}
