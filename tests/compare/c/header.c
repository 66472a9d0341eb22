/* The header's constants where C has its own rules for them: in a condition of the preprocessor, as
 * the length of a list, in a case and beside an answer. Ends with 0 where all is well. */
#include "planner.h"

#if PLANNER_VERSION < 200 || PLANNER_PICTURES_MAX < PLANNER_SHEET_PICTURES_MAX
#error "an older header"
#endif

static uint64_t zeros[PLANNER_PICTURES_MAX];

int main(void) {
    PlannerJudgement judged =
        planner_judge(zeros, PLANNER_PICTURES_MAX, zeros, PLANNER_PICTURES_MAX, 1, 1);
    PlannerSeconds full = planner_seconds(1, PLANNER_BUCKET_MAX, PLANNER_BUCKET_MAX);
    PlannerSeconds over = planner_seconds(1, PLANNER_BUCKET_MAX + 1, 1);

    if (planner_version() != PLANNER_VERSION || full.kind != PLANNER_KIND_GIVEN ||
        over.number != PLANNER_REFUSAL_BUCKET) {
        return 1;
    }
    switch (judged.number) {
    case PLANNER_REFUSAL_SIZE:
        return judged.kind == PLANNER_KIND_REFUSED ? 0 : 2;
    default:
        return 3;
    }
}
