/* Null pointers with length 0, as C programs pass them: every call, once. The language has no null, so nothing of this is proved. */
#include "fuzz.h"

/* The smallest scene: two solids of two faces on the same three corners. */
static const uint8_t smallest[] = "SC\3\2\3\2FP\1\0\0\0\0\0\1"
                                  "VX\0\0\0\0\0\0\1VX\1\0\0\0\0\0\1VX\0\0\1\0\0\0\1VX\0\0\0\0\0\0\1VX\1\0\0\0\0\0\1VX\0\0\1\0\0\0\1"
                                  "FC\1\2\3FC\1\2\3FC\1\2\3FC\1\2\3EN";

static void check_no_scene(void) {
    uint64_t facts[BODHRANHAZE_FACTS];
    uint16_t list[3];
    uint8_t counts[16] = {0};
    HOLDS(bodhranhaze_refusal(NULL, 0) == 1 && bodhranhaze_place(NULL, 0) == 0 && bodhranhaze_verdict(NULL, 0) == BODHRANHAZE_REFUSED);
    HOLDS(bodhranhaze_pairs(NULL, 0) == 0 && bodhranhaze_inside(NULL, 0, 1) == 0 && bodhranhaze_inside_refusal(NULL, 0, 3) == 1);
    HOLDS(bodhranhaze_listing(NULL, 0, list, 3) == 0 && bodhranhaze_listing_refusal(NULL, 0, 3) == 1);
    HOLDS(bodhranhaze_survey(NULL, 0, list, 3, facts, BODHRANHAZE_FACTS) == 1 && facts[0] == 1 && facts[1] == 0);
    HOLDS(bodhranhaze_move(NULL, 0, 1, 0, 0, 0, 1) == 1 && bodhranhaze_move_far(NULL, 0, 0, 0, 0, 1) == 1);
    HOLDS(bodhranhaze_reverse(NULL, 0, 1) == 1);
    HOLDS(bodhranhaze_light(NULL, 0, counts, 16) == BODHRANHAZE_DARK);
}

void check_nulls(void) {
    uint64_t facts[BODHRANHAZE_FACTS];
    size_t length = sizeof smallest - 1, pairs = bodhranhaze_pairs(smallest, length);
    check_no_scene();
    HOLDS(bodhranhaze_refusal(smallest, length) == 0);
    HOLDS(bodhranhaze_listing(smallest, length, NULL, 0) == pairs);
    HOLDS(bodhranhaze_survey(smallest, length, NULL, 0, facts, BODHRANHAZE_FACTS) == (pairs ? 10 : 0));
    HOLDS(facts[BODHRANHAZE_FACT_PAIRS] == pairs);
    HOLDS(bodhranhaze_survey(smallest, length, NULL, 0, NULL, 0) == 13);
    HOLDS(bodhranhaze_take(1, 1, 1, 1, NULL, 0) == 13 && bodhranhaze_take(0.5, 1, 1, 1, NULL, 0) == 15);
    HOLDS(bodhranhaze_light(smallest, length, NULL, 0) == BODHRANHAZE_UNCOUNTED);
    HOLDS(bodhranhaze_light(NULL, 0, NULL, 0) == BODHRANHAZE_UNCOUNTED);
}
