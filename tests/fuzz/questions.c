/* The questions: each call by itself, everything in one, the lists that have no room, and the exact judge and formula beside them. */
#include <string.h>

#include "exact.h"
#include "formula.h"
#include "fuzz.h"

enum { CONTENTS = 0x5A, NO_ROOM = 10, LACKING = 11, SHORT = 13 };

/* The whole listing, as everything in one call told it. */
static uint16_t listing[BODHRANHAZE_PLACES];

static Answers ask_each(Lent s) {
    Answers a = {bodhranhaze_refusal(s.bytes, s.length),
                 bodhranhaze_place(s.bytes, s.length),
                 bodhranhaze_verdict(s.bytes, s.length),
                 bodhranhaze_pairs(s.bytes, s.length),
                 {bodhranhaze_inside(s.bytes, s.length, 1), bodhranhaze_inside(s.bytes, s.length, 2)},
                 {0, 0}};
    return a;
}

/* Everything with room for all, which must tell what the calls said one by one. */
static void ask_all(Lent s, Answers *a) {
    uint64_t facts[BODHRANHAZE_FACTS];
    HOLDS(bodhranhaze_survey(s.bytes, s.length, listing, BODHRANHAZE_PLACES, facts, BODHRANHAZE_FACTS) == a->refusal);
    HOLDS(facts[BODHRANHAZE_FACT_REFUSAL] == a->refusal && facts[BODHRANHAZE_FACT_PLACE] == a->place);
    HOLDS(facts[BODHRANHAZE_FACT_VERDICT] == a->verdict && facts[BODHRANHAZE_FACT_PAIRS] == a->pairs);
    HOLDS(facts[BODHRANHAZE_FACT_A_IN_B] == a->inside[0] && facts[BODHRANHAZE_FACT_B_IN_A] == a->inside[1]);
    for (int k = 0; k < 2; k++) {
        a->enclosed[k] = facts[BODHRANHAZE_FACT_A_WORD + k];
        HOLDS((size_t)__builtin_popcountll(a->enclosed[k]) == a->inside[k]);
        HOLDS(a->enclosed[k] == 0 || a->enclosed[k] >> s.bytes[2 + 2 * k] == 0);
    }
}

static void check_verdict(const Answers *a) {
    HOLDS(a->verdict <= BODHRANHAZE_REFUSED && (a->verdict == BODHRANHAZE_REFUSED) == (a->refusal != 0));
    if (a->refusal) {
        HOLDS(a->pairs == 0 && a->inside[0] == 0 && a->inside[1] == 0);
        return;
    }
    size_t enclosed = a->inside[0] ? BODHRANHAZE_A_IN_B : a->inside[1] ? BODHRANHAZE_B_IN_A : BODHRANHAZE_APART;
    HOLDS(a->verdict == (a->pairs ? BODHRANHAZE_CROSS : enclosed));
}

/* Each pair rises above the one before, and has points of one solid and a face of the other. */
static void check_order(const uint8_t *scene, size_t pairs) {
    unsigned a = scene[2], faces_a = scene[3], b = scene[4], faces_b = scene[5];
    for (const uint16_t *p = listing; p < listing + 3 * pairs; p += 3) {
        HOLDS(p[0] >= 1 && p[0] < p[1] && p[1] <= a + b);
        if (p[1] <= a)
            HOLDS(p[2] > faces_a && p[2] <= faces_a + faces_b);
        else
            HOLDS(p[0] > a && p[2] >= 1 && p[2] <= faces_a);
        if (p == listing) continue;
        HOLDS(p[-3] < p[0] || (p[-3] == p[0] && (p[-2] < p[1] || (p[-2] == p[1] && p[-1] < p[2]))));
    }
}

/* So many places are lent for the listing: just enough, one fewer, some more, none, any number. */
static size_t places_for(size_t pairs) {
    size_t any = control(2) + 256u * control(3), places;
    switch (control(1) % 7) {
        case 0: places = 3 * pairs; break;
        case 1: places = pairs ? 3 * pairs - 1 : 0; break;
        case 2: places = 3 * pairs + any % 7; break;
        case 3: places = 0; break;
        case 4: places = any % 64; break;
        case 5: places = pairs ? any % (3 * pairs) : 1; break;
        default: places = any;
    }
    return places < BODHRANHAZE_PLACES ? places : BODHRANHAZE_PLACES;
}

static int is_kept(const void *from, size_t bytes) {
    const uint8_t *at = from;
    for (size_t i = 0; i < bytes; i++)
        if (at[i] != CONTENTS) return 0;
    return 1;
}

/* The listing stands in front, where it was to be written, and the places behind are kept. */
static void check_list(const uint16_t *list, size_t places, size_t written) {
    HOLDS(memcmp(list, listing, written * sizeof *list) == 0);
    HOLDS(is_kept(list + written, (places - written) * sizeof *list));
}

static void check_facts(const uint64_t *facts, size_t refusal, const Answers *a) {
    size_t place = refusal == NO_ROOM ? a->pairs : a->place;
    uint64_t wanted[BODHRANHAZE_FACTS] = {refusal, place, a->verdict, a->pairs, a->inside[0], a->inside[1], a->enclosed[0], a->enclosed[1]};
    HOLDS(memcmp(facts, wanted, sizeof wanted) == 0);
}

/* Listing and survey, with so many places, between forbidden pages. */
static void check_lent(Lent s, const Answers *a, size_t places, size_t facts_length) {
    size_t refusal = a->refusal ? a->refusal : 3 * a->pairs > places ? NO_ROOM : 0, written = refusal ? 0 : 3 * a->pairs;
    uint16_t *list = open_room(LIST, places * sizeof *list, s.manner);
    uint64_t *facts = open_room(FACTS, facts_length * sizeof *facts, s.manner);
    memset(list, CONTENTS, places * sizeof *list);
    memset(facts, CONTENTS, facts_length * sizeof *facts);
    HOLDS(bodhranhaze_listing(s.bytes, s.length, list, places) == a->pairs);
    check_list(list, places, written);
    memset(list, CONTENTS, places * sizeof *list);
    size_t answer = bodhranhaze_survey(s.bytes, s.length, list, places, facts, facts_length), told = 0;
    if (facts_length < BODHRANHAZE_FACTS) {
        HOLDS(answer == SHORT && is_kept(list, places * sizeof *list));
    } else {
        HOLDS(answer == refusal);
        check_list(list, places, written);
        check_facts(facts, refusal, a);
        told = BODHRANHAZE_FACTS;
    }
    HOLDS(is_kept(facts + told, (facts_length - told) * sizeof *facts));
    close_room(FACTS);
    close_room(LIST);
}

/* Why a question is refused, for places and solids of any size. */
static void check_whys(Lent s, const Answers *a, size_t places) {
    size_t wild = places | (size_t)control_word(8) << 17, solid = control(5) & 1 ? (size_t)control_word(8) : control(6) % 5;
    const size_t each[] = {places, wild, SIZE_MAX};
    for (int k = 0; k < 3; k++) {
        size_t wanted = a->refusal ? a->refusal : a->pairs > each[k] / 3 ? NO_ROOM : 0;
        HOLDS(bodhranhaze_listing_refusal(s.bytes, s.length, each[k]) == wanted);
    }
    for (size_t k = 1; k <= 2; k++) HOLDS(bodhranhaze_inside_refusal(s.bytes, s.length, k) == a->refusal);
    if (solid == 1 || solid == 2) return;
    HOLDS(bodhranhaze_inside(s.bytes, s.length, solid) == 0);
    HOLDS(bodhranhaze_inside_refusal(s.bytes, s.length, solid) == (a->refusal ? a->refusal : LACKING));
}

static void check_exact(Lent s, const Answers *a) {
    static Exact e;
    Fault fault = exact_judge(s.bytes, s.length, &e);
    HOLDS(a->refusal == (size_t)fault.number && a->place == (size_t)fault.place);
    if (!fault.number) check_formula(&e, a, listing);
}

/* The scene may only be read meanwhile. */
Answers check_questions(Lent s) {
    lock_scene();
    Answers a = ask_each(s);
    check_verdict(&a);
    ask_all(s, &a);
    if (!a.refusal) check_order(s.bytes, a.pairs);
    size_t places = places_for(a.pairs);
    check_lent(s, &a, places, control(4) % 13);
    check_whys(s, &a, places);
    check_exact(s, &a);
    unlock_scene();
    return a;
}
