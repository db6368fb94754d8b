/*
 * The questions to a scene, for C.
 *
 * Each call takes a scene's bytes, judges them and answers. None keeps anything between calls, allocates, or calls back. What a call answers for
 * any bytes whatever is proved, as far as the caller keeps this:
 *
 *   - `scene` points to `length` bytes that may be read, and no one writes them during the call; where `length` is 0 it still must not be null;
 *   - `list` points to `places` numbers that may be read and written, is aligned for them and not null, and no one else reads or writes them during
 *     the call;
 *   - `record`, `counts` and `facts` likewise point to so many bytes or numbers that may be read and written;
 *   - no two of them overlap.
 *
 * A call may be made on any number of threads at once. It needs less than 64 KiB of stack.
 */
#ifndef BODHRANHAZE_H
#define BODHRANHAZE_H

#include <stddef.h>
#include <stdint.h>

#ifdef __cplusplus
extern "C" {
#endif

/* The limits of a scene, its longest length, and the places of the longest listing. */
enum {
    BODHRANHAZE_MOST_VERTICES = 48,
    BODHRANHAZE_MOST_FACES = 96,
    BODHRANHAZE_MOST_COORDINATE = 4095,
    BODHRANHAZE_MOST_WEIGHT = 16,
    BODHRANHAZE_LONGEST = 17 + 9 * 2 * BODHRANHAZE_MOST_VERTICES + 5 * 2 * BODHRANHAZE_MOST_FACES,
    BODHRANHAZE_PLACES = 3 * 2 * BODHRANHAZE_MOST_FACES * BODHRANHAZE_MOST_FACES
};

/* The verdicts; the colours of the light; the places of the facts. */
enum { BODHRANHAZE_CROSS, BODHRANHAZE_A_IN_B, BODHRANHAZE_B_IN_A, BODHRANHAZE_APART, BODHRANHAZE_REFUSED };
enum { BODHRANHAZE_GREEN, BODHRANHAZE_AMBER, BODHRANHAZE_RED, BODHRANHAZE_DARK, BODHRANHAZE_UNCOUNTED = 16 };
enum {
    BODHRANHAZE_FACT_REFUSAL,
    BODHRANHAZE_FACT_PLACE,
    BODHRANHAZE_FACT_VERDICT,
    BODHRANHAZE_FACT_PAIRS,
    BODHRANHAZE_FACT_A_IN_B,
    BODHRANHAZE_FACT_B_IN_A,
    BODHRANHAZE_FACT_A_WORD,
    BODHRANHAZE_FACT_B_WORD,
    BODHRANHAZE_FACTS
};

/* The number of the scene's refusal, 1 to 9 or 14; 0 where it is accepted. */
size_t bodhranhaze_refusal(const uint8_t *scene, size_t length);

/* The place of the scene's refusal: the record for 4 to 7, 9 and 14, the point for 8, and else 0; 0 where it is accepted. */
size_t bodhranhaze_place(const uint8_t *scene, size_t length);

/* 0 cross, 1 a-in-b, 2 b-in-a, 3 apart, 4 refused. */
size_t bodhranhaze_verdict(const uint8_t *scene, size_t length);

/* How many pairs of an edge and a face that it pierces the listing has; 0 where the scene is refused. */
size_t bodhranhaze_pairs(const uint8_t *scene, size_t length);

/*
 * How many vertices of the solid (1 for A, 2 for B) the other one encloses; 0 where the scene is refused, and where `solid` is neither 1 nor 2.
 */
size_t bodhranhaze_inside(const uint8_t *scene, size_t length, size_t solid);

/* Why `bodhranhaze_inside` says 0: the scene's refusal, 11 where `solid` is neither 1 nor 2, or 0 where there is an answer. */
size_t bodhranhaze_inside_refusal(const uint8_t *scene, size_t length, size_t solid);

/*
 * Writes the listing: for each pierced pair its lower point, higher point and face, edges of A first, in rising order. Answers how many pairs there
 * are, 0 where the scene is refused. Where 3 times that is more than `places` there is no room, and nothing is written: the answer then says what
 * room is wanted. No more than 3 times the answer is ever written.
 */
size_t bodhranhaze_listing(const uint8_t *scene, size_t length, uint16_t *list, size_t places);

/* Why `bodhranhaze_listing` writes nothing into a list of so many places: the scene's refusal, 10 where there is no room, or 0. */
size_t bodhranhaze_listing_refusal(const uint8_t *scene, size_t length, size_t places);

/*
 * Everything that is asked of a whole scene in one call, which judges, decodes and surveys it once. Writes eight numbers in front of `facts`: the number
 * and the place of the refusal, 0 and 0 where there is none; the verdict's number; how many pairs there are; how many vertices of A are enclosed by B, and
 * of B by A; the word of A's enclosed vertices and that of B's (bit j is set where the solid's vertex j + 1 is enclosed). Writes the listing into `list` as
 * `bodhranhaze_listing` does. Answers the refusal's number: 13 before all others where `facts_length` is less than 8, and nothing is written then; the
 * scene's own, with verdict 4 and five zeros; or 10 where the list has no room, with the number of pairs as its place and all facts told.
 */
size_t bodhranhaze_survey(const uint8_t *scene, size_t length, uint16_t *list, size_t places, uint64_t *facts, size_t facts_length);

/*
 * The changes of a viewer that drags, made in the scene's own bytes: a vertex by its point number, the far point, and a face whose first and third
 * corners are swapped. 0 where the scene was changed; else the number of a refusal, the scene's own first, and no byte is changed. `scene` may be
 * written here.
 */
size_t bodhranhaze_move(uint8_t *scene, size_t length, size_t point, int64_t x, int64_t y, int64_t z, int64_t w);
size_t bodhranhaze_move_far(uint8_t *scene, size_t length, int64_t x, int64_t y, int64_t z, int64_t w);
size_t bodhranhaze_reverse(uint8_t *scene, size_t length, size_t face);

/*
 * Takes the vertex as the scene's four numbers, exactly when all four are whole numbers within the limits (minus zero is zero): writes the nine bytes
 * of its record, `VX`, x, y, z, weight, in front, and answers 0. Else the refusal's number, and nothing is written: of x, y, z, weight in turn, 15 for a
 * number that is not whole, is infinite or is no number, then 5 or 6 for one outside its limits, 6 for weight 0; and after all of these 13, where `room`
 * is less than 9. Bytes behind the nine keep their contents.
 */
size_t bodhranhaze_take(double x, double y, double z, double weight, uint8_t *record, size_t room);

/* The place of the vertex's 15, 5 or 6: 1 to 4 for x, y, z, weight; 0 where it is taken. (The place of 13 is the length needed, 9.) */
size_t bodhranhaze_take_place(double x, double y, double z, double weight);

/*
 * 0 green for apart, 1 amber for enclosed, 2 red for crossing, 3 dark for refused. The counts are sixteen bytes, four counts of four bytes, low byte
 * first, in the order of the colours; the answer's count goes up by one. From sixteen zeros and over any calls each count is how often its colour was
 * answered. Before all others 16, in place of a colour, where the counts are not sixteen bytes or already add up to 1,000,000 or more; they then keep
 * their contents. The number and the place of a refusal are `bodhranhaze_refusal` and `bodhranhaze_place`.
 */
size_t bodhranhaze_light(const uint8_t *scene, size_t length, uint8_t *counts, size_t counts_length);

#ifdef __cplusplus
}
#endif

#endif
