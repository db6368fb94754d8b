/* The changes in a scene's own bytes: what is refused changes nothing, what is made is accepted, and a face reversed twice is as it was. */
#include <string.h>

#include "exact.h"
#include "fuzz.h"

enum { LACKING = 11, FAR_AT = 6, VERTICES_AT = 15, POINT_BYTES = 9, FACE_BYTES = 5 };

static uint8_t expected[BODHRANHAZE_LONGEST];

/* The scene's bytes are those expected. Of what is longer than any scene, and refused, the caller looks. */
static void check_bytes(Lent s) { HOLDS(s.length > sizeof expected || memcmp(s.bytes, expected, s.length) == 0); }

static void put_row(uint8_t *record, const int64_t *row) {
    for (int j = 0; j < 3; j++) {
        record[2 + 2 * j] = (uint8_t)row[j];
        record[3 + 2 * j] = (uint8_t)((uint64_t)row[j] >> 8);
    }
    record[8] = (uint8_t)row[3];
}

static void control_row(int64_t *row) {
    unsigned manner = control(19);
    for (int j = 0; j < 3; j++) row[j] = control_whole(20 + 8 * j, (int)(manner >> 2 * j), MOST_COORDINATE);
    row[3] = control(17) & 8 ? control_whole(44, 0, MOST_WEIGHT) : control_whole(44, (int)(manner >> 6), MOST_WEIGHT);
}

/* A point's or a face's number: one that the scene has, one about that, or any. */
static uint64_t control_number(unsigned manner, unsigned byte, int word_at, size_t most) {
    if (manner & 2 && most) return 1 + byte % most;
    return manner & 1 ? control_word(word_at) : byte % 200;
}

static void check_move(Lent s, size_t refusal, size_t points) {
    int64_t row[4];
    control_row(row);
    uint64_t point = control_number(control(17), control(18), 84, points);
    size_t own = point < 1 || point > points ? LACKING : (size_t)exact_row_fault(row, 0), wanted = refusal ? refusal : own;
    HOLDS(bodhranhaze_move(s.bytes, s.length, point, row[0], row[1], row[2], row[3]) == wanted);
    if (!wanted) put_row(expected + VERTICES_AT + POINT_BYTES * (point - 1), row);
    check_bytes(s);
    if (wanted) return;
    done(MOVED);
    HOLDS(check_questions(s).refusal == 0);
}

static void check_move_far(Lent s, size_t refusal) {
    int64_t row[4];
    control_row(row);
    if (control(17) & 16) row[3] = 0;
    if ((control(17) & 48) == 48) row[0] = row[1] = row[2] = 0;
    size_t wanted = refusal ? refusal : (size_t)exact_row_fault(row, 1);
    HOLDS(bodhranhaze_move_far(s.bytes, s.length, row[0], row[1], row[2], row[3]) == wanted);
    if (!wanted) put_row(expected + FAR_AT, row);
    check_bytes(s);
    HOLDS(bodhranhaze_refusal(s.bytes, s.length) == refusal);
    if (!wanted) done(MOVED_FAR);
}

static void reverse_expected(size_t points, uint64_t face) {
    uint8_t *record = expected + VERTICES_AT + POINT_BYTES * points + FACE_BYTES * (face - 1), first = record[2];
    record[2] = record[4];
    record[4] = first;
}

static int same_answers(Answers a, Answers b) {
    return a.verdict == b.verdict && a.pairs == b.pairs && memcmp(a.inside, b.inside, sizeof a.inside) == 0 &&
           memcmp(a.enclosed, b.enclosed, sizeof a.enclosed) == 0;
}

static void check_reverse(Lent s, size_t refusal, size_t points, size_t faces) {
    uint64_t face = control_number(control(17) >> 6, control(19), 92, faces);
    size_t wanted = refusal ? refusal : face < 1 || face > faces ? LACKING : 0;
    Answers before = wanted ? (Answers){0} : check_questions(s);
    HOLDS(bodhranhaze_reverse(s.bytes, s.length, face) == wanted);
    if (!wanted) {
        reverse_expected(points, face);
        check_bytes(s);
        HOLDS(same_answers(before, check_questions(s)));
        HOLDS(bodhranhaze_reverse(s.bytes, s.length, face) == 0);
        reverse_expected(points, face);
        done(REVERSED);
    }
    check_bytes(s);
}

void check_changes(Lent s, Answers a) {
    size_t points = a.refusal ? 0 : s.bytes[2] + s.bytes[4], faces = a.refusal ? 0 : s.bytes[3] + s.bytes[5];
    if (s.length <= sizeof expected) memcpy(expected, s.bytes, s.length);
    check_move(s, a.refusal, points);
    check_move_far(s, a.refusal);
    check_reverse(s, a.refusal, points, faces);
}
