/* For viewers: the light and its counts, and vertices in doubles. */
#include <math.h>
#include <string.h>

#include "exact.h"
#include "fuzz.h"

enum { COUNTS_LENGTH = 16, MOST_COUNTED = 1000000, NOT_WHOLE = 15, SHORT = 13, RECORD_LENGTH = 9, CONTENTS = 0x77 };

/* ---- the light */

static uint32_t word_at(const uint8_t *at) { return at[0] | (uint32_t)at[1] << 8 | (uint32_t)at[2] << 16 | (uint32_t)at[3] << 24; }

/* Counts of any size, small ones, or such that the last one that may be counted is near. */
static void fill_counts(uint8_t *counts, size_t length) {
    for (size_t i = 0; i < length; i++) counts[i] = (uint8_t)control(64 + (int)i);
    if (length != COUNTS_LENGTH) return;
    for (int k = 0; k < 4; k++) {
        uint32_t near = MOST_COUNTED / 4 - (k == 0 ? control(64) & 1 : 0), kept = word_at(counts + 4 * k);
        uint32_t n = control(16) % 8 == 6 ? near : control(16) & 1 ? kept & 0xFFFF : kept;
        for (int j = 0; j < 4; j++) counts[4 * k + j] = (uint8_t)(n >> 8 * j);
    }
}

void check_light(Lent s) {
    static const size_t colour_of[] = {BODHRANHAZE_RED, BODHRANHAZE_AMBER, BODHRANHAZE_AMBER, BODHRANHAZE_GREEN, BODHRANHAZE_DARK};
    uint8_t before[32];
    size_t length = control(7) & 1 ? COUNTS_LENGTH : control(7) / 2 % 21;
    uint8_t *counts = open_room(COUNTS, length, s.manner);
    fill_counts(counts, length);
    memcpy(before, counts, length);
    uint64_t sum = 0;
    for (int k = 0; k < 4 && length == COUNTS_LENGTH; k++) sum += word_at(counts + 4 * k);
    lock_scene();
    size_t answer = bodhranhaze_light(s.bytes, s.length, counts, length), verdict = bodhranhaze_verdict(s.bytes, s.length);
    unlock_scene();
    if (length != COUNTS_LENGTH || sum >= MOST_COUNTED) {
        HOLDS(answer == BODHRANHAZE_UNCOUNTED && memcmp(before, counts, length) == 0);
    } else {
        HOLDS(answer == colour_of[verdict]);
        for (size_t k = 0; k < 4; k++) HOLDS(word_at(counts + 4 * k) == word_at(before + 4 * k) + (k == answer));
        done(COUNTED);
    }
    close_room(COUNTS);
}

/* ---- vertices in doubles */

/* The place of the first number at fault, 1 to 4, or 0. */
static size_t vertex_place(const double *v, size_t *refusal) {
    for (size_t k = 0; k < 4; k++) {
        double most = k < 3 ? MOST_COORDINATE : MOST_WEIGHT;
        *refusal = !isfinite(v[k]) || v[k] != rint(v[k]) ? NOT_WHOLE : k < 3 ? 5 : 6;
        if (*refusal == NOT_WHOLE || fabs(v[k]) > most || (k == 3 && v[k] == 0)) return k + 1;
    }
    *refusal = 0;
    return 0;
}

static void control_vertex(double *v) {
    for (int k = 0; k < 4; k++) v[k] = control_double(101 + 4 * k, (int)(control(100) >> 2 * k));
    if (control(121) & 1) v[3] = (double)((int)(control(122) % 35) - 17);
    unsigned any = control(123) + 256 * control(124);
    for (unsigned k = 0; k < 3 && control(121) & 2; k++) v[k] = (double)((int)(any * (k + 1) % 8193) - 4096);
}

static void put_vertex(uint8_t *record, const double *v) {
    record[0] = 'V';
    record[1] = 'X';
    for (int k = 0; k < 3; k++) {
        record[2 + 2 * k] = (uint8_t)(int)v[k];
        record[3 + 2 * k] = (uint8_t)((unsigned)(int)v[k] >> 8);
    }
    record[8] = (uint8_t)(int)v[3];
}

void check_vertex(int manner) {
    double v[4];
    control_vertex(v);
    uint8_t wanted[16];
    size_t room = control(127) % 14, refusal, place = vertex_place(v, &refusal);
    if (refusal == 0 && room < RECORD_LENGTH) refusal = SHORT;
    uint8_t *record = open_room(RECORD, room, manner);
    memset(record, CONTENTS, room);
    memset(wanted, CONTENTS, sizeof wanted);
    HOLDS(bodhranhaze_take(v[0], v[1], v[2], v[3], record, room) == refusal);
    HOLDS(bodhranhaze_take_place(v[0], v[1], v[2], v[3]) == place);
    if (refusal == 0) {
        put_vertex(wanted, v);
        done(TAKEN);
    }
    HOLDS(memcmp(record, wanted, room) == 0);
    close_room(RECORD);
    feature((unsigned)(3072 + refusal % 16 + 16 * place));
}
