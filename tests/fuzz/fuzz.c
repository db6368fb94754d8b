/* One input: a scene's bytes and, behind them, the control bytes. */
#include <string.h>

#include "fuzz.h"

/* Longer inputs than this say nothing new. */
enum { MOST_BYTES = 12288 };

int LLVMFuzzerTestOneInput(const uint8_t *data, size_t size);

/* A number for the refusal and its place, or for the verdict, how many digits the pairs have, and which solids have enclosed vertices. */
static unsigned outcome(Answers a) {
    unsigned digits = 0;
    while (a.pairs >> digits) digits++;
    if (a.refusal) return (unsigned)(1024 + 64 * a.refusal + a.place % 64);
    return (unsigned)(256 * a.verdict + 16 * digits + (a.inside[0] > 0) + 2 * (a.inside[1] > 0));
}

static void tell_outcome(Answers a) {
    feature(outcome(a));
    seen_refusal(a.refusal);
    if (a.refusal) return;
    seen_verdict(a.verdict);
    done(ACCEPTED);
}

int LLVMFuzzerTestOneInput(const uint8_t *data, size_t size) {
    static const uint8_t zeros[CONTROL];
    static uint8_t kept[MOST_BYTES];
    size_t length = size >= CONTROL ? size - CONTROL : size;
    if (length > MOST_BYTES) return -1;
    set_control(size >= CONTROL ? data + length : zeros);
    Lent s = {NULL, length, (int)(control(0) % MANNERS)};
    s.bytes = open_room(SCENE, length, s.manner);
    memcpy(s.bytes, data, length);
    memcpy(kept, data, length);
    done(RUNS);
    Answers a = check_questions(s);
    tell_outcome(a);
    check_light(s);
    HOLDS(memcmp(s.bytes, kept, length) == 0);
    check_changes(s, a);
    HOLDS(a.refusal == 0 || memcmp(s.bytes, kept, length) == 0);
    close_room(SCENE);
    check_vertex(s.manner);
    return 0;
}
