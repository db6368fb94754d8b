/* What is wrong, what was done, and the outcomes as features. */
#include <stdio.h>
#include <stdlib.h>

#include "fuzz.h"

enum { OUTCOMES = 4096, REFUSALS = 32, VERDICTS = 5 };

__attribute__((section("__libfuzzer_extra_counters"))) static uint8_t outcomes[OUTCOMES];
static unsigned long count[DONE], refusals[REFUSALS], verdicts[VERDICTS];
static const char *const name[DONE] = {"runs",      "accepted", "pairs held against the formula", "moved",
                                       "far moved", "reversed", "counted",                        "taken"};

void wrong(const char *file, int line, const char *what) {
    fprintf(stderr, "WRONG %s:%d: %s\n", file, line, what);
    abort();
}

void done(int what) { count[what]++; }

void seen_refusal(size_t number) { refusals[number % REFUSALS]++; }

void seen_verdict(size_t number) { verdicts[number % VERDICTS]++; }

void feature(unsigned number) { outcomes[number % OUTCOMES] = 1; }

static void tell(void) {
    for (int k = 0; k < DONE; k++) fprintf(stderr, "%s %lu\n", name[k], count[k]);
    fprintf(stderr, "cross %lu, a-in-b %lu, b-in-a %lu, apart %lu\n", verdicts[0], verdicts[1], verdicts[2], verdicts[3]);
    for (int k = 1; k < REFUSALS; k++)
        if (refusals[k]) fprintf(stderr, "refused %d: %lu\n", k, refusals[k]);
    tell_reached();
}

int LLVMFuzzerInitialize(int *words, char ***word_of);

int LLVMFuzzerInitialize(int *words, char ***word_of) {
    (void)words, (void)word_of;
    check_nulls();
    make_rooms();
    watch_instructions();
    return atexit(tell);
}
