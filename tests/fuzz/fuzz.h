/* What the parts of the fuzzer share. */
#ifndef FUZZ_H
#define FUZZ_H

#include <stddef.h>
#include <stdint.h>

#include "bodhranhaze.h"

/* An input is a scene's bytes, and behind them as many control bytes, which say what is asked of it. */
enum { CONTROL = 128 };

/* ---- told.c: what is wrong ends the program; what was done is counted and told at its end */

void wrong(const char *file, int line, const char *what);
#define HOLDS(fact)                                      \
    do {                                                 \
        if (!(fact)) wrong(__FILE__, __LINE__, #fact);   \
    } while (0)

enum { RUNS, ACCEPTED, PIERCED, MOVED, MOVED_FAR, REVERSED, COUNTED, TAKEN, DONE };
void done(int what);
void seen_refusal(size_t number);
void seen_verdict(size_t number);
/* An outcome, as a feature that the fuzzer looks for. */
void feature(unsigned number);

/* ---- reached.c: the instructions of the library that were reached, as features */

void watch_instructions(void);
void tell_reached(void);

/* ---- rooms.c: lent places between pages that may not be touched */

enum { SCENE, LIST, FACTS, COUNTS, RECORD, ROOMS };
enum { AT_END, AT_START, ON_HEAP, MANNERS };
void make_rooms(void);
void *open_room(int room, size_t length, int manner);
void close_room(int room);
/* The scene may be read only, until it is unlocked. */
void lock_scene(void);
void unlock_scene(void);

/* ---- control.c: the control bytes as numbers */

void set_control(const uint8_t *bytes);
unsigned control(int at);
uint64_t control_word(int at);
int64_t control_whole(int at, int manner, int64_t most);
double control_double(int at, int manner);

/* ---- the checks: each asks calls of the header, and holds what they answer against each other and against exact.c */

typedef struct {
    uint8_t *bytes;
    size_t length;
    int manner;
} Lent;

/* Everything as the calls tell it. */
typedef struct {
    size_t refusal, place, verdict, pairs, inside[2];
    uint64_t enclosed[2];
} Answers;

Answers check_questions(Lent s);
void check_light(Lent s);
void check_changes(Lent s, Answers a);
void check_vertex(int manner);

/* Null pointers of length 0, once. */
void check_nulls(void);

#endif
