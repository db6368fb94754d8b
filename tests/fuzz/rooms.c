/* Lent places between two pages that may not be touched, at either end of what lies between, or on the heap under the sanitizer. */
#define _GNU_SOURCE
#include <stdlib.h>
#include <string.h>
#include <sys/mman.h>

#include "fuzz.h"

enum { PAGE = 4096, MARK = 0xA5, MARKED = 256 };

typedef struct {
    uint8_t *start, *at;
    size_t length;
    int manner;
} Room;

static Room rooms[ROOMS];
_Static_assert(2 * BODHRANHAZE_PLACES <= 28 * PAGE, "the longest listing has room");
static const size_t span[ROOMS] = {4 * PAGE, 28 * PAGE, PAGE, PAGE, PAGE};

void make_rooms(void) {
    for (int k = 0; k < ROOMS; k++) {
        uint8_t *pages = mmap(NULL, span[k] + 2 * PAGE, PROT_NONE, MAP_PRIVATE | MAP_ANONYMOUS, -1, 0);
        if (pages == MAP_FAILED || mprotect(pages + PAGE, span[k], PROT_READ | PROT_WRITE) != 0) abort();
        rooms[k].start = pages + PAGE;
    }
}

/* The bytes on the side that has no forbidden page: they are marked, and must be kept. */
static size_t marked(const Room *r, size_t whole, uint8_t **from) {
    size_t rest = whole - r->length, count = rest < MARKED ? rest : MARKED;
    *from = r->manner == AT_START ? r->at + r->length : r->at - count;
    return count;
}

void *open_room(int room, size_t length, int manner) {
    Room *r = &rooms[room];
    uint8_t *from;
    r->length = length;
    r->manner = manner;
    if (manner == ON_HEAP) return r->at = malloc(length);
    r->at = manner == AT_START ? r->start : r->start + span[room] - length;
    size_t count = marked(r, span[room], &from);
    memset(from, MARK, count);
    return r->at;
}

void close_room(int room) {
    Room *r = &rooms[room];
    uint8_t *from;
    if (r->manner == ON_HEAP) {
        free(r->at);
        return;
    }
    size_t count = marked(r, span[room], &from);
    for (size_t i = 0; i < count; i++) HOLDS(from[i] == MARK);
}

static void protect_scene(int allowed) {
    if (rooms[SCENE].manner != ON_HEAP && mprotect(rooms[SCENE].start, span[SCENE], allowed) != 0) abort();
}

void lock_scene(void) { protect_scene(PROT_READ); }

void unlock_scene(void) { protect_scene(PROT_READ | PROT_WRITE); }
