/* Changes that keep a scene's form, most of the time: rows, corners, control bytes; or a new scene altogether. */
#include <string.h>

#include "fuzz.h"

size_t LLVMFuzzerMutate(uint8_t *data, size_t size, size_t most);
size_t LLVMFuzzerCustomMutator(uint8_t *data, size_t size, size_t most, unsigned seed);

enum { HEADER = 6, POINT_BYTES = 9, FACE_BYTES = 5, MOST_FACES = BODHRANHAZE_MOST_FACES, MOST_VERTICES = BODHRANHAZE_MOST_VERTICES };

static uint32_t state;

static uint32_t chance(uint32_t below) {
    state ^= state << 13;
    state ^= state >> 17;
    state ^= state << 5;
    return (state >> 3) % below;
}

static int between(int least, int most) { return least + (int)chance((uint32_t)(most - least + 1)); }

static void put_two(uint8_t *at, int n) {
    at[0] = (uint8_t)n;
    at[1] = (uint8_t)((unsigned)n >> 8);
}

static int two_at(const uint8_t *at) { return (int16_t)(at[0] | at[1] << 8); }

/* ---- a new scene */

typedef struct {
    int vertices, faces, corner[MOST_FACES][3];
} Solid;

static void add_face(Solid *s, int p, int q, int r) {
    int corner[3] = {p, q, r};
    memcpy(s->corner[s->faces++], corner, sizeof corner);
}

/* A ring of vertices between two poles. */
static void make_ring(Solid *s) {
    int ring = between(3, MOST_VERTICES - 2), top = ring + 1, bottom = ring + 2;
    s->vertices = bottom;
    for (int k = 1; k <= ring; k++) {
        add_face(s, k, k % ring + 1, top);
        add_face(s, k % ring + 1, k, bottom);
    }
}

/* Faces that all stand twice, on any corners; every vertex has one. */
static void make_doubled(Solid *s) {
    s->vertices = between(3, MOST_VERTICES);
    for (int k = 1; k <= s->vertices; k += 3)
        for (int twice = 0; twice < 2; twice++) add_face(s, k, k % s->vertices + 1, (k + 1) % s->vertices + 1);
}

/* Tetrahedra on any vertices; a face that is there already goes, so that every edge stays in an even number of faces. */
static void toggle_face(Solid *s, int p, int q, int r) {
    for (int k = 0; k < s->faces; k++) {
        const int *c = s->corner[k];
        if (c[0] != p || c[1] != q || c[2] != r) continue;
        memmove(s->corner + k, s->corner + k + 1, (size_t)(--s->faces - k) * sizeof *s->corner);
        return;
    }
    if (s->faces < MOST_FACES) add_face(s, p, q, r);
}

static void make_sum(Solid *s) {
    s->vertices = between(4, 10);
    for (int k = between(1, 20); k > 0; k--) {
        int c[4], n = 0;
        for (int v = 1; v <= s->vertices && n < 4; v++)
            if (chance((uint32_t)(s->vertices - v + 1)) < (uint32_t)(4 - n)) c[n++] = v;
        toggle_face(s, c[0], c[1], c[2]);
        toggle_face(s, c[0], c[1], c[3]);
        toggle_face(s, c[0], c[2], c[3]);
        toggle_face(s, c[1], c[2], c[3]);
    }
}

static void make_tetrahedron(Solid *s) {
    s->vertices = 4;
    for (int out = 4; out >= 1; out--) add_face(s, 1 + (out == 1), 2 + (out <= 2), 3 + (out <= 3));
}

static void make_solid(Solid *s) {
    static void (*const make[])(Solid *) = {make_ring, make_doubled, make_sum, make_tetrahedron};
    s->faces = 0;
    make[chance(4)](s);
}

static uint8_t *put_point(uint8_t *at, int is_far, int reach, int manner) {
    memcpy(at, is_far ? "FP" : "VX", 2);
    for (int j = 0; j < 3; j++) put_two(at + 2 + 2 * j, between(-reach, reach));
    int weight = manner == 0 ? 1 : between(1, BODHRANHAZE_MOST_WEIGHT);
    if (manner == 2 && chance(2)) weight = -weight;
    if (is_far && chance(4) == 0) weight = 0;
    at[8] = (uint8_t)weight;
    return at + POINT_BYTES;
}

/* The length of the scene, or 0 where there is no room. */
static size_t make_scene(uint8_t *data, size_t most) {
    static Solid solid[2];
    static const int reaches[] = {1, 2, 4, 10, 100, 1000, 4095};
    uint8_t *at = data + HEADER;
    for (int k = 0; k < 2; k++) make_solid(&solid[k]);
    int points = solid[0].vertices + solid[1].vertices, reach = reaches[chance(7)], manner = between(0, 2);
    size_t length = (size_t)(HEADER + POINT_BYTES * (points + 1) + FACE_BYTES * (solid[0].faces + solid[1].faces) + 2);
    if (length > most) return 0;
    memcpy(data, "SC", 2);
    for (int k = 0; k <= points; k++) at = put_point(at, k == 0, reach, manner);
    for (int k = 0; k < 2; k++) {
        data[2 + 2 * k] = (uint8_t)solid[k].vertices;
        data[3 + 2 * k] = (uint8_t)solid[k].faces;
        for (int f = 0; f < solid[k].faces; f++, at += FACE_BYTES) {
            memcpy(at, "FC", 2);
            for (int j = 0; j < 3; j++) at[2 + j] = (uint8_t)solid[k].corner[f][j];
        }
    }
    memcpy(at, "EN", 2);
    return length;
}

/* ---- a scene changed */

static void change_face(uint8_t *record) {
    int i = 2 + (int)chance(3), j = 2 + (int)chance(3);
    uint8_t corner = record[i];
    record[i] = record[j];
    record[j] = corner;
    if (chance(16) == 0) record[i] = (uint8_t)between(1, MOST_VERTICES);
}

static void change_once(uint8_t *data, int points, int faces) {
    uint8_t *record = data + HEADER + POINT_BYTES * between(0, points), *coordinate = record + 2 + 2 * chance(3);
    switch (chance(6)) {
        case 0: put_two(coordinate, between(-BODHRANHAZE_MOST_COORDINATE, BODHRANHAZE_MOST_COORDINATE)); break;
        case 1: put_two(coordinate, between(-5, 5)); break;
        case 2: record[8] = (uint8_t)between(-BODHRANHAZE_MOST_WEIGHT, BODHRANHAZE_MOST_WEIGHT); break;
        case 3: memcpy(record + 2, data + HEADER + POINT_BYTES * between(0, points) + 2, POINT_BYTES - 2); break;
        case 4: if (faces) change_face(data + HEADER + POINT_BYTES * (points + 1) + FACE_BYTES * between(0, faces - 1)); break;
        default: put_two(coordinate, two_at(coordinate) + between(-1, 1));
    }
}

static size_t change_control(uint8_t *control_bytes, size_t size) {
    if (chance(2))
        LLVMFuzzerMutate(control_bytes, CONTROL, CONTROL);
    else
        for (int k = between(1, 20); k > 0; k--) control_bytes[chance(CONTROL)] = (uint8_t)chance(256);
    return size;
}

static size_t add_control(uint8_t *data, size_t size) {
    for (int k = 0; k < CONTROL; k++) data[size + (size_t)k] = (uint8_t)chance(256);
    return size + CONTROL;
}

size_t LLVMFuzzerCustomMutator(uint8_t *data, size_t size, size_t most, unsigned seed) {
    state = seed * 2654435761u | 1;
    unsigned kind = chance(8);
    if (size < CONTROL + HEADER && size + CONTROL <= most && chance(2)) return add_control(data, size);
    if (size < CONTROL + HEADER || kind < 2) return LLVMFuzzerMutate(data, size, most);
    size_t length = size - CONTROL;
    if (kind < 4) return change_control(data + length, size);
    if (kind == 7) {
        uint8_t kept[CONTROL];
        memcpy(kept, data + length, CONTROL);
        size_t made = make_scene(data, most - CONTROL);
        if (made) memcpy(data + made, kept, CONTROL);
        return made ? made + CONTROL : size;
    }
    int points = data[2] + data[4], faces = data[3] + data[5];
    if (length != (size_t)(17 + POINT_BYTES * points + FACE_BYTES * faces)) return LLVMFuzzerMutate(data, size, most);
    for (int k = between(1, 6); k > 0; k--) change_once(data, points, faces);
    return size;
}
