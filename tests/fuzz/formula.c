#include "formula.h"

#include <stdlib.h>

/* Questions of the formula for the listing, and as many for the enclosed vertices. */
enum { MOST_ASKED = 128 };

static uint64_t state;

static size_t chance(size_t below) {
    state = state * 6364136223846793005u + 1442695040888963407u;
    return (size_t)(state >> 33) % below;
}

static int by_numbers(const void *left, const void *right) {
    const uint16_t *a = left, *b = right;
    for (int j = 0; j < 3; j++)
        if (a[j] != b[j]) return a[j] < b[j] ? -1 : 1;
    return 0;
}

/* The listing rises by lower point, higher point and face, over both solids. */
static int is_listed(const uint16_t *list, size_t pairs, int u, int v, int face) {
    uint16_t wanted[3] = {(uint16_t)u, (uint16_t)v, (uint16_t)face};
    return pairs > 0 && bsearch(wanted, list, pairs, 3 * sizeof *list, by_numbers) != NULL;
}

/* Edges of a solid with faces of the other: all of them in turn, or some; how many are listed. */
static size_t check_pairs(const Exact *e, int solid, const Answers *a, const uint16_t *list) {
    static Edge edges[MOST_EDGES];
    size_t faces = (size_t)e->faces[1 - solid], count = (size_t)exact_edges(e, solid, edges) * faces, hits = 0;
    size_t asked = count <= MOST_ASKED ? count : MOST_ASKED / 2;
    for (size_t i = 0; i < asked; i++) {
        size_t k = asked == count ? i : chance(count);
        Edge edge = edges[k / faces];
        int face = exact_face0(e, 1 - solid) + 1 + (int)(k % faces), pierced = exact_pierces(e, edge.lower, edge.higher, face);
        HOLDS(is_listed(list, a->pairs, edge.lower, edge.higher, face) == pierced);
        hits += (size_t)pierced;
        done(PIERCED);
    }
    return asked == count ? hits : SIZE_MAX;
}

static int is_enclosed(const Exact *e, int solid, int vertex) {
    int odd = 0, face0 = exact_face0(e, 1 - solid);
    for (int f = 1; f <= e->faces[1 - solid]; f++) odd ^= exact_pierces(e, exact_vertex0(e, solid) + vertex, e->far_point, face0 + f);
    return odd;
}

static void check_enclosed(const Exact *e, int solid, const Answers *a) {
    int vertices = e->vertices[solid], asked = MOST_ASKED / 2 / e->faces[1 - solid] + 1;
    if (asked > vertices) asked = vertices;
    for (int i = 0; i < asked; i++) {
        int vertex = 1 + (asked == vertices ? i : (int)chance((size_t)vertices));
        HOLDS((int)(a->enclosed[solid] >> (vertex - 1) & 1) == is_enclosed(e, solid, vertex));
    }
}

void check_formula(const Exact *e, const Answers *a, const uint16_t *list) {
    state = control_word(52);
    size_t hits[2];
    for (int solid = 0; solid < 2; solid++) {
        hits[solid] = check_pairs(e, solid, a, list);
        check_enclosed(e, solid, a);
    }
    if (hits[0] != SIZE_MAX && hits[1] != SIZE_MAX) HOLDS(hits[0] + hits[1] == a->pairs);
}
