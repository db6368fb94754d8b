#include "exact.h"

#include <string.h>

typedef __int128 Wide;

/* ---- the judge */

int exact_vertex0(const Exact *s, int solid) { return solid ? s->vertices[0] : 0; }

int exact_face0(const Exact *s, int solid) { return solid ? s->faces[0] : 0; }

static int outside(int64_t n, int64_t least, int64_t most) { return n < least || n > most; }

static int64_t two_bytes(const uint8_t *at) {
    int64_t n = at[0] + 256 * at[1];
    return n < 32768 ? n : n - 65536;
}

int exact_row_fault(const int64_t *row, int is_far) {
    for (int j = 0; j < 3; j++)
        if (outside(row[j], -MOST_COORDINATE, MOST_COORDINATE)) return 5;
    if (outside(row[3], -MOST_WEIGHT, MOST_WEIGHT)) return 6;
    if (row[3] != 0) return 0;
    if (!is_far) return 6;
    return row[0] == 0 && row[1] == 0 && row[2] == 0 ? 14 : 0;
}

static int point_fault(const uint8_t *at, int64_t *row, int is_far) {
    if (memcmp(at, is_far ? "FP" : "VX", 2) != 0) return 4;
    for (int j = 0; j < 3; j++) row[j] = two_bytes(at + 2 + 2 * j);
    row[3] = at[8] < 128 ? at[8] : at[8] - 256;
    return exact_row_fault(row, is_far);
}

static int face_fault(const uint8_t *at, int *corner, int vertices, int vertex0) {
    if (memcmp(at, "FC", 2) != 0) return 4;
    for (int j = 0; j < 3; j++) {
        if (outside(at[2 + j], 1, vertices)) return 7;
        corner[j] = vertex0 + at[2 + j];
    }
    return corner[0] == corner[1] || corner[0] == corner[2] || corner[1] == corner[2] ? 7 : 0;
}

/* Refusals 4 to 7 and 14, record by record. */
static Fault records_fault(const uint8_t *at, Exact *s) {
    int points = s->vertices[0] + s->vertices[1], faces = s->faces[0] + s->faces[1], record = 1, fault;
    for (int k = 0; k <= points; k++, record++, at += 9)
        if ((fault = point_fault(at, s->row[k ? k : points + 1], k == 0))) return (Fault){fault, record};
    for (int f = 1; f <= faces; f++, record++, at += 5) {
        int solid = f > s->faces[0];
        if ((fault = face_fault(at, s->corner[f], s->vertices[solid], exact_vertex0(s, solid)))) return (Fault){fault, record};
    }
    return memcmp(at, "EN", 2) != 0 ? (Fault){4, record} : (Fault){0, 0};
}

/* In how many faces two points are corners together. */
static void count_together(Exact *s) {
    memset(s->together, 0, sizeof s->together);
    for (int f = 1; f <= s->faces[0] + s->faces[1]; f++)
        for (int i = 0; i < 3; i++)
            for (int j = 0; j < 3; j++) s->together[s->corner[f][i]][s->corner[f][j]]++;
}

static Fault shape_fault(const Exact *s) {
    for (int point = 1; point < s->far_point; point++)
        if (s->together[point][point] == 0) return (Fault){8, point};
    for (int f = 1; f <= s->faces[0] + s->faces[1]; f++)
        for (int j = 0; j < 3; j++)
            if (s->together[s->corner[f][j]][s->corner[f][(j + 1) % 3]] % 2) return (Fault){9, s->far_point + f};
    return (Fault){0, 0};
}

Fault exact_judge(const uint8_t *bytes, size_t length, Exact *s) {
    if (length < 6 || memcmp(bytes, "SC", 2) != 0) return (Fault){1, 0};
    for (int k = 0; k < 2; k++) {
        s->vertices[k] = bytes[2 + 2 * k];
        s->faces[k] = bytes[3 + 2 * k];
        if (outside(s->vertices[k], LEAST_VERTICES, MOST_VERTICES) || outside(s->faces[k], LEAST_FACES, MOST_FACES)) return (Fault){2, 0};
    }
    int points = s->vertices[0] + s->vertices[1];
    if (length != 17u + 9u * (size_t)points + 5u * (size_t)(s->faces[0] + s->faces[1])) return (Fault){3, 0};
    s->far_point = points + 1;
    Fault fault = records_fault(bytes + 6, s);
    if (fault.number) return fault;
    count_together(s);
    return shape_fault(s);
}

/* ---- the sign of four points */

/* The 24 orders of four rows, and whether an odd number of pairs is out of order. */
static int order_of[24][4], order_odd[24];

static void make_orders(void) {
    int n = 0;
    for (int code = 0; code < 256; code++) {
        int o[4] = {code & 3, code >> 2 & 3, code >> 4 & 3, code >> 6 & 3}, odd = 0, seen = 0;
        for (int i = 0; i < 4; i++) seen |= 1 << o[i];
        if (seen != 15) continue;
        for (int i = 0; i < 4; i++)
            for (int j = i + 1; j < 4; j++) odd ^= o[i] > o[j];
        memcpy(order_of[n], o, sizeof o);
        order_odd[n++] = odd;
    }
}

/* The signed products (x + e dx)(y + e dy)(z + e dz) w, multiplied out and summed; where `upto` is 0, c0 alone. */
static void terms(const Exact *s, const int *number, int upto, Wide *c) {
    memset(c, 0, 4 * sizeof *c);
    for (int n = 0; n < 24; n++) {
        Wide product[4] = {1, 0, 0, 0};
        for (int j = 0; j < 3; j++) {
            int point = number[order_of[n][j]];
            int64_t weight = s->row[point][3] ? s->row[point][3] : 1, shift = weight;
            for (int power = 0; power <= j; power++) shift *= point;
            for (int k = upto; k > 0; k--) product[k] = product[k] * s->row[point][j] + product[k - 1] * shift;
            product[0] *= s->row[point][j];
        }
        Wide last = s->row[number[order_of[n][3]]][3];
        for (int k = 0; k <= upto; k++) c[k] += order_odd[n] ? -product[k] * last : product[k] * last;
    }
}

int exact_sign(const Exact *s, int a, int b, int c, int d) {
    if (!order_of[0][0]) make_orders();
    int number[4] = {a, b, c, d};
    Wide term[4];
    terms(s, number, 0, term);
    if (term[0] == 0) terms(s, number, 3, term);
    for (int k = 0; k < 4; k++)
        if (term[k] != 0) return term[k] > 0 ? 1 : -1;
    return 0;
}

/* ---- piercing */

static int has_corner(const int *corner, int point) { return corner[0] == point || corner[1] == point || corner[2] == point; }

int exact_pierces(const Exact *s, int u, int v, int face) {
    const int *corner = s->corner[face];
    if (exact_sign(s, corner[0], corner[1], corner[2], u) == exact_sign(s, corner[0], corner[1], corner[2], v)) return 0;
    int helper = 1, odd = 0, by_helper[3];
    while (helper == u || helper == v || has_corner(corner, helper)) helper++;
    for (int j = 0; j < 3; j++) by_helper[j] = exact_sign(s, u, v, helper, corner[j]);
    for (int j = 0; j < 3; j++) {
        int next = (j + 1) % 3;
        odd ^= by_helper[j] != by_helper[next] && by_helper[j] != exact_sign(s, u, v, corner[j], corner[next]);
    }
    return odd;
}

int exact_edges(const Exact *s, int solid, Edge *edges) {
    int count = 0, first = exact_vertex0(s, solid) + 1, end = first + s->vertices[solid];
    for (int u = first; u < end; u++)
        for (int v = u + 1; v < end; v++)
            if (s->together[u][v]) edges[count++] = (Edge){u, v};
    return count;
}
