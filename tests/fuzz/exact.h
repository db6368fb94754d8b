/*
 * The requirements once more, in whole numbers of 128 bits: the judge as its table stands, the sign by all its products, piercing by
 * formula (13). It shares nothing with the kernel or with the engines of the stop-watch, and nothing in it is shortened by a theorem.
 */
#ifndef EXACT_H
#define EXACT_H

#include <stddef.h>
#include <stdint.h>

enum { LEAST_VERTICES = 3, MOST_VERTICES = 48, LEAST_FACES = 2, MOST_FACES = 96, MOST_COORDINATE = 4095, MOST_WEIGHT = 16 };
enum { POINTS = 2 * MOST_VERTICES + 1, MOST_EDGES = 3 * MOST_FACES };

/* Solid 0 is A. Points and faces have a scene's numbers, from 1; corners are point numbers. */
typedef struct {
    int vertices[2], faces[2], far_point;
    int64_t row[POINTS + 1][4];
    int corner[2 * MOST_FACES + 1][3];
    uint8_t together[POINTS + 1][POINTS + 1];
} Exact;

typedef struct {
    int number, place;
} Fault;

typedef struct {
    int lower, higher;
} Edge;

/* The refusal's number and place, 0 and 0 where the bytes are a scene, which is then decoded. */
Fault exact_judge(const uint8_t *bytes, size_t length, Exact *s);

/* The refusal of a row, 5, 6 or 14, or 0; only the far point may have weight 0. */
int exact_row_fault(const int64_t *row, int is_far);

/* 1 or -1, of four differently numbered points. */
int exact_sign(const Exact *s, int a, int b, int c, int d);

int exact_pierces(const Exact *s, int u, int v, int face);

/* The edges of a solid in the listing's order, and how many there are. */
int exact_edges(const Exact *s, int solid, Edge *edges);

/* The points behind which a solid's vertices begin, and the faces behind which its faces do. */
int exact_vertex0(const Exact *s, int solid);
int exact_face0(const Exact *s, int solid);

#endif
