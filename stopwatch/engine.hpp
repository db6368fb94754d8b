// A plain exact engine beside the kernel. It judges a scene's bytes and answers the same questions by the same formulas, in 64-bit whole
// numbers, and nothing of it is proved: the stop-watch compares the kernel with it, in answers and in time.
#pragma once
#include <cstddef>
#include <cstdint>
#include <vector>

namespace engine {

using Whole = std::int64_t;
using Byte = std::uint8_t;

// ---- a scene

constexpr int leastVertices = 3, mostVertices = 48, leastFaces = 2, mostFaces = 96;
constexpr Whole mostCoordinate = 4095, mostWeight = 16;
constexpr int mostPoints = 2 * mostVertices + 1;

struct Row {
  Whole x, y, z, w;
};

// Three corners by their point numbers.
struct Face {
  int p, q, r;
};

// A is solid 0 and B is solid 1. A solid's vertices are the points above `low`; its faces have the numbers above `first`.
struct Scene {
  int vertices[2], faces[2], low[2], first[2];
  int farPoint;
  Row row[mostPoints + 1];
  Face face[2][mostFaces];
};

// ---- reading and judging, in one pass over the bytes

// Number and place; 0 and 0 where the scene is accepted.
struct Refusal {
  int number, place;
};

inline bool marked(const Byte* at, char first, char second) { return at[0] == first && at[1] == second; }

inline Whole twoBytes(const Byte* at) { return static_cast<std::int16_t>(at[0] | at[1] << 8); }

inline bool within(Whole low, Whole high, Whole n) { return low <= n && n <= high; }

// Refusals 5, 6 and 14 of a point, whose row is read, or 0. Only the far point may have weight 0.
inline int readRow(const Byte* at, Row& row, bool far) {
  row = {twoBytes(at + 2), twoBytes(at + 4), twoBytes(at + 6), static_cast<std::int8_t>(at[8])};
  for (Whole n : {row.x, row.y, row.z})
    if (!within(-mostCoordinate, mostCoordinate, n)) return 5;
  if ((row.w == 0 && !far) || !within(-mostWeight, mostWeight, row.w)) return 6;
  if (row.x == 0 && row.y == 0 && row.z == 0 && row.w == 0) return 14;
  return 0;
}

// Whether the face, whose corners are read, keeps rule 7.
inline bool readFace(const Byte* at, int vertices, int low, Face& face) {
  int p = at[2], q = at[3], r = at[4];
  face = {low + p, low + q, low + r};
  return within(1, vertices, p) && within(1, vertices, q) && within(1, vertices, r) && p != q && q != r && r != p;
}

// How many faces of a solid have the edge from i to j, the lower of the two first.
struct EdgeCount {
  Byte faces[mostPoints + 1][mostPoints + 1] = {};
  Byte& of(int i, int j) { return i < j ? faces[i][j] : faces[j][i]; }
};

inline bool closed(EdgeCount& count, const Face& f) { return (count.of(f.p, f.q) | count.of(f.q, f.r) | count.of(f.r, f.p)) % 2 == 0; }

// Rules 8 and 9: every vertex is in a face, and every edge in an even number of its solid's.
inline Refusal judgeShape(const Scene& s) {
  bool used[mostPoints + 1] = {};
  EdgeCount count;
  for (int k : {0, 1})
    for (int i = 0; i < s.faces[k]; i++) {
      const Face& f = s.face[k][i];
      used[f.p] = used[f.q] = used[f.r] = true;
      count.of(f.p, f.q)++;
      count.of(f.q, f.r)++;
      count.of(f.r, f.p)++;
    }
  for (int i = 1; i < s.farPoint; i++)
    if (!used[i]) return {8, i};
  for (int k : {0, 1})
    for (int i = 0; i < s.faces[k]; i++)
      if (!closed(count, s.face[k][i])) return {9, 1 + s.farPoint + s.first[k] + i};
  return {0, 0};
}

inline Refusal read(const Byte* bytes, std::size_t length, Scene& s) {
  if (length < 6 || !marked(bytes, 'S', 'C')) return {1, 0};
  for (int k : {0, 1}) {
    s.vertices[k] = bytes[2 + 2 * k];
    s.faces[k] = bytes[3 + 2 * k];
    if (!within(leastVertices, mostVertices, s.vertices[k]) || !within(leastFaces, mostFaces, s.faces[k])) return {2, 0};
  }
  int points = s.vertices[0] + s.vertices[1], faces = s.faces[0] + s.faces[1];
  if (length != static_cast<std::size_t>(17 + 9 * points + 5 * faces)) return {3, 0};
  s.low[0] = s.first[0] = 0;
  s.low[1] = s.vertices[0];
  s.first[1] = s.faces[0];
  s.farPoint = points + 1;

  const Byte* at = bytes + 6;
  int record = 1;
  for (int j = 0; j <= points; j++, record++, at += 9) {
    if (!(j == 0 ? marked(at, 'F', 'P') : marked(at, 'V', 'X'))) return {4, record};
    if (int fault = readRow(at, s.row[j == 0 ? s.farPoint : j], j == 0)) return {fault, record};
  }
  for (int k : {0, 1})
    for (int i = 0; i < s.faces[k]; i++, record++, at += 5) {
      if (!marked(at, 'F', 'C')) return {4, record};
      if (!readFace(at, s.vertices[k], s.low[k], s.face[k][i])) return {7, record};
    }
  if (!marked(at, 'E', 'N')) return {4, record};
  return judgeShape(s);
}

// ---- the sign of four points

inline Whole minor(Whole a, Whole b, Whole c, Whole d) { return a * d - b * c; }

// By the 2x2 minors of the first two rows and of the last two.
inline Whole determinant(const Row& a, const Row& b, const Row& c, const Row& d) {
  return minor(a.x, a.y, b.x, b.y) * minor(c.z, c.w, d.z, d.w) - minor(a.x, a.z, b.x, b.z) * minor(c.y, c.w, d.y, d.w) +
         minor(a.x, a.w, b.x, b.w) * minor(c.y, c.z, d.y, d.z) + minor(a.y, a.z, b.y, b.z) * minor(c.x, c.w, d.x, d.w) -
         minor(a.y, a.w, b.y, b.w) * minor(c.x, c.z, d.x, d.z) + minor(a.z, a.w, b.z, b.w) * minor(c.x, c.y, d.x, d.y);
}

// The row of point i with the shift k·i, k·i², k·i³ (k is w, or 1 where w is 0) in place of the coordinates that are marked: bit 0 for x, 1 for y, 2 for z.
inline Row shifted(const Scene& s, int i, int marks) {
  Row r = s.row[i];
  Whole k = r.w == 0 ? 1 : r.w;
  if (marks & 1) r.x = k * i;
  if (marks & 2) r.y = k * i * i;
  if (marks & 4) r.z = k * i * i * i;
  return r;
}

// The term of e to the power n: the shift stands for n of the three coordinates, in each way.
inline Whole term(const Scene& s, int a, int b, int c, int d, int n) {
  static constexpr int marksOf[4][3] = {{0}, {1, 2, 4}, {3, 5, 6}, {7}};
  static constexpr int ways[4] = {1, 3, 3, 1};
  Whole sum = 0;
  for (int k = 0; k < ways[n]; k++) {
    int m = marksOf[n][k];
    sum += determinant(shifted(s, a, m), shifted(s, b, m), shifted(s, c, m), shifted(s, d, m));
  }
  return sum;
}

// The first term that is not zero decides; that of e³ never is zero.
inline bool positive(const Scene& s, int a, int b, int c, int d) {
  Whole t = determinant(s.row[a], s.row[b], s.row[c], s.row[d]);
  for (int n = 1; t == 0; n++) t = term(s, a, b, c, d, n);
  return t > 0;
}

// ---- piercing, A(u) and A(v) first: by five signs, or with FORMULA defined by formula (13), as the kernel's two engines

#ifdef FORMULA

inline bool sideCounts(const Scene& s, int u, int v, int from, int to, bool hFrom, bool hTo) {
  return hFrom != hTo && hFrom != positive(s, u, v, from, to);
}

inline bool pierces(const Scene& s, int u, int v, const Face& f) {
  if (positive(s, f.p, f.q, f.r, u) == positive(s, f.p, f.q, f.r, v)) return false;
  int h = 1;
  while (h == u || h == v || h == f.p || h == f.q || h == f.r) h++;
  bool hp = positive(s, u, v, h, f.p), hq = positive(s, u, v, h, f.q), hr = positive(s, u, v, h, f.r);
  return sideCounts(s, u, v, f.p, f.q, hp, hq) ^ sideCounts(s, u, v, f.q, f.r, hq, hr) ^ sideCounts(s, u, v, f.r, f.p, hr, hp);
}
#else
inline bool pierces(const Scene& s, int u, int v, const Face& f) {
  if (positive(s, f.p, f.q, f.r, u) == positive(s, f.p, f.q, f.r, v)) return false;
  bool pq = positive(s, u, v, f.p, f.q);
  return pq == positive(s, u, v, f.q, f.r) && pq == positive(s, u, v, f.r, f.p);
}
#endif

// ---- the questions to an accepted scene

// A solid's edges: bit j - 1 - low of word i for the edge from i to the higher j.
struct Edges {
  std::uint64_t to[mostPoints + 1] = {};
};

inline Edges edgesOf(const Scene& s, int k) {
  Edges e;
  auto put = [&](int i, int j) { (i < j ? e.to[i] |= std::uint64_t(1) << (j - 1 - s.low[k]) : e.to[j] |= std::uint64_t(1) << (i - 1 - s.low[k])); };
  for (int i = 0; i < s.faces[k]; i++) {
    const Face& f = s.face[k][i];
    put(f.p, f.q);
    put(f.q, f.r);
    put(f.r, f.p);
  }
  return e;
}

// Hands each pierced pair to `found`, in the listing's order, until one of its answers is false.
template <class Found>
inline bool eachPair(const Scene& s, Found found) {
  for (int k : {0, 1}) {
    Edges e = edgesOf(s, k);
    int other = 1 - k;
    for (int u = s.low[k] + 1; u <= s.low[k] + s.vertices[k]; u++)
      for (int v = u + 1; v <= s.low[k] + s.vertices[k]; v++) {
        if (!(e.to[u] >> (v - 1 - s.low[k]) & 1)) continue;
        for (int i = 0; i < s.faces[other]; i++)
          if (pierces(s, u, v, s.face[other][i]) && !found(u, v, s.first[other] + i + 1)) return false;
      }
  }
  return true;
}

inline void list(const Scene& s, std::vector<std::uint16_t>& out) {
  out.clear();
  eachPair(s, [&](int u, int v, int f) {
    for (int n : {u, v, f}) out.push_back(static_cast<std::uint16_t>(n));
    return true;
  });
}

// Whether the other solid encloses point i of solid k: the way to the far point pierces an odd number of its faces.
inline bool enclosed(const Scene& s, int k, int i) {
  bool odd = false;
  for (int j = 0; j < s.faces[1 - k]; j++) odd ^= pierces(s, i, s.farPoint, s.face[1 - k][j]);
  return odd;
}

inline std::size_t countInside(const Scene& s, int k) {
  std::size_t n = 0;
  for (int i = s.low[k] + 1; i <= s.low[k] + s.vertices[k]; i++) n += enclosed(s, k, i);
  return n;
}

inline bool anyInside(const Scene& s, int k) {
  for (int i = s.low[k] + 1; i <= s.low[k] + s.vertices[k]; i++)
    if (enclosed(s, k, i)) return true;
  return false;
}

// 0 cross, 1 a-in-b, 2 b-in-a, 3 apart.
inline int verdict(const Scene& s) {
  if (!eachPair(s, [](int, int, int) { return false; })) return 0;
  if (anyInside(s, 0)) return 1;
  if (anyInside(s, 1)) return 2;
  return 3;
}

}  // namespace engine
