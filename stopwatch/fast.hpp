// A fast exact engine beside the plain one: of an accepted scene each face's plane, each edge's line and each point's side of a face is worked out once, and
// an edge is asked of those faces alone whose planes part its ends. Nothing of it is proved, and it does not judge.
#pragma once
#include "engine.hpp"

namespace fast {

using engine::Row;
using engine::Scene;
using engine::Whole;
using engine::mostFaces;
using engine::mostPoints;
using engine::mostVertices;

constexpr int mostEdges = 3 * mostFaces / 2;

// ---- lines and planes

// The 2x2 minors of two rows: columns xy, xz, xw, yz, yw, zw.
struct Line {
  Whole minor[6];
};

// Its value at a row is the determinant of the three rows and that one.
struct Plane {
  Whole x, y, z, w;
};

inline Line join(const Row& a, const Row& b) {
  using engine::minor;
  return {{minor(a.x, a.y, b.x, b.y), minor(a.x, a.z, b.x, b.z), minor(a.x, a.w, b.x, b.w), minor(a.y, a.z, b.y, b.z), minor(a.y, a.w, b.y, b.w), minor(a.z, a.w, b.z, b.w)}};
}

inline Plane span(const Row& p, const Line& l) {
  const Whole* m = l.minor;
  return {-(p.y * m[5] - p.z * m[4] + p.w * m[3]), p.x * m[5] - p.z * m[2] + p.w * m[1], -(p.x * m[4] - p.y * m[2] + p.w * m[0]), p.x * m[3] - p.y * m[1] + p.z * m[0]};
}

inline Whole at(const Plane& n, const Row& t) { return n.x * t.x + n.y * t.y + n.z * t.z + n.w * t.w; }

inline Whole meet(const Line& l, const Line& k) {
  const Whole *a = l.minor, *b = k.minor;
  return a[0] * b[5] - a[1] * b[4] + a[2] * b[3] + a[3] * b[2] - a[4] * b[1] + a[5] * b[0];
}

// ---- ties

// The minors of two shifted rows, as polynomials in e up to e².
struct ShiftedLine {
  Whole minor[6][3];
};

inline ShiftedLine joinShifted(const Scene& s, int i, int j) {
  static constexpr int columns[6][2] = {{0, 1}, {0, 2}, {0, 3}, {1, 2}, {1, 3}, {2, 3}};
  Row r = s.row[i], t = s.row[j], ri = engine::shifted(s, i, 7), tj = engine::shifted(s, j, 7);
  Whole a[4] = {r.x, r.y, r.z, r.w}, b[4] = {t.x, t.y, t.z, t.w}, c[4] = {ri.x, ri.y, ri.z, 0}, d[4] = {tj.x, tj.y, tj.z, 0};
  ShiftedLine l;
  for (int k = 0; k < 6; k++) {
    int m = columns[k][0], n = columns[k][1];
    l.minor[k][0] = a[m] * b[n] - a[n] * b[m];
    l.minor[k][1] = c[m] * b[n] + a[m] * d[n] - c[n] * b[m] - a[n] * d[m];
    l.minor[k][2] = c[m] * d[n] - c[n] * d[m];
  }
  return l;
}

// Where c0 is zero: the first of c1, c2 and c3 that is not.
inline Whole tie(const Scene& s, int a, int b, int c, int d) {
  static constexpr int signs[6] = {1, -1, 1, 1, -1, 1};
  ShiftedLine l = joinShifted(s, a, b), m = joinShifted(s, c, d);
  for (int power = 1; power <= 3; power++) {
    Whole sum = 0;
    for (int k = 0; k < 6; k++)
      for (int i = power < 2 ? 0 : power - 2; i <= power && i <= 2; i++) sum += signs[k] * l.minor[k][i] * m.minor[5 - k][power - i];
    if (sum != 0) return sum;
  }
  return 0;
}

// ---- a solid made ready

struct Edge {
  int u, v;
  Line line;
};

// A side of a face: the number of its edge, and whether the face has it the other way round.
struct Side {
  int edge;
  bool turned;
};

// The edges are in the listing's order.
struct Solid {
  int edges = 0;
  Edge edge[mostEdges];
  Plane plane[mostFaces];
  Side side[mostFaces][3];
};

inline void makeReady(const Scene& s, int k, Solid& t) {
  engine::Edges e = engine::edgesOf(s, k);
  int low = s.low[k], number[mostVertices][mostVertices];
  for (int i = 0; i < s.vertices[k]; i++)
    for (std::uint64_t w = e.to[low + 1 + i]; w != 0; w &= w - 1) {
      int j = __builtin_ctzll(w), u = low + 1 + i, v = low + 1 + j;
      number[i][j] = t.edges;
      t.edge[t.edges++] = {u, v, join(s.row[u], s.row[v])};
    }
  for (int i = 0; i < s.faces[k]; i++) {
    engine::Face f = s.face[k][i];
    int corner[4] = {f.p - low - 1, f.q - low - 1, f.r - low - 1, f.p - low - 1};
    for (int j = 0; j < 3; j++) {
      int a = corner[j], b = corner[j + 1];
      t.side[i][j] = a < b ? Side{number[a][b], false} : Side{number[b][a], true};
    }
    t.plane[i] = span(s.row[f.p], join(s.row[f.q], s.row[f.r]));
  }
}

// ---- the questions

// Of a solid's faces those that a point lies below.
struct Below {
  std::uint64_t word[2] = {0, 0};
};

// A scene made ready: both solids, and the sides of each vertex.
struct Ready {
  const Scene& s;
  Solid solid[2];
  Below below[mostPoints + 1];

  explicit Ready(const Scene& scene) : s(scene) {
    for (int k : {0, 1}) makeReady(s, k, solid[k]);
  }

  bool isBelow(int k, int face, int t) const {
    Whole d = at(solid[k].plane[face], s.row[t]);
    if (__builtin_expect(d == 0, 0)) d = tie(s, s.face[k][face].p, s.face[k][face].q, s.face[k][face].r, t);
    return d < 0;
  }

  Below sidesOf(int k, int t) const {
    Below b;
    for (int i = 0; i < s.faces[k]; i++) b.word[i / 64] |= std::uint64_t(isBelow(k, i, t)) << i % 64;
    return b;
  }

  void tellSides(int k) {
    for (int i = s.low[k] + 1; i <= s.low[k] + s.vertices[k]; i++) below[i] = sidesOf(1 - k, i);
  }

  bool isNegative(const Edge& e, int k, Side side) const {
    const Edge& o = solid[k].edge[side.edge];
    Whole d = meet(e.line, o.line);
    if (__builtin_expect(d == 0, 0)) d = tie(s, e.u, e.v, o.u, o.v);
    return (d < 0) != side.turned;
  }

  // A face whose plane parts the ends of e is pierced where the signs against its three sides are alike.
  bool pierces(const Edge& e, int k, int face) const {
    const Side* side = solid[k].side[face];
    bool first = isNegative(e, k, side[0]);
    return isNegative(e, k, side[1]) == first && isNegative(e, k, side[2]) == first;
  }

  // Hands each face of solid k that e pierces to `found`, until one of its answers is false.
  template <class Found>
  bool eachFace(const Edge& e, const Below& u, const Below& v, int k, Found found) const {
    for (int h : {0, 1})
      for (std::uint64_t w = u.word[h] ^ v.word[h]; w != 0; w &= w - 1) {
        int face = __builtin_ctzll(w) + 64 * h;
        if (pierces(e, k, face) && !found(face)) return false;
      }
    return true;
  }

  // The word of solid k's enclosed vertices, up to the first where that is enough.
  std::uint64_t insideOf(int k, bool firstOnly) const {
    Below far = sidesOf(1 - k, s.farPoint);
    std::uint64_t inside = 0;
    for (int i = 0; i < s.vertices[k]; i++) {
      int t = s.low[k] + 1 + i;
      bool odd = false;
      eachFace({t, s.farPoint, join(s.row[t], s.row[s.farPoint])}, below[t], far, 1 - k, [&](int) { return odd = !odd, true; });
      inside |= std::uint64_t(odd) << i;
      if (odd && firstOnly) break;
    }
    return inside;
  }

  template <class Found>
  bool eachPair(int k, Found found) const {
    for (int i = 0; i < solid[k].edges; i++) {
      const Edge& e = solid[k].edge[i];
      if (!eachFace(e, below[e.u], below[e.v], 1 - k, [&](int face) { return found(e, s.first[1 - k] + face + 1); })) return false;
    }
    return true;
  }
};

// The listing, and the words of enclosed vertices.
inline void survey(const Scene& s, std::vector<std::uint16_t>& list, std::uint64_t inside[2]) {
  Ready t(s);
  list.clear();
  for (int k : {0, 1}) t.tellSides(k);
  for (int k : {0, 1})
    t.eachPair(k, [&](const Edge& e, int face) {
      for (int n : {e.u, e.v, face}) list.push_back(static_cast<std::uint16_t>(n));
      return true;
    });
  for (int k : {0, 1}) inside[k] = t.insideOf(k, false);
}

// 0 cross, 1 a-in-b, 2 b-in-a, 3 apart.
inline int verdict(const Scene& s) {
  Ready t(s);
  for (int k : {0, 1}) {
    t.tellSides(k);
    if (!t.eachPair(k, [](const Edge&, int) { return false; })) return 0;
  }
  for (int k : {0, 1})
    if (t.insideOf(k, true) != 0) return 1 + k;
  return 3;
}

}  // namespace fast
