// Scenes by chance: a seed and a number give the same one each time. Most are small, and many are flat, touching, weighted or damaged.
#pragma once
#include <algorithm>
#include <array>
#include <cmath>
#include <cstdint>
#include <cstdlib>
#include <vector>

namespace scenes {

using Bytes = std::vector<std::uint8_t>;

constexpr int mostVertices = 48, mostFaces = 96, mostCoordinate = 4095, mostWeight = 16;

class Chance {
 public:
  Chance(std::uint64_t seed, std::uint64_t number) : state(seed * 0x9E3779B97F4A7C15u ^ number * 0xD1B54A32D192ED03u) {}
  std::uint64_t next() {  // splitmix64
    std::uint64_t z = state += 0x9E3779B97F4A7C15u;
    z = (z ^ z >> 30) * 0xBF58476D1CE4E5B9u;
    z = (z ^ z >> 27) * 0x94D049BB133111EBu;
    return z ^ z >> 31;
  }
  int between(int least, int most) { return least + static_cast<int>(next() % static_cast<std::uint64_t>(most - least + 1)); }
  bool oneOf(int n) { return between(1, n) == 1; }

 private:
  std::uint64_t state;
};

using Row = std::array<int, 4>;
using Corners = std::array<int, 3>;  // from 1, as in the file

struct Solid {
  std::vector<Row> rows;
  std::vector<Corners> faces;
};

// ---- tables of triangles in which every edge is in an even number of faces

inline void tetrahedron(std::vector<Corners>& faces, int p, int q, int r, int s) {
  for (Corners c : {Corners{p, q, r}, Corners{p, q, s}, Corners{p, r, s}, Corners{q, r, s}}) faces.push_back(c);
}

// A ring of n - 2 vertices between two poles.
inline void ring(std::vector<Corners>& faces, int n) {
  int around = n - 2;
  for (int k = 0; k < around; k++) {
    int p = 1 + k, q = 1 + (k + 1) % around;
    faces.push_back({p, q, n - 1});
    faces.push_back({q, p, n});
  }
}

// Every face twice, the second time turned in some way.
inline void doubled(Chance& chance, std::vector<Corners>& faces, int n) {
  for (int k = 0; k < n; k += 3) {
    Corners c = {k % n + 1, (k + 1) % n + 1, (k + 2) % n + 1};
    faces.push_back(c);
    if (chance.oneOf(2)) std::swap(c[0], c[2]);
    faces.push_back(c);
  }
}

// A face that is there already goes.
inline void toggle(std::vector<Corners>& faces, const Corners& c) {
  auto at = std::find(faces.begin(), faces.end(), c);
  if (at != faces.end())
    faces.erase(at);
  else if (faces.size() < static_cast<std::size_t>(mostFaces))
    faces.push_back(c);
}

inline bool hasEveryVertex(const std::vector<Corners>& faces, int n) {
  std::uint64_t seen = 0;
  for (const Corners& c : faces)
    for (int v : c) seen |= std::uint64_t(1) << (v - 1);
  return seen == (std::uint64_t(1) << n) - 1;
}

// The sum of tetrahedra on any vertices. Now and then a vertex is left without a face, which is refused.
inline void sum(Chance& chance, std::vector<Corners>& faces, int n) {
  int least = chance.between(1, n);
  for (int k = 0; k < 3 * n && (k < least || !hasEveryVertex(faces, n)); k++) {
    std::vector<int> four;
    for (int v = 1; v <= n; v++)
      if (chance.between(1, n - v + 1) <= 4 - static_cast<int>(four.size())) four.push_back(v);
    std::vector<Corners> more;
    tetrahedron(more, four[0], four[1], four[2], four[3]);
    for (const Corners& c : more) toggle(faces, c);
  }
}

inline int sizeOf(Chance& chance) {
  int kind = chance.between(1, 200);
  if (kind <= 130) return chance.between(3, 6);
  if (kind <= 190) return chance.between(5, 10);
  return kind <= 199 ? chance.between(8, 20) : chance.between(16, mostVertices);
}

inline Solid ringOf(int n) {
  Solid s;
  s.rows.resize(static_cast<std::size_t>(n), Row{0, 0, 0, 1});
  ring(s.faces, n);
  return s;
}

inline Solid table(Chance& chance) {
  Solid s;
  int n = sizeOf(chance);
  switch (n < 4 ? 1 : chance.between(0, 3)) {
    case 0: return ringOf(std::max(5, n));
    case 1: doubled(chance, s.faces, n); break;
    case 2:
      n = std::min(n, 10);
      sum(chance, s.faces, n);
      break;
    default:  // in parts
      n = n / 4 * 4;
      for (int k = 0; k < n; k += 4) tetrahedron(s.faces, k + 1, k + 2, k + 3, k + 4);
  }
  s.rows.resize(static_cast<std::size_t>(n), Row{0, 0, 0, 1});
  return s;
}

// ---- where the vertices lie

inline void inBox(Chance& chance, Solid& s, int reach) {
  for (Row& r : s.rows)
    for (int j = 0; j < 3; j++) r[static_cast<std::size_t>(j)] = chance.between(-reach, reach);
}

// Around a centre on the first axis; the last two rows are its poles.
inline void onBall(Chance& chance, Solid& s, double radius, int centre) {
  const double pi = 3.14159265358979;
  std::size_t around = s.rows.size() - 2;
  for (std::size_t k = 0; k < s.rows.size(); k++) {
    double d = radius * chance.between(60, 100) / 100, angle = 2 * pi * static_cast<double>(k) / static_cast<double>(around);
    double x = k < around ? 0 : k == around ? d : -d, flat = k < around ? d : 0;
    s.rows[k] = {centre + static_cast<int>(x), static_cast<int>(flat * std::cos(angle)), static_cast<int>(flat * std::sin(angle)), 1};
  }
}

inline void place(Chance& chance, Solid& a, Solid& b) {
  static const int reaches[] = {1, 2, 3, 10, 100, 1000, mostCoordinate};
  int reach = reaches[chance.between(0, 6)];
  switch (chance.between(0, 5)) {
    case 0:
      onBall(chance, a, 900, -1000);
      onBall(chance, b, 900, chance.oneOf(2) ? 1000 : -400);
      break;
    case 1:  // the one within the other
      a = ringOf(std::max<int>(6, static_cast<int>(a.rows.size())));
      onBall(chance, a, 3000, 0);
      onBall(chance, b, 60, chance.between(-9, 9));
      if (chance.oneOf(2)) std::swap(a, b);
      break;
    case 2:
      inBox(chance, a, reach);
      onBall(chance, b, 3 * (reach < 1000 ? reach : 1000), 0);
      break;
    default:
      inBox(chance, a, reach);
      inBox(chance, b, reach);
  }
}

// ---- ties and weights

// Everything in one plane, on one line, or rows of the one solid among the other's.
inline void degenerate(Chance& chance, Solid& a, Solid& b) {
  int kind = chance.between(0, 8);
  for (Solid* s : {&a, &b})
    for (Row& r : s->rows) {
      if (kind == 0) r[2] = 0;
      if (kind == 1) r[1] = r[2] = r[0];
      if (kind == 2) r = a.rows[0];
      if (kind == 3 && chance.oneOf(3)) r = a.rows[static_cast<std::size_t>(chance.between(0, static_cast<int>(a.rows.size()) - 1))];
    }
}

// Weights by chance; where there is room, so that the point itself stays.
inline void weigh(Chance& chance, Row& r, int manner) {
  if (manner < 2) return;
  int w = chance.between(1, manner == 2 ? mostWeight : 3);
  if (manner > 2 && chance.oneOf(2)) w = -w;
  bool fits = manner != 3;
  for (std::size_t j = 0; j < 3; j++) fits = fits && std::abs(r[j] * w) <= mostCoordinate;
  for (std::size_t j = 0; j < 3 && fits; j++) r[j] *= w;
  r[3] = w;
}

inline Row farPoint(Chance& chance, const Solid& a) {
  Row r = {4091, 4093, 4095, 1};
  int kind = chance.between(0, 5);
  if (kind == 1) r = {chance.between(-3, 3), chance.between(-3, 3), chance.between(-3, 3), 0};
  if (kind == 2) r = a.rows[0];
  if (kind == 3) {
    for (int& n : r) n = chance.between(-mostCoordinate, mostCoordinate);
    r[3] %= mostWeight + 1;
  }
  if (kind == 4) r[2] = 0;
  return r;
}

// ---- bytes

inline void putRow(Bytes& out, const char* mark, const Row& r) {
  out.push_back(static_cast<std::uint8_t>(mark[0]));
  out.push_back(static_cast<std::uint8_t>(mark[1]));
  for (std::size_t j = 0; j < 3; j++) {
    out.push_back(static_cast<std::uint8_t>(r[j]));
    out.push_back(static_cast<std::uint8_t>(static_cast<unsigned>(r[j]) >> 8));
  }
  out.push_back(static_cast<std::uint8_t>(r[3]));
}

inline void write(Bytes& out, const Solid& a, const Solid& b, const Row& far) {
  out.assign({'S', 'C'});
  for (const Solid* s : {&a, &b}) {
    out.push_back(static_cast<std::uint8_t>(s->rows.size()));
    out.push_back(static_cast<std::uint8_t>(s->faces.size()));
  }
  putRow(out, "FP", far);
  for (const Solid* s : {&a, &b})
    for (const Row& r : s->rows) putRow(out, "VX", r);
  for (const Solid* s : {&a, &b})
    for (const Corners& c : s->faces)
      for (int n : {int('F'), int('C'), c[0], c[1], c[2]}) out.push_back(static_cast<std::uint8_t>(n));
  out.push_back('E');
  out.push_back('N');
}

// A corner changed for another vertex of its solid, which leaves an edge open or a vertex alone.
inline void damageFace(Chance& chance, Bytes& b) {
  if (b[3] + b[5] == 0) return;
  int face = chance.between(0, b[3] + b[5] - 1), vertices = face < b[3] ? b[2] : b[4];
  std::size_t at = static_cast<std::size_t>(15 + 9 * (b[2] + b[4]) + 5 * face + chance.between(2, 4));
  b[at] = static_cast<std::uint8_t>(chance.between(1, vertices));
}

// A byte changed, anywhere or in front; a byte cut off or added.
inline void damage(Chance& chance, Bytes& b) {
  int length = static_cast<int>(b.size());
  switch (chance.between(0, 7)) {
    case 0: b[static_cast<std::size_t>(chance.between(0, 5))] = static_cast<std::uint8_t>(chance.between(0, 255)); break;
    case 1: b.resize(static_cast<std::size_t>(chance.between(0, length))); break;
    case 2: b.push_back('N'); break;
    case 3: b[static_cast<std::size_t>(chance.between(0, length - 1))] ^= static_cast<std::uint8_t>(1 << chance.between(0, 7)); break;
    case 4: b[static_cast<std::size_t>(chance.between(6, length - 1))] = static_cast<std::uint8_t>(chance.between(0, 255)); break;
    default: damageFace(chance, b);
  }
}

inline void make(std::uint64_t seed, std::uint64_t number, Bytes& out) {
  Chance chance(seed, number);
  Solid a = table(chance), b = table(chance);
  place(chance, a, b);
  degenerate(chance, a, b);
  int manner = chance.between(0, 4);
  for (Solid* s : {&a, &b})
    for (Row& r : s->rows) weigh(chance, r, manner);
  write(out, a, b, farPoint(chance, a));
  if (chance.oneOf(8)) damage(chance, out);
}

}  // namespace scenes
