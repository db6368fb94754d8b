// The stop-watch: makes scenes, checks that the kernel and two engines answer the same, and prints what each takes. The kernel and the plain engine are handed
// the bytes, the fast one a scene that is read already. Each time is the least of several rounds in which they take turns.
#include <algorithm>
#include <chrono>
#include <cmath>
#include <cstdio>
#include <cstdlib>
#include <random>
#include <vector>

#include "bodhranhaze.h"
#include "engine.hpp"
#include "fast.hpp"

namespace {

using Bytes = std::vector<std::uint8_t>;

// ---- scenes

struct Vertex {
  int x, y, z;
};

// The faces have corners from 1, as in the file.
struct Solid {
  std::vector<Vertex> vertices;
  std::vector<engine::Face> faces;
};

enum Kind { overlapping, apart, nested, touching, flat, kinds };
const char* const nameOf[kinds] = {"overlapping", "apart", "nested", "touching", "flat"};

const int sizes[] = {4, 8, 16, 32, 48};
const int seeds = 5;

// Rings of as many vertices each between two poles: n vertices and 2n - 4 faces; of 4 vertices, a tetrahedron.
void addFaces(Solid& s, int rings, int around) {
  auto at = [&](int ring, int i) { return 2 + ring * around + i % around; };
  int south = 2 + rings * around;
  for (int i = 0; i < around; i++) {
    s.faces.push_back({1, at(0, i), at(0, i + 1)});
    for (int ring = 0; ring + 1 < rings; ring++) {
      s.faces.push_back({at(ring, i), at(ring + 1, i), at(ring + 1, i + 1)});
      s.faces.push_back({at(ring, i), at(ring + 1, i + 1), at(ring, i + 1)});
    }
    s.faces.push_back({south, at(rings - 1, i + 1), at(rings - 1, i)});
  }
}

// A ball around (centre, 0, 0), each vertex at a distance from `least` to 1 times the radius, so that it is not convex.
Solid ball(std::mt19937& random, int n, double radius, double least, int centre) {
  const double pi = 3.14159265358979;
  int rings = n == 32 ? 5 : n == 4 ? 1 : 2, around = n == 4 ? 3 : (n - 2) / rings;
  double turn = std::uniform_real_distribution<>(0, 2 * pi)(random);
  std::uniform_real_distribution<> distance(least * radius, radius);
  Solid s;
  auto add = [&](double height, double angle) {
    double d = distance(random), flat = std::sqrt(1 - height * height);
    s.vertices.push_back({centre + static_cast<int>(d * height), static_cast<int>(d * flat * std::cos(angle)), static_cast<int>(d * flat * std::sin(angle))});
  };
  add(1, 0);
  for (int ring = 0; ring < rings; ring++)
    for (int i = 0; i < around; i++) add(n == 4 ? -0.3 : std::cos(pi * (ring + 1) / (rings + 1)), turn + 2 * pi * (i + 0.5 * ring) / around);
  if (n == 4) {
    s.faces = {{1, 2, 3}, {1, 3, 4}, {1, 4, 2}, {2, 4, 3}};
  } else {
    add(-1, 0);
    addFaces(s, rings, around);
  }
  return s;
}

void putRow(Bytes& b, char first, char second, const Vertex& v, int weight = 1) {
  b.push_back(first);
  b.push_back(second);
  for (int n : {v.x, v.y, v.z}) {
    b.push_back(n & 255);
    b.push_back(n >> 8 & 255);
  }
  b.push_back(weight);
}

Bytes write(const Solid& a, const Solid& b, const Vertex& far, int farWeight) {
  Bytes out = {'S', 'C'};
  for (const Solid* s : {&a, &b}) {
    out.push_back(s->vertices.size());
    out.push_back(s->faces.size());
  }
  putRow(out, 'F', 'P', far, farWeight);
  for (const Solid* s : {&a, &b})
    for (const Vertex& v : s->vertices) putRow(out, 'V', 'X', v);
  for (const Solid* s : {&a, &b})
    for (const engine::Face& f : s->faces)
      for (int n : {int('F'), int('C'), f.p, f.q, f.r}) out.push_back(n);
  out.push_back('E');
  out.push_back('N');
  return out;
}

Bytes sceneOf(Kind kind, int n, int seed) {
  std::mt19937 random(1000 * seed + 10 * n + kind);
  Vertex far = {4091, 4093, 4095};
  Solid a, b;
  switch (kind) {
    case apart:
      a = ball(random, n, 1200, 0.6, -2200);
      b = ball(random, n, 1200, 0.6, 2200);
      break;
    case nested:
      a = ball(random, n, 3600, 0.9, 0);
      b = ball(random, n, 90, 0.6, 0);
      break;
    case touching:  // A's cap is cut off flat, and B is its image in the cut: they share corners, edges and faces
      a = ball(random, n, 1800, 0.7, 0);
      for (Vertex& v : a.vertices) v.x = std::min(v.x, 300);
      b = a;
      for (Vertex& v : b.vertices) v.x = 600 - v.x;
      for (engine::Face& f : b.faces) std::swap(f.q, f.r);
      break;
    default:
      a = ball(random, n, 1800, 0.6, -500);
      b = ball(random, n, 1800, 0.6, 500);
  }
  if (kind == flat) {  // every point in one plane, the far point too: no determinant of the rows as they are says anything
    far.z = 0;
    for (Solid* s : {&a, &b})
      for (Vertex& v : s->vertices) v.z = 0;
  }
  return write(a, b, far, seed == 0 ? 0 : 1);  // a direction in one scene of five
}

// ---- the same answers

struct Answers {
  std::size_t refusal = 0, place = 0, verdict = 4, pairs = 0, inside[2] = {0, 0};
  std::vector<std::uint16_t> list;
  bool operator==(const Answers& o) const {
    return refusal == o.refusal && place == o.place && verdict == o.verdict && pairs == o.pairs && inside[0] == o.inside[0] && inside[1] == o.inside[1] && list == o.list;
  }
};

Answers byEngine(const Bytes& b) {
  engine::Scene s;
  engine::Refusal r = engine::read(b.data(), b.size(), s);
  Answers a;
  a.refusal = r.number;
  a.place = r.place;
  if (r.number != 0) return a;
  a.verdict = engine::verdict(s);
  engine::list(s, a.list);
  a.pairs = a.list.size() / 3;
  for (int k : {0, 1}) a.inside[k] = engine::countInside(s, k);
  return a;
}

// The fast engine tells the same of an accepted scene.
bool fastAlike(const Bytes& b, const Answers& a) {
  engine::Scene s;
  if (engine::read(b.data(), b.size(), s).number != 0) return true;
  std::vector<std::uint16_t> list;
  std::uint64_t inside[2];
  fast::survey(s, list, inside);
  for (int k : {0, 1})
    if (std::size_t(__builtin_popcountll(inside[k])) != a.inside[k]) return false;
  return list == a.list && std::size_t(fast::verdict(s)) == a.verdict;
}

// The one call for everything tells the same.
bool surveysAlike(const Bytes& b, const Answers& a) {
  std::uint64_t facts[9] = {0, 0, 0, 0, 0, 0, 0, 0, 99};
  std::vector<std::uint16_t> room(3 * a.pairs);
  room.reserve(1);
  std::size_t n = bodhranhaze_survey(b.data(), b.size(), room.data(), room.size(), facts, 8);
  return n == a.refusal && facts[0] == a.refusal && facts[1] == a.place && facts[2] == a.verdict && facts[3] == a.pairs && facts[4] == a.inside[0] &&
         facts[5] == a.inside[1] && std::size_t(__builtin_popcountll(facts[6])) == a.inside[0] &&
         std::size_t(__builtin_popcountll(facts[7])) == a.inside[1] && facts[8] == 99 && room == a.list;
}

// A list one place too short must be left as it is, and one with places to spare must be kept behind the listing.
Answers byKernel(const Bytes& b) {
  Answers a;
  a.refusal = bodhranhaze_refusal(b.data(), b.size());
  a.place = bodhranhaze_place(b.data(), b.size());
  a.verdict = bodhranhaze_verdict(b.data(), b.size());
  a.pairs = bodhranhaze_pairs(b.data(), b.size());
  for (int k : {0, 1}) a.inside[k] = bodhranhaze_inside(b.data(), b.size(), k + 1);
  const std::uint16_t pattern = 0xABCD;
  std::vector<std::uint16_t> room(3 * a.pairs + 4, pattern);
  bool kept = true;
  if (a.pairs > 0) {
    kept = bodhranhaze_listing(b.data(), b.size(), room.data(), 3 * a.pairs - 1) == a.pairs;
    for (std::uint16_t n : room) kept = kept && n == pattern;
  }
  kept = kept && bodhranhaze_listing(b.data(), b.size(), room.data(), room.size()) == a.pairs;
  for (std::size_t i = 3 * a.pairs; i < room.size(); i++) kept = kept && room[i] == pattern;
  a.list.assign(room.begin(), room.begin() + 3 * a.pairs);
  kept = kept && surveysAlike(b, a);
  if (!kept) a.pairs = ~std::size_t(0);
  return a;
}

void printBytes(const Bytes& b) {
  for (std::uint8_t n : b) std::printf("%02x", n);
  std::printf("\n");
}

// Each scene, and the same with a byte changed, at some places.
int compareAll() {
  int scenes = 0;
  std::mt19937 random(7);
  for (int kind = 0; kind < kinds; kind++)
    for (int n : sizes)
      for (int seed = 0; seed < seeds; seed++)
        for (int damage = 0; damage < 8; damage++, scenes++) {
          Bytes b = sceneOf(static_cast<Kind>(kind), n, seed);
          if (damage > 0) b[random() % b.size()] = random() % 256;
          Answers a = byKernel(b);
          if (a == byEngine(b) && fastAlike(b, a)) continue;
          std::printf("the answers differ: %s, %d vertices\n", nameOf[kind], n);
          printBytes(b);
          std::exit(1);
        }
  return scenes;
}

// ---- the time

using Clock = std::chrono::steady_clock;

volatile std::size_t sink;

// Microseconds for one call of f, over as many calls as take some 200 microseconds.
template <class F>
double once(F f, int calls) {
  auto start = Clock::now();
  for (int i = 0; i < calls; i++) sink = sink + f();
  return std::chrono::duration<double, std::micro>(Clock::now() - start).count() / calls;
}

// The kernel, the plain engine and the fast one; what is not asked of one takes no time.
struct Times {
  double kernel = 0, plain = 0, fast = 0;
};

template <class K, class P, class F>
void add(Times& total, K kernel, P plain, F fast) {
  int calls = std::max(1, static_cast<int>(200 / (once(kernel, 1) + 0.01)));
  double k = 1e18, p = 1e18, f = 1e18;
  for (int round = 0; round < 15; round++) {
    k = std::min(k, once(kernel, calls));
    p = std::min(p, once(plain, calls));
    f = std::min(f, once(fast, calls));
  }
  total.kernel += k;
  total.plain += p;
  total.fast += f;
}

void printJudge(const Times& t) { std::printf(" %6.2f %6.2f %5.2f |", t.kernel / seeds, t.plain / seeds, t.kernel / t.plain); }

void printTimes(const Times& t) {
  std::printf(" %7.2f %8.2f %7.2f %5.2f %5.2f |", t.kernel / seeds, t.plain / seeds, t.fast / seeds, t.kernel / t.plain, t.kernel / t.fast);
}

// Everything of a scene, by either engine.
std::size_t allPlain(const engine::Scene& s, std::vector<std::uint16_t>& list) {
  engine::list(s, list);
  return list.size() + engine::countInside(s, 0) + engine::countInside(s, 1);
}

std::size_t allFast(const engine::Scene& s, std::vector<std::uint16_t>& list) {
  std::uint64_t inside[2];
  fast::survey(s, list, inside);
  return list.size() + inside[0] + inside[1];
}

void printRow(Kind kind, int n) {
  static std::vector<std::uint16_t> room(3 * 2 * engine::mostFaces * engine::mostFaces), list;
  std::uint64_t facts[8];
  Times judge, verdict, all;
  for (int seed = 0; seed < seeds; seed++) {
    Bytes b = sceneOf(kind, n, seed);
    engine::Scene s;
    auto read = [&] { return engine::read(b.data(), b.size(), s).number; };
    add(judge, [&] { return bodhranhaze_refusal(b.data(), b.size()); }, read, [] { return 0; });
    add(verdict, [&] { return bodhranhaze_verdict(b.data(), b.size()); }, [&] { return read() + engine::verdict(s); }, [&] { return fast::verdict(s); });
    add(all, [&] { return bodhranhaze_survey(b.data(), b.size(), room.data(), room.size(), facts, 8) + facts[3]; },
        [&] { return read() + allPlain(s, list); }, [&] { return allFast(s, list); });
  }
  std::printf("| %-11s | %8d |", nameOf[kind], n);
  printJudge(judge);
  printTimes(verdict);
  printTimes(all);
  std::printf("\n");
}

void printTable() {
  std::printf("\nMicroseconds a scene: the kernel, the plain engine, the fast one, and the kernel's time as a ratio to each. The fast engine does not judge.\n");
  std::printf("All is the verdict, the listing and the enclosed vertices of both solids, judging and decoding included, in one call.\n\n");
  std::printf("| %-11s | %8s | %-20s | %-36s | %-36s |\n", "solids", "vertices", "judge", "verdict", "all");
  std::printf("|-------------|----------|----------------------|--------------------------------------|--------------------------------------|\n");
  for (int kind = 0; kind < kinds; kind++)
    for (int n : sizes) printRow(static_cast<Kind>(kind), n);
}

}  // namespace

int main() {
  std::printf("%d scenes, and the kernel and both engines answer the same.\n", compareAll());
  printTable();
}
