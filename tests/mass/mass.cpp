// mass SEED COUNT [FIRST]: asks the kernel and the plain C++ engine the same of so many scenes, the first of which has the number FIRST,
// else 0. The first difference is printed and ends it with status 1. With BOTH defined the kernel is asked twice: by its plain engine, and
// by its formula engine, whose calls then have names of their own.
#include <cstdio>
#include <cstdlib>
#include <cstring>
#include <ctime>

#include "bodhranhaze.h"
#include "engine.hpp"
#include "scenes.hpp"

#ifdef BOTH
extern "C" {
std::size_t formula_bodhranhaze_refusal(const std::uint8_t*, std::size_t);
std::size_t formula_bodhranhaze_place(const std::uint8_t*, std::size_t);
std::size_t formula_bodhranhaze_verdict(const std::uint8_t*, std::size_t);
std::size_t formula_bodhranhaze_pairs(const std::uint8_t*, std::size_t);
std::size_t formula_bodhranhaze_inside(const std::uint8_t*, std::size_t, std::size_t);
std::size_t formula_bodhranhaze_listing(const std::uint8_t*, std::size_t, std::uint16_t*, std::size_t);
std::size_t formula_bodhranhaze_survey(const std::uint8_t*, std::size_t, std::uint16_t*, std::size_t, std::uint64_t*, std::size_t);
}
#endif

namespace {

struct Kernel {
  const char* name;
  decltype(&bodhranhaze_refusal) refusal, place, verdict, pairs;
  decltype(&bodhranhaze_inside) inside;
  decltype(&bodhranhaze_listing) listing;
  decltype(&bodhranhaze_survey) survey;
};

const Kernel kernels[] = {
    {"plain", bodhranhaze_refusal, bodhranhaze_place, bodhranhaze_verdict, bodhranhaze_pairs, bodhranhaze_inside, bodhranhaze_listing,
     bodhranhaze_survey},
#ifdef BOTH
    {"formula", formula_bodhranhaze_refusal, formula_bodhranhaze_place, formula_bodhranhaze_verdict, formula_bodhranhaze_pairs,
     formula_bodhranhaze_inside, formula_bodhranhaze_listing, formula_bodhranhaze_survey},
#endif
};

struct Answers {
  std::size_t refusal, place, verdict;
  std::vector<std::uint16_t> list;
  std::uint64_t enclosed[2];
  std::size_t pairs() const { return list.size() / 3; }
  std::size_t inside(int k) const { return static_cast<std::size_t>(__builtin_popcountll(enclosed[k])); }
};

// ---- by the engine

std::uint64_t enclosedBy(const engine::Scene& s, int k) {
  std::uint64_t word = 0;
  for (int i = 0; i < s.vertices[k]; i++) word |= static_cast<std::uint64_t>(engine::enclosed(s, k, s.low[k] + 1 + i)) << i;
  return word;
}

void byEngine(const scenes::Bytes& b, Answers& a) {
  engine::Scene s;
  engine::Refusal r = engine::read(b.data(), b.size(), s);
  a.refusal = static_cast<std::size_t>(r.number);
  a.place = static_cast<std::size_t>(r.place);
  a.verdict = BODHRANHAZE_REFUSED;
  a.list.clear();
  a.enclosed[0] = a.enclosed[1] = 0;
  if (r.number != 0) return;
  engine::list(s, a.list);
  for (int k : {0, 1}) a.enclosed[k] = enclosedBy(s, k);
  std::size_t enclosed = a.enclosed[0] ? BODHRANHAZE_A_IN_B : a.enclosed[1] ? BODHRANHAZE_B_IN_A : BODHRANHAZE_APART;
  a.verdict = a.list.empty() ? enclosed : static_cast<std::size_t>(BODHRANHAZE_CROSS);
}

// ---- by the kernel: the name of the first call that answers something else, or nothing

constexpr std::uint16_t contents = 0xABCD;

// The listing, and behind it the contents from before, over so many places.
bool holdsList(const std::uint16_t* list, const Answers& a, std::size_t places) {
  if (!a.list.empty() && std::memcmp(list, a.list.data(), 2 * a.list.size()) != 0) return false;
  for (std::size_t i = a.list.size(); i < places; i++)
    if (list[i] != contents) return false;
  return true;
}

bool surveys(const Kernel& k, const scenes::Bytes& b, const Answers& a, std::uint16_t* list, std::size_t places) {
  std::uint64_t facts[BODHRANHAZE_FACTS + 1];
  const std::uint64_t wanted[] = {a.refusal,   a.place,     a.verdict,     a.pairs(),     a.inside(0),
                                  a.inside(1), a.enclosed[0], a.enclosed[1], contents};
  facts[BODHRANHAZE_FACTS] = contents;
  std::fill(list, list + places, contents);
  if (k.survey(b.data(), b.size(), list, places, facts, BODHRANHAZE_FACTS) != a.refusal) return false;
  return std::memcmp(facts, wanted, sizeof wanted) == 0 && holdsList(list, a, places);
}

bool lists(const Kernel& k, const scenes::Bytes& b, const Answers& a, std::uint16_t* list, std::size_t places) {
  std::fill(list, list + places, contents);
  if (k.listing(b.data(), b.size(), list, places) != a.pairs() || !holdsList(list, a, places)) return false;
  if (a.list.empty()) return true;
  std::fill(list, list + places, contents);
  k.listing(b.data(), b.size(), list, a.list.size() - 1);  // no room: nothing is written
  for (std::size_t i = 0; i < places; i++)
    if (list[i] != contents) return false;
  return true;
}

const char* difference(const Kernel& k, const scenes::Bytes& b, const Answers& a) {
  static std::uint16_t list[BODHRANHAZE_PLACES + 4];
  std::size_t places = a.list.size() + 4;
  if (k.refusal(b.data(), b.size()) != a.refusal) return "refusal";
  if (k.place(b.data(), b.size()) != a.place) return "place";
  if (k.verdict(b.data(), b.size()) != a.verdict) return "verdict";
  if (!surveys(k, b, a, list, places)) return "survey";
  if (a.refusal != 0) return nullptr;
  if (k.pairs(b.data(), b.size()) != a.pairs()) return "pairs";
  for (int solid : {0, 1})
    if (k.inside(b.data(), b.size(), static_cast<std::size_t>(solid) + 1) != a.inside(solid)) return "inside";
  return lists(k, b, a, list, places) ? nullptr : "listing";
}

// ---- all of them

struct Tally {
  unsigned long refused[16] = {}, verdicts[5] = {}, pairs = 0;
};

[[noreturn]] void tellDifference(const Kernel& k, const char* call, std::uint64_t seed, std::uint64_t number, const scenes::Bytes& b) {
  std::printf("difference in scene %llu of seed %llu: %s of the %s engine\n", static_cast<unsigned long long>(number),
              static_cast<unsigned long long>(seed), call, k.name);
  for (std::uint8_t n : b) std::printf("%02x", n);
  std::printf("\nagain: mass %llu 1 %llu\n", static_cast<unsigned long long>(seed), static_cast<unsigned long long>(number));
  std::exit(1);
}

Tally compare(std::uint64_t seed, std::uint64_t first, std::uint64_t count) {
  Tally tally;
  scenes::Bytes bytes;
  Answers answers;
  for (std::uint64_t number = first; number < first + count; number++) {
    scenes::make(seed, number, bytes);
    byEngine(bytes, answers);
    for (const Kernel& k : kernels)
      if (const char* call = difference(k, bytes, answers)) tellDifference(k, call, seed, number, bytes);
    tally.refused[answers.refusal]++;
    tally.verdicts[answers.verdict]++;
    tally.pairs += answers.pairs();
  }
  return tally;
}

void tell(const Tally& t, std::uint64_t count, double seconds) {
  bool both = sizeof kernels / sizeof *kernels == 2;
  std::printf("%llu scenes alike in %.1f s of one core, by the kernel's %s and the one in C++\n", static_cast<unsigned long long>(count),
              seconds, both ? "plain engine, its formula engine" : "plain engine");
  const unsigned long* v = t.verdicts;
  std::printf("cross %lu, a-in-b %lu, b-in-a %lu, apart %lu; %lu pairs\n", v[0], v[1], v[2], v[3], t.pairs);
  for (int n = 1; n < 16; n++)
    if (t.refused[n]) std::printf("refused %d: %lu\n", n, t.refused[n]);
}

}  // namespace

int main(int words, char** wordOf) {
  if (words < 3) {
    std::fprintf(stderr, "usage: mass SEED COUNT [FIRST]\n");
    return 2;
  }
  std::uint64_t number[3] = {0, 0, 0};
  for (int i = 1; i < words && i <= 3; i++) number[i - 1] = std::strtoull(wordOf[i], nullptr, 10);
  std::clock_t start = std::clock();
  Tally tally = compare(number[0], number[2], number[1]);
  tell(tally, number[1], static_cast<double>(std::clock() - start) / CLOCKS_PER_SEC);
}
