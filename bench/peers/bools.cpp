// The calls of the bench that std::vector<bool> has. Prints what the program prints.
#include <algorithm>
#include <chrono>
#include <cstdint>
#include <cstdio>
#include <cstdlib>
#include <vector>

#include "timed.hpp"

static bool bit_at(uint64_t i) { return (i * 0xD1342543DE82EF95 + 0x2545F4914F6CDD1D) >> 61 & 1; }

static Bits made(size_t n, size_t seed) {
  Bits v;
  for (size_t i = 0; i < n; i++) v.push_back(bit_at(i + seed));
  return v;
}

static void large(size_t n, size_t r) {
  Bits row = made(n, 0), same = row;
  auto none = [] { return 0; };
  auto copy = [&] { return row; };
  auto number = [](auto &, size_t t) { return t; };
  auto length = [](auto &, auto &v) { return v.size(); };
  auto count = [](auto &v, int) { return ones(v); };
  timed("push", r, none, [&](int) { return made(n, 0); }, length);
  timed("pop", r, copy, [](Bits &v) { size_t t = 0; while (!v.empty()) { t += v.back(); v.pop_back(); } return t; }, number);
  timed("get", r, none, [&](int) { size_t t = 0; for (size_t i = 0; i < n; i++) t += row[i]; return t; }, number);
  timed("for", r, none, [&](int) { size_t t = 0; for (bool bit : row) t = t * 3 + bit; return t; }, number);
  timed("count_ones", r, none, [&](int) { return ones(row); }, number);
  timed("equal", r, none, [&](int) { return size_t(row == same); }, number);
  timed("not", r, copy, [](Bits &v) { v.flip(); return 0; }, count);
  timed("fill", r, copy, [](Bits &v) { std::fill(v.begin(), v.end(), true); return 0; }, count);
  timed("clone", r, none, [&](int) { return Bits(row); }, length);
  timed("repeat", r, none, [&](int) { return Bits(n, true); }, length);
  timed("insert_front", r, copy, [](Bits &v) { v.insert(v.begin(), true); return 0; }, count);
  timed("copy_within", r, copy, [&](Bits &v) { std::copy(v.begin() + 3, v.end(), v.begin()); return 0; }, count);
}

static void small(size_t n, size_t r) {
  auto family = [&] {
    std::vector<Bits> all;
    for (size_t k = 0; k < 64; k++) {
      all.push_back(made(n, 0));
      if (k % 2 == 0) all.back()[n - 1] = false;
    }
    return all;
  };
  auto all = family();
  auto none = [] { return 0; };
  auto number = [](auto &, size_t t) { return t; };
  std::printf("bits %zu 0\n", n);
  timed("small_equal", r, none, [&](int) { size_t t = 0; for (auto &a : all) for (auto &b : all) t += a == b; return t; }, number);
  timed("small_cmp", r, none, [&](int) { size_t t = 0; for (auto &a : all) for (auto &b : all) t += a < b; return t; }, number);
  timed("small_count", r, none, [&](int) { size_t t = 0; for (int k = 0; k < 64; k++) for (auto &a : all) t += ones(a); return t; }, number);
  timed("small_clone", r, none, [&](int) { size_t t = 0; for (int k = 0; k < 16; k++) for (auto &a : all) t += Bits(a).size(); return t; }, number);
  auto work = [](Bits &v) {
    size_t t = 0;
    for (size_t k = 0; k < 4096; k++) {
      v.insert(v.begin() + k % (v.size() + 1), k % 3 == 0);
      size_t at = k % 40 % v.size();
      t += v[at];
      v.erase(v.begin() + at);
    }
    return t;
  };
  timed("small_insert", r, [&] { return made(n, 0); }, work, number);
}

int main(int count, char **words) {
  size_t n = count > 1 ? std::strtoull(words[1], 0, 10) : 1 << 20, r = count > 2 ? std::strtoull(words[2], 0, 10) : 7;
  large(n, r);
  small(8, r);
  small(50, r);
  small(300, r);
}
