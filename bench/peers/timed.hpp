// The lists of the peers in C++, the numbers that they are made of, and their stopwatch.
#pragma once
#include <algorithm>
#include <chrono>
#include <cstdint>
#include <cstdio>
#include <vector>

using Bits = std::vector<bool>;

static size_t ones(const Bits &v) { return std::count(v.begin(), v.end(), true); }

// Number k of the numbers that each program of the bench takes.
[[maybe_unused]] static uint64_t mixed(uint64_t k) {
  uint64_t x = (k + 1) * 0x9E3779B97F4A7C15;
  x = (x ^ x >> 30) * 0xBF58476D1CE4E5B9;
  x = (x ^ x >> 27) * 0x94D049BB133111EB;
  return x ^ x >> 31;
}

// Runs the work a number of times, each on a value made anew, and prints the shortest time.
template <class Make, class Work, class Check> void timed(const char *name, size_t repetitions, Make make, Work work, Check check) {
  long long best = -1;
  size_t sum = 0;
  for (size_t r = 0; r < repetitions; r++) {
    auto value = make();
    asm volatile("" : : "r"(&value) : "memory");
    auto start = std::chrono::steady_clock::now();
    auto answer = work(value);
    asm volatile("" : : "r"(&answer), "r"(&value) : "memory");
    long long took = std::chrono::duration_cast<std::chrono::nanoseconds>(std::chrono::steady_clock::now() - start).count();
    best = best < 0 ? took : std::min(best, took);
    sum = check(value, answer);
  }
  std::printf("%s %lld %zu\n", name, best, sum);
}
