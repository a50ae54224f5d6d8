// The works of sparse/ by CRoaring, and files in both directions. Arguments: a folder, how many numbers, repetitions.
#include "timed.hpp"
#include <algorithm>
#include <cstdint>
#include <cstdlib>
#include <fstream>
#include <iterator>
#include <memory>
#include <roaring/roaring.h>
#include <string>
#include <unistd.h>

static uint32_t number(uint64_t kind, uint64_t k) {
  switch (kind) {
  case 0: return mixed(k) >> 32;
  case 1: return mixed(k) % 67108864;
  case 2: return mixed(k) % 4194304;
  default: return mixed(k / 100) % 67108864 + k % 100;
  }
}

// A set that is freed where it ends.
struct Set {
  roaring_bitmap_t *bits;
  explicit Set(roaring_bitmap_t *bits) : bits(bits) {}
  Set(const Set &) = delete;
  Set(Set &&other) : bits(other.bits) { other.bits = nullptr; }
  ~Set() { if (bits) roaring_bitmap_free(bits); }
  size_t len() const { return roaring_bitmap_get_cardinality(bits); }
  Set copy() const { return Set(roaring_bitmap_copy(bits)); }
};

static Set made(uint64_t kind, uint64_t seed, uint64_t size) {
  Set set(roaring_bitmap_create());
  for (uint64_t k = 0; k < size; k++) roaring_bitmap_add(set.bits, number(kind, seed + k));
  return set;
}

// The numbers of a set that is made, in no order.
static std::vector<uint32_t> listed(uint64_t kind, uint64_t seed, uint64_t size) {
  std::vector<uint32_t> numbers;
  for (uint64_t k = 0; k < size; k++) numbers.push_back(number(kind, seed + k));
  return numbers;
}

static std::vector<uint32_t> sorted(uint64_t kind, uint64_t seed, uint64_t size) {
  std::vector<uint32_t> numbers = listed(kind, seed, size);
  std::sort(numbers.begin(), numbers.end());
  return numbers;
}

static Set collected(const std::vector<uint32_t> &numbers) { return Set(roaring_bitmap_of_ptr(numbers.size(), numbers.data())); }

static size_t count_found(const Set &set, uint64_t kind, uint64_t size) {
  size_t found = 0;
  for (uint64_t k = 0; k < size; k++) found += roaring_bitmap_contains(set.bits, number(kind, k * 2));
  return found;
}

static size_t sum(const Set &set) {
  size_t total = 0;
  roaring_uint32_iterator_t left;
  roaring_init_iterator(set.bits, &left);
  while (left.has_value) {
    total += left.current_value;
    roaring_advance_uint32_iterator(&left);
  }
  return total;
}

static uint32_t last_of(uint32_t first, uint32_t more) { return first > UINT32_MAX - more ? UINT32_MAX : first + more; }

static Set ranges_put(uint64_t kind, uint64_t count) {
  Set set(roaring_bitmap_create());
  for (uint64_t k = 0; k < count; k++) {
    uint32_t first = number(kind, k * 100);
    roaring_bitmap_add_range_closed(set.bits, first, last_of(first, 99));
  }
  return set;
}

static size_t ranges_taken(Set &set, uint64_t kind, uint64_t count) {
  for (uint64_t k = 0; k < count; k++) {
    uint32_t first = number(kind, k * 100);
    roaring_bitmap_remove_range_closed(set.bits, first, last_of(first, 9));
  }
  return set.len();
}

static size_t taken(Set &set, uint64_t kind, uint64_t size) {
  for (uint64_t k = 0; k < size; k++) roaring_bitmap_remove(set.bits, number(kind, k));
  return set.len();
}

static std::unique_ptr<uint32_t[]> members(const Set &set) {
  std::unique_ptr<uint32_t[]> numbers(new uint32_t[set.len()]);
  roaring_bitmap_to_uint32_array(set.bits, numbers.get());
  return numbers;
}

static size_t sum_nearest(const Set &set, uint64_t kind, uint64_t size) {
  size_t total = 0;
  roaring_uint32_iterator_t left;
  for (uint64_t k = 0; k < size; k++) {
    roaring_init_iterator(set.bits, &left);
    if (roaring_move_uint32_iterator_equalorlarger(&left, number(kind, k * 2))) total += left.current_value;
  }
  return total;
}

// What a call says of ranges, in all.
template <class Call> static size_t sum_of_ranges(const Set &set, uint64_t kind, uint64_t size, uint32_t more, Call call) {
  size_t total = 0;
  for (uint64_t k = 0; k < size; k++) {
    uint32_t first = number(kind, k * 2);
    total += call(set.bits, first, last_of(first, more));
  }
  return total;
}

static std::vector<char> written(const Set &set) {
  std::vector<char> bytes(roaring_bitmap_portable_size_in_bytes(set.bits));
  roaring_bitmap_portable_serialize(set.bits, bytes.data());
  return bytes;
}

// Prints a line by itself, so that live.c can tell what is in use then.
static void kept(const std::string &name, const Set &set) {
  std::fflush(stdout);
  std::string line = name + " 0 " + std::to_string(set.len()) + "\n";
  if (write(1, line.data(), line.size()) < 0) std::abort();
}

static int none() { return 0; }

static void run(const std::string &folder, uint64_t kind, const std::string &name, uint64_t size, size_t repetitions) {
  auto work = [&](const char *what) { return name + "_" + what; };
  auto len = [](auto &, Set &set) { return set.len(); };
  auto count = [](auto &, size_t found) { return found; };
  timed(work("made").c_str(), repetitions, none, [&](int) { return made(kind, 0, size); }, len);
  timed(work("collected").c_str(), repetitions, [&] { return listed(kind, 0, size); }, [](std::vector<uint32_t> &numbers) { return collected(numbers); }, len);
  timed(work("ascending").c_str(), repetitions, [&] { return sorted(kind, 0, size); }, [](std::vector<uint32_t> &numbers) { return collected(numbers); }, len);
  Set a = made(kind, 0, size);
  kept(name + "_kept_made", a);
  timed(work("optimized").c_str(), repetitions, [&] { return a.copy(); }, [](Set &set) { return roaring_bitmap_run_optimize(set.bits); }, [](Set &set, bool) { return set.len(); });
  roaring_bitmap_run_optimize(a.bits);
  roaring_bitmap_shrink_to_fit(a.bits);
  kept(name + "_kept_optimized", a);
  Set b = made(kind, size / 2, size);
  roaring_bitmap_run_optimize(b.bits);
  timed(work("contains").c_str(), repetitions, none, [&](int) { return count_found(a, kind, size); }, count);
  timed(work("count_and").c_str(), repetitions, none, [&](int) { return (size_t)roaring_bitmap_and_cardinality(a.bits, b.bits); }, count);
  timed(work("count_or").c_str(), repetitions, none, [&](int) { return (size_t)roaring_bitmap_or_cardinality(a.bits, b.bits); }, count);
  timed(work("and").c_str(), repetitions, none, [&](int) { return Set(roaring_bitmap_and(a.bits, b.bits)); }, len);
  timed(work("or").c_str(), repetitions, none, [&](int) { return Set(roaring_bitmap_or(a.bits, b.bits)); }, len);
  timed(work("iterated").c_str(), repetitions, none, [&](int) { return sum(a); }, count);
  timed(work("equal").c_str(), repetitions, [&] { return a.copy(); }, [&](Set &copy) { return (size_t)roaring_bitmap_equals(a.bits, copy.bits); }, count);
  auto copied = [&] { return a.copy(); };
  timed(work("or_put").c_str(), repetitions, copied, [&](Set &set) { roaring_bitmap_or_inplace(set.bits, b.bits); return set.len(); }, count);
  timed(work("and_kept").c_str(), repetitions, copied, [&](Set &set) { roaring_bitmap_and_inplace(set.bits, b.bits); return set.len(); }, count);
  timed(work("all_taken").c_str(), repetitions, copied, [&](Set &set) { roaring_bitmap_andnot_inplace(set.bits, b.bits); return set.len(); }, count);
  Set few = made(kind, size * 10, 1000);
  Set some = made(kind, 0, size / 50);
  timed(work("few_put").c_str(), repetitions, copied, [&](Set &set) { for (int k = 0; k < 10; k++) roaring_bitmap_or_inplace(set.bits, few.bits); return set.len(); }, count);
  timed(work("few_taken").c_str(), repetitions, copied, [&](Set &set) { for (int k = 0; k < 10; k++) roaring_bitmap_andnot_inplace(set.bits, few.bits); return set.len(); }, count);
  timed(work("few_and").c_str(), repetitions, none, [&](int) { return Set(roaring_bitmap_and(few.bits, a.bits)); }, len);
  timed(work("few_count").c_str(), repetitions, none, [&](int) { return (size_t)roaring_bitmap_and_cardinality(a.bits, few.bits); }, count);
  timed(work("some_or").c_str(), repetitions, none, [&](int) { return Set(roaring_bitmap_or(some.bits, a.bits)); }, len);
  timed(work("some_subset").c_str(), repetitions, none, [&](int) { return (size_t)roaring_bitmap_is_subset(some.bits, a.bits); }, count);
  timed(work("ranges_put").c_str(), repetitions, none, [&](int) { return ranges_put(kind, size / 100); }, len);
  timed(work("ranges_taken").c_str(), repetitions, copied, [&](Set &set) { return ranges_taken(set, kind, size / 100); }, count);
  timed(work("taken").c_str(), repetitions, copied, [&](Set &set) { return taken(set, kind, size / 2); }, count);
  timed(work("members").c_str(), repetitions, none, [&](int) { return members(a); }, [&](auto &, auto &) { return a.len(); });
  timed(work("nearest").c_str(), repetitions, none, [&](int) { return sum_nearest(a, kind, size); }, count);
  timed(work("ranges_tested").c_str(), repetitions, none, [&](int) { return sum_of_ranges(a, kind, size, 4, roaring_bitmap_contains_range); }, count);
  timed(work("ranges_counted").c_str(), repetitions, none, [&](int) { return sum_of_ranges(a, kind, size, 1000, roaring_bitmap_range_cardinality); }, count);
  timed(work("toggled").c_str(), repetitions, copied, [&](Set &set) { roaring_bitmap_flip_inplace(set.bits, 1000000, 3000000); return set.len(); }, count);
  timed(work("written").c_str(), repetitions, none, [&](int) { return written(a); }, [](auto &, std::vector<char> &bytes) { return bytes.size(); });
  auto bytes = written(a);
  timed(work("read").c_str(), repetitions, none, [&](int) { return Set(roaring_bitmap_portable_deserialize_safe(bytes.data(), bytes.size())); }, len);
  std::ofstream(folder + "/" + name + ".theirs", std::ios::binary).write(bytes.data(), bytes.size());
  std::ifstream file(folder + "/" + name + ".ours", std::ios::binary);
  if (!file) return;
  std::vector<char> ours{std::istreambuf_iterator<char>(file), std::istreambuf_iterator<char>()};
  Set back(roaring_bitmap_portable_deserialize_safe(ours.data(), ours.size()));
  std::printf("%s_file 0 %d\n", name.c_str(), back.bits && roaring_bitmap_equals(back.bits, a.bits) && ours == bytes);
}

int main(int count, char **words) {
  if (count < 2) return 0;
  uint64_t size = count > 2 ? std::strtoull(words[2], nullptr, 10) : 1000000;
  size_t repetitions = count > 3 ? std::strtoull(words[3], nullptr, 10) : 5;
  run(words[1], 0, "wide", size, repetitions);
  run(words[1], 1, "listed", size, repetitions);
  run(words[1], 2, "dense", size, repetitions);
  run(words[1], 3, "runs", size, repetitions);
}
