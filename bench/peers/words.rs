//! The calls of the bench on a vector of words written by hand. Prints what the program prints, each line after a name.
mod records;
mod timed;

use records::{Found, Record};
use timed::timed;
use std::fmt::Write;
use std::hint::black_box;

#[derive(Clone, Default)]
struct Bits {
    words: Vec<u64>,
    len: usize,
}

fn bit_at(i: usize) -> bool {
    (i as u64).wrapping_mul(0xD1342543DE82EF95).wrapping_add(0x2545F4914F6CDD1D) >> 61 & 1 == 1
}

impl Bits {
    /// Where the `n` digits of a number begin, the highest first: all 64 places of a word are tried at once.
    fn find(&self, number: u64, n: usize) -> usize {
        for k in 0..self.words.len() {
            let (low, high) = (self.words[k], *self.words.get(k + 1).unwrap_or(&0));
            let mut left = !0u64;
            for i in 0..n {
                let here = if i == 0 { low } else { low >> i | high << (64 - i) };
                left &= if number >> (n - 1 - i) & 1 == 1 { here } else { !here };
                if left == 0 {
                    break;
                }
            }
            let at = k * 64 + left.trailing_zeros() as usize;
            if left != 0 && at + n <= self.len {
                return at;
            }
        }
        self.len
    }

    fn made(n: usize, seed: usize) -> Bits {
        let mut made = Bits::default();
        for i in 0..n {
            made.push(bit_at(i + seed));
        }
        made
    }

    fn repeat(bit: bool, n: usize) -> Bits {
        Bits { words: vec![if bit { !0 } else { 0 }; n.div_ceil(64)], len: n }.clean()
    }

    fn clean(mut self) -> Bits {
        self.clear_rest();
        self
    }

    fn clear_rest(&mut self) {
        if self.len % 64 != 0 {
            *self.words.last_mut().unwrap() &= (1 << self.len % 64) - 1;
        }
    }

    fn push(&mut self, bit: bool) {
        if self.len % 64 == 0 {
            self.words.push(bit as u64);
        } else {
            *self.words.last_mut().unwrap() |= (bit as u64) << self.len % 64;
        }
        self.len += 1;
    }

    fn pop(&mut self) -> Option<bool> {
        let i = self.len.checked_sub(1)?;
        let bit = self.get(i);
        self.words[i / 64] &= !(1 << i % 64);
        if i % 64 == 0 {
            self.words.pop();
        }
        self.len = i;
        bit
    }

    fn get(&self, i: usize) -> Option<bool> {
        (i < self.len).then(|| self.words[i / 64] >> i % 64 & 1 == 1)
    }

    fn set(&mut self, i: usize, bit: bool) {
        let word = &mut self.words[i / 64];
        *word = *word & !(1 << i % 64) | (bit as u64) << i % 64;
    }

    fn count_ones(&self) -> usize {
        self.words.iter().map(|w| w.count_ones() as usize).sum()
    }

    fn and(&mut self, other: &Bits) {
        for (a, b) in self.words.iter_mut().zip(&other.words) {
            *a &= b;
        }
    }

    fn insert(&mut self, i: usize, bit: bool) {
        self.push(false);
        let k = i / 64;
        let mut carry = self.words[k] >> 63;
        let low = (1u64 << i % 64) - 1;
        self.words[k] = self.words[k] & low | (self.words[k] & !low) << 1 | (bit as u64) << i % 64;
        for word in &mut self.words[k + 1..] {
            let next = *word >> 63;
            *word = *word << 1 | carry;
            carry = next;
        }
        self.clear_rest();
    }

    fn remove(&mut self, i: usize) -> bool {
        let bit = self.get(i).unwrap();
        let k = i / 64;
        let low = (1u64 << i % 64) - 1;
        self.words[k] = self.words[k] & low | self.words[k] >> 1 & !low;
        for j in k + 1..self.words.len() {
            self.words[j - 1] |= self.words[j] << 63;
            self.words[j] >>= 1;
        }
        self.len -= 1;
        self.words.truncate(self.len.div_ceil(64));
        bit
    }

    fn sum_of_ones(&self) -> usize {
        let mut total = 0usize;
        for (k, word) in self.words.iter().enumerate() {
            let mut left = *word;
            while left != 0 {
                total = total.wrapping_add(k * 64 + left.trailing_zeros() as usize);
                left &= left - 1;
            }
        }
        total
    }

    /// Ors a number into the 64 bits from a place on; those past the end are false.
    fn or_at(&mut self, at: usize, number: u64) {
        self.words[at / 64] |= number << at % 64;
        if at % 64 != 0 && at / 64 + 1 < self.words.len() {
            self.words[at / 64 + 1] |= number >> (64 - at % 64);
        }
    }

    fn shift_left(&mut self, by: usize) {
        let (k, n) = (by / 64, by % 64);
        let count = self.words.len();
        for j in 0..count {
            let low = self.words.get(j + k).copied().unwrap_or(0);
            let high = self.words.get(j + k + 1).copied().unwrap_or(0);
            self.words[j] = if n == 0 { low } else { low >> n | high << (64 - n) };
        }
    }

    /// Appends the `n` lowest bits of a number, whose others are 0.
    fn push_number(&mut self, number: u64, n: usize) {
        let at = self.len % 64;
        if at == 0 {
            self.words.push(number);
        } else {
            *self.words.last_mut().unwrap() |= number << at;
            if at + n > 64 {
                self.words.push(number >> (64 - at));
            }
        }
        self.len += n;
    }

    /// The bits at which a mask has ones.
    fn extracted(&self, mask: &Bits) -> Bits {
        let mut taken = Bits::default();
        taken.words.reserve(mask.count_ones() / 64 + 1);
        for (word, mask) in self.words.iter().zip(&mask.words) {
            let (mut left, mut gathered, mut got) = (*mask, 0, 0);
            while left != 0 {
                gathered |= (word >> left.trailing_zeros() & 1) << got;
                got += 1;
                left &= left - 1;
            }
            if got != 0 {
                taken.push_number(gathered, got);
            }
        }
        taken
    }

    /// Writes the bits of another one after another where a mask has ones.
    fn deposit(&mut self, mask: &Bits, other: &Bits) {
        let mut at = 0;
        for (word, mask) in self.words.iter_mut().zip(&mask.words) {
            let mut left = *mask;
            while left != 0 {
                let place = left.trailing_zeros();
                let bit = other.words[at / 64] >> (at % 64) & 1;
                *word = *word & !(1 << place) | bit << place;
                at += 1;
                left &= left - 1;
            }
        }
    }

    /// Keeps the first bit of each run.
    fn dedup(&mut self) {
        if self.len == 0 {
            return;
        }
        let (first, mut before, mut changes) = (self.words[0] & 1, self.words[0] & 1, 0);
        for (k, word) in self.words.iter().enumerate() {
            let mut steps = word ^ (word << 1 | before);
            if (k + 1) * 64 > self.len {
                steps &= (1 << self.len % 64) - 1;
            }
            changes += steps.count_ones() as usize;
            before = word >> 63;
        }
        let turns = if first == 1 { 0x5555_5555_5555_5555 } else { 0xAAAA_AAAA_AAAA_AAAA };
        self.len = changes + 1;
        self.words.truncate(self.len.div_ceil(64));
        self.words.fill(turns);
        self.clear_rest();
    }

    fn reverse(&mut self) {
        self.words.reverse();
        for word in &mut self.words {
            *word = word.reverse_bits();
        }
        let spare = self.words.len() * 64 - self.len;
        let len = self.len;
        self.shift_left(spare);
        self.len = len;
    }

    fn text(&self) -> String {
        let mut text = String::from("[");
        for i in 0..self.len {
            if i > 0 {
                text.push_str(", ");
            }
            text.push(if self.get(i) == Some(true) { '1' } else { '0' });
        }
        text + "]"
    }

    fn digits(&self, size: usize) -> String {
        let mut text = String::from("[");
        for i in (0..self.len).step_by(size) {
            let mut digit = 0;
            for k in i..(i + size).min(self.len) {
                digit = digit * 2 + u32::from(self.get(k) == Some(true));
            }
            write!(text, "{digit:x}").unwrap();
        }
        text + "]"
    }
}

/// How many ones stand before each block of 512 bits: in all before each 65536 bits, and from there on.
struct Index {
    long: Vec<u64>,
    short: Vec<u16>,
    ones: usize,
}

impl Index {
    fn made(row: &Bits) -> Index {
        let mut index = Index { long: Vec::new(), short: Vec::new(), ones: 0 };
        for (k, block) in row.words.chunks(8).enumerate() {
            if k % 128 == 0 {
                index.long.push(index.ones as u64);
            }
            index.short.push((index.ones as u64 - index.long[k / 128]) as u16);
            index.ones += block.iter().map(|w| w.count_ones() as usize).sum::<usize>();
        }
        index
    }

    fn before_block(&self, k: usize) -> usize {
        self.long[k / 128] as usize + self.short[k] as usize
    }

    fn rank(&self, row: &Bits, i: usize) -> usize {
        let k = i / 512;
        if k == self.short.len() {
            return self.ones;
        }
        let words = &row.words[k * 8..i / 64];
        let rest = row.words.get(i / 64).map_or(0, |w| w & ((1 << i % 64) - 1));
        self.before_block(k) + words.iter().map(|w| w.count_ones() as usize).sum::<usize>() + rest.count_ones() as usize
    }

    fn select(&self, row: &Bits, n: usize) -> Option<usize> {
        if n >= self.ones {
            return None;
        }
        let (mut low, mut high) = (0, self.short.len());
        while high - low > 1 {
            let middle = (low + high) / 2;
            if self.before_block(middle) <= n {
                low = middle;
            } else {
                high = middle;
            }
        }
        let mut left = n - self.before_block(low);
        let mut k = low * 8;
        while row.words[k].count_ones() as usize <= left {
            left -= row.words[k].count_ones() as usize;
            k += 1;
        }
        let mut word = row.words[k];
        for _ in 0..left {
            word &= word - 1;
        }
        Some(k * 64 + word.trailing_zeros() as usize)
    }
}

// Ascending numbers by Elias and Fano: the low bits of each packed, and the rest as ones in a row, with the place of each
// 64th one.
struct Sorted {
    len: usize,
    width: usize,
    low: Vec<u64>,
    high: Vec<u64>,
    places: Vec<u32>,
}

impl Sorted {
    fn made(numbers: &[u64]) -> Sorted {
        let len = numbers.len();
        let past = numbers[len - 1] + 1;
        let width = (63 - (past / len as u64).max(1).leading_zeros()) as usize;
        let mut low = vec![0; len * width / 64 + 2];
        let mut high = vec![0; (len + (past >> width) as usize) / 64 + 2];
        let mut places = Vec::new();
        for (k, number) in numbers.iter().enumerate() {
            let (at, part) = (k * width, number & ((1 << width) - 1));
            low[at / 64] |= part << at % 64;
            if at % 64 + width > 64 {
                low[at / 64 + 1] |= part >> (64 - at % 64);
            }
            let place = (number >> width) as usize + k;
            high[place / 64] |= 1 << place % 64;
            if k % 64 == 0 {
                places.push(place as u32);
            }
        }
        Sorted { len, width, low, high, places }
    }

    fn get(&self, k: usize) -> Option<u64> {
        if k >= self.len {
            return None;
        }
        let from = self.places[k / 64] as usize;
        let (mut left, mut at) = (k % 64, from / 64);
        let mut word = self.high[at] & (!0 << from % 64);
        while word.count_ones() as usize <= left {
            left -= word.count_ones() as usize;
            at += 1;
            word = self.high[at];
        }
        for _ in 0..left {
            word &= word - 1;
        }
        let high = (at * 64 + word.trailing_zeros() as usize - k) as u64;
        let (word, bit) = (k * self.width / 64, k * self.width % 64);
        let low = self.low[word] >> bit | (self.low[word + 1] << 1) << (63 - bit);
        Some(high << self.width | low & ((1 << self.width) - 1))
    }
}

const LOOKUPS: usize = 65536;

fn mixed(k: usize, most: usize) -> usize {
    ((k as u64).wrapping_mul(0x9E3779B97F4A7C15) >> 24) as usize % most.max(1)
}

fn lookups(f: impl Fn(usize) -> usize) -> usize {
    (0..LOOKUPS).fold(0, |total: usize, k| total.wrapping_add(f(k)))
}

fn ranks(n: usize, r: usize) {
    let none = || ();
    timed("count_made", r, || Bits::made(n, 0), |row| row.count_ones(), |_, t| t);
    timed("ranks_made", r, || Bits::made(n, 0), |row| Index::made(row), |_, t| t.ones);
    let row = Bits::made(n, 0);
    let mut thin = Bits::repeat(false, n);
    for i in (0..n).step_by(100) {
        thin.set(i, true);
    }
    for (name, row) in [("half", &row), ("100th", &thin)] {
        let index = Index::made(row);
        timed(&format!("rank_{name}"), r, none, |_| lookups(|k| index.rank(row, mixed(k, n))), |_, t| t);
        timed(&format!("select_{name}"), r, none, |_| lookups(|k| index.select(row, mixed(k, index.ones)).unwrap_or(0)), |_, t| t);
    }
    let count = n / 16;
    let mut numbers = Vec::new();
    let mut last = 0u64;
    for k in 0..count {
        last += mixed(k, 1000) as u64;
        numbers.push(last);
    }
    let sorted = Sorted::made(&numbers);
    timed("sorted_get", r, none, |_| lookups(|k| sorted.get(mixed(k, count)).unwrap_or(0) as usize), |_, t| t);
    timed("sorted_next", r, none, |_| lookups(|k| {
        let at = numbers.partition_point(|x| *x < mixed(k, count * 500) as u64);
        if at < count { at } else { 0 }
    }), |_, t| t);
}

fn large(n: usize, r: usize) {
    let row = Bits::made(n, 0);
    let other = Bits::made(n, 5);
    let same = row.clone();
    let none = || ();
    let ones = |v: &Bits, _: ()| v.count_ones();
    timed("push", r, none, |_| Bits::made(n, 0), |_, v| v.len);
    timed("pop", r, || row.clone(), |v| { let mut t = 0; while let Some(b) = v.pop() { t += b as usize } t }, |_, t| t);
    timed("get", r, none, |_| (0..row.len).filter(|i| row.get(*i) == Some(true)).count(), |_, t| t);
    timed("for", r, none, |_| (0..row.len).fold(0usize, |t, i| t.wrapping_mul(3).wrapping_add((row.words[i / 64] >> i % 64 & 1) as usize)), |_, t| t);
    timed("count_ones", r, none, |_| row.count_ones(), |_, t| t);
    timed("equal", r, none, |_| row.len == same.len && row.words == same.words, |_, t| t as usize);
    timed("and", r, || row.clone(), |v| v.and(&other), ones);
    timed("not", r, || row.clone(), |v| { for w in &mut v.words { *w = !*w } v.clear_rest() }, ones);
    timed("fill", r, || row.clone(), |v| { v.words.fill(!0); v.clear_rest() }, ones);
    timed("clone", r, none, |_| row.clone(), |_, v| v.len);
    timed("repeat", r, none, |_| Bits::repeat(true, n), |_, v| v.len);
    timed("insert_front", r, || row.clone(), |v| v.insert(0, true), ones);
    let part = Bits::made(n / 16, 0);
    timed("text_list_16th", r, none, |_| part.text(), |_, s| s.len());
    timed("text_binary_16th", r, none, |_| part.digits(1), |_, s| s.len());
    timed("text_hex_16th", r, none, |_| part.digits(4), |_, s| s.len());
}

fn views(n: usize, r: usize) {
    let row = Bits::made(n, 0);
    let same = row.clone();
    let none = || ();
    let ones = |v: &Bits, _: ()| v.count_ones();
    timed("ones_half", r, none, |_| row.sum_of_ones(), |_, t| t);
    for (name, step) in [("ones_67th", 67), ("ones_5003rd", 5003)] {
        let mut thin = Bits::repeat(false, n);
        for i in (0..n).step_by(step) {
            thin.set(i, true);
        }
        timed(name, r, none, |_| thin.sum_of_ones(), |_, t| t);
    }
    timed("is_subset", r, none, |_| row.words.iter().zip(&same.words).all(|(a, b)| a & !b == 0), |_, t| t as usize);
    timed("count_xor", r, none, |_| row.words.iter().zip(&same.words).map(|(a, b)| (a ^ b).count_ones() as usize).sum::<usize>(), |_, t| t);
    timed("find_24", r, none, |_| row.find(0xb7_0f33, 24), |_, at| at);
    let copy_down = |v: &mut Bits| {
        let last = n - 3;
        let kept: Vec<bool> = (last..n).map(|i| v.get(i) == Some(true)).collect();
        v.shift_left(3);
        for (k, bit) in kept.iter().enumerate() {
            v.set(last + k, *bit);
        }
    };
    timed("copy_within", r, || row.clone(), copy_down, ones);
    timed("reverse", r, || row.clone(), |v| v.reverse(), ones);
    let rotate = |v: &mut Bits| {
        let front = v.clone();
        v.shift_left(1001);
        for i in 0..1001 {
            v.set(n - 1001 + i, front.get(i) == Some(true));
        }
    };
    timed("rotate_left", r, || row.clone(), rotate, ones);
    let far = n / 3;
    let rotate_far = |v: &mut Bits| {
        let front = v.clone();
        v.shift_left(far);
        for i in (0..far).step_by(64) {
            let count = (far - i).min(64);
            v.or_at(n - far + i, front.words[i / 64] & !0 >> (64 - count));
        }
    };
    timed("rotate_far", r, || row.clone(), rotate_far, ones);
    timed("shift_left", r, || row.clone(), |v| v.shift_left(1001), ones);
}

fn small(n: usize, r: usize) {
    let family = || -> Vec<Bits> {
        (0..64).map(|k| { let mut v = Bits::made(n, 0); if k % 2 == 0 { v.set(n - 1, false) } v }).collect()
    };
    let all = family();
    let none = || ();
    let ones = |all: &[Bits]| (0..64).map(|_| all.iter().map(|v| v.count_ones()).sum::<usize>()).sum::<usize>();
    println!("bits {n} 0");
    timed("small_equal", r, none, |_| all.iter().map(|a| all.iter().filter(|b| a.len == b.len && a.words == b.words).count()).sum::<usize>(), |_, t| t);
    let inside = |a: &Bits, b: &Bits| a.words.iter().zip(&b.words).all(|(x, y)| x & !y == 0);
    timed("small_subset", r, none, |_| black_box(&all).iter().map(|a| all.iter().filter(|b| inside(a, b)).count()).sum::<usize>(), |_, t| t);
    let apart = |a: &Bits, b: &Bits| a.words.iter().zip(&b.words).map(|(x, y)| (x ^ y).count_ones() as usize).sum::<usize>();
    timed("small_xor", r, none, |_| black_box(&all).iter().map(|a| all.iter().map(|b| apart(a, b)).sum::<usize>()).sum::<usize>(), |_, t| t);
    let before = |a: &Bits, b: &Bits| {
        for (x, y) in a.words.iter().zip(&b.words) {
            if x != y {
                return y >> (x ^ y).trailing_zeros() & 1 == 1;
            }
        }
        a.len < b.len
    };
    timed("small_cmp", r, none, |_| all.iter().map(|a| all.iter().filter(|b| before(a, b)).count()).sum::<usize>(), |_, t| t);
    timed("small_and", r, family, |copies| { for a in copies.iter_mut() { for b in &all { a.and(b) } } }, |v, _| ones(v));
    timed("small_count", r, none, |_| ones(black_box(&all)), |_, t| t);
    timed("small_clone", r, none, |_| { let mut t = 0; for _ in 0..16 { for a in &all { t += black_box(a.clone()).len } } t }, |_, t| t);
    let work = |v: &mut Bits| {
        let mut total = 0usize;
        for k in 0..4096usize {
            let len = v.len;
            v.insert(k % (len + 1), k % 3 == 0);
            total += v.remove(k % 40 % v.len) as usize;
        }
        total
    };
    timed("small_insert", r, || Bits::made(n, 0), work, |_, t| t);
}

fn arrays(r: usize) {
    let four = |k: u64| { let w = (k + 1).wrapping_mul(0x9E3779B97F4A7C15); [w, w.wrapping_mul(3), w.wrapping_mul(5), w.wrapping_mul(7)] };
    let mix = |_: &mut ()| {
        let (mut x, a, b, c) = (black_box(four(0)), black_box(four(1)), black_box(four(2)), black_box(four(3)));
        for _ in 0..100000 {
            for k in 0..4 {
                x[k] = x[k] & a[k] ^ b[k] | c[k];
            }
            x = black_box(x);
        }
        x.iter().map(|w| w.count_ones() as usize).sum::<usize>()
    };
    timed("array256_mix", r, || (), mix, |_, t| t);
    let equal = |_: &mut ()| {
        let (a, b) = (black_box(four(1)), black_box(four(2)));
        (0..100000u64).filter(|k| black_box(if k % 3 == 0 { a } else { b }) == a).count()
    };
    timed("array256_equal", r, || (), equal, |_, t| t);
}

/// Numbers appended to words, the first bit the highest.
#[derive(Default)]
struct Writer {
    words: Vec<u64>,
    pending: u64,
    count: u32,
}

impl records::Digits for Writer {
    type Word = u64;

    fn write(&mut self, n: u32, x: u64) {
        let room = 64 - self.count;
        if n < room {
            self.pending = self.pending << n | x;
            self.count += n;
        } else {
            let rest = n - room;
            self.words.push(if room == 64 { x >> rest } else { self.pending << room | x >> rest });
            self.pending = x & ((1 << rest) - 1);
            self.count = rest;
        }
    }

    fn finish(mut self) -> Vec<u64> {
        if self.count > 0 {
            self.words.push(self.pending << (64 - self.count));
        }
        self.words
    }
}

/// A record's word as it is stored: its first bit is the highest, and is the lowest where the words' first bit is that.
#[inline(always)]
fn stored(word: u64) -> u64 {
    if cfg!(lowest_first) { word.reverse_bits() } else { word }
}

#[inline(never)]
fn pack(records: &[Record]) -> Vec<u64> {
    let mut words = Vec::with_capacity(records.len());
    for it in records {
        let head = (it.kind as u64) << 61 | (it.port as u64) << 48 | (it.up as u64) << 47;
        words.push(stored(head | (it.size as u64) << 27 | it.sum as u64));
    }
    words
}

#[inline(never)]
fn unpack(words: &[u64], records: &mut [Record]) -> usize {
    for (word, record) in words.iter().zip(records) {
        let word = stored(*word);
        let (kind, port, up) = ((word >> 61) as u32, (word >> 48 & 0x1fff) as u32, word >> 47 & 1 == 1);
        *record = Record { kind, port, up, size: (word >> 27 & 0xfffff) as u32, sum: (word & 0x7ffffff) as u32 };
    }
    words.len()
}

/// A window whose next bit is the highest takes half a word where fewer than 32 bits are left in it.
#[inline(never)]
fn decode(words: &[u64], table: &[Found], count: usize) -> usize {
    let (mut window, mut have, mut half, mut total) = (0u64, 0u32, 0, 0usize);
    for _ in 0..count {
        if have < 32 && half < 2 * words.len() {
            window |= (words[half / 2] << (half % 2 * 32) >> 32) << (32 - have);
            have += 32;
            half += 1;
        }
        let found = table[(window >> 52) as usize];
        let (symbol, len) = if found.len == 0 { records::long_symbol(window) } else { (found.symbol as usize, found.len as u32) };
        window <<= len;
        have -= len;
        total = total.wrapping_mul(3).wrapping_add(symbol);
    }
    total
}

/// The `n` bits from `at` on as a number, the first the most significant digit.
#[inline(always)]
fn number_at(words: &[u64], at: usize, n: usize) -> u64 {
    let (k, skip) = (at / 64, at % 64);
    let window = if skip + n <= 64 { words[k] << skip } else { words[k] << skip | words[k + 1] >> (64 - skip) };
    window >> (64 - n)
}

#[inline(never)]
fn read_values(words: &[u64], count: usize) -> usize {
    let (mut at, mut total) = (0, 0usize);
    for _ in 0..count {
        let (tag, bytes) = (number_at(words, at, 8) as usize, number_at(words, at + 8, 16) as usize);
        let number = number_at(words, at + 24, 8 * bytes) as usize;
        total = total.wrapping_mul(3).wrapping_add(tag).wrapping_add(number);
        at += 24 + 8 * bytes;
    }
    total
}

/// A record in each word, the least digit of each field first.
#[inline(never)]
fn pack_le(records: &[Record]) -> Vec<u64> {
    let mut words = Vec::with_capacity(records.len());
    for it in records {
        let head = it.kind as u64 | (it.port as u64) << 3 | (it.up as u64) << 16;
        words.push(head | (it.size as u64) << 17 | (it.sum as u64) << 37);
    }
    words
}

#[inline(never)]
fn unpack_le(words: &[u64], records: &mut [Record]) -> usize {
    for (word, record) in words.iter().zip(records) {
        let (kind, port, up) = ((word & 7) as u32, (word >> 3 & 0x1fff) as u32, word >> 16 & 1 == 1);
        *record = Record { kind, port, up, size: (word >> 17 & 0xfffff) as u32, sum: (word >> 37) as u32 };
    }
    words.len()
}

fn streams(n: usize, r: usize) {
    let ones = |words: &[u64]| words.iter().map(|w| w.count_ones() as usize).sum::<usize>();
    let all = records::records(n);
    let packed = pack_le(&all);
    timed("pack_records_le", r, || (), |_| pack_le(&all), |_, made| ones(&made));
    timed(
        "unpack_records_le",
        r,
        || records::empty_records(n),
        |made| unpack_le(&packed, made),
        |made, found| records::sum_of_records(made) + found,
    );
    records::streams::<Writer>(n, r, ones, pack, unpack, decode, read_values);
    records::by_bytes(n, r);
}

fn masks(n: usize, r: usize) {
    let (row, mask, other) = (Bits::made(n, 0), Bits::made(n, 12345), Bits::made(n, 777));
    timed("copy_where", r, || row.clone(), |copy| {
        for ((word, mask), other) in copy.words.iter_mut().zip(&mask.words).zip(&other.words) {
            *word = *word & !mask | other & mask;
        }
    }, |copy, _| copy.count_ones());
    timed("deposit", r, || row.clone(), |copy| copy.deposit(&mask, &other), |copy, _| copy.count_ones());
    timed("extend_where", r, || (), |_| other.extracted(&mask), |_, taken| taken.count_ones());
    timed("next_and", r, || (), |_| {
        let mut total = 0;
        for (k, (word, other)) in row.words.iter().zip(&other.words).enumerate() {
            let mut both = word & other;
            while both != 0 {
                total += k * 64 + both.trailing_zeros() as usize;
                both &= both - 1;
            }
        }
        total
    }, |_, total| total);
    timed("and_not_count", r, || (), |_| {
        row.words.iter().zip(&other.words).map(|(word, other)| (word & !other).count_ones() as usize).sum::<usize>()
    }, |_, total| total);
    timed("dedup", r, || row.clone(), |copy| copy.dedup(), |copy, _| copy.len);
    timed("map_chunks", r, || row.clone(), |copy| {
        for word in &mut copy.words {
            *word = u64::from_le_bytes(word.to_le_bytes().map(|byte| byte.wrapping_mul(5)));
        }
    }, |copy, _| copy.count_ones());
    let pattern = Bits::made(13, 0);
    timed("repeated", r, || (), |_| {
        let mut many = Bits::default();
        many.words.reserve(n / 64 + 1);
        for _ in 0..n / 13 {
            many.push_number(pattern.words[0], 13);
        }
        many
    }, |_, many| many.count_ones());
}

fn main() {
    let words: Vec<usize> = std::env::args().skip(1).map(|w| w.parse().unwrap()).collect();
    let (n, r) = (words[0], words[1]);
    large(n, r);
    views(n, r);
    masks(n, r);
    ranks(n, r);
    small(8, r);
    small(50, r);
    small(300, r);
    arrays(r);
    streams(n / 16, r);
}
