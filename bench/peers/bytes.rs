//! The ones of bytes, whose first bit is the highest one, and records, codes and values in them, by loops by hand. Prints
//! what the program prints.
mod records;
mod timed;

use records::{Digits, Found, Record};
use std::hint::black_box;
use std::time::Instant;

fn bit_at(i: usize) -> bool {
    (i as u64).wrapping_mul(0xD1342543DE82EF95).wrapping_add(0x2545F4914F6CDD1D) >> 61 & 1 == 1
}

/// Bytes whose bits are those of a function of the index.
fn bytes_of(n: usize, bit: impl Fn(usize) -> bool) -> Vec<u8> {
    let mut bytes = vec![0u8; n.div_ceil(8)];
    for i in (0..n).filter(|i| bit(*i)) {
        bytes[i / 8] |= 0x80 >> (i % 8);
    }
    bytes
}

/// The sum of the indices of ones, byte by byte.
fn sum_by_bytes(bytes: &[u8]) -> usize {
    let mut total = 0usize;
    for (k, byte) in bytes.iter().enumerate() {
        let mut left = *byte;
        while left != 0 {
            let i = left.leading_zeros();
            total = total.wrapping_add(8 * k + i as usize);
            left &= !(0x80 >> i);
        }
    }
    total
}

/// The same, eight bytes at a time as one number.
fn sum_by_blocks(bytes: &[u8]) -> usize {
    let mut total = 0usize;
    for (k, block) in bytes.chunks_exact(8).enumerate() {
        let mut left = u64::from_be_bytes(block.try_into().unwrap());
        while left != 0 {
            let i = left.leading_zeros();
            total = total.wrapping_add(64 * k + i as usize);
            left &= !(1 << 63 >> i);
        }
    }
    total
}

fn timed(name: &str, repetitions: usize, bytes: &[u8], sum: fn(&[u8]) -> usize) {
    let (mut best, mut found) = (u128::MAX, 0);
    for _ in 0..repetitions {
        let start = Instant::now();
        found = black_box(sum(black_box(bytes)));
        best = best.min(start.elapsed().as_nanos());
    }
    println!("{name} {best} {found}");
}

/// Numbers appended to bytes, byte by byte or eight at a time.
#[derive(Default)]
struct Writer {
    bytes: Vec<u8>,
    pending: u64,
    count: u32,
}

impl records::Digits for Writer {
    type Word = u8;

    #[inline(always)]
    fn write(&mut self, n: u32, x: u64) {
        if cfg!(blocks) && self.count + n >= 64 {
            let rest = self.count + n - 64;
            let block = if self.count == 0 { x } else { self.pending << (64 - self.count) | x >> rest };
            self.bytes.extend_from_slice(&block.to_be_bytes());
            (self.pending, self.count) = (x & ((1 << rest) - 1), rest);
            return;
        }
        self.pending = self.pending << n | x;
        self.count += n;
        while !cfg!(blocks) && self.count >= 8 {
            self.count -= 8;
            self.bytes.push((self.pending >> self.count) as u8);
        }
    }

    fn finish(mut self) -> Vec<u8> {
        while self.count >= 8 {
            self.count -= 8;
            self.bytes.push((self.pending >> self.count) as u8);
        }
        if self.count > 0 {
            self.bytes.push((self.pending << (8 - self.count)) as u8);
        }
        self.bytes
    }
}

/// A window whose next bit is the highest, filled byte by byte or from eight bytes.
struct Reader<'a> {
    bytes: &'a [u8],
    at: usize,
    window: u64,
    have: u32,
}

impl Reader<'_> {
    /// At least 56 bits are held afterwards, or all that are left.
    #[inline(always)]
    fn fill(&mut self) {
        if cfg!(blocks) && self.at + 8 <= self.bytes.len() {
            self.window |= u64::from_be_bytes(self.bytes[self.at..self.at + 8].try_into().unwrap()) >> self.have;
            self.at += (63 - self.have as usize) / 8;
            self.have |= 56;
            return;
        }
        while self.have <= 56 && self.at < self.bytes.len() {
            self.window |= (self.bytes[self.at] as u64) << (56 - self.have);
            self.at += 1;
            self.have += 8;
        }
    }

    #[inline(always)]
    fn read(&mut self, n: u32) -> u64 {
        if self.have < n {
            self.fill();
        }
        let x = self.window >> (64 - n);
        self.skip(n);
        x
    }

    #[inline(always)]
    fn skip(&mut self, n: u32) {
        self.window <<= n;
        self.have -= n;
    }
}

#[inline(never)]
fn pack(records: &[Record]) -> Vec<u8> {
    let mut writer = Writer { bytes: Vec::with_capacity(8 * records.len()), ..Writer::default() };
    for it in records {
        writer.write(3, it.kind as u64);
        writer.write(13, it.port as u64);
        writer.write(1, it.up as u64);
        writer.write(20, it.size as u64);
        writer.write(27, it.sum as u64);
    }
    writer.finish()
}

#[inline(never)]
fn unpack(bytes: &[u8], records: &mut [Record]) -> usize {
    let mut reader = Reader { bytes, at: 0, window: 0, have: 0 };
    for record in records.iter_mut() {
        let (kind, port, up) = (reader.read(3) as u32, reader.read(13) as u32, reader.read(1) == 1);
        *record = Record { kind, port, up, size: reader.read(20) as u32, sum: reader.read(27) as u32 };
    }
    records.len()
}

#[inline(never)]
fn decode(bytes: &[u8], table: &[Found], count: usize) -> usize {
    let mut reader = Reader { bytes, at: 0, window: 0, have: 0 };
    let mut total = 0usize;
    for _ in 0..count {
        if reader.have < 15 {
            reader.fill();
        }
        let found = table[(reader.window >> 52) as usize];
        let (symbol, len) = if found.len == 0 { records::long_symbol(reader.window) } else { (found.symbol as usize, found.len as u32) };
        reader.skip(len);
        total = total.wrapping_mul(3).wrapping_add(symbol);
    }
    total
}

#[inline(never)]
fn read_values(bytes: &[u8], count: usize) -> usize {
    let (mut at, mut total) = (0, 0usize);
    for _ in 0..count {
        let len = (bytes[at + 1] as usize) << 8 | bytes[at + 2] as usize;
        let mut number = 0;
        for byte in &bytes[at + 3..at + 3 + len] {
            number = number << 8 | *byte as usize;
        }
        total = total.wrapping_mul(3).wrapping_add(bytes[at] as usize).wrapping_add(number);
        at += 3 + len;
    }
    total
}

fn streams(n: usize, r: usize) {
    let ones = |bytes: &[u8]| bytes.iter().map(|b| b.count_ones() as usize).sum();
    records::streams::<Writer>(n, r, ones, pack, unpack, decode, read_values);
    records::by_bytes(n, r);
}

fn main() {
    let words: Vec<usize> = std::env::args().skip(1).map(|w| w.parse().unwrap()).collect();
    let (n, repetitions) = (words[0], words[1]);
    let sum = if cfg!(blocks) { sum_by_blocks } else { sum_by_bytes };
    timed("ones_half", repetitions, &bytes_of(n, bit_at), sum);
    for (name, step) in [("ones_67th", 67), ("ones_5003rd", 5003)] {
        timed(name, repetitions, &bytes_of(n, |i| i % step == 0), sum);
    }
    streams(n / 16, repetitions);
}
