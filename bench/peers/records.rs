//! The records, codes, tagged values and numbers that the peers pack and read: what bench/program/streams.rt.txt makes.
use crate::timed::timed;
use std::io::{ErrorKind, Read, Result, Write};

/// A record whose fields take 3, 13, 1, 20 and 27 bits.
#[derive(Clone, Copy)]
pub struct Record {
    pub kind: u32,
    pub port: u32,
    pub up: bool,
    pub size: u32,
    pub sum: u32,
}

fn mixed(k: usize) -> u64 {
    (k as u64).wrapping_mul(0x9E3779B97F4A7C15)
}

fn record_of(x: u64) -> Record {
    Record {
        kind: (x & 7) as u32,
        port: (x >> 3 & 0x1fff) as u32,
        up: x >> 16 & 1 == 1,
        size: (x >> 17 & 0xfffff) as u32,
        sum: (x >> 37 & 0x7ffffff) as u32,
    }
}

pub fn records(count: usize) -> Vec<Record> {
    (0..count).map(|k| record_of(mixed(k))).collect()
}

pub fn empty_records(count: usize) -> Vec<Record> {
    vec![record_of(0); count]
}

pub fn sum_of_records(records: &[Record]) -> usize {
    let sum = |it: &Record| it.kind as u64 + 5 * it.port as u64 + 3 * it.up as u64 + 7 * it.size as u64 + 9 * it.sum as u64;
    records.iter().map(sum).sum::<u64>() as usize
}

#[derive(Clone, Copy, Default)]
pub struct Code {
    pub bits: u64,
    pub len: u8,
}

#[derive(Clone, Copy, Default)]
pub struct Found {
    pub symbol: u16,
    pub len: u8,
}

fn code_of(symbol: u16) -> Code {
    let digits = symbol as u64 + 1;
    match (0..7).find(|class| digits < 2 << class) {
        Some(class) => Code { bits: (((1 << class) - 1) * 2 << class) + digits - (1 << class), len: 2 * class + 1 },
        None => Code { bits: digits - 128 + 0x7f00, len: 15 },
    }
}

fn symbol_of(k: usize) -> u16 {
    let x = mixed(k);
    let x = mixed((x ^ x >> 29) as usize);
    match (0..7).find(|class| x >> class & 1 == 1) {
        Some(class) => ((x >> 32 & 0xff) as u16 % (1 << class)) + (1 << class) - 1,
        None => (x >> 32 & 0xff) as u16 + 127,
    }
}

pub fn symbols(count: usize) -> Vec<u16> {
    (0..count).map(symbol_of).collect()
}

pub fn codes() -> Vec<Code> {
    (0..383).map(code_of).collect()
}

/// What each number of 12 bits begins with: a symbol, or the length 0 where its code is longer.
pub fn found_by_look() -> Vec<Found> {
    let mut all = vec![Found::default(); 4096];
    for symbol in 0..383 {
        let code = code_of(symbol);
        if code.len <= 12 {
            let first = (code.bits << (12 - code.len)) as usize;
            all[first..first + (1 << (12 - code.len))].fill(Found { symbol, len: code.len });
        }
    }
    all
}

/// A register's highest 15 bits as a symbol whose code has 13 or 15 bits, and how many.
#[inline(never)]
pub fn long_symbol(window: u64) -> (usize, u32) {
    let x = (window >> 49) as usize;
    if x >> 8 == 127 { (127 + (x & 0xff), 15) } else { (63 + (x >> 2 & 63), 13) }
}

/// A value of 1 to 7 bytes with a tag.
pub struct Value {
    tag: u8,
    len: u32,
    number: u64,
}

fn values(count: usize) -> Vec<Value> {
    let value = |x: u64| {
        let len = (x >> 61) as u32 % 7 + 1;
        Value { tag: (x >> 40 & 127) as u8 + 1, len, number: x >> (64 - 8 * len) }
    };
    (0..count).map(mixed).map(value).collect()
}

/// What takes the digits of numbers, the most significant first.
pub trait Digits: Default {
    type Word;

    fn write(&mut self, n: u32, x: u64);

    fn finish(self) -> Vec<Self::Word>;
}

#[inline(never)]
fn encode<W: Digits>(codes: &[Code], symbols: &[u16]) -> Vec<W::Word> {
    let mut writer = W::default();
    for symbol in symbols {
        let code = codes[*symbol as usize];
        writer.write(code.len as u32, code.bits);
    }
    writer.write(15, 0);
    writer.finish()
}

#[inline(never)]
fn write_values<W: Digits>(values: &[Value]) -> Vec<W::Word> {
    let mut writer = W::default();
    for it in values {
        writer.write(8, it.tag as u64);
        writer.write(16, it.len as u64);
        writer.write(8 * it.len, it.number);
    }
    writer.finish()
}

/// The rows of records, codes and values. By hand it is the same work at indices, pushed and one after another.
pub fn streams<W: Digits>(
    n: usize,
    r: usize,
    ones: impl Fn(&[W::Word]) -> usize,
    pack: impl Fn(&[Record]) -> Vec<W::Word>,
    unpack: impl Fn(&[W::Word], &mut [Record]) -> usize,
    decode: impl Fn(&[W::Word], &[Found], usize) -> usize,
    read_values: impl Fn(&[W::Word], usize) -> usize,
) {
    let all = records(n);
    let packed = pack(&all);
    for (write, read) in [("pack_records", "unpack_records"), ("store_records_at", "load_records_at")] {
        timed(write, r, || (), |_| pack(&all), |_, made| ones(&made));
        timed(read, r, || empty_records(n), |made| unpack(&packed, made), |made, found| sum_of_records(made) + found);
    }
    timed("push_records", r, || (), |_| pack(&all), |_, made| ones(&made));
    let (codes, table, all) = (codes(), found_by_look(), symbols(n));
    timed("codes_append", r, || (), |_| encode::<W>(&codes, &all), |_, made| ones(&made));
    let made = encode::<W>(&codes, &all);
    timed("codes_decode", r, || (), |_| decode(&made, &table, n), |_, total| total);
    let all = values(n);
    timed("values_write", r, || (), |_| write_values::<W>(&all), |_, made| ones(&made));
    let made = write_values::<W>(&all);
    timed("values_read", r, || (), |_| read_values(&made, n), |_, total| total);
}

/// Bits to a writer by a register of 64 bits, the first bit of each byte the highest.
struct Sink<W: Write> {
    inner: W,
    pending: u64,
    count: u32,
}

impl<W: Write> Sink<W> {
    fn write(&mut self, n: u32, x: u64) -> Result<()> {
        let count = self.count + n;
        if count < 64 {
            self.pending = self.pending << n | x;
            self.count = count;
            return Ok(());
        }
        let rest = count - 64;
        let block = if self.count == 0 { x >> rest } else { self.pending << (64 - self.count) | x >> rest };
        self.inner.write_all(&block.to_be_bytes())?;
        self.pending = x & ((1 << rest) - 1);
        self.count = rest;
        Ok(())
    }

    fn finish(mut self) -> Result<W> {
        if self.count > 0 {
            let block = self.pending << (64 - self.count);
            self.inner.write_all(&block.to_be_bytes()[..self.count.div_ceil(8) as usize])?;
        }
        self.inner.flush()?;
        Ok(self.inner)
    }
}

/// Bits of a reader by a register of 64 bits, the same.
struct Source<R: Read> {
    inner: R,
    window: u64,
    have: u32,
}

impl<R: Read> Source<R> {
    fn fill(&mut self) -> Result<()> {
        let mut bytes = [0; 8];
        let room = (63 - self.have) as usize / 8;
        let given = self.inner.read(&mut bytes[..room])?;
        if given == 0 {
            return Err(ErrorKind::UnexpectedEof.into());
        }
        self.window |= u64::from_be_bytes(bytes) >> self.have;
        self.have += 8 * given as u32;
        Ok(())
    }

    fn read(&mut self, n: u32) -> Result<u64> {
        while self.have < n {
            self.fill()?;
        }
        let x = self.window >> (64 - n);
        self.window <<= n;
        self.have -= n;
        Ok(x)
    }
}

#[inline(never)]
fn sink_records(records: &[Record]) -> Result<Vec<u8>> {
    let mut sink = Sink { inner: Vec::new(), pending: 0, count: 0 };
    for it in records {
        sink.write(3, it.kind as u64)?;
        sink.write(13, it.port as u64)?;
        sink.write(1, it.up as u64)?;
        sink.write(20, it.size as u64)?;
        sink.write(27, it.sum as u64)?;
    }
    sink.finish()
}

#[inline(never)]
fn source_records(bytes: &[u8], records: &mut [Record]) -> Result<usize> {
    let mut source = Source { inner: bytes, window: 0, have: 0 };
    for record in records.iter_mut() {
        let (kind, port, up) = (source.read(3)? as u32, source.read(13)? as u32, source.read(1)? == 1);
        *record = Record { kind, port, up, size: source.read(20)? as u32, sum: source.read(27)? as u32 };
    }
    Ok(records.len())
}

fn numbers(count: usize) -> Vec<u64> {
    let number = |x: u64| (x | 1 << 63) >> (64 - (7 * ((x >> 32) % 10 + 1)).min(64));
    (0..count).map(mixed).map(number).collect()
}

#[inline(never)]
fn write_numbers(numbers: &[u64]) -> Vec<u8> {
    let mut bytes = Vec::new();
    for x in numbers {
        let mut left = *x;
        while left >= 128 {
            bytes.push(left as u8 | 128);
            left >>= 7;
        }
        bytes.push(left as u8);
    }
    bytes
}

#[inline(never)]
fn read_numbers(bytes: &[u8], count: usize) -> usize {
    let (mut at, mut total) = (0, 0usize);
    for _ in 0..count {
        let (mut x, mut shift) = (0, 0);
        loop {
            let byte = bytes[at];
            at += 1;
            x |= (byte as u64 & 127) << shift;
            shift += 7;
            if byte < 128 {
                break;
            }
        }
        total = total.wrapping_mul(3).wrapping_add(x as usize);
    }
    total
}

/// The rows of sinks, sources and LEB128, all in bytes.
pub fn by_bytes(n: usize, r: usize) {
    let ones = |bytes: &[u8]| bytes.iter().map(|b| b.count_ones() as usize).sum::<usize>();
    let all = records(n);
    let packed = sink_records(&all).unwrap();
    for name in ["sink_records", "sink_records_buffered"] {
        timed(name, r, || (), |_| sink_records(&all).unwrap(), |_, made| ones(&made));
    }
    for name in ["source_records", "source_records_buffered"] {
        timed(name, r, || empty_records(n), |made| source_records(&packed, made).unwrap(), |made, found| sum_of_records(made) + found);
    }
    let all = numbers(n);
    let packed = write_numbers(&all);
    timed("leb128_write", r, || (), |_| write_numbers(&all), |_, made| ones(&made));
    timed("leb128_read", r, || (), |_| read_numbers(&packed, n), |_, total| total);
}
