//! The same decoder, encoder and bit ends in plain Rust, on the same list of context bins.
use std::time::Instant;

const BINS: u32 = 4000000;
const ROUNDS: u32 = 8;

include!("tables.rs");

#[derive(Clone, Copy)]
struct Bin {
    cell: u8,
    bit: bool,
}

fn sample() -> Vec<Bin> {
    let mut bins = Vec::new();
    let mut state = 1u32;
    for _ in 0..BINS {
        state = state.wrapping_mul(1664525).wrapping_add(1013904223);
        let cell = (state >> 24) as u8;
        state = state.wrapping_mul(1664525).wrapping_add(1013904223);
        let bit = (state >> 24) as u8 > cell;
        bins.push(Bin { cell, bit });
    }
    bins
}

#[derive(Clone, Copy)]
struct Cell {
    p: u8,
    mps: bool,
}

impl Cell {
    #[inline(always)]
    fn update(&mut self, bit: bool) {
        if bit == self.mps {
            self.p = (self.p + 1).min(62);
        } else {
            if self.p == 0 {
                self.mps = !self.mps;
            }
            self.p = TRANS_LPS[self.p as usize];
        }
    }
}

struct SliceBits<'a> {
    bytes: &'a [u8],
    place: usize,
    used: u8,
}

impl SliceBits<'_> {
    fn window(&self) -> u64 {
        let left = &self.bytes[self.place..];
        let high = match left {
            [a, b, c, d, e, f, g, h, ..] => u64::from_be_bytes([*a, *b, *c, *d, *e, *f, *g, *h]),
            _ => (0..8).fold(0, |w, i| w * 256 + u64::from(*left.get(i).unwrap_or(&0))),
        };
        let next = *left.get(8).unwrap_or(&0);
        (high << self.used) + (u64::from(next) >> (8 - self.used))
    }

    fn skip(&mut self, n: u8) -> bool {
        let bits = self.used + n;
        if usize::from((bits + 7) / 8) > self.bytes.len() - self.place {
            return false;
        }
        self.place += usize::from(bits / 8);
        self.used = bits % 8;
        true
    }
}

fn read_u(bits: &mut SliceBits, n: u8) -> Option<u32> {
    let window = bits.window();
    if !bits.skip(n) {
        return None;
    }
    Some((window >> 32 >> (32 - n)) as u32)
}

#[inline(always)]
fn doublings(range: u16) -> u8 {
    (range.leading_zeros() - 7) as u8
}

struct Decoder<'a> {
    range: u16,
    offset: u16,
    bits: SliceBits<'a>,
}

impl<'a> Decoder<'a> {
    fn start(mut bits: SliceBits<'a>) -> Option<Self> {
        match read_u(&mut bits, 9) {
            Some(offset) if offset < 510 => Some(Decoder {
                range: 510,
                offset: offset as u16,
                bits,
            }),
            _ => None,
        }
    }

    #[inline(always)]
    fn bin(&mut self, cell: &mut Cell) -> Option<bool> {
        let lps = RANGE_LPS[cell.p as usize][((self.range >> 6) & 3) as usize];
        let probable = self.narrow(lps)?;
        let bit = probable == cell.mps;
        cell.update(bit);
        Some(bit)
    }

    #[inline(always)]
    fn narrow(&mut self, upper: u16) -> Option<bool> {
        let offset = self.offset;
        let lower = self.range - upper;
        if offset < lower {
            self.refill(lower, offset)?;
            Some(true)
        } else {
            self.refill(upper, offset - lower)?;
            Some(false)
        }
    }

    #[inline(always)]
    fn refill(&mut self, range: u16, offset: u16) -> Option<()> {
        if range >= 256 {
            self.range = range;
            self.offset = offset;
            return Some(());
        }
        let count = doublings(range);
        match read_u(&mut self.bits, count) {
            Some(value) => {
                self.range = range << count;
                self.offset = (offset << count) + value as u16;
                Some(())
            }
            None => {
                self.range = 0;
                None
            }
        }
    }
}

struct BitVec {
    bytes: Vec<u8>,
    last: u8,
    count: u8,
}

impl BitVec {
    fn put_in_byte(&mut self, value: u8, n: u8) {
        let last = ((u16::from(self.last) << n) + u16::from(value)) as u8;
        let count = self.count + n;
        if count == 8 {
            self.bytes.push(last);
            self.last = 0;
            self.count = 0;
        } else {
            self.last = last;
            self.count = count;
        }
    }

    fn put(&mut self, bit: bool) {
        self.put_in_byte(u8::from(bit), 1)
    }

    fn put_bits(&mut self, value: u64, n: u8) {
        let mut left = n;
        while left > 0 {
            let few = left.min(8 - self.count);
            left -= few;
            self.put_in_byte(((value >> left) % (1 << few)) as u8, few);
        }
    }
}

struct PendingBits {
    sink: BitVec,
    held: u64,
    count: u8,
    outstanding: Vec<u64>,
}

impl PendingBits {
    #[cold]
    fn append(&mut self, bits: u64, count: u8) {
        let end = 1u64 << count;
        if bits < end {
            return self.extend(bits, count);
        }
        self.settle(true);
        self.extend(bits - end, count)
    }

    fn extend(&mut self, bits: u64, count: u8) {
        if bits + 1 < 1 << count {
            self.settle(false);
            self.held = bits;
            self.count = count;
        } else if self.count == 0 {
            self.sink.put_bits(bits, count)
        } else {
            match self.outstanding.last_mut() {
                Some(last) if *last <= u64::MAX - u64::from(count) => *last += u64::from(count),
                _ => self.outstanding.push(u64::from(count)),
            }
        }
    }

    fn settle(&mut self, carry: bool) {
        if self.count == 0 {
            return;
        }
        self.sink.put_bits(self.held + u64::from(carry), self.count);
        while let Some(count) = self.outstanding.pop() {
            for _ in 0..count {
                self.sink.put(!carry);
            }
        }
        self.held = 0;
        self.count = 0;
    }
}

struct Encoder {
    range: u16,
    register: u64,
    gathered: u8,
    pending: PendingBits,
}

impl Encoder {
    fn start() -> Self {
        let sink = BitVec {
            bytes: Vec::new(),
            last: 0,
            count: 0,
        };
        Encoder {
            range: 510,
            register: 0,
            gathered: 0,
            pending: PendingBits {
                sink,
                held: 0,
                count: 0,
                outstanding: Vec::new(),
            },
        }
    }

    #[inline(always)]
    fn bin(&mut self, cell: &mut Cell, bit: bool) {
        let lps = RANGE_LPS[cell.p as usize][((self.range >> 6) & 3) as usize];
        let lower = self.range - lps;
        if bit == cell.mps {
            self.renormalise(0, lower);
        } else {
            self.renormalise(lower, lps);
        }
        cell.update(bit);
    }

    #[inline(always)]
    fn renormalise(&mut self, skipped: u16, range: u16) {
        let register = self.register + u64::from(skipped);
        let count = doublings(range);
        let register = register << count;
        let gathered = self.gathered + count;
        self.range = range << count;
        if gathered < 32 {
            self.register = register;
            self.gathered = gathered;
            return;
        }
        self.register = register % 512;
        self.gathered = 0;
        self.pending.append(register / 512, gathered)
    }

    fn end(&mut self) {
        self.register += u64::from(self.range - 2);
        self.range = 2;
    }

    fn close(mut self) -> Vec<u8> {
        self.pending.append(self.register / 2 * 2 + 1, self.gathered + 9);
        self.pending.settle(false);
        while self.pending.sink.count != 0 {
            self.pending.sink.put(false);
        }
        self.pending.sink.bytes
    }
}

#[inline(never)]
fn encode(encoder: &mut Encoder, bins: &[Bin]) {
    let mut cells = [Cell { p: 0, mps: true }; 256];
    for bin in bins {
        encoder.bin(&mut cells[bin.cell as usize], bin.bit);
    }
    encoder.end()
}

#[inline(never)]
fn decode(decoder: &mut Decoder, bins: &[Bin]) -> Option<u32> {
    let mut cells = [Cell { p: 0, mps: true }; 256];
    let mut other = 0u32;
    for bin in bins {
        let bit = decoder.bin(&mut cells[bin.cell as usize])?;
        other = other.wrapping_add(u32::from(bit != bin.bit));
    }
    Some(other)
}

fn main() {
    let bins = sample();
    for _ in 0..ROUNDS {
        let start = Instant::now();
        let mut encoder = Encoder::start();
        encode(&mut encoder, &bins);
        let encoding = start.elapsed();
        let bytes = encoder.close();
        let mut decoder = Decoder::start(SliceBits { bytes: &bytes, place: 0, used: 0 }).unwrap();
        let start = Instant::now();
        let other = decode(&mut decoder, &bins);
        let decoding = start.elapsed();
        println!("plain {} {} {} {}", encoding.as_nanos(), decoding.as_nanos(), bytes.len(), other == Some(0));
    }
}
