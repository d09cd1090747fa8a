//! The job of `generate`'s plan, tuned by hand: digits read eight at a time from just this shape of input,
//! a table with open addressing, a sort at the end, and digits written straight into the answer.
//!
//! `tuned INPUT SIZE SLIDE`

use std::io::{self, Write};

#[derive(Clone, Copy)]
struct Totals {
    start: i64,
    key: i64,
    /// 0 in a slot that is free.
    count: u64,
    least: i64,
    greatest: i64,
    sum: i128,
}

const FREE: Totals = Totals { start: 0, key: 0, count: 0, least: i64::MAX, greatest: i64::MIN, sum: 0 };

struct Windows {
    size: i64,
    slide: i64,
    /// Their number is a power of two, and at most three quarters are taken.
    slots: Vec<Totals>,
    taken: usize,
}

impl Windows {
    fn new(size: i64, slide: i64) -> Windows {
        Windows { size, slide, slots: vec![FREE; 1024], taken: 0 }
    }

    /// The slot of the window and key, or the free one where they belong.
    fn slot(&self, start: i64, key: i64) -> usize {
        let product = u128::from((start as u64).wrapping_mul(0x9e37_79b9_7f4a_7c15) ^ key as u64) * 0xd6e8_feb8_6659_fd93;
        let mask = self.slots.len() - 1;
        let mut slot = ((product >> 64) ^ product) as usize & mask;
        while self.slots[slot].count != 0 && (self.slots[slot].start, self.slots[slot].key) != (start, key) {
            slot = (slot + 1) & mask;
        }
        slot
    }

    #[cold]
    fn grow(&mut self) {
        let more = vec![FREE; self.slots.len() * 2];
        let before = std::mem::replace(&mut self.slots, more);
        for totals in before.into_iter().filter(|totals| totals.count != 0) {
            let slot = self.slot(totals.start, totals.key);
            self.slots[slot] = totals;
        }
    }

    fn add(&mut self, time: i64, key: i64, value: i64) {
        let mut start = time - time.rem_euclid(self.slide);
        while start > time - self.size {
            let mut slot = self.slot(start, key);
            if self.slots[slot].count == 0 {
                self.taken += 1;
                if self.taken * 4 > self.slots.len() * 3 {
                    self.grow();
                    slot = self.slot(start, key);
                }
            }
            let totals = &mut self.slots[slot];
            totals.start = start;
            totals.key = key;
            totals.count += 1;
            totals.sum += i128::from(value);
            totals.least = totals.least.min(value);
            totals.greatest = totals.greatest.max(value);
            start -= self.slide;
        }
    }

    fn text(self) -> Vec<u8> {
        let mut rows: Vec<_> = self.slots.into_iter().filter(|totals| totals.count != 0).collect();
        rows.sort_unstable_by_key(|totals| (totals.start, totals.key));
        let mut text = Vec::new();
        for totals in rows {
            let places = [totals.start, totals.start + self.size, totals.key].map(i128::from);
            push(&mut text, places[0]);
            for number in [places[1], places[2], i128::from(totals.count), totals.sum, totals.least.into(), totals.greatest.into()] {
                text.push(b' ');
                push(&mut text, number);
            }
            text.push(b'\n');
        }
        text
    }
}

fn push(text: &mut Vec<u8>, number: i128) {
    let mut digits = [0; 40];
    let mut first = digits.len();
    let mut rest = number.unsigned_abs();
    while rest > u128::from(u64::MAX) {
        first -= 1;
        digits[first] = b'0' + (rest % 10) as u8;
        rest /= 10;
    }
    let mut low = rest as u64;
    loop {
        first -= 1;
        digits[first] = b'0' + (low % 10) as u8;
        low /= 10;
        if low == 0 {
            break;
        }
    }
    if number < 0 {
        first -= 1;
        digits[first] = b'-';
    }
    text.extend_from_slice(&digits[first..]);
}

/// The bytes have eight zeros behind the text. Each method answers None where the text has another shape.
struct Scanner<'a> {
    bytes: &'a [u8],
    place: usize,
}

impl Scanner<'_> {
    fn skip_space(&mut self) {
        while matches!(self.bytes[self.place], b' ' | b'\n' | b'\r' | b'\t') {
            self.place += 1;
        }
    }

    #[inline(always)]
    fn accept(&mut self, byte: u8) -> bool {
        if self.bytes[self.place] <= b' ' {
            self.skip_space();
        }
        let found = self.bytes[self.place] == byte;
        self.place += usize::from(found);
        found
    }

    #[inline(always)]
    fn expect(&mut self, byte: u8) -> Option<()> {
        self.accept(byte).then_some(())
    }

    /// A number of at most 18 digits.
    #[inline(always)]
    fn number(&mut self) -> Option<i64> {
        let negative = self.accept(b'-');
        let first = self.place;
        let mut number: u64 = 0;
        loop {
            let word = u64::from_le_bytes(self.bytes.get(self.place..self.place + 8)?.try_into().ok()?);
            let values = word ^ 0x3030_3030_3030_3030;
            // The top bit of each byte that is no digit.
            let others = (values.wrapping_add(0x7676_7676_7676_7676) | values) & 0x8080_8080_8080_8080;
            if others != 0 {
                let count = others.trailing_zeros() / 8;
                let digits = eight(values.wrapping_shl(64 - 8 * count)) * u64::from(count > 0);
                number = number.wrapping_mul(POWERS[count as usize]).wrapping_add(digits);
                self.place += count as usize;
                break;
            }
            number = number.wrapping_mul(POWERS[8]).wrapping_add(eight(values));
            self.place += 8;
        }
        if self.place == first || self.place - first > 18 {
            return None;
        }
        Some(if negative { -(number as i64) } else { number as i64 })
    }

    /// A late row is refused, as streamjob does.
    fn row(&mut self, watermark: i64, windows: &mut Windows) -> Option<()> {
        self.expect(b'[')?;
        let time = self.number()?;
        self.expect(b',')?;
        let key = self.number()?;
        self.expect(b',')?;
        let value = self.number()?;
        while self.accept(b',') {
            self.number()?;
        }
        self.expect(b']')?;
        if time <= watermark {
            return None;
        }
        windows.add(time, key, value);
        Some(())
    }

    fn entry(&mut self, watermark: &mut i64, windows: &mut Windows) -> Option<()> {
        self.expect(b'{')?;
        self.skip_space();
        let rest = &self.bytes[self.place..];
        if rest.starts_with(br#""rows":["#) {
            self.place += 8;
            self.row(*watermark, windows)?;
            while self.accept(b',') {
                self.row(*watermark, windows)?;
            }
            self.expect(b']')?;
        } else if rest.starts_with(br#""watermark":"#) {
            self.place += 12;
            *watermark = (*watermark).max(self.number()?);
        } else {
            return None;
        }
        self.expect(b'}')
    }

    fn partition(&mut self, windows: &mut Windows) -> Option<()> {
        self.expect(b'[')?;
        let mut watermark = i64::MIN;
        self.entry(&mut watermark, windows)?;
        while self.accept(b',') {
            self.entry(&mut watermark, windows)?;
        }
        self.expect(b']')
    }

    fn input(&mut self, windows: &mut Windows) -> Option<()> {
        self.expect(b'{')?;
        self.expect(b'"')?;
        while self.bytes[self.place] != b':' {
            self.place += 1;
        }
        self.expect(b':')?;
        self.expect(b'[')?;
        self.partition(windows)?;
        while self.accept(b',') {
            self.partition(windows)?;
        }
        self.expect(b']')?;
        self.expect(b'}')
    }
}

const POWERS: [u64; 9] = [1, 10, 100, 1_000, 10_000, 100_000, 1_000_000, 10_000_000, 100_000_000];

/// The number that eight digits are, from their values, the first in the lowest byte.
#[inline]
fn eight(values: u64) -> u64 {
    let pairs = values.wrapping_mul(10).wrapping_add(values >> 8);
    let low = (pairs & 0x0000_00ff_0000_00ff).wrapping_mul(0x000f_4240_0000_0064);
    let high = ((pairs >> 16) & 0x0000_00ff_0000_00ff).wrapping_mul(0x0000_2710_0000_0001);
    low.wrapping_add(high) >> 32
}

fn main() -> Result<(), Box<dyn std::error::Error>> {
    let words: Vec<String> = std::env::args().skip(1).collect();
    let [input, size, slide] = words.as_slice() else {
        return Err("tuned INPUT SIZE SLIDE".into());
    };
    let mut windows = Windows::new(size.parse()?, slide.parse()?);
    let mut bytes = std::fs::read(input)?;
    bytes.extend([0; 8]);
    let mut scanner = Scanner { bytes: &bytes, place: 0 };
    let Some(()) = scanner.input(&mut windows) else {
        return Err(format!("byte {}: another shape, or a late row", scanner.place).into());
    };
    drop(bytes);
    io::stdout().lock().write_all(&windows.text())?;
    Ok(())
}
