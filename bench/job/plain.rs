//! The job of `generate`'s plan as a plain program on one thread: a scanner of just this shape of
//! input, a hash map from window and key to totals, and a sort at the end.
//!
//! `plain INPUT SIZE SLIDE`

use std::collections::HashMap;
use std::io::{self, BufWriter, Write};

struct Totals {
    count: u64,
    sum: i128,
    least: i64,
    greatest: i64,
}

struct Windows {
    size: i64,
    slide: i64,
    totals: HashMap<(i64, i64), Totals>,
}

impl Windows {
    fn add(&mut self, time: i64, key: i64, value: i64) {
        let mut start = time - time.rem_euclid(self.slide);
        while start > time - self.size {
            let totals = self.totals.entry((start, key)).or_insert(Totals {
                count: 0,
                sum: 0,
                least: i64::MAX,
                greatest: i64::MIN,
            });
            totals.count += 1;
            totals.sum += i128::from(value);
            totals.least = totals.least.min(value);
            totals.greatest = totals.greatest.max(value);
            start -= self.slide;
        }
    }

    fn write(self, out: &mut impl Write) -> io::Result<()> {
        let size = self.size;
        let mut rows: Vec<_> = self.totals.into_iter().collect();
        rows.sort_unstable_by_key(|(place, _)| *place);
        for ((start, key), totals) in rows {
            let Totals { count, sum, least, greatest } = totals;
            writeln!(out, "{start} {} {key} {count} {sum} {least} {greatest}", start + size)?;
        }
        Ok(())
    }
}

struct Scanner<'a> {
    bytes: &'a [u8],
    place: usize,
}

type Scanned<T> = Result<T, String>;

impl<'a> Scanner<'a> {
    fn peek(&mut self) -> Option<u8> {
        while self.bytes.get(self.place).is_some_and(u8::is_ascii_whitespace) {
            self.place += 1;
        }
        self.bytes.get(self.place).copied()
    }

    fn accept(&mut self, byte: u8) -> bool {
        let found = self.peek() == Some(byte);
        self.place += usize::from(found);
        found
    }

    fn expect(&mut self, byte: u8) -> Scanned<()> {
        if self.accept(byte) {
            return Ok(());
        }
        Err(format!("byte {}: no {}", self.place, char::from(byte)))
    }

    fn name(&mut self) -> Scanned<&'a [u8]> {
        self.expect(b'"')?;
        let rest = &self.bytes[self.place..];
        let end = rest.iter().position(|byte| *byte == b'"').ok_or("no end of a name")?;
        self.place += end + 1;
        self.expect(b':')?;
        Ok(&rest[..end])
    }

    fn number(&mut self) -> Scanned<i64> {
        let negative = self.accept(b'-');
        let first = self.place;
        let mut number: i64 = 0;
        while let Some(digit) = self.bytes.get(self.place).filter(|byte| byte.is_ascii_digit()) {
            let shifted = number.checked_mul(10);
            let sum = shifted.and_then(|tens| tens.checked_add(i64::from(digit - b'0')));
            number = sum.ok_or_else(|| format!("byte {first}: too great a number"))?;
            self.place += 1;
        }
        if self.place == first {
            return Err(format!("byte {first}: no number"));
        }
        Ok(if negative { -number } else { number })
    }

    fn list(&mut self, mut item: impl FnMut(&mut Self) -> Scanned<()>) -> Scanned<()> {
        self.expect(b'[')?;
        if self.accept(b']') {
            return Ok(());
        }
        loop {
            item(self)?;
            if !self.accept(b',') {
                return self.expect(b']');
            }
        }
    }

    /// A late row is refused, as streamjob does.
    fn row(&mut self, watermark: i64, windows: &mut Windows) -> Scanned<()> {
        self.expect(b'[')?;
        let time = self.number()?;
        self.expect(b',')?;
        let key = self.number()?;
        self.expect(b',')?;
        let value = self.number()?;
        while self.accept(b',') {
            self.number()?;
        }
        self.expect(b']')?;
        if time <= watermark {
            return Err(format!("byte {}: a late row", self.place));
        }
        windows.add(time, key, value);
        Ok(())
    }

    /// `watermark` is that of the partition.
    fn entry(&mut self, watermark: &mut i64, windows: &mut Windows) -> Scanned<()> {
        self.expect(b'{')?;
        match self.name()? {
            b"rows" => self.list(|scanner| scanner.row(*watermark, windows))?,
            b"watermark" => *watermark = (*watermark).max(self.number()?),
            _ => return Err(format!("byte {}: an unknown member", self.place)),
        }
        self.expect(b'}')
    }

    fn input(&mut self, windows: &mut Windows) -> Scanned<()> {
        self.expect(b'{')?;
        self.name()?;
        self.list(|scanner| {
            let mut watermark = i64::MIN;
            scanner.list(|scanner| scanner.entry(&mut watermark, windows))
        })?;
        self.expect(b'}')?;
        match self.peek() {
            None => Ok(()),
            Some(_) => Err(format!("byte {}: more after the end", self.place)),
        }
    }
}

fn main() -> Result<(), Box<dyn std::error::Error>> {
    let words: Vec<String> = std::env::args().skip(1).collect();
    let [input, size, slide] = words.as_slice() else {
        return Err("plain INPUT SIZE SLIDE".into());
    };
    let mut windows = Windows { size: size.parse()?, slide: slide.parse()?, totals: HashMap::new() };
    let bytes = std::fs::read(input)?;
    Scanner { bytes: &bytes, place: 0 }.input(&mut windows)?;
    let mut out = BufWriter::new(io::stdout().lock());
    windows.write(&mut out)?;
    out.flush()?;
    Ok(())
}
