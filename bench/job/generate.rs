//! Writes a plan and an orderly input of random records, the same for the same words.
//!
//! `generate PLAN INPUT [name=number ..]`, with the names and defaults of `Shape`.

use std::fs::File;
use std::io::{self, BufWriter, Write};

struct Shape {
    records: u64,
    partitions: u64,
    /// How many rows an entry has; a watermark follows each.
    rows: u64,
    keys: u64,
    /// 3 or more: a time, a key, the number that is aggregated, and others that are only read.
    columns: u64,
    /// How far, in milliseconds, a record's time may be behind the latest time before it.
    disorder: u64,
    size: u64,
    slide: u64,
    seed: u64,
}

impl Shape {
    fn from_words(words: impl Iterator<Item = String>) -> Result<Shape, String> {
        let mut shape = Shape {
            records: 1_000_000,
            partitions: 4,
            rows: 1000,
            keys: 1000,
            columns: 3,
            disorder: 500,
            size: 10_000,
            slide: 10_000,
            seed: 1,
        };
        for word in words {
            let (name, number) = word.split_once('=').ok_or_else(|| format!("no name=number: {word}"))?;
            let place = match name {
                "records" => &mut shape.records,
                "partitions" => &mut shape.partitions,
                "rows" => &mut shape.rows,
                "keys" => &mut shape.keys,
                "columns" => &mut shape.columns,
                "disorder" => &mut shape.disorder,
                "size" => &mut shape.size,
                "slide" => &mut shape.slide,
                "seed" => &mut shape.seed,
                _ => return Err(format!("unknown name: {name}")),
            };
            *place = number.parse().map_err(|_| format!("no number: {word}"))?;
        }
        Ok(shape)
    }

    fn write_plan(&self, out: &mut impl Write) -> io::Result<()> {
        writeln!(
            out,
            r#"{{"columns":{},"maxParallelism":128,"time":0,"key":1,
 "sources":[{{"uid":"records","partitions":{}}}],
 "window":{{"uid":"totals","size":{},"slide":{},
  "aggregates":[{{"fn":"count"}},{{"fn":"sum","column":2}},
   {{"fn":"least","column":2}},{{"fn":"greatest","column":2}}]}}}}"#,
            self.columns, self.partitions, self.size, self.slide
        )
    }

    fn write_input(&self, out: &mut impl Write) -> io::Result<()> {
        let mut random = Random(self.seed);
        write!(out, r#"{{"records":["#)?;
        for partition in 0..self.partitions {
            let (quotient, rest) = (self.records / self.partitions, self.records % self.partitions);
            let records = quotient + u64::from(partition < rest);
            write!(out, "{}", if partition == 0 { "\n[" } else { ",\n[" })?;
            self.write_partition(records, &mut random, out)?;
            write!(out, "]")?;
        }
        writeln!(out, "]}}")
    }

    /// The clock goes up by a millisecond with each record, whose time is at most `disorder`
    /// behind it. So all later times are above the clock less `disorder`, which is the watermark.
    fn write_partition(&self, records: u64, random: &mut Random, out: &mut impl Write) -> io::Result<()> {
        for first in (0..records).step_by(self.rows as usize) {
            let end = records.min(first + self.rows);
            write!(out, "{}", if first == 0 { r#"{"rows":["# } else { ",\n{\"rows\":[" })?;
            for row in first..end {
                let time = row + self.disorder - random.below(self.disorder + 1);
                let key = random.below(self.keys);
                let comma = if row == first { "" } else { "," };
                write!(out, "{comma}[{time},{key}")?;
                for _ in 2..self.columns {
                    write!(out, ",{}", random.below(20_000) as i64 - 5000)?;
                }
                write!(out, "]")?;
            }
            write!(out, "]}},\n{{\"watermark\":{}}}", end as i64 - 1)?;
        }
        Ok(())
    }
}

/// SplitMix64 (Steele, Lea and Flood, 2014).
struct Random(u64);

impl Random {
    fn next(&mut self) -> u64 {
        self.0 = self.0.wrapping_add(0x9e37_79b9_7f4a_7c15);
        let mut mixed = self.0;
        mixed = (mixed ^ (mixed >> 30)).wrapping_mul(0xbf58_476d_1ce4_e5b9);
        mixed = (mixed ^ (mixed >> 27)).wrapping_mul(0x94d0_49bb_1331_11eb);
        mixed ^ (mixed >> 31)
    }

    fn below(&mut self, bound: u64) -> u64 {
        ((u128::from(self.next()) * u128::from(bound)) >> 64) as u64
    }
}

fn main() -> Result<(), Box<dyn std::error::Error>> {
    let mut words = std::env::args().skip(1);
    let (Some(plan), Some(input)) = (words.next(), words.next()) else {
        return Err("generate PLAN INPUT [name=number ..]".into());
    };
    let shape = Shape::from_words(words)?;
    shape.write_plan(&mut File::create(plan)?)?;
    let mut out = BufWriter::new(File::create(input)?);
    shape.write_input(&mut out)?;
    out.flush()?;
    Ok(())
}
