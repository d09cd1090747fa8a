//! A plain program that reads and writes the layout of savepoints: plain decode|encode|show|fire TIMES FILE, or
//! plain group TIMES FILE GROUP.
use std::collections::HashMap;
use std::io::Write;

/// How long the windows of the savepoint's plan are.
const SIZE: i64 = 60_000;

struct Entry {
    start: i64,
    key: i64,
    count: u64,
}

struct Group {
    group: u16,
    entries: Vec<Entry>,
    numbers: Vec<i128>,
}

struct Source {
    uid: String,
    partitions: Vec<(u64, i64)>,
}

struct Savepoint {
    number: u64,
    record: Vec<u8>,
    max: u16,
    sources: Vec<Source>,
    window: String,
    kinds: Vec<u8>,
    groups: Vec<Group>,
}

struct Reader<'a> {
    rest: &'a [u8],
}

type Read<T> = Result<T, &'static str>;

impl<'a> Reader<'a> {
    fn take(&mut self, count: usize) -> Read<&'a [u8]> {
        if self.rest.len() < count {
            return Err("V2 Truncated");
        }
        let (front, rest) = self.rest.split_at(count);
        self.rest = rest;
        Ok(front)
    }

    fn u8(&mut self) -> Read<u8> {
        Ok(self.take(1)?[0])
    }

    fn u16(&mut self) -> Read<u16> {
        Ok(u16::from_be_bytes(self.take(2)?.try_into().unwrap()))
    }

    fn u64(&mut self) -> Read<u64> {
        Ok(u64::from_be_bytes(self.take(8)?.try_into().unwrap()))
    }

    fn i64(&mut self) -> Read<i64> {
        Ok(self.u64()? as i64)
    }

    fn i128(&mut self) -> Read<i128> {
        Ok(i128::from_be_bytes(self.take(16)?.try_into().unwrap()))
    }

    fn few(&mut self, most: u8) -> Read<u8> {
        let n = self.u8()?;
        if n < 1 || n > most { Err("V5 Range") } else { Ok(n) }
    }

    fn uid(&mut self) -> Read<String> {
        let length = self.few(64)?;
        let bytes = self.take(length as usize)?;
        if !bytes.iter().all(|b| matches!(b, b'a'..=b'z' | b'0'..=b'9' | b'-')) {
            return Err("V5 Range");
        }
        Ok(String::from_utf8(bytes.to_vec()).unwrap())
    }
}

fn admits(kind: u8, count: u64, number: i128) -> bool {
    match kind {
        0 => number == count as i128,
        1 => number.unsigned_abs() <= (count as u128) << 63,
        _ => i64::try_from(number).is_ok(),
    }
}

/// A key group in the index.
#[derive(Clone, Copy)]
struct Head {
    group: u16,
    count: u64,
    place: u64,
}

/// How many bytes the index has of a key group.
const HEAD_SIZE: u64 = 18;

fn entry_size(kinds: &[u8]) -> u64 {
    24 + 16 * kinds.len() as u64
}

fn read_head(reader: &mut Reader<'_>) -> Read<Head> {
    Ok(Head { group: reader.u16()?, count: reader.u64()?, place: reader.u64()? })
}

/// The index, of which the first entries begin at `first`.
fn read_index(reader: &mut Reader<'_>, max: u16, size: u64, first: u64, count: u16) -> Read<Vec<Head>> {
    let mut heads: Vec<Head> = Vec::with_capacity(count as usize);
    let mut place = Some(first);
    for _ in 0..count {
        let head = read_head(reader)?;
        if head.group >= max {
            return Err("V5 Range");
        }
        if head.count == 0 || heads.last().is_some_and(|last| last.group >= head.group) {
            return Err("V4 Order");
        }
        if place != Some(head.place) {
            return Err("V7 Index");
        }
        place = size.checked_mul(head.count).and_then(|bytes| bytes.checked_add(head.place));
        heads.push(head);
    }
    Ok(heads)
}

fn read_entries(reader: &mut Reader<'_>, kinds: &[u8], head: Head) -> Read<Group> {
    let Head { group, count, .. } = head;
    let room = count.min((reader.rest.len() / (24 + 16 * kinds.len())) as u64) as usize;
    let mut entries = Vec::with_capacity(room);
    let mut numbers = Vec::with_capacity(room * kinds.len());
    let mut before = None;
    for _ in 0..count {
        let (start, key) = (reader.i64()?, reader.i64()?);
        if before.is_some_and(|before| before >= (start, key)) {
            return Err("V4 Order");
        }
        before = Some((start, key));
        let count = reader.u64()?;
        if count < 1 || count > 1 << 40 {
            return Err("V5 Range");
        }
        for kind in kinds {
            let number = reader.i128()?;
            if !admits(*kind, count, number) {
                return Err("V5 Range");
            }
            numbers.push(number);
        }
        entries.push(Entry { start, key, count });
    }
    Ok(Group { group, entries, numbers })
}

/// All but the key groups, and how many these are.
fn read_front(reader: &mut Reader<'_>) -> Read<(Savepoint, u16)> {
    if reader.take(4)? != b"WSP2" {
        return Err("V1 Magic");
    }
    let number = reader.u64()?;
    if number == 0 {
        return Err("V5 Range");
    }
    let length = reader.u16()?;
    let record = reader.take(length as usize)?.to_vec();
    let max = reader.u16()?;
    if max < 1 || max > 32768 {
        return Err("V5 Range");
    }
    let mut sources: Vec<Source> = Vec::new();
    for _ in 0..reader.few(8)? {
        let uid = reader.uid()?;
        if sources.last().is_some_and(|last| last.uid >= uid) {
            return Err("V4 Order");
        }
        let mut partitions = Vec::new();
        for _ in 0..reader.few(64)? {
            partitions.push((reader.u64()?, reader.i64()?));
        }
        sources.push(Source { uid, partitions });
    }
    let window = reader.uid()?;
    let mut kinds = Vec::new();
    for _ in 0..reader.few(8)? {
        let kind = reader.u8()?;
        if kind > 3 {
            return Err("V5 Range");
        }
        kinds.push(kind);
    }
    let count = reader.u16()?;
    Ok((Savepoint { number, record, max, sources, window, kinds, groups: Vec::new() }, count))
}

fn decode(bytes: &[u8]) -> Read<Savepoint> {
    let mut reader = Reader { rest: bytes };
    let (mut savepoint, count) = read_front(&mut reader)?;
    let first = (bytes.len() - reader.rest.len()) as u64 + HEAD_SIZE * count as u64;
    let heads = read_index(&mut reader, savepoint.max, entry_size(&savepoint.kinds), first, count)?;
    for head in heads {
        savepoint.groups.push(read_entries(&mut reader, &savepoint.kinds, head)?);
    }
    if !reader.rest.is_empty() {
        return Err("V3 Trailing");
    }
    Ok(savepoint)
}

/// The entries of a key group, found by the index alone.
fn decode_group(bytes: &[u8], group: u16) -> Read<Option<Group>> {
    let mut reader = Reader { rest: bytes };
    let (savepoint, count) = read_front(&mut reader)?;
    for _ in 0..count {
        let head = read_head(&mut reader)?;
        if head.group == group {
            let rest = usize::try_from(head.place).ok().and_then(|place| bytes.get(place..)).ok_or("V2 Truncated")?;
            return Ok(Some(read_entries(&mut Reader { rest }, &savepoint.kinds, head)?));
        }
    }
    Ok(None)
}

fn encode(s: &Savepoint) -> Vec<u8> {
    let mut out = Vec::new();
    out.extend_from_slice(b"WSP2");
    out.extend_from_slice(&s.number.to_be_bytes());
    out.extend_from_slice(&(s.record.len() as u16).to_be_bytes());
    out.extend_from_slice(&s.record);
    out.extend_from_slice(&s.max.to_be_bytes());
    out.push(s.sources.len() as u8);
    for source in &s.sources {
        out.push(source.uid.len() as u8);
        out.extend_from_slice(source.uid.as_bytes());
        out.push(source.partitions.len() as u8);
        for (offset, watermark) in &source.partitions {
            out.extend_from_slice(&offset.to_be_bytes());
            out.extend_from_slice(&watermark.to_be_bytes());
        }
    }
    out.push(s.window.len() as u8);
    out.extend_from_slice(s.window.as_bytes());
    out.push(s.kinds.len() as u8);
    out.extend_from_slice(&s.kinds);
    out.extend_from_slice(&(s.groups.len() as u16).to_be_bytes());
    let size = entry_size(&s.kinds);
    let mut place = out.len() as u64 + HEAD_SIZE * s.groups.len() as u64;
    for group in &s.groups {
        out.extend_from_slice(&group.group.to_be_bytes());
        out.extend_from_slice(&(group.entries.len() as u64).to_be_bytes());
        out.extend_from_slice(&place.to_be_bytes());
        place += size * group.entries.len() as u64;
    }
    out.reserve_exact(place as usize - out.len());
    for group in &s.groups {
        for (entry, numbers) in group.entries.iter().zip(group.numbers.chunks(s.kinds.len())) {
            out.extend_from_slice(&entry.start.to_be_bytes());
            out.extend_from_slice(&entry.key.to_be_bytes());
            out.extend_from_slice(&entry.count.to_be_bytes());
            for number in numbers {
                out.extend_from_slice(&number.to_be_bytes());
            }
        }
    }
    out
}

fn show(s: &Savepoint) -> std::io::Result<()> {
    let mut out = std::io::BufWriter::new(std::io::stdout().lock());
    writeln!(out, "number {}\nmax {}", s.number, s.max)?;
    for source in &s.sources {
        for (i, (offset, watermark)) in source.partitions.iter().enumerate() {
            writeln!(out, "source {} {i} {offset} {watermark}", source.uid)?;
        }
    }
    writeln!(out, "window {}", s.window)?;
    for group in &s.groups {
        for (entry, numbers) in group.entries.iter().zip(group.numbers.chunks(s.kinds.len())) {
            write!(out, "entry {} {} {} {}", group.group, entry.start, entry.key, entry.count)?;
            for number in numbers {
                write!(out, " {number}")?;
            }
            writeln!(out)?;
        }
    }
    out.flush()
}

/// Puts the entries into the state of a window, a map, takes all of them out in order, and prints their rows.
fn fire(s: &Savepoint) -> std::io::Result<()> {
    let mut state = HashMap::new();
    for group in &s.groups {
        for (entry, numbers) in group.entries.iter().zip(group.numbers.chunks(s.kinds.len())) {
            state.insert((entry.start, entry.key), numbers);
        }
    }
    let mut rows: Vec<_> = state.drain().collect();
    rows.sort_unstable_by_key(|(pane, _)| *pane);
    let mut out = std::io::BufWriter::new(std::io::stdout().lock());
    for ((start, key), numbers) in rows {
        write!(out, "{start} {} {key}", start + SIZE)?;
        for number in numbers {
            write!(out, " {number}")?;
        }
        writeln!(out)?;
    }
    out.flush()
}

fn main() {
    let words: Vec<String> = std::env::args().collect();
    let times: u32 = words[2].parse().unwrap();
    let bytes = std::fs::read(&words[3]).unwrap();
    let mut count = 0;
    match words[1].as_str() {
        "decode" => {
            for _ in 0..times {
                count = decode(&bytes).unwrap().groups.iter().map(|g| g.entries.len()).sum();
            }
        }
        "encode" => {
            let savepoint = decode(&bytes).unwrap();
            for _ in 0..times {
                count = encode(&savepoint).len();
            }
        }
        "group" => {
            let group: u16 = words[4].parse().unwrap();
            for _ in 0..times {
                count = decode_group(&bytes, group).unwrap().map_or(0, |group| group.entries.len());
            }
        }
        "fire" => return fire(&decode(&bytes).unwrap()).unwrap(),
        _ => return show(&decode(&bytes).unwrap()).unwrap(),
    }
    println!("{count}");
}
