//! The plain baseline of `bench/run.sh`: what `sync hub NAME:MARKS` does, by std alone and without
//! proofs, for one table, pushes of INSERT changes and pulls.
//!
//! Build it by `rustc -O`. It reads requests as lines of hex and writes answers as lines of hex.

use std::collections::BTreeMap;
use std::io::{self, BufRead, BufReader, BufWriter, Write};

const MAX_ENTRIES: usize = 1_048_576;

const BAD_HEX: u8 = 22;
const TRUNCATED: u8 = 2;
const NOT_SHORTEST: u8 = 3;
const BAD_TYPE: u8 = 4;
const REAL: u8 = 5;
const NOT_UTF8: u8 = 6;
const PATCHSET: u8 = 7;
const BAD_MARK: u8 = 8;
const BAD_OPERATION: u8 = 9;
const BAD_FLAG: u8 = 10;
const COLUMNS: u8 = 11;
const NO_KEY_COLUMN: u8 = 12;
const UNDEFINED_HERE: u8 = 13;
const BAD_TAG: u8 = 20;
const TOO_LONG: u8 = 21;
const UNKNOWN_TABLE: u8 = 30;
const SHAPE: u8 = 31;
const NULL_KEY: u8 = 32;
const KEY_TWICE: u8 = 33;
const AHEAD: u8 = 40;
const CONFLICT: u8 = 41;
const EMPTY: u8 = 42;
const FULL: u8 = 43;

/// An INSERT, whose row stays in the bytes of the request.
struct Insert<'b> {
    flag: u8,
    row: &'b [u8],
}

struct Group<'b> {
    marks: Vec<bool>,
    name: &'b [u8],
    changes: Vec<Insert<'b>>,
}

enum Request<'b> {
    Push { origin: u32, number: u64, base: u64, changeset: &'b [u8] },
    Pull { first: u64, limit: u32 },
}

#[derive(PartialEq)]
struct Entry {
    origin: u32,
    number: u64,
    body: Vec<u8>,
}

type Read<T> = Result<T, u8>;

struct Cursor<'b> {
    rest: &'b [u8],
}

impl<'b> Cursor<'b> {
    fn take(&mut self, count: usize) -> Read<&'b [u8]> {
        if count > self.rest.len() {
            return Err(TRUNCATED);
        }
        let (taken, rest) = self.rest.split_at(count);
        self.rest = rest;
        Ok(taken)
    }

    fn byte(&mut self) -> Read<u8> {
        Ok(self.take(1)?[0])
    }

    fn u32(&mut self) -> Read<u32> {
        Ok(u32::from_be_bytes(self.take(4)?.try_into().unwrap()))
    }

    fn u64(&mut self) -> Read<u64> {
        Ok(u64::from_be_bytes(self.take(8)?.try_into().unwrap()))
    }

    fn varint(&mut self) -> Read<u64> {
        let mut value = 0u64;
        for length in 1..=9 {
            let byte = self.byte()?;
            if length == 9 {
                let value = value << 8 | u64::from(byte);
                return if value >> 56 == 0 { Err(NOT_SHORTEST) } else { Ok(value) };
            }
            value = value << 7 | u64::from(byte & 0x7f);
            if byte & 0x80 == 0 {
                let is_shortest = length == 1 || value >> (7 * (length - 1)) != 0;
                return if is_shortest { Ok(value) } else { Err(NOT_SHORTEST) };
            }
        }
        unreachable!()
    }

    fn counted(&mut self) -> Read<&'b [u8]> {
        let length = self.varint()?;
        self.take(usize::try_from(length).map_err(|_| TRUNCATED)?)
    }

    /// A value's bytes.
    fn value(&mut self) -> Read<&'b [u8]> {
        let whole = self.rest;
        match self.byte()? {
            0 => return Err(UNDEFINED_HERE),
            1 => {
                self.u64()?;
            }
            2 => return Err(REAL),
            3 => {
                std::str::from_utf8(self.counted()?).map_err(|_| NOT_UTF8)?;
            }
            4 => {
                self.counted()?;
            }
            5 => {}
            _ => return Err(BAD_TYPE),
        }
        Ok(&whole[..whole.len() - self.rest.len()])
    }
}

fn write_varint(out: &mut Vec<u8>, value: u64) {
    if value >> 56 != 0 {
        for shift in (0..8).rev() {
            out.push((value >> (8 + 7 * shift)) as u8 | 0x80);
        }
        out.push(value as u8);
        return;
    }
    let mut groups = 1;
    while value >> (7 * groups) != 0 {
        groups += 1;
    }
    for place in (0..groups).rev() {
        let more = if place == 0 { 0 } else { 0x80 };
        out.push((value >> (7 * place)) as u8 & 0x7f | more);
    }
}

fn read_request(bytes: &[u8]) -> Read<Request<'_>> {
    let mut cursor = Cursor { rest: bytes };
    let request = match cursor.byte()? {
        1 => {
            let origin = cursor.u32()?;
            let number = cursor.u64()?;
            let base = cursor.u64()?;
            let length = cursor.u32()?;
            let changeset = cursor.take(length as usize)?;
            Request::Push { origin, number, base, changeset }
        }
        2 => Request::Pull { first: cursor.u64()?, limit: cursor.u32()? },
        _ => return Err(BAD_TAG),
    };
    if cursor.rest.is_empty() { Ok(request) } else { Err(TOO_LONG) }
}

fn read_header<'b>(cursor: &mut Cursor<'b>) -> Read<Group<'b>> {
    let count = cursor.varint()?;
    if count == 0 || count > 2000 {
        return Err(COLUMNS);
    }
    let marks: Vec<bool> = cursor.take(count as usize)?.iter().map(|mark| *mark != 0).collect();
    if !marks.contains(&true) {
        return Err(NO_KEY_COLUMN);
    }
    let length = cursor.rest.iter().position(|byte| *byte == 0).ok_or(TRUNCATED)?;
    let name = cursor.take(length)?;
    std::str::from_utf8(name).map_err(|_| NOT_UTF8)?;
    cursor.byte()?;
    Ok(Group { marks, name, changes: Vec::new() })
}

fn read_changeset(bytes: &[u8]) -> Read<Vec<Group<'_>>> {
    let mut cursor = Cursor { rest: bytes };
    let mut groups: Vec<Group> = Vec::new();
    while !cursor.rest.is_empty() {
        let byte = cursor.byte()?;
        match (byte, groups.last_mut()) {
            (0x54, _) => groups.push(read_header(&mut cursor)?),
            (0x50, _) => return Err(PATCHSET),
            (0x12, Some(group)) => {
                let flag = cursor.byte()?;
                if flag > 1 {
                    return Err(BAD_FLAG);
                }
                let whole = cursor.rest;
                for _ in 0..group.marks.len() {
                    cursor.value()?;
                }
                let row = &whole[..whole.len() - cursor.rest.len()];
                group.changes.push(Insert { flag, row });
            }
            (_, Some(_)) => return Err(BAD_OPERATION),
            (_, None) => return Err(BAD_MARK),
        }
    }
    Ok(groups)
}

struct Hub {
    name: Vec<u8>,
    marks: Vec<bool>,
    rows: BTreeMap<Vec<u8>, Vec<u8>>,
    log: Vec<Entry>,
}

impl Hub {
    fn key_of(&self, row: &[u8]) -> Option<Vec<u8>> {
        let mut key = Vec::new();
        let mut values = Cursor { rest: row };
        for is_key in &self.marks {
            let value = values.value().ok()?;
            if *is_key {
                if value == [5] {
                    return None;
                }
                key.extend_from_slice(value);
            }
        }
        Some(key)
    }

    fn normalise<'b>(&self, groups: Vec<Group<'b>>) -> Read<BTreeMap<Vec<u8>, Insert<'b>>> {
        let mut changes = BTreeMap::new();
        for group in groups {
            if group.name != self.name {
                return Err(UNKNOWN_TABLE);
            }
            if group.marks != self.marks {
                return Err(SHAPE);
            }
            for change in group.changes {
                let key = self.key_of(change.row).ok_or(NULL_KEY)?;
                if changes.insert(key, change).is_some() {
                    return Err(KEY_TWICE);
                }
            }
        }
        Ok(changes)
    }

    fn encode(&self, changes: &BTreeMap<Vec<u8>, Insert<'_>>) -> Vec<u8> {
        let mut body = vec![0x54];
        write_varint(&mut body, self.marks.len() as u64);
        body.extend(self.marks.iter().map(|mark| u8::from(*mark)));
        body.extend_from_slice(&self.name);
        body.push(0);
        for change in changes.values() {
            body.extend_from_slice(&[0x12, change.flag]);
            body.extend_from_slice(change.row);
        }
        body
    }

    fn push(&mut self, origin: u32, number: u64, base: u64, changeset: &[u8]) -> Read<Vec<u8>> {
        let changes = self.normalise(read_changeset(changeset)?)?;
        if changes.is_empty() {
            return Err(EMPTY);
        }
        let length = self.log.len() as u64;
        if base > length {
            return Err(AHEAD);
        }
        let entry = Entry { origin, number, body: self.encode(&changes) };
        if base < length {
            if self.log[base as usize] == entry {
                return Ok(accepted(origin, number, base + 1));
            }
            let mut stale = vec![0x12];
            stale.extend_from_slice(&length.to_be_bytes());
            return Ok(stale);
        }
        if self.log.len() == MAX_ENTRIES {
            return Err(FULL);
        }
        if changes.keys().any(|key| self.rows.contains_key(key)) {
            return Err(CONFLICT);
        }
        self.rows.extend(changes.into_iter().map(|(key, change)| (key, change.row.to_vec())));
        self.log.push(entry);
        Ok(accepted(origin, number, base + 1))
    }

    fn entries(&self, first: u64, limit: u32) -> Read<Vec<u8>> {
        let start = usize::try_from(first).map_err(|_| AHEAD)?;
        if start > self.log.len() {
            return Err(AHEAD);
        }
        let end = self.log.len().min(start.saturating_add(limit as usize));
        let mut answer = vec![0x14];
        answer.extend_from_slice(&first.to_be_bytes());
        answer.extend_from_slice(&((end - start) as u32).to_be_bytes());
        for entry in &self.log[start..end] {
            answer.push(0);
            answer.extend_from_slice(&entry.origin.to_be_bytes());
            answer.extend_from_slice(&entry.number.to_be_bytes());
            answer.extend_from_slice(&(entry.body.len() as u32).to_be_bytes());
            answer.extend_from_slice(&entry.body);
        }
        Ok(answer)
    }

    fn serve(&mut self, request: &[u8]) -> Vec<u8> {
        let answer = match read_request(request) {
            Ok(Request::Push { origin, number, base, changeset }) => {
                self.push(origin, number, base, changeset)
            }
            Ok(Request::Pull { first, limit }) => self.entries(first, limit),
            Err(code) => Err(code),
        };
        answer.unwrap_or_else(|code| vec![0x13, code])
    }
}

fn accepted(origin: u32, number: u64, version: u64) -> Vec<u8> {
    let mut answer = vec![0x11];
    answer.extend_from_slice(&origin.to_be_bytes());
    answer.extend_from_slice(&number.to_be_bytes());
    answer.extend_from_slice(&version.to_be_bytes());
    answer
}

fn hex_value(digit: u8) -> Option<u8> {
    (digit as char).to_digit(16).map(|value| value as u8)
}

fn read_hex(line: &[u8]) -> Option<Vec<u8>> {
    if line.len() % 2 != 0 {
        return None;
    }
    line.chunks_exact(2)
        .map(|pair| Some(hex_value(pair[0])? << 4 | hex_value(pair[1])?))
        .collect()
}

fn write_hex(out: &mut Vec<u8>, bytes: &[u8]) {
    const DIGITS: &[u8; 16] = b"0123456789abcdef";
    out.clear();
    for byte in bytes {
        out.push(DIGITS[usize::from(byte >> 4)]);
        out.push(DIGITS[usize::from(byte & 15)]);
    }
    out.push(b'\n');
}

fn main() -> io::Result<()> {
    let word = std::env::args().nth(2).expect("hub NAME:MARKS");
    let (name, marks) = word.rsplit_once(':').expect("NAME:MARKS");
    let mut hub = Hub {
        name: name.as_bytes().to_vec(),
        marks: marks.bytes().map(|mark| mark == b'1').collect(),
        rows: BTreeMap::new(),
        log: Vec::new(),
    };
    let mut reader = BufReader::new(io::stdin().lock());
    let mut writer = BufWriter::new(io::stdout().lock());
    let mut line = Vec::new();
    let mut text = Vec::new();
    loop {
        line.clear();
        if reader.read_until(b'\n', &mut line)? == 0 {
            return Ok(());
        }
        if line.last() == Some(&b'\n') {
            line.pop();
        }
        let answer = match read_hex(&line) {
            Some(request) => hub.serve(&request),
            None => vec![0x13, BAD_HEX],
        };
        write_hex(&mut text, &answer);
        writer.write_all(&text)?;
        writer.flush()?;
    }
}
