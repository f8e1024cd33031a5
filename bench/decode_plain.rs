//! The plain baseline of the benchmarks: a decoder and encoder of changesets in Rust with the standard library alone,
//! as one would write it by hand, whose changes stay in the bytes as the proved library's do. Exported to C, so that the
//! same program times both on the same bytes.

use std::slice;

/// A change, whose row or records stay in the bytes that were read.
enum Change<'a> {
    Insert { flag: bool, new_row: &'a [u8] },
    Delete { flag: bool, old_row: &'a [u8] },
    Update { flag: bool, old_fields: &'a [u8], new_fields: &'a [u8] },
}

struct Group<'a> {
    marks: Vec<u8>,
    name: String,
    changes: Vec<Change<'a>>,
}

/// Bytes that spell no changeset. (The baseline names no fault.)
struct Refused;

type Read<T> = Result<T, Refused>;

struct Reader<'a> {
    bytes: &'a [u8],
    at: usize,
}

impl<'a> Reader<'a> {
    fn byte(&mut self) -> Read<u8> {
        let byte = *self.bytes.get(self.at).ok_or(Refused)?;
        self.at += 1;
        Ok(byte)
    }

    fn take(&mut self, length: usize) -> Read<&'a [u8]> {
        let taken = self.bytes[self.at..].get(..length).ok_or(Refused)?;
        self.at += length;
        Ok(taken)
    }

    /// A varint in its shortest form.
    fn varint(&mut self) -> Read<u64> {
        let mut value = 0;
        for index in 0..9 {
            let byte = self.byte()?;
            if index == 8 {
                let value = value << 8 | u64::from(byte);
                return if value >> 56 == 0 { Err(Refused) } else { Ok(value) };
            }
            value = value << 7 | u64::from(byte & 0x7f);
            if byte < 0x80 {
                let shortest = index == 0 || value >> (7 * index) != 0;
                return if shortest { Ok(value) } else { Err(Refused) };
            }
        }
        Err(Refused)
    }

    fn counted(&mut self) -> Read<&'a [u8]> {
        let length = usize::try_from(self.varint()?).map_err(|_| Refused)?;
        self.take(length)
    }

    /// A field's bytes.
    fn field(&mut self) -> Read<&'a [u8]> {
        let start = self.at;
        match self.byte()? {
            0 | 5 => {}
            1 => {
                self.take(8)?;
            }
            3 => {
                std::str::from_utf8(self.counted()?).map_err(|_| Refused)?;
            }
            4 => {
                self.counted()?;
            }
            _ => return Err(Refused),
        }
        Ok(&self.bytes[start..self.at])
    }

    fn row(&mut self, width: usize) -> Read<&'a [u8]> {
        let start = self.at;
        for _ in 0..width {
            if self.field()? == [0] {
                return Err(Refused);
            }
        }
        Ok(&self.bytes[start..self.at])
    }

    fn old_fields(&mut self, marks: &[u8]) -> Read<&'a [u8]> {
        let start = self.at;
        for &mark in marks {
            if self.field()? == [0] && mark != 0 {
                return Err(Refused);
            }
        }
        Ok(&self.bytes[start..self.at])
    }

    fn new_fields(&mut self, marks: &[u8], old: &'a [u8]) -> Read<&'a [u8]> {
        let start = self.at;
        let mut old = Reader { bytes: old, at: 0 };
        for &mark in marks {
            let before = old.field()?;
            let field = self.field()?;
            if field != [0] && (before == [0] || mark != 0 && before != field) {
                return Err(Refused);
            }
        }
        Ok(&self.bytes[start..self.at])
    }

    fn flag(&mut self) -> Read<bool> {
        match self.byte()? {
            0 => Ok(false),
            1 => Ok(true),
            _ => Err(Refused),
        }
    }

    fn changes(&mut self, marks: &[u8]) -> Read<Vec<Change<'a>>> {
        let mut changes = Vec::new();
        while let Some(&operation) = self.bytes.get(self.at) {
            if operation == b'T' {
                break;
            }
            self.at += 1;
            let flag = self.flag()?;
            changes.push(match operation {
                18 => Change::Insert { flag, new_row: self.row(marks.len())? },
                9 => Change::Delete { flag, old_row: self.row(marks.len())? },
                23 => {
                    let old_fields = self.old_fields(marks)?;
                    let new_fields = self.new_fields(marks, old_fields)?;
                    Change::Update { flag, old_fields, new_fields }
                }
                _ => return Err(Refused),
            });
        }
        Ok(changes)
    }

    fn group(&mut self) -> Read<Group<'a>> {
        if self.byte()? != b'T' {
            return Err(Refused);
        }
        let width = self.varint()?;
        if width == 0 || width > 2000 {
            return Err(Refused);
        }
        let marks = self.take(width as usize)?;
        if marks.iter().all(|&mark| mark == 0) {
            return Err(Refused);
        }
        let length = self.bytes[self.at..].iter().position(|&byte| byte == 0).ok_or(Refused)?;
        let name = std::str::from_utf8(self.take(length)?).map_err(|_| Refused)?;
        self.at += 1;
        Ok(Group { marks: marks.to_vec(), name: name.to_owned(), changes: self.changes(marks)? })
    }
}

fn decode(bytes: &[u8]) -> Read<Vec<Group<'_>>> {
    let mut reader = Reader { bytes, at: 0 };
    let mut groups = Vec::new();
    while reader.at < bytes.len() {
        groups.push(reader.group()?);
    }
    Ok(groups)
}

fn put_varint(value: u64, out: &mut Vec<u8>) {
    if value >> 56 != 0 {
        for index in (0..8).rev() {
            out.push(0x80 | (value >> (8 + 7 * index)) as u8);
        }
        out.push(value as u8);
        return;
    }
    let groups = (1..8).take_while(|index| value >> (7 * index) != 0).count();
    for index in (1..=groups).rev() {
        out.push(0x80 | (value >> (7 * index)) as u8);
    }
    out.push((value & 0x7f) as u8);
}

fn put_change(change: &Change, out: &mut Vec<u8>) {
    match change {
        Change::Insert { flag, new_row: row } => {
            out.extend_from_slice(&[18, u8::from(*flag)]);
            out.extend_from_slice(row);
        }
        Change::Delete { flag, old_row: row } => {
            out.extend_from_slice(&[9, u8::from(*flag)]);
            out.extend_from_slice(row);
        }
        Change::Update { flag, old_fields, new_fields } => {
            out.extend_from_slice(&[23, u8::from(*flag)]);
            out.extend_from_slice(old_fields);
            out.extend_from_slice(new_fields);
        }
    }
}

fn encode(groups: &[Group], out: &mut Vec<u8>) {
    for group in groups {
        out.push(b'T');
        put_varint(group.marks.len() as u64, out);
        out.extend_from_slice(&group.marks);
        out.extend_from_slice(group.name.as_bytes());
        out.push(0);
        for change in &group.changes {
            put_change(change, out);
        }
    }
}

/// How many changes the bytes spell, or -1.
///
/// # Safety
/// `input` points to `length` bytes.
#[no_mangle]
pub unsafe extern "C" fn plain_decode(input: *const u8, length: usize) -> isize {
    match decode(slice::from_raw_parts(input, length)) {
        Ok(groups) => groups.iter().map(|group| group.changes.len()).sum::<usize>() as isize,
        Err(Refused) => -1,
    }
}

/// Reads the bytes and writes them again to `output`, if they have room in `room` bytes. How many they are, or -1.
///
/// # Safety
/// `input` points to `length` bytes and `output` to `room` others.
#[no_mangle]
pub unsafe extern "C" fn plain_reencode(input: *const u8, length: usize, output: *mut u8, room: usize) -> isize {
    let Ok(groups) = decode(slice::from_raw_parts(input, length)) else {
        return -1;
    };
    let mut bytes = Vec::new();
    encode(&groups, &mut bytes);
    if bytes.len() <= room {
        slice::from_raw_parts_mut(output, bytes.len()).copy_from_slice(&bytes);
    }
    bytes.len() as isize
}
