//! What the families of columns share: a list by its slices, and the records of writing and reading one.

use super::{comment, Record};
use crate::numbers::{leb128_i64, leb128_u64, Reading};
use crate::random::Random;
use crate::{Refusal, Walk, TOO_MANY};

/// A list by its slices: values, by their bits, and presence bytes; starts, lengths and presence bytes of names; or the bytes of a
/// boolean list alone.
pub type Slices = Vec<Vec<u64>>;

/// The crate lists readings one by one: columns of more are left out.
pub const MOST: usize = 17_000;

/// Document 01's limit of a list.
pub const LIMIT: u128 = 4_294_967_295;

/// A kind of columns: its calls, and what the crate reads and writes.
pub struct Kind {
    pub calls: &'static str,
    /// the types of such columns
    pub types: &'static [u64],
    pub slices: usize,
    /// of how many different stretches a list is at most: a line has to hold it
    pub stretches: usize,
    /// what the crate's decoder gives, at most `MOST` readings; None where the column is outside the records
    pub walk: fn(&[u8]) -> Option<Walked>,
    /// what the crate's encoder makes of readings of a column
    pub rewrite: fn(&[u8], &Slices) -> Vec<u8>,
}

/// A walk, its readings by their slices.
pub struct Walked {
    pub readings: Slices,
    pub ending: Result<(), Refusal>,
}

impl<T> Walk<T> {
    pub(super) fn sliced(self, slices: fn(&[T]) -> Slices) -> Walked {
        Walked {
            readings: slices(&self.readings),
            ending: self.ending,
        }
    }
}

impl Kind {
    /// The list of a column, or its refusal; None where the column is outside the records, or has more than `MOST` readings.
    pub fn decode(&self, column: &[u8]) -> Option<Result<Slices, Refusal>> {
        let walked = (self.walk)(column)?;
        match walked.ending {
            Err(TOO_MANY) => None,
            ending => Some(ending.map(|()| walked.readings)),
        }
    }

    /// Does a line hold the list?
    pub fn holds(&self, list: &Slices) -> bool {
        let stretches = |slice: &Vec<u64>| slice.chunk_by(|a, b| a == b).count();
        list.iter().map(stretches).all(|n| n <= self.stretches)
    }
}

/// What a list is written as, or document 01's refusal and its place.
pub type Encoding = Result<Vec<u8>, (Refusal, u64)>;

/// A list as a call is given it.
pub trait Given {
    fn put(&self, record: Record) -> Record;
}

impl Given for Slices {
    fn put(&self, record: Record) -> Record {
        record.lists(self)
    }
}

fn call(calls: &str, name: &str) -> Record {
    Record::call(&format!("{calls}_{name}"))
}

/// The lists of up to `most` numbers below `kinds`.
pub fn all_lists(kinds: usize, most: usize, mut see: impl FnMut(&[usize])) {
    for length in 0..=most as u32 {
        for mut number in 0..kinds.pow(length) {
            let list: Vec<usize> = (0..length)
                .map(|_| {
                    let kind = number % kinds;
                    number /= kinds;
                    kind
                })
                .collect();
            see(&list);
        }
    }
}

/// Its length, and the list written into outputs one short, exactly full and with room behind.
pub fn written(out: &mut String, calls: &str, list: &impl Given, encoding: &Encoding) {
    let record = list.put(call(calls, "encoded_len"));
    let bytes = match encoding {
        Ok(bytes) => {
            record.accepted().number(bytes.len() as u64).end(out);
            bytes
        }
        Err((refusal, place)) => {
            record.refused_at(*refusal, *place).number(0).end(out);
            let output = [0xee; 3];
            list.put(call(calls, "encode"))
                .bytes(&output)
                .refused_at(*refusal, *place)
                .number(0)
                .bytes(&output)
                .end(out);
            return;
        }
    };
    for size in bytes.len().saturating_sub(1)..bytes.len() + 3 {
        if size != bytes.len() + 1 {
            encoded(out, calls, list, bytes, size);
        }
    }
}

/// The list written into an output of `size` bytes.
pub fn encoded(out: &mut String, calls: &str, list: &impl Given, bytes: &[u8], size: usize) {
    let mut output = vec![0xee; size];
    let record = list.put(call(calls, "encode")).bytes(&output);
    if size < bytes.len() {
        record.refused_at(10, 0).number(0).bytes(&output).end(out);
        return;
    }
    output[..bytes.len()].copy_from_slice(bytes);
    record
        .accepted()
        .number(bytes.len() as u64)
        .bytes(&output)
        .end(out);
}

/// What the crate reads, where the records have the column.
fn answer(kind: &Kind, column: &[u8]) -> Option<Result<Slices, Refusal>> {
    kind.decode(column).filter(|answer| match answer {
        Ok(list) => kind.holds(list),
        Err(_) => true,
    })
}

/// The readings of a column, counted, and decoded into slots one fewer, just enough, and more; and whether the column is
/// among the records at all.
pub fn read(out: &mut String, kind: &Kind, column: &[u8]) -> bool {
    let Some(answer) = answer(kind, column) else {
        return false;
    };
    let record = call(kind.calls, "count").bytes(column);
    let sizes = match &answer {
        Ok(list) => {
            let n = list[0].len();
            record.accepted().number(n as u64).end(out);
            let mut sizes = vec![n.saturating_sub(1), n, n + 2];
            sizes.dedup();
            sizes
        }
        Err(refusal) => {
            record.refused(*refusal).number(0).end(out);
            vec![3]
        }
    };
    for size in sizes {
        // what stands in the slots before
        let slots: Slices = (0..kind.slices)
            .map(|slice| vec![[0xee, 7, 5][slice]; size])
            .collect();
        decoded(out, kind, column, &answer, slots);
    }
    true
}

/// A column decoded into slots.
pub fn decoded(
    out: &mut String,
    kind: &Kind,
    column: &[u8],
    answer: &Result<Slices, Refusal>,
    mut slots: Slices,
) {
    let record = call(kind.calls, "decode").bytes(column).lists(&slots);
    let is_even = slots.iter().all(|slice| slice.len() == slots[0].len());
    match answer {
        _ if !is_even => record.refused_at(8, 0).number(0),
        Err(refusal) => record.refused(*refusal).number(0),
        Ok(list) if slots[0].len() < list[0].len() => record.refused_at(9, 0).number(0),
        Ok(list) => {
            for (slice, values) in slots.iter_mut().zip(list) {
                slice[..values.len()].copy_from_slice(values);
            }
            record.accepted().number(list[0].len() as u64)
        }
    }
    .lists(&slots)
    .end(out);
}

/// The same into as many slots as chance says, with anything in them, and at times slices of unequal length.
pub fn decoded_by_chance(out: &mut String, kind: &Kind, column: &[u8], random: &mut Random) {
    let Some(answer) = answer(kind, column) else {
        return;
    };
    let length = answer.as_ref().map_or(0, |list| list[0].len() as u64);
    let size = length.saturating_sub(2) + random.below(6);
    let slots = (0..kind.slices)
        .map(|slice| {
            let size = if random.below(8) == 0 {
                random.below(9)
            } else {
                size
            };
            // the last slice is one of bytes; a boolean list has bytes alone
            let is_wide = slice + 1 < kind.slices;
            (0..size)
                .map(|i| match i {
                    20.. => 0xee,
                    _ if is_wide => random.wide(),
                    _ => u64::from(random.byte()),
                })
                .collect()
        })
        .collect();
    decoded(out, kind, column, &answer, slots);
}

/// A column, cut at every byte, and with some of its bytes changed.
pub fn damaged(out: &mut String, kind: &Kind, column: &[u8], random: &mut Random) {
    read(out, kind, column);
    decoded_by_chance(out, kind, column, random);
    for end in 0..column.len() {
        read(out, kind, &column[..end]);
    }
    for _ in 0..column.len().min(4) {
        let other = changed(column, random);
        read(out, kind, &other);
        decoded_by_chance(out, kind, &other, random);
    }
}

/// A column, which is not empty, with one of its bytes changed.
pub fn changed(column: &[u8], random: &mut Random) -> Vec<u8> {
    let mut other = column.to_vec();
    let at = random.below(column.len() as u64) as usize;
    other[at] = match random.below(3) {
        0 => random.byte(),
        1 => other[at] ^ 0x80,
        _ => random.pick(&[0x00, 0x01, 0x40, 0x7f, 0x80, 0xff]),
    };
    other
}

/// How a column is recorded.
pub struct Recorded {
    /// writes its records, and says whether it is among them at all
    pub by: fn(&mut String, &Kind, &[u8]) -> bool,
    /// why one is left out
    pub without: &'static str,
}

pub const READ: Recorded = Recorded {
    by: read,
    without: "their counts make more than 17000 readings, which the crate lists one by one, or pass the limit; or no line holds the list",
};

/// All columns of up to `most` bytes over an alphabet.
pub fn all_columns(
    out: &mut String,
    kind: &Kind,
    alphabet: &[u8],
    most: usize,
    recorded: &Recorded,
) {
    let letters: Vec<String> = alphabet.iter().map(|byte| format!("{byte:02x}")).collect();
    let letters = letters.join(" ");
    comment(
        out,
        &format!("all columns of up to {most} bytes over {letters}"),
    );
    let mut left_out = 0;
    all_lists(alphabet.len(), most, |kinds| {
        let column: Vec<u8> = kinds.iter().map(|&kind| alphabet[kind]).collect();
        if !(recorded.by)(out, kind, &column) {
            left_out += 1;
        }
    });
    let without = recorded.without;
    comment(out, &format!("{left_out} of these are left out: {without}"));
}

/// Do the counts up to the first fault stay within document 01's limit? The crate has none: it takes the values of a run
/// whose count passes it.
pub fn is_within_limit(column: &[u8], value: fn(&[u8]) -> Reading) -> bool {
    announced(column, value) <= LIMIT
}

/// How many readings the counts up to the first fault announce.
fn announced(mut rest: &[u8], value: fn(&[u8]) -> Reading) -> u128 {
    let mut take = |read: fn(&[u8]) -> Reading| {
        let (number, used) = read(rest).ok()?;
        rest = &rest[used..];
        Some(number)
    };
    let mut total = 0;
    while let Some(count) = take(leb128_i64) {
        let count = count as i64;
        let values = match count {
            0 => {
                let Some(absent) = take(leb128_u64) else {
                    return total;
                };
                total += u128::from(absent);
                continue;
            }
            1.. => 1,
            _ => count.unsigned_abs(),
        };
        total += u128::from(count.unsigned_abs());
        for _ in 0..values {
            if take(value).is_none() {
                return total;
            }
        }
    }
    total
}
