//! String columns: the crate's `RleEncoder` and `RleDecoder` over strings. A name's start is the rules', and what stands there
//! is held to the crate's string. Refusals 8, 9, 10 and, of given names, 20 are document 02's, with Rust's own test of UTF-8.

use super::columns::{
    all_columns, all_lists, damaged, encoded, is_within_limit, read, written, Encoding, Given,
    Kind, Slices, Walked, MOST, READ,
};
use super::optional::{long, runs};
use super::{comment, Options, Record};
use crate::numbers::{leb128_i64, leb128_u64, write_i64, write_u64, Reading};
use crate::random::Random;
use crate::text::{self, is_utf8, Name};
use crate::Refusal;

pub const KIND: Kind = Kind {
    calls: "text",
    types: &[5],
    slices: 3,
    stretches: 3_000,
    walk,
    rewrite,
};

/// The names stand in the column.
fn rewrite(column: &[u8], list: &Slices) -> Vec<u8> {
    let names = Names {
        bytes: column.to_vec(),
        slices: list.clone(),
    };
    names.encoding().unwrap()
}

/// A name inside a column: its length, and the bytes that it takes with its length number.
fn name_at(bytes: &[u8]) -> Reading {
    let (length, used) = leb128_u64(bytes)?;
    let name = &bytes[used..];
    if length > name.len() as u64 {
        return Err(1);
    }
    let length = length as usize;
    match is_utf8(&name[..length]) {
        true => Ok((length as u64, used + length)),
        false => Err(20),
    }
}

/// Where the first readings of a column stand, which read without fault: start and length of each, none where it is absent.
fn places(column: &[u8], readings: usize) -> Vec<Option<(usize, usize)>> {
    let mut at = 0;
    let mut take = |read: fn(&[u8]) -> Reading| {
        let (number, used) = read(&column[at..]).unwrap();
        at += used;
        (number, at)
    };
    let mut list = vec![];
    while list.len() < readings {
        let count = take(leb128_i64).0 as i64;
        let mut name = || {
            let (length, end) = take(name_at);
            Some((end - length as usize, length as usize))
        };
        let left = (readings - list.len()) as u64;
        match count {
            0 => {
                let absent = take(leb128_u64).0.min(left);
                list.extend((0..absent).map(|_| None));
            }
            1.. => {
                let name = name();
                list.extend((0..left.min(count as u64)).map(|_| name));
            }
            _ => list.extend((0..left.min(count.unsigned_abs())).map(|_| name())),
        }
    }
    list
}

fn walk(column: &[u8]) -> Option<Walked> {
    is_within_limit(column, name_at).then(|| {
        let walk = text::walk(column, MOST);
        let places = places(column, walk.readings.len());
        for (name, place) in walk.readings.iter().zip(&places) {
            let there = place.map(|(start, length)| &column[start..start + length]);
            assert_eq!(name.as_ref().map(String::as_bytes), there);
        }
        let number = |part: fn((usize, usize)) -> usize| {
            let number = |place: &Option<(usize, usize)>| place.map_or(0, part) as u64;
            places.iter().map(number).collect()
        };
        let present = places.iter().map(|place| place.is_some().into()).collect();
        Walked {
            readings: vec![number(|place| place.0), number(|place| place.1), present],
            ending: walk.ending,
        }
    })
}

/// Names as a call is given them: lent bytes, and starts, lengths and presence bytes.
#[derive(Clone)]
pub struct Names {
    pub bytes: Vec<u8>,
    pub slices: Slices,
}

impl Given for Names {
    fn put(&self, record: Record) -> Record {
        record.bytes(&self.bytes).lists(&self.slices)
    }
}

impl Names {
    fn part(&self, index: usize) -> Option<&[u8]> {
        let (start, length) = (self.slices[0][index], self.slices[1][index]);
        let end = start.checked_add(length)?;
        match end <= self.bytes.len() as u64 {
            true => Some(&self.bytes[start as usize..end as usize]),
            false => None,
        }
    }

    /// The names, or document 02's 8 or 20 and its place.
    pub fn list(&self) -> Result<Vec<Name>, (Refusal, u64)> {
        let [starts, lengths, present] = &self.slices[..] else {
            unreachable!("names have three slices")
        };
        if starts.len() != lengths.len() || lengths.len() != present.len() {
            return Err((8, 0));
        }
        let indices = 0..present.len();
        let is_bad = |&i: &usize| present[i] > 1 || (present[i] == 1 && self.part(i).is_none());
        if let Some(index) = indices.clone().find(is_bad) {
            return Err((8, index as u64));
        }
        indices
            .map(|i| match present[i] {
                0 => Ok(None),
                _ => String::from_utf8(self.part(i).unwrap().to_vec())
                    .map(Some)
                    .map_err(|_| (20, i as u64)),
            })
            .collect()
    }

    pub fn encoding(&self) -> Encoding {
        self.list().map(|list| text::encode(&list))
    }
}

/// Bytes in which all the names of a list stand, some of them in others and some twice, with bytes between that are of no
/// name; and for each name one of the places where it stands. The pair of an absent name is not looked at.
pub fn laid(list: &[Name], random: &mut Random) -> Names {
    let mut bytes = vec![];
    for name in list.iter().flatten() {
        let name = name.as_bytes();
        let stands = name.is_empty() || bytes.windows(name.len()).any(|part| part == name);
        if !stands || random.below(4) == 0 {
            bytes.extend(name);
        }
        if random.below(6) == 0 {
            bytes.push(random.pick(&[0x61, 0x80, 0xc3, 0xff]));
        }
    }
    let size = bytes.len() as u64;
    let mut slices = vec![vec![]; 3];
    for name in list {
        let wild = [0, 1, size, size + 1, 1 << 63, u64::MAX];
        let (start, length) = match name {
            None => (random.pick(&wild), random.pick(&wild)),
            Some(name) if name.is_empty() => (random.below(size + 1), 0),
            Some(name) => {
                let parts = bytes.windows(name.len()).enumerate();
                let parts = parts.filter(|(_, part)| *part == name.as_bytes());
                let starts: Vec<u64> = parts.map(|(start, _)| start as u64).collect();
                (random.pick(&starts), name.len() as u64)
            }
        };
        slices[0].push(start);
        slices[1].push(length);
        slices[2].push(name.is_some().into());
    }
    Names { bytes, slices }
}

/// The same for a long list: each name stands once.
fn laid_once(list: &[Name]) -> Names {
    let mut bytes = vec![];
    let mut seen: Vec<(&str, u64)> = vec![];
    let mut slices = vec![vec![]; 3];
    for name in list {
        let start = match name {
            None => u64::MAX,
            Some(name) => match seen.iter().find(|(other, _)| other == name) {
                Some((_, start)) => *start,
                None => {
                    seen.push((name, bytes.len() as u64));
                    bytes.extend(name.as_bytes());
                    (bytes.len() - name.len()) as u64
                }
            },
        };
        slices[0].push(start);
        slices[1].push(name.as_ref().map_or(1, |name| name.len() as u64));
        slices[2].push(name.is_some().into());
    }
    Names { bytes, slices }
}

/// Makes slices unequal, presence bytes or pairs bad, or bytes other ones; not all of it is refused.
pub fn spoil(names: &mut Names, random: &mut Random) {
    let size = names.bytes.len() as u64;
    let length = names.slices.iter().map(Vec::len).min().unwrap() as u64;
    if length == 0 || random.below(6) == 0 {
        let slice = random.pick(&[0, 1, 2]);
        names.slices[slice].push(random.below(3));
        return;
    }
    let at = random.below(length) as usize;
    let near = size.saturating_sub(names.slices[random.pick(&[0, 1])][at]);
    let near = [
        near,
        near.wrapping_sub(1),
        near + 1,
        size,
        size + 1,
        0,
        u64::MAX,
    ];
    match random.below(4) {
        0 => names.slices[2][at] = random.pick(&[1, 1, 2, 0x80, 0xff]),
        1 => names.slices[0][at] = random.pick(&near),
        2 => names.slices[1][at] = random.pick(&near),
        _ if size > 0 => {
            names.bytes[random.below(size) as usize] = random.pick(&[0x80, 0xbf, 0xc3, 0xed, 0xff])
        }
        _ => {}
    }
}

/// The characters at which UTF-8 turns.
const TELLING: [char; 14] = [
    '\0',
    'a',
    'b',
    '\u{7f}',
    '\u{80}',
    '\u{e9}',
    '\u{7ff}',
    '\u{800}',
    '\u{d7ff}',
    '\u{e000}',
    '\u{ffff}',
    '\u{10000}',
    '\u{1d11e}',
    '\u{10ffff}',
];

/// A name: none of its bytes, few characters, and at times so many bytes that its length number grows.
fn chance_name(random: &mut Random) -> String {
    match random.below(40) {
        0..=3 => String::new(),
        4 => "a".repeat(random.pick(&[126, 127, 128, 129])),
        5..=24 => random.pick(&["a", "b", "ab", "aa", "\u{e9}"]).into(),
        _ => (0..1 + random.below(4))
            .map(|_| random.pick(&TELLING))
            .collect(),
    }
}

/// Names of which many are absent or equal to the one before.
pub fn chance(length: u64, random: &mut Random) -> Vec<Name> {
    let mut last: Name = None;
    (0..length)
        .map(|_| {
            match random.below(6) {
                0 => last = None,
                1..=3 => {}
                _ => last = Some(chance_name(random)),
            }
            last.clone()
        })
        .collect()
}

/// A name inside a column, at times with bytes that are not UTF-8.
fn value(random: &mut Random) -> Vec<u8> {
    let name = match random.below(12) {
        0 => random.pick(&WRONG).to_vec(),
        _ => chance_name(random).into_bytes(),
    };
    [write_u64(name.len() as u64), name].concat()
}

/// A column that no encoder writes.
pub fn wasteful(random: &mut Random) -> Vec<u8> {
    runs(value, random)
}

/// Bytes that are not UTF-8: a continuation byte alone, two and three and four bytes cut, too long for their character,
/// surrogates, above the last character, and bytes that never stand in UTF-8.
const WRONG: [&[u8]; 26] = [
    &[0x80],
    &[0xbf],
    &[0x61, 0x80],
    &[0xc3],
    &[0xc3, 0x61],
    &[0xc3, 0xc0],
    &[0xe2, 0x82],
    &[0xe2, 0x82, 0x61],
    &[0xe2, 0x61, 0x82],
    &[0xf0, 0x9d, 0x84],
    &[0xf0, 0x9d, 0x84, 0x61],
    &[0xc0, 0x80],
    &[0xc1, 0xbf],
    &[0xe0, 0x80, 0x80],
    &[0xe0, 0x9f, 0xbf],
    &[0xf0, 0x80, 0x80, 0x80],
    &[0xf0, 0x8f, 0xbf, 0xbf],
    &[0xed, 0xa0, 0x80],
    &[0xed, 0xbf, 0xbf],
    &[0xf4, 0x90, 0x80, 0x80],
    &[0xf5, 0x80, 0x80, 0x80],
    &[0xf8, 0x88, 0x80, 0x80, 0x80],
    &[0xfe],
    &[0xff],
    &[0xc3, 0xa9, 0x80],
    &[0xef, 0xbf, 0xc0],
];

/// All bytes of the telling characters and the wrong ones.
pub fn telling() -> Vec<Vec<u8>> {
    let right = TELLING.iter().map(|c| c.to_string().into_bytes());
    let wrong = WRONG.iter().map(|bytes| bytes.to_vec());
    right.chain(wrong).collect()
}

/// Lists of equal and distinct names of lengths at which a count grows, and of names at which a length does.
fn long_lists() -> Vec<Vec<Name>> {
    let letter = |reading: &Option<u64>| {
        reading.map(|value| match value {
            1 => "a".to_string(),
            2 => "b".to_string(),
            _ => "\u{e9}".to_string(),
        })
    };
    let mut lists: Vec<Vec<Name>> = long()
        .iter()
        .map(|l| l.iter().map(letter).collect())
        .collect();
    for size in [127, 128, 16_383, 16_384] {
        let name = Some("a".repeat(size));
        lists.push(vec![name.clone()]);
        lists.push(vec![name.clone(), name.clone(), None]);
        if size < 200 {
            lists.push(vec![
                name.clone(),
                Some("b".into()),
                name,
                Some(String::new()),
            ]);
        }
    }
    lists
}

pub fn lists(out: &mut String, options: &Options, random: &mut Random) {
    comment(out, "the bytes are those of the crate's encoder over strings; the refusals (8, 14: not UTF-8, by Rust's own test, and a: output too short) are document 02's");
    let most = if options.lean { 4 } else { 6 };
    comment(
        out,
        &format!("all lists of up to {most} names, of absent ones, the empty one, a and ab"),
    );
    let few = [None, Some(""), Some("a"), Some("ab")];
    all_lists(few.len(), most, |kinds| {
        let list: Vec<Name> = kinds
            .iter()
            .map(|&kind| few[kind].map(String::from))
            .collect();
        let names = laid(&list, random);
        written(out, "text", &names, &names.encoding());
    });
    comment(out, "long runs and long names");
    for list in long_lists() {
        let names = laid_once(&list);
        let bytes = names.encoding().unwrap();
        if bytes.len() < 1000 {
            written(out, "text", &names, &Ok(bytes));
        } else if bytes.len() < 16_000 && !options.lean || list.len() < 5 {
            encoded(out, "text", &names, &bytes, bytes.len() + 1);
        }
    }
    comment(out, "bytes that are not UTF-8 beside such as are");
    for bytes in telling() {
        let length = bytes.len() as u64;
        let bytes = [&[0x61][..], &bytes, &[0x62]].concat();
        let slices = vec![
            vec![0, 1, length + 1, 0],
            vec![1, length, 1, length + 2],
            vec![1; 4],
        ];
        let names = Names { bytes, slices };
        written(out, "text", &names, &names.encoding());
    }
    comment(out, "by chance, whole and faulty");
    for _ in 0..options.count {
        let length = random.below(20);
        let mut names = laid(&chance(length, random), random);
        written(out, "text", &names, &names.encoding());
        while random.below(2) == 0 {
            spoil(&mut names, random);
            written(out, "text", &names, &names.encoding());
        }
    }
}

/// The bytes at which the rules turn: counts, lengths, and what a name is made of.
pub const ALPHABET: [u8; 10] = [0x00, 0x01, 0x02, 0x61, 0x7e, 0x7f, 0x80, 0xa9, 0xc3, 0xff];

/// A name of every length of UTF-8, and its wrong neighbours, repeated, literal and behind another.
pub fn telling_columns() -> Vec<Vec<u8>> {
    let columns = |name: Vec<u8>| {
        let value = [write_u64(name.len() as u64), name].concat();
        [
            [&[2], &value[..]].concat(),
            [&[0x7e, 1, 0x61], &value[..]].concat(),
            [&[0x7e], &value[..], &[1, 0xff]].concat(),
        ]
    };
    telling().into_iter().flat_map(columns).collect()
}

pub fn long_columns() -> Vec<Vec<u8>> {
    let bytes = |list: Vec<Name>| {
        let column = text::encode(&list);
        (column.len() < 1000 || list.len() < 5).then_some(column)
    };
    long_lists().into_iter().filter_map(bytes).collect()
}

/// A column of the crate's, or a wasteful one.
pub fn chance_column(random: &mut Random) -> Vec<u8> {
    match random.below(2) {
        0 => {
            let length = random.below(12);
            text::encode(&chance(length, random))
        }
        _ => wasteful(random),
    }
}

pub fn bytes(out: &mut String, options: &Options, random: &mut Random) {
    comment(out, "the strings and the refusals 1, 2, 3, 14 (not UTF-8, by Rust's own test) and 15 are those of the crate's decoder over strings; starts, each held to the crate's string, 8 and 9 are document 02's");
    let most = if options.lean { 3 } else { 5 };
    all_columns(out, &KIND, &ALPHABET, most, &READ);
    comment(out, "every length of UTF-8, and its wrong neighbours, repeated, literal and behind another, cut at every byte");
    for column in telling_columns() {
        for end in 1..=column.len() {
            read(out, &KIND, &column[..end]);
        }
    }
    comment(
        out,
        "lengths up to the largest, of names that are not there",
    );
    for length in (0..64).map(|shift| u64::MAX >> shift) {
        read(
            out,
            &KIND,
            &[&[0x7f][..], &write_u64(length), b"a"].concat(),
        );
    }
    comment(
        out,
        "the crate's columns of long runs and long names, and those cut by a byte",
    );
    for column in long_columns() {
        read(out, &KIND, &column);
        read(out, &KIND, &column[..column.len().saturating_sub(1)]);
    }
    let all = [write_i64(5), write_u64(16_384), b"a".repeat(16_384)].concat();
    read(out, &KIND, &all);
    comment(out, "by chance: the crate's columns, and wasteful ones; each cut at every byte, and with bytes changed");
    for _ in 0..options.count {
        let column = chance_column(random);
        // one in few of those that a long name makes long
        if column.len() < 100 || random.below(20) == 0 {
            damaged(out, &KIND, &column, random);
        }
    }
}
