//! Tables and blocks. The crate's parse gives the refusals 1, 2, 3, 12 and 21 and the rows, its `uncompressed` 13, its `bytes`
//! the part of a specification. Document 01's are the block itself, the order of the checks, 11, 14, 15 and 16 by whole
//! numbers, and the frame of a new block with 10.

use super::columns::all_lists;
use super::{comment, Options, Record};
use crate::numbers::{leb128_u32, leb128_u64, write_u64};
use crate::random::Random;
use crate::table;
pub use crate::table::Row;
use crate::{specifications, Refusal};

/// Specifications that meet: two of one key but for the compressed bit, and two whose low bytes are not in their order.
const SPECS: [u32; 6] = [0x02, 0x0a, 0x13, 0x1b, 0x102, 0x112];

/// Bytes at which a number or a table turns.
const TELLING: [u8; 10] = [0x00, 0x01, 0x02, 0x12, 0x13, 0x1b, 0x40, 0x41, 0x80, 0xff];

/// Document 01's limit of a table.
const MOST: usize = 64;

/// Where the data begin, and the rows.
pub type Table = (usize, Vec<Row>);

/// A refusal, and its place where document 01 alone gives it.
pub type Fault = (Refusal, Option<u64>);

pub fn refused(record: Record, (refusal, place): Fault) -> Record {
    match place {
        Some(place) => record.refused_at(refusal, place),
        None => record.refused(refusal),
    }
}

/// The specifications of a table whose rows can be read, in their order.
fn specs_of(block: &[u8]) -> Option<Vec<u32>> {
    let (count, mut at) = leb128_u64(block).ok()?;
    let mut specs = Vec::new();
    for _ in 0..count.min(MOST as u64 + 1) {
        let (spec, length) = leb128_u32(&block[at..]).ok()?;
        at += length;
        at += leb128_u64(&block[at..]).ok()?.1;
        specs.push(spec as u32);
    }
    Some(specs)
}

/// Is the crate the judge of this table's order? Only where its key, the low byte, and ours fall in the same tables.
pub fn is_ordered_alike(block: &[u8]) -> bool {
    let Some(specs) = specs_of(block) else {
        return true;
    };
    let falls = |key: fn(u32) -> u32| specs.windows(2).any(|w| key(w[1]) < key(w[0]));
    falls(specifications::key) == falls(specifications::whole_key)
}

/// Puts specifications into our order, and where that is not the crate's too, their low bytes, which both keys order alike. Gives the
/// mask that was applied.
pub fn settle(specs: &mut [u32]) -> u32 {
    specs.sort_by_key(|&spec| specifications::whole_key(spec));
    if specs.is_sorted_by_key(|&spec| specifications::key(spec)) {
        return u32::MAX;
    }
    specs.iter_mut().for_each(|spec| *spec &= 0xff);
    specs.sort_by_key(|&spec| specifications::whole_key(spec));
    0xff
}

/// The table of a block, checked in document 01's order.
pub fn open(block: &[u8]) -> Result<Table, Fault> {
    let by_the_rust = |refusal| (refusal, None);
    let (count, _) = leb128_u64(block).map_err(by_the_rust)?;
    if count > MOST as u64 {
        return Err((11, Some(0)));
    }
    let (start, rows) = table::parse(block).map_err(by_the_rust)?;
    if !table::is_uncompressed(block).map_err(by_the_rust)? {
        return Err((13, None));
    }
    // a length that the crate cut short stands behind lengths that pass any data
    let sum: u128 = rows.iter().map(|row| row.2 as u128).sum();
    let data = (block.len() - start) as u128;
    if sum > data {
        return Err((14, Some(0)));
    }
    if sum < data {
        return Err((15, Some(0)));
    }
    Ok((start, rows))
}

/// The table's row at a position, and where its column begins in the block.
pub fn row_at(block: &[u8], position: u64) -> Result<(Table, Row, usize), Fault> {
    let (start, rows) = open(block)?;
    match usize::try_from(position).ok().and_then(|p| rows.get(p)) {
        Some(&row) => Ok(((start, rows), row, start + row.1)),
        None => Err((16, Some(0))),
    }
}

/// Specifications, starts and lengths.
pub fn row_lists(rows: &[Row]) -> [Vec<u64>; 3] {
    [
        rows.iter().map(|row| u64::from(row.0)).collect(),
        rows.iter().map(|row| row.1 as u64).collect(),
        rows.iter().map(|row| row.2 as u64).collect(),
    ]
}

fn read_table(out: &mut String, block: &[u8]) {
    if !is_ordered_alike(block) {
        return;
    }
    let record = Record::call("read_table").bytes(block);
    match open(block) {
        Ok((start, rows)) => record
            .accepted()
            .number(start as u64)
            .lists(&row_lists(&rows)),
        Err(fault) => refused(record, fault)
            .number(0)
            .lists(&[vec![], vec![], vec![]]),
    }
    .end(out)
}

/// A part of a block, or the refusal.
fn part(out: &mut String, record: Record, part: Result<(usize, &[u8]), Fault>) {
    match part {
        Ok((start, bytes)) => record
            .accepted()
            .number(start as u64)
            .number(bytes.len() as u64)
            .bytes(bytes),
        Err(fault) => refused(record, fault).number(0).number(0).bytes(&[]),
    }
    .end(out)
}

fn column(out: &mut String, block: &[u8], position: u64) {
    if !is_ordered_alike(block) {
        return;
    }
    let record = Record::call("column").bytes(block).number(position);
    let found = row_at(block, position).map(|(_, row, at)| (at, &block[at..at + row.2]));
    part(out, record, found)
}

/// The part of a specification, where document 01 says that the Rust agrees.
fn bytes(out: &mut String, block: &[u8], spec: u32) {
    if !is_ordered_alike(block) {
        return;
    }
    let record = Record::call("bytes").bytes(block).number(u64::from(spec));
    let found = match open(block) {
        Ok((start, rows)) => {
            let key = |row: &Row| specifications::key(row.0);
            let is_distinct = rows.windows(2).all(|w| key(&w[0]) != key(&w[1]));
            let row = rows.iter().find(|row| row.0 == spec);
            let shares_a_key = rows.iter().any(|row| key(row) == specifications::key(spec));
            if !is_distinct || (row.is_none() && shares_a_key) {
                return;
            }
            let bytes = table::lookup(block, spec, &block[start..]).unwrap();
            Ok((row.map_or(0, |row| start + row.1), bytes))
        }
        Err(fault) => Err(fault),
    };
    part(out, record, found)
}

/// Document 01's: the new table and the other columns, around room for the new one.
pub fn frame(
    block: &[u8],
    position: u64,
    size: u64,
    out: &mut [u8],
) -> Result<(usize, usize), Fault> {
    let ((_, rows), row, at) = row_at(block, position)?;
    let mut head = write_u64(rows.len() as u64);
    for (i, row) in rows.iter().enumerate() {
        head.extend(write_u64(u64::from(row.0)));
        head.extend(write_u64(match i as u64 == position {
            true => size,
            false => row.2 as u64,
        }));
    }
    head.extend(&block[at - row.1..at]);
    let tail = &block[at + row.2..];
    let length = (head.len() + tail.len()) as u128 + u128::from(size);
    if length > out.len() as u128 {
        return Err((10, Some(0)));
    }
    out[..head.len()].copy_from_slice(&head);
    out[length as usize - tail.len()..length as usize].copy_from_slice(tail);
    Ok((head.len(), length as usize))
}

fn put_frame(text: &mut String, block: &[u8], position: u64, size: u64, mut out: Vec<u8>) {
    if !is_ordered_alike(block) {
        return;
    }
    let record = Record::call("put_frame")
        .bytes(block)
        .number(position)
        .number(size)
        .bytes(&out);
    match frame(block, position, size, &mut out) {
        Ok((at, length)) => record.accepted().number(at as u64).number(length as u64),
        Err(fault) => refused(record, fault).number(0).number(0),
    }
    .bytes(&out)
    .end(text)
}

/// A frame into outputs one short, exactly full and with room behind.
fn frames(out: &mut String, block: &[u8], position: u64, size: u64) {
    let mut room = vec![0; 5000];
    let Ok((_, length)) = frame(block, position, size, &mut room) else {
        return put_frame(out, block, position, size, vec![0xee; 7]);
    };
    for room in [length - 1, length, length + 3] {
        put_frame(out, block, position, size, vec![0xee; room]);
    }
}

/// Every call on a block.
fn all_calls(out: &mut String, block: &[u8], specs: &[u32]) {
    read_table(out, block);
    let rows = open(block).map_or(0, |(_, rows)| rows.len() as u64);
    for position in 0..=rows {
        column(out, block, position);
        frames(out, block, position, position * 2);
    }
    for &spec in specs {
        bytes(out, block, spec);
    }
}

/// The block of these rows, with so much data more or less.
pub fn block(rows: &[(u32, usize)], more: i64) -> Vec<u8> {
    let mut block = table::write(rows);
    let sum: usize = rows.iter().map(|row| row.1).sum();
    block.extend((0..sum as i64 + more).map(|i| 0xa0 + (i % 16) as u8));
    block
}

pub fn all(out: &mut String, options: &Options, random: &mut Random) {
    comment(out, "the Rust: rows, parts, 1, 2, 3, 12, 13 and 21 (15); document 01: the block and the order of checks, 10 (a), 11 (b), 14 (e), 15 (f),");
    comment(out, "16 (10) and put_frame. Tables that both keys order alike; a lookup by specification where document 01 says that the Rust agrees");
    comment(out, "all blocks of few bytes over ten telling ones");
    all_lists(TELLING.len(), if options.lean { 3 } else { 5 }, |kinds| {
        let bytes: Vec<u8> = kinds.iter().map(|&kind| TELLING[kind]).collect();
        read_table(out, &bytes);
    });
    comment(out, "all tables of up to three rows of six specifications: a byte of data too few, as many, one too many");
    all_lists(SPECS.len(), 3, |kinds| {
        let rows: Vec<(u32, usize)> = kinds.iter().zip(0..).map(|(&k, n)| (SPECS[k], n)).collect();
        for more in [-1, 0, 1] {
            if rows.len() > 1 || more >= 0 {
                read_table(out, &block(&rows, more));
            }
        }
        if rows.len() < 3 || !options.lean {
            all_calls(out, &block(&rows, 0), &SPECS);
        }
    });
    comment(out, "many columns");
    for count in [62, 63, 64, 65, 66, 127, 128] {
        many(out, count);
    }
    comment(out, "by chance, whole and damaged");
    for _ in 0..options.count {
        chance(out, random);
    }
}

fn many(out: &mut String, count: usize) {
    let equal = vec![(0x13, 0); count];
    // keys that rise by one, without bit 3
    let rising = |i: usize| (i / 8 * 16 + i % 8) as u32;
    let distinct: Vec<(u32, usize)> = (0..count).map(|i| (rising(i), i % 3)).collect();
    let fallen: Vec<(u32, usize)> = distinct.iter().rev().copied().collect();
    for rows in [&equal, &distinct, &fallen] {
        for more in [0, 1] {
            read_table(out, &block(rows, more));
        }
    }
    // 11 as soon as the count is read
    read_table(out, &write_u64(count as u64));
    let block = block(&distinct, 0);
    for position in [0, 1, count - 2, count - 1, count] {
        column(out, &block, position as u64);
        bytes(out, &block, rising(position));
    }
    frames(out, &block, count as u64 - 2, 200);
    frames(out, &block, count as u64, 0);
}

/// A specification of any magnitude.
pub fn chance_spec(random: &mut Random) -> u32 {
    let spec = match random.below(4) {
        0 => random.pick(&SPECS),
        1 => random.wide() as u32,
        _ => random.below(0x200) as u32,
    };
    match random.below(12) {
        0 => spec,
        _ => spec & !8,
    }
}

fn chance_rows(random: &mut Random) -> Vec<(u32, usize)> {
    let count = match random.below(40) {
        0 => random.below(66),
        _ => random.below(6),
    };
    let mut specs: Vec<u32> = (0..count).map(|_| chance_spec(random)).collect();
    if random.below(12) > 0 {
        settle(&mut specs);
    }
    // lookups want distinct keys
    if random.below(3) > 0 {
        specs.dedup_by_key(|spec| specifications::key(*spec));
    }
    let length = |random: &mut Random| match random.below(30) {
        0 => random.below(300),
        _ => random.below(5),
    };
    specs
        .into_iter()
        .map(|spec| (spec, length(random) as usize))
        .collect()
}

/// One fault: a byte cut, changed, added or taken, or a number that is overlong, too large or very long.
pub fn damage(block: &mut Vec<u8>, random: &mut Random) {
    let at = random.below(block.len() as u64 + 1) as usize;
    match random.below(6) {
        0 => block.truncate(at),
        1 => block.insert(at, random.byte()),
        2 => block.push(random.byte()),
        3 => drop(block.pop()),
        4 => {
            if let Some(byte) = block.get_mut(at) {
                *byte = random.byte();
            }
        }
        _ => {
            let number = match random.below(4) {
                0 => vec![0x80, 0x00],
                1 => [vec![0xff; 9], vec![random.pick(&[0x01, 0x02, 0x80])]].concat(),
                2 => write_u64(random.pick(&[u64::MAX, 1 << 63, 1 << 32])),
                _ => write_u64(random.wide()),
            };
            block.splice(at..(at + 1).min(block.len()), number);
        }
    }
}

/// A block by chance, in one of three damaged, and its specifications.
pub fn chance_block(random: &mut Random) -> (Vec<u8>, Vec<u32>) {
    let rows = chance_rows(random);
    let mut block = table::write(&rows);
    for row in &rows {
        // long columns in few letters
        if row.1 < 8 {
            block.extend(random.bytes(row.1 as u64));
        } else {
            block.extend(vec![random.byte(); row.1]);
        }
    }
    if random.below(3) == 0 {
        damage(&mut block, random);
    }
    (block, rows.iter().map(|row| row.0).collect())
}

fn chance(out: &mut String, random: &mut Random) {
    let (block, specs) = chance_block(random);
    // bytes of a record have their limit
    if block.len() > 4000 {
        return;
    }
    let count = specs.len() as u64;
    let position = match random.below(20) {
        0 => random.wide(),
        1 => count,
        _ => random.below(count.max(1)),
    };
    match random.below(5) {
        0 | 1 => read_table(out, &block),
        2 => column(out, &block, position),
        3 => match specs.get(position as usize) {
            Some(&spec) => bytes(out, &block, spec),
            None => bytes(out, &block, chance_spec(random)),
        },
        _ => {
            let size = match random.below(10) {
                0 => random.wide(),
                _ => random.below(7),
            };
            let room = block.len() as u64 + random.below(9);
            let filler = random.byte();
            put_frame(out, &block, position, size, vec![filler; room as usize]);
        }
    }
}
