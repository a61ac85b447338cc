//! Specifications: the crate's answers where document 01 compares them, and document 01's where the crate loses the id.

use super::{comment, Options, Record};
use crate::random::Random;
use crate::specifications as crates;

pub fn all(out: &mut String, options: &Options, random: &mut Random) {
    comment(
        out,
        "packed by the crate: all ids to 15, all types, both bits",
    );
    for id in 0..16 {
        for_each_kind(|col_type, deflate| {
            new(id, col_type, deflate)
                .accepted()
                .number(crates::new(id, col_type, deflate).into())
                .end(out);
        });
    }
    comment(out, "unpacked by the crate: all below 4096, and by chance");
    for spec in 0..4096 {
        parts(out, spec);
    }
    for _ in 0..options.count {
        parts(out, random.wide() as u32);
    }
    parts(out, u32::MAX);
    comment(out, "document 01, and not the crate: ids from 16 up are kept, where the crate's mask loses them without the compressed bit");
    for id in [16, 17, 31, 32, 127, 255, 256, 4095, 65536, (1 << 28) - 1] {
        for_each_kind(|col_type, deflate| {
            let spec = id * 16 + if deflate { 8 } else { 0 } + u64::from(col_type);
            new(id as u32, col_type, deflate)
                .accepted()
                .number(spec)
                .end(out);
        });
    }
    comment(
        out,
        "document 01, and not the crate: an id of 2^28 or more is refused: 19, in hex 13",
    );
    for id in [1 << 28, (1 << 28) + 1, 1 << 31, u32::MAX] {
        for_each_kind(|col_type, deflate| {
            new(id, col_type, deflate)
                .refused_at(19, 0)
                .number(0)
                .end(out);
        });
    }
}

fn for_each_kind(mut record: impl FnMut(u8, bool)) {
    for col_type in 0..8 {
        record(col_type, false);
        record(col_type, true);
    }
}

fn new(id: u32, col_type: u8, deflate: bool) -> Record {
    Record::call("spec_new")
        .number(id.into())
        .number(col_type.into())
        .number(deflate.into())
}

/// The key is not compared where the crate's is the low byte of a longer one.
fn parts(out: &mut String, spec: u32) {
    let record = Record::call("spec_parts")
        .number(spec.into())
        .accepted()
        .number(crates::id(spec).into())
        .number(crates::col_type(spec).into())
        .number(crates::deflate(spec).into());
    let key = crates::key(spec);
    match key == crates::whole_key(spec) {
        true => record.number(key.into()),
        false => record.field('*'),
    }
    .end(out);
}
