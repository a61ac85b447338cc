//! UTF-8 against Rust's own test: bytes, and which of the 256 bytes may stand behind them.

use super::text::telling;
use super::{comment, List, Options, Record};
use crate::random::Random;
use crate::text::is_utf8;

/// Whether the bytes are UTF-8, and for each byte whether they are with it behind them.
fn record(out: &mut String, bytes: &[u8]) {
    let ends = |last: u8| u64::from(is_utf8(&[bytes, &[last]].concat()));
    let ends: Vec<u64> = (0..=255).map(ends).collect();
    Record::call("is_utf8")
        .bytes(bytes)
        .accepted()
        .number(is_utf8(bytes).into())
        .field(List(&ends))
        .end(out);
}

/// First, second and third bytes at which the rules turn.
const FIRST: [u8; 16] = [
    0x00, 0x7f, 0x80, 0xbf, 0xc1, 0xc2, 0xdf, 0xe0, 0xe1, 0xec, 0xed, 0xee, 0xef, 0xf0, 0xf3, 0xf4,
];
const BEHIND: [u8; 12] = [
    0x00, 0x7f, 0x80, 0x8f, 0x90, 0x9f, 0xa0, 0xbf, 0xc0, 0xc2, 0xe0, 0xff,
];

pub fn all(out: &mut String, options: &Options, random: &mut Random) {
    comment(out, "bytes, whether they are UTF-8, and for each byte whether they are with it behind them: by Rust's str::from_utf8");
    comment(out, "all of up to one byte, and so all of up to two");
    record(out, &[]);
    (0..=255).for_each(|a| record(out, &[a]));
    let seconds = match options.lean {
        true => BEHIND.to_vec(),
        false => (0..=255).collect(),
    };
    let count = seconds.len();
    comment(
        out,
        &format!("all first bytes with {count} of the second ones, and so with any third one"),
    );
    for a in 0..=255 {
        seconds.iter().for_each(|&b| record(out, &[a, b]));
    }
    comment(out, "telling ones of three bytes, and so of four");
    for a in FIRST.into_iter().chain([0xf5, 0xf8, 0xff]) {
        for b in BEHIND {
            for c in BEHIND {
                record(out, &[a, b, c]);
            }
        }
    }
    comment(out, "by chance");
    let telling = telling();
    for _ in 0..options.count {
        let mut bytes = vec![];
        for _ in 0..random.below(6) {
            bytes.extend(&telling[random.below(telling.len() as u64) as usize]);
        }
        let more = random.below(4);
        bytes.extend((0..more).map(|_| 0x80 | random.byte()));
        if random.below(4) == 0 {
            bytes.truncate(random.below(bytes.len() as u64 + 1) as usize);
        }
        record(out, &bytes);
    }
}
