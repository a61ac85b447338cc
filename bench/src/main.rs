//! The crate's Rust and the proved library on the same inputs, in one run: results compared first, then both timed in turns.
//!
//! A row: what, the size, ours and the Rust in nanoseconds a unit (a reading, a number, a row of a table), and ours by the Rust's: below 1 we
//! are ahead. Each side's time is the least of its turns. Our buffers are lent and not cleared between turns; the Rust's grow, as its calls do.
//! Where GRUNDAVOK_BEST names this program as another build of the Rust has it, that one measures each row too, directly behind this one, and its
//! three numbers stand beside.

mod best;
mod ours;

use best::{Best, Measured};
use grundavok::raw::CountedTable;
use oracle::random::Random;
use oracle::{boolean, delta, numbers, rle, table};
use std::hint::black_box;
use std::time::Instant;

const TURNS: usize = 9;
const SIZES: [usize; 5] = [100, 1_000, 10_000, 100_000, 1_000_000];

struct Rows {
    words: Vec<String>,
    best: Best,
    rows: usize,
    /// Rows of which ours is not slower than the Rust of this build, and those of at most 1.1 times its time in the other.
    ahead: usize,
    near: usize,
}

impl Rows {
    fn wants(&self, name: &str) -> bool {
        self.words.is_empty() || self.words.iter().any(|w| name.contains(w.as_str()))
    }

    /// Times both in turns, `units` a call, where the row is wanted.
    fn row<A, B>(&mut self, name: &str, size: usize, units: usize, mut ours: impl FnMut() -> A, mut rust: impl FnMut() -> B) {
        if !self.wants(name) || !self.best.turn() {
            return;
        }
        let guess = time(&mut rust, 1).max(time(&mut ours, 1)).max(20.0);
        let calls = ((2_000_000.0 / guess) as usize).clamp(1, 200_000);
        let (mut a, mut b) = (f64::MAX, f64::MAX);
        for _ in 0..TURNS {
            a = a.min(time(&mut ours, calls));
            b = b.min(time(&mut rust, calls));
        }
        let here = Measured {
            ours: a / units as f64,
            rust: b / units as f64,
        };
        let there = self.best.beside(&here);
        self.rows += 1;
        self.ahead += usize::from(here.ratio() <= 1.0);
        self.near += usize::from(there.as_ref().is_some_and(|m| m.ratio() <= 1.1));
        if !self.best.asked() {
            println!("{name:<34} {size:>9} {here} {}", there.map_or(String::new(), |m| m.to_string()));
        }
    }

    /// What no one can go below: a time alone, which is no row of ours.
    fn limit<A>(&self, name: &str, size: usize, units: usize, mut f: impl FnMut() -> A) {
        if self.wants(name) && !self.best.asked() {
            let least = (0..TURNS).map(|_| time(&mut f, 100)).fold(f64::MAX, f64::min);
            println!("{name:<34} {size:>9} {:>10.4}", least / units as f64);
        }
    }

    fn said(&self) {
        if !self.best.asked() {
            println!("{} rows, ours is not slower in {}", self.rows, self.ahead);
            if self.best.there() {
                println!("beside the other build ours takes at most 1.1 of its time in {}", self.near);
            }
        }
    }
}

/// Nanoseconds a call.
fn time<A>(f: &mut impl FnMut() -> A, calls: usize) -> f64 {
    let t = Instant::now();
    for _ in 0..calls {
        black_box(f());
    }
    t.elapsed().as_nanos() as f64 / calls as f64
}

/// Strokes: depths in micrometres, as a scan has them.
fn stroke(shape: &str, n: usize) -> Vec<Option<i64>> {
    let mut random = Random(7);
    let mut depth = 80i64;
    let mut slope = 0i64;
    (0..n)
        .map(|i| match shape {
            // slopes that hold for a while
            "smooth" => {
                if i % 16 == 0 {
                    slope = random.below(5) as i64 - 2;
                }
                depth += slope;
                Some(depth)
            }
            "noisy" => {
                depth += random.below(2_000) as i64 - 1_000;
                Some(depth)
            }
            "runs" => Some(80 + (i / 5_000) as i64),
            "absent" => {
                depth += random.below(9) as i64 - 4;
                (random.below(2) == 0).then_some(depth)
            }
            _ => unreachable!(),
        })
        .collect()
}

const SHAPES: [&str; 4] = ["smooth", "noisy", "runs", "absent"];

fn slots<T: Copy + Default>(list: &[Option<T>]) -> (Vec<T>, Vec<u8>) {
    let values = list.iter().map(|x| x.unwrap_or_default()).collect();
    (values, list.iter().map(|x| u8::from(x.is_some())).collect())
}

/// A column of optional readings written and read whole, by both, after their results are compared; its bytes.
macro_rules! whole {
    ($rows:expr, $kind:ident, $what:expr, $n:expr, $list:expr, $decode:path, $encode:path) => {{
        let bytes = $kind::encode(&$list);
        let (v, p) = slots(&$list);
        let mut out = vec![0u8; bytes.len()];
        assert_eq!($encode(&v, &p, &mut out), bytes.len());
        assert_eq!(out, bytes);
        let (mut v2, mut p2) = (vec![Default::default(); $n], vec![0u8; $n]);
        let read = $decode(&bytes, &mut v2, &mut p2) as usize;
        let (v3, p3) = slots(&$kind::decode(&bytes, $n).unwrap());
        assert_eq!((&v2[..read], &p2[..read]), (&v3[..], &p3[..]));
        $rows.row(
            &format!("{} decode, {}", stringify!($kind), $what),
            $n,
            $n,
            || $decode(black_box(&bytes), &mut v2, &mut p2),
            || $kind::decode(black_box(&bytes), $n),
        );
        $rows.row(
            &format!("{} encode, {}", stringify!($kind), $what),
            $n,
            $n,
            || $encode(black_box(&v), &p, &mut out),
            || $kind::encode(black_box(&$list)),
        );
        bytes
    }};
}

fn columns(rows: &mut Rows, shape: &str, n: usize) {
    let signed = stroke(shape, n);
    let unsigned: Vec<Option<u64>> = signed.iter().map(|x| x.map(|v| (v + 1_000_000_000) as u64)).collect();
    let flags: Vec<bool> = signed.iter().map(|x| x.is_some_and(|v| v / 4 % 2 == 0)).collect();
    macro_rules! optional {
        ($kind:ident, $list:expr, $decode:path, $encode:path, $walk:path, $readings:path) => {
            let bytes = whole!(rows, $kind, shape, n, $list, $decode, $encode);
            let name = |what| format!("{} {what}, {shape}", stringify!($kind));
            walks(
                rows,
                &name("next by next"),
                n,
                |seen| $walk(black_box(&bytes), |reading| seen.reading(reading.map(|v| v as u64))),
                |seen| $kind::iter(black_box(&bytes)).for_each(|reading| seen.reading(reading.map(|v| v as u64))),
            );
            walks(
                rows,
                &name("iterator"),
                n,
                |seen| $readings(black_box(&bytes)).for_each(|reading| seen.reading(reading.unwrap().map(|v| v as u64))),
                |seen| $kind::iter(black_box(&bytes)).for_each(|reading| seen.reading(reading.map(|v| v as u64))),
            );
        };
    }
    optional!(
        rle,
        unsigned,
        ours::rle_decode,
        ours::rle_encode,
        ours::rle_walk,
        grundavok::rle::readings
    );
    optional!(
        delta,
        signed,
        ours::delta_decode,
        ours::delta_encode,
        ours::delta_walk,
        grundavok::delta::readings
    );
    let bytes = boolean::encode(&flags);
    let given: Vec<u8> = flags.iter().map(|&b| u8::from(b)).collect();
    let mut out = vec![0u8; bytes.len()];
    assert_eq!(ours::boolean_encode(&given, &mut out), bytes.len());
    assert_eq!(out, bytes);
    let mut v = vec![0u8; n];
    assert_eq!(ours::boolean_decode(&bytes, &mut v) as usize, n);
    assert_eq!(v, given);
    let name = |what| format!("boolean {what}, {shape}");
    rows.row(
        &name("decode"),
        n,
        n,
        || ours::boolean_decode(black_box(&bytes), &mut v),
        || boolean::decode(black_box(&bytes), n),
    );
    rows.row(
        &name("encode"),
        n,
        n,
        || ours::boolean_encode(black_box(&given), &mut out),
        || boolean::encode(black_box(&flags)),
    );
    walks(
        rows,
        &name("next by next"),
        n,
        |seen| ours::boolean_walk(black_box(&bytes), |value| seen.reading(value.map(u64::from))),
        |seen| boolean::iter(black_box(&bytes)).for_each(|value| seen.reading(Some(u64::from(value)))),
    );
    walks(
        rows,
        &name("iterator"),
        n,
        |seen| grundavok::boolean::readings(black_box(&bytes)).for_each(|value| seen.reading(Some(u64::from(value.unwrap())))),
        |seen| boolean::iter(black_box(&bytes)).for_each(|value| seen.reading(Some(u64::from(value)))),
    );
}

/// Integer columns of short numbers: indexes of actors have one byte, depths as they are mostly two.
fn integers(rows: &mut Rows, n: usize) {
    for (what, least, most) in [("one byte", 0, 127), ("two bytes", 128, 16_383)] {
        let mut random = Random(5);
        let list: Vec<Option<u64>> = (0..n).map(|_| Some(least + random.below(most - least + 1))).collect();
        whole!(rows, rle, what, n, list, ours::rle_decode, ours::rle_encode);
    }
}

/// What was seen of readings that came one by one, so that each is looked at.
#[derive(Default, Debug, PartialEq)]
struct Seen {
    sum: u64,
    absent: u64,
}

impl Seen {
    fn reading(&mut self, reading: Option<u64>) {
        match reading {
            Some(v) => self.sum = self.sum.rotate_left(1).wrapping_add(v),
            None => self.absent += 1,
        }
    }
}

/// A column walked a reading at a time to its end, by our cursor or our iterator and by the crate's iterator.
fn walks(rows: &mut Rows, name: &str, n: usize, ours: impl Fn(&mut Seen), rust: impl Fn(&mut Seen)) {
    let seen = |walk: &dyn Fn(&mut Seen)| {
        let mut seen = Seen::default();
        walk(&mut seen);
        seen
    };
    assert_eq!(seen(&ours), seen(&rust));
    rows.row(name, n, n, || seen(&ours), || seen(&rust));
}

/// The sum of numbers that stand one behind another: `read` gives the one at a position, and the position behind it.
fn sum(bytes: &[u8], read: impl Fn(usize) -> (u64, usize)) -> u64 {
    let (mut at, mut sum) = (0, 0u64);
    while at < bytes.len() {
        let (v, next) = read(at);
        (at, sum) = (next, sum.wrapping_add(v));
    }
    sum
}

/// Numbers of all lengths.
fn readers(rows: &mut Rows) {
    let n = 10_000;
    let mut random = Random(3);
    let values: Vec<u64> = (0..n).map(|_| random.number() >> random.below(64)).collect();
    macro_rules! reader {
        ($name:expr, $read:ident, $write:expr) => {
            let bytes: Vec<u8> = values.iter().flat_map(|&v| $write(v)).collect();
            let ours = || {
                sum(&bytes, |at| {
                    let r = ours::$read(&bytes, at);
                    (r.value as u64, r.next)
                })
            };
            let rust = || {
                sum(&bytes, |at| {
                    let (v, took) = numbers::$read(&bytes[at..]).unwrap();
                    (v, at + took)
                })
            };
            assert_eq!(ours(), rust());
            rows.row($name, n, n, ours, rust);
        };
    }
    reader!("numbers, unsigned", leb128_u64, numbers::write_u64);
    reader!("numbers, signed", leb128_i64, |v| numbers::write_i64(v as i64));
}

fn block(columns: &[(u32, Vec<u8>)]) -> Vec<u8> {
    let rows: Vec<(u32, usize)> = columns.iter().map(|(spec, c)| (*spec, c.len())).collect();
    let mut bytes = table::write(&rows);
    for (_, c) in columns {
        bytes.extend(c);
    }
    bytes
}

fn tables(rows: &mut Rows) {
    for n in [1usize, 8, 15, 64] {
        let columns: Vec<(u32, Vec<u8>)> = (0..n).map(|i| ((i as u32 / 4) << 4 | 2, vec![0; i])).collect();
        let bytes = block(&columns);
        let opened = ours::read_table(&bytes);
        let (start, parsed) = table::parse(&bytes).unwrap();
        assert_eq!((opened.number, opened.start, opened.table.rows), (0, start, parsed.len()));
        rows.row(
            "table",
            n,
            n,
            || ours::read_table(black_box(&bytes)),
            || table::parse(black_box(&bytes)),
        );
    }
}

/// A redraw: how many readings each of 64 columns has, integer, delta and boolean ones, of n readings each. Afresh: each time from the table as opened.
/// Kept: lent the table that the redraw before gave. The Rust remembers nothing: it reads the table and counts what its decoders give.
fn redraws(rows: &mut Rows, n: usize) {
    let signed = stroke("smooth", n);
    let unsigned: Vec<Option<u64>> = signed.iter().map(|x| x.map(|v| (v + 1_000_000) as u64)).collect();
    let flags: Vec<bool> = signed.iter().map(|x| x.is_some_and(|v| v / 4 % 2 == 0)).collect();
    let encoded = [rle::encode(&unsigned), delta::encode(&signed), boolean::encode(&flags)];
    // ids up to 15, which the Rust's key orders too
    let typ = |i: u32| [0, 1, 2, 2][i as usize % 4];
    let column = |i: u32| ((i / 4) << 4 | (2 + typ(i)), encoded[typ(i) as usize].clone());
    let columns: Vec<(u32, Vec<u8>)> = (0..64).map(column).collect();
    let bytes = block(&columns);
    let rust = || -> usize {
        let (at, parsed) = table::parse(black_box(&bytes)).unwrap();
        let counted = |&(spec, start, len): &(u32, usize, usize)| {
            let column = &bytes[at + start..at + start + len];
            match spec & 7 {
                2 => rle::iter(column).count(),
                3 => delta::iter(column).count(),
                _ => boolean::iter(column).count(),
            }
        };
        parsed.iter().map(counted).sum()
    };
    let redraw = |table: &mut CountedTable| -> u64 { (0..64).map(|i| ours::count(black_box(&bytes), table, i)).sum() };
    let mut kept = ours::open_table(&bytes);
    assert_eq!((redraw(&mut kept), redraw(&mut kept)), (64 * n as u64, 64 * n as u64));
    assert_eq!(rust(), 64 * n);
    let afresh = || redraw(&mut ours::open_table(black_box(&bytes)));
    rows.row("redraw of 64 columns, afresh", n, 64, afresh, rust);
    rows.row("redraw of 64 columns, table kept", n, 64, || redraw(&mut kept), rust);
}

/// The Rust's whole edit: the table read, the first column's range replaced by `splice`, and the new block written.
fn edited(bytes: &[u8], splice: impl Fn(&[u8]) -> Vec<u8>) -> Vec<u8> {
    let (at, parsed) = table::parse(bytes).unwrap();
    let part = |&(spec, start, len): &(u32, usize, usize)| (spec, bytes[at + start..at + start + len].to_vec());
    let mut parts: Vec<(u32, Vec<u8>)> = parsed.iter().map(part).collect();
    parts[0].1 = splice(&parts[0].1);
    block(&parts)
}

/// Edits of the first of three columns, lent the block's table, and what merely copying the block takes.
fn edits(rows: &mut Rows, n: usize) {
    let among = |own: Vec<u8>, spec: u32| block(&[(spec, own), (0x27, vec![1; 1_000]), (0x37, vec![2; 1_000])]);
    let list = stroke("smooth", n);
    let whole = among(delta::encode(&list), 0x13);
    let mut copied = vec![0u8; whole.len()];
    rows.limit("edit: memcpy of the delta block", n, n, || {
        copied.copy_from_slice(black_box(&whole));
        black_box(&copied).len()
    });
    macro_rules! optional {
        ($kind:ident, $spec:expr, $what:expr, $list:expr, $fresh:expr, $splice:path, $places:expr) => {
            let fresh = $fresh;
            let (new, f) = slots(&fresh);
            let bytes = among($kind::encode(&$list), $spec);
            let table = ours::open_table(&bytes);
            for (place, start) in $places {
                let rust = || edited(black_box(&bytes), |c| $kind::splice(c, start, start + 4, &fresh).unwrap());
                let want = rust();
                let (mut v, mut p, mut out) = (vec![Default::default(); n + 4], vec![0u8; n + 4], vec![0u8; want.len() + 8]);
                let len = $splice(&bytes, &table, start, start + 4, &new, &f, &mut v, &mut p, &mut out);
                assert_eq!(&out[..len], &want[..]);
                let name = format!("edit of {} column, {place}", $what);
                rows.row(
                    &name,
                    n,
                    n,
                    || {
                        $splice(
                            black_box(&bytes),
                            &table,
                            start,
                            start + 4,
                            &new,
                            &f,
                            &mut v,
                            &mut p,
                            &mut out,
                        )
                    },
                    rust,
                );
            }
        };
    }
    let signed = [Some(5i64), None, Some(-7), Some(8)];
    optional!(
        delta,
        0x13,
        "a delta",
        list,
        signed,
        ours::splice_delta,
        [("front", 0), ("middle", n / 2), ("end", n - 4)]
    );
    let unsigned: Vec<Option<u64>> = list.iter().map(|x| x.map(|v| (v + 1_000_000) as u64)).collect();
    let given = [Some(5u64), None, Some(7), Some(8)];
    optional!(rle, 0x12, "an integer", unsigned, given, ours::splice_integer, [("middle", n / 2)]);
    let flags: Vec<bool> = list.iter().map(|x| x.is_some_and(|v| v / 4 % 2 == 0)).collect();
    let bytes = among(boolean::encode(&flags), 0x14);
    let (table, start) = (ours::open_table(&bytes), n / 2);
    let rust = || {
        edited(black_box(&bytes), |c| {
            boolean::splice(c, start, start + 4, &[true, false, true, true]).unwrap()
        })
    };
    let want = rust();
    let (mut v, mut out) = (vec![0u8; n + 4], vec![0u8; want.len() + 8]);
    let ours = |v: &mut [u8], out: &mut [u8]| ours::splice_boolean(black_box(&bytes), &table, start, start + 4, &[1, 0, 1, 1], v, out);
    let len = ours(&mut v, &mut out);
    assert_eq!(&out[..len], &want[..]);
    rows.row("edit of a boolean column, middle", n, n, || ours(&mut v, &mut out), rust);
}

/// A log of 10,000 entries over a list of n readings: inserts, absent ones, removals and changes, at places by chance or as a pen goes along. The Rust's side
/// decodes, applies them to its `Vec` and encodes.
fn replays(rows: &mut Rows, n: usize) {
    for (place, step) in [("by chance", None), ("along the stroke", Some(7))] {
        let mut random = Random(n as u64);
        let mut log = Vec::new();
        let mut length = n;
        for k in 0..10_000u32 {
            let kind = [1, 4, 3, 2, 3, 4][k as usize % 6];
            let at = step.map_or(random.below(length as u64) as usize, |step| k as usize * step % length);
            log.push(kind);
            log.extend((at as u32).to_le_bytes());
            if kind == 1 || kind == 4 {
                log.extend((random.below(200) as i64 - 50).to_le_bytes());
            }
            length = if kind < 3 { length + 1 } else { length - usize::from(kind == 3) };
        }
        let column = delta::encode(&stroke("smooth", n));
        let rust = || {
            let mut list = delta::decode(black_box(&column), usize::MAX).unwrap();
            let mut at = 0;
            while at < log.len() {
                let i = u32::from_le_bytes(log[at + 1..at + 5].try_into().unwrap()) as usize;
                let depth = |at: usize| Some(i64::from_le_bytes(log[at + 5..at + 13].try_into().unwrap()));
                match log[at] {
                    1 => list.insert(i, depth(at)),
                    2 => list.insert(i, None),
                    3 => drop(list.remove(i)),
                    _ => list[i] = depth(at),
                }
                at += if log[at] == 1 || log[at] == 4 { 13 } else { 5 };
            }
            delta::encode(&list)
        };
        let want = rust();
        let (mut v, mut p, mut out) = (vec![0i64; n + 10_000], vec![0u8; n + 10_000], vec![0u8; want.len() + 8]);
        let len = ours::replay(&column, &log, &mut v, &mut p, &mut out);
        assert_eq!(&out[..len], &want[..]);
        let name = format!("replay of 10,000, {place}");
        rows.row(
            &name,
            n,
            10_000,
            || ours::replay(black_box(&column), &log, &mut v, &mut p, &mut out),
            rust,
        );
    }
}

fn main() {
    let words: Vec<String> = std::env::args().skip(1).collect();
    let best = Best::new(&words);
    if !best.asked() {
        let three = format!("{:>10} {:>10} {:>8}", "ours ns", "Rust ns", "ratio");
        println!("{:<34} {:>9} {three} {}", "what", "size", if best.there() { &three } else { "" });
    }
    let mut rows = Rows {
        words,
        best,
        rows: 0,
        ahead: 0,
        near: 0,
    };
    readers(&mut rows);
    tables(&mut rows);
    redraws(&mut rows, 10_000);
    for shape in SHAPES {
        for n in SIZES {
            columns(&mut rows, shape, n);
        }
    }
    for n in SIZES {
        integers(&mut rows, n);
    }
    for n in SIZES {
        edits(&mut rows, n);
    }
    for n in [1_000, 10_000, 100_000] {
        replays(&mut rows, n);
    }
    rows.said();
}
