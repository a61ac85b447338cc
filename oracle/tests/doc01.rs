//! Is document 01's own text true of the crate, on the domain that it names? A model from the document against the Rust.

use oracle::numbers::{leb128_i64, leb128_u64, write_i64, write_u64, Reading};
use oracle::{boolean, delta, rle, specifications, table, Refusal, TOO_MANY};

/// All lists of up to `most` numbers below `kinds`.
fn lists(kinds: usize, most: usize, mut see: impl FnMut(&[usize])) {
    for length in 0..=most {
        let mut list = vec![0; length];
        loop {
            see(&list);
            // the next list, as a number is counted up
            let Some(place) = list.iter().position(|&kind| kind + 1 < kinds) else {
                break;
            };
            list[..place].fill(0);
            list[place] += 1;
        }
    }
}

/// The writer of document 01: the list is cut into longest stretches, each one run.
fn stretches(list: &[Option<u64>]) -> Vec<u8> {
    let mut out = vec![];
    if list.iter().all(Option::is_none) {
        return out;
    }
    // two neighbours that are present and equal
    let equal = |i: usize| i + 1 < list.len() && list[i].is_some() && list[i] == list[i + 1];
    let mut start = 0;
    while start < list.len() {
        let mut end = start + 1;
        if list[start].is_none() {
            while end < list.len() && list[end].is_none() {
                end += 1;
            }
            out.push(0);
            out.extend(write_u64((end - start) as u64));
        } else if equal(start) {
            while equal(end - 1) {
                end += 1;
            }
            out.extend(write_i64((end - start) as i64));
            out.extend(write_u64(list[start].unwrap()));
        } else {
            while end < list.len() && list[end].is_some() && !equal(end) {
                end += 1;
            }
            out.extend(write_i64(-((end - start) as i64)));
            for value in &list[start..end] {
                out.extend(write_u64(value.unwrap()));
            }
        }
        start = end;
    }
    out
}

#[test]
fn the_rle_writer_cuts_longest_stretches_and_reads_back() {
    lists(4, 8, |kinds| {
        let list: Vec<Option<u64>> = kinds
            .iter()
            .map(|&kind| (kind > 0).then_some(kind as u64))
            .collect();
        let bytes = rle::encode(&list);
        assert_eq!(bytes, stretches(&list), "{list:?}");
        assert!(bytes.len() <= 11 * list.len());
        let back = rle::decode(&bytes, 100).unwrap();
        if list.iter().any(Option::is_some) {
            assert_eq!(back, list);
        } else {
            assert!(back.is_empty());
        }
    });
}

#[test]
fn boolean_columns_read_back_and_the_all_false_form_writes_nothing() {
    lists(2, 14, |kinds| {
        let list: Vec<bool> = kinds.iter().map(|&kind| kind == 1).collect();
        let bytes = boolean::encode(&list);
        assert!(bytes.len() <= list.len() + 1);
        assert_eq!(boolean::decode(&bytes, 100).unwrap(), list);
        let maybe = boolean::encode_maybe(&list);
        if list.contains(&true) {
            assert_eq!(maybe, bytes);
        } else {
            assert!(maybe.is_empty());
        }
    });
}

/// Reads a number off the front.
fn take(rest: &mut &[u8], read: fn(&[u8]) -> Reading) -> Result<u64, Refusal> {
    let (value, used) = read(rest)?;
    *rest = &rest[used..];
    Ok(value)
}

/// The RLE reader of document 01, refusals in order. Lists over `most` are outside this test.
fn rle_model(column: &[u8], most: usize) -> Result<Vec<Option<u64>>, Refusal> {
    let mut rest = column;
    let mut list = vec![];
    while !rest.is_empty() {
        let count = take(&mut rest, leb128_i64)? as i64;
        for _ in count..0 {
            list.push(Some(take(&mut rest, leb128_u64)?));
        }
        if count >= 0 {
            let number = take(&mut rest, leb128_u64)?;
            let (reading, times) = match count {
                0 => (None, number),
                _ => (Some(number), count as u64),
            };
            if times > most as u64 {
                return Err(TOO_MANY);
            }
            list.extend((0..times).map(|_| reading));
        }
        if list.len() > most {
            return Err(TOO_MANY);
        }
    }
    Ok(list)
}

#[test]
fn the_rle_reader_on_every_column_of_few_bytes() {
    let bytes = [
        0x00, 0x01, 0x02, 0x03, 0x3f, 0x7d, 0x7e, 0x7f, 0x80, 0x81, 0xff,
    ];
    let (mut compared, mut outside) = (0, 0);
    lists(bytes.len(), 5, |kinds| {
        let column: Vec<u8> = kinds.iter().map(|&kind| bytes[kind]).collect();
        let model = rle_model(&column, 5000);
        if model == Err(TOO_MANY) {
            outside += 1;
            return;
        }
        assert_eq!(rle::decode(&column, 5000), model, "{column:02x?}");
        compared += 1;
    });
    assert!(
        compared > 10 * outside,
        "{compared} compared, {outside} outside"
    );
}

/// Document 02, [8]: the crate has one error for bytes that end, and the last of them says which of the two refusals it is.
#[test]
fn bytes_end_within_a_number_or_where_one_is_due() {
    for due in [&[0x00][..], &[0x02], &[0x7e, 0x05], &[0x02, 0x05, 0x00]] {
        let within = [due, &[0x80]].concat();
        assert_eq!(rle::decode(due, 10), Err(21));
        assert_eq!(rle::decode(&within, 10), Err(1));
        assert_eq!(delta::decode(due, 10), Err(21));
        assert_eq!(delta::decode(&within, 10), Err(1));
    }
    // a run's first number is not due: bytes that end there end the column
    assert_eq!(rle::decode(&[], 10), Ok(vec![]));
    assert_eq!(boolean::decode(&[0x01], 10), Ok(vec![false]));
    assert_eq!(boolean::decode(&[0x01, 0x80], 10), Err(1));
    for read in [leb128_u64, leb128_i64] {
        assert_eq!((read(&[]), read(&[0x80])), (Err(21), Err(1)));
    }
    for due in [&[][..], &[0x01], &[0x01, 0x12], &[0x02, 0x12, 0x00]] {
        assert_eq!(table::parse(due), Err(21));
        assert_eq!(table::parse(&[due, &[0x80]].concat()), Err(1));
    }
}

#[test]
fn a_splice_is_the_list_before_the_new_readings_and_the_list_behind() {
    let reading = |from: [Option<i64>; 3]| move |&kind: &usize| from[kind];
    lists(3, 4, |old| {
        let old: Vec<_> = old.iter().map(reading([None, Some(5), Some(-7)])).collect();
        let column = delta::encode(&old);
        // what the bytes read as: a list with no value present reads as empty
        let old = delta::decode(&column, 100).unwrap();
        for start in 0..=old.len() {
            for end in start..=old.len() + 2 {
                lists(3, 2, |new| {
                    let new: Vec<_> = new.iter().map(reading([None, Some(5), Some(9)])).collect();
                    let mut list = old[..start].to_vec();
                    list.extend(&new);
                    list.extend(&old[end.min(old.len())..]);
                    let spliced = delta::splice(&column, start, end, &new).unwrap();
                    assert_eq!(spliced, delta::encode(&list));
                })
            }
        }
    });
}

#[test]
fn the_edit_of_document_01() {
    let column = [0x7f, 0xd0, 0x00, 0x02, 0x00];
    let spliced = delta::splice(&column, 1, 2, &[Some(81)]);
    assert_eq!(spliced, Ok(vec![0x7d, 0xd0, 0x00, 0x01, 0x7f]));
}

/// The crate's sorting key, which document 01 took over and document 02, [2], does not.
fn key(spec: u32) -> u32 {
    spec & 0xf7
}

/// The difference to record: where the crate's key and the whole specification tell two columns' order apart.
#[test]
fn the_keys_order_alike_below_id_16_only() {
    let order = |a, b| specifications::whole_key(a).cmp(&specifications::whole_key(b));
    for a in 0..0x100 {
        for b in 0..0x100 {
            assert_eq!(specifications::order(a, b), order(a, b));
        }
    }
    assert!(specifications::order(0x13, 0x102).is_gt() && order(0x13, 0x102).is_lt());
    assert!(specifications::order(0x112, 0x13).is_lt() && order(0x112, 0x13).is_gt());
}

#[test]
fn a_specification_packs_and_unpacks() {
    for spec in (0..0x3000).chain((0..1000).map(|k| k * 4_294_967)) {
        assert_eq!(specifications::id(spec), spec / 16);
        assert_eq!(u32::from(specifications::col_type(spec)), spec % 8);
        assert_eq!(specifications::deflate(spec), spec / 8 % 2 == 1);
        assert_eq!(specifications::key(spec), key(spec));
        assert_eq!(specifications::order(spec, 0x42), key(spec).cmp(&key(0x42)));
    }
}

/// The difference to record: without the compressed bit the crate keeps the low byte only.
#[test]
fn packing_loses_ids_from_16_up_without_the_compressed_bit() {
    for id in (0..2000).chain([0xffff, 0x10000, 0xfff_ffff]) {
        for col_type in 0..8 {
            let plain = id * 16 + u32::from(col_type);
            assert_eq!(specifications::new(id, col_type, true), plain + 8);
            let packed = specifications::new(id, col_type, false);
            assert_eq!(packed, plain & 0xff);
            assert_eq!(packed == plain, id < 16);
        }
    }
}

#[test]
fn a_lookup_agrees_where_document_01_says_so() {
    let specs = [0x01, 0x02, 0x11, 0x12, 0x13, 0x102, 0x112, 0x1a];
    let data: Vec<u8> = (0..10).collect();
    lists(specs.len(), 4, |kinds| {
        // column i has i + 1 bytes
        let rows: Vec<(u32, usize)> = (1..).zip(kinds).map(|(n, &k)| (specs[k], n)).collect();
        let bytes = table::write(&rows);
        let is_sorted = rows.windows(2).all(|w| key(w[0].0) <= key(w[1].0));
        let Ok((consumed, parsed)) = table::parse(&bytes) else {
            assert!(!is_sorted);
            assert_eq!(table::parse(&bytes), Err(12));
            return;
        };
        assert!(is_sorted);
        assert_eq!(consumed, bytes.len());
        assert_eq!(parsed.len(), rows.len());
        assert_eq!(table::rewrite(&bytes).unwrap(), bytes);
        let is_distinct = rows.windows(2).all(|w| key(w[0].0) != key(w[1].0));
        for sought in specs {
            let is_there = rows.iter().any(|row| row.0 == sought);
            let shares_a_key = rows.iter().any(|row| key(row.0) == key(sought));
            if is_distinct && (is_there || !shares_a_key) {
                let first = parsed.iter().find(|row| row.0 == sought);
                let part = first.map_or(&data[..0], |row| &data[row.1..row.1 + row.2]);
                assert_eq!(table::lookup(&bytes, sought, &data).unwrap(), part);
            }
        }
    });
}
