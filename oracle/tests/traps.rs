//! What a caller of the crate has to keep away from; the records leave these out.

use oracle::numbers::write_u64;
use oracle::{boolean, delta, rle, table, text, TOO_MANY};
use std::panic::catch_unwind;

#[test]
fn huge_counts_are_read_one_reading_at_a_time() {
    let absent = [&[0][..], &write_u64(1 << 62)].concat();
    assert_eq!(rle::decode(&absent, 3), Err(TOO_MANY));
    assert_eq!(boolean::decode(&write_u64(u64::MAX), 3), Err(TOO_MANY));
}

#[test]
fn a_count_of_single_values_that_passes_the_limit_is_not_refused() {
    // -2^32, and no value
    assert_eq!(rle::decode(&[0x80, 0x80, 0x80, 0x80, 0x70], 3), Err(21));
}

#[test]
fn behind_a_fault_the_decoder_goes_on() {
    // twice a value that is not there: the fault once, and then two readings as absent
    let absent = Some(Ok(None));
    assert_eq!(
        rle::answers(&[2], 4),
        [Some(Err(21)), absent.clone(), absent, None]
    );
    // two values of which one is there: the fault once, and then the end
    let five = Some(Ok(Some(5)));
    assert_eq!(
        rle::answers(&[0x7e, 5], 4),
        [five, Some(Err(21)), None, None]
    );
}

#[test]
fn behind_a_bad_name_the_decoder_reads_on_from_it() {
    // two names of which the first is not UTF-8: the fault for each, and then the first one's length as a run's count
    let column = [0x7e, 1, 0xff, 1, 0x61];
    assert_eq!(
        text::answers(&column, 3),
        [Some(Err(20)), Some(Err(20)), Some(Err(1))]
    );
}

#[test]
fn the_maybe_decoder_reads_an_empty_column_as_an_empty_list() {
    assert_eq!(boolean::decode_maybe(&[], 10), Ok(vec![]));
}

#[test]
fn the_maybe_decoder_never_ends_on_a_column_that_is_not_empty() {
    assert_eq!(
        boolean::decode(&[0, 1, 2], 10),
        Ok(vec![true, false, false])
    );
    assert_eq!(boolean::decode_maybe(&[0, 1, 2], 10), Err(TOO_MANY));
}

#[test]
fn a_splice_that_starts_past_the_list_panics() {
    assert!(catch_unwind(|| delta::splice(&[0x7f, 5], 2, 2, &[])).is_err());
}

#[test]
fn a_splice_whose_end_is_below_its_start_inserts() {
    let spliced = delta::splice(&[0x7e, 5, 1], 1, 0, &[Some(9)]).unwrap();
    assert_eq!(
        delta::decode(&spliced, 10),
        Ok(vec![Some(5), Some(9), Some(6)])
    );
}

#[test]
fn a_lookup_of_a_range_beyond_the_data_panics() {
    assert!(catch_unwind(|| table::lookup(&[1, 0x13, 9], 0x13, &[1, 2]).map(<[u8]>::len)).is_err());
}

#[test]
fn lengths_saturate_and_64_columns_are_no_limit() {
    let long = [&[2, 1][..], &write_u64(u64::MAX), &[2, 5]].concat();
    let (_, rows) = table::parse(&long).unwrap();
    assert_eq!(rows[1], (2, usize::MAX, 0));
    let rows: Vec<(u32, usize)> = vec![(0x13, 0); 65];
    assert_eq!(table::parse(&table::write(&rows)).unwrap().1.len(), 65);
}

#[test]
fn a_compressed_row_is_told_but_not_refused_by_the_parser() {
    assert_eq!(table::is_uncompressed(&[1, 0x1b, 0]), Ok(false));
    assert_eq!(table::is_uncompressed(&[1, 0x13, 0]), Ok(true));
}
