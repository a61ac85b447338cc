//! Calls over the linked archive, with document 01's examples. Where the archive cannot be linked, `cargo test` lists them as not run, and
//! the build's warning says why.

#[cfg(not(grundavok_linked))]
#[test]
#[ignore = "not run: libcapi.a is not linked here, the build's warning says why"]
fn calls() {
    panic!("libcapi.a is not linked");
}

#[cfg(grundavok_linked)]
mod calls {
    use grundavok::block::Block;
    use grundavok::column_specification::{ColumnSpec, ColumnType};
    use grundavok::corrections::{self, Layer};
    use grundavok::form::{self, Form};
    use grundavok::log::{self, Entry, Replayed};
    use grundavok::raw_column::{Frame, Row};
    use grundavok::reason::{self, About, Facts, Reason};
    use grundavok::salvage::{Salvaged, Survey};
    use grundavok::{boolean, delta, leb128, raw_call, raw_column, rle, text, Refusal};

    const DEPTHS: [u8; 8] = [0x01, 0x13, 0x05, 0x7f, 0xd0, 0x00, 0x02, 0x00];
    const TWO: [u8; 9] = [0x02, 0x12, 0x02, 0x13, 0x02, 0x02, 0x05, 0x7f, 0x05];

    /// An absent name, "é" twice, "ab", "" and "b"; and a String column of "ab" twice and "c" before a Boolean column of no, no.
    const NAMES: [u8; 13] = [0x00, 0x01, 0x02, 0x02, 0xc3, 0xa9, 0x7d, 0x02, 0x61, 0x62, 0x00, 0x01, 0x62];
    const SIGNS: [u8; 13] = [0x02, 0x15, 0x07, 0x24, 0x01, 0x02, 0x02, 0x61, 0x62, 0x7f, 0x01, 0x63, 0x02];

    /// The most readings that these tests hold.
    const MOST: usize = 8;

    /// 4,294,967,295 readings of 5; so many absent ones; so many of no; so many empty names.
    const FIVES: [u8; 6] = [0xff, 0xff, 0xff, 0xff, 0x0f, 0x05];
    const GAP: [u8; 6] = [0x00, 0xff, 0xff, 0xff, 0xff, 0x0f];
    const FLAGS: [u8; 5] = [0xff, 0xff, 0xff, 0xff, 0x0f];
    const EMPTY: [u8; 6] = [0xff, 0xff, 0xff, 0xff, 0x0f, 0x00];

    fn block(bytes: &[u8]) -> Block {
        Block::open(bytes).unwrap()
    }

    fn refused<T>(number: u8, place: usize) -> Result<T, Refusal> {
        Err(Refusal { number, place })
    }

    /// A column's fault.
    const fn fault(number: u8, place: usize) -> Option<Refusal> {
        Some(Refusal { number, place })
    }

    fn survey(readings: u64, fault: Option<Refusal>) -> Survey {
        Survey { readings, fault }
    }

    /// What was kept, the fresh column and the given one's fault.
    fn kept<T: Clone>(readings: &[T], column: &[u8], fault: Option<Refusal>) -> Result<Salvaged<T>, Refusal> {
        Ok(Salvaged {
            readings: readings.to_vec(),
            column: column.to_vec(),
            fault,
        })
    }

    /// A list, as `decode` gives it.
    fn whole<T>(readings: impl Iterator<Item = Result<T, Refusal>>) -> Result<Vec<T>, Refusal> {
        readings.collect()
    }

    #[test]
    fn numbers() {
        assert_eq!(leb128::leb128_u64(&[0x80, 0x01], 0), Ok((128, 2)));
        assert_eq!(leb128::leb128_u64(&[0x80, 0x00], 0), refused(3, 0));
        assert_eq!(leb128::leb128_u64(&[], 0), refused(21, 0));
        assert_eq!(leb128::leb128_u64(&[0x05, 0x80], 1), refused(1, 1));
        assert_eq!(leb128::leb128_i64(&[0x07, 0x40], 1), Ok((-64, 2)));
        assert_eq!(leb128::leb128_u32(&[0x80, 0x80, 0x80, 0x80, 0x10], 0), refused(2, 0));
        assert_eq!(leb128::nonzero_leb128_u64(&[0x05, 0x00], 1), refused(4, 1));
        assert_eq!((leb128::len_u64(128), leb128::len_i64(i64::MIN)), (2, 10));
        let mut out = [0xee; 4];
        assert_eq!(leb128::put_u64(128, &mut out, 1), Ok(3));
        assert_eq!(leb128::put_i64(64, &mut out, 3), refused(10, 0));
        assert_eq!(leb128::write_i64(-1, &mut out), Ok(1));
        assert_eq!(leb128::write_u64(u64::MAX, &mut out), refused(10, 0));
        assert_eq!(out, [0x7f, 0x80, 0x01, 0xee]);
    }

    #[test]
    fn specifications() {
        let spec = ColumnSpec::new(16, ColumnType::DeltaInteger, false).unwrap();
        assert_eq!(
            (spec.0, spec.id(), spec.col_type(), spec.deflate()),
            (0x103, 16, ColumnType::DeltaInteger, false)
        );
        assert_eq!(ColumnSpec(0x11a).normalize(), 0x112);
        assert_eq!(ColumnSpec::new(1 << 28, ColumnType::Value, true), refused(19, 0));
    }

    #[test]
    fn columns() {
        assert_eq!(
            rle::decode(&[0x00, 0x02, 0x03, 0x05], MOST),
            Ok(vec![None, None, Some(5), Some(5), Some(5)])
        );
        assert_eq!(rle::decode(&[0x7d, 0x01, 0x02], MOST), refused(21, 3));
        assert_eq!(rle::decode(&[0x7d, 0x01, 0x82], MOST), refused(1, 2));
        assert_eq!(rle::count(&[0x02]), refused(21, 1));
        assert_eq!(rle::encode(&[Some(1), Some(2), Some(2)]), Ok(vec![0x7f, 0x01, 0x02, 0x02]));
        assert_eq!(rle::encode(&[None, None]), Ok(vec![]));
        assert_eq!(
            delta::decode(&[0x7f, 0x05, 0x00, 0x01, 0x7f, 0x01], MOST),
            Ok(vec![Some(5), None, Some(6)])
        );
        assert_eq!(delta::encode(&[Some(80); 3]), Ok(vec![0x7f, 0xd0, 0x00, 0x02, 0x00]));
        assert_eq!(delta::encoded_len(&[Some(i64::MAX), Some(-2)]), refused(7, 1));
        assert_eq!(boolean::decode(&[0x00, 0x01, 0x02], MOST), Ok(vec![true, false, false]));
        assert_eq!(boolean::encode(&[false, false]), Ok(vec![0x02]));
        assert_eq!(boolean::maybe_encode(&[false, false]), Ok(vec![]));
        assert_eq!(boolean::encode(&[]), Ok(vec![]));
    }

    #[test]
    fn names() {
        let list = [None, Some("é"), Some("é"), Some("ab"), Some(""), Some("b")];
        let owned: Vec<Option<String>> = list.iter().map(|name| name.map(str::to_owned)).collect();
        assert_eq!((text::count(&NAMES), text::decode(&NAMES, MOST)), (Ok(6), Ok(owned)));
        assert_eq!(text::names(&NAMES, MOST), Ok(list.to_vec()));
        assert_eq!((text::encoded_len(&list), text::encode(&list)), (Ok(13), Ok(NAMES.to_vec())));
        assert_eq!(text::decode(&NAMES, 5), refused(9, 0));
        assert_eq!(text::count(&[0x7f, 0x02, 0xff]), refused(1, 1));
        assert_eq!(text::decode(&[0x7e, 0x01, 0xff, 0x01], MOST), refused(20, 1));
        assert_eq!(text::decode(&[0x02], MOST), refused(21, 1));
        assert_eq!(text::decode(&[0x7f, 0x00], MOST), Ok(vec![Some(String::new())]));
        assert_eq!(text::decode(&[], MOST), Ok(vec![]));
        assert_eq!((text::encode(&[None, None]), text::encode(&[])), (Ok(vec![]), Ok(vec![])));
        assert_eq!(text::encode(&[None, Some("")]), Ok(vec![0x00, 0x01, 0x7f, 0x00]));
        assert_eq!(
            text::encode(&[Some("a"), None, Some("a")]),
            Ok(vec![0x7f, 0x01, 0x61, 0x00, 0x01, 0x7f, 0x01, 0x61])
        );
    }

    #[test]
    fn edits_of_names() {
        let mut signs = block(&SIGNS);
        assert_eq!(
            signs.splice_text(0, 1, 2, &[Some("déjà"), None], MOST),
            Ok(vec![Some(2..4), Some(5..11), None, Some(15..16)])
        );
        assert_eq!(
            text::names(signs.column(0).unwrap(), MOST),
            Ok(vec![Some("ab"), Some("déjà"), None, Some("c")])
        );
        let rows = signs.rows();
        assert_eq!((rows[0].len, rows[1].start, signs.bytes().last()), (16, 16, Some(&0x02)));
        let mut same = block(&SIGNS);
        assert_eq!(
            same.splice_text(0, 3, 3, &[Some("c"), Some("c")], MOST),
            Ok(vec![Some(2..4), Some(2..4), Some(6..7), Some(6..7), Some(6..7)])
        );
        assert_eq!(
            same.bytes(),
            [0x02, 0x15, 0x07, 0x24, 0x01, 0x02, 0x02, 0x61, 0x62, 0x03, 0x01, 0x63, 0x02]
        );
        let mut absent = block(&SIGNS);
        assert_eq!(absent.splice_text_to_end(0, 0, &[None, None], MOST), Ok(vec![None, None]));
        assert_eq!(absent.bytes(), [0x02, 0x15, 0x00, 0x24, 0x01, 0x02]);
        assert_eq!(absent.count(0), Ok(0));
        let mut emptied = block(&SIGNS);
        assert_eq!(emptied.splice_text_to_end(0, 1, &[], MOST), Ok(vec![Some(2..4)]));
        assert_eq!(emptied.rows()[0].len, 4);
        let mut whole = block(&SIGNS);
        assert_eq!(whole.splice_text(0, 0, 4, &[], MOST), refused(18, 0));
        assert_eq!(whole.splice_text(1, 0, 1, &[], MOST), refused(17, 0));
        assert_eq!(whole.splice_text(0, 0, 0, &[None; 6], MOST), refused(9, 0));
        assert_eq!(whole, block(&SIGNS));
        assert_eq!(whole.splice_text(0, 0, 0, &[None; 5], MOST).map(|list| list.len()), Ok(8));
        assert_eq!(
            block(&[0x01, 0x15, 0x02, 0x7f, 0x01]).splice_text_to_end(0, 0, &[], MOST),
            refused(1, 1)
        );
    }

    #[test]
    fn readings() {
        let mut optional = rle::readings(&[0x00, 0x01, 0x02, 0x05]);
        assert_eq!(whole(optional.by_ref()), Ok(vec![None, Some(5), Some(5)]));
        assert_eq!((optional.next(), optional.read(), optional.read()), (None, None, None));
        assert_eq!(rle::readings(&[]).next(), None);
        let depths = delta::readings(&[0x7f, 0x05, 0x00, 0x01, 0x7f, 0x01]);
        assert_eq!(whole(depths), Ok(vec![Some(5), None, Some(6)]));
        assert_eq!(whole(boolean::readings(&[0x00, 0x01, 0x02])), Ok(vec![true, false, false]));
        assert_eq!(whole(rle::readings(&[0x7d, 0x01, 0x02])), refused(21, 3));
    }

    /// The boundary hands out pieces; the iterator counts their readings down.
    #[test]
    fn readings_of_long_runs() {
        let mut falling = delta::readings(&[0x03, 0x7e, 0x00, 0x02, 0x7f, 0x01]);
        assert_eq!((falling.next(), falling.read()), (Some(Ok(Some(-2))), Some(Ok(Some(-4)))));
        let inside = falling.clone();
        assert_eq!(whole(falling), Ok(vec![Some(-6), None, None, Some(-5)]));
        assert_eq!(whole(inside), Ok(vec![Some(-6), None, None, Some(-5)]));
        let rising = delta::readings(&[0x05, 0x80, 0x80, 0x80, 0x80, 0x80, 0x80, 0x80, 0x80, 0x20]);
        let sums = [Ok(Some(1 << 61)), Ok(Some(2 << 61)), Ok(Some(3 << 61)), refused(6, 1)];
        assert_eq!(rising.collect::<Vec<_>>(), sums);
        assert_eq!(rle::readings(&FIVES).skip(1_000_000).next(), Some(Ok(Some(5))));
        assert_eq!(
            whole(boolean::readings(&[0x02, 0x03, 0x01])),
            Ok(vec![false, false, true, true, true, false])
        );
        let mut cut = boolean::readings(&[0x02, 0x80]);
        assert_eq!(
            (cut.next(), cut.next(), cut.next(), cut.next()),
            (Some(Ok(false)), Some(Ok(false)), Some(refused(1, 1)), None)
        );
        assert_eq!(cut.read(), Some(refused(1, 1)));
    }

    #[test]
    fn readings_of_a_cut_column() {
        let cut = rle::readings(&[0x7d, 0x01, 0x02]);
        assert_eq!(cut.clone().collect::<Vec<_>>(), [Ok(Some(1)), Ok(Some(2)), refused(21, 3)]);
        let mut iterated = cut.clone().skip(3);
        assert_eq!((iterated.next(), iterated.next()), (None, None));
        let mut asked = cut.clone();
        assert_eq!((asked.read(), asked.read()), (Some(Ok(Some(1))), Some(Ok(Some(2)))));
        for _ in 0..3 {
            assert_eq!(asked.read(), Some(refused(21, 3)));
        }
        assert_eq!((asked.next(), asked.next()), (Some(refused(21, 3)), None));
        assert_eq!(asked.read(), Some(refused(21, 3)));
        assert_eq!(
            delta::readings(&[0x02, 0x80, 0x80, 0x80, 0x80, 0x80, 0x80, 0x80, 0x80, 0xc0, 0x00]).collect::<Vec<_>>(),
            [Ok(Some(1 << 62)), refused(6, 1)]
        );
        assert_eq!(boolean::readings(&[0x01, 0x80]).collect::<Vec<_>>(), [Ok(false), refused(1, 1)]);
    }

    #[test]
    fn more_than_the_caller_will_hold() {
        assert_eq!((rle::count(&FIVES), boolean::count(&FLAGS)), (Ok(4_294_967_295), Ok(4_294_967_295)));
        assert_eq!(rle::decode(&FIVES, MOST), refused(9, 0));
        assert_eq!(rle::decode(&[0x08, 0x05], 8), Ok(vec![Some(5); 8]));
        assert_eq!(rle::decode(&[0x08, 0x05], 7), refused(9, 0));
        assert_eq!(rle::decode(&[0x09, 0x05, 0x02], MOST), refused(21, 3));
        assert_eq!(delta::decode(&GAP, MOST), refused(9, 0));
        assert_eq!(boolean::decode(&FLAGS, MOST), refused(9, 0));
        assert_eq!(
            (text::count(&EMPTY), text::decode(&EMPTY, MOST)),
            (Ok(4_294_967_295), refused(9, 0))
        );
        assert_eq!(rle::readings(&FIVES).take(1_000).filter(|r| *r == Ok(Some(5))).count(), 1_000);
        assert_eq!(delta::readings(&GAP).take(1_000).filter(|r| *r == Ok(None)).count(), 1_000);
        let integers = [&[0x01, 0x12, 0x06][..], &FIVES].concat();
        assert_eq!(block(&integers).splice_integer(0, 0, 1, &[], MOST), refused(9, 0));
        assert_eq!(block(&integers).splice_integer(0, 1, 0, &[], MOST), refused(18, 0));
        assert_eq!(block(&integers).splice_integer_to_end(0, 0, &[], MOST), refused(9, 0));
        assert_eq!(block(&DEPTHS).splice_delta(0, 0, 0, &[None; 5], MOST).map(|list| list.len()), Ok(8));
        assert_eq!(block(&DEPTHS).splice_delta(0, 0, 0, &[None; 6], MOST), refused(9, 0));
        let flags = [&[0x01, 0x14, 0x05][..], &FLAGS].concat();
        assert_eq!(block(&flags).splice_boolean(0, 0, 1, &[], MOST), refused(9, 0));
    }

    #[test]
    fn surveys() {
        assert_eq!(rle::survey(&[0x7e, 0x05]), survey(1, fault(21, 2)));
        assert_eq!(rle::survey(&[0x00, 0x02, 0x7f]), survey(2, fault(21, 3)));
        assert_eq!(rle::survey(&[0x02, 0x05, 0x02, 0x80]), survey(2, fault(1, 3)));
        assert_eq!(
            (rle::survey(&FIVES), rle::survey(&[])),
            (survey(4_294_967_295, None), survey(0, None))
        );
        assert_eq!(delta::survey(&[0x7f, 0x05, 0x02]), survey(1, fault(21, 3)));
        assert_eq!(delta::survey(&GAP), survey(4_294_967_295, None));
        assert_eq!(boolean::survey(&[0x01, 0x80]), survey(1, fault(1, 1)));
        assert_eq!(boolean::survey(&FLAGS), survey(4_294_967_295, None));
        assert_eq!(text::survey(&[0x7e, 0x01, 0x61, 0x01, 0xff]), survey(1, fault(20, 3)));
        assert_eq!(
            (text::survey(&NAMES), text::survey(&EMPTY)),
            (survey(6, None), survey(4_294_967_295, None))
        );
        // A cut between two runs is no fault.
        assert_eq!(
            (rle::survey(&[0x02, 0x05, 0x7f, 0x07]), rle::survey(&[0x02, 0x05])),
            (survey(3, None), survey(2, None))
        );
    }

    #[test]
    fn logs() {
        let eighty = [0x7f, 0xd0, 0x00, 0x02, 0x00];
        let mut entries = vec![1, 0, 0, 0, 0, 79, 0, 0, 0, 0, 0, 0, 0, 3, 1, 0, 0, 0];
        assert_eq!(log::entry(&entries, 0), Ok((Entry::Insert(0, 79), 13)));
        assert_eq!(log::entry(&entries, 13), Ok((Entry::Remove(1), 18)));
        assert_eq!(log::entry(&entries, 18), refused(23, 18));
        let readings = vec![Some(79), Some(80), Some(80)];
        let column = vec![0x7d, 0xcf, 0x00, 0x01, 0x00];
        assert_eq!(log::replay(&eighty, &entries, MOST), Ok(Replayed { readings, column }));
        assert_eq!(log::replay(&eighty, &entries, 3), refused(9, 0));
        entries.extend([4, 3, 0, 0, 0, 1, 0, 0, 0, 0, 0, 0, 0]);
        assert_eq!(log::replay(&eighty, &entries, MOST), refused(23, 18));
        assert_eq!(log::replay(&[0x02], &entries, MOST), refused(21, 1));
    }

    #[test]
    fn salvages() {
        assert_eq!(
            rle::salvage(&[0x00, 0x01, 0x7d, 0x05, 0x05, 0x80], MOST),
            kept(&[None, Some(5), Some(5)], &[0x00, 0x01, 0x02, 0x05], fault(1, 5))
        );
        assert_eq!(rle::salvage(&[0x7e, 0x05], 1), kept(&[Some(5)], &[0x7f, 0x05], fault(21, 2)));
        assert_eq!(rle::salvage(&[0x00, 0x01], MOST), kept(&[None], &[], None));
        assert_eq!(rle::salvage(&[0x02], 0), kept(&[], &[], fault(21, 1)));
        assert_eq!(rle::salvage(&[], 0), kept(&[], &[], None));
        assert_eq!(
            delta::salvage(&[0x7f, 0x05, 0x00, 0x01, 0x7e, 0x01], MOST),
            kept(&[Some(5), None, Some(6)], &[0x7f, 0x05, 0x00, 0x01, 0x7f, 0x01], fault(21, 6))
        );
        let sums = [0x02, 0x80, 0x80, 0x80, 0x80, 0x80, 0x80, 0x80, 0x80, 0xc0, 0x00];
        let first = [&[0x7f][..], &sums[1..]].concat();
        assert_eq!(delta::salvage(&sums, MOST), kept(&[Some(1 << 62)], &first, fault(6, 1)));
        assert_eq!(boolean::salvage(&[0x01], MOST), kept(&[false], &[0x01], None));
        assert_eq!(
            boolean::salvage(&[0x00, 0x01, 0x02, 0x82], MOST),
            kept(&[true, false, false], &[0x00, 0x01, 0x02], fault(1, 3))
        );
        // A sound column is encoded anew; one that takes more bytes than it had.
        assert_eq!(boolean::salvage(&[0x02, 0x00, 0x03], MOST), kept(&[false; 5], &[0x05], None));
        assert_eq!(
            rle::salvage(&[0x7a, 0x01, 0x02, 0x02, 0x03, 0x03, 0x04], MOST),
            kept(
                &[Some(1), Some(2), Some(2), Some(3), Some(3), Some(4)],
                &[0x7f, 0x01, 0x02, 0x02, 0x02, 0x03, 0x7f, 0x04],
                None
            )
        );
    }

    #[test]
    fn salvages_of_names() {
        let names = [None, Some("é"), Some("é"), Some("ab"), Some("")];
        let fresh = [0x00, 0x01, 0x02, 0x02, 0xc3, 0xa9, 0x7e, 0x02, 0x61, 0x62, 0x00];
        assert_eq!(text::salvage_names(&NAMES[..12], MOST), kept(&names, &fresh, fault(1, 11)));
        assert_eq!(
            text::salvage(&NAMES[..12], 5),
            kept(&names.map(|name| name.map(str::to_owned)), &fresh, fault(1, 11))
        );
        assert_eq!(text::salvage(&NAMES[..12], 4), refused(9, 0));
        assert_eq!(text::salvage(&NAMES, MOST).map(|r| (r.column, r.fault)), Ok((NAMES.to_vec(), None)));
        assert_eq!(
            text::salvage(&[0x00, 0x02, 0x7f, 0x01], MOST),
            kept(&[None, None], &[], fault(1, 3))
        );
        let given = [0x7c, 0x01, 0x61, 0x01, 0x62, 0x01, 0x62, 0x01, 0xff];
        let kept = text::salvage_names(&given, MOST).unwrap();
        assert_eq!(
            (kept.fault, kept.readings[2].unwrap().as_ptr()),
            (fault(20, 7), given[6..].as_ptr())
        );
        assert_eq!(text::names(&kept.column, MOST), Ok(kept.readings));
    }

    #[test]
    fn salvages_of_more_than_the_caller_will_hold() {
        assert_eq!(rle::salvage(&FIVES, MOST), refused(9, 0));
        assert_eq!(
            rle::salvage(&[0x08, 0x05, 0x02], 8),
            kept(&[Some(5); 8], &[0x08, 0x05], fault(21, 3))
        );
        assert_eq!(rle::salvage(&[0x08, 0x05, 0x02], 7), refused(9, 0));
        // What the counts announce behind the fault is not held: two billion, of which one value is there.
        assert_eq!(
            rle::salvage(&[0x80, 0x80, 0x80, 0x80, 0x78, 0x05], 1),
            kept(&[Some(5)], &[0x7f, 0x05], fault(21, 6))
        );
        assert_eq!(delta::salvage(&GAP, MOST), refused(9, 0));
        assert_eq!(boolean::salvage(&FLAGS, MOST), refused(9, 0));
        assert_eq!(text::salvage(&EMPTY, MOST), refused(9, 0));
    }

    #[test]
    fn tables() {
        let row = |spec, start, len| Row {
            spec: ColumnSpec(spec),
            start,
            len,
        };
        assert_eq!(raw_column::read_table(&TWO), Ok((vec![row(0x12, 0, 2), row(0x13, 2, 2)], 5)));
        assert_eq!(raw_column::read_table(&[0x41]), refused(11, 0));
        assert_eq!(raw_column::column(&TWO, 1), Ok(&TWO[7..9]));
        assert_eq!(raw_column::column(&TWO, 2), refused(16, 0));
        assert_eq!(raw_column::bytes(&TWO, ColumnSpec(0x12)), Ok(&TWO[5..7]));
        assert_eq!(raw_column::bytes(&TWO, ColumnSpec(0x14)), Ok(&TWO[..0]));
        assert_eq!(
            corrections::bytes(&[0x01, 0x13, 0x00], &TWO, ColumnSpec(0x13)),
            Ok(Some((Layer::Corrections, &TWO[..0])))
        );
        assert_eq!(
            corrections::bytes(&[0x00], &TWO, ColumnSpec(0x13)),
            Ok(Some((Layer::First, &TWO[7..9])))
        );
        assert_eq!(corrections::bytes(&[0x00], &TWO, ColumnSpec(0x14)), Ok(None));
        assert_eq!(
            corrections::bytes(&[0x01, 0x13, 0x00], &[0x41], ColumnSpec(0x13)),
            Err((Layer::First, Refusal { number: 11, place: 0 }))
        );
        let mut out = [0xee; 10];
        assert_eq!(raw_column::put_frame(&TWO, 0, 3, &mut out), Ok(Frame { at: 5, len: 10 }));
        assert_eq!(out, [0x02, 0x12, 0x03, 0x13, 0x02, 0xee, 0xee, 0xee, 0x7f, 0x05]);
    }

    #[test]
    fn edits() {
        let mut depths = block(&DEPTHS);
        assert_eq!(
            depths.splice_delta(0, 1, 2, &[Some(81)], MOST),
            Ok(vec![Some(80), Some(81), Some(80)])
        );
        assert_eq!(depths.bytes(), [0x01, 0x13, 0x05, 0x7d, 0xd0, 0x00, 0x01, 0x7f]);
        let before = depths.clone();
        assert_eq!(depths.splice_delta(0, 1, 2, &[Some(i64::MAX), Some(-2)], MOST), refused(7, 2));
        assert_eq!(depths.splice_integer(0, 0, 1, &[], MOST), refused(17, 0));
        assert_eq!(depths.splice_delta(1, 0, 1, &[], MOST), refused(16, 0));
        assert_eq!(depths, before);
        assert_eq!(depths.splice_delta_to_end(0, 1, &[Some(82)], MOST), Ok(vec![Some(80), Some(82)]));
        let mut two = block(&TWO);
        assert_eq!(two.splice_integer(0, 3, 4, &[], MOST), refused(18, 0));
        assert_eq!(two.splice_integer(0, 0, usize::MAX, &[], MOST), refused(18, 0));
        assert_eq!(two.splice_integer_to_end(0, 0, &[], MOST), Ok(vec![]));
        assert_eq!(two.bytes(), [0x02, 0x12, 0x00, 0x13, 0x02, 0x7f, 0x05]);
        let mut flags = block(&[0x01, 0x14, 0x03, 0x00, 0x01, 0x02]);
        assert_eq!(flags.splice_boolean_to_end(0, 4, &[], MOST), refused(18, 0));
        assert_eq!(flags.splice_boolean(0, 0, 1, &[false], MOST), Ok(vec![false; 3]));
        assert_eq!(flags.bytes(), [0x01, 0x14, 0x01, 0x03]);
    }

    #[test]
    fn stored_counts() {
        assert_eq!(Block::open(&[0x41]), refused(11, 0));
        let mut two = block(&TWO);
        assert_eq!(
            (two.rows(), two.column(1)),
            (raw_column::read_table(&TWO).unwrap().0, Ok(&TWO[7..9]))
        );
        assert_eq!(two.column(2), refused(16, 0));
        assert_eq!(two.count(2), refused(16, 0));
        assert_eq!(two, block(&TWO));
        assert_eq!((two.count(0), two.count(1), two.count(0)), (Ok(2), Ok(1), Ok(2)));
        assert_eq!(two.splice_integer(0, 2, 2, &[Some(7), None], MOST).map(|list| list.len()), Ok(4));
        assert_eq!((two.count(0), two.count(1)), (Ok(4), Ok(1)));
        assert_eq!(two.splice_delta(1, 0, 1, &[None, None], MOST), Ok(vec![None, None]));
        assert_eq!((two.count(0), two.count(1)), (Ok(4), Ok(0)));
        let mut cut = block(&[0x02, 0x12, 0x02, 0x17, 0x00, 0x7e, 0x05]);
        assert_eq!((cut.count(0), cut.count(1)), (refused(21, 2), refused(17, 0)));
        assert_eq!(cut, block(&[0x02, 0x12, 0x02, 0x17, 0x00, 0x7e, 0x05]));
    }

    fn run(number: u8, place: usize, run: u64, begins: usize, count: Option<i128>, index: u64, facts: Facts) -> Reason {
        Reason {
            fault: Refusal { number, place },
            about: About::Run { run, begins, count, index },
            facts,
        }
    }

    #[test]
    fn reasons() {
        let sums = [0x02, 0x80, 0x80, 0x80, 0x80, 0x80, 0x80, 0x80, 0x80, 0xc0, 0x00];
        let sum = Facts::Sum {
            sum: 1 << 62,
            delta: 1 << 62,
        };
        let of = reason::of_column;
        assert_eq!(
            of(ColumnType::Integer, &[0x02]),
            Ok(Some(run(21, 1, 0, 0, Some(2), 0, Facts::Bytes(0))))
        );
        assert_eq!(
            of(ColumnType::Actor, &[0x00, 0x00, 0x80]),
            Ok(Some(run(1, 2, 1, 2, None, 0, Facts::Bytes(1))))
        );
        assert_eq!(of(ColumnType::DeltaInteger, &sums), Ok(Some(run(6, 1, 0, 0, Some(2), 1, sum))));
        let name = Facts::Name { length: 2, there: 1 };
        assert_eq!(
            of(ColumnType::String, &[0x7f, 0x02, 0x61]),
            Ok(Some(run(1, 1, 0, 0, Some(-1), 0, name)))
        );
        assert_eq!(of(ColumnType::Boolean, &[0x01]), Ok(None));
        assert_eq!(of(ColumnType::Group, &[0x02]), Err(Refusal { number: 17, place: 0 }));
        let cut = reason::of_table(&DEPTHS[..7]).unwrap();
        assert_eq!(
            cut,
            Reason {
                fault: Refusal { number: 14, place: 0 },
                about: About::Table,
                facts: Facts::Lengths { total: 5, data: 4 }
            }
        );
        assert_eq!(
            cut.to_string(),
            "refusal 14 at 0: the table: its lengths add up to 5 bytes, and there are 4"
        );
        assert_eq!(reason::of_table(&DEPTHS), None);
        assert_eq!(reason::of_block(&DEPTHS, 0), Ok(None));
        assert_eq!(reason::of_block(&DEPTHS, 1), Err(Refusal { number: 16, place: 0 }));
        assert_eq!(reason::of_block(&DEPTHS[..7], 0), Ok(Some(cut)));
        let twelve = of(ColumnType::Integer, &[0x7e, 0x05]).unwrap().unwrap();
        assert_eq!(
            twelve.to_string(),
            "refusal 21 at 2: run 0, which begins at byte 0 with the count -2, at reading 1: the bytes end where a number is due"
        );
    }

    /// The boundary itself, lent tables that no `Block` has.
    #[test]
    fn lent_tables() {
        let empty = [0x01, 0x12, 0x00];
        let mut table = raw_call!(grundavok_open_table, [empty], (), [], []).table;
        (table.counts[0], table.known[0]) = (1, 1);
        let told = raw_call!(grundavok_count, [empty], (table, 0), [], []);
        assert_eq!((told.number, told.count, told.table), (0, 1, table));
        table.table.lens[0] = 1;
        let other = raw_call!(grundavok_count, [empty], (table, 1), [], []);
        assert_eq!((other.number, other.place, other.count, other.table), (25, 0, 0, table));
    }

    #[test]
    fn forms() {
        let of = form::of_column;
        assert_eq!(of(ColumnType::Integer, &[0x02, 0x05]), Ok(Form::Ours));
        assert_eq!(of(ColumnType::Actor, &[]), Ok(Form::Ours));
        assert_eq!(of(ColumnType::Integer, &[0xff, 0xff, 0xff, 0xff, 0x0f, 0x05]), Ok(Form::Ours));
        assert_eq!(of(ColumnType::Integer, &[0x02, 0x05, 0x01, 0x06]), Ok(Form::Differs(2)));
        assert_eq!(of(ColumnType::Integer, &[0x00, 0x03]), Ok(Form::Differs(0)));
        assert_eq!(of(ColumnType::DeltaInteger, &[0x7e, 0x01, 0x01]), Ok(Form::Differs(0)));
        assert_eq!(of(ColumnType::Boolean, &[0x01]), Ok(Form::Ours));
        assert_eq!(of(ColumnType::Boolean, &[0x05, 0x03, 0x00]), Ok(Form::Differs(2)));
        assert_eq!(of(ColumnType::String, &[0x02, 0x02, b'A', b'N']), Ok(Form::Ours));
        assert_eq!(of(ColumnType::Integer, &[0x01, 0x80]), refused(1, 1));
        assert_eq!(of(ColumnType::Group, &[0x02]), refused(17, 0));
        let list = [Some(7), Some(7), None, Some(-1)];
        let column = delta::encode(&list).unwrap();
        assert_eq!(of(ColumnType::DeltaInteger, &column), Ok(Form::Ours));
        assert_eq!(Form::Differs(2).to_string(), "not in our form, from byte 2 on");
    }
}
