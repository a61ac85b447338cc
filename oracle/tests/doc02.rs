//! Document 02's text of String columns, against the crate's RLE over strings.

use oracle::text::{decode, encode, is_utf8, splice, Name};

fn name(text: &str) -> Name {
    Some(text.into())
}

#[test]
fn lists_of_names_read_back() {
    let few = [None, name(""), name("a"), name("\u{e9}")];
    for number in 0..4usize.pow(6) {
        for length in 0..=6 {
            let list: Vec<Name> = (0..length)
                .map(|i| few[number / 4usize.pow(i) % 4].clone())
                .collect();
            let column = encode(&list);
            if list.iter().any(Option::is_some) {
                assert_eq!(decode(&column, 10), Ok(list));
            } else {
                assert_eq!(column, []);
            }
        }
    }
}

#[test]
fn names_are_equal_when_their_bytes_are() {
    let list = [name("a"), name("a"), name(""), name("ab")];
    let column = [2, 1, 0x61, 0x7e, 0, 2, 0x61, 0x62];
    assert_eq!(encode(&list), column);
    let spliced = splice(&column, 1, 3, &[None]).unwrap();
    assert_eq!(decode(&spliced, 10), Ok(vec![name("a"), None, name("ab")]));
}

/// A name cut short is 1, also where no byte of it is there; a length number that is not there 21; other bytes 20.
#[test]
fn names_end_and_are_utf8() {
    for (column, refusal) in [
        (&[0x7f, 1][..], 1),
        (&[0x7f, 2, 0xff], 1),
        (&[0x7e, 1, 0xff, 1], 20),
        (&[0x7f], 21),
        (&[0x7e, 2, 0xc3, 0xa9], 21),
        (&[0x7e, 2, 0xc3, 0xa9, 0x80], 1),
        (&[0x7f, 0x80, 0x00], 3),
        (&[0x7f, 3, 0xed, 0xa0, 0x80], 20),
        (&[0x7f, 4, 0xf4, 0x90, 0x80, 0x80], 20),
    ] {
        assert_eq!(decode(column, 10), Err(refusal), "{column:02x?}");
    }
}

/// RFC 3629's table of which bytes may follow, as document 02 cites it, against Rust's own test.
#[test]
fn utf8_is_the_table_of_rfc_3629() {
    let tail = 0x80..=0xbf;
    for (first, second) in (0..=255u8).flat_map(|a| (0..=255u8).map(move |b| (a, b))) {
        let more = match (first, second) {
            (0xc2..=0xdf, 0x80..=0xbf) => Some(0),
            (0xe0, 0xa0..=0xbf)
            | (0xe1..=0xec | 0xee..=0xef, 0x80..=0xbf)
            | (0xed, 0x80..=0x9f) => Some(1),
            (0xf0, 0x90..=0xbf) | (0xf1..=0xf3, 0x80..=0xbf) | (0xf4, 0x80..=0x8f) => Some(2),
            _ => None,
        };
        for last in 0..=255u8 {
            let is_tail = tail.contains(&last);
            assert_eq!(
                is_utf8(&[first, second, last]),
                match more {
                    Some(0) => last < 0x80,
                    Some(1) => is_tail,
                    Some(_) => false,
                    None => first < 0x80 && is_utf8(&[second, last]),
                }
            );
            let four = [first, second, 0x80, last];
            if more == Some(2) {
                assert_eq!(is_utf8(&four), is_tail);
            }
        }
    }
}
