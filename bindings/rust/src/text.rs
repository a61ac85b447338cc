//! Columns of optional names, UTF-8 text: String columns.

use std::ops::Range;

use crate::salvage::Salvaged;
use crate::{judged, lists, raw_call, Refusal};

/// A list of names as the boundary has it: a start, a length and a presence byte for each.
pub(crate) struct Slots {
    pub starts: Vec<u64>,
    pub lens: Vec<u64>,
    pub present: Vec<u8>,
}

impl Slots {
    pub fn new(n: usize) -> Slots {
        Slots {
            starts: vec![0; n],
            lens: vec![0; n],
            present: vec![0; n],
        }
    }

    /// Where each name stands.
    pub fn places(&self) -> impl Iterator<Item = Option<Range<usize>>> + '_ {
        let pairs = self.starts.iter().zip(&self.lens).zip(&self.present);
        pairs.map(|((&start, &len), &flag)| (flag != 0).then(|| lists::length(start)..lists::length(start + len)))
    }
}

/// Names that are given: their bytes one behind another, and where each stands in them. A name that equals the one before it stands there once, so
/// that a name which repeats takes no more than in the column.
pub(crate) struct Given {
    pub bytes: Vec<u8>,
    pub slots: Slots,
}

impl Given {
    pub fn new(list: &[Option<&str>]) -> Given {
        let (mut bytes, mut slots) = (Vec::new(), Slots::new(0));
        let mut last = "";
        for name in list {
            let text = name.unwrap_or(last);
            if text != last {
                bytes.extend_from_slice(text.as_bytes());
                last = text;
            }
            slots.starts.push((bytes.len() - last.len()) as u64);
            slots.lens.push(last.len() as u64);
            slots.present.push(u8::from(name.is_some()));
        }
        Given { bytes, slots }
    }

    fn size(&self) -> Result<usize, Refusal> {
        let Given { bytes, slots } = self;
        let r = raw_call!(
            grundavok_text_encoded_len,
            [bytes, slots.starts, slots.lens, slots.present],
            (),
            [],
            []
        );
        judged(r.number, r.place, lists::length(r.count))
    }
}

/// The names at their places in the bytes. One that repeats has the same place each time and is looked at once, so that this costs what the bytes cost.
pub(crate) fn named(bytes: &[u8], places: impl Iterator<Item = Option<Range<usize>>>) -> Vec<Option<&str>> {
    let mut last = (0..0, "");
    let mut name = |place: Range<usize>| {
        if place != last.0 {
            let text = std::str::from_utf8(&bytes[place.clone()]).expect("what the boundary finds is UTF-8");
            last = (place, text);
        }
        last.1
    };
    places.map(|place| place.map(&mut name)).collect()
}

/// How many names a column has, the absent ones too, or its first fault: 1, 2, 3, 21, 5 or 20. It costs what the bytes cost.
pub fn count(s: &[u8]) -> Result<usize, Refusal> {
    let r = raw_call!(grundavok_text_count, [s], (), [], []);
    judged(r.number, r.place, lists::length(r.count))
}

/// The column's names, of which the caller will hold `most`. Refusals: those of `count`; 9 where there are more. A name that repeats is copied each time,
/// so that a short column can ask for much memory: of a column that nobody vouches for take `names`.
pub fn decode(s: &[u8], most: usize) -> Result<Vec<Option<String>>, Refusal> {
    names(s, most).map(owned)
}

/// The same as parts of the column, which takes no more memory for a long name than for a short one.
pub fn names(s: &[u8], most: usize) -> Result<Vec<Option<&str>>, Refusal> {
    let mut slots = Slots::new(count(s)?.min(most));
    let r = raw_call!(grundavok_text_decode, [s], (), [], [slots.starts, slots.lens, slots.present]);
    judged(r.number, r.place, named(s, slots.places()))
}

fn owned(names: Vec<Option<&str>>) -> Vec<Option<String>> {
    names.into_iter().map(|name| name.map(str::to_owned)).collect()
}

crate::salvage::salvage!(
    ///
    /// The names are parts of the given column, as those of `names` are.
    salvage_names,
    Option<&str>,
    grundavok_text_survey,
    grundavok_text_salvage,
    String,
    [starts, lens, present],
    |s, starts, lens, present| named(s, Slots { starts, lens, present }.places())
);

/// `salvage_names` with names of their own. One that repeats is copied each time, as in `decode`: of a column that nobody vouches for take the parts.
pub fn salvage(s: &[u8], most: usize) -> Result<Salvaged<Option<String>>, Refusal> {
    let Salvaged { readings, column, fault } = salvage_names(s, most)?;
    Ok(Salvaged {
        readings: owned(readings),
        column,
        fault,
    })
}

/// How many bytes the list takes as a column. Refusal: 5.
pub fn encoded_len(list: &[Option<&str>]) -> Result<usize, Refusal> {
    Given::new(list).size()
}

/// The list as a column. Refusal: 5.
pub fn encode(list: &[Option<&str>]) -> Result<Vec<u8>, Refusal> {
    let given = Given::new(list);
    let mut out = vec![0; given.size()?];
    let Given { bytes, slots } = &given;
    let r = raw_call!(
        grundavok_text_encode,
        [bytes, slots.starts, slots.lens, slots.present],
        (),
        [],
        [out]
    );
    judged(r.number, r.place, out)
}
