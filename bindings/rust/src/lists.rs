//! Lists of readings as the slices that the boundary takes, and back.

/// The values, 0 for an absent reading, and the presence bytes.
pub fn apart<T: Copy + Default>(list: &[Option<T>]) -> (Vec<T>, Vec<u8>) {
    let values = list.iter().map(|reading| reading.unwrap_or_default()).collect();
    let present = list.iter().map(|reading| u8::from(reading.is_some())).collect();
    (values, present)
}

/// The readings of equally long slices.
pub fn together<T: Copy>(values: &[T], present: &[u8]) -> Vec<Option<T>> {
    let pairs = values.iter().zip(present);
    pairs.map(|(&value, &flag)| (flag != 0).then_some(value)).collect()
}

pub fn bytes(list: &[bool]) -> Vec<u8> {
    list.iter().map(|&value| u8::from(value)).collect()
}

pub fn booleans(bytes: &[u8]) -> Vec<bool> {
    bytes.iter().map(|&byte| byte != 0).collect()
}

/// A length that a list in memory has.
pub fn length(count: u64) -> usize {
    usize::try_from(count).expect("the boundary is 64-bit")
}
