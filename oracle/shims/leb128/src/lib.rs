//! Behaviour of ours: the writers of the crate `leb128`, from the LEB128 rule. `tests/self_check.rs` holds them to
//! automerge's own strict readers, by which each number has one accepted encoding.

pub mod write {
    use std::io::{Result, Write};

    pub fn unsigned<W: ?Sized + Write>(out: &mut W, value: u64) -> Result<usize> {
        let mut rest = value;
        let mut written = 0;
        loop {
            let group = (rest & 0x7f) as u8;
            rest >>= 7;
            written += 1;
            if rest == 0 {
                out.write_all(&[group])?;
                return Ok(written);
            }
            out.write_all(&[group | 0x80])?;
        }
    }

    pub fn signed<W: ?Sized + Write>(out: &mut W, value: i64) -> Result<usize> {
        let mut rest = value;
        let mut written = 0;
        loop {
            let group = (rest & 0x7f) as u8;
            rest >>= 7;
            written += 1;
            // what is left is the sign that the group's bit 6 already says
            if (rest == 0 && group & 0x40 == 0) || (rest == -1 && group & 0x40 != 0) {
                out.write_all(&[group])?;
                return Ok(written);
            }
            out.write_all(&[group | 0x80])?;
        }
    }
}
