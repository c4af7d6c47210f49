//! Records and their little-endian fields.

/// "a ticket has at most 32,768 bytes"
pub const LONGEST_TICKET: usize = 32_768;

/// A walk over the records of some bytes.
pub struct Records<'a> {
    rest: &'a [u8],
}

impl<'a> Records<'a> {
    pub fn new(bytes: &'a [u8]) -> Records<'a> {
        Records { rest: bytes }
    }

    /// The kind of the next record, as soon as its six leading bytes are there.
    pub fn kind(&self) -> Option<u16> {
        self.rest.get(..6).map(|head| u16_at(head, 4))
    }

    /// The next record's kind and body; nothing when it is not whole.
    pub fn next(&mut self) -> Option<(u16, &'a [u8])> {
        let (head, rest) = self.rest.split_at_checked(6)?;
        let (body, rest) = rest.split_at_checked(u32_at(head, 0) as usize)?;
        self.rest = rest;
        Some((u16_at(head, 4), body))
    }

    /// How many bytes are left.
    pub fn left(&self) -> usize {
        self.rest.len()
    }

    /// Whether no byte is left.
    pub fn is_empty(&self) -> bool {
        self.rest.is_empty()
    }
}

pub fn u16_at(bytes: &[u8], at: usize) -> u16 {
    u16::from_le_bytes(bytes[at..at + 2].try_into().expect("two bytes"))
}

pub fn u32_at(bytes: &[u8], at: usize) -> u32 {
    u32::from_le_bytes(bytes[at..at + 4].try_into().expect("four bytes"))
}

pub fn i32_at(bytes: &[u8], at: usize) -> i32 {
    u32_at(bytes, at) as i32
}

/// A field of two bytes that counts something.
pub fn index_at(bytes: &[u8], at: usize) -> usize {
    usize::from(u16_at(bytes, at))
}

/// A pair of a column or fact and a number.
pub fn pair(field: &[u8; 6]) -> (usize, i32) {
    (index_at(field, 0), i32_at(field, 2))
}

/// All fields of four bytes.
pub fn words(bytes: &[u8]) -> impl Iterator<Item = u32> + '_ {
    bytes.as_chunks().0.iter().map(|field| u32::from_le_bytes(*field))
}
