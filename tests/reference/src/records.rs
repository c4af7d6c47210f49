//! Records and their little-endian fields.

/// One whole record, and where the next one starts.
pub struct Record<'a> {
    pub kind: u16,
    pub body: &'a [u8],
    pub end: usize,
}

/// "Fields are little-endian": an unsigned field of two bytes.
pub fn u16_at(bytes: &[u8], at: usize) -> u16 {
    u16::from_le_bytes([bytes[at], bytes[at + 1]])
}

/// "Fields are little-endian": an unsigned field of four bytes.
pub fn u32_at(bytes: &[u8], at: usize) -> u32 {
    u32::from_le_bytes([bytes[at], bytes[at + 1], bytes[at + 2], bytes[at + 3]])
}

/// "Fields are little-endian": a signed field of four bytes.
pub fn i32_at(bytes: &[u8], at: usize) -> i128 {
    i128::from(u32_at(bytes, at) as i32)
}

/// The kind, as soon as the "six leading bytes" of a record are there.
pub fn kind_at(bytes: &[u8], start: usize) -> Option<u16> {
    if bytes.len() - start < 6 {
        return None;
    }
    Some(u16_at(bytes, start + 4))
}

/// "A record is a u32 body length, a u16 kind, a body"; nothing when the bytes stop before it is complete.
pub fn record_at(bytes: &[u8], start: usize) -> Option<Record<'_>> {
    let kind = kind_at(bytes, start)?;
    let length = u32_at(bytes, start) as usize;
    let rest = &bytes[start + 6..];
    if rest.len() < length {
        return None;
    }
    Some(Record { kind, body: &rest[..length], end: start + 6 + length })
}

/// "Records are read one after another from the lent bytes": the whole ones at their front.
pub fn whole_records(bytes: &[u8]) -> Vec<Record<'_>> {
    let mut records = Vec::new();
    let mut start = 0;
    while let Some(record) = record_at(bytes, start) {
        start = record.end;
        records.push(record);
    }
    records
}

/// "A record is a u32 body length, a u16 kind, a body": the bytes of one.
pub fn record(kind: u16, body: &[u8]) -> Vec<u8> {
    let mut bytes = (body.len() as u32).to_le_bytes().to_vec();
    bytes.extend(kind.to_le_bytes());
    bytes.extend(body);
    bytes
}
