//! Fields: one tag byte, a two-byte length with the high byte first, then the value.

/// One field, its value still lying in the bytes it was read from.
#[derive(Clone, Copy, Debug, PartialEq, Eq)]
pub struct Field<'a> {
    pub tag: u8,
    pub value: &'a [u8],
}

/// Remembers the bytes and its place in them.
pub struct Reader<'a> {
    bytes: &'a [u8],
    place: usize,
}

impl<'a> Reader<'a> {
    pub fn new(bytes: &'a [u8]) -> Self {
        Reader { bytes, place: 0 }
    }

    pub fn at_end(&self) -> bool {
        self.place == self.bytes.len()
    }

    /// The next field, or nothing where the head or the value is cut short.
    pub fn next_field(&mut self) -> Option<Field<'a>> {
        let rest = &self.bytes[self.place..];
        let head = rest.get(..3)?;
        let length = usize::from(head[1]) * 256 + usize::from(head[2]);
        let value = rest.get(3..3 + length)?;
        self.place += 3 + length;
        Some(Field {
            tag: head[0],
            value,
        })
    }
}

/// Writes one field behind what is already there. The value must be shorter than 65,536 bytes.
pub fn put_field(out: &mut Vec<u8>, tag: u8, value: &[u8]) {
    let length = u16::try_from(value.len()).expect("a field's value fits its two-byte length");
    out.push(tag);
    out.extend_from_slice(&length.to_be_bytes());
    out.extend_from_slice(value);
}
