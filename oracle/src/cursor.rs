//! A place in bytes that is moved forward, never past its end.

use crate::answer::{VERSION, WRONG_LENGTH, WRONG_NUMBER};

/// What reading gives: the thing read, or the number of the refusal.
pub type Read<T> = Result<T, u8>;

pub struct Cursor<'a> {
    bytes: &'a [u8],
}

impl<'a> Cursor<'a> {
    pub fn new(bytes: &'a [u8]) -> Self {
        Cursor { bytes }
    }

    /// The body of a question's or a tree's message.
    pub fn body(message: &'a [u8]) -> Read<Self> {
        Cursor::body_of(VERSION, message)
    }

    /// The body of a message: version byte, two-byte length of all that follows.
    pub fn body_of(wanted: u8, message: &'a [u8]) -> Read<Self> {
        let [version, high, low, body @ ..] = message else {
            return Err(WRONG_LENGTH);
        };
        if *version != wanted {
            return Err(WRONG_NUMBER);
        }
        if body.len() != usize::from(u16::from_be_bytes([*high, *low])) {
            return Err(WRONG_LENGTH);
        }
        Ok(Cursor::new(body))
    }

    pub fn is_at_end(&self) -> bool {
        self.bytes.is_empty()
    }

    pub fn take(&mut self, count: usize) -> Read<&'a [u8]> {
        if count > self.bytes.len() {
            return Err(WRONG_LENGTH);
        }
        let (front, rest) = self.bytes.split_at(count);
        self.bytes = rest;
        Ok(front)
    }

    pub fn byte(&mut self) -> Read<u8> {
        Ok(self.take(1)?[0])
    }

    pub fn two(&mut self) -> Read<u16> {
        let bytes = self.take(2)?;
        Ok(u16::from_be_bytes([bytes[0], bytes[1]]))
    }

    pub fn four(&mut self) -> Read<u32> {
        let bytes = self.take(4)?;
        Ok(u32::from_be_bytes([bytes[0], bytes[1], bytes[2], bytes[3]]))
    }

    /// A two-byte length and that many bytes.
    pub fn counted(&mut self) -> Read<&'a [u8]> {
        let length = self.two()?;
        self.take(usize::from(length))
    }

    /// Bytes left over are refused.
    pub fn end(&self) -> Read<()> {
        if self.is_at_end() {
            Ok(())
        } else {
            Err(WRONG_LENGTH)
        }
    }
}

/// Writes a two-byte length and the bytes.
pub fn put_counted(out: &mut Vec<u8>, bytes: &[u8]) {
    let length = u16::try_from(bytes.len()).expect("at most 65,535 bytes");
    out.extend(length.to_be_bytes());
    out.extend(bytes);
}

/// Writes a four-byte length and the bytes.
pub fn put_long(out: &mut Vec<u8>, bytes: &[u8]) {
    out.extend((bytes.len() as u32).to_be_bytes());
    out.extend(bytes);
}
