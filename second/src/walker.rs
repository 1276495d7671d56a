//! Walking over a plan field by field, number by number.

use crate::answer::Refusal;
use std::ops::RangeInclusive;

/// A field that may be due: its tag and the lengths its value may have.
pub struct Due {
    pub tag: u8,
    pub lengths: RangeInclusive<usize>,
}

/// A walker over a plan: the bytes and the place of the next field's tag.
pub struct Walker<'a> {
    bytes: &'a [u8],
    place: usize,
}

/// A field's value as it is read: its tag, the bytes not read yet and the place of their first.
pub struct Value<'a> {
    pub tag: u8,
    rest: &'a [u8],
    place: usize,
}

impl<'a> Walker<'a> {
    /// A walker at the first field of a plan.
    pub fn new(bytes: &'a [u8]) -> Walker<'a> {
        Walker { bytes, place: 0 }
    }

    /// Walks over the next field, which is to be one of those due, or gives refusal 2, 3 or 4.
    pub fn field(&mut self, due: &[Due]) -> Result<Value<'a>, Refusal> {
        let place = self.place;
        let rest = &self.bytes[place..];
        if rest.len() < 3 {
            return Err(Refusal::new(2, place));
        }
        let (header, rest) = rest.split_at(3);
        let tag = header[0];
        let length = number(&header[1..]) as usize;
        let due = due.iter().find(|field| field.tag == tag);
        let due = due.ok_or_else(|| Refusal::new(3, place))?;
        if !due.lengths.contains(&length) {
            return Err(Refusal::new(4, place));
        }
        if rest.len() < length {
            return Err(Refusal::new(2, place));
        }
        self.place = place + 3 + length;
        Ok(Value {
            tag,
            rest: &rest[..length],
            place: place + 3,
        })
    }

    /// Gives refusal 6 if bytes follow the last due field.
    pub fn end(&self) -> Result<(), Refusal> {
        if self.place < self.bytes.len() {
            return Err(Refusal::new(6, self.place));
        }
        Ok(())
    }
}

impl Value<'_> {
    /// Reads the next number, that many bytes long, or gives refusal 5 if it is outside its range.
    pub fn number(&mut self, size: usize, range: RangeInclusive<u64>) -> Result<u64, Refusal> {
        let (bytes, rest) = self.rest.split_at(size);
        let number = number(bytes);
        if !range.contains(&number) {
            return Err(Refusal::new(5, self.place));
        }
        self.rest = rest;
        self.place += size;
        Ok(number)
    }

    /// Reads the next byte, which numbers one of `count` things, or gives refusal 5.
    pub fn one_of(&mut self, count: usize) -> Result<usize, Refusal> {
        let number = self.number(1, 0..=count as u64 - 1)?;
        Ok(number as usize)
    }

    /// Says how many bytes are not read yet.
    pub fn left(&self) -> usize {
        self.rest.len()
    }
}

/// The number that bytes spell, the most significant first.
fn number(bytes: &[u8]) -> u64 {
    let append = |number, &byte| number << 8 | u64::from(byte);
    bytes.iter().fold(0, append)
}
