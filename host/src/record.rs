//! A redo record: its row of 14 bytes, when it is well formed, and what applying it does to a page.
//! Log rows and online rows both begin with it.

use crate::areas::{get2, put2, Sizes};

pub const SET: u8 = 0;
pub const ADD: u8 = 1;

#[derive(Clone, Copy, PartialEq, Eq, Debug)]
pub struct Record {
    pub page: u16,
    pub offset: u16,
    pub length: u8,
    pub kind: u8,
    pub value: u64,
}

impl Record {
    /// Reads a row, well formed or not.
    pub fn read(row: &[u8]) -> Record {
        Record {
            page: get2(row, 0),
            offset: get2(row, 2),
            length: row[4],
            kind: row[5],
            value: u64::from_le_bytes(row[6..14].try_into().unwrap()),
        }
    }

    pub fn write(&self, row: &mut [u8]) {
        put2(row, 0, self.page);
        put2(row, 2, self.offset);
        row[4] = self.length;
        row[5] = self.kind;
        row[6..14].copy_from_slice(&self.value.to_le_bytes());
    }

    pub fn well_formed(&self, sizes: &Sizes) -> bool {
        u32::from(self.page) < sizes.pages
            && matches!(self.length, 1 | 2 | 4 | 8)
            && u32::from(self.offset) + u32::from(self.length) <= sizes.page_size
            && self.kind <= ADD
            && fits(self.value, self.length.into())
    }

    /// Whether one of its bytes lies in `from..to`, offsets in its page.
    pub fn meets(&self, from: u32, to: u32) -> bool {
        u32::from(self.offset) < to && from < u32::from(self.offset) + u32::from(self.length)
    }

    /// Set writes the value lowest byte first; add reads a number there, adds, and keeps the lowest `length` bytes.
    pub fn apply(&self, page: &mut [u8]) {
        let length = usize::from(self.length);
        let place = &mut page[usize::from(self.offset)..][..length];
        let mut number = self.value;
        if self.kind == ADD {
            let mut there = [0; 8];
            there[..length].copy_from_slice(place);
            number = number.wrapping_add(u64::from_le_bytes(there));
        }
        place.copy_from_slice(&number.to_le_bytes()[..length]);
    }
}

impl std::fmt::Display for Record {
    fn fmt(&self, f: &mut std::fmt::Formatter) -> std::fmt::Result {
        let Record { page, offset, length, kind, value } = self;
        let kind = match *kind {
            SET => "set".to_string(),
            ADD => "add".to_string(),
            other => format!("kind {other}"),
        };
        write!(f, "page {page}, offset {offset}, length {length}, {kind} {value}")
    }
}

/// Whether the value is below 256 to the power of the length (1, 2, 4 or 8).
pub fn fits(value: u64, length: u32) -> bool {
    length >= 8 || value >> (8 * length) == 0
}

#[cfg(test)]
mod tests {
    use super::*;

    fn record(offset: u16, length: u8, kind: u8, value: u64) -> Record {
        Record { page: 0, offset, length, kind, value }
    }

    #[test]
    fn a_row_reads_back() {
        let one = Record { page: 513, offset: 504, length: 8, kind: ADD, value: 0x0102_0304_0506_0708 };
        let mut row = [0; 14];
        one.write(&mut row);
        assert_eq!(row, [1, 2, 248, 1, 8, 1, 8, 7, 6, 5, 4, 3, 2, 1]);
        assert_eq!(Record::read(&row), one);
    }

    #[test]
    fn set_and_add_at_every_length() {
        for length in [1u8, 2, 4, 8] {
            let most = u64::MAX >> (64 - 8 * u32::from(length));
            let mut page = [0xee; 16];
            record(4, length, SET, most).apply(&mut page);
            record(4, length, ADD, 2).apply(&mut page);
            let mut right = [0xee; 16];
            right[4..4 + usize::from(length)].fill(0);
            right[4] = 1;
            assert_eq!(page, right, "length {length}: the carry past the length is dropped");
        }
    }

    #[test]
    fn values_fit_their_length() {
        assert!(fits(255, 1) && !fits(256, 1));
        assert!(fits(65_535, 2) && !fits(65_536, 2));
        assert!(fits(u64::MAX, 8));
    }
}
