//! Demand 3, held by a very small piece of code that knows only calls and answers.
//!
//! It keeps the starting pages and every update in the order made, and looks at no table: only at what reads show
//! and, for the clause on stored pages, at those pages and their stamps. A store from a format never answers 1, and
//! never refuses a restart: else it would meet the demand by refusing.

use crate::areas::{Areas, Reply};
use crate::calls::Call;

#[derive(Clone)]
pub struct History {
    page_size: usize,
    start: Vec<u8>,
    /// Format's L plus the number of updates committed since.
    last: u64,
    made: Vec<Made>,
}

/// An accepted update. Its number is 0 until it is committed.
#[derive(Clone)]
struct Made {
    owner: u32,
    number: u64,
    page: u32,
    offset: usize,
    length: usize,
    add: bool,
    value: u64,
}

impl History {
    /// The history that an accepted format starts.
    pub fn new(stored: &[u8], page_size: u32, last: u32) -> History {
        History { page_size: page_size as usize, start: stored.to_vec(), last: last.into(), made: Vec::new() }
    }

    /// Takes in one call with its answer and, for a read, what it showed.
    pub fn saw(&mut self, call: &Call, reply: &Reply, shown: &[u8]) -> Result<(), String> {
        if reply.code == 1 {
            return Err("a store that comes from a format answered 1".into());
        }
        if !reply.accepted() {
            return if *call == Call::Restart { Err("restart was refused".into()) } else { Ok(()) };
        }
        match *call {
            Call::Read { page, offset, length, .. } | Call::Update { page, offset, length, .. }
                if !self.has(page, offset, length) =>
            {
                return Err("a call was accepted about bytes that no page has".into());
            }
            Call::Read { length, .. } if shown.len() < length as usize => {
                return Err("a read was accepted that its buffer has no room for".into());
            }
            Call::Read { number, page, offset, length, .. } => {
                let right = self.page(page, |made| made.number != 0 || made.owner == number);
                let right = &right[offset as usize..][..length as usize];
                if let Some(at) = (0..right.len()).find(|&i| right[i] != shown[i]) {
                    let (right, got) = (right[at], shown[at]);
                    return Err(format!("page {page}, offset {}: expected {right}, shown {got}", offset as usize + at));
                }
            }
            Call::Update { number, page, offset, length, kind, value } => self.made.push(Made {
                owner: number,
                number: 0,
                page,
                offset: offset as usize,
                length: length as usize,
                add: kind == 1,
                value,
            }),
            Call::Commit { number } => {
                for made in self.made.iter_mut().filter(|made| made.number == 0 && made.owner == number) {
                    self.last += 1;
                    made.number = self.last;
                }
            }
            Call::Abort { number } => self.made.retain(|made| made.number != 0 || made.owner != number),
            Call::Restart => self.made.retain(|made| made.number != 0),
            _ => (),
        }
        Ok(())
    }

    /// Each stored page is the starting page with just those committed updates numbered up to its stamp.
    pub fn stored_pages(&self, areas: &Areas) -> Result<(), String> {
        for (i, stored) in areas.stored.chunks_exact(self.page_size).enumerate() {
            let (page, stamp) = (i as u32, u64::from(areas.stamp(i as u32)));
            if stored != self.page(page, |made| made.number != 0 && made.number <= stamp) {
                return Err(format!("stored page {page} is not the one of its stamp {stamp}"));
            }
        }
        Ok(())
    }

    /// Whether there is such a page with such bytes.
    fn has(&self, page: u32, offset: u32, length: u32) -> bool {
        let pages = self.start.len() / self.page_size;
        (page as usize) < pages && u64::from(offset) + u64::from(length) <= self.page_size as u64
    }

    /// The starting page with the updates that count, in the order made.
    fn page(&self, page: u32, counts: impl Fn(&Made) -> bool) -> Vec<u8> {
        let mut bytes = self.start[self.page_size * page as usize..][..self.page_size].to_vec();
        for made in self.made.iter().filter(|made| made.page == page && counts(made)) {
            // Digit by digit with a carry: on purpose not the way in which a store does it.
            let mut carry = 0;
            for (i, byte) in bytes[made.offset..][..made.length].iter_mut().enumerate() {
                let digit = (made.value.checked_shr(8 * i as u32).unwrap_or(0) & 255) as u32;
                let sum = if made.add { u32::from(*byte) + digit + carry } else { digit };
                *byte = (sum % 256) as u8;
                carry = sum / 256;
            }
        }
        bytes
    }
}

#[cfg(test)]
mod tests {
    use super::*;

    const DONE: Reply = Reply { code: 0, note: 0, reads: 0, writes: 0, logs: 0 };

    fn update(number: u32, offset: u32, kind: u32, value: u64) -> Call {
        Call::Update { number, page: 0, offset, length: 2, kind, value }
    }

    #[test]
    fn a_read_shows_committed_updates_and_its_own() {
        let mut history = History::new(&[0; 512], 512, 0);
        history.saw(&update(1, 0, 0, 0x01ff), &DONE, &[]).unwrap();
        history.saw(&Call::Commit { number: 1 }, &DONE, &[]).unwrap();
        history.saw(&update(2, 0, 1, 1), &DONE, &[]).unwrap();
        let read = |number| Call::Read { number, page: 0, offset: 0, length: 2, room: 2 };
        history.saw(&read(2), &DONE, &[0, 2]).unwrap();
        history.saw(&read(3), &DONE, &[0xff, 1]).unwrap();
        assert!(history.saw(&read(3), &DONE, &[0, 2]).is_err(), "not the reader's own");
        history.saw(&Call::Restart, &DONE, &[]).unwrap();
        history.saw(&read(2), &DONE, &[0xff, 1]).unwrap();
    }

    #[test]
    fn a_refused_restart_is_no_way_out() {
        let mut history = History::new(&[0; 512], 512, 0);
        assert!(history.saw(&Call::Restart, &Reply::refused(7), &[]).is_err());
        assert!(history.saw(&Call::Close, &Reply::refused(1), &[]).is_err());
    }
}
