//! The calls as values, so that sessions can be kept, cut down and printed; and what stands behind them: a store.

use crate::areas::{Areas, Lent, Reply, Sizes};
use std::fmt;

/// One call with its arguments, in range or not.
#[derive(Clone, Copy, PartialEq, Eq, Debug)]
#[rustfmt::skip] // one line each
pub enum Call {
    Format { sizes: Sizes, last: u32 },
    Begin { number: u32 },
    /// `room` is the length of the caller's buffer.
    Read { number: u32, page: u32, offset: u32, length: u32, room: u32 },
    Update { number: u32, page: u32, offset: u32, length: u32, kind: u32, value: u64 },
    Commit { number: u32 },
    Abort { number: u32 },
    Evict { page: u32 },
    Compact { page: u32, min_del: u32, max_age: u32 },
    Close,
    Checkpoint { min_del: u32, max_age: u32 },
    Restart,
}

pub const CALL_NAMES: [&str; 11] =
    ["format", "begin", "read", "update", "commit", "abort", "evict", "compact", "close", "checkpoint", "restart"];

impl Call {
    /// The place of the call's name in CALL_NAMES.
    pub fn kind(&self) -> usize {
        match self {
            Call::Format { .. } => 0,
            Call::Begin { .. } => 1,
            Call::Read { .. } => 2,
            Call::Update { .. } => 3,
            Call::Commit { .. } => 4,
            Call::Abort { .. } => 5,
            Call::Evict { .. } => 6,
            Call::Compact { .. } => 7,
            Call::Close => 8,
            Call::Checkpoint { .. } => 9,
            Call::Restart => 10,
        }
    }

    /// A buffer for the call: `room` bytes that no page is likely to hold, or none.
    pub fn buffer(&self) -> Lent {
        let Call::Read { room, .. } = *self else { return Lent::zeros(0) };
        let mut buffer = Lent::zeros(room as usize);
        buffer.fill(0xb5);
        buffer
    }
}

impl fmt::Display for Call {
    fn fmt(&self, f: &mut fmt::Formatter) -> fmt::Result {
        let name = CALL_NAMES[self.kind()];
        match *self {
            Call::Format { sizes: s, last } => write!(
                f,
                "{name} page size {}, {} pages, {} frames, {} online, {} log, L = {last}",
                s.page_size, s.pages, s.frames, s.online_size, s.log_size
            ),
            Call::Begin { number } | Call::Commit { number } | Call::Abort { number } => write!(f, "{name} {number}"),
            Call::Read { number, page, offset, length, room } => {
                write!(f, "{name} {number}, page {page}, offset {offset}, length {length}, into {room} bytes")
            }
            Call::Update { number, page, offset, length, kind, value } => {
                let kind = match kind {
                    0 => "set".to_string(),
                    1 => "add".to_string(),
                    other => format!("kind {other}"),
                };
                write!(f, "{name} {number}, page {page}, offset {offset}, length {length}, {kind} {value}")
            }
            Call::Evict { page } => write!(f, "{name} {page}"),
            Call::Compact { page, min_del, max_age } => {
                write!(f, "{name} {page}, min_del {min_del}, max_age {max_age}")
            }
            Call::Checkpoint { min_del, max_age } => write!(f, "{name} min_del {min_del}, max_age {max_age}"),
            Call::Close | Call::Restart => write!(f, "{name}"),
        }
    }
}

/// Something that answers the calls over lent areas. `buffer` is read's; the other calls leave it alone.
pub trait Store {
    fn call(&mut self, areas: &mut Areas, call: &Call, buffer: &mut Lent) -> Reply;

    /// The first `steps` steps of a checkpoint, for a power loss inside it. A store that cannot be stopped inside its
    /// checkpoint does the same steps as single calls, which document 01 says is the same thing. Gives the sum of the
    /// answers, or the first refusal.
    fn part(&mut self, areas: &mut Areas, min_del: u32, max_age: u32, steps: u32) -> Reply {
        let pages = areas.sizes().pages;
        let mut sum = Reply::default();
        for step in 0..steps.min(pages.saturating_add(1)) {
            let page = self.page_at(step, pages);
            let call = if step < pages { Call::Compact { page, min_del, max_age } } else { Call::Close };
            let reply = self.call(areas, &call, &mut Lent::zeros(0));
            if !reply.accepted() {
                return reply;
            }
            sum.reads += reply.reads;
            sum.writes += reply.writes;
            sum.logs += reply.logs;
        }
        sum
    }

    /// The page that this step of a checkpoint is about.
    fn page_at(&self, step: u32, _pages: u32) -> u32 {
        step
    }
}

#[cfg(test)]
mod tests {
    use super::*;

    #[test]
    fn calls_print_as_they_are_said() {
        let call = Call::Update { number: 1, page: 5, offset: 16, length: 1, kind: 0, value: 7 };
        assert_eq!(call.to_string(), "update 1, page 5, offset 16, length 1, set 7");
        assert_eq!(Call::Close.to_string(), "close");
    }
}
