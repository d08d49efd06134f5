//! How a call is measured: on two stores and on the same bytes, in one run.
//!
//! Each call is timed alone, many times. After each the bytes that it changed are put back, which is not timed; so the
//! areas are warm, for the call before was the same one. Rounds of the two stores take turns. A round's figure is the
//! median of its calls, less what the clock itself takes; the figure of a call is the median of its rounds. The ratio
//! is that of two rounds beside each other, again the median, with the middle half of the rounds.

use crate::areas::{Areas, Lent};
use crate::bench_stores::Situation;
use crate::calls::{Call, Store};
use std::hint::black_box;
use std::rc::Rc;
use std::time::{Duration, Instant};

/// How long a round of a store may take, and the least and the greatest number of its calls.
const ROUND: Duration = Duration::from_millis(1);
const CALLS: (usize, usize) = (3, 200);

pub type Stores<'a> = [&'a mut dyn Store; 2];

/// The median of several values, and the middle half of them.
#[derive(Clone, Copy, PartialEq, Debug)]
pub struct Middle {
    pub from: f64,
    pub median: f64,
    pub to: f64,
}

impl Middle {
    pub fn of(values: impl IntoIterator<Item = f64>) -> Middle {
        let mut values: Vec<f64> = values.into_iter().collect();
        values.sort_by(f64::total_cmp);
        let at = |quarters: usize| values[(values.len() - 1) * quarters / 4];
        Middle { from: at(1), median: at(2), to: at(3) }
    }
}

/// What the rounds gave, in microseconds: on the first store, and on the second.
pub type Rounds = Vec<[f64; 2]>;

/// What a call costs on the two stores, in microseconds, and the first store's cost over the second's.
pub struct Cost {
    pub each: [f64; 2],
    pub ratio: Middle,
}

impl Cost {
    pub fn of(rounds: &[[f64; 2]]) -> Cost {
        let median = |which: usize| Middle::of(rounds.iter().map(|round| round[which])).median;
        let ratio = Middle::of(rounds.iter().map(|round| round[0] / round[1]));
        Cost { each: [median(0), median(1)], ratio }
    }
}

pub fn micros(time: Duration) -> f64 {
    time.as_nanos() as f64 / 1000.0
}

/// What the clock itself takes.
pub fn clock() -> f64 {
    Middle::of((0..2001).map(|_| micros(Instant::now().elapsed()))).median
}

/// A run of bytes that a call changes.
struct Changed {
    area: usize,
    from: usize,
    to: usize,
}

/// The bytes that differ, in whole blocks.
fn changed(before: &Areas, after: &Areas) -> Vec<Changed> {
    const BLOCK: usize = 64;
    let mut runs: Vec<Changed> = Vec::new();
    for (area, (before, after)) in before.each().into_iter().zip(after.each()).enumerate() {
        let blocks = before.chunks(BLOCK).zip(after.chunks(BLOCK)).enumerate();
        for (i, (before, _)) in blocks.filter(|(_, (before, after))| before != after) {
            let (from, to) = (BLOCK * i, BLOCK * i + before.len());
            match runs.last_mut() {
                Some(last) if last.area == area && last.to == from => last.to = to,
                _ => runs.push(Changed { area, from, to }),
            }
        }
    }
    runs
}

/// A call under measurement, with areas of its own.
pub struct Trial {
    before: Rc<Areas>,
    work: Areas,
    call: Call,
    buffer: Lent,
    changed: Vec<Changed>,
}

impl Trial {
    /// Both stores make the call once. What they answer and leave must be the same, and the answer the one meant.
    pub fn new(situation: &Situation, stores: &mut Stores) -> Result<Trial, String> {
        let Situation { name, before, call, right } = situation;
        let [one, two] = stores.each_mut().map(|store| {
            let (mut after, mut buffer) = (Areas::clone(before), call.buffer());
            let reply = store.call(&mut after, call, &mut buffer);
            (reply, buffer, after)
        });
        if one != two {
            return Err(format!("{name}: {call}: the stores differ, {} and {}", one.0, two.0));
        }
        let (reply, buffer, after) = one;
        if (reply.code, reply.note) != *right {
            return Err(format!("{name}: {call}: {reply} is not what was meant"));
        }
        let changed = changed(before, &after);
        Ok(Trial { before: Rc::clone(before), work: Areas::clone(before), call: *call, buffer, changed })
    }

    /// One call, timed, and the areas put back.
    fn once(&mut self, store: &mut dyn Store) -> f64 {
        let start = Instant::now();
        black_box(store.call(&mut self.work, black_box(&self.call), &mut self.buffer));
        let took = start.elapsed();
        let (before, work) = (self.before.each(), self.work.each_mut());
        for &Changed { area, from, to } in &self.changed {
            work[area][from..to].copy_from_slice(&before[area][from..to]);
        }
        micros(took)
    }

    fn round(&mut self, store: &mut dyn Store, clock: f64) -> f64 {
        let calls = (micros(ROUND) / self.once(store)) as usize;
        Middle::of((0..calls.clamp(CALLS.0, CALLS.1)).map(|_| self.once(store))).median - clock
    }
}

/// Rounds of several calls in turn, so that whatever slows the machine down for a while is shared by all of them.
/// Gives the rounds of each.
pub fn measure(trials: &mut [Trial], stores: &mut Stores, rounds: usize, clock: f64) -> Vec<Rounds> {
    let mut all = vec![Vec::new(); trials.len()];
    for i in 0..rounds {
        for (trial, all) in trials.iter_mut().zip(&mut all) {
            all.push(in_turn(i, |which| trial.round(stores[which], clock)));
        }
    }
    for trial in trials {
        assert!(trial.work == *trial.before, "{}: not every byte was put back", trial.call);
    }
    all
}

/// Both stores' figures in a round; they take turns in being the first.
pub fn in_turn(round: usize, mut figure: impl FnMut(usize) -> f64) -> [f64; 2] {
    let mut both = [0.0; 2];
    for which in [round % 2, 1 - round % 2] {
        both[which] = figure(which);
    }
    both
}

#[cfg(test)]
mod tests {
    use super::*;
    use crate::areas::Sizes;

    #[test]
    fn the_middle_of_some_values() {
        let middle = Middle::of([9.0, 1.0, 5.0, 3.0, 7.0]);
        assert_eq!(middle, Middle { from: 3.0, median: 5.0, to: 7.0 });
    }

    #[test]
    fn what_a_call_changed_is_found() {
        let before = Areas::for_sizes(&Sizes { page_size: 512, pages: 2, frames: 1, online_size: 1, log_size: 1 });
        let mut after = before.clone();
        after.stored[63] = 1;
        after.stored[64] = 1;
        after.log[13] = 1;
        let runs: Vec<_> = changed(&before, &after).iter().map(|run| (run.area, run.from, run.to)).collect();
        assert_eq!(runs, [(2, 0, 14), (3, 0, 128)]);
    }
}
