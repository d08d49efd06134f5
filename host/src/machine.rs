//! A machine to run sessions on: lent areas, a store under test, the world around it (power losses, new areas), and
//! the two judges, the second program and the history.
//!
//! A session is a list of steps. A step that makes no sense where it stands (a call after a power loss and before the
//! restart) is passed over, so a session stays a fair one whatever steps are dropped from it: that is what lets a
//! failing session be cut down to its shortest form.

use crate::areas::{Areas, Reply, Sizes, AREA_NAMES};
use crate::calls::{Call, Store};
use crate::coverage::{Coverage, Glance, Moment, Origin};
use crate::history::History;
use crate::progress::Progress;
use crate::random::Random;
use crate::sound;
use crate::states;
use crate::twin::Twin;
use std::fmt;
use std::time::{Duration, Instant};

/// What bytes hold that nobody has written yet, or that a power loss has taken.
#[derive(Clone, Copy, PartialEq, Eq, Debug)]
pub enum Fill {
    Zeros,
    Old,
    Garbage(u64),
}

#[derive(Clone, PartialEq, Eq, Debug)]
#[rustfmt::skip] // one line each
pub enum Step {
    Call(Call),
    /// New areas, of the lengths for these sizes. There is no store in them before a format.
    Lend { sizes: Sizes, fill: Fill },
    /// New areas with a sound store by chance in them. Only in wild sessions, which no history is held to.
    Make { sizes: Sizes, seed: u64 },
    /// A power loss between two calls.
    Loss { fill: Fill },
    /// A power loss inside a checkpoint, after so many of its steps.
    LossInCheckpoint { min_del: u32, max_age: u32, steps: u32, fill: Fill },
    /// Bytes changed behind the store's back. Only in wild sessions.
    Tamper { area: usize, at: usize, bytes: Vec<u8> },
}

impl fmt::Display for Step {
    fn fmt(&self, f: &mut fmt::Formatter) -> fmt::Result {
        let with = |fill: &Fill| match fill {
            Fill::Zeros => "zeros".to_string(),
            Fill::Old => "its old bytes".to_string(),
            Fill::Garbage(seed) => format!("garbage {seed:#x}"),
        };
        match self {
            Step::Call(call) => write!(f, "{call}"),
            Step::Lend { sizes, fill } => {
                write!(f, "(new areas for {} pages of {}, filled with {})", sizes.pages, sizes.page_size, with(fill))
            }
            Step::Make { sizes: s, seed } => write!(
                f,
                "(a sound store by chance, seed {seed:#x}, page size {}, {} pages, {} frames, {} online, {} log)",
                s.page_size, s.pages, s.frames, s.online_size, s.log_size
            ),
            Step::Loss { fill } => write!(f, "(power loss; the lost part holds {})", with(fill)),
            Step::LossInCheckpoint { min_del, max_age, steps, fill } => write!(
                f,
                "(power loss after {steps} steps of checkpoint min_del {min_del}, max_age {max_age}; \
                 the lost part holds {})",
                with(fill)
            ),
            Step::Tamper { area, at, bytes } => write!(f, "(bytes {bytes:?} put at {at} of {})", AREA_NAMES[*area]),
        }
    }
}

#[derive(Clone, Copy, PartialEq, Eq)]
enum Power {
    /// No store yet: nothing but a format makes sense.
    Blank,
    Up,
    /// Lost: nothing but a restart or a format makes sense.
    Lost,
}

/// How a session is judged.
#[derive(Clone, Copy)]
pub struct Judges {
    /// The second program: answer, counts, buffer and every lent byte.
    pub twin: bool,
    /// Demand 3. Not in wild sessions.
    pub history: bool,
    /// Calls are made in the dark too, and bytes may be tampered with.
    pub wild: bool,
}

#[derive(Clone)]
pub struct Machine<S> {
    store: S,
    judges: Judges,
    pub areas: Areas,
    /// The areas as the second program has them.
    right: Areas,
    history: Option<History>,
    power: Power,
    /// When a power loss would fall.
    moment: Moment,
    /// Calls judged whole, each by itself.
    pub calls: u64,
}

impl<S: Store + Clone> Machine<S> {
    pub fn new(store: &S, judges: Judges) -> Machine<S> {
        Machine {
            store: store.clone(),
            judges,
            areas: Areas::none(),
            right: Areas::none(),
            history: None,
            power: Power::Blank,
            moment: Moment::NothingWritten,
            calls: 0,
        }
    }

    /// Does a step and judges it. Gives the answer if it was a call and was made.
    pub fn step(&mut self, step: &Step, coverage: &mut Coverage) -> Result<Option<Reply>, String> {
        match step {
            Step::Call(call) if self.makes_sense(call) => return self.call(call, coverage).map(Some),
            Step::Call(_) => (),
            Step::Lend { sizes, fill } => {
                self.areas = Areas::for_sizes(sizes);
                if let Fill::Garbage(seed) = fill {
                    let mut random = Random::new(*seed);
                    self.areas.each_mut().into_iter().for_each(|area| random.fill(area));
                }
                self.lent(Power::Blank);
            }
            Step::Make { sizes, seed } => {
                if self.judges.wild {
                    self.areas = states::sound_store(sizes, *seed);
                    self.lent(Power::Up);
                }
            }
            Step::Loss { fill } => self.lose(*fill, coverage),
            Step::LossInCheckpoint { min_del, max_age, steps, fill } => {
                if self.power == Power::Up && (!self.judges.wild || sound::broken(&self.areas).none()) {
                    self.part(*min_del, *max_age, *steps)?;
                    self.lose(*fill, coverage);
                }
            }
            Step::Tamper { area, at, bytes } => {
                if self.judges.wild {
                    // Past the end: the step before that made the area longer was dropped.
                    for areas in [&mut self.areas, &mut self.right] {
                        if let Some(place) = areas.each_mut()[*area].get_mut(*at..*at + bytes.len()) {
                            place.copy_from_slice(bytes);
                        }
                    }
                }
            }
        }
        Ok(None)
    }

    /// After new areas: the second program gets the same ones.
    fn lent(&mut self, power: Power) {
        self.right = if self.judges.twin { self.areas.clone() } else { Areas::none() };
        self.history = None;
        self.power = power;
    }

    fn makes_sense(&self, call: &Call) -> bool {
        match (call, self.power) {
            (Call::Format { .. }, _) | (_, Power::Up) | (Call::Restart, Power::Lost) => true,
            _ => self.judges.wild,
        }
    }

    fn call(&mut self, call: &Call, coverage: &mut Coverage) -> Result<Reply, String> {
        let origin = if self.judges.wild { Origin::Tampered } else { Origin::Reachable };
        let readable = match origin {
            Origin::Reachable => self.power != Power::Blank,
            Origin::Tampered => *call == Call::Restart && sound::broken_durable(&self.areas).none(),
        };
        let glance = Glance::at(&self.areas, call, readable, coverage);
        // A history starts from the pages before the format: a format that changes them is caught.
        let start = matches!(call, Call::Format { .. }).then(|| self.areas.stored.clone());
        let without_loss = *call == Call::Restart && self.power == Power::Up;
        let mut buffer = call.buffer();
        let reply = self.store.call(&mut self.areas, call, &mut buffer);
        self.calls += 1;
        if let Some(area) = self.areas.stray_write() {
            return Err(format!("a byte beside {area} was written"));
        }
        if !buffer.guards_hold() {
            return Err("a byte beside the buffer was written".into());
        }
        if self.judges.twin {
            let mut right_buffer = call.buffer();
            let right = Twin.call(&mut self.right, call, &mut right_buffer);
            if reply != right {
                return Err(format!("expected {right}, got {reply}"));
            }
            if buffer != right_buffer {
                return Err("the buffer does not hold what it should".into());
            }
            self.compare()?;
        }
        if reply.accepted() && matches!(call, Call::Format { .. } | Call::Restart) {
            self.power = Power::Up;
        }
        if let (Call::Format { sizes, last }, Some(start), 0) = (call, start, reply.code) {
            let held = self.judges.history && !self.judges.wild;
            self.history = held.then(|| History::new(&start, sizes.page_size, *last));
        }
        if let Some(history) = &mut self.history {
            history.saw(call, &reply, &buffer).map_err(|why| format!("history: {why}"))?;
            // On a large store only where a page was written: looking at all of it takes longer than the call.
            if self.areas.stored.len() <= 8192 || reply.writes > 0 {
                history.stored_pages(&self.areas).map_err(|why| format!("history: {why}"))?;
            }
        }
        coverage.judge(&glance, origin, call, &reply, &self.areas);
        if without_loss && origin == Origin::Reachable {
            coverage.saw("restart: without a loss");
        }
        self.moment = Moment::after(call, &reply);
        Ok(reply)
    }

    /// The first steps of a checkpoint, judged by the sum of their answers and by what they leave.
    fn part(&mut self, min_del: u32, max_age: u32, steps: u32) -> Result<(), String> {
        let pages = self.areas.sizes().pages;
        let reply = self.store.part(&mut self.areas, min_del, max_age, steps);
        if let Some(area) = self.areas.stray_write() {
            return Err(format!("a byte beside {area} was written"));
        }
        if self.judges.twin {
            let right = Twin.part(&mut self.right, min_del, max_age, steps);
            if reply != right {
                return Err(format!("expected {right} in sum, got {reply}"));
            }
            self.compare()?;
        }
        if let Some(history) = &self.history {
            history.stored_pages(&self.areas).map_err(|why| format!("history: {why}"))?;
        }
        self.moment = match steps {
            0 => Moment::BeforeFirstStep,
            _ if steps < pages => Moment::BetweenPages,
            _ if steps == pages => Moment::BeforeClose,
            _ => Moment::AfterClose,
        };
        Ok(())
    }

    fn compare(&self) -> Result<(), String> {
        if self.areas == self.right {
            return Ok(());
        }
        Err(self.right.difference(&self.areas).expect("some byte differs"))
    }

    fn lose(&mut self, fill: Fill, coverage: &mut Coverage) {
        lose(&mut self.areas, fill);
        lose(&mut self.right, fill);
        if self.power == Power::Up {
            self.power = Power::Lost;
            if !self.judges.wild {
                coverage.lost(self.moment, fill);
            }
        }
    }
}

/// What a power loss does to the areas: the durable part stays, the rest holds anything.
pub fn lose(areas: &mut Areas, fill: Fill) {
    let lost = [&mut areas.tables, &mut areas.online, &mut areas.pool];
    match fill {
        Fill::Old => (),
        Fill::Zeros => lost.into_iter().for_each(|area| area.fill(0)),
        Fill::Garbage(seed) => {
            let mut random = Random::new(seed);
            lost.into_iter().for_each(|area| random.fill(area));
        }
    }
}

/// Runs a session from nothing. Gives the place of the step that fails, and why.
pub fn replay<S: Store + Clone>(store: &S, judges: Judges, steps: &[Step]) -> Option<(usize, String)> {
    let mut machine = Machine::new(store, judges);
    let mut coverage = Coverage::off();
    for (i, step) in steps.iter().enumerate() {
        if let Err(why) = machine.step(step, &mut coverage) {
            return Some((i, why));
        }
    }
    None
}

/// Drops steps, many at a time and then one by one, as long as `failing` still names a step that fails.
pub fn cut_down<T: Clone>(mut steps: Vec<T>, patience: Duration, failing: impl Fn(&[T]) -> Option<usize>) -> Vec<T> {
    let started = Instant::now();
    let mut progress = Progress::new("cutting down");
    let mut chunk = steps.len().max(1);
    loop {
        let before = steps.len();
        let mut at = 0;
        while at < steps.len() && started.elapsed() < patience {
            let mut shorter = steps.clone();
            shorter.drain(at..(at + chunk).min(shorter.len()));
            match failing(&shorter) {
                Some(failing) => {
                    shorter.truncate(failing + 1);
                    steps = shorter;
                }
                None => at += chunk,
            }
            progress.tell(|| format!("{} steps left", steps.len()));
        }
        if started.elapsed() >= patience || (chunk == 1 && steps.len() == before) {
            return steps;
        }
        chunk = (chunk / 2).max(1);
    }
}

/// Cuts a failing session down to its shortest form.
pub fn shrink<S: Store + Clone>(store: &S, judges: Judges, steps: Vec<Step>, patience: Duration) -> Vec<Step> {
    let mut steps = cut_down(steps, patience, |steps| replay(store, judges, steps).map(|(failing, _)| failing));
    // Zeros are easier to write down than garbage.
    for i in 0..steps.len() {
        let mut plainer = steps.clone();
        if let Step::Lend { fill, .. } | Step::Loss { fill } | Step::LossInCheckpoint { fill, .. } = &mut plainer[i] {
            *fill = Fill::Zeros;
            if replay(store, judges, &plainer).is_some_and(|(failing, _)| failing + 1 == plainer.len()) {
                steps = plainer;
            }
        }
    }
    steps
}

/// Prints a failing session as calls with their answers.
pub fn print_failing<S: Store + Clone>(store: &S, judges: Judges, steps: &[Step]) {
    let mut machine = Machine::new(store, judges);
    let mut coverage = Coverage::off();
    for step in steps {
        match machine.step(step, &mut coverage) {
            Ok(Some(reply)) => println!("    {step}: {reply}"),
            Ok(None) => println!("    {step}"),
            Err(why) => {
                println!("    {step}: WRONG: {why}");
                return;
            }
        }
    }
}

#[cfg(test)]
mod tests {
    use super::*;
    use crate::wrong::{Fault, Wrong};

    fn call(call: Call) -> Step {
        Step::Call(call)
    }

    #[test]
    fn a_failing_session_is_cut_to_its_shortest_form() {
        let sizes = Sizes { page_size: 512, pages: 2, frames: 1, online_size: 4, log_size: 4 };
        let mut steps = vec![Step::Lend { sizes, fill: Fill::Zeros }, call(Call::Format { sizes, last: 0 })];
        for _ in 0..20 {
            steps.push(call(Call::Begin { number: 1 }));
            steps.push(call(Call::Update { number: 1, page: 1, offset: 0, length: 1, kind: 1, value: 3 }));
            steps.push(call(Call::Commit { number: 1 }));
            steps.push(call(Call::Close));
            steps.push(call(Call::Checkpoint { min_del: 1, max_age: 0 }));
        }
        let judges = Judges { twin: true, history: false, wild: false };
        let wrong = Wrong::new(Fault::CheckpointFirstOnly);
        assert!(replay(&wrong, judges, &steps).is_some());
        let short = shrink(&wrong, judges, steps, Duration::from_secs(10));
        let said: Vec<_> = short.iter().map(|step| step.to_string()).collect();
        assert_eq!(short.len(), 6, "{said:#?}");
    }

    #[test]
    fn calls_in_the_dark_are_passed_over() {
        let sizes = Sizes { page_size: 512, pages: 1, frames: 1, online_size: 1, log_size: 1 };
        let judges = Judges { twin: true, history: true, wild: false };
        let mut machine = Machine::new(&Twin, judges);
        let mut coverage = Coverage::new();
        let mut did = |step| machine.step(&step, &mut coverage).unwrap().map(|reply| reply.code);
        assert_eq!(did(call(Call::Restart)), None);
        assert_eq!(did(Step::Lend { sizes, fill: Fill::Garbage(1) }), None);
        assert_eq!(did(call(Call::Format { sizes, last: 0 })), Some(0));
        assert_eq!(did(Step::Loss { fill: Fill::Zeros }), None);
        assert_eq!(did(call(Call::Begin { number: 1 })), None);
        assert_eq!(did(call(Call::Restart)), Some(0));
        assert_eq!(did(call(Call::Begin { number: 1 })), Some(0));
    }
}
