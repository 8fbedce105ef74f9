//! The logbook of docs/FORMAT.md: the outcome of a printer's messages without
//! their bytes.

/// The answer to a message.
#[derive(Clone, Copy, Debug, Eq, PartialEq)]
pub enum Answer {
    Refused(u32),
    NotYet,
    Acknowledges(i32),
}

/// The newest tick, its parts that came, the ticks held, the newest first, and
/// the acknowledgement.
#[derive(Clone, Debug, Default)]
pub struct Logbook {
    newest: Option<i32>,
    came: Vec<i32>,
    pub held: Vec<i32>,
    pub acknowledged: Option<i32>,
}

/// A message's tick and base, its part number and the count of parts; a single
/// or an empty one is part 0 of 1.
#[derive(Clone, Copy, Debug)]
pub struct Numbers {
    pub tick: i32,
    pub base: i32,
    pub part: i32,
    pub count: i32,
}

impl Logbook {
    fn all_came(&self, count: i32) -> bool {
        (0..count).all(|part| self.came.contains(&part))
    }
    /// Notes a message.
    pub fn note(&mut self, message: Numbers) -> Answer {
        let Numbers {
            tick,
            base,
            part,
            count,
        } = message;
        if let Some(newest) = self.newest {
            if tick < newest || tick == newest && self.all_came(count) {
                return Answer::Refused(20);
            }
            if tick == newest && self.came.contains(&part) {
                return Answer::Refused(23);
            }
        }
        if self.newest != Some(tick) {
            self.newest = Some(tick);
            self.came.clear();
        }
        self.came.push(part);
        if !self.all_came(count) {
            return Answer::NotYet;
        }
        self.complete(tick, base)
    }
    /// Completes a tick whose parts all came.
    fn complete(&mut self, tick: i32, base: i32) -> Answer {
        if base >= 0 {
            self.held.retain(|held| *held >= base);
            if !self.held.contains(&base) {
                self.acknowledged = None;
                return Answer::Refused(31);
            }
        }
        self.held.insert(0, tick);
        if self.held.len() > 100 {
            let lowest = self.held.iter().copied().min();
            self.held.retain(|held| Some(*held) != lowest);
        }
        self.acknowledged = Some(tick);
        Answer::Acknowledges(tick)
    }
}
