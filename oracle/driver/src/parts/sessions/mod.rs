//! Whole sessions: a controller and a printer, on both sides, on a radio that
//! loses, doubles and reorders; compared with the logbook of docs/FORMAT.md.

mod controller;
mod logbook;

use super::manager::calls::port_call;
use super::manager::oracle::Printer;
use super::manager::oracle::Room;
use super::receiver::oracle::Call;
use super::storage::calls::rows;
use super::Part;
use super::Rounds;
use crate::core::random::Random;
use crate::core::report::Compared;
use crate::core::report::Difference;
use crate::core::report::Run;
use crate::core::report::Shown;
use cefdugar::manager::Lent;
use cefdugar::manager::Manager;
use cefdugar::manager::Outputs;
use cefdugar::manager::SCRATCH;
use cefdugar::receiver::AREA_BYTES;
use cefdugar::Warnings;
use controller::Controller;
use logbook::Answer;
use logbook::Logbook;
use logbook::Numbers;

pub fn part() -> Part {
    Part {
        name: "sessions",
        rounds: Rounds {
            quick: 120,
            full: 12_000,
        },
        compare,
        record: None,
        bench: None,
    }
}

fn compare(run: &mut Run) -> Result<(), Difference> {
    for round in 0..run.rounds {
        let mut messages = 0;
        let ticks = run.random(round).between(20, 220);
        let compared = session(&mut run.random(round), ticks, &mut messages);
        run.cases += messages;
        let random = Random::new;
        let (seed, part) = (run.seed, run.part);
        run.case(
            compared,
            || ticks,
            |ticks| session(&mut random(seed, part, round), *ticks, &mut 0),
            |ticks| format!("session {round}, {ticks} ticks"),
        )?;
    }
    Ok(())
}

/// How bad the radio is, in percent, and how far it reorders.
struct Radio {
    loses: usize,
    loses_acks: usize,
    doubles: usize,
    reach: usize,
    flying: Vec<Call>,
    /// Acknowledgements on their way back.
    acks: Vec<i32>,
}

impl Radio {
    fn new(random: &mut Random) -> Radio {
        Radio {
            loses: random.pick(&[0, 0, 1, 5, 20, 60]),
            loses_acks: random.pick(&[0, 5, 50, 95, 100]),
            doubles: random.pick(&[0, 1, 10, 40]),
            reach: random.pick(&[1, 1, 2, 5, 40]),
            flying: vec![],
            acks: vec![],
        }
    }
    fn send(&mut self, random: &mut Random, message: Call) {
        if random.chance(self.loses, 100) {
            return;
        }
        while random.chance(self.doubles, 100) {
            self.flying.push(message.clone());
        }
        self.flying.push(message);
    }
    /// The next message, or one of the next few.
    fn arrive(&mut self, random: &mut Random) -> Option<Call> {
        let near = self.flying.len().min(self.reach);
        (near > 0).then(|| self.flying.remove(random.below(near)))
    }
    /// An acknowledgement, which can be lost or late.
    fn answer(&mut self, random: &mut Random, ack: i32) {
        if !random.chance(self.loses_acks, 100) {
            self.acks.push(ack);
        }
    }
}

/// The printer on both sides, and the logbook.
struct Receiving {
    rust: Printer,
    port: Manager,
    parts: Vec<u8>,
    joined: Vec<u8>,
    delta: Vec<i32>,
    area: Vec<i32>,
    scratch: Vec<i32>,
    logbook: Logbook,
}

/// The numbers of a message for the logbook.
fn numbers(call: &Call) -> Numbers {
    let (tick, distance, part, count) = match call {
        Call::Snap([tick, distance, count, part, _], _) => (*tick, *distance, *part, *count),
        Call::Single([tick, distance, _], _) | Call::Empty([tick, distance]) => {
            (*tick, *distance, 0, 1)
        }
        Call::Reset => unreachable!("no session resets"),
    };
    Numbers {
        tick,
        base: tick.wrapping_sub(distance),
        part,
        count,
    }
}

impl Receiving {
    fn new(ints: usize) -> Receiving {
        Receiving {
            rust: Printer::new(),
            port: Manager::new(),
            parts: vec![0; AREA_BYTES],
            joined: vec![0; AREA_BYTES],
            delta: vec![0; 2 * AREA_BYTES],
            area: vec![0; ints],
            scratch: vec![1; SCRATCH],
            logbook: Logbook::default(),
        }
    }

    /// A message to both, and to the logbook.
    fn message(&mut self, controller: &Controller, call: &Call) -> Result<Option<i32>, Shown> {
        let sizes = &controller.sizes;
        let mut outputs = Outputs {
            taken: 0,
            ack: 0,
            warnings: Warnings::default(),
        };
        let lent = Lent {
            sizes,
            parts: &mut self.parts,
            joined: &mut self.joined,
            delta: &mut self.delta,
            area: &mut self.area,
            scratch: &mut self.scratch,
        };
        let number = port_call(&mut self.port, call, lent, &mut outputs);
        let room = Room {
            delta: self.delta.len(),
            area: self.area.len(),
        };
        let said = self.rust.call(sizes, call, room)?;
        let ack = (outputs.taken == 1).then_some(outputs.ack);
        Shown::compare(
            &(said.number, said.ack, said.warnings),
            &(number, ack, outputs.warnings),
        )?;
        // The parts of one delta never differ from each other.
        let differing = outputs.warnings.0[Warnings::DIFFERING_ATTRIBUTES];
        Shown::compare(&0, &differing)?;
        let noted = self.logbook.note(numbers(call));
        let answer = match (number, ack) {
            (0, Some(tick)) => Answer::Acknowledges(tick),
            (0, None) => Answer::NotYet,
            (number, _) => Answer::Refused(number),
        };
        Shown::compare(&noted, &answer)?;
        self.same(&said.joined, &said.delta)?;
        self.held(controller)?;
        Ok(ack)
    }

    /// What both printers hold.
    fn same(&self, joined: &[u8], delta: &[i32]) -> Compared {
        let store = &self.rust.store;
        let oracle = (store.held.len(), store.ack_tick(), store.delta_tick());
        Shown::compare(&oracle, &rows(&self.port.storage))?;
        let same = self.joined.starts_with(joined)
            && self.delta.starts_with(delta)
            && self.area == store.area(self.area.len())
            && self.scratch.iter().all(|int| *int == 0);
        match same {
            true => Ok(()),
            false => Shown::compare(&"the printer's areas", &"others"),
        }
    }

    /// Demand 3: ticks and acknowledgement equal the logbook's, and each table
    /// is the one that the controller had at its tick.
    fn held(&self, controller: &Controller) -> Compared {
        let store = &self.rust.store;
        let ticks: Vec<i32> = store.held.iter().map(|(tick, _)| *tick).collect();
        Shown::compare(
            &(&self.logbook.held, self.logbook.acknowledged),
            &(&ticks, self.port.ack_tick().map(|tick| tick.0)),
        )?;
        for (tick, table) in &store.held {
            Shown::compare(&controller.accepted.get(tick), &Some(table))?;
        }
        Ok(())
    }
}

/// The most items of a table, and the ints of both stores' areas.
fn size(random: &mut Random) -> (usize, usize) {
    let most = match random.below(40) {
        0 => 700,
        1 | 2 => 200,
        3..=9 => 60,
        _ => random.pick(&[1, 3, 8, 20]),
    };
    // Two kinds, and at most 4 ints for each item.
    (most, 101 * (2 + 2 + 6 * (most + 2) + 2 * most))
}

/// A session of so many ticks.
fn session(random: &mut Random, ticks: usize, messages: &mut u64) -> Compared {
    let _ = random.between(20, 220);
    let (most, ints) = size(random);
    let ticks = ticks.min(20_000 / most + 10);
    let mut controller = Controller::new(random, most, ints);
    let mut printer = Receiving::new(ints);
    let mut radio = Radio::new(random);
    let (mut tick, mut sent): (i32, Vec<Call>) = (random.below(2) as i32, vec![]);
    if random.chance(1, 20) {
        tick = i32::MAX - 4 * ticks as i32;
    }
    for _ in 0..ticks {
        for message in controller.tick(random, tick)? {
            radio.send(random, message.clone());
            sent.push(message);
        }
        if random.chance(1, 20) && !sent.is_empty() {
            let again = sent[random.below(sent.len())].clone();
            radio.send(random, again);
        }
        for _ in 0..random.between(0, 2 * radio.flying.len()) {
            let Some(message) = radio.arrive(random) else {
                break;
            };
            *messages += 1;
            if let Some(ack) = printer.message(&controller, &message)? {
                // Every acknowledgement is of a tick that was sent.
                Shown::compare(&true, &controller.accepted.contains_key(&ack))?;
                radio.answer(random, ack);
            }
        }
        acknowledge(random, &mut controller, &mut radio)?;
        tick += random.between(1, 3) as i32;
    }
    printer.rust.store.probe()
}

/// Acknowledgements that come back, sometimes an old one; at times the base
/// is given up, or is one that was never acknowledged.
fn acknowledge(random: &mut Random, controller: &mut Controller, radio: &mut Radio) -> Compared {
    if random.chance(1, 60) {
        controller.set_delta_tick(random.pick(&[-1, -1, -2, i32::MIN]))?;
    }
    if random.chance(1, 60) {
        let last = controller.accepted.keys().next_back().copied();
        controller.set_delta_tick(last.unwrap_or(0))?;
    }
    let old = random.chance(1, 30);
    if radio.acks.is_empty() || random.chance(1, 3) {
        return Ok(());
    }
    let place = match old {
        true => random.below(radio.acks.len()),
        false => radio.acks.len() - 1,
    };
    let ack = radio.acks[place];
    if !old {
        radio.acks.clear();
    }
    controller.set_delta_tick(ack)
}
