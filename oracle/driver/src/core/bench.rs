//! Times of both sides on the same input, in one process.

use std::time::Duration;
use std::time::Instant;

/// One operation at one size.
pub struct Row {
    pub operation: String,
    pub size: usize,
    pub rust: f64,
    pub port: f64,
}

impl Row {
    pub fn ratio(&self) -> f64 {
        self.port / self.rust
    }
}

#[derive(Default)]
pub struct Table {
    rows: Vec<Row>,
}

/// How long an operation at a size is timed.
const PATIENCE: Duration = Duration::from_millis(800);
/// The shortest span that is timed: shorter calls are repeated within it.
const SPAN: Duration = Duration::from_micros(50);
const LEAST: usize = 20;

fn time(repeats: u32, call: &mut dyn FnMut()) -> Duration {
    let start = Instant::now();
    for _ in 0..repeats {
        call();
    }
    start.elapsed()
}

impl Table {
    /// Times `rust` and `port` in turn and keeps the best of each.
    pub fn race(
        &mut self,
        operation: &str,
        size: usize,
        rust: &mut dyn FnMut(),
        port: &mut dyn FnMut(),
    ) {
        self.race_least(LEAST, operation, size, rust, port);
    }
    /// The same for a slow call: once, and again while `PATIENCE`
    /// lasts.
    pub fn race_slow(
        &mut self,
        operation: &str,
        size: usize,
        rust: &mut dyn FnMut(),
        port: &mut dyn FnMut(),
    ) {
        self.race_least(1, operation, size, rust, port);
    }
    /// The same if each call changes a state and is preceded by a step that is
    /// not timed: for each side the state, that step, and the call.
    pub fn race_steps<R, P>(
        &mut self,
        operation: &str,
        size: usize,
        (mut rust, before_rust, call_rust): (R, impl Fn(&mut R), impl Fn(&mut R)),
        (mut port, before_port, call_port): (P, impl Fn(&mut P), impl Fn(&mut P)),
    ) {
        let (mut best, mut passes) = ([Duration::MAX; 2], 0);
        let start = Instant::now();
        while passes < LEAST || start.elapsed() < PATIENCE {
            before_rust(&mut rust);
            best[0] = best[0].min(time(1, &mut || call_rust(&mut rust)));
            before_port(&mut port);
            best[1] = best[1].min(time(1, &mut || call_port(&mut port)));
            passes += 1;
        }
        let [rust, port] = best.map(|best| best.as_nanos() as f64);
        self.rows.push(Row {
            operation: operation.to_string(),
            size,
            rust,
            port,
        });
    }
    fn race_least(
        &mut self,
        least: usize,
        operation: &str,
        size: usize,
        rust: &mut dyn FnMut(),
        port: &mut dyn FnMut(),
    ) {
        let first = [time(1, rust), time(1, port)];
        let slower = first[0].max(first[1]).max(Duration::from_nanos(1));
        let repeats = (SPAN.as_nanos() / slower.as_nanos()) as u32 + 1;
        let (mut best, mut passes) = match repeats {
            1 => (first, 1),
            _ => ([Duration::MAX; 2], 0),
        };
        let start = Instant::now();
        while passes < least || start.elapsed() + slower < PATIENCE {
            best[0] = best[0].min(time(repeats, rust));
            best[1] = best[1].min(time(repeats, port));
            passes += 1;
        }
        let [rust, port] = best.map(|best| best.as_nanos() as f64 / f64::from(repeats));
        self.rows.push(Row {
            operation: operation.to_string(),
            size,
            rust,
            port,
        });
    }
    pub fn print(&self) {
        println!("| operation | size | Rust ns | port ns | ratio |");
        println!("|---|---:|---:|---:|---:|");
        for row in &self.rows {
            println!(
                "| {} | {} | {:.0} | {:.0} | {:.2} |",
                row.operation,
                row.size,
                row.rust,
                row.port,
                row.ratio()
            );
        }
        println!();
        println!("| operation | from | to | Rust grows by | port grows by |");
        println!("|---|---:|---:|---:|---:|");
        for small in &self.rows {
            for great in &self.rows {
                if great.operation == small.operation && great.size == 2 * small.size {
                    println!(
                        "| {} | {} | {} | {:.2} | {:.2} |",
                        small.operation,
                        small.size,
                        great.size,
                        great.rust / small.rust,
                        great.port / small.port
                    );
                }
            }
        }
    }
    /// The row with the greatest ratio.
    pub fn worst(&self) -> Option<&Row> {
        let by_ratio = |a: &&Row, b: &&Row| a.ratio().total_cmp(&b.ratio());
        self.rows.iter().max_by(by_ratio)
    }
}
