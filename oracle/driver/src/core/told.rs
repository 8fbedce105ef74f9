//! What the Rust answers: a value, a refusal or a panic.

use std::cell::Cell;
use std::panic;

#[derive(Clone, Debug, Eq, PartialEq)]
pub enum Told<T> {
    Value(T),
    Refused(u32),
    Panicked,
}

impl<T> Told<T> {
    /// The answer for a panic, which no call of the port gives.
    pub const PANICKED: u32 = u32::MAX;

    /// 0 or the refusal's number.
    pub fn number(&self) -> u32 {
        match self {
            Told::Value(_) => 0,
            Told::Refused(number) => *number,
            Told::Panicked => Told::<T>::PANICKED,
        }
    }
    /// The value, or the previous one.
    pub fn value_or(self, left: T) -> T {
        match self {
            Told::Value(value) => value,
            Told::Refused(_) | Told::Panicked => left,
        }
    }
}

thread_local! {
    /// Whether a panic is expected, and must not be printed.
    static AWAITED: Cell<bool> = const { Cell::new(false) };
}

/// Keeps expected panics silent. Called once, at the start.
pub fn silence() {
    let print = panic::take_hook();
    panic::set_hook(Box::new(move |info| {
        if !AWAITED.with(Cell::get) {
            print(info);
        }
    }));
}

/// The answer of `call`. A refusal is an `Err` with its number.
pub fn told<T>(call: impl FnOnce() -> Result<T, u32>) -> Told<T> {
    AWAITED.with(|awaited| awaited.set(true));
    let result = panic::catch_unwind(panic::AssertUnwindSafe(call));
    AWAITED.with(|awaited| awaited.set(false));
    match result {
        Ok(Ok(value)) => Told::Value(value),
        Ok(Err(number)) => Told::Refused(number),
        Err(_) => Told::Panicked,
    }
}
