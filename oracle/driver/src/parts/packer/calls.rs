//! Each call on both sides: the answer, what was set, what was unchanged.

use super::oracle;
use crate::core::area::Area;
use crate::core::area::LEFT_FLAG;
use crate::core::area::LEFT_INT;
use crate::core::area::LEFT_SIZE;
use crate::core::counted::room;
use crate::core::report::Compared;
use crate::core::report::Difference;
use crate::core::report::Run;
use crate::core::report::Shown;
use crate::core::text::hex_short;
use cefdugar::plain;
use cefdugar::Refusal;
use cefdugar::Warnings;

pub const LEFT_WARNINGS: Warnings = Warnings([LEFT_SIZE; cefdugar::WARNINGS]);

/// What the caller holds after `read_int`.
#[derive(Clone, Copy, Debug, PartialEq)]
struct Read {
    number: u32,
    value: i32,
    next: usize,
    warnings: Warnings,
}

/// What the caller holds after `write_int`, beside the area.
#[derive(Clone, Copy, Debug, PartialEq)]
struct Written {
    number: u32,
    next: usize,
}

/// What the caller holds after `unpack`, beside the area.
#[derive(Clone, Copy, Debug, PartialEq)]
struct Unpacked {
    number: u32,
    count: usize,
    cut: u32,
    warnings: Warnings,
}

/// A number and a value as the safe calls return them.
pub fn answer<T>(number: u32, value: T) -> Result<T, Refusal> {
    match number {
        0 => Ok(value),
        number => Err(Refusal(number)),
    }
}

/// Both sides' areas, lent repeatedly.
pub struct Calls {
    src: Area<u8>,
    bytes: Area<u8>,
    oracle_bytes: Area<u8>,
    ints: Area<i32>,
    oracle_ints: oracle::Unpacked,
}

impl Calls {
    pub fn new() -> Calls {
        Calls {
            src: Area::new(),
            bytes: Area::new(),
            oracle_bytes: Area::new(),
            ints: Area::new(),
            oracle_ints: oracle::Unpacked::default(),
        }
    }

    /// Reads at place `at` of `src`.
    pub fn read(&mut self, run: &mut Run, src: &[u8], at: usize) -> Result<(), Difference> {
        let compared = self.compare_read(src, at);
        run.case(
            compared,
            || (src.to_vec(), at),
            |(src, at)| self.compare_read(src, *at),
            |(src, at)| format!("read_int at {at} of {}", hex_short(src)),
        )
    }

    /// Writes `int` at place `at` of an area of `len` bytes.
    pub fn write(
        &mut self,
        run: &mut Run,
        len: usize,
        at: usize,
        int: i32,
    ) -> Result<(), Difference> {
        let compared = self.compare_write(len, at, int);
        run.case(
            compared,
            || (len, at, int),
            |(len, at, int)| self.compare_write(*len, *at, *int),
            |(len, at, int)| format!("write_int of {int} at {at} of {len} bytes"),
        )
    }

    /// Writes the ints of `list` one after the other.
    pub fn write_list(&mut self, run: &mut Run, list: &[i32]) -> Result<(), Difference> {
        let compared = self.compare_write_list(list);
        run.case(
            compared,
            || list.to_vec(),
            |list| self.compare_write_list(list),
            |list| format!("write_int of each of {list:?}"),
        )
    }

    /// Unpacks `src` into an area with as much room as it needs, up to a padded
    /// int, and `spare` more, or none if that is negative.
    pub fn unpack(&mut self, run: &mut Run, src: &[u8], spare: isize) -> Result<(), Difference> {
        let compared = self.compare_unpack(src, spare);
        run.case(
            compared,
            || (src.to_vec(), spare),
            |(src, spare)| self.compare_unpack(src, *spare),
            |(src, spare)| format!("unpack of {}, room to spare: {spare}", hex_short(src)),
        )
    }

    fn compare_read(&mut self, src: &[u8], at: usize) -> Compared {
        let (said, warnings) = oracle::read_int(src, at);
        let number = said.number();
        let (value, next) = said.value_or((LEFT_INT, LEFT_SIZE));
        let oracle = Read {
            number,
            value,
            next,
            warnings,
        };

        // Long bytes are not copied: they are read at many places.
        let short = src.len() <= 1_000;
        let lent = if short {
            self.src.lend_filled(src)
        } else {
            src
        };
        let mut port = Read {
            number: 0,
            value: LEFT_INT,
            next: LEFT_SIZE,
            warnings: LEFT_WARNINGS,
        };
        port.number = plain::read_int(
            lent,
            at,
            &mut port.value,
            &mut port.next,
            &mut port.warnings,
        );
        Shown::compare(&oracle, &port)?;
        if short {
            let left = self.src.check(0, src);
            left.map_err(|how| Shown::touched("src", how))?;
        }
        let safe = cefdugar::read_int(src, at);
        Shown::compare(&(answer(number, (value, next)), warnings), &safe)
    }

    fn compare_write(&mut self, len: usize, at: usize, int: i32) -> Compared {
        let said = oracle::write_int(self.oracle_bytes.lend(len), at, int);
        let number = said.number();
        let next = said.value_or(LEFT_SIZE);
        let oracle = Written { number, next };

        let mut port = Written {
            number: 0,
            next: LEFT_SIZE,
        };
        port.number = plain::write_int(self.bytes.lend(len), at, int, &mut port.next);
        Shown::compare(&oracle, &port)?;
        let written = match number {
            0 => &self.oracle_bytes.now()[at..next],
            _ => &[],
        };
        // The Rust's own area shows that the stand-in writes nothing else.
        for (name, area) in [("the Rust's out", &self.oracle_bytes), ("out", &self.bytes)] {
            let left = area.check(at, written);
            left.map_err(|how| Shown::touched(name, how))?;
        }

        let safe = cefdugar::write_int(self.bytes.lend(len), at, int);
        Shown::compare(&answer(number, next), &safe)
    }

    fn compare_write_list(&mut self, list: &[i32]) -> Compared {
        let bytes = oracle::packed(list);
        let out = self.bytes.lend(bytes.len() + 1);
        let mut at = 0;
        for &int in list {
            at = match cefdugar::write_int(out, at, int) {
                Ok(next) => next,
                Err(refusal) => {
                    return Err(Shown {
                        oracle: format!("{} bytes", bytes.len()),
                        port: format!("{int} at {at}: {refusal}"),
                    })
                }
            };
        }
        Shown::compare(&bytes.len(), &at)?;
        let left = self.bytes.check(0, &bytes);
        left.map_err(|how| Shown::touched("out", how))
    }

    /// What `unpack` must answer, and the room that it is lent.
    fn expected_unpack(&mut self, src: &[u8], spare: isize) -> (Unpacked, usize) {
        let (said, warnings) = oracle::unpack_any(src, &mut self.oracle_ints);
        let needed = self.oracle_ints.ints.len();
        let room = room(needed, spare);
        let number = match said.number() {
            0 if needed > room => 40,
            number => number,
        };
        let (count, cut) = match number {
            0 => (needed, self.oracle_ints.cut.into()),
            _ => (LEFT_SIZE, LEFT_FLAG),
        };
        let unpacked = Unpacked {
            number,
            count,
            cut,
            warnings,
        };
        (unpacked, room)
    }

    fn compare_unpack(&mut self, src: &[u8], spare: isize) -> Compared {
        let (oracle, room) = self.expected_unpack(src, spare);
        let lent = self.src.lend_filled(src);
        let mut port = Unpacked {
            number: 0,
            count: LEFT_SIZE,
            cut: LEFT_FLAG,
            warnings: LEFT_WARNINGS,
        };
        port.number = plain::unpack(
            lent,
            self.ints.lend(room),
            &mut port.count,
            &mut port.cut,
            &mut port.warnings,
        );
        Shown::compare(&oracle, &port)?;
        let written = match oracle.number {
            0 => &self.oracle_ints.ints[..],
            _ => &[],
        };
        let left = self.ints.check(0, written);
        left.map_err(|how| Shown::touched("out", how))?;
        let left = self.src.check(0, src);
        left.map_err(|how| Shown::touched("src", how))?;

        let unpacked = cefdugar::Unpacked {
            count: oracle.count,
            cut: oracle.cut != 0,
        };
        let safe = cefdugar::unpack(src, self.ints.lend(room));
        Shown::compare(&(answer(oracle.number, unpacked), oracle.warnings), &safe)
    }
}
