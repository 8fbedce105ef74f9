//! The published examples and those of docs/FORMAT.md, on the Rust alone:
//! they show that it is built right, including the stand-ins.

use super::Part;
use super::Rounds;
use crate::core::oracle::Number;
use crate::core::oracle::Tally;
use crate::core::padding::padded_at;
use crate::core::report::Difference;
use crate::core::report::Run;
use crate::core::report::Shown;
use crate::core::text::hex;
use crate::core::told::told;
use crate::core::told::Told;
use cefdugar::Warnings;
use libtw2_gamenet_snap::SnapMsg;
use libtw2_gamenet_snap::SnapSingle;
use libtw2_packer::with_packer;
use libtw2_packer::IntUnpacker;
use libtw2_packer::Unpacker;
use libtw2_packer::Warning::NonZeroIntPadding;
use libtw2_snapshot::format::apply_item_delta;
use libtw2_snapshot::format::create_item_delta;
use libtw2_snapshot::format::DeltaDifferingSizes;
use libtw2_snapshot::snap::delta_chunks;
use libtw2_snapshot::snap::RawBuilder;
use libtw2_snapshot::snap::RawSnap;
use libtw2_snapshot::Delta;
use libtw2_snapshot::Manager;
use libtw2_warn::Warn;
use std::fmt::Debug;

pub fn part() -> Part {
    Part {
        name: "examples",
        rounds: Rounds { quick: 0, full: 0 },
        compare,
        record: None,
        bench: None,
    }
}

struct Examples<'a> {
    run: &'a mut Run,
}

impl Examples<'_> {
    /// An example has the published result.
    fn is<T: Debug + PartialEq>(
        &mut self,
        name: &str,
        found: T,
        written: T,
    ) -> Result<(), Difference> {
        self.run.cases += 1;
        if found == written {
            return Ok(());
        }
        Err(Difference {
            input: name.to_string(),
            shown: Shown {
                oracle: format!("{found:?}"),
                port: format!("none; written: {written:?}"),
            },
        })
    }
}

fn compare(run: &mut Run) -> Result<(), Difference> {
    let mut examples = Examples { run };
    item_deltas(&mut examples)?;
    packed_ints(&mut examples)?;
    padded_ints(&mut examples)?;
    tables(&mut examples)?;
    warnings(&mut examples)?;
    chunks(&mut examples)?;
    panics(&mut examples)
}

/// The examples in format.rs.
fn item_deltas(examples: &mut Examples) -> Result<(), Difference> {
    const OLD: [i32; 4] = [0, 1337, 42, 0x7fff_ffff];
    const NEW: [i32; 4] = [0, 1338, 21, -0x8000_0000];
    const DELTA: [i32; 4] = [0, 1, -21, 1];
    let mut out = [0; 4];

    let result = apply_item_delta(Some(&OLD), &DELTA, &mut out);
    examples.is("apply_item_delta", (result, out), (Ok(()), NEW))?;
    let result = apply_item_delta(None, &DELTA, &mut out);
    examples.is("apply_item_delta, no base", (result, out), (Ok(()), DELTA))?;
    let result = create_item_delta(Some(&OLD), &NEW, &mut out);
    examples.is("create_item_delta", (result, out), (Ok(()), DELTA))?;
    let result = create_item_delta(None, &NEW, &mut out);
    examples.is("create_item_delta, no base", (result, out), (Ok(()), NEW))?;
    let result = apply_item_delta(Some(&OLD[..3]), &DELTA, &mut out);
    examples.is(
        "apply_item_delta, lengths",
        result,
        Err(DeltaDifferingSizes),
    )
}

/// The packed integers of docs/FORMAT.md, and the stand-in for the writer's buffer.
fn packed_ints(examples: &mut Examples) -> Result<(), Difference> {
    for (int, bytes) in super::packer::MARKED {
        let mut out = Vec::with_capacity(bytes.len());
        let written = with_packer(&mut out, |mut p| {
            p.write_int(int).map(|()| p.written().len())
        });
        examples.is(
            "write_int to a Vec",
            (written, &*out),
            (Ok(bytes.len()), bytes),
        )?;

        let mut out = vec![0xaa; bytes.len() - 1];
        let before = out.clone();
        let refused = with_packer(&mut *out, |mut p| p.write_int(int)).is_err();
        examples.is("write_int, no room", (refused, out), (true, before))?;

        let mut tally = Tally::default();
        let read = Unpacker::new(bytes).read_int(&mut tally);
        examples.is("read_int", (read, tally.0), (Ok(int), Warnings::default()))?;
    }
    let mut out = vec![7; 3];
    out.reserve_exact(4);
    let room = out.capacity() - out.len();
    let fits = with_packer(&mut out, |mut p| (0..room).all(|_| p.write_int(1).is_ok()));
    let more = with_packer(&mut out, |mut p| p.write_int(1).is_ok());
    let mut expected = vec![7; 3];
    expected.resize(3 + room, 1);
    examples.is(
        "a Vec's capacity",
        (fits, more, out),
        (true, false, expected),
    )
}

/// Takes only the packer's warnings.
#[derive(Default)]
struct Heard(Vec<libtw2_packer::Warning>);

impl Warn<libtw2_packer::Warning> for Heard {
    fn warn(&mut self, warning: libtw2_packer::Warning) {
        self.0.push(warning);
    }
}

/// The place of the first int of which the Rust warns that it is padded.
fn warned_at(bytes: &[u8]) -> Option<usize> {
    let mut unpacker = Unpacker::new(bytes);
    loop {
        let at = unpacker.num_bytes_read();
        let mut heard = Heard::default();
        unpacker.read_int(&mut heard).ok()?;
        if heard.0.contains(&NonZeroIntPadding) {
            return Some(at);
        }
    }
}

/// The Rust warns of a padded int and uses its value, so that such bytes are not
/// compared as they are. The model finds exactly those of which the Rust warns.
fn padded_ints(examples: &mut Examples) -> Result<(), Difference> {
    let mut heard = Heard::default();
    let read = Unpacker::new(&[0x80, 0x80, 0x80, 0x80, 0x10]).read_int(&mut heard);
    let expected = (Ok(i32::MIN), vec![NonZeroIntPadding]);
    examples.is("a padded int", (read, heard.0), expected)?;

    const TELLING: [u8; 7] = [0x00, 0x0f, 0x10, 0x40, 0x80, 0x90, 0xff];
    for len in 0..=6 {
        for number in 0..TELLING.len().pow(len) {
            let bytes = super::packer::numbered(number, len, &TELLING);
            examples.is(&hex(&bytes), warned_at(&bytes), padded_at(&bytes))?;
        }
    }
    Ok(())
}

/// The lines of `tablelist`, or the refusal.
fn listed(bytes: &[u8]) -> (Told<String>, Warnings) {
    let mut tally = Tally::default();
    let said = told(|| {
        let mut table = RawSnap::empty();
        table
            .read(&mut tally, &mut Vec::new(), bytes)
            .map_err(|error| error.number())?;
        let mut items: Vec<_> = table.items().collect();
        items.sort_by_key(|item| item.key() as u32);
        let mut lines = format!("items {} sum {}\n", items.len(), table.crc());
        for item in items {
            lines += &format!("{} {} {}\n", item.raw_type_id, item.id, item.data.len());
        }
        Ok(lines)
    });
    (said, tally.0)
}

fn read_ints(ints: &[i32]) -> Told<usize> {
    told(|| {
        let mut table = RawSnap::empty();
        let result = table.read_from_ints(&mut Tally::default(), ints);
        result
            .map(|()| table.items().len())
            .map_err(|error| error.number())
    })
}

/// Worked examples of tables.
fn tables(examples: &mut Examples) -> Result<(), Difference> {
    let bytes = [0x08, 0x01, 0x00, 0x82, 0x80, 0x08, 0x07];
    let lines = "items 1 sum 7\n1 2 1\n".to_string();
    let expected = (Told::Value(lines), Warnings::default());
    examples.is("tablelist", listed(&bytes), expected)?;
    examples.is("ints 0, 0", read_ints(&[0, 0]), Told::Value(0))?;
    examples.is("ints 4, 0, 9", read_ints(&[4, 0, 9]), Told::Refused(12))?;

    let items = |count: u16| {
        told(|| {
            let mut builder = RawBuilder::new();
            (0..count)
                .try_for_each(|id| builder.add_item(1, id, &[]))
                .map_err(|error| error.number())
        })
    };
    examples.is("1,024 items", items(1024), Told::Value(()))?;
    examples.is("1,025 items", items(1025), Told::Refused(9))?;
    let ints = |count: usize| {
        told(|| {
            let data = vec![0; count];
            let result = RawBuilder::new().add_item(1, 0, &data);
            result.map_err(|error| error.number())
        })
    };
    examples.is("an item of 16,380 ints", ints(16_380), Told::Value(()))?;
    examples.is("an item of 16,381 ints", ints(16_381), Told::Refused(8))
}

/// Warnings come through all layers, each once.
fn warnings(examples: &mut Examples) -> Result<(), Difference> {
    // Two overlong ints, and one that is cut off.
    let bytes = [0x80, 0x00, 0x80, 0x80, 0x80, 0x80, 0x00, 0x80];
    let mut expected = Warnings::default();
    expected.0[Warnings::OVERLONG_INT_ENCODING] = 2;
    expected.0[Warnings::EXCESS_SNAP_DATA] = 1;
    let lines = "items 0 sum 0\n".to_string();
    let expected = (Told::Value(lines), expected);
    examples.is("a table with warnings", listed(&bytes), expected)?;

    // An overlong int and a padding of 1, against the base -2.
    let message = SnapSingle {
        tick: 5,
        delta_tick: 7,
        crc: 0,
        data: &[0x80, 0x00, 0x00, 0x01],
    };
    let mut tally = Tally::default();
    let mut manager = Manager::new();
    let said = told(|| {
        let result = manager.snap_single(&mut tally, |_| None, message);
        let taken = result.map_err(|error| error.number())?;
        Ok(taken.map(|table| table.items().len()))
    });
    let mut expected = Warnings::default();
    expected.0[Warnings::OVERLONG_INT_ENCODING] = 1;
    expected.0[Warnings::NON_ZERO_PADDING] = 1;
    expected.0[Warnings::WEIRD_NEGATIVE_DELTA_TICK] = 1;
    let found = (said, tally.0, manager.ack_tick());
    let expected = (Told::Value(Some(0)), expected, Some(5));
    examples.is("a message with warnings", found, expected)
}

/// Worked examples of parts.
fn chunks(examples: &mut Examples) -> Result<(), Difference> {
    let kinds = |len: usize| {
        let data = vec![0; len];
        let kind = |message| match message {
            SnapMsg::SnapEmpty(_) => ("empty", 0),
            SnapMsg::SnapSingle(single) => ("single", single.data.len()),
            SnapMsg::Snap(part) => ("part", part.data.len()),
        };
        delta_chunks(5, 3, &data, 0).map(kind).collect::<Vec<_>>()
    };
    examples.is("0 bytes", kinds(0), vec![("empty", 0)])?;
    examples.is("900 bytes", kinds(900), vec![("single", 900)])?;
    examples.is("901 bytes", kinds(901), vec![("part", 900), ("part", 1)])?;
    let wrapped = told(|| Ok(delta_chunks(i32::MIN, 1, &[], 0).count()));
    examples.is("a distance that wraps", wrapped, Told::Value(1))
}

/// A panic of the Rust is distinguished from a refusal.
fn panics(examples: &mut Examples) -> Result<(), Difference> {
    let applied = told(|| {
        let mut builder = RawBuilder::new();
        builder
            .add_item(1, 2, &[7])
            .map_err(|error| error.number())?;
        let mut delta = Delta::new();
        let mut ints = IntUnpacker::new(&[0, 1, 0, 1, 2, 2, 5, 6]);
        delta
            .read_from_ints(&mut Tally::default(), |_| None, &mut ints)
            .map_err(|error| error.number())?;
        RawSnap::empty()
            .read_with_delta(&mut Tally::default(), &builder.finish(), &delta)
            .map_err(|error| error.number())
    });
    examples.is("a shared key of another length", applied, Told::Panicked)
}
