//! The Rust's warnings and errors in the order and numbers of docs/FORMAT.md.

use cefdugar::Warnings;
use libtw2_snapshot::format;
use libtw2_snapshot::manager;
use libtw2_snapshot::receiver;
use libtw2_snapshot::snap;
use libtw2_snapshot::storage;
use libtw2_warn::Warn;

/// Counts the Rust's warnings.
#[derive(Default)]
pub struct Tally(pub Warnings);

impl Tally {
    fn count(&mut self, kind: usize) {
        (self.0).0[kind] += 1;
    }
}

/// The counts that are held against the Rust's: all but `DifferingAttributes`,
/// which the Rust counts by another rule.
pub fn comparable(mut warnings: Warnings) -> Warnings {
    warnings.0[Warnings::DIFFERING_ATTRIBUTES] = 0;
    warnings
}

impl Warn<libtw2_packer::Warning> for Tally {
    fn warn(&mut self, warning: libtw2_packer::Warning) {
        self.count(match warning {
            libtw2_packer::Warning::OverlongIntEncoding => Warnings::OVERLONG_INT_ENCODING,
            // The Rust is given no padded bytes. If it were, this count would show it; a
            // panic here would make the Rust's own loops slower.
            libtw2_packer::Warning::NonZeroIntPadding => Warnings::WEIRD_NEGATIVE_DELTA_TICK,
            libtw2_packer::Warning::ExcessData => panic!("ExcessData arises nowhere"),
        });
    }
}

impl Warn<format::Warning> for Tally {
    fn warn(&mut self, warning: format::Warning) {
        self.count(match warning {
            format::Warning::Packer(warning) => return self.warn(warning),
            format::Warning::NonZeroPadding => Warnings::NON_ZERO_PADDING,
            format::Warning::DuplicateDelete => Warnings::DUPLICATE_DELETE,
            format::Warning::DuplicateUpdate => Warnings::DUPLICATE_UPDATE,
            format::Warning::UnknownDelete => Warnings::UNKNOWN_DELETE,
            format::Warning::DeleteUpdate => Warnings::DELETE_UPDATE,
            format::Warning::NumUpdatedItems => Warnings::NUM_UPDATED_ITEMS,
            format::Warning::ExcessSnapData => Warnings::EXCESS_SNAP_DATA,
            format::Warning::ExcessUuidItemData => Warnings::EXCESS_UUID_ITEM_DATA,
        });
    }
}

impl Warn<receiver::Warning> for Tally {
    fn warn(&mut self, warning: receiver::Warning) {
        self.count(match warning {
            receiver::Warning::DuplicateSnap => Warnings::DUPLICATE_SNAP,
            receiver::Warning::DifferingAttributes => Warnings::DIFFERING_ATTRIBUTES,
        });
    }
}

impl Warn<storage::WeirdNegativeDeltaTick> for Tally {
    fn warn(&mut self, _: storage::WeirdNegativeDeltaTick) {
        self.count(Warnings::WEIRD_NEGATIVE_DELTA_TICK);
    }
}

impl Warn<storage::Warning> for Tally {
    fn warn(&mut self, warning: storage::Warning) {
        match warning {
            storage::Warning::WeirdNegativeDeltaTick => self.warn(storage::WeirdNegativeDeltaTick),
            storage::Warning::Unpack(warning) => self.warn(warning),
        }
    }
}

impl Warn<manager::Warning> for Tally {
    fn warn(&mut self, warning: manager::Warning) {
        match warning {
            manager::Warning::Receiver(warning) => self.warn(warning),
            manager::Warning::Snap(warning) => self.warn(warning),
            manager::Warning::Storage(warning) => self.warn(warning),
        }
    }
}

/// Errors that have a number.
pub trait Number {
    fn number(&self) -> u32;
}

impl Number for snap::Error {
    fn number(&self) -> u32 {
        match self {
            snap::Error::UnexpectedEnd => 1,
            snap::Error::IntOutOfRange => 2,
            snap::Error::DeletedItemsUnpacking => 3,
            snap::Error::ItemDiffsUnpacking => 4,
            snap::Error::TypeIdRange => 5,
            snap::Error::IdRange => 6,
            snap::Error::NegativeSize => 7,
            snap::Error::TooLongDiff => panic!("TooLongDiff has no number"),
            snap::Error::TooLongSnap => 8,
            snap::Error::TooManyItems => 9,
            snap::Error::DeltaDifferingSizes => 10,
            snap::Error::OffsetsUnpacking => 11,
            snap::Error::InvalidOffset => 12,
            snap::Error::ItemsUnpacking => 13,
            snap::Error::DuplicateKey => 14,
            snap::Error::DuplicateUuidType => 15,
            snap::Error::InvalidUuidType => 16,
            snap::Error::MissingUuidType => 17,
        }
    }
}

impl Number for snap::BuilderError {
    fn number(&self) -> u32 {
        snap::Error::from(self.clone()).number()
    }
}

impl Number for receiver::Error {
    fn number(&self) -> u32 {
        match self {
            receiver::Error::OldDelta => 20,
            receiver::Error::InvalidNumParts => 21,
            receiver::Error::InvalidPart => 22,
            receiver::Error::DuplicatePart => 23,
        }
    }
}

impl Number for storage::UnknownSnap {
    fn number(&self) -> u32 {
        31
    }
}

impl Number for storage::Error {
    fn number(&self) -> u32 {
        match self {
            storage::Error::OldDelta => 30,
            storage::Error::UnknownSnap => storage::UnknownSnap.number(),
            storage::Error::InvalidCrc => 32,
            storage::Error::Unpack(error) => error.number(),
        }
    }
}

impl Number for manager::Error {
    fn number(&self) -> u32 {
        match self {
            manager::Error::Receiver(error) => error.number(),
            manager::Error::Snap(error) => error.number(),
            manager::Error::Storage(error) => error.number(),
        }
    }
}

impl Number for libtw2_packer::UnexpectedEnd {
    fn number(&self) -> u32 {
        1
    }
}

impl Number for libtw2_buffer::CapacityError {
    fn number(&self) -> u32 {
        40
    }
}
