//! Stand-in for `libtw2_gamenet_common`: an error type and the type of an
//! item.
//!
//! Taken for granted: a message that ends too early is an error (messages are
//! not decoded here); a type is a plain number or sixteen bytes, and two are
//! equal when these are.

pub mod error {
    /// Why a message could not be decoded.
    #[derive(Clone, Copy, Debug, Eq, PartialEq)]
    pub enum Error {
        UnexpectedEnd,
    }

    impl From<libtw2_packer::UnexpectedEnd> for Error {
        fn from(_: libtw2_packer::UnexpectedEnd) -> Error {
            Error::UnexpectedEnd
        }
    }
}

pub mod snap_obj {
    use uuid::Uuid;

    /// The type of an item, as a program names it.
    #[derive(Clone, Copy, Debug, Eq, Hash, Ord, PartialEq, PartialOrd)]
    pub enum TypeId {
        Ordinal(u16),
        Uuid(Uuid),
    }
}
