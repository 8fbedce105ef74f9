//! Stand-in for `libtw2_common`: number casts, a macro and a byte printer.
//!
//! Taken for granted: a cast gives the same number or, where the type lacks
//! it, `None` (`try_`) or a panic (`assert_`); `unwrap_or_return!` returns its
//! second argument on `None`; how `pretty::Bytes` looks matters to no result.

/// The content of `Some`, or a return from the function with `$none`.
#[macro_export]
macro_rules! unwrap_or_return {
    ($option:expr, $none:expr) => {
        match $option {
            Some(value) => value,
            None => return $none,
        }
    };
}

pub mod num {
    /// Casts that keep the number. Only those that are used are here.
    pub trait Cast: Sized + TryInto<u16> + TryInto<u32> + TryInto<i32> + TryInto<usize> {
        fn try_u16(self) -> Option<u16> {
            self.try_into().ok()
        }
        fn try_u32(self) -> Option<u32> {
            self.try_into().ok()
        }
        fn try_i32(self) -> Option<i32> {
            self.try_into().ok()
        }
        fn try_usize(self) -> Option<usize> {
            self.try_into().ok()
        }
        fn assert_u32(self) -> u32 {
            self.try_u32().expect("out of range of u32")
        }
        fn assert_i32(self) -> i32 {
            self.try_i32().expect("out of range of i32")
        }
        fn assert_usize(self) -> usize {
            self.try_usize().expect("out of range of usize")
        }
        /// Only for types all of whose numbers are an `i32`.
        fn i32(self) -> i32 {
            self.assert_i32()
        }
        /// Only for types all of whose numbers are a `usize`.
        fn usize(self) -> usize {
            self.assert_usize()
        }
    }

    impl Cast for u16 {}
    impl Cast for u32 {}
    impl Cast for i32 {}
    impl Cast for usize {}
}

pub mod pretty {
    use std::fmt;

    /// Bytes, printed as a list.
    pub struct Bytes<'a>(&'a [u8]);

    impl<'a> Bytes<'a> {
        pub fn new(bytes: &'a [u8]) -> Bytes<'a> {
            Bytes(bytes)
        }
    }

    impl<'a> fmt::Debug for Bytes<'a> {
        fn fmt(&self, f: &mut fmt::Formatter) -> fmt::Result {
            self.0.fmt(f)
        }
    }
}
