//! Stand-in for `libtw2_warn`: warnings go to whoever the caller names.
//!
//! Taken for granted: a warning is handed on at once, exactly once and in
//! order; `wrap` changes its type by `From` and nothing else; `Ignore` drops
//! it.

use std::marker::PhantomData;

/// Takes warnings of type `W`.
pub trait Warn<W> {
    fn warn(&mut self, warning: W);
}

/// Drops every warning.
#[derive(Clone, Copy, Debug, Default)]
pub struct Ignore;

impl<W> Warn<W> for Ignore {
    fn warn(&mut self, _: W) {}
}

/// A taker of `To` that takes all that turns into a `To`.
#[repr(transparent)]
pub struct Wrap<To, W> {
    inner: W,
    to: PhantomData<fn(To)>,
}

impl<From, To: std::convert::From<From>, W: Warn<To>> Warn<From> for Wrap<To, W> {
    fn warn(&mut self, warning: From) {
        self.inner.warn(warning.into());
    }
}

/// The same taker, for warnings that turn into its own.
pub fn wrap<To, W: Warn<To>>(warn: &mut W) -> &mut Wrap<To, W> {
    // SAFETY: `Wrap` is transparent over `W`, and the borrow is handed on.
    unsafe { &mut *(warn as *mut W).cast::<Wrap<To, W>>() }
}
