//! From an input that shows a difference to a small one that shows one too.

use std::time::Duration;
use std::time::Instant;

/// Inputs that can be made smaller.
pub trait Shrink: Clone {
    /// Offers smaller inputs, the smallest first, until one is taken.
    fn offer(&self, take: &mut dyn FnMut(Self) -> bool) -> bool;
}

/// How long a smaller input is searched.
const PATIENCE: Duration = Duration::from_secs(30);

/// The smallest input found that `differs`, with what it shows. `first` must
/// differ.
pub fn smallest<I: Shrink, D>(first: I, mut differs: impl FnMut(&I) -> Option<D>) -> (I, D) {
    let shown = differs(&first).expect("a difference does not come back");
    let mut best = (first, shown);
    let start = Instant::now();
    loop {
        let mut smaller = None;
        best.0.offer(&mut |input| {
            if start.elapsed() > PATIENCE {
                return true;
            }
            match differs(&input) {
                Some(shown) => {
                    smaller = Some((input, shown));
                    true
                }
                None => false,
            }
        });
        match smaller {
            Some(found) => best = found,
            None => return best,
        }
    }
}

macro_rules! shrink_number {
    ($($number:ty),*) => {$(
        /// Nearer to 0, and preferably above it.
        impl Shrink for $number {
            fn offer(&self, take: &mut dyn FnMut($number) -> bool) -> bool {
                let n = *self;
                #[allow(unused_comparisons)]
                if n < 0 && n.wrapping_neg() != n && take(n.wrapping_neg()) {
                    return true;
                }
                let mut step = n;
                while step != 0 {
                    if take(n - step) {
                        return true;
                    }
                    step /= 2;
                }
                false
            }
        }
    )*};
}

shrink_number!(u8, u16, i32, usize, isize);

impl<T: Shrink> Shrink for Vec<T> {
    fn offer(&self, take: &mut dyn FnMut(Vec<T>) -> bool) -> bool {
        let mut run = self.len();
        while run > 0 {
            for start in (0..self.len()).step_by(run) {
                let mut shorter = self.clone();
                shorter.drain(start..(start + run).min(self.len()));
                if take(shorter) {
                    return true;
                }
            }
            run /= 2;
        }
        (0..self.len()).any(|i| {
            self[i].offer(&mut |entry| {
                let mut simpler = self.clone();
                simpler[i] = entry;
                take(simpler)
            })
        })
    }
}

impl<A: Shrink, B: Shrink> Shrink for (A, B) {
    fn offer(&self, take: &mut dyn FnMut((A, B)) -> bool) -> bool {
        let (a, b) = self;
        a.offer(&mut |a| take((a, b.clone()))) || b.offer(&mut |b| take((a.clone(), b)))
    }
}

impl<A: Shrink, B: Shrink, C: Shrink> Shrink for (A, B, C) {
    fn offer(&self, take: &mut dyn FnMut((A, B, C)) -> bool) -> bool {
        let (a, b, c) = self;
        a.offer(&mut |a| take((a, b.clone(), c.clone())))
            || b.offer(&mut |b| take((a.clone(), b, c.clone())))
            || c.offer(&mut |c| take((a.clone(), b.clone(), c)))
    }
}
