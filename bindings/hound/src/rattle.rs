//! What the library of Rattle has, in which the proved code is written, and that of Rust 1.63 hasn't.

use crate::proved::spec::Error;
use std::io;

/// The error of a file that would be longer than its sizes count.
pub fn too_long() -> Error {
    Error::IoError(io::Error::new(io::ErrorKind::Other, "the sizes of the file would not fit in 32 bits"))
}

/// A type that contracts alone look at.
pub struct Brand;

/// `f64::round_ties_even`, of Rust 1.77, but that any zero may come for another one.
pub fn round_ties_even(number: f64) -> f64 {
    // From 2^52 on each float is an integer.
    let exact = if number < 0.0 { -4503599627370496.0 } else { 4503599627370496.0 };
    if number / exact < 1.0 {
        (number + exact) - exact
    } else {
        number
    }
}

macro_rules! casts {
    ($($name:ident: $from:ty => $to:ty;)*) => {
        $(
            #[inline(always)]
            pub fn $name(number: $from) -> $to {
                number as $to
            }
        )*
    };
}
casts! {
    f32_to_f64_with_nan: f32 => f64;
    nearest_f64_to_f32_with_nan: f64 => f32;
    nearest_u32_to_f32: u32 => f32;
    nearest_u64_to_f64: u64 => f64;
    saturating_f64_to_i64: f64 => i64;
}

/// A value on the heap, where there is `std`.
#[cfg(feature = "std")]
pub use std::boxed::Box as Boxed;
#[cfg(not(feature = "std"))]
pub type Boxed<T> = T;

pub fn boxed<T>(value: T) -> Boxed<T> {
    #[cfg(feature = "std")]
    let value = Box::new(value);
    value
}
