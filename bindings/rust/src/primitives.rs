//! The identifiers of patterns and of states.
use std::{
    error::Error,
    fmt,
    ops::{Index, IndexMut},
};

macro_rules! number {
    ($name:ident, $error:ident, $what:literal) => {
        #[doc = concat!("The number of a ", $what, ", from 0. It can index slices and vectors.")]
        #[derive(Clone, Copy, Default, PartialEq, Eq, PartialOrd, Ord, Hash)]
        pub struct $name(u32);

        impl $name {
            /// The least number.
            pub const ZERO: $name = $name(0);
            /// The greatest number.
            pub const MAX: $name = $name(i32::MAX as u32 - 1);
            /// The number of valid numbers.
            pub const LIMIT: usize = $name::MAX.0 as usize + 1;
            /// The size of a number in bytes.
            pub const SIZE: usize = std::mem::size_of::<$name>();

            /// Returns the number, or an error if it is above `MAX`.
            pub fn new(value: usize) -> Result<$name, $error> {
                $name::try_from(value)
            }

            /// Returns the number without a check: with one above `MAX`, calls may return wrong
            /// answers or panic.
            pub const fn new_unchecked(value: usize) -> $name {
                $name(value as u32)
            }

            /// Returns the number without a check, as `new_unchecked` does.
            pub const fn from_u32_unchecked(value: u32) -> $name {
                $name(value)
            }

            /// Returns the number. Panics if it is above `MAX`.
            pub fn must(value: usize) -> $name {
                $name::new(value).expect(concat!("invalid ", stringify!($name), " value"))
            }

            /// Returns the number as a `usize`.
            pub const fn as_usize(&self) -> usize {
                self.0 as usize
            }

            /// Returns the number as a `u64`.
            pub const fn as_u64(&self) -> u64 {
                self.0 as u64
            }

            /// Returns the number as a `u32`.
            pub const fn as_u32(&self) -> u32 {
                self.0
            }

            /// Returns the number as an `i32`.
            pub const fn as_i32(&self) -> i32 {
                self.0 as i32
            }

            /// Returns the number plus one, as the length of a list whose last index it is.
            pub fn one_more(&self) -> usize {
                self.as_usize() + 1
            }

            /// Returns its bytes in native byte order.
            pub fn to_ne_bytes(&self) -> [u8; 4] {
                self.0.to_ne_bytes()
            }

            /// Returns the number with these bytes in native byte order, or an error if it is above
            /// `MAX`.
            pub fn from_ne_bytes(bytes: [u8; 4]) -> Result<$name, $error> {
                $name::try_from(u32::from_ne_bytes(bytes))
            }

            /// Returns the number with these bytes without a check, as `new_unchecked` does.
            pub fn from_ne_bytes_unchecked(bytes: [u8; 4]) -> $name {
                $name(u32::from_ne_bytes(bytes))
            }
        }

        impl fmt::Debug for $name {
            fn fmt(&self, to: &mut fmt::Formatter<'_>) -> fmt::Result {
                to.debug_tuple(stringify!($name)).field(&self.0).finish()
            }
        }

        impl From<u8> for $name {
            fn from(value: u8) -> $name {
                $name(u32::from(value))
            }
        }

        impl TryFrom<u16> for $name {
            type Error = $error;

            fn try_from(value: u16) -> Result<$name, $error> {
                Ok($name(u32::from(value)))
            }
        }

        impl TryFrom<u32> for $name {
            type Error = $error;

            fn try_from(value: u32) -> Result<$name, $error> {
                $name::try_from(u64::from(value))
            }
        }

        impl TryFrom<u64> for $name {
            type Error = $error;

            fn try_from(value: u64) -> Result<$name, $error> {
                if value <= $name::MAX.as_u64() {
                    Ok($name(value as u32))
                } else {
                    Err($error { attempted: value })
                }
            }
        }

        impl TryFrom<usize> for $name {
            type Error = $error;

            fn try_from(value: usize) -> Result<$name, $error> {
                $name::try_from(value as u64)
            }
        }

        impl<T> Index<$name> for [T] {
            type Output = T;

            fn index(&self, at: $name) -> &T {
                &self[at.as_usize()]
            }
        }

        impl<T> IndexMut<$name> for [T] {
            fn index_mut(&mut self, at: $name) -> &mut T {
                &mut self[at.as_usize()]
            }
        }

        impl<T> Index<$name> for Vec<T> {
            type Output = T;

            fn index(&self, at: $name) -> &T {
                &self[at.as_usize()]
            }
        }

        impl<T> IndexMut<$name> for Vec<T> {
            fn index_mut(&mut self, at: $name) -> &mut T {
                &mut self[at.as_usize()]
            }
        }

        #[doc = concat!("A number above `", stringify!($name), "::MAX`.")]
        #[derive(Clone, Debug, PartialEq, Eq)]
        pub struct $error {
            attempted: u64,
        }

        impl $error {
            /// Returns the number that was too large.
            pub fn attempted(&self) -> u64 {
                self.attempted
            }
        }

        impl fmt::Display for $error {
            fn fmt(&self, to: &mut fmt::Formatter<'_>) -> fmt::Result {
                write!(to, "failed to create {} from {}, which exceeds {:?}", stringify!($name), self.attempted, $name::MAX)
            }
        }

        impl Error for $error {}
    };
}

number!(PatternID, PatternIDError, "pattern, in the order in which the patterns were given");
number!(StateID, StateIDError, "state");
