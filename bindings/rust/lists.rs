//! Lists of numbers that have a type of their own, so that none stands where another is meant.

#![forbid(unsafe_code)]

/// Declares a list: its name, its numbers, and names for those of them that stand alone.
///
/// It is a slice wherever one is wanted (`&tau` is a `&[f64]`, `tau[6]` a number), comes from an array by
/// `From`, and its array is `.0`.
macro_rules! list {
    ($(#[$about:meta])* $name:ident: [$number:ty; $count:literal] { $($entry:ident $at:literal),* }) => {
        $(#[$about])*
        #[derive(Clone, Copy, Debug, PartialEq)]
        #[repr(transparent)]
        pub struct $name(pub [$number; $count]);

        impl $name {
            $(
                #[doc = concat!("Number ", $at, ".")]
                pub fn $entry(&self) -> $number {
                    self.0[$at]
                }
            )*
        }

        impl From<[$number; $count]> for $name {
            fn from(numbers: [$number; $count]) -> Self {
                Self(numbers)
            }
        }

        impl From<$name> for [$number; $count] {
            fn from(list: $name) -> Self {
                list.0
            }
        }

        impl std::ops::Deref for $name {
            type Target = [$number];
            fn deref(&self) -> &[$number] {
                &self.0
            }
        }

        impl std::ops::DerefMut for $name {
            fn deref_mut(&mut self) -> &mut [$number] {
                &mut self.0
            }
        }
    };
}

pub(crate) use list;
