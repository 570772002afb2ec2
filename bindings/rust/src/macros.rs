//! What the enums and bit sets of this crate have in common, said once.

/// An enum whose variants stand for numbers, each with its sentence: `From` and `TryFrom` for the number, `Display`
/// for the sentence.
macro_rules! numbered {
    ($(#[$about:meta])* $name:ident { $($(#[$doc:meta])* $variant:ident = $number:expr, $sentence:literal;)* }) => {
        $(#[$about])*
        #[derive(Clone, Copy, Debug, PartialEq, Eq, Hash)]
        pub enum $name {
            $($(#[$doc])* $variant,)*
        }

        impl $name {
            /// Every one of them, in the order of their numbers.
            pub const ALL: &'static [Self] = &[$(Self::$variant),*];
        }

        impl From<$name> for u64 {
            fn from(value: $name) -> u64 {
                match value {
                    $($name::$variant => $number,)*
                }
            }
        }

        impl TryFrom<u64> for $name {
            type Error = $crate::NoSuchNumber;

            fn try_from(number: u64) -> Result<Self, Self::Error> {
                $(if number == $number {
                    return Ok(Self::$variant);
                })*
                Err($crate::NoSuchNumber(number))
            }
        }

        impl core::fmt::Display for $name {
            fn fmt(&self, f: &mut core::fmt::Formatter) -> core::fmt::Result {
                f.write_str(match self {
                    $(Self::$variant => $sentence,)*
                })
            }
        }
    };
}

/// A set of bits of the header, with `|`, and `TryFrom` for its number.
macro_rules! bit_set {
    ($(#[$about:meta])* $name:ident { $($(#[$doc:meta])* $bit:ident,)* }) => {
        $(#[$about])*
        #[derive(Clone, Copy, Debug, Default, PartialEq, Eq, Hash)]
        pub struct $name(u64);

        impl $name {
            $($(#[$doc])* pub const $bit: Self = Self($crate::layout::$bit);)*
            /// None of them.
            pub const NONE: Self = Self(0);
            /// All of them.
            pub const ALL: Self = Self(0 $(| $crate::layout::$bit)*);

            /// The set as the C interface has it.
            ///
            /// ```
            #[doc = concat!("use tahvenno::", stringify!($name), ";")]
            #[doc = concat!("assert_eq!(", stringify!($name), "::NONE.bits(), 0);")]
            /// ```
            pub const fn bits(self) -> u64 {
                self.0
            }

            /// Whether all of `others` are in the set.
            ///
            /// ```
            #[doc = concat!("use tahvenno::", stringify!($name), ";")]
            #[doc = concat!("assert!(", stringify!($name), "::ALL.contains(", stringify!($name), "::NONE));")]
            #[doc = concat!("assert!(!", stringify!($name), "::NONE.contains(", stringify!($name), "::ALL));")]
            /// ```
            pub const fn contains(self, others: Self) -> bool {
                self.0 & others.0 == others.0
            }

            /// What `|` gives, where a constant is wanted.
            ///
            /// ```
            #[doc = concat!("use tahvenno::", stringify!($name), ";")]
            #[doc = concat!("const BOTH: ", stringify!($name), " = ", stringify!($name), "::NONE.union(", stringify!($name), "::ALL);")]
            #[doc = concat!("assert_eq!(BOTH, ", stringify!($name), "::NONE | ", stringify!($name), "::ALL);")]
            /// ```
            pub const fn union(self, others: Self) -> Self {
                Self(self.0 | others.0)
            }
        }

        impl TryFrom<u64> for $name {
            type Error = $crate::NoSuchNumber;

            fn try_from(bits: u64) -> Result<Self, Self::Error> {
                if bits & !Self::ALL.0 == 0 { Ok(Self(bits)) } else { Err($crate::NoSuchNumber(bits)) }
            }
        }

        impl core::ops::BitOr for $name {
            type Output = Self;

            fn bitor(self, others: Self) -> Self {
                self.union(others)
            }
        }

        impl core::ops::BitOrAssign for $name {
            fn bitor_assign(&mut self, others: Self) {
                *self = self.union(others);
            }
        }
    };
}
