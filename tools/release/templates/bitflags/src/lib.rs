//! Sets of named bits, as the proved sources write them: the struct is written by hand, and its names and operators come from
//! `bitflag_items!`. Cargo's `bitflags` 1 writes the struct too, and so cannot be used here.
#![no_std]
#![forbid(unsafe_code)]

use core::ops::{BitAnd, BitOr, BitXor, Not};

/// A named bit, or several.
#[derive(Clone, Copy, Debug)]
pub struct Flag<F: 'static> {
    name: &'static str,
    value: F,
}

impl<F: Copy> Flag<F> {
    /// A name for this value.
    pub const fn new(name: &'static str, value: F) -> Flag<F> {
        Flag { name, value }
    }

    /// Its name.
    pub const fn name(&self) -> &'static str {
        self.name
    }

    /// Its value.
    pub const fn value(&self) -> F {
        self.value
    }
}

/// A number whose bits are named.
pub trait Bits:
    Copy + PartialEq + BitAnd<Output = Self> + BitOr<Output = Self> + BitXor<Output = Self> + Not<Output = Self> + Default
{
}

impl Bits for u8 {}
impl Bits for u16 {}
impl Bits for u32 {}
impl Bits for u64 {}

/// A set of named bits.
pub trait Flags: Copy + Sized {
    type Bits: Bits;

    /// The names.
    fn flags<'a>() -> &'a [Flag<Self>]
    where
        Self: 'a;

    /// The bits.
    fn bits(&self) -> Self::Bits;

    /// The set of these bits, named or not.
    fn from_bits_retain(bits: Self::Bits) -> Self;

    /// No bit.
    fn empty() -> Self {
        Self::from_bits_retain(Self::Bits::default())
    }

    /// Whether no bit is set.
    fn is_empty(&self) -> bool {
        self.bits() == Self::Bits::default()
    }

    /// Whether all bits of the other are set.
    fn contains(&self, other: Self) -> bool {
        self.bits() & other.bits() == other.bits()
    }

    /// Whether some bit of the other is set.
    fn intersects(&self, other: Self) -> bool {
        self.bits() & other.bits() != Self::Bits::default()
    }

    /// Sets the bits of the other.
    fn insert(&mut self, other: Self) {
        *self = Self::from_bits_retain(self.bits() | other.bits());
    }

    /// Clears the bits of the other.
    fn remove(&mut self, other: Self) {
        *self = Self::from_bits_retain(self.bits() & !other.bits());
    }
}

/// Writes the names of a struct of bits as its constants, and its operators.
#[macro_export]
macro_rules! bitflag_items {
    (impl $name:ident: $bits:ty { $($(#[$note:meta])* const $flag:ident = $value:expr;)* }) => {
        impl $name {
            $($(#[$note])* pub const $flag: $name = $name($value);)*

            /// The names.
            pub const FLAGS: &'static [$crate::Flag<$name>] = &[$($crate::Flag::new(stringify!($flag), $name::$flag)),*];
        }

        impl ::core::ops::BitOr for $name {
            type Output = $name;

            fn bitor(self, other: $name) -> $name {
                $name(self.0 | other.0)
            }
        }

        impl ::core::ops::BitAnd for $name {
            type Output = $name;

            fn bitand(self, other: $name) -> $name {
                $name(self.0 & other.0)
            }
        }
    };
}
