//! What is used of the crate `bitflags`. `from_bits`, which only step flags call, knows what `settings` says.

#[macro_export]
macro_rules! bitflags {
    ($(#[$outer:meta])* pub struct $Name:ident: $T:ty { $($(#[$inner:meta])* const $FLAG:ident = $bits:expr;)* }) => {
        $(#[$outer])*
        pub struct $Name($T);

        impl $Name {
            $($(#[$inner])* pub const $FLAG: Self = Self($bits);)*

            pub const fn empty() -> Self {
                Self(0)
            }

            pub const fn all() -> Self {
                Self(0 $(| $bits)*)
            }

            pub const fn bits(self) -> $T {
                self.0
            }

            pub const fn from_bits_retain(bits: $T) -> Self {
                Self(bits)
            }

            pub fn from_bits(bits: $T) -> Option<Self> {
                let known = $crate::settings::known_flags().map_or(Self::all().0, <$T>::from);
                (bits & !known == 0).then_some(Self(bits))
            }

            pub const fn is_empty(self) -> bool {
                self.0 == 0
            }

            pub const fn contains(self, other: Self) -> bool {
                self.0 & other.0 == other.0
            }

            pub fn set(&mut self, other: Self, on: bool) {
                self.0 = if on { self.0 | other.0 } else { self.0 & !other.0 };
            }
        }

        impl core::ops::Sub for $Name {
            type Output = Self;

            fn sub(self, other: Self) -> Self {
                Self(self.0 & !other.0)
            }
        }
    };
}
