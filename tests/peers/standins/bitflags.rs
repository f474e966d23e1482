//! A stand-in for bitflags, with what naga's files use.
#[macro_export]
macro_rules! bitflags {
    ($($(#[$attr:meta])* pub struct $name:ident: $bits:ty {
        $($(#[$const_attr:meta])* const $flag:ident = $value:expr;)*
    })*) => {$(
        $(#[$attr])*
        pub struct $name($bits);

        impl $name {
            $($(#[$const_attr])* pub const $flag: Self = Self($value);)*
            pub const fn empty() -> Self { Self(0) }
            pub const fn bits(&self) -> $bits { self.0 }
            pub const fn is_empty(&self) -> bool { self.0 == 0 }
            pub const fn contains(&self, other: Self) -> bool { self.0 & other.0 == other.0 }
            pub fn insert(&mut self, other: Self) { self.0 |= other.0 }
        }

        impl ::core::ops::BitOr for $name {
            type Output = Self;
            fn bitor(self, other: Self) -> Self { Self(self.0 | other.0) }
        }
    )*};
}
