//! Structs that are their numbers in order: one list of fields gives the
//! struct, its layout and both directions.

macro_rules! numbers {
    ($(#[$about:meta])* $name:ident { $($(#[$field_about:meta])* $field:ident,)* }) => {
        $(#[$about])*
        #[derive(Clone, Copy, Debug, Default, PartialEq, Eq)]
        pub struct $name {
            $($(#[$field_about])* pub $field: u64,)*
        }

        impl $name {
            /// How many numbers it is.
            pub const LENGTH: usize = [$(stringify!($field),)*].len();

            /// Its fields in order.
            pub fn to_numbers(&self) -> [u64; Self::LENGTH] {
                [$(self.$field,)*]
            }

            /// From its fields in order.
            pub fn from_numbers(numbers: &[u64; Self::LENGTH]) -> Self {
                let [$($field,)*] = *numbers;
                Self { $($field,)* }
            }
        }
    };
}

pub(crate) use numbers;

/// The next `LENGTH` numbers of a list that is known to hold them.
pub(crate) fn take<const LENGTH: usize>(rest: &mut &[u64]) -> [u64; LENGTH] {
    let (front, behind) = rest.split_first_chunk().expect("a layout adds up");
    *rest = behind;
    *front
}
