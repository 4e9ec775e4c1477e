//! Enums whose variants are numbered in the library.

/// Defines an enum of reasons, with the words of each, in the order of their numbers, which begin at 1.
macro_rules! reasons {
    ($(#[$about:meta])* $name:ident { $($variant:ident = $words:literal,)* }) => {
        $(#[$about])*
        #[derive(Clone, Copy, Debug, PartialEq, Eq, Hash)]
        pub enum $name {
            $(#[doc = $words] $variant,)*
        }

        impl $name {
            /// The reason with this number; `None` for 0.
            pub(crate) fn numbered(number: u8) -> Option<$name> {
                [$($name::$variant),*].get(usize::from(number).checked_sub(1)?).copied()
            }

            /// The reason in words, which have no byte of a text.
            pub fn words(self) -> &'static str {
                match self {
                    $($name::$variant => $words,)*
                }
            }
        }

        impl std::fmt::Display for $name {
            fn fmt(&self, f: &mut std::fmt::Formatter<'_>) -> std::fmt::Result {
                f.write_str(self.words())
            }
        }

        impl std::error::Error for $name {}
    };
}
pub(crate) use reasons;
