//! Enums whose names and sentences come from the library.

/// Writes the methods of an enum with a constant `ALL`, whose variants have the numbers from 1 on in the library.
macro_rules! worded {
    ($enum:ident, $name:path, $words:path) => {
        impl $enum {
            /// The variant with a number; `None` for 0.
            pub(crate) fn numbered(number: u8) -> Option<$enum> {
                $enum::ALL.get(usize::from(number).checked_sub(1)?).copied()
            }

            /// The name, for use by programs.
            pub fn name(self) -> &'static str {
                &self.said().0
            }

            /// The sentence for people, which has no byte of a text.
            pub fn words(self) -> &'static str {
                &self.said().1
            }

            /// The name and the sentence. Those of all variants are requested from the library once.
            fn said(self) -> &'static (String, String) {
                use std::sync::{Mutex, PoisonError};
                static SAID: Mutex<Option<&[(String, String)]>> = Mutex::new(None);
                let all = || (1..).zip($enum::ALL).map(|(number, _)| ($name(number), $words(number))).collect();
                let mut said = SAID.lock().unwrap_or_else(PoisonError::into_inner);
                &said.get_or_insert_with(|| Box::leak(all()))[self as usize]
            }
        }

        impl std::fmt::Display for $enum {
            fn fmt(&self, f: &mut std::fmt::Formatter<'_>) -> std::fmt::Result {
                f.write_str(self.words())
            }
        }
    };
}
pub(crate) use worded;
