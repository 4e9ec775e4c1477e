//! Buffers that a call fills with bytes and numbers. They are initialised, and grow to the size that the call reports.

use super::{BLANK, NO_ROOM, OK};
use std::mem::size_of;

/// The byte in buffers before a call: 0, and in a debug build, which checks them after it, a rarely written byte.
const BYTE: u8 = if cfg!(debug_assertions) { BLANK } else { 0 };
const NUMBER: usize = usize::from_ne_bytes([BYTE; size_of::<usize>()]);

/// How many bytes and numbers there are.
#[derive(Clone, Copy, Debug, Default, PartialEq, Eq)]
pub(super) struct Sizes {
    pub(super) bytes: usize,
    pub(super) numbers: usize,
}

impl Sizes {
    /// This many bytes, and no number.
    pub(super) fn of_bytes(bytes: usize) -> Sizes {
        Sizes { bytes, numbers: 0 }
    }

    /// This many numbers, and no byte.
    pub(super) fn of_numbers(numbers: usize) -> Sizes {
        Sizes { bytes: 0, numbers }
    }

    /// Whether these sizes fit into buffers of other sizes.
    fn fit(self, sizes: Sizes) -> bool {
        self.bytes <= sizes.bytes && self.numbers <= sizes.numbers
    }
}

/// The result that a call wrote into its buffers.
#[derive(Debug, Default, PartialEq, Eq)]
pub(super) struct Filled {
    pub(super) bytes: Vec<u8>,
    pub(super) numbers: Vec<usize>,
}

impl Filled {
    /// Buffers of these sizes into which nothing was written yet.
    fn blank(sizes: Sizes) -> Filled {
        Filled { bytes: vec![BYTE; sizes.bytes], numbers: vec![NUMBER; sizes.numbers] }
    }

    /// The fronts with these sizes. The rest is unchanged by the call.
    fn fronts(mut self, sizes: Sizes) -> Filled {
        if cfg!(debug_assertions) {
            let is_blank = self.bytes[sizes.bytes..].iter().all(|byte| *byte == BYTE)
                && self.numbers[sizes.numbers..].iter().all(|number| *number == NUMBER);
            assert!(is_blank, "a call writes after its result");
        }
        self.bytes.truncate(sizes.bytes);
        self.numbers.truncate(sizes.numbers);
        self
    }
}

/// Makes a call with buffers of these sizes, and again with larger ones if its result doesn't fit. The call returns its
/// number, and how many bytes and numbers its result has. After an error there is no result.
pub(super) fn filled(mut sizes: Sizes, mut call: impl FnMut(&mut [u8], &mut [usize]) -> (u32, Sizes)) -> (u32, Filled) {
    loop {
        let mut buffers = Filled::blank(sizes);
        let (code, needed) = call(&mut buffers.bytes, &mut buffers.numbers);
        if code != NO_ROOM {
            assert!(code != OK || needed.fit(sizes), "a result that fits is no longer than its buffer");
            return (code, buffers.fronts(if code == OK { needed } else { Sizes::default() }));
        }
        assert!(!needed.fit(sizes), "a result that doesn't fit is longer than its buffer");
        buffers.fronts(Sizes::default());
        sizes = Sizes { bytes: needed.bytes.max(sizes.bytes), numbers: needed.numbers.max(sizes.numbers) };
    }
}

/// Makes a call whose result is bytes.
pub(super) fn filled_bytes(size: usize, mut call: impl FnMut(&mut [u8]) -> (u32, usize)) -> (u32, Vec<u8>) {
    let (code, filled) = filled(Sizes::of_bytes(size), |bytes, _| {
        let (code, needed) = call(bytes);
        (code, Sizes::of_bytes(needed))
    });
    (code, filled.bytes)
}

#[cfg(test)]
mod tests {
    use super::{filled, filled_bytes, Filled, Sizes, BYTE, NUMBER};
    use crate::ffi::{NO_ROOM, OK};

    /// A call that stores these bytes and numbers, if both fit.
    fn stores<'a>(
        bytes: &'a [u8],
        numbers: &'a [usize],
        buffers: &'a mut Vec<(usize, usize)>,
    ) -> impl FnMut(&mut [u8], &mut [usize]) -> (u32, Sizes) + 'a {
        move |buffer, places| {
            buffers.push((buffer.len(), places.len()));
            assert!(buffer.iter().all(|byte| *byte == BYTE) && places.iter().all(|number| *number == NUMBER));
            let needed = Sizes { bytes: bytes.len(), numbers: numbers.len() };
            if buffer.len() < bytes.len() || places.len() < numbers.len() {
                return (NO_ROOM, needed);
            }
            buffer[..bytes.len()].copy_from_slice(bytes);
            places[..numbers.len()].copy_from_slice(numbers);
            (OK, needed)
        }
    }

    #[test]
    fn buffers_grow_to_what_is_needed() {
        let (bytes, numbers) = (b"abc".as_slice(), [1, 2].as_slice());
        for (sizes, wanted) in [
            ((3, 2), vec![(3, 2)]),
            ((9, 9), vec![(9, 9)]),
            ((2, 9), vec![(2, 9), (3, 9)]),
            ((9, 1), vec![(9, 1), (9, 2)]),
            ((0, 0), vec![(0, 0), (3, 2)]),
        ] {
            let mut buffers = Vec::new();
            let (code, result) =
                filled(Sizes { bytes: sizes.0, numbers: sizes.1 }, stores(bytes, numbers, &mut buffers));
            assert_eq!((code, result), (OK, Filled { bytes: bytes.into(), numbers: numbers.into() }));
            assert_eq!(buffers, wanted);
        }
    }

    #[test]
    fn an_error_has_no_result() {
        assert_eq!(filled(Sizes::of_numbers(4), |_, _| (1, Sizes::of_numbers(2))), (1, Filled::default()));
        assert_eq!(filled_bytes(4, |_| (104, 9)), (104, Vec::new()));
    }

    #[test]
    #[should_panic(expected = "a call writes after its result")]
    fn bytes_after_a_result_are_seen() {
        filled_bytes(4, |buffer| {
            buffer[2] = 0;
            (OK, 2)
        });
    }

    #[test]
    #[should_panic(expected = "a call writes after its result")]
    fn numbers_with_an_error_are_seen() {
        filled(Sizes::of_numbers(1), |_, numbers| {
            numbers[0] = 0;
            (1, Sizes::of_numbers(1))
        });
    }

    #[test]
    #[should_panic(expected = "a result that fits is no longer than its buffer")]
    fn a_result_longer_than_its_buffer_is_seen() {
        filled_bytes(4, |_| (OK, 5));
    }

    #[test]
    #[should_panic(expected = "a result that doesn't fit is longer than its buffer")]
    fn a_call_that_needs_no_more_is_seen() {
        filled_bytes(4, |_| (NO_ROOM, 4));
    }
}
