//! The proved library, called through its C functions (include/placer.h). The wrappers make sure of what C
//! cannot ask: every pointer is good for its length, and nothing that is written to is lent twice.

use plain::case::Calls;
use plain::{Answer, Verdict};

type Byte = *const u8;
type Out = *mut u8;
type Input = *mut u16;
type Count = *mut usize;

extern "C" {
    fn placer_normalise_sheet(t: Byte, n: usize, o: Out, room: usize, i: Input, r: Count, b: Count) -> u16;
    fn placer_normalise_figure(t: Byte, n: usize, o: Out, room: usize, i: Input, r: Count, b: Count) -> u16;
    #[rustfmt::skip]
    fn placer_compare(t: Byte, n: usize, u: Byte, m: usize, i: Input, r: Count, b: Count, yes: *mut bool) -> u16;
    fn placer_fill(t: Byte, n: usize, u: Byte, m: usize, o: Out, room: usize, i: Input, r: Count, b: Count) -> u16;
    fn placer_place(t: Byte, n: usize, u: Byte, m: usize, o: Out, room: usize, i: Input, r: Count, b: Count) -> u16;
    #[rustfmt::skip]
    fn placer_claim(
        t: Byte,
        n: usize,
        u: Byte,
        m: usize,
        v: Byte,
        l: usize,
        i: Input,
        r: Count,
        b: Count,
        yes: *mut bool,
    ) -> u16;
    #[rustfmt::skip]
    fn placer_swap(
        t: Byte,
        n: usize,
        u: Byte,
        m: usize,
        v: Byte,
        l: usize,
        o: Out,
        room: usize,
        i: Input,
        r: Count,
        b: Count,
    ) -> u16;
}

/// A call that writes to a slip.
macro_rules! answers {
    ($name:ident $c:ident $($text:ident)+) => {
        pub fn $name($($text: &[u8],)+ out: &mut [u8]) -> Answer {
            let (mut input, mut row, mut bytes) = (0, 0, 0);
            let number = unsafe {
                $c($($text.as_ptr(), $text.len(),)+ out.as_mut_ptr(), out.len(), &mut input, &mut row, &mut bytes)
            };
            Answer { number, input, row, bytes }
        }
    };
}

/// A call that says yes or no.
macro_rules! says {
    ($name:ident $c:ident $($text:ident)+) => {
        pub fn $name($($text: &[u8]),+) -> Verdict {
            // not 0, so that a count that is never written shows
            let (mut input, mut row, mut bytes, mut yes) = (0, 0, usize::MAX, false);
            let number = unsafe {
                $c($($text.as_ptr(), $text.len(),)+ &mut input, &mut row, &mut bytes, &mut yes)
            };
            Verdict { number, input, row, bytes, yes }
        }
    };
}

answers!(normalise_sheet placer_normalise_sheet text);
answers!(normalise_figure placer_normalise_figure text);
says!(compare placer_compare sheet other);
answers!(fill placer_fill figure list);
answers!(place placer_place sheet pattern);
says!(claim placer_claim sheet figure list);
answers!(swap placer_swap sheet pattern replacement);

pub const PROVED: Calls = Calls { normalise_sheet, normalise_figure, compare, fill, place, claim, swap };
