//! Ten functions of 16-bit posits with one exponent bit, also with the way each answer was rounded; negation, sums, differences
//! and products, the turn of a lever arm, a batch, a listing, whole or in pieces, the differences of two answered listings,
//! conversions with `f64`, and spans.
//!
//! A posit is passed as its pattern, a `u16`. `0x0000` is zero and [`NAR`] is NaR ("not a real"). NaR is an answer and not an
//! error: `ln` of a negative number is NaR, and a call that answers it has succeeded. What a call can refuse is a [`Refusal`];
//! a refused call leaves the output as it was.
//!
//! ```
//! use balehasp::{exp2, from_f64, to_f64, Real, NAR};
//!
//! assert_eq!(to_f64(exp2(from_f64(-6.0))), Real::Real(0.015625));
//! assert_eq!(to_f64(exp2(NAR)), Real::NaR);
//! ```
//!
//! A result that is dropped is warned of:
//!
//! ```compile_fail
//! #![deny(unused_must_use)]
//! balehasp::exp2(0x4000);
//! ```
#![no_std]
#![warn(missing_docs)]

use core::{fmt, iter, ops::Bound};

/// The version, which is also the header's.
///
/// ```
/// assert_eq!(balehasp::VERSION.split('.').count(), 3);
/// ```
pub const VERSION: &str = env!("CARGO_PKG_VERSION");

/// The pattern of NaR.
///
/// ```
/// assert_eq!(balehasp::from_f64(f64::NAN), balehasp::NAR);
/// ```
pub const NAR: u16 = 0x8000;

/// The bytes of the longest listing: ten functions and 1,024 patterns.
///
/// ```
/// assert_eq!(balehasp::LONGEST_LISTING, 2 + 2 * 10 + 2 + 2 * 1024);
/// ```
pub const LONGEST_LISTING: usize = 2072;

/// The bytes of the longest answered listing.
///
/// ```
/// use balehasp::{LONGEST_ANSWERED, LONGEST_LISTING};
/// assert_eq!(LONGEST_ANSWERED, LONGEST_LISTING + 2 + 2 * 10 * 1024);
/// ```
pub const LONGEST_ANSWERED: usize = 22554;

/// Why a call was refused, with the refusals' numbers. Each call names those that it gives; `Count` and `Different` come from
/// [`difference`] and [`differences`] alone, `State` from [`Pieces`].
///
/// ```
/// use balehasp::Refusal;
/// assert_eq!(Refusal::Start.number(), 3);
/// assert_eq!(Refusal::Start.to_string(), "the start lies beyond the input");
/// let error: &dyn std::error::Error = &Refusal::Start;
/// assert!(error.source().is_none());
/// ```
#[derive(Clone, Copy, Debug, PartialEq, Eq, Hash)]
#[repr(u16)]
pub enum Refusal {
    /// A function number outside 1 to 10.
    Function = 1,
    /// The output is too short.
    Output = 2,
    /// The start lies beyond the input.
    Start = 3,
    /// A count or a section of a listing is cut short.
    Cut = 4,
    /// A count of a listing is outside its limits.
    Limits = 5,
    /// Bytes after a listing's patterns, or after an answered one's answers.
    After = 6,
    /// The count of answers is not functions times patterns.
    Count = 7,
    /// Two listings ask different things.
    Different = 8,
    /// A state that no calls from a fresh one produce.
    State = 12,
}

impl Refusal {
    /// The refusal's number.
    ///
    /// ```
    /// assert_eq!(balehasp::Refusal::After.number(), 6);
    /// ```
    #[must_use]
    pub const fn number(self) -> u16 {
        self as u16
    }

    fn unless<T>(number: u16, done: T) -> Result<T, Refusal> {
        match number {
            0 => Ok(done),
            1 => Err(Refusal::Function),
            2 => Err(Refusal::Output),
            3 => Err(Refusal::Start),
            4 => Err(Refusal::Cut),
            5 => Err(Refusal::Limits),
            6 => Err(Refusal::After),
            7 => Err(Refusal::Count),
            8 => Err(Refusal::Different),
            _ => Err(Refusal::State), // 12: there are no others
        }
    }
}

impl fmt::Display for Refusal {
    fn fmt(&self, f: &mut fmt::Formatter<'_>) -> fmt::Result {
        f.write_str(match self {
            Refusal::Function => "a function number outside 1 to 10",
            Refusal::Output => "the output is too short",
            Refusal::Start => "the start lies beyond the input",
            Refusal::Cut => "a count or a section of a listing is cut short",
            Refusal::Limits => "a count of a listing is outside its limits",
            Refusal::After => "bytes after a listing's patterns, or after an answered one's answers",
            Refusal::Count => "the count of answers is not functions times patterns",
            Refusal::Different => "two listings ask different things",
            Refusal::State => "a state that no calls from a fresh one produce",
        })
    }
}

impl core::error::Error for Refusal {}

// One line a function: its number, its case, its call, its entry, what it is, and a pattern with its answer.
macro_rules! functions {
    ($($number:literal $case:ident $name:ident $entry:ident $what:literal $p:literal $answer:literal;)*) => {
        #[link(name = "balehasp", kind = "static")]
        extern "C" {
            $(fn $entry(p: u16) -> u16;)*
        }

        /// The functions, with their numbers.
        ///
        /// ```
        /// use balehasp::{Function, Refusal};
        /// assert_eq!(Function::try_from(3), Ok(Function::Ln));
        /// assert_eq!(Function::try_from(11), Err(Refusal::Function));
        /// ```
        #[derive(Clone, Copy, Debug, PartialEq, Eq, Hash)]
        #[repr(u16)]
        pub enum Function {
            $(
                #[doc = $what]
                $case = $number,
            )*
        }

        impl Function {
            /// All functions, in the order of their numbers.
            ///
            /// ```
            /// assert_eq!(balehasp::Function::ALL.len(), 10);
            /// ```
            pub const ALL: [Function; 10] = [$(Function::$case,)*];

            /// The function's number.
            ///
            /// ```
            /// assert_eq!(balehasp::Function::AcosPi.number(), 10);
            /// ```
            #[must_use]
            pub const fn number(self) -> u16 {
                self as u16
            }
        }

        impl TryFrom<u16> for Function {
            type Error = Refusal;

            fn try_from(number: u16) -> Result<Self, Refusal> {
                match number {
                    $($number => Ok(Function::$case),)*
                    _ => Err(Refusal::Function),
                }
            }
        }

        $(
            #[doc = $what]
            ///
            /// ```
            #[doc = concat!("assert_eq!(balehasp::", stringify!($name), "(", stringify!($p), "), ", stringify!($answer), ");")]
            /// ```
            #[must_use]
            pub fn $name(p: u16) -> u16 {
                // SAFETY: the entry takes and gives a number, and takes every one.
                unsafe { $entry(p) }
            }
        )*

        /// The function of p. It is never refused.
        ///
        /// ```
        /// use balehasp::{answer, Function};
        /// assert_eq!(answer(Function::Exp2, 0x4000), 0x5000);
        /// ```
        #[must_use]
        pub fn answer(function: Function, p: u16) -> u16 {
            match function {
                $(Function::$case => $name(p),)*
            }
        }
    };
}

functions! {
    1 Exp exp balehasp_exp "e to the power of p." 0x0000 0x4000;
    2 Exp2 exp2 balehasp_exp2 "2 to the power of p." 0x4000 0x5000;
    3 Ln ln balehasp_ln "The natural logarithm of p." 0x4000 0x0000;
    4 Log2 log2 balehasp_log2 "The logarithm of p to the base 2." 0x5000 0x4000;
    5 SinPi sin_pi balehasp_sin_pi "The sine of p half-turns." 0x3000 0x4000;
    6 CosPi cos_pi balehasp_cos_pi "The cosine of p half-turns." 0x4000 0xC000;
    7 TanPi tan_pi balehasp_tan_pi "The tangent of p half-turns." 0x2000 0x4000;
    8 AtanPi atan_pi balehasp_atan_pi "The angle in half-turns whose tangent is p." 0x4000 0x2000;
    9 AsinPi asin_pi balehasp_asin_pi "The angle in half-turns whose sine is p." 0x4000 0x3000;
    10 AcosPi acos_pi balehasp_acos_pi "The angle in half-turns whose cosine is p." 0xC000 0x4000;
}

// The other entries. A slice goes over as a pointer and a length.
extern "C" {
    fn balehasp_negate(p: u16) -> u16;
    fn balehasp_add(a: u16, b: u16) -> u16;
    fn balehasp_subtract(a: u16, b: u16) -> u16;
    fn balehasp_multiply(a: u16, b: u16) -> u16;
    fn balehasp_turn(heading: u16, pitch: u16, roll: u16, arm: *const [u16; 3], turned: *mut [u16; 3]);
    fn balehasp_answer(function: u16, p: u16, answer: *mut u16) -> u16;
    fn balehasp_sided(function: u16, p: u16, answer: *mut u16, side: *mut i8) -> u16;
    fn balehasp_batch(
        function: u16,
        input: *const u16,
        input_length: usize,
        output: *mut u16,
        output_length: usize,
        start: usize,
        limit: usize,
        next: *mut usize,
        nars: *mut usize,
    ) -> u16;
    fn balehasp_listing(
        input: *const u8,
        input_length: usize,
        output: *mut u8,
        output_length: usize,
        written: *mut usize,
    ) -> u16;
    fn balehasp_piece(state: *mut [u8; PIECES], piece: *const u8, length: usize) -> u16;
    fn balehasp_end(state: *mut [u8; PIECES], output: *mut u8, output_length: usize, written: *mut usize) -> u16;
    fn balehasp_difference(
        first: *const u8,
        first_length: usize,
        second: *const u8,
        second_length: usize,
        from: usize,
        place: *mut usize,
    ) -> u16;
    fn balehasp_to_f64(p: u16, real: *mut f64) -> bool;
    fn balehasp_from_f64(x: f64) -> u16;
    fn balehasp_span(p: u16, lower: *mut f64, upper: *mut f64, edges: *mut u8) -> bool;
}

/// Minus p. NaR and zero are their own.
///
/// ```
/// assert_eq!(balehasp::negate(0x4000), 0xC000);
/// assert_eq!(balehasp::negate(balehasp::NAR), balehasp::NAR);
/// ```
#[must_use]
pub fn negate(p: u16) -> u16 {
    // SAFETY: the entry takes and gives a number, and takes every one.
    unsafe { balehasp_negate(p) }
}

/// The exact a + b, rounded once. NaR with anything is NaR.
///
/// ```
/// use balehasp::{add, NAR};
/// assert_eq!(add(0x4000, 0x4000), 0x5000);
/// assert_eq!(add(0x4000, NAR), NAR);
/// ```
#[must_use]
pub fn add(a: u16, b: u16) -> u16 {
    // SAFETY: as in `negate`.
    unsafe { balehasp_add(a, b) }
}

/// The exact a - b, rounded once. NaR with anything is NaR.
///
/// ```
/// use balehasp::{subtract, NAR};
/// assert_eq!(subtract(0x1234, 0x1234), 0x0000);
/// assert_eq!(subtract(NAR, NAR), NAR);
/// ```
#[must_use]
pub fn subtract(a: u16, b: u16) -> u16 {
    // SAFETY: as in `negate`.
    unsafe { balehasp_subtract(a, b) }
}

/// The exact a * b, rounded once. NaR with anything is NaR, zero times NaR too. No product but that of zero is zero.
///
/// ```
/// use balehasp::{multiply, NAR};
/// assert_eq!(multiply(0x5000, 0x5000), 0x6000);
/// assert_eq!(multiply(0x0001, 0x0001), 0x0001);
/// assert_eq!(multiply(0x0000, NAR), NAR);
/// ```
#[must_use]
pub fn multiply(a: u16, b: u16) -> u16 {
    // SAFETY: as in `negate`.
    unsafe { balehasp_multiply(a, b) }
}

/// The arm, its parts along the first, second and third axis, turned by roll about the first axis, then pitch about the second,
/// then heading about the third, each in half-turns and counter-clockwise as seen from the axis's positive end.
///
/// With the matrices of the three it is ((heading times pitch) times roll) times the arm, every product and every sum rounded,
/// sums taken left to right. NaR in any angle or any part of the arm makes all three parts NaR, and nothing else makes any part
/// NaR.
///
/// ```
/// use balehasp::{turn, NAR};
/// let quarter = 0x3000;
/// assert_eq!(turn(quarter, 0, 0, [0x4000, 0, 0]), [0, 0x4000, 0]);
/// assert_eq!(turn(NAR, 0, 0, [0x4000, 0, 0]), [NAR; 3]);
/// ```
#[must_use]
pub fn turn(heading: u16, pitch: u16, roll: u16, arm: [u16; 3]) -> [u16; 3] {
    let mut turned = [0; 3];
    // SAFETY: both places live through the call and do not overlap.
    unsafe { balehasp_turn(heading, pitch, roll, &arm, &mut turned) };
    turned
}

/// The function with that number, of p, for a number from outside. Refused: `Function`.
///
/// ```
/// use balehasp::{answer_by_number, Refusal};
/// assert_eq!(answer_by_number(2, 0x4000), Ok(0x5000));
/// assert_eq!(answer_by_number(0, 0x4000), Err(Refusal::Function));
/// ```
#[must_use = "a refused call has no answer"]
pub fn answer_by_number(function: u16, p: u16) -> Result<u16, Refusal> {
    let mut answer = 0;
    // SAFETY: the place lives through the call.
    let refusal = unsafe { balehasp_answer(function, p, &mut answer) };
    Refusal::unless(refusal, answer)
}

/// The side of the number that was rounded on which an answer lies, with the sides' numbers; [`sided`] says what that number is.
///
/// ```
/// use balehasp::{sided, Function, Side};
/// assert_eq!(sided(Function::AtanPi, 0x0001).side, Side::Above);
/// assert_eq!(sided(Function::AtanPi, 0xFFFF).side, Side::Below);
/// ```
#[derive(Clone, Copy, Debug, PartialEq, Eq, Hash)]
#[repr(i8)]
pub enum Side {
    /// The answer is less than the number that was rounded.
    Below = -1,
    /// The answer is that number, or it was given outright.
    On = 0,
    /// The answer is greater than that number.
    Above = 1,
}

impl Side {
    /// The side's number.
    ///
    /// ```
    /// assert_eq!(balehasp::Side::Below.number(), -1);
    /// ```
    #[must_use]
    pub const fn number(self) -> i8 {
        self as i8
    }
}

/// An answer and its side.
///
/// ```
/// use balehasp::{sided, Function, Side, Sided};
/// assert_eq!(sided(Function::Exp2, 0x4000), Sided { answer: 0x5000, side: Side::On });
/// ```
#[derive(Clone, Copy, Debug, PartialEq, Eq)]
pub struct Sided {
    /// The answer, as [`answer`] gives it.
    pub answer: u16,
    /// Where it lies of the number that was rounded.
    pub side: Side,
}

/// The function of p, with a side that speaks of the kernel's fraction, the number that the function's row in document 01
/// rounds, and not of the exact function: the answer lies below that number, on it or above it. It is never refused.
///
/// The kernel's fraction can be a little off the exact value, so the side does not say where the answer lies of that. `ln` of
/// `0x2F0B` is `0xC8D9`, and on the number that was rounded, since both are -5927/8192, but it lies above the exact logarithm.
///
/// An answer that was not rounded is `On`, however far it is from the exact value: where the row names the pattern outright
/// (NaR; of `exp` and `exp2` `0x4000` near zero, `0x7FFF` and `0x0001` far out; of `acos_pi` `0x3000` near zero) or gives the
/// argument itself, and where `sin_pi`, `cos_pi` and `tan_pi` give 0, 1, -1 or NaR without their kernel. A kernel's 0 is a
/// number like any other: `ln` of 1 is 0, `On`.
///
/// Below and above are meant of signed numbers. Past the ends: a number above 2^28 gets `0x7FFF`, which lies below it, and one
/// between 0 and 2^-28 gets `0x0001`, above it; a negative one gets `0x8001`, above it, or `0xFFFF`, below it.
///
/// ```
/// use balehasp::{sided, to_f64, Function, Real, Side, Sided, NAR};
/// let ln = sided(Function::Ln, 0x2F0B);
/// assert_eq!(ln, Sided { answer: 0xC8D9, side: Side::On });
/// assert_eq!(to_f64(0x2F0B), Real::Real(7947.0 / 16384.0));
/// assert!(matches!(to_f64(ln.answer), Real::Real(answer) if answer > f64::ln(7947.0 / 16384.0)));
///
/// assert_eq!(sided(Function::Exp, 0x7FFF), Sided { answer: 0x7FFF, side: Side::On });
/// assert_eq!(sided(Function::TanPi, 0x3000), Sided { answer: NAR, side: Side::On });
/// assert_eq!(sided(Function::CosPi, 0x0000), Sided { answer: 0x4000, side: Side::On });
/// assert_eq!(sided(Function::CosPi, 0x0001), Sided { answer: 0x4000, side: Side::Above });
/// ```
#[must_use]
pub fn sided(function: Function, p: u16) -> Sided {
    sided_or_refused(function.number(), p).1 // a `Function`'s number is not refused
}

/// The function with that number, of p, and the side of [`sided`], for a number from outside. Refused: `Function`.
///
/// ```
/// use balehasp::{sided_by_number, Refusal, Side, Sided};
/// assert_eq!(sided_by_number(3, 0x2F0B), Ok(Sided { answer: 0xC8D9, side: Side::On }));
/// assert_eq!(sided_by_number(11, 0x2F0B), Err(Refusal::Function));
/// ```
#[must_use = "a refused call has no answer"]
pub fn sided_by_number(function: u16, p: u16) -> Result<Sided, Refusal> {
    let (refusal, found) = sided_or_refused(function, p);
    Refusal::unless(refusal, found)
}

fn sided_or_refused(function: u16, p: u16) -> (u16, Sided) {
    let (mut answer, mut side) = (0, 0);
    // SAFETY: both places live through the call and do not overlap.
    let refusal = unsafe { balehasp_sided(function, p, &mut answer, &mut side) };
    let side = match side {
        -1 => Side::Below,
        0 => Side::On,
        _ => Side::Above, // 1: there are no others
    };
    (refusal, Sided { answer, side })
}

/// What a batch did.
///
/// ```
/// let done = balehasp::batch(balehasp::Function::Ln, &[0x4000, 0xC000], &mut [0; 2], 0, 2);
/// assert_eq!(done, Ok(balehasp::Batched { next: 2, nars: 1 }));
/// ```
#[derive(Clone, Copy, Debug, PartialEq, Eq)]
pub struct Batched {
    /// The place after the last answered, where the next call starts.
    pub next: usize,
    /// How many of this call's answers are NaR.
    pub nars: usize,
}

/// Answers the patterns of `input` from the place `start` on, at most `limit` of them, each at its own place of `output`, which
/// is at least as long. Refused, in this order: `Output`, `Start`.
///
/// ```
/// use balehasp::{batch, Function, Refusal};
/// let mut output = [0; 2];
/// assert_eq!(batch(Function::Exp2, &[0x4000, 0x0000], &mut output, 0, 2).map(|done| done.next), Ok(2));
/// assert_eq!(output, [0x5000, 0x4000]);
/// assert_eq!(batch(Function::Exp2, &[0x4000, 0x0000], &mut output[..1], 0, 2), Err(Refusal::Output));
/// ```
#[must_use = "a refused batch answers nothing, and the next call starts where this one ended"]
pub fn batch(function: Function, input: &[u16], output: &mut [u16], start: usize, limit: usize) -> Result<Batched, Refusal> {
    batch_by_number(function.number(), input, output, start, limit)
}

/// The batch of the function with that number, for a number from outside. Refused, in this order: `Function`, `Output`, `Start`.
///
/// ```
/// use balehasp::{batch_by_number, Refusal};
/// assert_eq!(batch_by_number(11, &[0x4000], &mut [0], 0, 1), Err(Refusal::Function));
/// ```
#[must_use = "a refused batch answers nothing, and the next call starts where this one ended"]
pub fn batch_by_number(
    function: u16,
    input: &[u16],
    output: &mut [u16],
    start: usize,
    limit: usize,
) -> Result<Batched, Refusal> {
    let mut done = Batched { next: 0, nars: 0 };
    // SAFETY: each pointer goes with its slice's length, a slice's pointer is never null, and what is lent to be written
    // overlaps nothing.
    let refusal = unsafe {
        balehasp_batch(
            function,
            input.as_ptr(),
            input.len(),
            output.as_mut_ptr(),
            output.len(),
            start,
            limit,
            &mut done.next,
            &mut done.nars,
        )
    };
    Refusal::unless(refusal, done)
}

/// Reads the listing in `input`, writes the answered one into the first bytes of `output`, and says how many they are. All
/// numbers are 16 bits, low byte first. A listing is a count of functions (1 to 10) and their numbers, then a count of patterns
/// (0 to 1,024) and the patterns; the answered one has after that the count of answers and the answers, all of the first
/// function's, then the next's. [`LONGEST_ANSWERED`] bytes are room for every one.
/// Refused: `Cut`, `Limits` and `Function` as the sections are read, then `After`, then `Output`.
///
/// ```
/// let mut output = [0; balehasp::LONGEST_ANSWERED];
/// let written = balehasp::listing(&[1, 0, 2, 0, 1, 0, 0x00, 0x40], &mut output)?;
/// assert_eq!(output[..written], [1, 0, 2, 0, 1, 0, 0x00, 0x40, 1, 0, 0x00, 0x50]);
/// assert_eq!(balehasp::listing(&[1, 0, 2], &mut output), Err(balehasp::Refusal::Cut));
/// # Ok::<(), balehasp::Refusal>(())
/// ```
#[must_use = "a refused listing writes nothing"]
pub fn listing(input: &[u8], output: &mut [u8]) -> Result<usize, Refusal> {
    let mut written = 0;
    // SAFETY: as in `batch_by_number`.
    let refusal =
        unsafe { balehasp_listing(input.as_ptr(), input.len(), output.as_mut_ptr(), output.len(), &mut written) };
    Refusal::unless(refusal, written)
}

/// How many bytes a stored state of [`Pieces`] has.
///
/// ```
/// use balehasp::{LONGEST_LISTING, PIECES};
/// assert_eq!(PIECES, LONGEST_LISTING + 2 + 2);
/// ```
pub const PIECES: usize = 2076;

/// A listing that comes in pieces, cut wherever the radio cuts it, a byte at a time or none.
///
/// Hand each piece to [`piece`](Pieces::piece) as it comes, and call [`end`](Pieces::end) when the listing has come whole.
/// Whatever the cuts, the end gives what [`listing`] gives on all the bytes at once, but that some refusals come earlier. After a
/// refusal every later call repeats it and changes nothing; take a new one for the next listing. After an end that answered it is
/// new again.
///
/// ```
/// use balehasp::{Pieces, Refusal, LONGEST_ANSWERED};
///
/// let mut pieces = Pieces::new();
/// let mut output = [0; LONGEST_ANSWERED];
/// pieces.piece(&[1])?;
/// pieces.piece(&[0, 2, 0, 1])?;
/// pieces.piece(&[])?;
/// pieces.piece(&[0, 0x00, 0x40])?;
/// let written = pieces.end(&mut output)?;
/// assert_eq!(output[..written], [1, 0, 2, 0, 1, 0, 0x00, 0x40, 1, 0, 0x00, 0x50]);
/// assert_eq!(pieces, Pieces::new());
///
/// // a count of no functions is refused as soon as it has come, and from then on
/// pieces.piece(&[0])?;
/// assert_eq!(pieces.piece(&[0, 2]), Err(Refusal::Limits));
/// assert_eq!(pieces.piece(&[]), Err(Refusal::Limits));
/// assert_eq!(pieces.end(&mut output), Err(Refusal::Limits));
/// # Ok::<(), Refusal>(())
/// ```
#[derive(Clone, Debug, PartialEq, Eq)]
pub struct Pieces([u8; PIECES]);

impl Pieces {
    /// Before any bytes have come.
    ///
    /// ```
    /// assert_eq!(balehasp::Pieces::new().as_bytes(), &[0; balehasp::PIECES]);
    /// ```
    #[must_use]
    pub const fn new() -> Self {
        Self([0; PIECES])
    }

    /// What was stored, as [`as_bytes`](Pieces::as_bytes) gives it. Whether it is a state that some calls from a new one
    /// produce is asked at each call, which is refused with `State` where it is none.
    ///
    /// ```
    /// use balehasp::{Pieces, Refusal, PIECES};
    /// let mut pieces = Pieces::from_bytes([1; PIECES]);
    /// assert_eq!(pieces.piece(&[1, 0]), Err(Refusal::State));
    /// assert_eq!(pieces, Pieces::from_bytes([1; PIECES]));
    /// ```
    #[must_use]
    pub const fn from_bytes(stored: [u8; PIECES]) -> Self {
        Self(stored)
    }

    /// What is to be stored: the bytes so far and zeros after them, [`LONGEST_LISTING`] in all, then how many they are as two
    /// bytes, low first, then the refusal's number as two bytes, 0 for none.
    ///
    /// ```
    /// let mut pieces = balehasp::Pieces::new();
    /// pieces.piece(&[1, 0, 2])?;
    /// assert_eq!(pieces.as_bytes()[..4], [1, 0, 2, 0]);
    /// assert_eq!(pieces.as_bytes()[2072..], [3, 0, 0, 0]);
    /// # Ok::<(), balehasp::Refusal>(())
    /// ```
    #[must_use]
    pub const fn as_bytes(&self) -> &[u8; PIECES] {
        &self.0
    }

    /// Takes the next bytes, or none.
    /// Refused: `State` first; a refusal that has come before; then `Limits` where these bytes bring the second one of a count
    /// outside its limits, `Function` where they complete functions that are not all known, `After` where they bring the first
    /// one after the patterns, in the order in which the sections are read.
    ///
    /// ```
    /// use balehasp::{Pieces, Refusal};
    /// assert_eq!(Pieces::new().piece(&[1, 0, 11, 0]), Err(Refusal::Function));
    /// ```
    pub fn piece(&mut self, bytes: &[u8]) -> Result<(), Refusal> {
        // SAFETY: the state lives through the call and is lent to it alone; a slice's pointer and length are its own.
        let refusal = unsafe { balehasp_piece(&mut self.0, bytes.as_ptr(), bytes.len()) };
        Refusal::unless(refusal, ())
    }

    /// Says that the listing has come whole, writes the answered one into the first bytes of `output`, and says how many they
    /// are. [`LONGEST_ANSWERED`] bytes are room for every one: a listing that was refused for its room is lost.
    /// Refused: `State` first; a refusal that has come before; then `Cut`, then `Output`.
    ///
    /// ```
    /// use balehasp::{Pieces, Refusal};
    /// assert_eq!(Pieces::new().end(&mut []), Err(Refusal::Cut));
    /// ```
    #[must_use = "a refused listing writes nothing"]
    pub fn end(&mut self, output: &mut [u8]) -> Result<usize, Refusal> {
        let mut written = 0;
        // SAFETY: as in `piece`; the output and the place are lent to the call alone.
        let refusal = unsafe { balehasp_end(&mut self.0, output.as_mut_ptr(), output.len(), &mut written) };
        Refusal::unless(refusal, written)
    }
}

impl Default for Pieces {
    fn default() -> Self {
        Self::new()
    }
}

// The entry's place: of the least difference, `from` or later, or the number of answers where there is none.
fn difference_or_end(first: &[u8], second: &[u8], from: usize) -> Result<usize, Refusal> {
    let mut place = 0;
    // SAFETY: as in `batch_by_number`; the listings are only read, so they may overlap.
    let refusal =
        unsafe { balehasp_difference(first.as_ptr(), first.len(), second.as_ptr(), second.len(), from, &mut place) };
    Refusal::unless(refusal, place)
}

/// The least place, `from` or later, at which the answers of two answered listings differ; `None` where there is none, also
/// where `from` lies beyond the answers.
///
/// Both are laid out as [`listing`] writes them. With F functions and N patterns there are F·N answers, at the places 0, 1, ..:
/// place k is of function k / N and pattern k % N, both counted from 0, and its answer is the two bytes from 6 + 2·(F + N + k)
/// on. Whether an answer is right is not asked. What is longer than [`LONGEST_ANSWERED`] is refused in any case.
///
/// Refused, in this order: for the first listing, for the second, then `Different`, where functions or patterns differ in
/// number, value or order. For a listing itself: `Cut`, `Limits` and `Function` as its first two sections are read, as by
/// [`listing`]; then `Cut` where the count of answers is missing, `Count` where it is not F·N, `Cut` where answers are missing,
/// `After` for bytes after them.
///
/// ```
/// use balehasp::{difference, Refusal};
/// let first = [1, 0, 2, 0, 2, 0, 0x00, 0x40, 0x00, 0x80, 2, 0, 0x00, 0x50, 0x00, 0x80];
/// let mut second = first;
/// assert_eq!(difference(&first, &second, 0), Ok(None));
/// second[14] = 0x01;
/// assert_eq!(difference(&first, &second, 0), Ok(Some(1)));
/// assert_eq!(difference(&first, &second, 2), Ok(None));
/// assert_eq!(difference(&first, &second[..15], 0), Err(Refusal::Cut));
/// second[10] = 3;
/// assert_eq!(difference(&first, &second, 0), Err(Refusal::Count));
/// ```
#[must_use = "a refused comparison finds nothing"]
pub fn difference(first: &[u8], second: &[u8], from: usize) -> Result<Option<usize>, Refusal> {
    let answers = difference_or_end(first, second, usize::MAX)?;
    let place = difference_or_end(first, second, from)?;
    Ok((place < answers).then_some(place))
}

/// Every place at which the answers of two answered listings differ, from the least on. Places and refusals are those of
/// [`difference`].
///
/// ```
/// use balehasp::{differences, Refusal};
/// let first = [1, 0, 2, 0, 2, 0, 0x00, 0x40, 0x00, 0x80, 2, 0, 0x00, 0x50, 0x00, 0x80];
/// let mut second = first;
/// second[13] = 0x51;
/// second[14] = 0x01;
/// assert!(differences(&first, &second)?.eq([0, 1]));
/// second[6] = 0x01;
/// assert_eq!(differences(&first, &second).err(), Some(Refusal::Different));
/// # Ok::<(), Refusal>(())
/// ```
#[must_use = "a refused comparison finds nothing"]
pub fn differences<'a>(first: &'a [u8], second: &'a [u8]) -> Result<impl Iterator<Item = usize> + 'a, Refusal> {
    let answers = difference_or_end(first, second, usize::MAX)?;
    let next = move |from| difference_or_end(first, second, from).ok().filter(|&place| place < answers);
    Ok(iter::successors(next(0), move |place| next(place + 1)))
}

/// A pattern's number.
///
/// ```
/// assert_eq!(balehasp::to_f64(0xC000), balehasp::Real::Real(-1.0));
/// ```
#[derive(Clone, Copy, Debug, PartialEq)]
pub enum Real {
    /// A real number, exactly; `+0.0` for zero.
    Real(f64),
    /// NaR, which is no real number.
    NaR,
}

/// p's number.
///
/// ```
/// use balehasp::{to_f64, Real, NAR};
/// assert_eq!(to_f64(0x72C0), Real::Real(27.0));
/// assert_eq!(to_f64(NAR), Real::NaR);
/// ```
#[must_use]
pub fn to_f64(p: u16) -> Real {
    let mut real = 0.0;
    // SAFETY: the place lives through the call.
    if unsafe { balehasp_to_f64(p, &mut real) } {
        Real::Real(real)
    } else {
        Real::NaR
    }
}

/// The posit that x rounds to: NaR for a NaN and both infinities, 0 for both zeros, and neither for any other number.
///
/// ```
/// use balehasp::{from_f64, NAR};
/// assert_eq!(from_f64(27.0), 0x72C0);
/// assert_eq!(from_f64(1e-300), 0x0001);
/// assert_eq!(from_f64(f64::INFINITY), NAR);
/// ```
#[must_use]
pub fn from_f64(x: f64) -> u16 {
    // SAFETY: the entry takes every number.
    unsafe { balehasp_from_f64(x) }
}

/// A pattern's span: the numbers that round to it. An edge that does not exist has no number here.
///
/// ```
/// use std::ops::Bound;
/// let span = balehasp::span(0x7FFF).unwrap();
/// assert_eq!(span.lower, Bound::Excluded(2f64.powi(27)));
/// assert_eq!(span.upper, Bound::Unbounded);
/// ```
#[derive(Clone, Copy, Debug, PartialEq)]
pub struct Span {
    /// The lower edge.
    pub lower: Bound<f64>,
    /// The upper edge.
    pub upper: Bound<f64>,
}

impl Span {
    /// Whether x lies in the span: it is finite, and between the edges or on one that is included. Both zeros are zero.
    ///
    /// ```
    /// let zero = balehasp::span(0).unwrap();
    /// assert!(zero.contains(0.0) && zero.contains(-0.0) && !zero.contains(5e-324));
    /// assert!(!balehasp::span(0x7FFF).unwrap().contains(f64::INFINITY));
    /// ```
    #[must_use]
    pub fn contains(&self, x: f64) -> bool {
        let above = match self.lower {
            Bound::Included(lower) => lower <= x,
            Bound::Excluded(lower) => lower < x,
            Bound::Unbounded => true,
        };
        let below = match self.upper {
            Bound::Included(upper) => x <= upper,
            Bound::Excluded(upper) => x < upper,
            Bound::Unbounded => true,
        };
        x.is_finite() && above && below
    }
}

/// p's span, `None` for NaR, which has none. `from_f64` of x is p exactly when p's span contains x. So the spans of two patterns
/// have no `f64` in common, and every finite one lies in one of them.
///
/// The edges are the numbers of the posits of 17 bits next below and next above p, included where p is even and not where it is
/// odd, but at the ends of the range. No number but zero rounds to 0, so its span is zero alone; that of `0x0001` starts at 0,
/// which is not included; that of `0x7FFF` has no upper edge; and `0xFFFF` and `0x8001` mirror these two.
///
/// ```
/// use balehasp::{from_f64, span, Span, NAR};
/// use std::ops::Bound;
/// let (lower, upper) = (1.0 - 1.0 / 16384.0, 1.0 + 1.0 / 8192.0);
/// assert_eq!(span(0x4000), Some(Span { lower: Bound::Included(lower), upper: Bound::Included(upper) }));
/// let tiny = 2f64.powi(-40);
/// assert_eq!(from_f64(tiny), 0x0001);
/// assert!(span(0x0001).unwrap().contains(tiny));
/// assert_eq!(span(NAR), None);
/// ```
#[must_use]
pub fn span(p: u16) -> Option<Span> {
    let (mut lower, mut upper, mut edges) = (0.0, 0.0, 0);
    let edge = |number, bits| match bits & 3 {
        0 => Bound::Unbounded,
        1 => Bound::Excluded(number),
        _ => Bound::Included(number),
    };
    // SAFETY: the places live through the call.
    unsafe { balehasp_span(p, &mut lower, &mut upper, &mut edges) }
        .then(|| Span { lower: edge(lower, edges), upper: edge(upper, edges >> 2) })
}
