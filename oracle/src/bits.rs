//! One call on a bit set, made on our library and on the Rust, and the comparison of the two outcomes.

use crate::data_structures::bitset::{BitArray, BitSet};
use std::fmt;

/// What a call of our library returns, as its C interface lays it out.
#[repr(C)]
#[derive(Debug, Clone, Copy, PartialEq, Eq)]
pub struct BitsAnswer {
    pub code: u32,
    pub value: u64,
}

impl BitsAnswer {
    pub const DONE: Self = Self::found(0);
    pub const REFUSED: Self = Self { code: 1, value: 0 };
    pub const NOTHING: Self = Self { code: 2, value: 0 };

    pub const fn found(value: u64) -> Self {
        Self { code: 0, value }
    }
}

/// Names every operation once: the enum, all its cases, and the part of the C name after `yoldrick_bits_`.
macro_rules! operations {
    ($($case:ident $name:ident,)*) => {
        #[derive(Debug, Clone, Copy, PartialEq, Eq, PartialOrd, Ord)]
        pub enum Op { $($case,)* }

        impl Op {
            pub const ALL: &'static [Op] = &[$(Op::$case,)*];

            pub fn name(self) -> &'static str {
                match self { $(Op::$case => stringify!($name),)* }
            }
        }
    };
}

operations! {
    With with, Zeroes zeroes, Ones ones, OnAll on_all, OffAll off_all,
    Word word, PutWord put_word, UnusedBits unused_bits, UnusedMask unused_mask, ValueMask value_mask,
    At at, IsOn is_on, IsOff is_off, Set set, On on, Off off, FindFirstOn find_first_on,
    Len len, IsEmpty is_empty, IsFull is_full,
    AndAssign and_assign, OrAssign or_assign, XorAssign xor_assign, And and, Or or, Xor xor, Not not,
    Shl shl, Shr shr, Eq eq,
}

/// The arguments of a call that are no memory. `at` is an index, an offset, a count to shift by or, for the two calls
/// about unused bits, a number of words; `value` is a word or, for `set`, a number of which 0 is off.
#[derive(Debug, Clone, Copy)]
pub struct Call {
    pub op: Op,
    pub n: usize,
    pub at: usize,
    pub value: u64,
}

/// The most words that a slice of these tests has: two more than a set can have.
pub const MOST: usize = 10;

const GUARD: u64 = 0x5AFE_0000_C0DE_FFFF;

/// A lent slice inside guard words. Comparing the whole shows a write outside the slice too.
#[derive(Clone, Copy, PartialEq, Eq)]
pub struct Lent {
    frame: [u64; MOST + 2],
    count: usize,
}

impl Lent {
    pub fn new(words: &[u64]) -> Self {
        let mut lent = Self { frame: [GUARD; MOST + 2], count: words.len() };
        lent.words_mut().copy_from_slice(words);
        lent
    }

    pub fn words(&self) -> &[u64] {
        &self.frame[1..=self.count]
    }

    pub fn words_mut(&mut self) -> &mut [u64] {
        &mut self.frame[1..=self.count]
    }
}

impl fmt::Debug for Lent {
    fn fmt(&self, f: &mut fmt::Formatter<'_>) -> fmt::Result {
        let written_outside = if *self == Self::new(self.words()) { "" } else { ", with a write outside" };
        write!(f, "{:x?}{written_outside}", self.words())
    }
}

/// The memory of a call: a set, a second operand and a place for a result. An operation takes the first one, two or all.
#[derive(Debug, Clone, Copy, PartialEq, Eq)]
pub struct Memory {
    pub a: Lent,
    pub b: Lent,
    pub out: Lent,
}

/// Answer and memory after a call.
#[derive(Debug, PartialEq, Eq)]
pub struct Outcome {
    pub answer: BitsAnswer,
    pub memory: Memory,
}

/// Anything that does the calls of our library's C interface.
pub type Library = dyn Fn(Call, &mut Memory) -> BitsAnswer;

mod raw {
    use super::BitsAnswer;

    macro_rules! calls {
        ($($name:ident($($argument:ty),*);)*) => {
            extern "C" { $(pub fn $name($(_: $argument),*) -> BitsAnswer;)* }
        };
    }

    type R = *const u64;
    type W = *mut u64;

    calls! {
        yoldrick_bits_with(W, usize, usize, u64);
        yoldrick_bits_zeroes(W, usize, usize);
        yoldrick_bits_ones(W, usize, usize);
        yoldrick_bits_on_all(W, usize, usize);
        yoldrick_bits_off_all(W, usize, usize);
        yoldrick_bits_word(R, usize, usize, usize);
        yoldrick_bits_put_word(W, usize, usize, usize, u64);
        yoldrick_bits_unused_bits(usize, usize);
        yoldrick_bits_unused_mask(usize, usize);
        yoldrick_bits_value_mask(usize);
        yoldrick_bits_at(R, usize, usize, usize);
        yoldrick_bits_is_on(R, usize, usize, usize);
        yoldrick_bits_is_off(R, usize, usize, usize);
        yoldrick_bits_set(W, usize, usize, usize, u32);
        yoldrick_bits_on(W, usize, usize, usize);
        yoldrick_bits_off(W, usize, usize, usize);
        yoldrick_bits_find_first_on(R, usize, usize);
        yoldrick_bits_len(R, usize, usize);
        yoldrick_bits_is_empty(R, usize, usize);
        yoldrick_bits_is_full(R, usize, usize);
        yoldrick_bits_and_assign(W, usize, R, usize, usize);
        yoldrick_bits_or_assign(W, usize, R, usize, usize);
        yoldrick_bits_xor_assign(W, usize, R, usize, usize);
        yoldrick_bits_and(R, usize, R, usize, W, usize, usize);
        yoldrick_bits_or(R, usize, R, usize, W, usize, usize);
        yoldrick_bits_xor(R, usize, R, usize, W, usize, usize);
        yoldrick_bits_not(R, usize, W, usize, usize);
        yoldrick_bits_shl(W, usize, usize, u32);
        yoldrick_bits_shr(W, usize, usize, u32);
        yoldrick_bits_eq(R, usize, R, usize, usize);
    }
}

/// A call of our library.
pub fn archive(call: Call, memory: &mut Memory) -> BitsAnswer {
    let Call { op, n, at, value } = call;
    let (a_count, b_count, out_count) = (memory.a.count, memory.b.count, memory.out.count);
    let a = memory.a.words_mut().as_mut_ptr();
    let b = memory.b.words().as_ptr();
    let out = memory.out.words_mut().as_mut_ptr();
    let (flag, shift) = (value as u32, at as u32);

    // SAFETY: each pointer comes with the count of the slice it was taken from, and the slices do not overlap.
    unsafe {
        match op {
            Op::With => raw::yoldrick_bits_with(a, a_count, n, value),
            Op::Zeroes => raw::yoldrick_bits_zeroes(a, a_count, n),
            Op::Ones => raw::yoldrick_bits_ones(a, a_count, n),
            Op::OnAll => raw::yoldrick_bits_on_all(a, a_count, n),
            Op::OffAll => raw::yoldrick_bits_off_all(a, a_count, n),
            Op::Word => raw::yoldrick_bits_word(a, a_count, n, at),
            Op::PutWord => raw::yoldrick_bits_put_word(a, a_count, n, at, value),
            Op::UnusedBits => raw::yoldrick_bits_unused_bits(at, n),
            Op::UnusedMask => raw::yoldrick_bits_unused_mask(at, n),
            Op::ValueMask => raw::yoldrick_bits_value_mask(at),
            Op::At => raw::yoldrick_bits_at(a, a_count, n, at),
            Op::IsOn => raw::yoldrick_bits_is_on(a, a_count, n, at),
            Op::IsOff => raw::yoldrick_bits_is_off(a, a_count, n, at),
            Op::Set => raw::yoldrick_bits_set(a, a_count, n, at, flag),
            Op::On => raw::yoldrick_bits_on(a, a_count, n, at),
            Op::Off => raw::yoldrick_bits_off(a, a_count, n, at),
            Op::FindFirstOn => raw::yoldrick_bits_find_first_on(a, a_count, n),
            Op::Len => raw::yoldrick_bits_len(a, a_count, n),
            Op::IsEmpty => raw::yoldrick_bits_is_empty(a, a_count, n),
            Op::IsFull => raw::yoldrick_bits_is_full(a, a_count, n),
            Op::AndAssign => raw::yoldrick_bits_and_assign(a, a_count, b, b_count, n),
            Op::OrAssign => raw::yoldrick_bits_or_assign(a, a_count, b, b_count, n),
            Op::XorAssign => raw::yoldrick_bits_xor_assign(a, a_count, b, b_count, n),
            Op::And => raw::yoldrick_bits_and(a, a_count, b, b_count, out, out_count, n),
            Op::Or => raw::yoldrick_bits_or(a, a_count, b, b_count, out, out_count, n),
            Op::Xor => raw::yoldrick_bits_xor(a, a_count, b, b_count, out, out_count, n),
            Op::Not => raw::yoldrick_bits_not(a, a_count, out, out_count, n),
            Op::Shl => raw::yoldrick_bits_shl(a, a_count, n, shift),
            Op::Shr => raw::yoldrick_bits_shr(a, a_count, n, shift),
            Op::Eq => raw::yoldrick_bits_eq(a, a_count, b, b_count, n),
        }
    }
}

/// A set of the Rust with these words, unused bits included: the Rust itself has no way to write them all.
pub fn rust_set<const N: usize, const W: usize>(words: &[u64]) -> BitArray<N, W> {
    let words: [u64; W] = words.try_into().expect("as many words as the type has");
    assert_eq!(size_of::<BitArray<N, W>>(), size_of::<[u64; W]>());
    // SAFETY: the set's only field is an array of W words of 64 bits.
    let set: BitArray<N, W> = unsafe { std::mem::transmute_copy(&words) };
    assert_eq!(rust_words(&set), words);
    set
}

pub fn rust_words<const N: usize, const W: usize>(set: &BitArray<N, W>) -> [u64; W] {
    set.data().map(|word| word as u64)
}

fn flag(yes: bool) -> BitsAnswer {
    BitsAnswer::found(yes as u64)
}

fn or_nothing(value: Option<u64>) -> BitsAnswer {
    value.map_or(BitsAnswer::NOTHING, BitsAnswer::found)
}

/// The same call of the Rust. Its size and number of words are those of the type.
pub fn rust<const N: usize, const W: usize>(call: Call, memory: &mut Memory) -> BitsAnswer {
    let Call { op, at, value, .. } = call;
    let mut a = rust_set::<N, W>(memory.a.words());
    let b = rust_set::<N, W>(memory.b.words());
    let mut out = rust_set::<N, W>(memory.out.words());
    let mut answer = BitsAnswer::DONE;
    match op {
        Op::With => a = BitArray::with(value as usize),
        Op::Zeroes => a = BitArray::zeroes(),
        Op::Ones => a = BitArray::ones(),
        Op::OnAll => a.on_all(),
        Op::OffAll => a.off_all(),
        Op::Word => answer = or_nothing(a.word::<u64>(at).copied()),
        Op::PutWord => match a.word_mut::<u64>(at) {
            Some(word) => *word = value,
            None => answer = BitsAnswer::NOTHING,
        },
        Op::UnusedBits => answer = BitsAnswer::found(BitArray::<N, W>::unused_bits() as u64),
        Op::UnusedMask => answer = BitsAnswer::found(BitArray::<N, W>::unused_mask() as u64),
        Op::ValueMask => answer = BitsAnswer::found(rust_value_mask(at)),
        Op::At => answer = flag(a.at(at)),
        Op::IsOn => answer = flag(a.is_on(at)),
        Op::IsOff => answer = flag(a.is_off(at)),
        Op::Set => a.set(at, value != 0),
        Op::On => a.on(at),
        Op::Off => a.off(at),
        Op::FindFirstOn => answer = or_nothing(a.find_first_on().map(|i| i as u64)),
        Op::Len => answer = BitsAnswer::found(a.len() as u64),
        Op::IsEmpty => answer = flag(a.is_empty()),
        Op::IsFull => answer = flag(a.is_full()),
        Op::AndAssign => a &= b,
        Op::OrAssign => a |= b,
        Op::XorAssign => a ^= b,
        Op::And => out = a & b,
        Op::Or => out = a | b,
        Op::Xor => out = a ^ b,
        Op::Not => out = !a,
        Op::Shl => a = a << at as u32,
        Op::Shr => a = a >> at as u32,
        Op::Eq => answer = flag(a == b),
    }
    memory.a = Lent::new(&rust_words(&a));
    memory.out = Lent::new(&rust_words(&out));
    answer
}

/// The Rust keeps `value_mask` to itself; turning one bit on in an empty word shows it.
fn rust_value_mask(index: usize) -> u64 {
    let mut word = BitArray::<64, 1>::zeroes();
    word.on(index % 64);
    rust_words(&word)[0]
}

/// Where the port departs from the Rust: twice as 01 says, once at sizes that 01 does not name, once where the Rust
/// faults. There a plain model of 01 is held against our library instead; nothing else is left out of the comparison.
#[derive(Debug, Clone, Copy, PartialEq, Eq)]
pub enum Departure {
    /// `find_first_on` looks only below the size; the Rust answers with an unused bit if only such are on.
    FirstOnPastTheSize,
    /// The Rust's right shift overwrites words that it has yet to read; the port moves bit n to n+s.
    RightShiftOverwrites,
    /// From the size on the Rust clears several words, where the port still moves bits into the unused ones. No set of
    /// 8, 64 or 512 bits has both several words and unused bits.
    RightShiftPastTheSize,
    /// The Rust's test of a word's offset overflows, and it answers with a place far outside the set.
    OffsetOverflows,
}

pub fn departure(call: Call, memory: &Memory) -> Option<Departure> {
    let Call { op, n, at, .. } = call;
    let words = memory.a.words();
    match op {
        Op::FindFirstOn if first_on_is_past_the_size(words, n) => Some(Departure::FirstOnPastTheSize),
        Op::Shr if right_shift_overwrites(words.len(), n, at) => Some(Departure::RightShiftOverwrites),
        Op::Shr if right_shift_is_past_the_size(words.len(), n, at) => Some(Departure::RightShiftPastTheSize),
        Op::Word | Op::PutWord if offset_overflows(at) => Some(Departure::OffsetOverflows),
        _ => None,
    }
}

fn first_on_is_past_the_size(words: &[u64], n: usize) -> bool {
    plain::first_on(words, n).is_none() && plain::first_on(words, 64 * words.len()).is_some()
}

/// The Rust makes word i, in rising order, from word `i - whole` and, unless whole words are moved, the one
/// before that. It goes wrong if one of these was itself made before, which takes three words at least.
fn right_shift_overwrites(words: usize, n: usize, s: usize) -> bool {
    let made_before = match (s / 64, s % 64) {
        (0, 0) => false,
        (0, _) => words > 2,
        (whole, 0) => words > 2 * whole,
        (whole, _) => words > 2 * whole + 1,
    };
    made_before && s < n
}

fn right_shift_is_past_the_size(words: usize, n: usize, s: usize) -> bool {
    words > 1 && n <= s && s < 64 * words
}

/// The number of the bit after the word does not fit 64 bits.
fn offset_overflows(offset: usize) -> bool {
    offset >= (1 << 58) - 1
}

/// 01's rules for the departures, bit by bit.
pub mod plain {
    pub fn bit(words: &[u64], i: usize) -> bool {
        words[i / 64] >> (63 - i % 64) & 1 == 1
    }

    pub fn first_on(words: &[u64], n: usize) -> Option<u64> {
        (0..n).find(|&i| bit(words, i)).map(|i| i as u64)
    }

    /// Bit n goes to n+s; what passes the last word is lost.
    pub fn shr(words: &mut [u64], s: usize) {
        let before = words.to_vec();
        words.fill(0);
        for i in (s..64 * words.len()).filter(|i| bit(&before, i - s)) {
            words[i / 64] |= 1 << (63 - i % 64);
        }
    }
}

/// What our library owes: the Rust's outcome, or in a departure that of the plain model.
fn owed<const N: usize, const W: usize>(call: Call, memory: &mut Memory) -> BitsAnswer {
    match departure(call, memory) {
        None => rust::<N, W>(call, memory),
        Some(Departure::FirstOnPastTheSize | Departure::OffsetOverflows) => BitsAnswer::NOTHING,
        Some(Departure::RightShiftOverwrites | Departure::RightShiftPastTheSize) => {
            plain::shr(memory.a.words_mut(), call.at);
            BitsAnswer::DONE
        }
    }
}

fn outcome(library: impl Fn(Call, &mut Memory) -> BitsAnswer, call: Call, memory: &Memory) -> Outcome {
    let mut memory = *memory;
    let answer = library(call, &mut memory);
    Outcome { answer, memory }
}

fn same(call: Call, ours: Outcome, want: Outcome) -> Result<(), String> {
    if ours == want {
        Ok(())
    } else {
        Err(format!("{}: {call:?}\n  got  {ours:x?}\n  owed {want:x?}", call.op.name()))
    }
}

/// Compares one call of a library with what it owes: the answer, and all words of all slices.
pub fn compare<const N: usize, const W: usize>(library: &Library, call: Call, memory: &Memory) -> Result<(), String> {
    same(call, outcome(library, call, memory), outcome(owed::<N, W>, call, memory))
}

/// Shows that a library refuses one call and changes nothing.
pub fn refused(library: &Library, call: Call, memory: &Memory) -> Result<(), String> {
    same(call, outcome(library, call, memory), outcome(|_, _| BitsAnswer::REFUSED, call, memory))
}
