//! What the Rust's bit sets do where the port departs from them. These tests run the Rust alone; docs/DIFFERENCES.md cites them.

use oracle::bits::{departure, plain, rust_set, rust_words, Call, Lent, Memory, Op};
use oracle::data_structures::bitset::{BitArray, BitSet};
use std::hint::black_box;

#[test]
fn first_on_is_past_the_size() {
    let mut set = BitArray::<8, 1>::ones();
    (0..8).for_each(|i| set.off(i));
    assert!(set.is_empty());
    assert_eq!(set.find_first_on(), Some(8));
}

#[test]
fn right_shift_overwrites_what_it_has_yet_to_read() {
    let mut set = BitArray::<192, 3>::zeroes();
    set.on(126);
    let moved = set >> 1;
    let on: Vec<usize> = (0..192).filter(|i| moved.is_on(*i)).collect();
    assert_eq!(on, [127, 128]);

    let mut first = BitArray::<192, 3>::zeroes();
    first.on(0);
    assert_eq!(rust_words(&(first >> 64)), [0, 1 << 63, 1 << 63]);
}

#[test]
fn right_shift_past_the_size_clears_unused_bits() {
    let mut set = BitArray::<65, 2>::zeroes();
    set.on(0);
    assert_eq!(rust_words(&(set >> 64)), [0, 1 << 63]);
    assert_eq!(rust_words(&(set >> 65)), [0, 0]); // in one word it would go on into the unused bits
}

/// The Rust differs from the plain model exactly at the counts that the comparison excludes.
#[test]
fn right_shift_is_wrong_exactly_where_it_is_excluded() {
    assert_eq!(wrong_counts::<8, 1>(), []);
    assert_eq!(wrong_counts::<64, 1>(), []);
    assert_eq!(wrong_counts::<65, 2>(), Vec::from_iter(65..128));
    assert_eq!(wrong_counts::<128, 2>(), []);
    assert_eq!(wrong_counts::<192, 3>(), Vec::from_iter(1..=64));
    assert_eq!(wrong_counts::<200, 4>(), Vec::from_iter((1..=127).chain(200..256)));
    assert_eq!(wrong_counts::<512, 8>(), Vec::from_iter(1..=255));
}

/// The counts at which the Rust moves some single bit wrong.
fn wrong_counts<const N: usize, const W: usize>() -> Vec<usize> {
    let found: Vec<usize> = (0..=N + 70).filter(|s| (0..64 * W).any(|i| moves_wrong::<N, W>(i, *s))).collect();
    let excluded: Vec<usize> = (0..=N + 70).filter(|s| is_excluded::<W>(N, *s)).collect();
    assert_eq!(found, excluded, "{N} bits");
    found
}

fn moves_wrong<const N: usize, const W: usize>(i: usize, s: usize) -> bool {
    let mut words = [0; W];
    words[i / 64] = 1 << (63 - i % 64);
    let moved = rust_set::<N, W>(&words) >> s as u32;
    plain::shr(&mut words, s);
    rust_words(&moved) != words
}

fn is_excluded<const W: usize>(n: usize, s: usize) -> bool {
    let any = Lent::new(&[0; W]);
    departure(Call { op: Op::Shr, n, at: s, value: 0 }, &Memory { a: any, b: any, out: any }).is_some()
}

#[test]
fn word_of_a_byte_is_the_low_end() {
    let mut set = BitArray::<64, 1>::zeroes();
    set.on(63);
    assert_eq!(set.word::<u8>(0), Some(&1));

    let mut eight = BitArray::<8, 1>::zeroes();
    eight.on(0);
    assert_eq!(eight.word::<u8>(0), Some(&0));
}

#[test]
fn a_large_word_offset_passes_the_test() {
    let set = BitArray::<64, 1>::zeroes();
    assert!(set.word::<u64>(1).is_none());
    // Reading what this leads to is a fault, so the test only shows that it is given out.
    assert!(black_box(set.word::<u64>(black_box((1 << 58) - 1))).is_some());
}

#[test]
fn an_index_past_the_size_is_served() {
    let mut set = BitArray::<8, 1>::zeroes();
    assert!(BitArray::<8, 1>::ones().at(8));
    set.on(8);
    assert_eq!(rust_words(&set), [1 << 55]);
    assert!(std::panic::catch_unwind(|| BitArray::<8, 1>::ones().at(black_box(64))).is_err());
}
