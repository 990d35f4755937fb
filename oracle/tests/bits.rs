//! Every operation of our library's bit sets beside the Rust: all sets of 8 bits, and chosen and random sets of other sizes.

use oracle::bits::*;
use oracle::dice::Dice;
use std::collections::BTreeMap;
use std::io::Write;

/// Counts to shift by, beside those near the size.
const LARGE_COUNTS: [usize; 7] =
    [1 << 10, 1 << 16, 1 << 31, (1 << 31) + 1, (1 << 32) - 64, (1 << 32) - 8, (1 << 32) - 1];

const LARGE_OFFSETS: [usize; 7] = [1 << 32, (1 << 58) - 2, (1 << 58) - 1, 1 << 58, (1 << 58) + 1, 1 << 63, usize::MAX];

/// What the 56 unused bits of an 8-bit set hold: nothing, everything, each end alone, and two mixtures.
const UNUSED: [u64; 6] = [0, (1 << 56) - 1, 1, 1 << 55, 0x00AA_AAAA_AAAA_AAAA, 0x0012_3456_789A_BCDE];

/// A run of comparisons with one library. It ends at the first difference.
struct Run<'a> {
    library: &'a Library,
    /// Comparisons made, by operation, and how many of them fell under a departure.
    made: BTreeMap<Op, (u64, u64)>,
}

type Checked = Result<(), String>;

impl<'a> Run<'a> {
    fn new(library: &'a Library) -> Self {
        Self { library, made: BTreeMap::new() }
    }

    fn compare<const N: usize, const W: usize>(&mut self, op: Op, at: usize, value: u64, memory: &Memory) -> Checked {
        let call = Call { op, n: N, at, value };
        self.count(op, departure(call, memory).is_some());
        compare::<N, W>(self.library, call, memory)
    }

    fn refused(&mut self, call: Call, memory: &Memory) -> Checked {
        self.count(call.op, false);
        refused(self.library, call, memory)
    }

    fn count(&mut self, op: Op, departs: bool) {
        let (made, departed) = self.made.entry(op).or_default();
        *made += 1;
        *departed += departs as u64;
    }

    /// The operations on one set without further numbers.
    fn alone<const N: usize, const W: usize>(&mut self, memory: &Memory) -> Checked {
        for op in
            [Op::Zeroes, Op::Ones, Op::OnAll, Op::OffAll, Op::FindFirstOn, Op::Len, Op::IsEmpty, Op::IsFull, Op::Not]
        {
            self.compare::<N, W>(op, 0, 0, memory)?;
        }
        self.compare::<N, W>(Op::With, 0, memory.b.words()[0], memory)
    }

    fn at_every_index<const N: usize, const W: usize>(&mut self, memory: &Memory) -> Checked {
        for i in 0..N {
            for op in [Op::At, Op::IsOn, Op::IsOff, Op::On, Op::Off] {
                self.compare::<N, W>(op, i, 0, memory)?;
            }
            for value in [0, 1, 2, u32::MAX] {
                self.compare::<N, W>(Op::Set, i, value.into(), memory)?;
            }
        }
        Ok(())
    }

    fn at_every_word<const N: usize, const W: usize>(&mut self, memory: &Memory) -> Checked {
        for offset in (0..W + 3).chain(LARGE_OFFSETS) {
            self.compare::<N, W>(Op::Word, offset, 0, memory)?;
            self.compare::<N, W>(Op::PutWord, offset, memory.b.words()[0], memory)?;
        }
        Ok(())
    }

    fn by_every_count<const N: usize, const W: usize>(&mut self, memory: &Memory) -> Checked {
        for s in (0..=N + 70).chain(LARGE_COUNTS) {
            self.compare::<N, W>(Op::Shl, s, 0, memory)?;
            self.compare::<N, W>(Op::Shr, s, 0, memory)?;
        }
        Ok(())
    }

    fn paired<const N: usize, const W: usize>(&mut self, memory: &Memory) -> Checked {
        for op in [Op::AndAssign, Op::OrAssign, Op::XorAssign, Op::And, Op::Or, Op::Xor, Op::Eq] {
            self.compare::<N, W>(op, 0, 0, memory)?;
        }
        Ok(())
    }

    /// The operations that only speak of the size.
    fn of_the_size<const N: usize, const W: usize>(&mut self) -> Checked {
        let memory = memory_of(&[0; W], &[0; W]);
        self.compare::<N, W>(Op::UnusedBits, W, 0, &memory)?;
        self.compare::<N, W>(Op::UnusedMask, W, 0, &memory)?;
        (0..N + 70).chain(LARGE_OFFSETS).try_for_each(|i| self.compare::<N, W>(Op::ValueMask, i, 0, &memory))
    }

    /// Everything about one set; `other` gives second operands and values.
    fn of_one_set<const N: usize, const W: usize>(&mut self, set: &[u64], other: &[u64]) -> Checked {
        let memory = memory_of(set, other);
        self.alone::<N, W>(&memory)?;
        self.at_every_index::<N, W>(&memory)?;
        self.at_every_word::<N, W>(&memory)?;
        self.by_every_count::<N, W>(&memory)
    }

    /// All 256 sets of 8 bits and all their pairs, over the patterns of unused bits.
    fn of_eight_bits(&mut self) -> Checked {
        let with_unused = |set: u64, unused: u64| set << 56 | unused;
        self.of_the_size::<8, 1>()?;
        for set in 0..256 {
            for unused in UNUSED {
                let word = with_unused(set, unused);
                self.of_one_set::<8, 1>(&[word], &[!word.rotate_left(17)])?;
            }
        }
        for pair in 0..256 * 256 {
            for (a_unused, b_unused) in UNUSED.iter().flat_map(|a| UNUSED.map(|b| (*a, b))) {
                let (a, b) = (with_unused(pair / 256, a_unused), with_unused(pair % 256, b_unused));
                self.paired::<8, 1>(&memory_of(&[a], &[b]))?;
            }
        }
        Ok(())
    }

    /// Random pairs of sets of one size, nearly equal and equal ones among them; then each set with every index, offset
    /// and count.
    fn of_samples<const N: usize, const W: usize>(&mut self, random: usize, pairs: usize) -> Checked {
        let mut dice = Dice(N as u64);
        let sets = samples::<N, W>(&mut dice, random);
        self.of_the_size::<N, W>()?;
        for _ in 0..pairs {
            let (a, b) = (dice.pick(&sets), dice.pick(&sets));
            self.paired::<N, W>(&memory_of(&a, &b))?;
            let mut near = a;
            near[dice.below(W)] ^= 1 << dice.below(64);
            self.paired::<N, W>(&memory_of(&a, &near))?;
            self.paired::<N, W>(&memory_of(&a, &a))?;
        }
        sets.iter().try_for_each(|set| self.of_one_set::<N, W>(set, &dice.words::<W>()))
    }

    /// Every operation on slices that do not fit a size or each other, and at indices that are not below the size.
    fn of_refusals(&mut self) -> Checked {
        let words = Dice(1).words::<MOST>();
        let lent = |count: usize| Lent::new(&words[..count]);
        for n in
            [0, 1, 8, 63, 64, 65, 128, 129, 448, 449, 511, 512, 513, 576, 640, 1 << 32, usize::MAX - 62, usize::MAX]
        {
            for a in 0..=MOST {
                let memory = Memory { a: lent(a), b: lent(a), out: lent(a) };
                self.of_counts(n, &memory)?;
                for other in (0..=MOST).filter(|other| *other != a) {
                    self.of_counts(n, &Memory { b: lent(other), ..memory })?;
                    self.of_counts(n, &Memory { out: lent(other), ..memory })?;
                }
            }
        }
        for n in [1, 8, 63, 64, 65, 200, 511, 512] {
            let fitting = lent(usize::div_ceil(n, 64));
            let memory = Memory { a: fitting, b: fitting, out: fitting };
            for i in (n..n + 130).chain(LARGE_OFFSETS) {
                for op in [Op::At, Op::IsOn, Op::IsOff, Op::Set, Op::On, Op::Off] {
                    self.refused(Call { op, n, at: i, value: 1 }, &memory)?;
                }
            }
        }
        Ok(())
    }

    /// Every operation for which some slice that it takes does not fit the size.
    fn of_counts(&mut self, n: usize, memory: &Memory) -> Checked {
        let fits = |slice: &Lent| (1..=512).contains(&n) && slice.words().len() == n.div_ceil(64);
        for &op in Op::ALL {
            let good = match op {
                Op::ValueMask => true,
                Op::And | Op::Or | Op::Xor => fits(&memory.a) && fits(&memory.b) && fits(&memory.out),
                Op::AndAssign | Op::OrAssign | Op::XorAssign | Op::Eq => fits(&memory.a) && fits(&memory.b),
                Op::Not => fits(&memory.a) && fits(&memory.out),
                _ => fits(&memory.a),
            };
            if !good {
                let at = if matches!(op, Op::UnusedBits | Op::UnusedMask) { memory.a.words().len() } else { 0 };
                self.refused(Call { op, n, at, value: 1 }, memory)?;
            }
        }
        Ok(())
    }

    /// Prints the counts past the test harness, which would keep them to itself.
    fn report(&self, what: &str) {
        let counts = self.made.iter().map(|(op, (made, departed))| match departed {
            0 => format!("{} {made}", op.name()),
            _ => format!("{} {made} ({departed} of them with the plain model)", op.name()),
        });
        let total: u64 = self.made.values().map(|(made, _)| made).sum();
        let counts: Vec<String> = counts.collect();
        writeln!(std::io::stdout(), "{what}: {total} comparisons: {}", counts.join(", ")).unwrap();
    }
}

fn memory_of(a: &[u64], b: &[u64]) -> Memory {
    // The place for a result holds neither zeros nor an operand beforehand.
    let out: Vec<u64> = a.iter().zip(b).map(|(a, b)| !(a ^ b.rotate_left(29))).collect();
    Memory { a: Lent::new(a), b: Lent::new(b), out: Lent::new(&out) }
}

/// Empty, full, single bits, all but one bit, and random sets of several densities. Bits past the size are random in a half.
fn samples<const N: usize, const W: usize>(dice: &mut Dice, random: usize) -> Vec<[u64; W]> {
    let mut sets = vec![[0; W], [u64::MAX; W]];
    for i in 0..N {
        let mut one = [0; W];
        one[i / 64] = 1 << (63 - i % 64);
        sets.extend([one, one.map(|word| !word)]);
    }
    for _ in 0..random {
        let (a, b, c) = (dice.words::<W>(), dice.words::<W>(), dice.words::<W>());
        let mixed = |f: fn(u64, u64, u64) -> u64| std::array::from_fn(|i| f(a[i], b[i], c[i]));
        sets.extend([a, mixed(|a, b, c| a & b & c), mixed(|a, b, c| a | b | c)]);
        // whole words of one kind
        sets.push(mixed(|a, b, c| [0, u64::MAX, b][(a ^ c) as usize % 3]));
    }
    let unused = 64 * W - N;
    if unused > 0 {
        for set in sets.iter_mut().step_by(2) {
            set[W - 1] ^= dice.next() >> (64 - unused);
        }
    }
    sets
}

fn shown<'a>(what: &str, run: impl FnOnce(&mut Run<'a>) -> Checked) {
    let mut made = Run::new(&archive);
    let checked = run(&mut made);
    made.report(what);
    checked.unwrap_or_else(|difference| panic!("{difference}"));
}

#[test]
fn eight_bits_exhaustively() {
    shown("8 bits, all sets and pairs", Run::of_eight_bits);
}

#[test]
fn sixty_four_bits() {
    shown("64 bits", |run| run.of_samples::<64, 1>(2000, 50_000));
}

#[test]
fn five_hundred_and_twelve_bits() {
    shown("512 bits", |run| run.of_samples::<512, 8>(100, 50_000));
}

#[test]
fn sizes_between() {
    shown("1, 63, 65, 100, 128, 192, 200 and 511 bits", |run| {
        run.of_samples::<1, 1>(50, 1000)?;
        run.of_samples::<63, 1>(50, 1000)?;
        run.of_samples::<65, 2>(50, 1000)?;
        run.of_samples::<100, 2>(50, 1000)?;
        run.of_samples::<128, 2>(50, 1000)?;
        run.of_samples::<192, 3>(50, 1000)?;
        run.of_samples::<200, 4>(50, 1000)?;
        run.of_samples::<511, 8>(5, 1000)
    });
}

#[test]
fn refusals_change_nothing() {
    shown("refusals", Run::of_refusals);
}

/// The first difference that a run with this library finds names the operation.
fn caught<'a>(library: &'a Library, op: Op, run: impl FnOnce(&mut Run<'a>) -> Checked) {
    let difference = run(&mut Run::new(library)).expect_err("a broken library passed");
    assert!(difference.starts_with(&format!("{}: ", op.name())), "{difference}");
}

/// The archive, except that one operation leaves something else behind.
fn broken(op: Op, breakage: fn(&mut BitsAnswer, &mut Memory)) -> impl Fn(Call, &mut Memory) -> BitsAnswer {
    move |call, memory| {
        let mut answer = archive(call, memory);
        if call.op == op {
            breakage(&mut answer, memory);
        }
        answer
    }
}

fn drop_a_bit(words: &mut [u64]) {
    if let Some(word) = words.iter_mut().rfind(|word| **word != 0) {
        *word &= *word - 1;
    }
}

#[test]
fn self_check_a_dropped_bit_is_caught() {
    use Op::*;
    for op in [With, Ones, OnAll, PutWord, Set, On, Off, AndAssign, OrAssign, XorAssign, Shl, Shr] {
        caught(&broken(op, |_, memory| drop_a_bit(memory.a.words_mut())), op, Run::of_eight_bits);
        caught(&broken(op, |_, memory| drop_a_bit(memory.a.words_mut())), op, |run| run.of_samples::<512, 8>(1, 10));
    }
    for op in [And, Or, Xor, Not] {
        caught(&broken(op, |_, memory| drop_a_bit(memory.out.words_mut())), op, Run::of_eight_bits);
        caught(&broken(op, |_, memory| drop_a_bit(memory.out.words_mut())), op, |run| run.of_samples::<512, 8>(1, 10));
    }
}

#[test]
fn self_check_every_changed_bit_is_caught() {
    let breakages: [fn(&mut BitsAnswer, &mut Memory); 6] = [
        |answer, _| answer.value ^= 1,
        |answer, _| answer.code ^= 1,
        |answer, _| answer.code ^= 2,
        |_, memory| memory.a.words_mut()[0] ^= 1,
        |_, memory| memory.b.words_mut()[0] ^= 1,
        |_, memory| memory.out.words_mut()[0] ^= 1,
    ];
    for &op in Op::ALL {
        for breakage in breakages {
            caught(&broken(op, breakage), op, |run| run.of_samples::<8, 1>(1, 1));
        }
    }
}

#[test]
fn self_check_a_refusal_that_writes_is_caught() {
    for &op in Op::ALL.iter().filter(|op| **op != Op::ValueMask) {
        let writes = |_: &mut BitsAnswer, memory: &mut Memory| {
            memory.a.words_mut().iter_mut().take(1).for_each(|word| *word ^= 1);
        };
        caught(&broken(op, writes), op, Run::of_refusals);
    }
}

/// The Rust in place of our library. Where its offset overflows it would read outside its memory.
fn the_rust<const N: usize, const W: usize>(call: Call, memory: &mut Memory) -> BitsAnswer {
    match departure(call, memory) {
        Some(Departure::OffsetOverflows) => BitsAnswer::NOTHING,
        _ => rust::<N, W>(call, memory),
    }
}

/// The Rust itself passes at 64 bits; at 8 and 512 the runs reach the departures and find it wrong there.
#[test]
fn self_check_the_rust_fails_where_01_departs() {
    Run::new(&the_rust::<64, 1>).of_samples::<64, 1>(10, 10).unwrap();
    caught(&the_rust::<8, 1>, Op::FindFirstOn, Run::of_eight_bits);
    caught(&the_rust::<512, 8>, Op::Shr, |run| run.of_samples::<512, 8>(1, 0));
}
