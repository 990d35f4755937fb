//! The calls of our library on a pool of grids: the lent memory, and each call as a value, so that a test can make,
//! show and break it.

pub const SEATS: usize = 8;

/// Three coordinates. A call masks each to its low 7 bits.
pub type Point = [i32; 3];

#[derive(Debug, Clone, Copy, PartialEq, Eq)]
pub enum Call {
    Prepare,
    FreeCells,
    IsEmpty { seat: u32 },
    Lookup { seat: u32, at: Point },
    Sign { seat: u32, at: Point },
    Insert { seat: u32, at: Point, bits: u32 },
    Remove { seat: u32, at: Point },
    Fill { seat: u32, bits: u32 },
    Clear { seat: u32 },
    Prune { seat: u32 },
    Cut { seat: u32, test: Test },
    Flip { seat: u32 },
    FillSigns { seat: u32 },
    Copy { from: u32, to: u32 },
    Combine { operation: Operation, a: u32, b: u32 },
}

#[derive(Debug, Clone, Copy, PartialEq, Eq)]
pub enum Operation {
    Union,
    Subtract,
    Intersect,
}

impl Operation {
    pub const ALL: [Self; 3] = [Self::Union, Self::Subtract, Self::Intersect];

    /// Whether a point is inside after it, that was or was not inside each of the two.
    pub fn joins(self, a: bool, b: bool) -> bool {
        match self {
            Self::Union => a || b,
            Self::Subtract => a && !b,
            Self::Intersect => a && b,
        }
    }
}

/// What a cut hides, with the bits of its bounds.
#[derive(Debug, Clone, Copy, PartialEq, Eq)]
pub enum Test {
    Below(u32),
    Above(u32),
    Between(u32, u32),
}

impl Test {
    pub fn passes(self, value: f32) -> bool {
        match self {
            Self::Below(high) => value < f32::from_bits(high),
            Self::Above(low) => value > f32::from_bits(low),
            Self::Between(low, high) => f32::from_bits(low) <= value && value <= f32::from_bits(high),
        }
    }
}

/// The code of a call, and the number that comes with it: for a lookup the bits of the float, 0 where there is none.
#[derive(Debug, Clone, Copy, PartialEq, Eq)]
pub struct Answer {
    pub code: u32,
    pub number: u32,
}

impl Answer {
    pub const DONE: Self = Self::found(0);
    pub const NOTHING: Self = Self::refused(10);

    pub const fn found(number: u32) -> Self {
        Self { code: 0, number }
    }

    pub const fn refused(code: u32) -> Self {
        Self { code, number: 0 }
    }
}

/// A lent slice between two guard words. Comparing the whole shows a write outside the slice too.
#[derive(Clone, PartialEq, Eq)]
struct Lent<T> {
    frame: Vec<T>,
}

impl<T: Copy + PartialEq + From<u32>> Lent<T> {
    const GUARD: u32 = 0x5AFE_C0DE;

    fn new(count: usize, word: impl FnMut() -> T) -> Self {
        let guard = || std::iter::once(T::from(Self::GUARD));
        Self { frame: guard().chain(std::iter::repeat_with(word).take(count)).chain(guard()).collect() }
    }

    fn words(&mut self) -> &mut [T] {
        let end = self.frame.len() - 1;
        &mut self.frame[1..end]
    }

    /// The slice as a call of C takes it.
    fn lend(&mut self) -> (*mut T, usize) {
        let words = self.words();
        (words.as_mut_ptr(), words.len())
    }

    fn is_guarded(&self) -> bool {
        [self.frame.first(), self.frame.last()] == [Some(&T::from(Self::GUARD)); 2]
    }
}

/// The numbers of elements of the three slices.
#[derive(Debug, Clone, Copy, PartialEq, Eq)]
pub struct Counts {
    pub slots: usize,
    pub masks: usize,
    pub book: usize,
}

impl Counts {
    pub const fn of_cells(n: usize) -> Self {
        Self { slots: 4096 + 64 * n, masks: 128 + 2 * n, book: 9 + 2 * n }
    }
}

/// The memory of a pool.
#[derive(Clone, PartialEq, Eq)]
pub struct Pool {
    slots: Lent<u32>,
    masks: Lent<u64>,
    book: Lent<u32>,
}

impl Pool {
    /// Memory that holds what `word` gives: a pool is to be prepared whatever it held.
    pub fn new(counts: Counts, mut word: impl FnMut() -> u64) -> Self {
        Self {
            slots: Lent::new(counts.slots, || word() as u32),
            masks: Lent::new(counts.masks, &mut word),
            book: Lent::new(counts.book, || word() as u32),
        }
    }

    pub fn is_guarded(&self) -> bool {
        self.slots.is_guarded() && self.masks.is_guarded() && self.book.is_guarded()
    }

    /// Makes a free cell, with all its slots hidden, the branch of a slot: of a top, 0 to 7, or of the node that an earlier
    /// such call gave. A call leaves few of the branches empty that could be, so this writes the words themselves.
    pub fn hang_empty_branch(&mut self, node: usize, slot: usize) -> usize {
        let (slots, masks, book) = (self.slots.words(), self.masks.words(), self.book.words());
        let cells = (book.len() - 9) / 2;
        let place = |node: usize| if node < SEATS { 512 * node } else { 4096 + 64 * (node - SEATS) };
        let (at, bit) = (place(node) + slot, 1 << (63 - slot % 64));

        book[8] -= 1;
        let cell = book[9 + cells + book[8] as usize] as usize;
        book[9 + cell] = (65_536 + 512 * node + slot) as u32;
        slots[at] = cell as u32;
        masks[at / 64] |= bit;
        masks[64 + cells + at / 64] &= !bit;

        let branch = SEATS + cell;
        slots[place(branch)..place(branch) + 64].fill(f32::MAX.to_bits());
        masks[place(branch) / 64] = 0;
        masks[64 + cells + place(branch) / 64] = 0;
        branch
    }

    /// Turns one bit of each slice that has one.
    pub fn turn_bits(&mut self) {
        self.slots.words().iter_mut().take(1).for_each(|word| *word ^= 1);
        self.masks.words().iter_mut().take(1).for_each(|word| *word ^= 1);
        self.book.words().iter_mut().take(1).for_each(|word| *word ^= 1);
    }
}

/// Anything that does the calls of our library's C interface.
pub type Library = dyn Fn(Call, &mut Pool) -> Answer;

mod raw {
    #[repr(C)]
    pub struct GridAnswer {
        pub code: u32,
        pub value: f32,
    }

    #[repr(C)]
    pub struct GridNumber {
        pub code: u32,
        pub number: u32,
    }

    macro_rules! calls {
        ($($name:ident($($argument:ty),*) -> $answer:ty;)*) => {
            extern "C" {
                $(pub fn $name(
                    _: *mut u32, _: usize, _: *mut u64, _: usize, _: *mut u32, _: usize, $(_: $argument),*
                ) -> $answer;)*
            }
        };
    }

    // A call that only reads takes pointers to constants; a pointer is passed alike.
    calls! {
        yoldrick_prepare() -> u32;
        yoldrick_free_cells() -> GridNumber;
        yoldrick_is_empty(u32) -> GridNumber;
        yoldrick_lookup(u32, i32, i32, i32) -> GridAnswer;
        yoldrick_sign(u32, i32, i32, i32) -> GridNumber;
        yoldrick_insert(u32, i32, i32, i32, u32) -> u32;
        yoldrick_remove(u32, i32, i32, i32) -> u32;
        yoldrick_fill(u32, u32) -> u32;
        yoldrick_clear(u32) -> u32;
        yoldrick_prune(u32) -> u32;
        yoldrick_cut_below(u32, f32) -> u32;
        yoldrick_cut_above(u32, f32) -> u32;
        yoldrick_cut_between(u32, f32, f32) -> u32;
        yoldrick_flip(u32) -> u32;
        yoldrick_fill_signs(u32) -> u32;
        yoldrick_copy(u32, u32) -> u32;
        yoldrick_union(u32, u32) -> u32;
        yoldrick_subtract(u32, u32) -> u32;
        yoldrick_intersect(u32, u32) -> u32;
    }
}

impl From<u32> for Answer {
    fn from(code: u32) -> Self {
        Self { code, number: 0 }
    }
}

impl From<raw::GridNumber> for Answer {
    fn from(raw: raw::GridNumber) -> Self {
        Self { code: raw.code, number: raw.number }
    }
}

impl From<raw::GridAnswer> for Answer {
    fn from(raw: raw::GridAnswer) -> Self {
        Self { code: raw.code, number: raw.value.to_bits() }
    }
}

/// A call of our library.
pub fn archive(call: Call, pool: &mut Pool) -> Answer {
    let (s, s_count) = pool.slots.lend();
    let (m, m_count) = pool.masks.lend();
    let (b, b_count) = pool.book.lend();

    // SAFETY: each pointer comes with the count of the slice it was taken from, and the slices do not overlap.
    unsafe {
        match call {
            Call::Prepare => raw::yoldrick_prepare(s, s_count, m, m_count, b, b_count).into(),
            Call::FreeCells => raw::yoldrick_free_cells(s, s_count, m, m_count, b, b_count).into(),
            Call::IsEmpty { seat } => raw::yoldrick_is_empty(s, s_count, m, m_count, b, b_count, seat).into(),
            Call::Lookup { seat, at: [x, y, z] } => {
                raw::yoldrick_lookup(s, s_count, m, m_count, b, b_count, seat, x, y, z).into()
            }
            Call::Sign { seat, at: [x, y, z] } => {
                raw::yoldrick_sign(s, s_count, m, m_count, b, b_count, seat, x, y, z).into()
            }
            Call::Insert { seat, at: [x, y, z], bits } => {
                raw::yoldrick_insert(s, s_count, m, m_count, b, b_count, seat, x, y, z, bits).into()
            }
            Call::Remove { seat, at: [x, y, z] } => {
                raw::yoldrick_remove(s, s_count, m, m_count, b, b_count, seat, x, y, z).into()
            }
            Call::Fill { seat, bits } => raw::yoldrick_fill(s, s_count, m, m_count, b, b_count, seat, bits).into(),
            Call::Clear { seat } => raw::yoldrick_clear(s, s_count, m, m_count, b, b_count, seat).into(),
            Call::Prune { seat } => raw::yoldrick_prune(s, s_count, m, m_count, b, b_count, seat).into(),
            Call::Cut { seat, test: Test::Below(high) } => {
                raw::yoldrick_cut_below(s, s_count, m, m_count, b, b_count, seat, f32::from_bits(high)).into()
            }
            Call::Cut { seat, test: Test::Above(low) } => {
                raw::yoldrick_cut_above(s, s_count, m, m_count, b, b_count, seat, f32::from_bits(low)).into()
            }
            Call::Cut { seat, test: Test::Between(low, high) } => {
                let (low, high) = (f32::from_bits(low), f32::from_bits(high));
                raw::yoldrick_cut_between(s, s_count, m, m_count, b, b_count, seat, low, high).into()
            }
            Call::Flip { seat } => raw::yoldrick_flip(s, s_count, m, m_count, b, b_count, seat).into(),
            Call::FillSigns { seat } => raw::yoldrick_fill_signs(s, s_count, m, m_count, b, b_count, seat).into(),
            Call::Copy { from, to } => raw::yoldrick_copy(s, s_count, m, m_count, b, b_count, from, to).into(),
            Call::Combine { operation, a: first, b: second } => {
                let combine = match operation {
                    Operation::Union => raw::yoldrick_union,
                    Operation::Subtract => raw::yoldrick_subtract,
                    Operation::Intersect => raw::yoldrick_intersect,
                };
                combine(s, s_count, m, m_count, b, b_count, first, second).into()
            }
        }
    }
}

/// The archive, except that other calls are made in the place of some. The answer is that of the first.
pub fn replacing(calls: fn(Call) -> Vec<Call>) -> impl Fn(Call, &mut Pool) -> Answer {
    move |call, pool| {
        let answers: Vec<Answer> = calls(call).into_iter().map(|call| archive(call, pool)).collect();
        answers.first().copied().unwrap_or(Answer::DONE)
    }
}

/// What a broken library does after a call: the call, its answer, the pool after it and before it.
pub type Breakage = fn(Call, &mut Answer, &mut Pool, &Pool);

/// The archive, except that something else is left behind where `breakage` chooses.
pub fn broken(breakage: Breakage) -> impl Fn(Call, &mut Pool) -> Answer {
    move |call, pool| {
        let before = pool.clone();
        let mut answer = archive(call, pool);
        breakage(call, &mut answer, pool, &before);
        answer
    }
}
