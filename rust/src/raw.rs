//! The calls of include/yoldrick.h, as C has them.

#[repr(C)]
pub struct Answer {
    pub code: u32,
    pub value: f32,
}

#[repr(C)]
pub struct Number {
    pub code: u32,
    pub number: u32,
}

#[repr(C)]
pub struct Counts {
    pub code: u32,
    pub slots: u32,
    pub masks: u32,
    pub book: u32,
}

/// A call takes the three slices, each as a pointer, which the call writes through or only reads, and a count of elements;
/// and then what its brackets name.
macro_rules! calls {
    ($($access:tt $name:ident($($argument:ident: $kind:ty),*) -> $answer:ty;)*) => {
        extern "C" {
            $(
                pub fn $name(
                    slots: *$access u32,
                    slots_count: usize,
                    masks: *$access u64,
                    masks_count: usize,
                    book: *$access u32,
                    book_count: usize,
                    $($argument: $kind),*
                ) -> $answer;
            )*
        }
    };
}

calls! {
    mut yoldrick_prepare() -> u32;
    const yoldrick_free_cells() -> Number;
    const yoldrick_is_empty(seat: u32) -> Number;
    const yoldrick_lookup(seat: u32, x: i32, y: i32, z: i32) -> Answer;
    const yoldrick_sign(seat: u32, x: i32, y: i32, z: i32) -> Number;
    mut yoldrick_insert(seat: u32, x: i32, y: i32, z: i32, bits: u32) -> u32;
    mut yoldrick_remove(seat: u32, x: i32, y: i32, z: i32) -> u32;
    mut yoldrick_fill(seat: u32, bits: u32) -> u32;
    mut yoldrick_clear(seat: u32) -> u32;
    mut yoldrick_prune(seat: u32) -> u32;
    mut yoldrick_cut_below(seat: u32, high: f32) -> u32;
    mut yoldrick_cut_above(seat: u32, low: f32) -> u32;
    mut yoldrick_cut_between(seat: u32, low: f32, high: f32) -> u32;
    mut yoldrick_flip(seat: u32) -> u32;
    mut yoldrick_fill_signs(seat: u32) -> u32;
    mut yoldrick_copy(from: u32, to: u32) -> u32;
    mut yoldrick_union(a: u32, b: u32) -> u32;
    mut yoldrick_subtract(a: u32, b: u32) -> u32;
    mut yoldrick_intersect(a: u32, b: u32) -> u32;
}

extern "C" {
    pub fn yoldrick_sizes(cells: u32) -> Counts;
}
