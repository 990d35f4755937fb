//! What the Rust's nodes do where the port departs from them or keeps something odd. These tests run the Rust alone;
//! docs/DIFFERENCES.md cites them. Facts about fresh memory or links are shown by an allocator that paints the one and
//! chooses the addresses of the other: the Rust's answer changes with it.

use oracle::helpers::aliases::Vec3i;
use oracle::voxel::{leaf, leaf_of_eight, middle, top, Csg, FloodFill, Grid, Sign, TreeNode};
use std::alloc::{GlobalAlloc, Layout, System};
use std::cell::Cell;
use std::hint::black_box;
use std::panic::{catch_unwind, AssertUnwindSafe};
use std::sync::Mutex;

struct Painter;

#[global_allocator]
static PAINTER: Painter = Painter;

thread_local! {
    static PAINT: Cell<u8> = const { Cell::new(0) };
    /// The next address to hand out, or 0 to leave the choice to the system.
    static NEXT: Cell<usize> = const { Cell::new(0) };
}

unsafe impl GlobalAlloc for Painter {
    unsafe fn alloc(&self, layout: Layout) -> *mut u8 {
        let place = match NEXT.get() {
            0 => System.alloc(layout),
            next => {
                let place = next.next_multiple_of(layout.align());
                NEXT.set(place + layout.size());
                place as *mut u8
            }
        };
        if !place.is_null() {
            place.write_bytes(PAINT.get(), layout.size());
        }
        place
    }

    unsafe fn dealloc(&self, place: *mut u8, layout: Layout) {
        if !SHELVES.iter().any(|shelf| (*shelf..shelf + SHELF_SIZE).contains(&(place as usize))) {
            System.dealloc(place, layout);
        }
    }
}

/// Runs `f` with fresh memory that holds zeros, then with fresh memory that holds ones.
fn under_both_paints<T>(f: fn() -> T) -> [T; 2] {
    [0x00, 0xFF].map(|paint| {
        PAINT.set(paint);
        let answer = f();
        PAINT.set(0);
        answer
    })
}

/// Two places for memory whose addresses differ in bit 31 alone: where a link is read as a value, its sign.
const SHELVES: [usize; 2] = [0x10_0000_0000, 0x10_8000_0000];
const SHELF_SIZE: usize = 1 << 20;
static SHELF: Mutex<()> = Mutex::new(());

extern "C" {
    fn mmap(place: usize, size: usize, allowed: i32, flags: i32, file: i32, offset: i64) -> usize;
    fn munmap(place: usize, size: usize) -> i32;
}

/// Runs `f` with links that are positive when read as a value, then with negative ones.
fn under_both_links<T>(f: fn() -> T) -> [T; 2] {
    const READ_WRITE: i32 = 3;
    const PRIVATE_ANONYMOUS_FIXED_NOREPLACE: i32 = 0x10_0022;
    let _alone = SHELF.lock();
    SHELVES.map(|shelf| {
        // SAFETY: fresh memory at an address that nothing else uses, else the call fails.
        let got = unsafe { mmap(shelf, SHELF_SIZE, READ_WRITE, PRIVATE_ANONYMOUS_FIXED_NOREPLACE, -1, 0) };
        assert_eq!(got, shelf);
        NEXT.set(shelf);
        let answer = f();
        NEXT.set(0);
        // SAFETY: all that `f` took is gone; its answer holds no memory.
        unsafe { munmap(shelf, SHELF_SIZE) };
        answer
    })
}

const POSITIVE_THEN_NEGATIVE: [Sign; 2] = [Sign::Positive, Sign::Negative];
const FAR: f32 = f32::MAX;

fn p(x: isize, y: isize, z: isize) -> Vec3i {
    Vec3i::new(x, y, z)
}

/// A grid with these voxels. The optimiser is kept from knowing that its other slots were never written.
fn grid<T: Grid>(empty: fn() -> Box<T>, voxels: &[(Vec3i, f32)]) -> Box<T> {
    let mut grid = black_box(empty());
    voxels.iter().for_each(|(place, value)| grid.insert(place, *value));
    black_box(grid)
}

fn filled<T: Grid>(empty: fn() -> Box<T>, voxels: &[(Vec3i, f32)]) -> Box<T> {
    let mut grid = grid(empty, voxels);
    grid.flood_fill();
    black_box(grid)
}

fn full_of<T: Grid>(empty: fn() -> Box<T>, value: f32) -> Box<T> {
    let mut grid = black_box(empty());
    grid.fill(value);
    grid
}

#[test]
fn sign_before_a_fill_is_fresh_memory() {
    let signs = under_both_paints(|| grid(middle, &[]).sign_at(&p(0, 0, 0)));
    assert_eq!(signs, POSITIVE_THEN_NEGATIVE);
}

#[test]
fn filling_an_empty_grid_leaves_fresh_memory() {
    let signs = under_both_paints(|| filled(middle, &[]).sign_at(&p(0, 0, 0)));
    assert_eq!(signs, POSITIVE_THEN_NEGATIVE);
}

#[test]
fn combining_with_an_empty_grid_changes_lookups() {
    let lookups = under_both_paints(|| {
        let mut a = filled(middle, &[(p(0, 0, 0), 1.0)]);
        a.union(filled(middle, &[]));
        a.at(&p(0, 0, 0)).copied()
    });
    assert_eq!(lookups, [Some(1.0), Some(-FAR)]);
}

#[test]
fn filling_over_an_empty_branch_spreads_fresh_memory() {
    let signs = under_both_paints(|| {
        let mut a = grid(top, &[(p(0, 0, 0), 1.0)]);
        a.take_leaf_at(&p(0, 0, 0)); // leaves the middle node without any branch
        a.flood_fill();
        black_box(a).sign_at(&p(0, 0, 16))
    });
    assert_eq!(signs, POSITIVE_THEN_NEGATIVE);
}

#[test]
fn filling_over_an_empty_leaf_spreads_a_plus() {
    fn hang_leaf<T: Grid>(grid: &mut T, at: Vec3i) {
        grid.insert_leaf_at(T::Leaf::empty(at));
    }
    let signs_behind = |with_leaf: bool| {
        let mut a = grid(middle, &[(p(0, 0, 0), -1.0)]);
        if with_leaf {
            hang_leaf(&mut *a, p(0, 0, 4)); // its voxels hold +0, and none is active
        }
        a.flood_fill();
        a.sign_at(&p(0, 0, 8))
    };
    assert_eq!([false, true].map(signs_behind), [Sign::Negative, Sign::Positive]);
}

#[test]
fn signs_are_stale_after_a_change() {
    let mut a = filled(middle, &[(p(0, 0, 0), 1.0)]);
    a.insert(&p(0, 0, 4), -1.0);
    assert_eq!(a.sign_at(&p(0, 0, 8)), Sign::Positive);
    a.flood_fill();
    assert_eq!(a.sign_at(&p(0, 0, 8)), Sign::Negative);
}

#[test]
fn a_bound_of_a_cut_may_be_anything() {
    let left_by = |high: f32| {
        let mut a = full_of(middle, 1.0);
        a.remove_if(|value| *value < high);
        a.at(&p(0, 0, 0)).copied()
    };
    assert_eq!([f32::NAN, f32::INFINITY].map(left_by), [Some(1.0), None]);
}

#[test]
fn a_copy_has_fresh_memory_in_hidden_slots() {
    let signs = under_both_paints(|| {
        let a = filled(middle, &[(p(0, 0, 0), -1.0)]);
        assert_eq!(a.sign_at(&p(0, 0, 4)), Sign::Negative);
        black_box(a.clone()).sign_at(&p(0, 0, 4))
    });
    assert_eq!(signs, POSITIVE_THEN_NEGATIVE);
}

#[test]
fn a_flip_passes_over_hidden_slots() {
    let mut a = filled(middle, &[(p(0, 0, 0), 1.0)]);
    a.flip_signs();
    assert_eq!(a.sign_at(&p(0, 0, 0)), Sign::Negative);
    assert_eq!(a.sign_at(&p(0, 0, 4)), Sign::Positive);
}

#[test]
fn a_cleared_grid_keeps_its_values() {
    let mut a = full_of(middle, -1.0);
    a.clear();
    assert_eq!(a.sign_at(&p(0, 0, 0)), Sign::Negative);
}

#[test]
fn a_released_branch_leaves_its_link() {
    let removed = under_both_links(|| {
        let mut a = filled(middle, &[(p(0, 0, 0), 1.0)]);
        a.remove(&p(0, 0, 0));
        black_box(a).sign_at(&p(0, 0, 0))
    });
    let cut = under_both_links(|| {
        let mut a = filled(middle, &[(p(0, 0, 0), 1.0)]);
        a.remove_if(|value| *value > 0.0);
        black_box(a).sign_at(&p(0, 0, 0))
    });
    let pruned = under_both_links(|| {
        let mut a = grid(top, &[(p(0, 0, 0), 1.0)]);
        a.take_leaf_at(&p(0, 0, 0));
        a.remove_empty_branches();
        black_box(a).sign_at(&p(0, 0, 0))
    });
    assert_eq!([removed, cut, pruned], [POSITIVE_THEN_NEGATIVE; 3]);
}

#[test]
fn subtract_leaves_a_link_where_it_removes_a_branch() {
    let signs = under_both_links(|| {
        let mut a = filled(middle, &[(p(0, 0, 0), 1.0)]);
        a.subtract(full_of(middle, -1.0));
        assert_eq!(a.at(&p(0, 0, 0)), None);
        black_box(a).sign_at(&p(0, 0, 0))
    });
    assert_eq!(signs, POSITIVE_THEN_NEGATIVE);
}

#[test]
fn subtract_leaves_a_removed_tile_inside() {
    let mut a = full_of(middle, -1.0);
    a.subtract(full_of(middle, -1.0));
    assert_eq!(a.at(&p(0, 0, 0)), None);
    assert_eq!(a.sign_at(&p(0, 0, 0)), Sign::Negative);
}

#[test]
fn subtract_leaves_a_hidden_slot_inside() {
    let mut a = filled(middle, &[(p(0, 0, 0), -1.0)]);
    a.subtract(full_of(middle, -1.0));
    assert_eq!(a.sign_at(&p(0, 0, 4)), Sign::Negative);
}

#[test]
fn subtract_passes_over_hidden_slots_of_a_taken_branch() {
    let mut a = full_of(top, -1.0);
    a.subtract(filled(top, &[(p(0, 0, 0), 1.0)]));
    assert_eq!(a.sign_at(&p(0, 0, 0)), Sign::Negative);
    assert_eq!(a.sign_at(&p(0, 0, 4)), Sign::Positive);
}

#[test]
fn intersect_leaves_a_link_where_it_removes_a_branch() {
    let signs = under_both_links(|| {
        let mut a = filled(middle, &[(p(0, 0, 0), -1.0)]);
        a.intersect(full_of(middle, 1.0));
        assert_eq!(a.at(&p(0, 0, 0)), None);
        black_box(a).sign_at(&p(0, 0, 0))
    });
    assert_eq!(signs, POSITIVE_THEN_NEGATIVE);
}

#[test]
fn intersect_leaves_a_removed_tile_inside() {
    let mut a = full_of(middle, -1.0);
    a.intersect(full_of(middle, 1.0));
    assert_eq!(a.at(&p(0, 0, 0)), None);
    assert_eq!(a.sign_at(&p(0, 0, 0)), Sign::Negative);
}

#[test]
fn intersect_leaves_a_hidden_slot_inside() {
    let mut a = filled(middle, &[(p(0, 0, 0), -1.0)]);
    a.intersect(full_of(middle, 1.0));
    assert_eq!(a.sign_at(&p(0, 0, 4)), Sign::Negative);
}

#[test]
fn a_second_combination_loses_contents() {
    let mut a = full_of(middle, -1.0);
    a.subtract(full_of(middle, -1.0)); // nothing is left, but the slots are still inside
    a.union(filled(middle, &[(p(0, 0, 0), 1.0)]));
    assert_eq!(a.at(&p(0, 0, 0)), None);
}

#[test]
fn union_makes_an_empty_joined_branch_inside() {
    let hollow = || {
        let mut a = filled(top, &[(p(0, 0, 0), 1.0)]);
        a.subtract(filled(top, &[(p(0, 0, 4), -1.0)]));
        a
    };
    let mut a = hollow();
    assert_eq!((a.is_empty(), a.at(&p(0, 0, 0))), (false, None));
    a.union(hollow());
    assert_eq!(a.at(&p(0, 0, 0)), Some(&-FAR));
    assert_eq!(a.at(&p(15, 15, 15)), Some(&-FAR));
    assert_eq!(a.at(&p(0, 0, 16)), None);
}

#[test]
fn ties_of_zeros_take_the_second_operand() {
    let bits_after = |combine: fn(&mut _, Box<_>), a: f32, b: f32| {
        let mut joined = full_of(leaf, a);
        combine(&mut *joined, full_of(leaf, b));
        joined.at(&p(0, 0, 0)).unwrap().to_bits()
    };
    assert_eq!(bits_after(Csg::union, -0.0, 0.0), 0.0_f32.to_bits());
    assert_eq!(bits_after(Csg::intersect, 0.0, -0.0), (-0.0_f32).to_bits());
    assert_eq!(bits_after(Csg::subtract, 0.0, 0.0), (-0.0_f32).to_bits());
}

#[test]
fn a_nan_is_taken_and_compares_false_both_ways() {
    let joined = |a: f32, b: f32| {
        let mut joined = full_of(leaf, a);
        joined.union(full_of(leaf, b));
        *joined.at(&p(0, 0, 0)).unwrap()
    };
    assert_eq!(joined(f32::NAN, 1.0), 1.0);
    assert!(joined(1.0, f32::NAN).is_nan());

    let a = filled(middle, &[(p(0, 0, 0), f32::NAN.copysign(-1.0))]);
    assert_eq!(a.sign_at(&p(0, 0, 4)), Sign::Negative);
}

#[test]
fn the_size_of_a_leaf_is_its_number_of_words() {
    fn size<T: Grid>(_: fn() -> Box<T>) -> usize {
        T::SIZE
    }
    assert_eq!((size(leaf), size(middle), size(top)), (1, 64, 512));
}

#[test]
fn filling_an_emptied_leaf_of_eight_slots_panics() {
    let mut a = full_of(leaf_of_eight, 1.0);
    (0..8).for_each(|slot| a.remove(&p(slot >> 2, slot >> 1 & 1, slot & 1)));
    assert!(a.is_empty());
    assert!(catch_unwind(AssertUnwindSafe(|| a.flood_fill())).is_err());
}

#[test]
fn the_last_sign_of_a_middle_node_is_that_of_a_first_voxel() {
    let a = filled(top, &[(p(12, 12, 12), -1.0), (p(15, 15, 15), 1.0)]);
    assert_eq!(a.sign_at(&p(15, 15, 15)), Sign::Positive);
    assert_eq!(a.sign_at(&p(0, 0, 16)), Sign::Negative);
}

#[test]
fn union_with_an_inside_tile_writes_minus_far() {
    let mut a = filled(middle, &[(p(0, 0, 0), 1.0)]);
    a.union(full_of(middle, -2.0));
    assert_eq!(a.at(&p(0, 0, 0)), Some(&-FAR));
}

#[test]
fn union_loses_an_outside_tile_over_a_hidden_slot() {
    let mut a = filled(middle, &[(p(0, 0, 0), 1.0)]);
    a.union(full_of(middle, 2.0));
    assert_eq!(a.at(&p(0, 0, 4)), None);
}
