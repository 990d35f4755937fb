//! The Rust that is ported, as the benchmark calls it, in three ways: `rust_` are C calls with the very arguments of ours;
//! `lean_` are C calls with as few as can be; `loop_` have the loop on this side, so that all is inlined.
//!
//! A caller holds a row of eight grids. The `rust_` calls get it as the first pointer of the lent memory, and leave the
//! other five arguments alone.

use oracle::helpers::aliases::Vec3i;
use oracle::shells;
use oracle::voxel::{top, Csg, FloodFill, Sign, TreeNode};

#[repr(C)]
pub struct Answer {
    code: u32,
    value: f32,
}

#[repr(C)]
pub struct Number {
    code: u32,
    number: u32,
}

#[repr(C)]
pub struct Point {
    x: i32,
    y: i32,
    z: i32,
    value: f32,
}

const SEATS: usize = 8;
const SIDE: isize = 128;

impl Answer {
    fn of(value: Option<&f32>) -> Self {
        value.map_or(Self { code: 10, value: 0.0 }, |&value| Self { code: 0, value })
    }
}

/// The node's type has no name outside its module: the function tells it.
unsafe fn seat<'a, T>(_: fn() -> Box<T>, grids: *const u32, seat: u32) -> &'a mut Box<T> {
    &mut *grids.cast_mut().cast::<Box<T>>().add(seat as usize)
}

unsafe fn grid<'a, T>(_: fn() -> Box<T>, grid: *const u32) -> &'a mut T {
    &mut *grid.cast_mut().cast()
}

fn index(x: i32, y: i32, z: i32) -> Vec3i {
    Vec3i::new(x as isize, y as isize, z as isize)
}

fn row<T>(empty: fn() -> Box<T>) -> *mut u32 {
    let grids: [Box<T>; SEATS] = std::array::from_fn(|_| empty());
    Box::into_raw(Box::new(grids)).cast()
}

/// Eight empty grids, for the life of the program.
#[no_mangle]
pub extern "C" fn rust_row() -> *mut u32 {
    row(top)
}

/// The grid of a seat, for the lean calls.
#[no_mangle]
pub unsafe extern "C" fn rust_grid(grids: *mut u32, t: u32) -> *mut u32 {
    let grid: *mut _ = &mut **seat(top, grids, t);
    grid.cast()
}

macro_rules! calls {
    ($($name:ident($grids:ident $(, $argument:ident: $type:ty)*) -> $answer:ty $body:block)*) => {$(
        #[no_mangle]
        #[inline(never)]
        pub unsafe extern "C" fn $name(
            $grids: *mut u32, _: usize, _: *mut u64, _: usize, _: *mut u32, _: usize $(, $argument: $type)*
        ) -> $answer $body
    )*};
}

calls! {
    rust_prepare(grids) -> u32 {
        (0..SEATS as u32).for_each(|t| *seat(top, grids, t) = top());
        0
    }

    rust_lookup(grids, t: u32, x: i32, y: i32, z: i32) -> Answer {
        Answer::of(seat(top, grids, t).at(&index(x, y, z)))
    }

    rust_sign(grids, t: u32, x: i32, y: i32, z: i32) -> Number {
        Number { code: 0, number: (seat(top, grids, t).sign_at(&index(x, y, z)) == Sign::Negative) as u32 }
    }

    rust_insert(grids, t: u32, x: i32, y: i32, z: i32, bits: u32) -> u32 {
        seat(top, grids, t).insert(&index(x, y, z), f32::from_bits(bits));
        0
    }

    rust_remove(grids, t: u32, x: i32, y: i32, z: i32) -> u32 {
        seat(top, grids, t).remove(&index(x, y, z));
        0
    }

    rust_cut_below(grids, t: u32, high: f32) -> u32 {
        seat(top, grids, t).remove_if(|value| *value < high);
        0
    }

    rust_flip(grids, t: u32) -> u32 {
        seat(top, grids, t).flip_signs();
        0
    }

    rust_fill_signs(grids, t: u32) -> u32 {
        seat(top, grids, t).flood_fill();
        0
    }

    rust_copy(grids, from: u32, to: u32) -> u32 {
        *seat(top, grids, to) = TreeNode::clone(&**seat(top, grids, from));
        0
    }

    rust_union(grids, a: u32, b: u32) -> u32 {
        seat(top, grids, a).union(std::mem::replace(seat(top, grids, b), top()));
        0
    }

    rust_subtract(grids, a: u32, b: u32) -> u32 {
        seat(top, grids, a).subtract(std::mem::replace(seat(top, grids, b), top()));
        0
    }

    rust_intersect(grids, a: u32, b: u32) -> u32 {
        seat(top, grids, a).intersect(std::mem::replace(seat(top, grids, b), top()));
        0
    }
}

#[no_mangle]
#[inline(never)]
pub unsafe extern "C" fn lean_lookup(tree: *const u32, x: i32, y: i32, z: i32) -> Answer {
    Answer::of(grid(top, tree).at(&index(x, y, z)))
}

#[no_mangle]
#[inline(never)]
pub unsafe extern "C" fn lean_sign(tree: *const u32, x: i32, y: i32, z: i32) -> bool {
    grid(top, tree).sign_at(&index(x, y, z)) == Sign::Negative
}

#[no_mangle]
#[inline(never)]
pub unsafe extern "C" fn lean_insert(tree: *mut u32, x: i32, y: i32, z: i32, value: f32) {
    grid(top, tree).insert(&index(x, y, z), value);
}

#[no_mangle]
#[inline(never)]
pub unsafe extern "C" fn lean_remove(tree: *mut u32, x: i32, y: i32, z: i32) {
    grid(top, tree).remove(&index(x, y, z));
}

// The sums are those of contender.hpp: a later answer weighs otherwise than an earlier one.

#[no_mangle]
pub unsafe extern "C" fn loop_lookup(tree: *const u32, points: *const Point, count: usize) -> u64 {
    let tree = grid(top, tree);
    std::slice::from_raw_parts(points, count).iter().fold(0, |sum: u64, p| {
        let word = tree.at(&index(p.x, p.y, p.z)).map_or(1, |value| value.to_bits());
        sum.wrapping_mul(3).wrapping_add(word as u64)
    })
}

#[no_mangle]
pub unsafe extern "C" fn loop_sign(tree: *const u32) -> u64 {
    let tree = grid(top, tree);
    let mut sum = 0_u64;
    for x in 0..SIDE {
        for y in 0..SIDE {
            for z in 0..SIDE {
                let negative = tree.sign_at(&Vec3i::new(x, y, z)) == Sign::Negative;
                sum = sum.wrapping_mul(3).wrapping_add(negative as u64);
            }
        }
    }
    sum
}

#[no_mangle]
pub unsafe extern "C" fn loop_insert(tree: *mut u32, points: *const Point, count: usize) {
    let tree = grid(top, tree);
    std::slice::from_raw_parts(points, count).iter().for_each(|p| tree.insert(&index(p.x, p.y, p.z), p.value));
}

#[no_mangle]
pub unsafe extern "C" fn loop_remove(tree: *mut u32, points: *const Point, count: usize) {
    let tree = grid(top, tree);
    std::slice::from_raw_parts(points, count).iter().for_each(|p| tree.remove(&index(p.x, p.y, p.z)));
}

/// The voxels of the bent tube that the comparison uses, nearer to its surface than this; writes at most `most`.
#[no_mangle]
pub unsafe extern "C" fn rust_tube(width: f32, points: *mut Point, most: usize) -> usize {
    let places = std::slice::from_raw_parts_mut(points, most);
    let tube = shells::band(shells::SHAPES[1], width);
    places.iter_mut().zip(tube).map(|(place, ([x, y, z], value))| *place = Point { x, y, z, value }).count()
}
