//! Voxel grids on lent memory: eight grids, the seats 0 to 7, share one pool of cells. Safe functions over the calls of
//! `include/yoldrick.h`, where every call, its refusals and its cost are described. No heap, no `std`, no dependency.
//!
//! ```
//! use yoldrick::{book_for, masks_for, slots_for, Pool};
//!
//! let mut slots = [0; slots_for(100)];
//! let mut masks = [0; masks_for(100)];
//! let mut book = [0; book_for(100)];
//! let mut pool = Pool::new(&mut slots, &mut masks, &mut book)?;
//! pool.prepare()?;
//! pool.insert(0, [5, -3, 70], 0.25)?;
//! assert_eq!(pool.lookup(0, [5, -3, 70])?, Some(0.25));
//! # Ok::<(), yoldrick::Refusal>(())
//! ```
//!
//! # What is safe about it, and why
//!
//! The calls for C admit every input and every content of the memory: that they end, stay inside the three slices and
//! answer as document 01 says is proved. They rest on a few promises of their caller, which C cannot test. Here the types
//! make them:
//!
//! | promise | kept by |
//! |---|---|
//! | the lengths are told truly, and the slices are aligned | they are slices, and are passed with their own `len` |
//! | the three slices are apart, and nobody else reads or writes them while a call runs | a [`Pool`] borrows each as `&mut`; a method that changes the pool takes `&mut self`, one that only reads takes `&self` |
//! | subnormal numbers are not flushed to zero | Rust asks the same of every program |
//! | there is enough stack (`YOLDRICK_STACK` of the header) | not kept here: as for any function, the machine has to see to it |
//!
//! Not proved: that this crate declares the calls as they are. Its tests make each of them.
//!
//! The lengths are tested once, by [`Pool::new`], so no method gives [`Refusal::Lengths`]. What the slices hold is never
//! trusted: a pool that was not prepared, or was damaged, is refused with [`Refusal::Damaged`] or read as it stands.
#![no_std]
#![warn(missing_docs)]

mod raw;

use core::fmt;

/// Three coordinates, of which the low 7 bits count: -1 is 127, and 128 is 0.
pub type Point = [i32; 3];

/// Why a call was refused. Nothing has changed then. The cases have the numbers and the order of document 01.
#[derive(Debug, Clone, Copy, PartialEq, Eq, Hash)]
pub enum Refusal {
    /// The lengths of the three slices are not those of one number of cells from 1 to 65,535.
    Lengths = 1,
    /// A seat number is above 7.
    Seat = 2,
    /// A seat is to be copied onto itself or combined with itself.
    SameSeat = 3,
    /// A value or bound is NaN or infinite.
    Value = 4,
    /// Of a call on one voxel: the path to it, or a free cell that is needed, is damaged. Of another: the pool is not sound.
    Damaged = 5,
    /// The sign or a combination is asked of a seat that is not filled with signs.
    Unfilled = 6,
    /// A seat that is to be filled with signs or combined has an empty branch: prune it.
    EmptyBranch = 7,
    /// A copy onto a seat that is not empty.
    Occupied = 8,
    /// There are fewer free cells than needed.
    NoCells = 9,
}

impl fmt::Display for Refusal {
    fn fmt(&self, f: &mut fmt::Formatter<'_>) -> fmt::Result {
        f.write_str(match self {
            Self::Lengths => "the lengths of the three arrays do not belong together",
            Self::Seat => "a seat number is above 7",
            Self::SameSeat => "the two seats are the same",
            Self::Value => "a value or bound is not finite",
            Self::Damaged => "the memory is damaged or was never prepared",
            Self::Unfilled => "a seat is not filled with signs",
            Self::EmptyBranch => "a seat has an empty branch",
            Self::Occupied => "the seat to copy onto is not empty",
            Self::NoCells => "too few free cells",
        })
    }
}

impl core::error::Error for Refusal {}

/// A code of C but 10, which is of lookups alone.
fn accepted(code: u32) -> Result<(), Refusal> {
    Err(match code {
        0 => return Ok(()),
        1 => Refusal::Lengths,
        2 => Refusal::Seat,
        3 => Refusal::SameSeat,
        4 => Refusal::Value,
        5 => Refusal::Damaged,
        6 => Refusal::Unfilled,
        7 => Refusal::EmptyBranch,
        8 => Refusal::Occupied,
        9 => Refusal::NoCells,
        _ => unreachable!("no call has the code {code}"),
    })
}

fn number(answer: raw::Number) -> Result<u32, Refusal> {
    accepted(answer.code).map(|()| answer.number)
}

/// The slots of a pool of so many cells.
pub const fn slots_for(cells: usize) -> usize {
    4096 + 64 * cells
}

/// Its mask words.
pub const fn masks_for(cells: usize) -> usize {
    128 + 2 * cells
}

/// The words of its book.
pub const fn book_for(cells: usize) -> usize {
    9 + 2 * cells
}

/// The lengths of the three slices of a pool.
#[derive(Debug, Clone, Copy, PartialEq, Eq)]
pub struct Lengths {
    /// As [`slots_for`].
    pub slots: usize,
    /// As [`masks_for`].
    pub masks: usize,
    /// As [`book_for`].
    pub book: usize,
}

/// The lengths for a pool of so many cells, from 1 to 65,535.
pub fn lengths(cells: u32) -> Result<Lengths, Refusal> {
    // SAFETY: the call takes a number alone, and every number.
    let told = unsafe { raw::yoldrick_sizes(cells) };
    accepted(told.code)?;
    Ok(Lengths { slots: told.slots as usize, masks: told.masks as usize, book: told.book as usize })
}

/// Makes a call that changes the pool.
macro_rules! change {
    ($pool:ident, $call:ident $(, $argument:expr)*) => {
        // SAFETY: the three slices are borrowed exclusively, so they are apart, aligned and nobody else's until the call
        // ends, and each goes with its own length. The call keeps no pointer.
        accepted(unsafe {
            raw::$call(
                $pool.slots.as_mut_ptr(),
                $pool.slots.len(),
                $pool.masks.as_mut_ptr(),
                $pool.masks.len(),
                $pool.book.as_mut_ptr(),
                $pool.book.len(),
                $($argument),*
            )
        })
    };
}

/// Makes a call that only reads the pool.
macro_rules! ask {
    ($pool:ident, $call:ident $(, $argument:expr)*) => {
        // SAFETY: as of a change; shared borrows are enough, since the call writes to no slice.
        unsafe {
            raw::$call(
                $pool.slots.as_ptr(),
                $pool.slots.len(),
                $pool.masks.as_ptr(),
                $pool.masks.len(),
                $pool.book.as_ptr(),
                $pool.book.len(),
                $($argument),*
            )
        }
    };
}

/// Eight grids in three borrowed slices. The slices are all that there is: a pool may be dropped and made again of them.
#[derive(Debug)]
pub struct Pool<'a> {
    slots: &'a mut [u32],
    masks: &'a mut [u64],
    book: &'a mut [u32],
}

impl<'a> Pool<'a> {
    /// The pool in these slices, as they are. Fresh ones have to be prepared.
    pub fn new(slots: &'a mut [u32], masks: &'a mut [u64], book: &'a mut [u32]) -> Result<Self, Refusal> {
        let cells = slots.len().saturating_sub(slots_for(0)) / 64;
        let told = lengths(u32::try_from(cells).unwrap_or(0))?;
        if told != (Lengths { slots: slots.len(), masks: masks.len(), book: book.len() }) {
            return Err(Refusal::Lengths);
        }
        Ok(Self { slots, masks, book })
    }

    /// Frees every cell and empties every seat, whatever the memory held.
    pub fn prepare(&mut self) -> Result<(), Refusal> {
        change!(self, yoldrick_prepare)
    }

    /// The number of free cells.
    pub fn free_cells(&self) -> Result<u32, Refusal> {
        number(ask!(self, yoldrick_free_cells))
    }

    /// Whether the seat has neither a branch nor an active tile.
    pub fn is_empty(&self, seat: u32) -> Result<bool, Refusal> {
        number(ask!(self, yoldrick_is_empty, seat)).map(|is| is == 1)
    }

    /// The value of the active tile or voxel there, if there is one.
    pub fn lookup(&self, seat: u32, [x, y, z]: Point) -> Result<Option<f32>, Refusal> {
        let found = ask!(self, yoldrick_lookup, seat, x, y, z);
        match found.code {
            10 => Ok(None),
            code => accepted(code).map(|()| Some(found.value)),
        }
    }

    /// Whether the value there, active or hidden, is negative, in a seat that is filled with signs.
    pub fn sign(&self, seat: u32, [x, y, z]: Point) -> Result<bool, Refusal> {
        number(ask!(self, yoldrick_sign, seat, x, y, z)).map(|is| is == 1)
    }

    /// The voxel becomes active with this value.
    pub fn insert(&mut self, seat: u32, [x, y, z]: Point, value: f32) -> Result<(), Refusal> {
        change!(self, yoldrick_insert, seat, x, y, z, value.to_bits())
    }

    /// The voxel is no longer active.
    pub fn remove(&mut self, seat: u32, [x, y, z]: Point) -> Result<(), Refusal> {
        change!(self, yoldrick_remove, seat, x, y, z)
    }

    /// Every voxel of the seat becomes active with this value.
    pub fn fill(&mut self, seat: u32, value: f32) -> Result<(), Refusal> {
        change!(self, yoldrick_fill, seat, value.to_bits())
    }

    /// The seat becomes empty.
    pub fn clear(&mut self, seat: u32) -> Result<(), Refusal> {
        change!(self, yoldrick_clear, seat)
    }

    /// Every branch in which nothing is active is released.
    pub fn prune(&mut self, seat: u32) -> Result<(), Refusal> {
        change!(self, yoldrick_prune, seat)
    }

    /// What is strictly below the bound is no longer active.
    pub fn cut_below(&mut self, seat: u32, high: f32) -> Result<(), Refusal> {
        change!(self, yoldrick_cut_below, seat, high)
    }

    /// What is strictly above the bound is no longer active.
    pub fn cut_above(&mut self, seat: u32, low: f32) -> Result<(), Refusal> {
        change!(self, yoldrick_cut_above, seat, low)
    }

    /// What is from one bound to the other, both included, is no longer active.
    pub fn cut_between(&mut self, seat: u32, low: f32, high: f32) -> Result<(), Refusal> {
        change!(self, yoldrick_cut_between, seat, low, high)
    }

    /// Every value of the seat, active or hidden, has the other sign.
    pub fn flip(&mut self, seat: u32) -> Result<(), Refusal> {
        change!(self, yoldrick_flip, seat)
    }

    /// Every hidden slot of the seat gets a sign, and the seat is filled with signs.
    pub fn fill_signs(&mut self, seat: u32) -> Result<(), Refusal> {
        change!(self, yoldrick_fill_signs, seat)
    }

    /// An empty seat becomes a copy of another.
    pub fn copy(&mut self, from: u32, to: u32) -> Result<(), Refusal> {
        change!(self, yoldrick_copy, from, to)
    }

    /// The seat a becomes what is in a or in b, and b is empty.
    pub fn union(&mut self, a: u32, b: u32) -> Result<(), Refusal> {
        change!(self, yoldrick_union, a, b)
    }

    /// The seat a becomes what is in a and not in b, and b is empty.
    pub fn subtract(&mut self, a: u32, b: u32) -> Result<(), Refusal> {
        change!(self, yoldrick_subtract, a, b)
    }

    /// The seat a becomes what is in both, and b is empty.
    pub fn intersect(&mut self, a: u32, b: u32) -> Result<(), Refusal> {
        change!(self, yoldrick_intersect, a, b)
    }
}
