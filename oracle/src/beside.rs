//! A pool beside the Rust: one Rust grid for each seat, and every call on both. The answer owed is read off the Rust,
//! refusals 7, 8 and 9 included: the nodes that its trees have are the cells that ours must have.
//!
//! Lookups are compared after every call. Signs are compared where 01 says: after a fill with signs of a grid that is not
//! empty and has no empty branch, and up to the next change; a flip turns each sign that the Rust had before it, and a
//! combination joins those that it had in the two seats. What
//! the Rust does elsewhere is in docs/DIFFERENCES.md, and there the answer owed is 01's.

use crate::dice::Dice;
use crate::grids::*;
use crate::helpers::aliases::Vec3i;
use crate::voxel::{top, Grid, Sign, Tile, TreeNode, Visitor};
use std::collections::{BTreeMap, BTreeSet};
use std::io::Write;

pub type Checked = Result<(), String>;

/// Few enough to meet an equal tile, and the ends of what is finite. Where signs are compared there are no zeros.
pub const VALUES: &[f32] = &[0.0, -0.0, 1.0, -1.0, 3.0, f32::MAX, f32::MIN, f32::MIN_POSITIVE, 1e-45];
pub const NO_ZEROS: &[f32] =
    &[1.0, -1.0, 3.0, -3.0, 0.5, -0.5, f32::MAX, f32::MIN, f32::MIN_POSITIVE, -f32::MIN_POSITIVE, 1e-45, -1e-45];

/// Coordinates at the ends of leaves, of middle nodes and of the grid.
const EDGES: [i32; 12] = [0, 1, 3, 4, 15, 16, 31, 63, 64, 111, 112, 127];

pub const ALL_SEATS: &[u32] = &[0, 1, 2, 3, 4, 5, 6, 7];

/// Coordinates in the first and last voxels of the last leaf of a middle node, which gives its signs to those behind it.
const CORNERS: [i32; 10] = [0, 12, 15, 16, 28, 31, 76, 79, 124, 127];

/// Where the points of a run lie.
#[derive(Clone, Copy)]
pub enum Spread {
    Near,
    Edges,
    Corners,
    Wide,
}

/// What the steps of a run are: on voxels, with a call on a whole seat now and then, or such calls in every third step.
#[derive(Clone, Copy, PartialEq, Eq)]
pub enum Steps {
    OnVoxels,
    OnSeats,
}

/// What a run does, at random.
#[derive(Clone, Copy)]
pub struct Plan {
    pub cells: usize,
    pub seats: &'static [u32],
    pub spread: Spread,
    pub kind: Steps,
    pub values: &'static [f32],
    /// Whether every second seat starts full of one value.
    pub tiles: bool,
    pub steps: usize,
    /// Steps that mostly insert, and then as many that mostly remove.
    pub phase: usize,
    /// Steps from one look at the whole pool to the next.
    pub look: usize,
    pub seed: u64,
}

/// What was done, for the report.
#[derive(Default)]
pub struct Made {
    pub steps: u64,
    pub inserts: u64,
    pub removes: u64,
    pub lookups: u64,
    pub signs: u64,
    pub fills: u64,
    pub clears: u64,
    pub prunes: u64,
    pub cuts: u64,
    pub flips: u64,
    pub sign_fills: u64,
    pub copies: u64,
    /// Accepted ones, and those of them that left a branch empty.
    pub combinations: u64,
    pub hollowed: u64,
    pub looks: u64,
    /// Of these, how many were refused with 6, 7, 8 and 9.
    pub unfilled: u64,
    pub hollow: u64,
    pub onto_full: u64,
    pub for_cells: u64,
}

/// What the signs of a filled seat have to be.
enum Signs<T> {
    /// Those of the Rust's grid.
    Own,
    /// Those of the Rust's grid as it was, since neither a flip nor a combination turns all of its signs.
    Kept(Box<T>),
    /// The seat was empty, and so all are positive, which the Rust does not do.
    Positive,
    Turned(Box<Signs<T>>),
    Joined(Operation, Box<[Signs<T>; 2]>),
}

impl<T: Grid> Signs<T> {
    fn is_negative(&self, own: &T, at: Vec3i) -> bool {
        match self {
            Self::Own => own.sign_at(&at) == Sign::Negative,
            Self::Kept(grid) => grid.sign_at(&at) == Sign::Negative,
            Self::Positive => false,
            Self::Turned(signs) => !signs.is_negative(own, at),
            Self::Joined(operation, signs) => {
                let [a, b] = [&signs[0], &signs[1]].map(|signs| signs.is_negative(own, at));
                operation.joins(a, b)
            }
        }
    }

    /// The same signs, whatever becomes of the grid. The Rust's copy has no hidden values of its own.
    fn keep(self, own: &T) -> Self {
        match self {
            Self::Own => {
                let mut kept = TreeNode::clone(own);
                kept.flood_fill();
                Self::Kept(kept)
            }
            kept => kept,
        }
    }
}

/// A pool, the Rust's eight grids beside it, and what was compared. A run ends at the first difference.
pub struct Run<'a, T> {
    library: &'a Library,
    pool: Pool,
    cells: usize,
    empty: fn() -> Box<T>,
    grids: Vec<Box<T>>,
    /// Of each seat that is filled with signs.
    signs: Vec<Option<Signs<T>>>,
    /// Seats and places of middle nodes without any slot, which the Rust's visitors pass over.
    bare: BTreeSet<(u32, [isize; 3])>,
    /// And of those whose slots are all active tiles, as a combination may leave them.
    solid: BTreeSet<(u32, [isize; 3])>,
    /// The cells that the Rust's grids have.
    reached: usize,
    /// Seats and points of the accepted inserts that no step has removed since.
    inserted: Vec<(u32, Point)>,
    values: &'static [f32],
    pub dice: Dice,
    pub made: Made,
}

fn masked(at: Point) -> Vec3i {
    let [x, y, z] = at.map(|coordinate| isize::try_from(coordinate & 127).unwrap());
    Vec3i::new(x, y, z)
}

/// The place of the top's slot at a point.
fn top_slot(at: Vec3i) -> [isize; 3] {
    [at.x >> 4, at.y >> 4, at.z >> 4]
}

/// The nodes below the top on the way to a point: none, a middle node, or that and a leaf; but a middle node without any
/// slot, or with active tiles only, is not seen.
fn nodes_on_the_way<T: Grid>(grid: &T, at: Point) -> usize {
    let at = masked(at);
    if grid.leaf_at(&at).is_some() {
        return 2;
    }
    let slot = |i: isize| Vec3i::new(at.x & !15 | i >> 2 & 12, at.y & !15 | i & 12, at.z & !15 | i << 2 & 12);
    let has_a_leaf = || (0..64).any(|i| grid.leaf_at(&slot(i)).is_some());
    let active = |i| grid.at(&slot(i)).is_some();
    let is_mixed = || (1..64).any(|i| active(i) != active(0));
    (has_a_leaf() || is_mixed()) as usize
}

/// 01, rules of the calls: whether an insert or remove needs the nodes that are missing on its way.
fn needs_the_way<T: Grid>(grid: &T, call: Call) -> bool {
    match call {
        Call::Insert { at, bits, .. } => grid.at(&masked(at)) != Some(&f32::from_bits(bits)),
        Call::Remove { at, .. } => grid.at(&masked(at)).is_some(),
        _ => false,
    }
}

/// The nodes of a Rust grid below its top, but for middle nodes without any slot.
#[derive(Default)]
struct Nodes {
    leaves: Vec<Vec3i>,
    empty_leaves: usize,
    /// With the number of tiles in each.
    middles: BTreeMap<[isize; 3], usize>,
}

impl Nodes {
    fn of<T: Grid>(grid: &T) -> Self {
        let mut nodes = Self::default();
        grid.visit_leafs(&mut nodes);
        nodes
    }

    fn count(&self) -> usize {
        self.leaves.len() + self.middles.len()
    }
}

impl<L: TreeNode> Visitor<L> for Nodes {
    fn tile(&mut self, tile: Tile<L::Value>) {
        if tile.size == 4 {
            *self.middles.entry(top_slot(tile.origin)).or_default() += 1;
        }
    }

    fn dense(&mut self, leaf: &L) {
        self.leaves.push(leaf.origin());
        self.empty_leaves += leaf.is_empty() as usize;
        self.middles.entry(top_slot(leaf.origin())).or_default();
    }
}

pub fn differ(call: impl std::fmt::Debug, what: impl std::fmt::Display) -> String {
    format!("{call:x?}: {what}")
}

pub fn run_of<'a>(library: &'a Library, cells: usize) -> Result<Run<'a, impl Grid>, String> {
    Run::new(library, top, cells)
}

/// How often a plan is carried out, each time with another seed: once, or as YOLDRICK_TIMES says.
pub fn times() -> u64 {
    std::env::var("YOLDRICK_TIMES").map_or(1, |times| times.parse().expect("YOLDRICK_TIMES is a whole number"))
}

/// The whole pool, and what is compared.
impl<'a, T: Grid> Run<'a, T> {
    fn new(library: &'a Library, empty: fn() -> Box<T>, cells: usize) -> Result<Self, String> {
        let mut dice = Dice(cells as u64);
        let pool = Pool::new(Counts::of_cells(cells), || dice.next());
        let grids = (0..SEATS).map(|_| empty()).collect();
        let signs = (0..SEATS).map(|_| None).collect();
        let mut run = Self {
            library,
            pool,
            cells,
            empty,
            grids,
            signs,
            bare: BTreeSet::new(),
            solid: BTreeSet::new(),
            reached: 0,
            inserted: Vec::new(),
            values: VALUES,
            dice,
            made: Made::default(),
        };
        run.prepare()?;
        Ok(run)
    }

    /// Prepares the pool again. The Rust's own `clear` empties its grids.
    pub fn prepare(&mut self) -> Checked {
        self.owed(Call::Prepare, Answer::DONE)?;
        self.grids.iter_mut().for_each(|grid| grid.clear());
        self.signs.iter_mut().for_each(|signs| *signs = None);
        self.bare.clear();
        self.solid.clear();
        self.reached = 0;
        self.inserted.clear();
        self.look()
    }

    fn owed(&mut self, call: Call, owed: Answer) -> Checked {
        let got = (self.library)(call, &mut self.pool);
        if got == owed {
            Ok(())
        } else {
            Err(differ(call, format!("got {got:x?}, owed {owed:x?}")))
        }
    }

    /// As `owed`, and no word changes. Above 200 cells only some are looked at for a change: that takes a copy of the pool.
    fn refused(&mut self, call: Call, code: u32) -> Checked {
        let refusals = self.made.unfilled + self.made.hollow + self.made.onto_full + self.made.for_cells;
        let sampled = if self.cells > 200 { self.cells / 32 } else { 1 };
        if refusals % sampled as u64 != 0 {
            return self.owed(call, Answer::refused(code));
        }
        let before = self.pool.clone();
        self.owed(call, Answer::refused(code))?;
        if self.pool != before {
            return Err(differ(call, "it changed lent words"));
        }
        self.owed(Call::FreeCells, Answer::found(self.free() as u32))
    }

    fn refused_for_cells(&mut self, call: Call) -> Checked {
        self.made.for_cells += 1;
        self.refused(call, 9)
    }

    pub fn free(&self) -> usize {
        self.cells - self.reached
    }

    /// The cells of a seat.
    pub fn reach(&self, seat: u32) -> usize {
        Nodes::of(&*self.grids[seat as usize]).count() + self.bare_nodes(seat)
    }

    fn bare_nodes(&self, seat: u32) -> usize {
        self.bare.range((seat, [0; 3])..(seat + 1, [0; 3])).count()
    }

    pub fn has_empty_branch(&self, seat: u32) -> bool {
        self.bare_nodes(seat) > 0 || Nodes::of(&*self.grids[seat as usize]).empty_leaves > 0
    }

    pub fn is_empty(&self, seat: u32) -> bool {
        self.grids[seat as usize].is_empty()
    }

    pub fn lookup(&mut self, seat: u32, at: Point) -> Checked {
        let value = self.grids[seat as usize].at(&masked(at));
        let owed = value.map_or(Answer::NOTHING, |value| Answer::found(value.to_bits()));
        self.made.lookups += 1;
        self.owed(Call::Lookup { seat, at }, owed)
    }

    pub fn sign(&mut self, seat: u32, at: Point) -> Checked {
        let owed = match &self.signs[seat as usize] {
            None => Answer::refused(6),
            Some(signs) => Answer::found(signs.is_negative(&self.grids[seat as usize], masked(at)) as u32),
        };
        self.made.signs += 1;
        self.owed(Call::Sign { seat, at }, owed)
    }

    fn lookup_and_sign(&mut self, seat: u32, at: Point) -> Checked {
        self.lookup(seat, at)?;
        self.sign(seat, at)
    }

    /// The whole pool: the free cells, each seat at one point, one seat at each slot, and that the calls that read change
    /// no word.
    pub fn look(&mut self) -> Checked {
        self.made.looks += 1;
        let reached: usize = (0..SEATS as u32).map(|seat| self.reach(seat)).sum();
        assert_eq!(reached, self.reached, "the nodes of the Rust's grids were miscounted");
        let before = self.pool.clone();
        self.owed(Call::FreeCells, Answer::found(self.free() as u32))?;
        for seat in 0..SEATS as u32 {
            self.owed(Call::IsEmpty { seat }, Answer::found(self.is_empty(seat) as u32))?;
            let at = self.point(Spread::Wide);
            self.lookup_and_sign(seat, at)?;
        }
        let seat = self.dice.pick(ALL_SEATS);
        self.every_slot(seat)?;
        if self.pool == before && self.pool.is_guarded() {
            Ok(())
        } else {
            Err("a call that reads changed lent words, or a call wrote outside them".into())
        }
    }

    /// Looks up a seat at one point of each slot: of its top, of its middle nodes, and of its leaves; and asks for the signs
    /// there.
    pub fn every_slot(&mut self, seat: u32) -> Checked {
        let nodes = Nodes::of(&*self.grids[seat as usize]);
        for i in 0..512 {
            let at = self.point_in([i >> 6, i >> 3 & 7, i & 7], 16);
            self.lookup_and_sign(seat, at)?;
        }
        for [x, y, z] in nodes.middles.into_keys() {
            for i in 0..64 {
                let at = self.point_in([4 * x + (i >> 4), 4 * y + (i >> 2 & 3), 4 * z + (i & 3)], 4);
                self.lookup_and_sign(seat, at)?;
            }
        }
        for leaf in nodes.leaves {
            for i in 0..64 {
                let at = self.point_in([leaf.x + (i >> 4), leaf.y + (i >> 2 & 3), leaf.z + (i & 3)], 1);
                self.lookup_and_sign(seat, at)?;
            }
        }
        Ok(())
    }

    /// A point of the slot that has this place among those of its size.
    fn point_in(&mut self, place: [isize; 3], side: isize) -> Point {
        place.map(|coordinate| (coordinate * side + self.dice.below(side as usize) as isize) as i32)
    }

    /// Some points of a seat, most of them where something was inserted or next to that.
    fn some_points(&mut self, seat: u32) -> Checked {
        for _ in 0..12 {
            let mut at = self.point(Spread::Wide);
            if !self.inserted.is_empty() && self.dice.below(4) != 0 {
                at = self.dice.pick(&self.inserted).1;
                at[self.dice.below(3)] ^= self.dice.pick(&[0, 0, 1, 2, 4, 8, 16]);
            }
            self.lookup_and_sign(seat, at)?;
        }
        Ok(())
    }

    pub fn every_point(&mut self, seat: u32) -> Checked {
        (0..128 * 128 * 128).try_for_each(|i| self.lookup(seat, [i >> 14, i >> 7 & 127, i & 127]))
    }

    pub fn every_sign(&mut self, seat: u32) -> Checked {
        (0..128 * 128 * 128).try_for_each(|i| self.sign(seat, [i >> 14, i >> 7 & 127, i & 127]))
    }

    /// Prints the counts past the test harness, which would keep them to itself.
    pub fn report(&self, what: &str) {
        let made = &self.made;
        let counts = [
            (made.steps, "steps"),
            (made.inserts, "inserts"),
            (made.removes, "removes"),
            (made.fills, "fills"),
            (made.clears, "clears"),
            (made.prunes, "prunes"),
            (made.cuts, "cuts"),
            (made.flips, "flips"),
            (made.sign_fills, "fills with signs"),
            (made.copies, "copies"),
            (made.combinations, "combinations"),
            (made.hollowed, "that left a branch empty"),
            (made.unfilled, "refused with 6"),
            (made.hollow, "refused with 7"),
            (made.onto_full, "refused with 8"),
            (made.for_cells, "refused with 9"),
            (made.lookups, "lookups"),
            (made.signs, "signs"),
            (made.looks, "looks at the whole pool"),
        ];
        let shown = counts.iter().filter(|(count, _)| *count > 0).map(|(count, of)| format!("{count} {of}"));
        let line = format!("{what}, {} cells: {}", self.cells, shown.collect::<Vec<_>>().join(", "));
        writeln!(std::io::stdout(), "{line}").unwrap();
    }
}

/// Each call on both.
impl<T: Grid> Run<'_, T> {
    pub fn insert(&mut self, seat: u32, at: Point, value: f32) -> Checked {
        self.made.inserts += 1;
        let accepted = self.change(Call::Insert { seat, at, bits: value.to_bits() }, seat, at, |grid| {
            grid.insert(&masked(at), value)
        })?;
        if accepted {
            self.inserted.push((seat, at));
        }
        Ok(())
    }

    pub fn remove(&mut self, seat: u32, at: Point) -> Checked {
        self.made.removes += 1;
        self.change(Call::Remove { seat, at }, seat, at, |grid| grid.remove(&masked(at)))?;
        Ok(())
    }

    /// One step of both, or refusal 9 alone. Tells which.
    fn change(&mut self, call: Call, seat: u32, at: Point, rust: impl FnOnce(&mut T)) -> Result<bool, String> {
        let grid = &mut *self.grids[seat as usize];
        let bare = (seat, top_slot(masked(at)));
        let unseen = self.bare.contains(&bare) || self.solid.contains(&bare);
        let before = nodes_on_the_way(grid, at) + unseen as usize;
        if needs_the_way(grid, call) && 2 - before > self.cells - self.reached {
            self.refused_for_cells(call)?;
            self.lookup(seat, at)?;
            return Ok(false);
        }
        rust(grid);
        self.bare.remove(&bare);
        let after = nodes_on_the_way(grid, at);
        if after > 0 {
            self.solid.remove(&bare);
        }
        self.reached = self.reached + after + self.solid.contains(&bare) as usize - before;
        self.signs[seat as usize] = None;
        self.owed(call, Answer::DONE)?;
        self.lookup(seat, at)?;
        Ok(true)
    }

    pub fn fill(&mut self, seat: u32, value: f32) -> Checked {
        self.made.fills += 1;
        self.change_seat(Call::Fill { seat, bits: value.to_bits() }, seat, |grid| grid.fill(value))
    }

    pub fn clear(&mut self, seat: u32) -> Checked {
        self.made.clears += 1;
        self.change_seat(Call::Clear { seat }, seat, |grid| grid.clear())
    }

    pub fn prune(&mut self, seat: u32) -> Checked {
        self.made.prunes += 1;
        self.change_seat(Call::Prune { seat }, seat, |grid| grid.remove_empty_branches())
    }

    pub fn cut(&mut self, seat: u32, test: Test) -> Checked {
        self.made.cuts += 1;
        self.change_seat(Call::Cut { seat, test }, seat, |grid| grid.remove_if(|value| test.passes(*value)))
    }

    /// A call that leaves no empty branch in its seat, and no signs.
    fn change_seat(&mut self, call: Call, seat: u32, rust: impl FnOnce(&mut T)) -> Checked {
        self.reached -= self.reach(seat);
        rust(&mut self.grids[seat as usize]);
        self.bare.retain(|(other, _)| *other != seat);
        self.signs[seat as usize] = None;
        self.note_solid(seat);
        self.reached += self.reach(seat);
        self.owed(call, Answer::DONE)?;
        self.some_points(seat)
    }

    fn note_solid(&mut self, seat: u32) {
        let nodes = Nodes::of(&*self.grids[seat as usize]);
        self.solid.retain(|(other, _)| *other != seat);
        self.solid.extend(nodes.middles.into_iter().filter(|(_, tiles)| *tiles == 64).map(|(place, _)| (seat, place)));
    }

    /// The Rust does not turn the hidden signs of top and middle nodes: what the signs were is kept apart.
    pub fn flip(&mut self, seat: u32) -> Checked {
        self.made.flips += 1;
        let signs = self.take_signs(seat).map(|signs| match signs {
            Signs::Turned(signs) => *signs,
            signs => Signs::Turned(Box::new(signs)),
        });
        self.signs[seat as usize] = signs;
        self.grids[seat as usize].flip_signs();
        self.owed(Call::Flip { seat }, Answer::DONE)?;
        self.some_points(seat)
    }

    fn take_signs(&mut self, seat: u32) -> Option<Signs<T>> {
        let signs = self.signs[seat as usize].take()?;
        Some(signs.keep(&self.grids[seat as usize]))
    }

    /// The Rust leaves fresh memory in an empty grid, and spreads it from an empty branch: it fills neither.
    pub fn fill_signs(&mut self, seat: u32) -> Checked {
        self.made.sign_fills += 1;
        let call = Call::FillSigns { seat };
        if self.has_empty_branch(seat) {
            self.made.hollow += 1;
            return self.refused(call, 7);
        }
        let grid = &mut self.grids[seat as usize];
        let of_empty = grid.is_empty();
        if !of_empty {
            grid.flood_fill();
        }
        self.signs[seat as usize] = Some(if of_empty { Signs::Positive } else { Signs::Own });
        self.owed(call, Answer::DONE)?;
        self.some_points(seat)
    }

    pub fn copy(&mut self, from: u32, to: u32) -> Checked {
        self.made.copies += 1;
        let call = Call::Copy { from, to };
        if from == to {
            return self.refused(call, 3);
        }
        if !self.is_empty(to) {
            self.made.onto_full += 1;
            return self.refused(call, 8);
        }
        if self.reach(from) > self.free() {
            return self.refused_for_cells(call);
        }
        self.grids[to as usize] = TreeNode::clone(&*self.grids[from as usize]);
        let bare: Vec<_> = self.bare.iter().filter(|(seat, _)| *seat == from).map(|(_, place)| (to, *place)).collect();
        self.bare.extend(bare);
        self.signs[to as usize] = None;
        self.note_solid(to);
        self.reached += self.reach(to);
        self.owed(call, Answer::DONE)?;
        self.some_points(from)?;
        self.some_points(to)
    }

    /// Two seats become one. Does nothing where the Rust has not the signs that 01 gives, so that more than signs differs: a
    /// seat that was empty when it was filled, or that was flipped or combined since.
    pub fn combine(&mut self, operation: Operation, a: u32, b: u32) -> Checked {
        let call = Call::Combine { operation, a, b };
        if a == b {
            return self.refused(call, 3);
        }
        let signs = [a, b].map(|seat| &self.signs[seat as usize]);
        if signs.iter().any(|signs| signs.is_none()) {
            self.made.unfilled += 1;
            return self.refused(call, 6);
        }
        let are_own = signs.iter().all(|signs| matches!(signs, Some(Signs::Own)));
        if self.has_empty_branch(a) || self.has_empty_branch(b) {
            self.made.hollow += 1;
            return self.refused(call, 7);
        }
        if !are_own {
            return Ok(());
        }
        self.made.combinations += 1;
        self.reached -= self.reach(a) + self.reach(b);
        let joined = [a, b].map(|seat| self.take_signs(seat).unwrap());
        self.signs[a as usize] = Some(Signs::Joined(operation, Box::new(joined)));
        let other = std::mem::replace(&mut self.grids[b as usize], (self.empty)());
        let grid = &mut *self.grids[a as usize];
        let (of_a, of_b) = (Nodes::of(grid).middles, Nodes::of(&*other).middles);
        match operation {
            Operation::Union => grid.union(other),
            Operation::Subtract => grid.subtract(other),
            Operation::Intersect => grid.intersect(other),
        }
        // Two branches are joined to one, which stays even if nothing in it does.
        let left = Nodes::of(grid).middles;
        let bare: Vec<_> = of_a.into_keys().filter(|at| of_b.contains_key(at) && !left.contains_key(at)).collect();
        self.made.hollowed += !bare.is_empty() as u64;
        self.bare.extend(bare.into_iter().map(|place| (a, place)));
        self.note_solid(a);
        self.note_solid(b);
        self.reached += self.reach(a);
        self.owed(call, Answer::DONE)?;
        self.owed(Call::FreeCells, Answer::found(self.free() as u32))?;
        self.owed(Call::IsEmpty { seat: b }, Answer::found(1))?;
        self.some_points(a)?;
        self.some_points(b)
    }

    /// Prunes two seats, fills them with signs, and combines them.
    pub fn combine_afresh(&mut self, operation: Operation, a: u32, b: u32) -> Checked {
        for seat in [a, b] {
            self.prune(seat)?;
            self.fill_signs(seat)?;
        }
        self.combine(operation, a, b)
    }

    /// The same empty branch in both, where the top's slot is hidden: a middle node alone, or one with an empty leaf. The
    /// calls of our library seldom leave one, so this writes the memory. Does nothing where it cannot be, or the seat is filled.
    pub fn hang_empty_branch(&mut self, seat: u32, at: Point, with_leaf: bool) -> Checked {
        let (grid, place) = (&mut *self.grids[seat as usize], masked(at));
        let bare = (seat, top_slot(place));
        let is_hidden = nodes_on_the_way(grid, at) == 0 && !self.bare.contains(&bare) && grid.at(&place).is_none();
        if !is_hidden || self.signs[seat as usize].is_some() || self.cells - self.reached < 2 {
            return Ok(());
        }
        let slot = |shift: u32, bits: u32| {
            let part = |coordinate: isize| coordinate as usize >> shift & ((1 << bits) - 1);
            part(place.x) << (2 * bits) | part(place.y) << bits | part(place.z)
        };
        let middle = self.pool.hang_empty_branch(seat as usize, slot(4, 3));
        if with_leaf {
            self.pool.hang_empty_branch(middle, slot(2, 2));
            grid.insert_leaf_at(T::Leaf::empty(Vec3i::new(place.x & !3, place.y & !3, place.z & !3)));
        } else {
            grid.insert(&place, 1.0);
            grid.take_leaf_at(&place);
            self.bare.insert(bare);
        }
        self.reached += 1 + with_leaf as usize;
        self.lookup(seat, at)
    }
}

/// Random steps.
impl<T: Grid> Run<'_, T> {
    /// A coordinate with random bits above the 7 that count, in half of the cases.
    fn coordinate(&mut self, spread: Spread) -> i32 {
        let low = match spread {
            Spread::Near => self.dice.below(6) as i32,
            Spread::Edges => self.dice.pick(&EDGES),
            Spread::Corners => self.dice.pick(&CORNERS),
            Spread::Wide => self.dice.below(128) as i32,
        };
        let high = self.dice.next() as i32;
        low | self.dice.pick(&[0, 0, 0, -1, 1, high]) << 7
    }

    pub fn point(&mut self, spread: Spread) -> Point {
        [(); 3].map(|()| self.coordinate(spread))
    }

    fn value(&mut self) -> f32 {
        let random = f32::from_bits(self.dice.next() as u32);
        match self.dice.below(2) {
            0 if random.is_finite() && random != 0.0 => random,
            _ => self.dice.pick(self.values),
        }
    }

    /// A bound may be a zero wherever values are compared as numbers.
    fn bound(&mut self) -> u32 {
        match self.dice.below(4) {
            0 => self.value().to_bits(),
            1 => self.dice.pick(VALUES).to_bits(),
            _ => self.dice.pick(self.values).to_bits(),
        }
    }

    pub fn test(&mut self) -> Test {
        let (low, high) = (self.bound(), self.bound());
        match self.dice.below(4) {
            0 => Test::Below(high),
            1 => Test::Above(low),
            2 => Test::Between(low, low),
            _ => Test::Between(low, high),
        }
    }

    /// A seat to copy onto, mostly an empty one, so that not every copy is refused with 8.
    fn seat_to_copy_onto(&mut self) -> u32 {
        let empty: Vec<u32> = ALL_SEATS.iter().copied().filter(|seat| self.is_empty(*seat)).collect();
        match self.dice.below(4) {
            0 => self.dice.pick(ALL_SEATS),
            _ if empty.is_empty() => self.dice.pick(ALL_SEATS),
            _ => self.dice.pick(&empty),
        }
    }

    /// A call on a whole seat. Signs are filled only where there are no zeros.
    fn seat_step(&mut self, seat: u32, kind: Steps) -> Checked {
        match self.dice.below(if kind == Steps::OnSeats { 28 } else { 14 }) {
            0 => self.clear(seat),
            1 => {
                let value = self.value();
                self.fill(seat, value)
            }
            2 | 3 => self.prune(seat),
            4..=7 => {
                let test = self.test();
                self.cut(seat, test)
            }
            8 | 9 => self.flip(seat),
            10..=13 => {
                let to = self.seat_to_copy_onto();
                self.copy(seat, to)
            }
            14 => {
                let (at, with_leaf) = (self.point(Spread::Wide), self.dice.below(2) == 0);
                self.hang_empty_branch(seat, at, with_leaf)
            }
            15 | 16 => {
                self.prune(seat)?;
                self.fill_signs(seat)
            }
            17 => {
                self.fill_signs(seat)?;
                self.flip(seat)
            }
            18 | 19 => {
                let (operation, other) = (self.dice.pick(&Operation::ALL), self.dice.pick(ALL_SEATS));
                self.combine(operation, seat, other)
            }
            20 | 21 => {
                let (operation, other) = (self.dice.pick(&Operation::ALL), self.dice.pick(ALL_SEATS));
                self.combine_afresh(operation, seat, other)
            }
            _ => self.fill_signs(seat),
        }
    }

    /// Fills every second seat with a value.
    fn lay_tiles(&mut self) -> Checked {
        (1..SEATS as u32).step_by(2).try_for_each(|seat| {
            let value = self.dice.pick(self.values);
            self.fill(seat, value)
        })
    }

    /// The seat and point of an earlier insert, which is forgotten.
    fn earlier(&mut self) -> Option<(u32, Point)> {
        match self.inserted.len() {
            0 => None,
            count => Some(self.inserted.swap_remove(self.dice.below(count))),
        }
    }

    fn voxel_step(&mut self, plan: Plan, growing: bool) -> Checked {
        let (seat, at, value) = (self.dice.pick(plan.seats), self.point(plan.spread), self.value());
        let inserts = if growing { 11 } else { 3 };
        match self.dice.below(16) {
            i if i < inserts => self.insert(seat, at, value),
            15 => self.lookup(seat, at),
            14 => self.remove(seat, at),
            13 => match self.earlier() {
                Some((seat, at)) => self.insert(seat, at, value),
                None => self.insert(seat, at, value),
            },
            _ => match self.earlier() {
                Some((seat, at)) => self.remove(seat, at),
                None => self.remove(seat, at),
            },
        }
    }

    pub fn follow(&mut self, plan: Plan) -> Checked {
        self.dice = Dice(plan.seed);
        self.values = plan.values;
        for step in 0..plan.steps {
            if step % (4 * plan.phase) == 0 {
                self.prepare()?;
                if plan.tiles {
                    self.lay_tiles()?;
                }
            }
            self.made.steps += 1;
            if plan.kind == Steps::OnSeats && self.dice.below(3) == 0 {
                let seat = self.dice.pick(plan.seats);
                self.seat_step(seat, plan.kind)?;
            } else {
                self.voxel_step(plan, step / plan.phase % 2 == 0)?;
            }
            if step % plan.look == 0 {
                self.look()?;
                let seat = self.dice.pick(plan.seats);
                if plan.kind == Steps::OnVoxels && self.dice.below(4) == 0 {
                    self.seat_step(seat, plan.kind)?;
                    self.look()?;
                }
            }
        }
        self.look()
    }
}
