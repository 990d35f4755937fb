//! The records that the program crates/replay replays: steps on one grid, each with what the Rust alone answers.
//! The first test holds the file to what the Rust answers now; the second writes it anew:
//! `cargo test --offline --release --manifest-path oracle/Cargo.toml --target-dir target/oracle -- --ignored write_the_records`

use oracle::dice::Dice;
use oracle::helpers::aliases::Vec3i;
use oracle::voxel::{top, Grid};

const FILE: &str = concat!(env!("CARGO_MANIFEST_DIR"), "/../crates/replay/data/steps");

const SEAT: u8 = 5;
const NOTHING: u8 = 10;

/// Every turn begins with a clear or a fill, after which the grid has no branch. Each later step adds two at most, so
/// the 4096 cells of the program's pool are enough.
const TURNS: usize = 10;
const STEPS: usize = 2000;

/// Few enough to meet an equal tile, and the ends of what is finite.
const VALUES: [f32; 9] = [0.0, -0.0, 1.0, -1.0, 3.0, f32::MAX, f32::MIN, f32::MIN_POSITIVE, 1e-45];

/// Coordinates at the ends of leaves, of middle nodes and of the grid.
const EDGES: [i32; 12] = [0, 1, 3, 4, 15, 16, 31, 63, 64, 111, 112, 127];

type Point = [i32; 3];

#[derive(Clone, Copy)]
enum Step {
    Lookup(Point),
    Insert(Point, f32),
    Remove(Point),
    Fill(f32),
    Clear,
}

fn masked(at: Point) -> Vec3i {
    let [x, y, z] = at.map(|coordinate| isize::try_from(coordinate & 127).unwrap());
    Vec3i::new(x, y, z)
}

/// 24 bytes: the kind of the step, the seat, the code owed, 0, and then, low byte first, x, y, z, the bits given and the
/// bits owed. What a step does not have is 0.
fn record(grid: &mut impl Grid, step: Step) -> Vec<u8> {
    let (kind, at, given) = match step {
        Step::Lookup(at) => (0, at, 0.0),
        Step::Insert(at, value) => (1, at, value),
        Step::Remove(at) => (2, at, 0.0),
        Step::Fill(value) => (3, [0; 3], value),
        Step::Clear => (4, [0; 3], 0.0),
    };
    let mut owed = (0, 0);
    match step {
        Step::Lookup(at) => owed = grid.at(&masked(at)).map_or((NOTHING, 0), |value| (0, value.to_bits())),
        Step::Insert(at, value) => grid.insert(&masked(at), value),
        Step::Remove(at) => grid.remove(&masked(at)),
        Step::Fill(value) => grid.fill(value),
        Step::Clear => grid.clear(),
    }
    let words = [at[0] as u32, at[1] as u32, at[2] as u32, given.to_bits(), owed.1];
    [kind, SEAT, owed.0, 0].into_iter().chain(words.into_iter().flat_map(u32::to_le_bytes)).collect()
}

/// A coordinate with bits above the 7 that count, and below zero, in half of the cases. The turns differ in how near to
/// each other the points lie.
fn coordinate(dice: &mut Dice, turn: usize) -> i32 {
    let low = match turn / 2 % 3 {
        0 => dice.below(6) as i32,
        1 => dice.pick(&EDGES),
        _ => dice.below(128) as i32,
    };
    let high = dice.next() as i32;
    low | dice.pick(&[0, 0, 0, -1, 1, high]) << 7
}

fn value(dice: &mut Dice) -> f32 {
    let random = f32::from_bits(dice.next() as u32);
    match dice.below(2) {
        0 if random.is_finite() => random,
        _ => dice.pick(&VALUES),
    }
}

/// A new point, or one that an earlier step of the turn touched.
fn point(dice: &mut Dice, turn: usize, touched: &[Point]) -> Point {
    let new = [(); 3].map(|()| coordinate(dice, turn));
    match touched.len() {
        0 => new,
        _ if dice.below(2) == 0 => new,
        _ => dice.pick(touched),
    }
}

fn first_step(dice: &mut Dice, turn: usize) -> Step {
    match turn % 2 {
        0 => Step::Clear,
        _ => Step::Fill(dice.pick(&VALUES)),
    }
}

/// The first half of a turn mostly inserts, the second half mostly removes.
fn later_step(dice: &mut Dice, step: usize, at: Point) -> Step {
    let inserts = if step < STEPS / 2 { 7 } else { 2 };
    match dice.below(12) {
        i if i < inserts => Step::Insert(at, value(dice)),
        i if i < 8 => Step::Remove(at),
        _ => Step::Lookup(at),
    }
}

fn records() -> Vec<u8> {
    let mut dice = Dice(2026);
    let mut grid = top();
    let mut bytes = Vec::new();
    for turn in 0..TURNS {
        let first = first_step(&mut dice, turn);
        bytes.extend(record(&mut *grid, first));
        let mut touched = Vec::new();
        for step in 1..STEPS {
            let at = point(&mut dice, turn, &touched);
            touched.push(at);
            let later = later_step(&mut dice, step, at);
            bytes.extend(record(&mut *grid, later));
        }
    }
    bytes
}

#[test]
fn the_records_are_what_the_rust_answers() {
    assert!(std::fs::read(FILE).unwrap() == records(), "the file {FILE} is not what the Rust answers");
}

#[test]
#[ignore = "it writes the file that the other test reads"]
fn write_the_records() {
    std::fs::write(FILE, records()).unwrap();
}
