//! Union, subtract and intersect beside the Rust: one combination of two grids that are not empty, without empty branches,
//! filled with signs just before, on random grids and on shells, and chains of such. No value is a zero. Where 01 and the
//! Rust differ, 01's answer is tested at the end; the Rust's is in tests/rust_nodes.rs.

use oracle::beside::*;
use oracle::dice::Dice;
use oracle::grids::*;
use oracle::shells::*;
use oracle::voxel::Grid;

/// Random content for a seat: voxels in nothing or in tiles, some of them cut away.
fn sow(run: &mut Run<impl Grid>, seat: u32, spread: Spread) -> Checked {
    match run.dice.below(5) {
        0 | 1 => {
            let value = run.dice.pick(NO_ZEROS);
            run.fill(seat, value)?;
        }
        2 | 3 => run.clear(seat)?,
        _ => {}
    }
    for _ in 0..1 + run.dice.below(8) {
        let (at, value) = (run.point(spread), run.dice.pick(NO_ZEROS));
        run.insert(seat, at, value)?;
    }
    match run.dice.below(8) {
        0 => {
            let test = run.test();
            run.cut(seat, test)
        }
        1 => run.flip(seat),
        2 => {
            let at = run.point(spread);
            run.remove(seat, at)
        }
        _ => Ok(()),
    }
}

/// So many accepted combinations of the seats 0 to 3. The first seat is often what an earlier combination left in it.
fn combine_random(run: &mut Run<impl Grid>, spread: Spread, count: u64) -> Checked {
    let end = run.made.combinations + count;
    while run.made.combinations < end {
        if run.made.steps % 64 == 0 {
            run.prepare()?;
        }
        run.made.steps += 1;
        let a = run.dice.below(4) as u32;
        let b = (a + run.dice.pick(&[1, 2, 3])) % 4;
        let operation = run.dice.pick(&Operation::ALL);
        if run.is_empty(a) || run.dice.below(3) == 0 {
            sow(run, a, spread)?;
        }
        sow(run, b, spread)?;
        match run.dice.below(64) {
            0 => run.combine(operation, a, b)?,
            1 => run.combine_afresh(operation, a, a)?,
            _ => {}
        }
        run.combine_afresh(operation, a, b)?;
        run.every_slot(a)?;
        if run.has_empty_branch(a) {
            run.fill_signs(b)?;
            run.combine(operation, a, b)?;
            run.combine(operation, b, a)?;
        }
        match run.dice.below(8) {
            0 => run.combine_afresh(operation, b, a)?,
            1 => run.combine(operation, a, b)?,
            2 => run.combine(operation, b, a)?,
            3 => {
                run.clear(4)?;
                run.copy(a, 4)?;
                run.every_slot(4)?;
            }
            _ => {}
        }
        run.prune(a)?;
        run.fill_signs(a)?;
        if run.dice.below(2) == 0 {
            run.every_slot(a)?;
        }
    }
    run.look()
}

const SPREADS: [Spread; 4] = [Spread::Near, Spread::Edges, Spread::Corners, Spread::Wide];

fn shown(cells: usize, count: u64) {
    let mut run = run_of(&archive, cells).unwrap();
    for (i, spread) in SPREADS.into_iter().enumerate() {
        for round in 0..times() {
            let seed = 10_000 * cells as u64 + 1000 * i as u64 + round;
            run.dice = Dice(seed);
            let checked = combine_random(&mut run, spread, count);
            checked.unwrap_or_else(|difference| panic!("{cells} cells, seed {seed}: {difference}"));
        }
    }
    run.report("combinations");
    assert!(run.made.hollow > 0 && run.made.unfilled > 0);
}

#[test]
fn random_grids_in_few_cells() {
    [5, 9, 17].into_iter().for_each(|cells| shown(cells, 4500));
}

#[test]
fn random_grids_in_some_cells() {
    [33, 65, 100].into_iter().for_each(|cells| shown(cells, 4500));
}

/// Each of three shells with each other by each operation, at every voxel, and then again with the third.
#[test]
fn shells() {
    let mut run = run_of(&archive, 65_535).unwrap();
    let work = |run: &mut Run<_>| -> Checked {
        for (seat, shape) in (0..).zip(SHAPES) {
            for (at, value) in band(shape, 1.5) {
                run.insert(seat, at, value)?;
            }
        }
        for (a, b, c) in [(0, 1, 2), (1, 0, 2), (0, 2, 1), (2, 0, 1), (1, 2, 0), (2, 1, 0)] {
            for (i, operation) in Operation::ALL.into_iter().enumerate() {
                for (from, to) in [(a, 5), (b, 6), (c, 7)] {
                    run.clear(to)?;
                    run.copy(from, to)?;
                }
                run.combine_afresh(operation, 5, 6)?;
                run.every_point(5)?;
                run.every_sign(5)?;
                run.combine_afresh(Operation::ALL[(i + a as usize) % 3], 7, 5)?;
                run.every_point(7)?;
                run.every_sign(7)?;
                run.look()?;
            }
        }
        Ok(())
    };
    work(&mut run).unwrap();
    run.report("combinations of shells");
    assert!(run.made.combinations >= 18);
}

fn caught(library: &Library) -> bool {
    SPREADS
        .into_iter()
        .any(|spread| run_of(library, 33).and_then(|mut run| combine_random(&mut run, spread, 400)).is_err())
}

#[test]
fn self_check_other_combinations_are_caught() {
    fn instead(call: Call, other: impl Fn(Operation, u32, u32) -> Vec<Call>) -> Vec<Call> {
        match call {
            Call::Combine { operation, a, b } if a != b => other(operation, a, b),
            _ => vec![call],
        }
    }
    fn combine(operation: Operation, a: u32, b: u32) -> Call {
        Call::Combine { operation, a, b }
    }
    assert!(!caught(&replacing(|call| vec![call])));
    let others: [fn(Call) -> Vec<Call>; 9] = [
        |call| instead(call, |_, a, b| vec![combine(Operation::Union, a, b)]),
        |call| instead(call, |_, a, b| vec![combine(Operation::Subtract, a, b)]),
        |call| instead(call, |_, a, b| vec![combine(Operation::Intersect, a, b)]),
        |call| instead(call, |operation, a, b| vec![combine(operation, b, a)]),
        |call| instead(call, |operation, a, b| vec![combine(operation, a, b), Call::Clear { seat: a }]),
        |call| instead(call, |operation, a, b| vec![combine(operation, a, b), Call::Prune { seat: a }]),
        |call| instead(call, |operation, a, b| vec![combine(operation, a, b), Call::FillSigns { seat: b }]),
        |call| instead(call, |operation, a, b| vec![combine(operation, a, b), Call::Flip { seat: a }]),
        |call| instead(call, |_, a, b| vec![Call::Prune { seat: a }, Call::Clear { seat: b }]),
    ];
    for (i, calls) in others.into_iter().enumerate() {
        assert!(caught(&replacing(calls)), "the broken library {i} passed");
    }
}

#[test]
fn self_check_wrong_refusals_of_combinations_are_caught() {
    let breakages: [Breakage; 4] = [
        |call, answer, pool, _| {
            if let (Call::Combine { .. }, 3 | 6 | 7) = (call, answer.code) {
                pool.turn_bits();
            }
        },
        |call, answer, _, _| {
            if let (Call::Combine { .. }, 6) = (call, answer.code) {
                *answer = Answer::refused(7);
            }
        },
        |call, answer, _, _| {
            if let (Call::Combine { .. }, 7) = (call, answer.code) {
                *answer = Answer::DONE;
            }
        },
        |call, answer, pool, before| {
            if let (Call::Combine { .. }, Answer::DONE) = (call, *answer) {
                *answer = Answer::refused(9);
                *pool = before.clone();
            }
        },
    ];
    for (i, breakage) in breakages.into_iter().enumerate() {
        assert!(caught(&broken(breakage)), "the broken library {i} passed");
    }
}

/// A prepared pool, for what is not compared with the Rust: 01's answers.
struct Alone(Pool);

const FAR: f32 = f32::MAX;
const ORIGIN: Point = [0; 3];

impl Alone {
    fn new() -> Self {
        let mut alone = Self(Pool::new(Counts::of_cells(20), || 0));
        alone.done(Call::Prepare);
        alone
    }

    fn call(&mut self, call: Call) -> Answer {
        archive(call, &mut self.0)
    }

    fn done(&mut self, call: Call) {
        assert_eq!(self.call(call), Answer::DONE, "{call:?}");
    }

    /// A seat with these voxels, filled with signs.
    fn filled(&mut self, seat: u32, voxels: &[(Point, f32)]) {
        for (at, value) in voxels {
            self.done(Call::Insert { seat, at: *at, bits: value.to_bits() });
        }
        self.done(Call::FillSigns { seat });
    }

    fn full_of(&mut self, seat: u32, value: f32) {
        self.done(Call::Fill { seat, bits: value.to_bits() });
        self.done(Call::FillSigns { seat });
    }

    fn combine(&mut self, operation: Operation, a: u32, b: u32) -> u32 {
        self.call(Call::Combine { operation, a, b }).code
    }

    fn at(&mut self, seat: u32, at: Point) -> Option<f32> {
        let answer = self.call(Call::Lookup { seat, at });
        (answer.code == 0).then_some(f32::from_bits(answer.number))
    }

    fn is_inside(&mut self, seat: u32, at: Point) -> bool {
        let answer = self.call(Call::Sign { seat, at });
        assert_eq!(answer.code, 0);
        answer.number == 1
    }

    fn free(&mut self) -> u32 {
        self.call(Call::FreeCells).number
    }
}

/// T13: also before 6, which a seat that is not filled would give.
#[test]
fn a_seat_is_not_combined_with_itself() {
    let mut pool = Alone::new();
    for operation in Operation::ALL {
        assert_eq!(pool.combine(operation, 2, 2), 3);
    }
    pool.filled(2, &[(ORIGIN, 1.0)]);
    for operation in Operation::ALL {
        assert_eq!(pool.combine(operation, 2, 2), 3);
    }
    assert_eq!(pool.at(2, ORIGIN), Some(1.0));
}

#[test]
fn an_empty_seat_is_outside() {
    for (operation, left) in Operation::ALL.into_iter().zip([Some(1.0), Some(1.0), None]) {
        let mut pool = Alone::new();
        pool.filled(0, &[(ORIGIN, 1.0)]);
        pool.filled(1, &[]);
        assert_eq!(pool.combine(operation, 0, 1), 0);
        assert_eq!((pool.at(0, ORIGIN), pool.free()), (left, if left.is_some() { 18 } else { 20 }));
    }
    for (operation, left) in Operation::ALL.into_iter().zip([Some(1.0), None, None]) {
        let mut pool = Alone::new();
        pool.filled(0, &[]);
        pool.filled(1, &[(ORIGIN, 1.0)]);
        assert_eq!(pool.combine(operation, 0, 1), 0);
        assert_eq!((pool.at(0, ORIGIN), pool.at(1, ORIGIN)), (left, None));
    }
}

/// All of a is inside after the flip: nothing of b is taken over.
#[test]
fn a_flipped_seat_is_turned_in_hidden_slots_too() {
    let mut pool = Alone::new();
    pool.filled(0, &[(ORIGIN, 1.0)]);
    pool.done(Call::Flip { seat: 0 });
    pool.filled(1, &[([0, 0, 16], 1.0)]);
    assert_eq!(pool.combine(Operation::Union, 0, 1), 0);
    assert_eq!((pool.at(0, ORIGIN), pool.at(0, [0, 0, 16])), (Some(-1.0), None));
    assert!(pool.is_inside(0, [0, 0, 16]));
}

#[test]
fn what_is_removed_is_outside() {
    let middle = [0, 0, 4];
    for (operation, tile) in [(Operation::Subtract, -1.0), (Operation::Intersect, 1.0)] {
        for voxels in [&[(ORIGIN, 1.0)][..], &[(ORIGIN, -1.0)]] {
            let mut pool = Alone::new(); // a branch, and hidden slots
            pool.filled(0, voxels);
            pool.full_of(1, tile);
            assert_eq!(pool.combine(operation, 0, 1), 0);
            assert_eq!(
                (pool.at(0, ORIGIN), pool.is_inside(0, ORIGIN), pool.is_inside(0, middle)),
                (None, false, false)
            );
            assert_eq!(pool.free(), 20);
        }
        let mut pool = Alone::new(); // tiles
        pool.full_of(0, -1.0);
        pool.full_of(1, tile);
        assert_eq!(pool.combine(operation, 0, 1), 0);
        assert_eq!((pool.at(0, ORIGIN), pool.is_inside(0, ORIGIN)), (None, false));
    }
}

#[test]
fn a_branch_that_a_subtraction_takes_is_flipped_in_hidden_slots_too() {
    let mut pool = Alone::new();
    pool.full_of(0, -1.0);
    pool.filled(1, &[(ORIGIN, 1.0)]);
    assert_eq!(pool.combine(Operation::Subtract, 0, 1), 0);
    assert_eq!(pool.at(0, ORIGIN), Some(-1.0));
    assert!(pool.is_inside(0, [0, 0, 4]));
}

#[test]
fn a_second_combination_keeps_contents() {
    let mut pool = Alone::new();
    pool.full_of(0, -1.0);
    pool.full_of(1, -1.0);
    assert_eq!(pool.combine(Operation::Subtract, 0, 1), 0);
    pool.filled(1, &[(ORIGIN, 1.0)]);
    assert_eq!(pool.combine(Operation::Union, 0, 1), 0);
    assert_eq!(pool.at(0, ORIGIN), Some(1.0));
}

/// W-204's grid: the middle node at the top's slot 0 is left empty, and keeps its place and its signs.
#[test]
fn an_emptied_branch_stays() {
    let mut pool = Alone::new();
    for (a, b) in [(0, 1), (2, 3)] {
        pool.filled(a, &[(ORIGIN, 1.0)]);
        pool.filled(b, &[([0, 0, 4], -1.0)]);
        assert_eq!(pool.combine(Operation::Subtract, a, b), 0);
        assert_eq!(pool.call(Call::IsEmpty { seat: a }), Answer::found(0));
        assert_eq!((pool.at(a, ORIGIN), pool.at(a, [0, 0, 4])), (None, None));
        assert!(![ORIGIN, [0, 0, 4], [15, 15, 15], [0, 0, 16]].map(|at| pool.is_inside(a, at)).contains(&true));
    }
    assert_eq!(pool.free(), 18);
    let before = pool.0.clone();
    assert_eq!(Operation::ALL.map(|operation| pool.combine(operation, 0, 2)), [7; 3]);
    assert!(pool.0 == before);
    for seat in [0, 2] {
        pool.done(Call::Prune { seat });
        pool.done(Call::FillSigns { seat });
    }
    assert_eq!((pool.combine(Operation::Union, 0, 2), pool.at(0, ORIGIN), pool.free()), (0, None, 20));
}

#[test]
fn minus_zero_is_below_zero() {
    let joined = |operation, a: f32, b: f32| {
        let mut pool = Alone::new();
        pool.filled(0, &[(ORIGIN, a)]);
        pool.filled(1, &[(ORIGIN, b)]);
        assert_eq!(pool.combine(operation, 0, 1), 0);
        pool.at(0, ORIGIN).unwrap().to_bits()
    };
    for [a, b] in [[0.0, -0.0], [-0.0, 0.0]] {
        assert_eq!(joined(Operation::Union, a, b), (-0.0_f32).to_bits());
        assert_eq!(joined(Operation::Intersect, a, b), 0.0_f32.to_bits());
    }
    assert_eq!(joined(Operation::Subtract, 0.0, 0.0), 0.0_f32.to_bits());
    assert_eq!(joined(Operation::Subtract, -0.0, 0.0), (-0.0_f32).to_bits());
}

/// Odd, and as in the Rust.
#[test]
fn union_writes_minus_far_and_loses_an_outside_tile() {
    for (tile, left) in [(-2.0, [Some(-FAR); 2]), (2.0, [Some(1.0), None])] {
        let mut pool = Alone::new();
        pool.filled(0, &[(ORIGIN, 1.0)]);
        pool.full_of(1, tile);
        assert_eq!(pool.combine(Operation::Union, 0, 1), 0);
        assert_eq!([ORIGIN, [0, 0, 4]].map(|at| pool.at(0, at)), left);
    }
}
