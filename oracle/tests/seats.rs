//! The calls on whole seats beside the Rust: prune, cut, flip, fill with signs and copy, with some combinations, between
//! inserts and removes, on random grids and on shells. Where signs are compared no value is a zero.

use oracle::beside::*;
use oracle::grids::*;
use oracle::shells::*;
use oracle::voxel::Grid;

const SEATS_PLAN: Plan = Plan {
    cells: 0,
    seats: ALL_SEATS,
    spread: Spread::Near,
    kind: Steps::OnSeats,
    values: NO_ZEROS,
    tiles: false,
    steps: 0,
    phase: 1500,
    look: 250,
    seed: 0,
};

/// Plans that differ in where their points lie, in how many seats they name, and in whether seats start full.
fn plans(cells: usize, steps: usize) -> Vec<Plan> {
    let mut plans = Vec::new();
    for spread in [Spread::Near, Spread::Edges, Spread::Corners, Spread::Wide] {
        for (seats, tiles) in [(ALL_SEATS, false), (&[2, 5, 6][..], false), (ALL_SEATS, true)] {
            let seed = 1000 * cells as u64 + 100 * plans.len() as u64;
            plans.push(Plan { cells, steps, spread, seats, tiles, seed, ..SEATS_PLAN });
        }
    }
    plans
}

fn shown(cells: usize, steps: usize) {
    let mut run = run_of(&archive, cells).unwrap();
    for plan in plans(cells, steps) {
        for round in 0..times() {
            let checked = run.follow(Plan { seed: plan.seed + round, ..plan });
            checked.unwrap_or_else(|difference| panic!("{cells} cells, seed {}: {difference}", plan.seed + round));
        }
    }
    run.report("whole seats");
}

#[test]
fn seats_that_share_few_cells() {
    [1, 2, 3, 4, 5, 9].into_iter().for_each(|cells| shown(cells, 34_000));
}

#[test]
fn seats_that_share_some_cells() {
    [17, 33, 65, 100].into_iter().for_each(|cells| shown(cells, 34_000));
}

#[test]
fn seats_that_share_many_cells() {
    shown(300, 15_000);
    shown(2000, 4500);
    shown(65_535, 450);
}

/// All that can be done with a shell in the seat 0, with copies of it in others until the cells run out.
fn work_on_shell(run: &mut Run<impl Grid>, shape: Shape) -> Checked {
    for (at, value) in band(shape, 1.5) {
        run.insert(0, at, value)?;
    }
    run.fill_signs(0)?;
    run.every_point(0)?;
    run.every_sign(0)?;

    (1..5).try_for_each(|to| run.copy(0, to))?;
    run.copy(0, 0)?;
    run.look()?;

    run.flip(0)?;
    run.every_slot(0)?;
    run.cut(1, Test::Below(0))?;
    run.cut(2, Test::Above((-0.75_f32).to_bits()))?;
    run.cut(3, Test::Between((-0.5_f32).to_bits(), 0.25_f32.to_bits()))?;
    run.copy(3, 6)?;
    run.copy(2, 0)?;
    for seat in 0..7 {
        run.every_slot(seat)?;
        run.prune(seat)?;
        run.fill_signs(seat)?;
        run.every_slot(seat)?;
    }
    run.every_sign(2)?;

    for (i, (at, _)) in band(shape, 1.5).enumerate() {
        if i % 3 != 0 {
            run.remove(0, at)?;
        }
    }
    run.sign(0, [0; 3])?;
    run.fill_signs(0)?;
    run.every_sign(0)?;
    run.cut(0, Test::Between(f32::MIN.to_bits(), f32::MAX.to_bits()))?;
    run.fill_signs(0)?;
    run.flip(0)?;
    run.every_slot(0)?;
    run.look()
}

/// With enough cells; with one less than the shell has, so that some of it is missing; with just as many, and one less than
/// for a copy, so that all four copies are refused; and with enough for one.
#[test]
fn shells() {
    for shape in SHAPES {
        let refusals_with = |cells: usize| {
            let mut run = run_of(&archive, cells).unwrap();
            work_on_shell(&mut run, shape).unwrap();
            run.report("a shell");
            run.made.for_cells
        };
        let mut run = run_of(&archive, 65_535).unwrap();
        band(shape, 1.5).for_each(|(at, value)| run.insert(0, at, value).unwrap());
        let has = run.reach(0);
        assert!(refusals_with(has - 1) > 4);
        assert_eq!([has, 2 * has - 1, 2 * has, 65_535].map(refusals_with), [4, 4, 3, 0]);
    }
}

/// Three shells in one pool: what is done to one shows in no other.
#[test]
fn shells_beside_each_other() {
    let mut run = run_of(&archive, 40_000).unwrap();
    let work = |run: &mut Run<_>| -> Checked {
        let mut bands = SHAPES.map(|shape| band(shape, 2.5));
        let mut left = true;
        while left {
            left = false;
            for (seat, band) in (0..).zip(&mut bands) {
                for (at, value) in band.take(1000) {
                    left = true;
                    run.insert(seat, at, value)?;
                }
            }
        }
        for seat in 0..3 {
            run.fill_signs(seat)?;
        }
        run.flip(1)?;
        run.cut(2, Test::Above(0))?;
        run.copy(0, 7)?;
        run.copy(1, 0)?;
        run.fill_signs(7)?;
        run.copy(7, 5)?;
        run.prune(7)?;
        run.fill_signs(2)?;
        for seat in 0..3 {
            run.every_point(seat)?;
            run.every_sign(seat)?;
        }
        (0..SEATS as u32).try_for_each(|seat| run.every_slot(seat))
    };
    work(&mut run).unwrap();
    run.report("three shells");
}

fn caught(library: &Library) -> bool {
    plans(17, 5000).into_iter().any(|plan| run_of(library, plan.cells).and_then(|mut run| run.follow(plan)).is_err())
}

#[test]
fn self_check_other_calls_on_seats_are_caught() {
    fn cut(seat: u32, test: Test) -> Vec<Call> {
        vec![Call::Cut { seat, test }]
    }
    let others: [fn(Call) -> Vec<Call>; 15] = [
        |call| if let Call::Prune { .. } = call { vec![] } else { vec![call] },
        |call| if let Call::Cut { test: Test::Below(_), .. } = call { vec![] } else { vec![call] },
        |call| if let Call::Cut { test: Test::Above(_), .. } = call { vec![] } else { vec![call] },
        |call| if let Call::Flip { .. } = call { vec![] } else { vec![call] },
        |call| if let Call::FillSigns { .. } = call { vec![] } else { vec![call] },
        |call| match call {
            Call::Cut { seat, test: Test::Below(high) } => cut(seat, Test::Between(f32::MIN.to_bits(), high)),
            _ => vec![call],
        },
        |call| match call {
            Call::Cut { seat, test: Test::Above(low) } => cut(seat, Test::Between(low, f32::MAX.to_bits())),
            _ => vec![call],
        },
        |call| match call {
            Call::Cut { seat, test: Test::Between(low, high) } if f32::from_bits(low) > f32::from_bits(high) => {
                cut(seat, Test::Between(high, low))
            }
            _ => vec![call],
        },
        |call| match call {
            Call::Cut { seat, test: Test::Between(low, high) } if low == high => vec![Call::Prune { seat }],
            _ => vec![call],
        },
        |call| match call {
            Call::Copy { from, to } => vec![Call::Copy { from: to, to: from }],
            _ => vec![call],
        },
        |call| match call {
            Call::Copy { to, .. } => vec![call, Call::FillSigns { seat: to }],
            _ => vec![call],
        },
        |call| match call {
            Call::Prune { seat } => vec![call, Call::FillSigns { seat }],
            _ => vec![call],
        },
        |call| match call {
            Call::Flip { seat } => vec![call, Call::FillSigns { seat }],
            _ => vec![call],
        },
        |call| match call {
            Call::Flip { seat } => vec![call, Call::Prune { seat }],
            _ => vec![call],
        },
        |call| match call {
            Call::FillSigns { seat } => vec![call, Call::Flip { seat }],
            _ => vec![call],
        },
    ];
    for (i, calls) in others.into_iter().enumerate() {
        assert!(caught(&replacing(calls)), "the broken library {i} passed");
    }
}

#[test]
fn self_check_wrong_refusals_on_seats_are_caught() {
    let breakages: [Breakage; 6] = [
        |_, answer, pool, _| {
            if let 3 | 7 | 8 = answer.code {
                pool.turn_bits();
            }
        },
        |_, answer, _, _| {
            if let 3 | 7 = answer.code {
                *answer = Answer::DONE;
            }
        },
        |_, answer, _, _| {
            if answer.code == 8 {
                *answer = Answer::refused(9);
            }
        },
        |call, answer, _, _| {
            if let (Call::Copy { .. }, 9) = (call, answer.code) {
                *answer = Answer::DONE;
            }
        },
        |call, answer, pool, before| {
            if let (Call::FillSigns { .. }, Answer::DONE) = (call, *answer) {
                *answer = Answer::refused(7);
                *pool = before.clone();
            }
        },
        |call, answer, _, _| {
            if let (Call::Sign { .. }, 0) = (call, answer.code) {
                answer.number ^= 1;
            }
        },
    ];
    for (i, breakage) in breakages.into_iter().enumerate() {
        assert!(caught(&broken(breakage)), "the broken library {i} passed");
    }
}
