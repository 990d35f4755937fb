//! The calls beside the Rust: sequences on voxels, with a call on a whole seat now and then, and the refusals that need no
//! look at the memory. Signs are filled and compared in tests/seats.rs; here values may be zeros, and no seat is filled.

use oracle::beside::*;
use oracle::dice::Dice;
use oracle::grids::*;
use oracle::voxel::Grid;
use std::io::Write;

const NOT_FINITE: [u32; 6] = [0x7F80_0000, 0xFF80_0000, 0x7F80_0001, 0x7FC0_0000, 0xFFC0_1234, 0xFFFF_FFFF];

/// A cube of 16 voxels a side is inserted in order and removed in another.
fn cube(run: &mut Run<impl Grid>, seat: u32, corner: Point) -> Checked {
    let at = |i: i32| [corner[0] + (i >> 8), corner[1] + (i >> 4 & 15), corner[2] + (i & 15)];
    for i in 0..4096 {
        run.made.steps += 1;
        run.insert(seat, at(i), i as f32)?;
    }
    run.look()?;
    for i in 0..4096 {
        run.made.steps += 1;
        run.remove(seat, at((i * 1365) & 4095))?;
    }
    run.look()
}

/// T14: the last free cell is used and released 100 times.
fn last_cell(run: &mut Run<impl Grid>) -> Checked {
    run.insert(0, [0, 0, 0], 1.0)?;
    for _ in 0..100 {
        run.made.steps += 2;
        run.insert(0, [0, 0, 4], 2.0)?;
        run.look()?;
        run.insert(0, [0, 0, 8], 2.0)?;
        run.remove(0, [0, 0, 4])?;
        run.look()?;
    }
    Ok(())
}

/// A plan carried out beside the Rust; at its end every point of the first seat is looked up, if that is asked for.
fn shown(what: &str, plan: Plan, every_point: bool) {
    let mut run = run_of(&archive, plan.cells).unwrap();
    let mut checked = (0..times()).try_for_each(|round| run.follow(Plan { seed: plan.seed + round, ..plan }));
    if every_point {
        checked = checked.and_then(|()| run.every_point(plan.seats[0]));
    }
    run.report(what);
    checked.unwrap_or_else(|difference| panic!("{difference}"));
}

/// As many cells as one grid can have.
const ENOUGH: usize = 512 * 65;

/// The steps end in the middle of a turn, when the seat holds the most.
const ONE_SEAT: Plan = Plan {
    cells: ENOUGH,
    seats: &[0],
    spread: Spread::Wide,
    kind: Steps::OnVoxels,
    values: VALUES,
    tiles: false,
    steps: 90_000,
    phase: 10_000,
    look: 2000,
    seed: 1,
};

#[test]
fn one_seat() {
    let what = "one seat, then every point of it";
    shown(what, ONE_SEAT, true);
    shown(what, Plan { seats: &[5], spread: Spread::Edges, seed: 2, ..ONE_SEAT }, true);
    shown(what, Plan { seats: &[7], spread: Spread::Near, seed: 3, ..ONE_SEAT }, true);
}

#[test]
fn one_seat_that_starts_full() {
    let what = "one seat that starts full, then every point of it";
    let full = Plan { seats: &[3], tiles: true, ..ONE_SEAT };
    shown(what, Plan { seed: 4, ..full }, true);
    shown(what, Plan { spread: Spread::Edges, seed: 5, ..full }, true);
    shown(what, Plan { spread: Spread::Near, seed: 6, ..full }, true);
}

const SOME_FULL: &str = "seats, half of them start full";

#[test]
fn seats_that_share_few_cells() {
    let plan = Plan { seats: ALL_SEATS, steps: 10_000, phase: 500, look: 50, ..ONE_SEAT };
    for (i, cells) in [1, 2, 3, 5, 17, 100].into_iter().enumerate() {
        for (j, spread) in [Spread::Near, Spread::Edges, Spread::Wide].into_iter().enumerate() {
            let plan = Plan { cells, spread, seed: (100 + 10 * i + j) as u64, ..plan };
            shown("seats", plan, false);
            shown(SOME_FULL, Plan { tiles: true, ..plan }, false);
        }
    }
}

#[test]
fn seats_that_share_many_cells() {
    let plan = Plan { cells: 1000, seats: ALL_SEATS, steps: 100_000, phase: 5000, look: 500, seed: 7, ..ONE_SEAT };
    shown("seats", plan, false);
    shown(SOME_FULL, Plan { tiles: true, seed: 8, ..plan }, false);
    let most = Plan { cells: 65_535, steps: 300_000, phase: 150_000, look: 30_000, ..plan };
    shown("seats", Plan { seed: 9, ..most }, false);
    shown(SOME_FULL, Plan { tiles: true, seed: 10, ..most }, false);
}

/// The second cube lies over the ends of the grid and needs 8 middle nodes and 125 leaves.
#[test]
fn cubes() {
    for (cells, corner) in [(65, [0, 16, -16]), (64, [0, 16, -16]), (133, [-3, 125, 253]), (132, [-3, 125, 253])] {
        let mut run = run_of(&archive, cells).unwrap();
        cube(&mut run, 2, corner).unwrap();
        assert_eq!((run.made.for_cells > 0, run.free()), (cells == 64 || cells == 132, cells));
        run.report("a cube");
    }
}

#[test]
fn the_last_cell_again_and_again() {
    let mut run = run_of(&archive, 3).unwrap();
    last_cell(&mut run).unwrap();
    assert_eq!(run.made.for_cells, 100);
    run.report("the last cell");
}

/// All calls, with the seat and the value where they take one.
fn all_calls(seat: u32, at: Point, bits: u32) -> Vec<Call> {
    let mut calls = vec![
        Call::Prepare,
        Call::FreeCells,
        Call::IsEmpty { seat },
        Call::Lookup { seat, at },
        Call::Sign { seat, at },
        Call::Remove { seat, at },
        Call::Clear { seat },
        Call::Prune { seat },
        Call::Flip { seat },
        Call::FillSigns { seat },
        Call::Copy { from: seat, to: 0 },
        Call::Copy { from: 0, to: seat },
        Call::Copy { from: seat, to: seat },
    ];
    for (a, b) in [(seat, 0), (0, seat), (seat, seat)] {
        calls.extend(Operation::ALL.map(|operation| Call::Combine { operation, a, b }));
    }
    calls.extend(calls_with_bits(seat, at, bits));
    calls
}

fn calls_with_bits(seat: u32, at: Point, bits: u32) -> [Call; 6] {
    let cut = |test| Call::Cut { seat, test };
    [
        Call::Insert { seat, at, bits },
        Call::Fill { seat, bits },
        cut(Test::Below(bits)),
        cut(Test::Above(bits)),
        cut(Test::Between(0, bits)),
        cut(Test::Between(bits, 0)),
    ]
}

fn takes_a_seat(call: &Call) -> bool {
    !matches!(call, Call::Prepare | Call::FreeCells)
}

fn refuses(library: &Library, call: Call, pool: &Pool, code: u32) -> Checked {
    let mut after = pool.clone();
    let got = library(call, &mut after);
    if got == Answer::refused(code) && after == *pool {
        Ok(())
    } else {
        Err(differ(call, format!("got {got:x?} where {code} is owed, or changed lent words")))
    }
}

/// Counts that fit no number of cells.
fn wrong_counts() -> Vec<Counts> {
    let mut wrong = vec![Counts { slots: 0, masks: 0, book: 0 }, Counts::of_cells(0), Counts::of_cells(65_536)];
    for n in [1, 2, 3, 17, 100] {
        let (right, next) = (Counts::of_cells(n), Counts::of_cells(n + 1));
        for slots in [0, 64 * n, 4096, right.slots - 1, right.slots + 1, next.slots] {
            wrong.push(Counts { slots, ..right });
        }
        for masks in [0, 2 * n, 128, right.masks - 1, right.masks + 1, next.masks] {
            wrong.push(Counts { masks, ..right });
        }
        for book in [0, 2 * n, 9, right.book - 1, right.book + 1, next.book] {
            wrong.push(Counts { book, ..right });
        }
    }
    wrong
}

/// Each pool is tried with memory that holds anything, since 1, 2, 3 and 4 come before any look at it.
fn of_refusals(library: &Library) -> Result<usize, String> {
    let mut dice = Dice(9);
    let mut made = 0;
    let mut refuses = |call, pool: &Pool, code| {
        made += 1;
        refuses(library, call, pool, code)
    };
    for counts in wrong_counts() {
        let pool = Pool::new(counts, || dice.next());
        for (seat, bits) in [(0, 0), (8, 0), (0, NOT_FINITE[0]), (8, NOT_FINITE[3])] {
            all_calls(seat, [1, 2, 3], bits).into_iter().try_for_each(|call| refuses(call, &pool, 1))?;
        }
    }
    for n in [1, 2, 100, 65_535] {
        let pool = Pool::new(Counts::of_cells(n), || dice.next());
        for seat in [8, 9, 255, 256, 1 << 16, 1 << 31, u32::MAX] {
            for bits in [0, NOT_FINITE[3]] {
                let calls = all_calls(seat, [-1, 128, 3], bits);
                calls.into_iter().filter(takes_a_seat).try_for_each(|call| refuses(call, &pool, 2))?;
            }
        }
        for (seat, bits) in (0..SEATS as u32).zip(NOT_FINITE.into_iter().cycle()) {
            refuses(Call::Copy { from: seat, to: seat }, &pool, 3)?;
            for operation in Operation::ALL {
                refuses(Call::Combine { operation, a: seat, b: seat }, &pool, 3)?;
            }
            let calls = calls_with_bits(seat, [-1, 128, 3], bits);
            calls.into_iter().try_for_each(|call| refuses(call, &pool, 4))?;
        }
    }
    let mut full = Pool::new(Counts::of_cells(1), || dice.next());
    library(Call::Prepare, &mut full);
    for bits in NOT_FINITE {
        calls_with_bits(7, [0; 3], bits).into_iter().try_for_each(|call| refuses(call, &full, 4))?;
    }
    refuses(Call::Copy { from: 7, to: 7 }, &full, 3)?;
    refuses(Call::Insert { seat: 7, at: [0; 3], bits: 0 }, &full, 9)?;
    Ok(made)
}

#[test]
fn refusals_come_in_order_and_change_nothing() {
    let made = of_refusals(&archive).unwrap();
    writeln!(std::io::stdout(), "refusals 1, 2, 3 and 4: {made} calls").unwrap();
}

#[test]
fn self_check_broken_steps_are_caught() {
    let breakages: [Breakage; 8] = [
        |call, _, pool, before| {
            if let Call::Insert { .. } = call {
                *pool = before.clone();
            }
        },
        |call, _, pool, before| {
            if let Call::Remove { .. } = call {
                *pool = before.clone();
            }
        },
        |call, answer, _, _| {
            if let (Call::Lookup { .. }, 0) = (call, answer.code) {
                answer.number ^= 1;
            }
        },
        |call, answer, _, _| {
            if let Call::FreeCells = call {
                answer.number ^= 1;
            }
        },
        |call, answer, _, _| {
            if let Call::IsEmpty { .. } = call {
                answer.number ^= 1;
            }
        },
        |call, _, pool, _| {
            if let Call::Lookup { .. } | Call::FreeCells = call {
                pool.turn_bits();
            }
        },
        |_, answer, pool, _| {
            if answer.code == 9 {
                pool.turn_bits();
            }
        },
        |_, answer, _, _| {
            if answer.code == 9 {
                *answer = Answer::DONE;
            }
        },
    ];
    let plan = Plan {
        cells: 5,
        seats: ALL_SEATS,
        spread: Spread::Near,
        tiles: true,
        steps: 1000,
        phase: 100,
        look: 10,
        ..ONE_SEAT
    };
    for (i, breakage) in breakages.into_iter().enumerate() {
        let library = broken(breakage);
        let checked = run_of(&library, plan.cells).and_then(|mut run| run.follow(plan));
        assert!(checked.is_err(), "the broken library {i} passed");
    }
}

#[test]
fn self_check_a_refusal_that_writes_is_caught() {
    let library = broken(|_, answer, pool, _| {
        if answer.code != 0 {
            pool.turn_bits();
        }
    });
    assert!(of_refusals(&library).is_err());
}
