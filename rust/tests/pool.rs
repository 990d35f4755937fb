//! The calls through the wrapper, on pools of few cells.

use yoldrick::{book_for, lengths, masks_for, slots_for, Lengths, Pool, Refusal};

type Checked = Result<(), Refusal>;

/// The slices of a pool, owned by the test.
struct Memory {
    slots: Vec<u32>,
    masks: Vec<u64>,
    book: Vec<u32>,
}

impl Memory {
    /// Fresh slices hold anything.
    fn new(cells: usize) -> Self {
        Self {
            slots: vec![u32::MAX; slots_for(cells)],
            masks: vec![u64::MAX; masks_for(cells)],
            book: vec![u32::MAX; book_for(cells)],
        }
    }

    fn pool(&mut self) -> Result<Pool<'_>, Refusal> {
        Pool::new(&mut self.slots, &mut self.masks, &mut self.book)
    }

    fn prepared(&mut self) -> Result<Pool<'_>, Refusal> {
        let mut pool = self.pool()?;
        pool.prepare()?;
        Ok(pool)
    }
}

#[test]
fn first_steps() -> Checked {
    let mut memory = Memory::new(100);
    let mut pool = memory.prepared()?;
    assert_eq!(pool.free_cells(), Ok(100));
    assert_eq!(pool.is_empty(0), Ok(true));
    assert_eq!(pool.lookup(0, [5, -3, 70]), Ok(None));
    pool.insert(0, [5, -3, 70], 0.25)?;
    assert_eq!(pool.lookup(0, [5, -3, 70]), Ok(Some(0.25)));
    assert_eq!(pool.lookup(0, [5, -3, 71]), Ok(None));
    assert_eq!(pool.free_cells(), Ok(98));
    assert_eq!(pool.is_empty(0), Ok(false));
    pool.remove(0, [5, -3, 70])?;
    assert_eq!(pool.lookup(0, [5, -3, 70]), Ok(None));
    assert_eq!(pool.free_cells(), Ok(100));
    Ok(())
}

#[test]
fn coordinates_are_masked() -> Checked {
    let mut memory = Memory::new(8);
    let mut pool = memory.prepared()?;
    pool.insert(7, [-1, 128, i32::MIN], -2.5)?;
    for at in [[127, 0, 0], [-1, -128, 128], [i32::MAX, 0, 256]] {
        assert_eq!(pool.lookup(7, at), Ok(Some(-2.5)), "{at:?}");
    }
    Ok(())
}

#[test]
fn lengths_are_told() -> Checked {
    for cells in 1..=65_535 {
        let n = cells as usize;
        assert_eq!(lengths(cells), Ok(Lengths { slots: slots_for(n), masks: masks_for(n), book: book_for(n) }));
    }
    for cells in [0, 65_536, 1 << 26, u32::MAX] {
        assert_eq!(lengths(cells), Err(Refusal::Lengths), "{cells}");
    }
    Ok(())
}

#[test]
fn lengths_are_tested() {
    for cells in [1, 65_535] {
        assert!(Memory::new(cells).pool().is_ok(), "{cells}");
    }
    for cells in [0, 65_536] {
        assert_eq!(Memory::new(cells).pool().err(), Some(Refusal::Lengths), "{cells}");
    }
    let short: [fn(&mut Memory); 3] = [|m| _ = m.slots.pop(), |m| _ = m.masks.pop(), |m| _ = m.book.pop()];
    for take in short {
        let mut memory = Memory::new(3);
        take(&mut memory);
        assert_eq!(memory.pool().err(), Some(Refusal::Lengths));
    }
    assert_eq!(Pool::new(&mut [], &mut [], &mut []).err(), Some(Refusal::Lengths));
}

#[test]
fn refusals_of_what_is_given() -> Checked {
    let mut memory = Memory::new(8);
    let mut pool = memory.prepared()?;
    assert_eq!(pool.lookup(8, [0; 3]), Err(Refusal::Seat));
    assert_eq!(pool.copy(1, u32::MAX), Err(Refusal::Seat));
    assert_eq!(pool.copy(1, 1), Err(Refusal::SameSeat));
    assert_eq!(pool.union(2, 2), Err(Refusal::SameSeat));
    for value in [f32::NAN, f32::INFINITY, f32::NEG_INFINITY] {
        assert_eq!(pool.insert(0, [0; 3], value), Err(Refusal::Value));
        assert_eq!(pool.fill(0, value), Err(Refusal::Value));
        assert_eq!(pool.cut_below(0, value), Err(Refusal::Value));
        assert_eq!(pool.cut_above(0, value), Err(Refusal::Value));
        assert_eq!(pool.cut_between(0, 0.0, value), Err(Refusal::Value));
    }
    Ok(())
}

#[test]
fn damage_is_refused_until_it_is_prepared_again() -> Checked {
    let mut memory = Memory::new(8);
    assert_eq!(memory.pool()?.free_cells(), Err(Refusal::Damaged));
    memory.prepared()?.insert(0, [1, 2, 3], 1.0)?;
    memory.slots[60] = f32::NAN.to_bits();
    let mut pool = memory.pool()?;
    assert_eq!(pool.lookup(0, [5, -3, 70]), Err(Refusal::Damaged));
    assert_eq!(pool.lookup(0, [1, 2, 3]), Ok(Some(1.0)));
    assert_eq!(pool.clear(7), Err(Refusal::Damaged));
    pool.prepare()?;
    assert_eq!(pool.lookup(0, [1, 2, 3]), Ok(None));
    pool.clear(7)
}

#[test]
fn refusals_of_what_the_seats_hold() -> Checked {
    let mut memory = Memory::new(4);
    let mut pool = memory.prepared()?;
    pool.insert(0, [0, 0, 0], 1.0)?;
    pool.insert(1, [0, 0, 4], -1.0)?;
    assert_eq!(pool.sign(0, [0; 3]), Err(Refusal::Unfilled));
    assert_eq!(pool.subtract(0, 1), Err(Refusal::Unfilled));
    assert_eq!(pool.copy(0, 1), Err(Refusal::Occupied));
    assert_eq!(pool.copy(0, 2), Err(Refusal::NoCells));
    assert_eq!(pool.insert(2, [0; 3], 1.0), Err(Refusal::NoCells));
    pool.fill_signs(0)?;
    pool.fill_signs(1)?;
    // Each of the two leaves meets a slot of the other that settles it: the middle node is left empty.
    pool.subtract(0, 1)?;
    assert_eq!(pool.fill_signs(0), Err(Refusal::EmptyBranch));
    pool.prune(0)?;
    pool.fill_signs(0)
}

/// What a combination says about a point that was or was not inside each of the two.
type Joins = fn(bool, bool) -> bool;
type Combine = fn(&mut Pool<'_>, u32, u32) -> Checked;

#[test]
fn combined_signs() -> Checked {
    let operations: [(Combine, Joins); 3] = [
        (|p, a, b| p.union(a, b), |a, b| a || b),
        (|p, a, b| p.subtract(a, b), |a, b| a && !b),
        (|p, a, b| p.intersect(a, b), |a, b| a && b),
    ];
    let side = || (0..20).chain([124, 127]);
    let points: Vec<_> = side().flat_map(|x| side().flat_map(move |y| side().map(move |z| [x, y, z]))).collect();
    let mut memory = Memory::new(40);
    for (combine, joins) in operations {
        let mut pool = memory.prepared()?;
        for (seat, voxels) in [(0, [([1, 2, 3], -1.0), ([9, 2, 3], 1.0)]), (1, [([1, 2, 2], 2.0), ([2, 9, 18], -2.0)])]
        {
            for (at, value) in voxels {
                pool.insert(seat, at, value)?;
            }
            pool.fill_signs(seat)?;
        }
        let inside =
            |pool: &Pool<'_>, seat| points.iter().map(|at| pool.sign(seat, *at)).collect::<Result<Vec<_>, _>>();
        let (a, b) = (inside(&pool, 0)?, inside(&pool, 1)?);
        assert!([&a, &b].iter().all(|signs| signs.contains(&true) && signs.contains(&false)));
        combine(&mut pool, 0, 1)?;
        let joined: Vec<_> = a.iter().zip(&b).map(|(a, b)| joins(*a, *b)).collect();
        assert_eq!(inside(&pool, 0)?, joined);
        assert_eq!(pool.is_empty(1), Ok(true));
    }
    Ok(())
}

#[test]
fn whole_seats() -> Checked {
    let mut memory = Memory::new(8);
    let mut pool = memory.prepared()?;
    pool.fill(0, 3.0)?;
    pool.insert(0, [0; 3], -4.0)?;
    pool.copy(0, 1)?;
    pool.flip(1)?;
    assert_eq!([pool.lookup(0, [0; 3])?, pool.lookup(1, [0; 3])?], [Some(-4.0), Some(4.0)]);
    assert_eq!([pool.lookup(0, [9; 3])?, pool.lookup(1, [9; 3])?], [Some(3.0), Some(-3.0)]);
    pool.cut_below(0, -3.0)?;
    assert_eq!([pool.lookup(0, [0; 3])?, pool.lookup(0, [9; 3])?], [None, Some(3.0)]);
    pool.cut_above(1, 3.0)?;
    assert_eq!([pool.lookup(1, [0; 3])?, pool.lookup(1, [9; 3])?], [None, Some(-3.0)]);
    pool.cut_between(1, -3.0, -3.0)?;
    assert_eq!(pool.is_empty(1), Ok(true));
    pool.clear(0)?;
    assert_eq!(pool.is_empty(0), Ok(true));
    assert_eq!(pool.free_cells(), Ok(8));
    Ok(())
}

#[test]
fn refusals_have_the_texts_of_the_header() {
    let header = include_str!("../../include/yoldrick.h");
    let all = [
        Refusal::Lengths,
        Refusal::Seat,
        Refusal::SameSeat,
        Refusal::Value,
        Refusal::Damaged,
        Refusal::Unfilled,
        Refusal::EmptyBranch,
        Refusal::Occupied,
        Refusal::NoCells,
    ];
    let texts = header.lines().filter_map(|line| line.trim().strip_prefix("case YOLDRICK_REFUSED_"));
    let shown: Vec<_> = texts.filter_map(|line| line.split('"').nth(1)).collect();
    assert_eq!(shown, all.map(|refusal| refusal.to_string()));
    assert_eq!(all.map(|refusal| refusal as u32), [1, 2, 3, 4, 5, 6, 7, 8, 9]);
}
