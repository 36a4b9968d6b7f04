//! The table of a plain store in Rust, for `bench/store.py`: rows in chains, each naming the last
//! earlier row of its bucket, and twice as many buckets as rows. It takes the same words as
//! `bench_store`, and puts the same cells.
use std::process::ExitCode;

#[derive(Clone, Copy, PartialEq, Eq)]
struct Handle(u32);

#[derive(Clone, Copy, PartialEq, Eq)]
enum Cell {
    #[allow(dead_code)]
    Nil,
    Number(i64),
    Pair(u32, Handle, Handle),
}

struct Row {
    cell: Cell,
    earlier: u32,
}

struct Full;

struct Store {
    rows: Vec<Row>,
    heads: Vec<u32>,
    outcomes: Vec<u32>,
    quota: u32,
}

fn mix(tag: u64, one: u64, other: u64) -> u64 {
    let first = tag.wrapping_mul(11_400_714_819_323_198_485).wrapping_add(one);
    let second = (first ^ (first >> 29))
        .wrapping_mul(13_787_848_793_156_543_929)
        .wrapping_add(other);
    second ^ (second >> 32)
}

fn home(cell: Cell, buckets: usize) -> usize {
    let mixed = match cell {
        Cell::Nil => mix(0, 0, 0),
        Cell::Number(value) => mix(0, value as u64, 0),
        Cell::Pair(tag, left, right) => mix(u64::from(tag), u64::from(left.0), u64::from(right.0)),
    };
    (mixed % buckets as u64) as usize
}

impl Store {
    fn new(quota: u32) -> Store {
        Store {
            rows: Vec::with_capacity(quota as usize),
            heads: vec![0; 2 * quota as usize],
            outcomes: vec![0; quota as usize],
            quota,
        }
    }

    #[inline(always)]
    fn put(&mut self, cell: Cell) -> Result<Handle, Full> {
        let bucket = home(cell, self.heads.len());
        let mut place = self.heads[bucket];
        while place > 0 {
            let row = &self.rows[place as usize - 1];
            if row.cell == cell {
                return Ok(Handle(place));
            }
            place = row.earlier;
        }
        if self.rows.len() as u32 == self.quota {
            return Err(Full);
        }
        let place = self.rows.len() as u32 + 1;
        let earlier = self.heads[bucket];
        self.heads[bucket] = place;
        self.rows.push(Row { cell, earlier });
        Ok(Handle(place))
    }
}

fn put_numbers(store: &mut Store, items: u32) -> Result<Handle, Full> {
    let mut list = Handle(0);
    for number in 0..items {
        let first = store.put(Cell::Number(i64::from(number)))?;
        list = store.put(Cell::Pair(4, first, list))?;
    }
    Ok(list)
}

fn main() -> ExitCode {
    let words: Vec<String> = std::env::args().collect();
    let [_program, items, rounds] = words.as_slice() else {
        return ExitCode::from(2);
    };
    let (Ok(items), Ok(rounds)) = (items.parse::<u32>(), rounds.parse::<u32>()) else {
        return ExitCode::from(2);
    };
    let mut store = Store::new(2 * items);
    for _round in 0..rounds {
        if put_numbers(&mut store, items).is_err() {
            return ExitCode::from(6);
        }
    }
    assert!(store.outcomes.len() >= store.rows.len());
    println!("{} cells", store.rows.len());
    ExitCode::from(0)
}
