//! The shared table as a Rust programmer would write it by hand: the same words, the same places and
//! the same orderings as in `crates/lrc_table` and `crates/lrc_memo`. `bench/table` compares the two.

use std::ops::Range;
use std::sync::atomic::{AtomicU64, Ordering::SeqCst};
use std::{env, thread};

struct Table {
    words: Vec<AtomicU64>,
    buckets: u32,
    rows: u32,
    memo: u32,
}

struct Pass {
    first: u32,
    quota: u32,
    count: u32,
}

struct Full;

#[derive(Clone, Copy, PartialEq)]
struct Content {
    tag: u64,
    left: u64,
    right: u64,
}

#[inline]
fn home(content: Content, buckets: u64) -> u64 {
    let first = content.tag.wrapping_mul(11_400_714_819_323_198_485).wrapping_add(content.left);
    let second = (first ^ (first >> 29)).wrapping_mul(13_787_848_793_156_543_929).wrapping_add(content.right);
    (second ^ (second >> 32)) & (buckets - 1)
}

impl Table {
    /// The words are zeroed by the system; each page is touched, as the other table's are when it is made.
    fn new(rows: u32, memo: u32) -> (Table, Pass) {
        let buckets = (2 * rows).next_power_of_two();
        let size = buckets as usize + 4 * rows as usize + memo as usize;
        let words: Vec<AtomicU64> = vec![0u64; size].into_iter().map(AtomicU64::new).collect();
        for page in words.chunks(512) {
            page[0].store(0, std::sync::atomic::Ordering::Relaxed);
        }
        (Table { words, buckets, rows, memo }, Pass { first: 0, quota: rows, count: 0 })
    }

    #[inline]
    fn part(&self, row: u32, part: usize) -> &AtomicU64 {
        &self.words[self.buckets as usize + 4 * row as usize + part]
    }

    #[inline]
    fn memo_word(&self, place: u32) -> &AtomicU64 {
        &self.words[self.buckets as usize + 4 * self.rows as usize + place as usize]
    }
}

impl Pass {
    fn depth_of(&self, table: &Table, handle: u64) -> u64 {
        if handle == 0 { 0 } else { table.part((handle - 1) as u32, 3).load(SeqCst) }
    }

    fn depth(&self, table: &Table, content: Content) -> u64 {
        if content.tag == 0 {
            return 1;
        }
        1 + self.depth_of(table, content.left).max(self.depth_of(table, content.right))
    }

    fn content_of(&self, table: &Table, row: u32) -> Content {
        Content {
            tag: table.part(row, 0).load(SeqCst),
            left: table.part(row, 1).load(SeqCst),
            right: table.part(row, 2).load(SeqCst),
        }
    }

    fn publish(&mut self, table: &Table, content: Content, place: u32) -> u64 {
        let row = self.first + self.count;
        let depth = self.depth(table, content);
        table.part(row, 0).store(content.tag, SeqCst);
        table.part(row, 1).store(content.left, SeqCst);
        table.part(row, 2).store(content.right, SeqCst);
        table.part(row, 3).store(depth, SeqCst);
        let exchanged = table.words[place as usize].compare_exchange(0, u64::from(row) + 1, SeqCst, SeqCst);
        match exchanged {
            Ok(_) => {
                self.count += 1;
                0
            }
            Err(found) => found,
        }
    }

    fn put(&mut self, table: &Table, content: Content) -> Result<u32, Full> {
        let mut place = home(content, u64::from(table.buckets)) as u32;
        loop {
            let mut found = table.words[place as usize].load(SeqCst);
            if found == 0 {
                if self.count == self.quota {
                    return Err(Full);
                }
                found = self.publish(table, content, place);
                if found == 0 {
                    return Ok(self.first + self.count);
                }
            }
            if self.content_of(table, found as u32 - 1) == content {
                return Ok(found as u32);
            }
            place = (place + 1) & (table.buckets - 1);
        }
    }

    fn int(&mut self, table: &Table, value: i64) -> Result<u32, Full> {
        self.put(table, Content { tag: 0, left: value as u64, right: 0 })
    }

    fn split(&mut self, quota: u32) -> Pass {
        self.quota -= quota;
        Pass { first: self.first + self.quota, quota, count: 0 }
    }
}

enum Recall {
    Found(u32),
    Missed,
}

fn recall(table: &Table, missed: &mut u64, call: u32) -> Recall {
    let word = table.memo_word(call % table.memo).load(SeqCst);
    if word != 0 && word >> 32 == u64::from(call) {
        Recall::Found(word as u32)
    } else {
        *missed = missed.saturating_add(1);
        Recall::Missed
    }
}

fn remember(table: &Table, call: u32, outcome: u32) {
    table.memo_word(call % table.memo).store(u64::from(call) << 32 | u64::from(outcome), SeqCst);
}

fn spread(table: &Table, mut pass: Pass, numbers: Range<u32>, rounds: u32, levels: u32) -> Pass {
    if levels == 0 {
        for _ in 0..rounds {
            for number in numbers.clone() {
                let _ = pass.int(table, i64::from(number));
            }
        }
        return pass;
    }
    let middle = numbers.start.midpoint(numbers.end);
    let other = pass.split((numbers.end - middle).min(pass.quota - pass.count));
    let (lower, upper) = (numbers.start..middle, middle..numbers.end);
    thread::scope(|scope| {
        let other = scope.spawn(move || spread(table, other, upper, rounds, levels - 1));
        let pass = spread(table, pass, lower, rounds, levels - 1);
        other.join().unwrap();
        pass
    })
}

fn main() {
    let words: Vec<String> = env::args().collect();
    let [_, what, count, rounds, levels] = words.as_slice() else { return };
    let count: u32 = count.parse().unwrap();
    let (rounds, levels): (u32, u32) = (rounds.parse().unwrap(), levels.parse().unwrap());
    let (table, mut pass) = Table::new(count, count);
    if what == "numbers" {
        let pass = spread(&table, pass, 0..count, rounds, levels);
        println!("{} made", pass.count);
        return;
    }
    let handles: Vec<u32> = (0..count).filter_map(|number| pass.int(&table, i64::from(number)).ok()).collect();
    if what == "remembered" {
        handles.iter().for_each(|handle| remember(&table, *handle, *handle));
    }
    let (mut missed, mut sum) = (0, 0);
    for _ in 0..rounds {
        for handle in &handles {
            if let Recall::Found(found) = recall(&table, &mut missed, *handle) {
                sum ^= found;
            }
        }
    }
    std::hint::black_box(sum);
    println!("{} made, {} missed", pass.count, missed);
}
