//! The twin of rows.program over a plain vector, with the same output.
use std::hint::black_box;
use std::time::Instant;

const ITEMS: u32 = 16_384;

fn main() {
    push(0);
    let mut rows = filled();
    get(&rows);
    read_all(&rows);
    set(&mut rows, 0, 100 * ITEMS);
    for every in [1, 16, 256] {
        set(&mut rows, every, 4 * ITEMS);
        push(every);
    }
}

fn step(k: u32) -> u32 {
    k.wrapping_mul(1_103_515_245).wrapping_add(12_345)
}

fn report(name: &str, every: u32, start: Instant, steps: u32) {
    println!("{name} {every} {:.2}", start.elapsed().as_nanos() as f64 / f64::from(steps));
}

fn filled() -> Vec<u32> {
    let mut rows = Vec::new();
    for x in 0..ITEMS {
        rows.push(black_box(x));
    }
    rows
}

fn push(every: u32) {
    let rounds = if every == 0 { 100 } else { 1 };
    let start = Instant::now();
    let mut kept = Vec::new();
    for _ in 0..rounds {
        let mut rows = Vec::new();
        for i in 0..ITEMS {
            rows.push(black_box(i));
            if every > 0 && i % every == 0 {
                kept = rows.clone();
            }
        }
        black_box(&rows);
    }
    report("push", every, start, rounds * ITEMS);
    println!("# {}", kept.len());
}

fn get(rows: &Vec<u32>) {
    let start = Instant::now();
    let mut sum = 0u32;
    let mut k = 1;
    for _ in 0..100 * ITEMS {
        k = step(k);
        if let Some(x) = rows.get(((k >> 8) % ITEMS) as usize) {
            sum = sum.wrapping_add(*x);
        }
    }
    report("get", 0, start, 100 * ITEMS);
    println!("# {sum}");
}

fn read_all(rows: &Vec<u32>) {
    let start = Instant::now();
    let mut sum = 0u32;
    for _ in 0..200 {
        for x in rows.iter() {
            sum = sum.wrapping_mul(31).wrapping_add(*x);
        }
    }
    report("read_all", 0, start, 200 * ITEMS);
    let start = Instant::now();
    for _ in 0..200 {
        for x in rows.iter().rev() {
            sum = sum.wrapping_mul(31).wrapping_add(*x);
        }
    }
    report("read_all_backwards", 0, start, 200 * ITEMS);
    println!("# {sum}");
}

fn set(rows: &mut Vec<u32>, every: u32, changes: u32) {
    let start = Instant::now();
    let mut kept = Vec::new();
    let mut k = 1;
    for i in 0..changes {
        k = step(k);
        let place = (k >> 8) % ITEMS;
        if (place as usize) < rows.len() {
            rows[place as usize] = black_box(k);
        }
        if every > 0 && i % every == 0 {
            kept = rows.clone();
        }
    }
    report("set", every, start, changes);
    println!("# {}", kept.len());
}
