// Taking rows in and listing an hour: the proved library beside the same work in plain Rust.
mod rows;

use rows::{ROW, read, rows, take_in};
use std::hint::black_box;
use std::time::Instant;

#[link(name = "billing", kind = "static")]
unsafe extern "C" {
    fn nookplover_list(
        day: u32,
        hour: u32,
        rows: *const u8,
        rows_len: usize,
        memory: *mut u8,
        memory_len: usize,
        out: *mut u8,
        out_len: usize,
    ) -> i64;
}

fn library(day: u32, hour: u32, rows: &[u8], memory: &mut [u8], out: &mut [u8]) -> i64 {
    // SAFETY: each pointer comes with the length of the slice that it is taken from, and no two overlap.
    unsafe {
        nookplover_list(
            day,
            hour,
            rows.as_ptr(),
            rows.len(),
            memory.as_mut_ptr(),
            memory.len(),
            out.as_mut_ptr(),
            out.len(),
        )
    }
}

fn list(day: u32, hour: u32, rows: &[u8], out: &mut [u8]) -> Result<usize, i64> {
    use std::io::Write;
    if !(1..=60_000).contains(&day) || hour > 25 {
        return Err(-10);
    }
    let mut sums = [0i64; 32];
    let mut zone = 0i64;
    for row in rows.chunks_exact(ROW) {
        let row = read(row)?;
        if row.energy == (hour != 0) && u32::from(row.day) == day && u32::from(row.hour) == hour {
            sums[usize::from(row.supplier - 1)] += row.amount;
            zone += row.amount;
        }
    }
    let mut text = Vec::with_capacity(720);
    for (i, sum) in sums.iter().enumerate().filter(|(_, sum)| **sum != 0) {
        writeln!(text, "{} {sum}", i + 1).unwrap();
    }
    writeln!(text, "zone {zone}").unwrap();
    if text.len() > out.len() {
        return Err(-33);
    }
    out[..text.len()].copy_from_slice(&text);
    Ok(text.len())
}

fn plain(day: u32, hour: u32, rows: &[u8], memory: &mut [u8], out: &mut [u8]) -> i64 {
    let work = take_in(rows, memory).and_then(|taken| list(day, hour, &memory[..taken], out));
    match work {
        Ok(length) => length as i64,
        Err(refusal) => refusal,
    }
}

type Work = fn(u32, u32, &[u8], &mut [u8], &mut [u8]) -> i64;

// The fastest of seven trials, each of many calls, in ns a row.
fn time(work: Work, rows: &[u8], day: u32) -> f64 {
    let count = (rows.len() / ROW).max(1);
    let calls = (2_000_000 / count).max(1);
    let mut memory = vec![0u8; 983_040];
    let mut out = vec![0u8; 1024];
    let mut best = f64::INFINITY;
    for _ in 0..7 {
        let start = Instant::now();
        for _ in 0..calls {
            black_box(work(day, 7, black_box(rows), &mut memory, &mut out));
        }
        best = best.min(start.elapsed().as_nanos() as f64 / (calls * count) as f64);
    }
    best
}

fn main() {
    println!("{:>7}  {:<24} {:>9} {:>9} {:>6}", "rows", "work, ns a row", "library", "plain", "ratio");
    for count in [1_000, 10_000, 60_000] {
        let rows = rows(count, 3_000_000_000);
        let mut memory = vec![0u8; 983_040];
        let (mut ours, mut theirs) = (vec![0u8; 1024], vec![0u8; 1024]);
        let length = library(9003, 7, &rows, &mut memory, &mut ours);
        assert_eq!(length, plain(9003, 7, &rows, &mut memory, &mut theirs), "the answers differ");
        assert!(length > 7 && ours == theirs, "the listings differ");
        // Day 0 is refused once the rows are taken in, so that it times the taking in alone.
        assert_eq!(library(0, 7, &rows, &mut memory, &mut ours), -10);
        assert_eq!(plain(0, 7, &rows, &mut memory, &mut theirs), -10);
        let (taken, taken_plain) = (time(library, &rows, 0), time(plain, &rows, 0));
        let (all, all_plain) = (time(library, &rows, 9003), time(plain, &rows, 9003));
        let (listed, listed_plain) = (all - taken, all_plain - taken_plain);
        for (name, a, b) in [
            ("take-in", taken, taken_plain),
            ("listing", listed, listed_plain),
            ("take-in and listing", all, all_plain),
        ] {
            println!("{count:>7}  {name:<24} {a:>9.2} {b:>9.2} {:>6.2}", a / b);
        }
    }
}
