//! Speed of the library beside the plain Rust version: best of several runs, taken in turn.

use crate::library::{Answer, Cutting, Library, Plain, Proved, RangeWords, Storing, NO_TOLERANCE};
use crate::lines::{Shape, SHAPES};
use std::hint::black_box;
use std::time::{Duration, Instant};

/// How often both are run, and how long one run lasts at least.
const RUNS: usize = 25;
const LEAST: Duration = Duration::from_micros(400);

/// A tolerance that a split refuses: a cut with it ends after its load.
const LOAD_ALONE: u32 = 257;

/// The range of every axis: 24 bits over all that an end may be, so that each shape fits.
const WHOLE: RangeWords = RangeWords { bits: 24, lower: 0xC780_0000, upper: 0x4780_0000 };

const PREDICTORS: [&str; 9] = ["Lag1", "Lag2", "Stride1", "Stride2", "StripIndex", "Ramp", "Xor1", "Xor2", "Null"];

/// The best time of one call by each, in microseconds.
#[derive(Clone, Copy)]
struct Times {
    plain: f64,
    proved: f64,
}

impl Times {
    fn ratio(self) -> f64 {
        self.proved / self.plain
    }
}

fn lasting(times: usize, call: &mut impl FnMut() -> Answer) -> Duration {
    let start = Instant::now();
    for _ in 0..times {
        black_box(call());
    }
    start.elapsed()
}

/// Times two calls in turn.
fn race(mut plain: impl FnMut() -> Answer, mut proved: impl FnMut() -> Answer) -> Times {
    assert_eq!(plain(), proved(), "the two answer alike");
    let mut times = 1;
    while lasting(times, &mut plain) < LEAST {
        times *= 2;
    }
    let (mut a, mut b) = (Duration::MAX, Duration::MAX);
    for _ in 0..RUNS {
        a = a.min(lasting(times, &mut plain));
        b = b.min(lasting(times, &mut proved));
    }
    let each = |d: Duration| d.as_secs_f64() * 1e6 / times as f64;
    Times { plain: each(a), proved: each(b) }
}

fn split_times<const A: usize>(shape: Shape, count: usize) -> Times
where
    Proved: Library<A>,
{
    let line = shape.line::<A>(count);
    let (mut a, mut b) = (vec![0; count], vec![0; count]);
    race(|| Plain::split(black_box(&line), count, 8, &mut a), || Proved::split(black_box(&line), count, 8, &mut b))
}

/// A line's own file, its steps taken as sixteen units each.
fn file_of<const A: usize>(line: &[[i32; A]], predictor: u8, packing: u8) -> Vec<u8> {
    let design: Vec<[i32; A]> = line.iter().map(|p| p.map(|c| 16 * c)).collect();
    let mut file = vec![0; 9 + A * (20 + 4 * line.len())];
    let mut work = vec![0; line.len()];
    let ranges = &[WHOLE; A];
    let answer = Plain::store(Storing { design: &design, predictor, packing, ranges, work: &mut work, file: &mut file });
    assert_eq!(answer.refusal, 0, "the line fits its ranges");
    file.truncate(answer.length);
    file
}

fn cut_times<const A: usize>(line: &[[i32; A]], predictor: u8, packing: u8, tolerance: u32) -> Times
where
    Proved: Library<A>,
{
    let file = file_of(line, predictor, packing);
    let count = line.len();
    let lists = || (vec![[0; A]; count], vec![0; count], vec![0; count * (1 + 4 * A) + 3]);
    fn call<L: Library<A>, const A: usize>(
        file: &[u8],
        (predictor, packing, tolerance): (u8, u8, u32),
        (points, marks, program): &mut (Vec<[i32; A]>, Vec<u8>, Vec<u8>),
    ) -> Answer {
        L::cut(Cutting { file: black_box(file), predictor, packing, tolerance, points, marks, program })
    }
    let (mut a, mut b) = (lists(), lists());
    let asked = (predictor, packing, tolerance);
    race(|| call::<Plain, A>(&file, asked, &mut a), || call::<Proved, A>(&file, asked, &mut b))
}

fn store_times<const A: usize>(line: &[[i32; A]], predictor: u8, packing: u8) -> Times
where
    Proved: Library<A>,
{
    let design: Vec<[i32; A]> = line.iter().map(|p| p.map(|c| 16 * c)).collect();
    let lists = || (vec![0; line.len()], vec![0; 9 + A * (20 + 4 * line.len())]);
    fn call<L: Library<A>, const A: usize>(
        design: &[[i32; A]],
        (predictor, packing): (u8, u8),
        (work, file): &mut (Vec<i32>, Vec<u8>),
    ) -> Answer {
        L::store(Storing { design: black_box(design), predictor, packing, ranges: &[WHOLE; A], work, file })
    }
    let (mut a, mut b) = (lists(), lists());
    let asked = (predictor, packing);
    race(|| call::<Plain, A>(&design, asked, &mut a), || call::<Proved, A>(&design, asked, &mut b))
}

fn row(what: &str, kind: &str, t: Times) {
    println!("| {what:<38} | {kind:<5} | {:>10.1} | {:>10.1} | {:>5.2} |", t.plain, t.proved, t.ratio());
}

fn rows<const A: usize>(kind: &str, count: usize)
where
    Proved: Library<A>,
{
    for shape in SHAPES {
        row(&format!("split, {}", shape.name()), kind, split_times::<A>(shape, count));
    }
    let line = Shape::Smooth.line::<A>(count);
    for packing in 0..2 {
        row(&format!("load, packing {packing}, Lag1"), kind, cut_times(&line, 0, packing, LOAD_ALONE));
    }
    for packing in 0..2 {
        row(&format!("file to program, packing {packing}, smooth"), kind, cut_times(&line, 0, packing, NO_TOLERANCE));
    }
    let noise = Shape::Noise.line::<A>(count);
    row("file to program, packing 1, noise", kind, cut_times(&noise, 0, 1, NO_TOLERANCE));
    for packing in 0..2 {
        row(&format!("store, packing {packing}, Lag1"), kind, store_times(&line, 0, packing));
    }
}

/// Every pairing, flat: load, whole way and store, as ratios.
fn pairings(count: usize) {
    println!("\nEvery pairing, flat, {count} vertices of the smooth curve, ratios (load, file to program, store):\n");
    println!("| predictor  | packing 0          | packing 1          |");
    println!("|---|---|---|");
    let line = Shape::Smooth.line::<2>(count);
    for (number, name) in (0u8..).zip(PREDICTORS) {
        let cell = |packing| {
            let load = cut_times(&line, number, packing, LOAD_ALONE).ratio();
            let whole = cut_times(&line, number, packing, NO_TOLERANCE).ratio();
            let store = store_times(&line, number, packing).ratio();
            format!("{load:.2}, {whole:.2}, {store:.2}")
        };
        println!("| {name:<10} | {:<18} | {:<18} |", cell(0), cell(1));
    }
}

/// How the library's time grows with the vertex count, flat, in microseconds.
fn growth() {
    println!("\nGrowth, flat, library, in microseconds (ratio to plain Rust in brackets):\n");
    println!("| vertices | split, smooth | split, noise | split, zigzag | load, packing 0 | load, packing 1 | file to program |");
    println!("|---|---|---|---|---|---|---|");
    for count in [256, 512, 1024, 2048, 4096] {
        let cell = |t: Times| format!("{:.1} ({:.2})", t.proved, t.ratio());
        let splits: Vec<String> = SHAPES.iter().map(|s| cell(split_times::<2>(*s, count))).collect();
        let line = Shape::Smooth.line::<2>(count);
        let loads: Vec<String> = (0..2).map(|q| cell(cut_times(&line, 0, q, LOAD_ALONE))).collect();
        let whole = cell(cut_times(&line, 0, 1, NO_TOLERANCE));
        println!("| {count} | {} | {} | {whole} |", splits.join(" | "), loads.join(" | "));
    }
}

pub fn run() {
    let count = 4096;
    println!("\nSpeed, {count} vertices, tolerance 8, microseconds for one call, best of {RUNS}:\n");
    println!("| {:<38} | {:<5} | {:>10} | {:>10} | {:>5} |", "call", "kind", "plain Rust", "library", "ratio");
    println!("|---|---|---|---|---|");
    rows::<2>("flat", count);
    rows::<3>("mould", count);
    pairings(count);
    growth();
}
