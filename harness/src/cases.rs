//! Generated cases, long and short, sound and damaged: the library against the plain Rust version.

use crate::damage::{damage, rebuilt};
use crate::library::{Answer, Cutting, Library, Plain, Proved, RangeWords, Storing, NO_TOLERANCE};
use crate::random::Random;
use std::collections::BTreeMap;

/// From so many vertices on, a case counts as long.
const LONG: usize = 1000;

const TOLERANCES: [u32; 8] = [NO_TOLERANCE, 0, 1, 8, 255, 256, 257, 40];

/// Words of ends that a range must look at closely: NaN, infinite, negative zero, too small, no whole unit, too far.
pub const ODD_ENDS: [u32; 16] = [
    0x7FC0_0000,
    0x7F80_0001,
    0x7F80_0000,
    0xFF80_0000,
    0x8000_0000,
    0x0000_0000,
    0x0000_0001,
    0x8000_0001,
    0x3B00_0000,
    0x4121_999A,
    0x4780_0000,
    0xC780_0000,
    0x4780_0001,
    0xC780_0001,
    0x3B80_0000,
    0x4800_0000,
];

/// A panel as design gives it.
#[derive(Clone)]
struct Design<const A: usize> {
    points: Vec<[i32; A]>,
    ranges: [RangeWords; A],
    predictor: u8,
    packing: u8,
}

/// How many cases of each sort, and what they were answered: 0 is accepted.
#[derive(Default)]
pub struct Tally {
    rows: BTreeMap<(&'static str, usize), BTreeMap<u32, usize>>,
    /// Accepted cuts of each kind, predictor and packing.
    pairings: BTreeMap<(usize, u8, u8), usize>,
    pub calls: usize,
    pub long: usize,
    pub differences: usize,
}

impl Tally {
    fn note(&mut self, call: &'static str, axes: usize, number: u32) {
        *self.rows.entry((call, axes)).or_default().entry(number).or_default() += 1;
        self.calls += 1;
    }

    /// One line for each call and kind: how many were accepted, and how often each refusal was told.
    fn print(&self) {
        for ((call, axes), answers) in &self.rows {
            let kind = if *axes == 2 { "flat" } else { "mould" };
            let told: Vec<String> = answers.iter().filter(|a| *a.0 > 0).map(|(n, c)| format!("{n}:{c}")).collect();
            let accepted = answers.get(&0).copied().unwrap_or(0);
            println!("  {call:<6} {kind:<6} accepted {accepted:>7}   refused {}", told.join(" "));
        }
        let least = self.pairings.values().min().copied().unwrap_or(0);
        println!(
            "accepted cuts at {} of 36 pairings of kind, predictor and packing, at each at least {least}",
            self.pairings.len()
        );
    }
}

/// A vertex count: mostly short, now and then long.
fn vertex_count(r: &mut Random) -> usize {
    match r.below(200) {
        0 => r.between(1000, 4096) as usize,
        1 => 4096,
        2..=12 => r.between(41, 400) as usize,
        _ => r.between(2, 40) as usize,
    }
}

/// A whole number of units as a floating word. It is exact: units are at most 2^24.
fn word(units: i64) -> u32 {
    (units as f32 / 256.0).to_bits()
}

/// A sound range, and its ends in units.
fn range(r: &mut Random) -> (RangeWords, i64, i64) {
    let far = 1i64 << r.between(1, 24);
    let lower = r.between(-far, far - 1);
    let upper = r.between(lower + 1, far);
    let bits = r.between(1, 24) as u8;
    (RangeWords { bits, lower: word(lower), upper: word(upper) }, lower, upper)
}

/// Coordinates of one axis from `low` to `high`: anywhere, a walk, on a few values, or the two ends in turn.
fn coordinates(r: &mut Random, count: usize, low: i64, high: i64) -> Vec<i32> {
    let shape = r.below(5);
    let step = 1 + (high - low) / 50;
    let mut at = r.between(low, high);
    (0..count)
        .map(|i| {
            at = match shape {
                0 => r.between(low, high),
                1 => (at + r.between(-step, step)).clamp(low, high),
                2 => r.pick(&[low, high, (low + high) / 2]),
                3 => low + (high - low) * i as i64 / count as i64,
                _ => {
                    if i % 2 == 0 {
                        low + (high - low) * i as i64 / (2 * count as i64)
                    } else {
                        high
                    }
                }
            };
            at as i32
        })
        .collect()
}

fn design<const A: usize>(r: &mut Random) -> Design<A> {
    let count = vertex_count(r);
    let mut points = vec![[0; A]; count];
    let ranges = std::array::from_fn(|a| {
        let (words, low, high) = range(r);
        for (point, c) in points.iter_mut().zip(coordinates(r, count, low, high)) {
            point[a] = c;
        }
        words
    });
    Design { points, ranges, predictor: r.below(9) as u8, packing: r.below(2) as u8 }
}

/// A list of bytes with contents that show what was written.
fn bytes(r: &mut Random, length: usize) -> Vec<u8> {
    let first = r.next();
    (0..length).map(|i| (first.wrapping_mul(2 * i as u64 + 1) >> 40) as u8).collect()
}

/// The lengths of the three lists that are lent to a cut.
#[derive(Clone, Copy)]
struct Room {
    points: usize,
    marks: usize,
    program: usize,
}

/// Compares call by call.
pub struct Comparison {
    random: Random,
    case: usize,
    pub tally: Tally,
}

impl Comparison {
    fn judge<T: PartialEq>(&mut self, call: &'static str, axes: usize, plain: (Answer, T), proved: (Answer, T)) -> Answer {
        self.tally.note(call, axes, plain.0.refusal);
        if plain != proved {
            self.tally.differences += 1;
            println!("  DIFFERENCE in case {}: {call}, {axes} axes: plain {:?}, library {:?}", self.case, plain.0, proved.0);
        }
        plain.0
    }

    /// Cuts a file with both and compares the answers and all three lists.
    fn cut<const A: usize>(&mut self, file: &[u8], pairing: (u8, u8), tolerance: u32, room: Room) -> Answer
    where
        Proved: Library<A>,
    {
        let r = &mut self.random;
        let points = vec![[r.next() as i32; A]; room.points];
        let lists = (points, bytes(r, room.marks), bytes(r, room.program));
        fn run<L: Library<A>, const A: usize>(
            file: &[u8],
            (predictor, packing): (u8, u8),
            tolerance: u32,
            mut lists: (Vec<[i32; A]>, Vec<u8>, Vec<u8>),
        ) -> (Answer, (Vec<[i32; A]>, Vec<u8>, Vec<u8>)) {
            let (points, marks, program) = (&mut lists.0[..], &mut lists.1[..], &mut lists.2[..]);
            (L::cut(Cutting { file, predictor, packing, tolerance, points, marks, program }), lists)
        }
        self.tally.long += usize::from(room.points >= LONG);
        let plain = run::<Plain, A>(file, pairing, tolerance, lists.clone());
        let proved = run::<Proved, A>(file, pairing, tolerance, lists);
        if plain.0.refusal == 0 {
            *self.tally.pairings.entry((A, pairing.0, pairing.1)).or_default() += 1;
        }
        self.judge("cut", A, plain, proved)
    }

    /// Stores with both and compares the answers and the file lists. Answers the file, if it was accepted.
    fn store<const A: usize>(&mut self, d: &Design<A>, work_length: usize, file_length: usize) -> Option<Vec<u8>>
    where
        Proved: Library<A>,
    {
        self.tally.long += usize::from(d.points.len() >= LONG);
        let list = bytes(&mut self.random, file_length);
        fn run<L: Library<A>, const A: usize>(d: &Design<A>, work_length: usize, mut list: Vec<u8>) -> (Answer, Vec<u8>) {
            let (work, file) = (&mut vec![0; work_length][..], &mut list[..]);
            let Design { points, ranges, predictor, packing } = d;
            (L::store(Storing { design: points, predictor: *predictor, packing: *packing, ranges, work, file }), list)
        }
        let plain = run::<Plain, A>(d, work_length, list.clone());
        let proved = run::<Proved, A>(d, work_length, list);
        let mut file = plain.1.clone();
        let answer = self.judge("store", A, plain, proved);
        file.truncate(answer.length);
        (answer.refusal == 0).then_some(file)
    }

    /// A length near what is wanted, mostly enough.
    fn near(&mut self, wanted: usize) -> usize {
        match self.random.below(12) {
            0 => wanted.saturating_sub(1),
            1 => self.random.below(wanted as u64 + 1) as usize,
            2..=6 => wanted,
            _ => wanted + self.random.below(9) as usize,
        }
    }

    /// A sound panel: stored, cut, then cut again with lists of all lengths.
    fn sound<const A: usize>(&mut self)
    where
        Proved: Library<A>,
    {
        let d = design::<A>(&mut self.random);
        let count = d.points.len();
        let Some(file) = self.store(&d, count, 9 + A * (20 + 4 * count)) else {
            return;
        };
        let pairing = (d.predictor, d.packing);
        let tolerance = self.random.pick(&TOLERANCES);
        let enough = count * (1 + 4 * A) + 3;
        let cut = self.cut::<A>(&file, pairing, tolerance, Room { points: count + 1, marks: count + 2, program: enough });
        if cut.refusal == 0 && self.random.once_in(2) {
            let room = Room { points: self.near(count), marks: self.near(count), program: self.near(cut.length) };
            self.cut::<A>(&file, pairing, tolerance, room);
        }
        let (work_length, file_length) = (self.near(count), self.near(file.len()));
        self.store(&d, work_length, file_length);
    }

    /// A store that mostly has a flaw: an unsound range, a coordinate outside, a count or a number that does not exist.
    fn flawed_store<const A: usize>(&mut self)
    where
        Proved: Library<A>,
    {
        let mut d = design::<A>(&mut self.random);
        for _ in 0..self.random.between(1, 2) {
            let r = &mut self.random;
            let (axis, vertex) = (r.below(A as u64) as usize, r.below(d.points.len().max(1) as u64) as usize);
            let anywhere = r.next() as i32 >> 8;
            match r.below(7) {
                0 => d.ranges[axis].bits = r.pick(&[0, 25, 255, 1, 24]),
                1 => d.ranges[axis].lower = r.pick(&ODD_ENDS),
                2 => d.ranges[axis].upper = r.pick(&ODD_ENDS),
                3 => d.ranges[axis].upper = d.ranges[axis].lower,
                4 if vertex < d.points.len() => {
                    d.points[vertex][axis] = r.pick(&[i32::MIN, i32::MAX, 1 << 24, -1 - (1 << 24), anywhere])
                }
                5 => d.points.resize(r.pick(&[0, 1, 2, 4096, 4097, 5000]), d.points.first().copied().unwrap_or([0; A])),
                _ => (d.predictor, d.packing) = (r.pick(&[0, 8, 9, 255]), r.pick(&[0, 1, 2, 255])),
            }
        }
        let count = d.points.len();
        let (work_length, file_length) = (self.near(count), self.near(9 + A * (20 + 4 * count)));
        self.store(&d, work_length, file_length);
    }

    /// A stored file, damaged once or more, or rebuilt in another sound or nearly sound form; then cut.
    fn damaged<const A: usize>(&mut self, rebuild: bool)
    where
        Proved: Library<A>,
    {
        let d = design::<A>(&mut self.random);
        let count = d.points.len();
        let mut list = vec![0; 9 + A * (20 + 4 * count)];
        let answer = Plain::store(Storing {
            design: &d.points,
            predictor: d.predictor,
            packing: d.packing,
            ranges: &d.ranges,
            work: &mut vec![0; count],
            file: &mut list,
        });
        list.truncate(answer.length);
        if rebuild {
            list = rebuilt::<A>(&mut self.random, &list);
        } else {
            damage::<A>(&mut self.random, &mut list);
        }
        let r = &mut self.random;
        let mut pairing = (d.predictor, d.packing);
        if r.once_in(20) {
            pairing = (r.pick(&[0, 8, 9, 255]), r.pick(&[0, 1, 2, 255]));
        }
        let tolerance = r.pick(&TOLERANCES);
        let room =
            Room { points: self.near(count + 1), marks: self.near(count + 1), program: self.near(count * (1 + 4 * A) + 3) };
        self.cut::<A>(&list, pairing, tolerance, room);
    }

    /// Bytes that were never a file, with letters where a reader looks for them now and then.
    fn wild<const A: usize>(&mut self)
    where
        Proved: Library<A>,
    {
        let length = self.random.below(70) as usize;
        let mut file = bytes(&mut self.random, length);
        let r = &mut self.random;
        let pairing = (r.below(9) as u8, r.below(2) as u8);
        let front = [b'N', A as u8, pairing.0, pairing.1, 2, 0, 0, 0, b'Q', 4, 0, 0, 0, 0, 0, 0, 0x80, 0x41, b'V', 8, 0, 0, 0];
        let sound = r.below(front.len() as u64 + 1) as usize;
        for (byte, letter) in file.iter_mut().zip(&front[..sound]) {
            *byte = *letter;
        }
        self.cut::<A>(&file, pairing, 8, Room { points: 3, marks: 3, program: 50 });
    }

    /// A line of points that no file gave, split alone.
    fn line<const A: usize>(&mut self)
    where
        Proved: Library<A>,
    {
        let mut count = vertex_count(&mut self.random);
        let far = 1i64 << self.random.between(1, 20);
        let mut points = vec![[0; A]; count];
        for a in 0..A {
            let high = if self.random.once_in(5) { 0 } else { far };
            for (point, c) in points.iter_mut().zip(coordinates(&mut self.random, count, -far, high)) {
                point[a] = c;
            }
        }
        let r = &mut self.random;
        if r.once_in(4) {
            points[count - 1] = points[0];
        }
        if r.once_in(10) {
            let (vertex, a) = (r.below(count as u64) as usize, r.below(A as u64) as usize);
            points[vertex][a] = r.pick(&[1 << 20, -(1 << 20), (1 << 20) + 1, -(1 << 20) - 1, i32::MIN, i32::MAX]);
        }
        if r.once_in(10) {
            count = r.pick(&[0, 1, 2, 4096, 4097, usize::MAX, count - 1]);
        }
        let tolerance = r.pick(&TOLERANCES);
        let mut lists = (points, bytes(r, count.min(5000)));
        lists.0.truncate(self.near(lists.0.len()));
        lists.1.resize(self.near(lists.1.len()), 7);
        let (points, marks) = lists;
        let mut other = marks.clone();
        let mut same = marks;
        self.tally.long += usize::from(points.len() >= LONG);
        let plain = Plain::split(&points, count, tolerance, &mut other);
        let proved = Proved::split(&points, count, tolerance, &mut same);
        self.judge("split", A, (plain, other), (proved, same));
    }

    fn one<const A: usize>(&mut self) -> &'static str
    where
        Proved: Library<A>,
    {
        match self.random.below(20) {
            0..=4 => (self.sound::<A>(), "sound panels").1,
            5..=6 => (self.flawed_store::<A>(), "stores with a flaw").1,
            7..=11 => (self.damaged::<A>(false), "damaged files").1,
            12..=14 => (self.damaged::<A>(true), "rebuilt files").1,
            15 => (self.wild::<A>(), "wild bytes").1,
            _ => (self.line::<A>(), "lines split alone").1,
        }
    }
}

/// Runs the cases, prints their counts, and answers whether library and plain version never differed.
pub fn run(seed: u64, cases: usize) -> bool {
    let mut c = Comparison { random: Random::new(seed), case: 0, tally: Tally::default() };
    let mut sorts: BTreeMap<&str, usize> = BTreeMap::new();
    for case in 0..cases {
        c.case = case;
        let sort = if c.random.once_in(2) { c.one::<2>() } else { c.one::<3>() };
        *sorts.entry(sort).or_default() += 1;
    }
    println!(
        "cases: seed {seed:#x}, {cases} cases, {} calls compared, {} of them with {LONG} points or more",
        c.tally.calls, c.tally.long
    );
    for (sort, count) in sorts {
        println!("  {sort:<20} {count:>7}");
    }
    println!("calls, and how often each refusal was told (number:count):");
    c.tally.print();
    println!("differences: {}", c.tally.differences);
    c.tally.differences == 0
}
