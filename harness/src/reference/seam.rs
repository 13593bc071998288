//! The split of a seam.

use super::{FEWEST, MOST};

/// The greatest coordinate in magnitude that a split takes, in steps.
const FARTHEST: u32 = 1 << 20;

/// The greatest tolerance, and the one that is taken where none is given, in steps.
const LOOSEST: u32 = 256;
pub const USUAL: u32 = 8;

/// At most so many chords wait at one time.
const WAITING: usize = 11;

/// A chord's own figures, computed once.
struct Chord<const A: usize> {
    start: [i32; A],
    d: [i64; A],
    m: i64,
    major: usize,
    /// Where the chord starts on its major axis, and whether it goes down there.
    start_major: i64,
    backward: bool,
}

impl<const A: usize> Chord<A> {
    #[inline]
    fn new(start: [i32; A], end: [i32; A]) -> Chord<A> {
        let d: [i64; A] = std::array::from_fn(|a| i64::from(end[a]) - i64::from(start[a]));
        let (mut m, mut major) = (0, 0);
        for a in 0..A {
            if d[a].abs() > m {
                m = d[a].abs();
                major = a;
            }
        }
        Chord { start, d, m: m.max(1), major, start_major: start[major].into(), backward: d[major] < 0 }
    }

    #[inline]
    fn weight(&self, point: &[i32; A]) -> i64 {
        let from: [i64; A] = std::array::from_fn(|a| i64::from(point[a]) - i64::from(self.start[a]));
        let along = i64::from(point[self.major]) - self.start_major;
        let k = if self.backward { -along } else { along }.clamp(0, self.m);
        let mut weight = 0;
        for a in 0..A {
            weight = weight.max((self.m * from[a] - k * self.d[a]).abs());
        }
        weight
    }
}

/// The inner vertex at which the chord from `first` to `last` is split, if it is.
fn heaviest<const A: usize>(points: &[[i32; A]], first: usize, last: usize, tolerance: u32) -> Option<usize> {
    let chord = Chord::new(points[first], points[last]);
    let mut greatest = i64::from(tolerance) * chord.m;
    let mut found = None;
    for (i, point) in points[first + 1..last].iter().enumerate() {
        let weight = chord.weight(point);
        if weight > greatest {
            greatest = weight;
            found = Some(first + 1 + i);
        }
    }
    found
}

/// Splits the first `count` points: writes their marks, and answers the kept count and W, or the refusal's number.
pub fn split<const A: usize>(points: &[[i32; A]], count: usize, tolerance: u32, marks: &mut [u8]) -> Result<(usize, usize), u32> {
    if tolerance > LOOSEST {
        return Err(3);
    }
    if !(FEWEST..=MOST).contains(&count) {
        return Err(9);
    }
    if points.len() < count || marks.len() < count {
        return Err(10);
    }
    let points = &points[..count];
    if points.iter().flatten().any(|c| c.unsigned_abs() > FARTHEST) {
        return Err(11);
    }
    marks[..count].fill(0);
    marks[0] = 1;
    marks[count - 1] = 1;
    let mut waiting = [(0, 0); WAITING];
    let (mut depth, mut most, mut kept) = (0, 0, 2);
    let (mut first, mut last) = (0, count - 1);
    loop {
        if let Some(middle) = heaviest(points, first, last, tolerance) {
            marks[middle] = 1;
            kept += 1;
            if middle - first <= last - middle {
                waiting[depth] = (middle, last);
                last = middle;
            } else {
                waiting[depth] = (first, middle);
                first = middle;
            }
            depth += 1;
            most = most.max(depth);
        } else if depth > 0 {
            depth -= 1;
            (first, last) = waiting[depth];
        } else {
            return Ok((kept, most));
        }
    }
}
