//! The calls of `libcontroller.a`, as `controller.h` has them, and the same calls by the plain Rust version.

use crate::reference::bench::cut_panel;
use crate::reference::file::store;
use crate::reference::pack::{Fields, Words};
use crate::reference::predict::{Lag1, Lag2, Null, Ramp, Stride1, Stride2, StripIndex, Xor1, Xor2};
use crate::reference::range::Range;
use crate::reference::seam::split;
use crate::reference::Refusal;

/// The tolerance that stands for none.
pub const NO_TOLERANCE: u32 = u32::MAX;

/// What a call answers. The refusal is 0 if the call was accepted.
#[repr(C)]
#[derive(Clone, Copy, Debug, Default, PartialEq, Eq)]
pub struct Answer {
    pub refusal: u32,
    pub place: usize,
    pub count: usize,
    pub waiting: usize,
    pub length: usize,
}

/// The bits of a range and the words of its ends.
#[repr(C)]
#[derive(Clone, Copy, Debug)]
pub struct RangeWords {
    pub bits: u8,
    pub lower: u32,
    pub upper: u32,
}

pub type Flat = [i32; 2];
pub type Mould = [i32; 3];

macro_rules! exported {
    ($cut:ident, $split:ident, $store:ident, $point:ty, $($axis:ident),*) => {
        extern "C" {
            pub fn $cut(
                file: *const u8, file_length: usize, predictor: u8, packing: u8, tolerance: u32,
                points: *mut $point, points_length: usize, marks: *mut u8, marks_length: usize,
                program: *mut u8, program_length: usize,
            ) -> Answer;
            pub fn $split(
                points: *const $point, points_length: usize, count: usize, tolerance: u32,
                marks: *mut u8, marks_length: usize,
            ) -> Answer;
            pub fn $store(
                design: *const $point, design_length: usize, predictor: u8, packing: u8, $($axis: *const RangeWords,)*
                work: *mut i32, work_length: usize, file: *mut u8, file_length: usize,
            ) -> Answer;
        }
    };
}

exported!(loft_cut_flat, loft_split_flat, loft_store_flat, Flat, x, y);
exported!(loft_cut_mould, loft_split_mould, loft_store_mould, Mould, x, y, z);

/// A panel file on its way to a program: what is given, and the three lists that are lent.
pub struct Cutting<'a, const A: usize> {
    pub file: &'a [u8],
    pub predictor: u8,
    pub packing: u8,
    pub tolerance: u32,
    pub points: &'a mut [[i32; A]],
    pub marks: &'a mut [u8],
    pub program: &'a mut [u8],
}

/// Design points on their way to a panel file.
pub struct Storing<'a, const A: usize> {
    pub design: &'a [[i32; A]],
    pub predictor: u8,
    pub packing: u8,
    pub ranges: &'a [RangeWords; A],
    pub work: &'a mut [i32],
    pub file: &'a mut [u8],
}

/// The library's calls for points of `A` axes.
pub trait Library<const A: usize> {
    fn cut(c: Cutting<A>) -> Answer;
    fn split(points: &[[i32; A]], count: usize, tolerance: u32, marks: &mut [u8]) -> Answer;
    fn store(s: Storing<A>) -> Answer;
}

/// The calls of the static library.
pub struct Proved;

macro_rules! linked {
    ($axes:literal, $cut:ident, $split:ident, $store:ident, $($axis:literal),*) => {
        impl Library<$axes> for Proved {
            #[inline]
            fn cut(c: Cutting<$axes>) -> Answer {
                // SAFETY: each pointer and length is that of one slice, borrowed for the call; nothing is kept.
                unsafe {
                    $cut(
                        c.file.as_ptr(), c.file.len(), c.predictor, c.packing, c.tolerance,
                        c.points.as_mut_ptr(), c.points.len(), c.marks.as_mut_ptr(), c.marks.len(),
                        c.program.as_mut_ptr(), c.program.len(),
                    )
                }
            }

            #[inline]
            fn split(points: &[[i32; $axes]], count: usize, tolerance: u32, marks: &mut [u8]) -> Answer {
                // SAFETY: as above.
                unsafe { $split(points.as_ptr(), points.len(), count, tolerance, marks.as_mut_ptr(), marks.len()) }
            }

            #[inline]
            fn store(s: Storing<$axes>) -> Answer {
                // SAFETY: as above.
                unsafe {
                    $store(
                        s.design.as_ptr(), s.design.len(), s.predictor, s.packing, $(&s.ranges[$axis],)*
                        s.work.as_mut_ptr(), s.work.len(), s.file.as_mut_ptr(), s.file.len(),
                    )
                }
            }
        }
    };
}

linked!(2, loft_cut_flat, loft_split_flat, loft_store_flat, 0, 1);
linked!(3, loft_cut_mould, loft_split_mould, loft_store_mould, 0, 1, 2);

/// Runs a call at the types that a predictor's and a packing's number name, or answers 7 or 8.
macro_rules! at_pairing {
    ($predictor:expr, $packing:expr, $call:ident) => {
        match ($predictor, $packing) {
            (0, 0) => $call!(Lag1, Words),
            (1, 0) => $call!(Lag2, Words),
            (2, 0) => $call!(Stride1, Words),
            (3, 0) => $call!(Stride2, Words),
            (4, 0) => $call!(StripIndex, Words),
            (5, 0) => $call!(Ramp, Words),
            (6, 0) => $call!(Xor1, Words),
            (7, 0) => $call!(Xor2, Words),
            (8, 0) => $call!(Null, Words),
            (0, 1) => $call!(Lag1, Fields),
            (1, 1) => $call!(Lag2, Fields),
            (2, 1) => $call!(Stride1, Fields),
            (3, 1) => $call!(Stride2, Fields),
            (4, 1) => $call!(StripIndex, Fields),
            (5, 1) => $call!(Ramp, Fields),
            (6, 1) => $call!(Xor1, Fields),
            (7, 1) => $call!(Xor2, Fields),
            (8, 1) => $call!(Null, Fields),
            (0..=8, _) => Err(Refusal { number: 8, place: 0 }),
            _ => Err(Refusal { number: 7, place: 0 }),
        }
    };
}

/// The same calls in plain Rust.
pub struct Plain;

fn refused(r: Refusal) -> Answer {
    Answer { refusal: r.number, place: r.place, ..Answer::default() }
}

impl<const A: usize> Library<A> for Plain {
    fn cut(c: Cutting<A>) -> Answer {
        let tolerance = if c.tolerance == NO_TOLERANCE { None } else { Some(c.tolerance) };
        macro_rules! call {
            ($p:ty, $q:ty) => {
                cut_panel::<A, $p, $q>(c.file, tolerance, c.points, c.marks, c.program)
            };
        }
        match at_pairing!(c.predictor, c.packing, call) {
            Ok(length) => Answer { length, ..Answer::default() },
            Err(r) => refused(r),
        }
    }

    fn split(points: &[[i32; A]], count: usize, tolerance: u32, marks: &mut [u8]) -> Answer {
        match split(points, count, tolerance, marks) {
            Ok((count, waiting)) => Answer { count, waiting, ..Answer::default() },
            Err(number) => refused(Refusal { number, place: 0 }),
        }
    }

    fn store(s: Storing<A>) -> Answer {
        let mut ranges = [None; A];
        macro_rules! call {
            ($p:ty, $q:ty) => {{
                for (range, w) in ranges.iter_mut().zip(s.ranges) {
                    match Range::new(w.bits, w.lower, w.upper) {
                        Ok(sound) => *range = Some(sound),
                        Err(number) => return refused(Refusal { number, place: 0 }),
                    }
                }
                let ranges = ranges.map(|range| range.expect("every range is sound here"));
                store::<A, $p, $q>(s.design, &ranges, s.work, s.file)
            }};
        }
        match at_pairing!(s.predictor, s.packing, call) {
            Ok(length) => Answer { length, ..Answer::default() },
            Err(r) => refused(r),
        }
    }
}
