//! Cut and close, and the whole way from a panel file to a finished program on a new bench.

use super::file::load;
use super::pack::Packing;
use super::predict::Predictor;
use super::seam::{split, USUAL};
use super::{refuse, Refusal};

/// Appends one command and the point that it goes to.
fn command<const A: usize>(program: &mut [u8], at: usize, letter: u8, point: &[i32; A]) -> usize {
    program[at] = letter;
    for (bytes, step) in program[at + 1..at + 1 + 4 * A].chunks_exact_mut(4).zip(point) {
        bytes.copy_from_slice(&step.to_le_bytes());
    }
    at + 1 + 4 * A
}

/// Appends the chain of the kept vertices, and answers the new program length.
pub fn cut<const A: usize>(
    points: &[[i32; A]],
    marks: &[u8],
    count: usize,
    program: &mut [u8],
    length: usize,
) -> Result<usize, Refusal> {
    if points.len() < count || marks.len() < count {
        return refuse(10, 0);
    }
    if marks[0] != 1 || marks[count - 1] != 1 {
        return refuse(11, 0);
    }
    let kept = marks[..count].iter().filter(|mark| **mark == 1).count();
    if length + kept * (1 + 4 * A) + 2 + 1 > program.len() {
        return refuse(20, 0);
    }
    let mut at = command(program, length, b'T', &points[0]);
    program[at] = b'D';
    at += 1;
    for (point, mark) in points[1..count].iter().zip(&marks[1..count]) {
        if *mark == 1 {
            at = command(program, at, b'K', point);
        }
    }
    program[at] = b'U';
    Ok(at + 1)
}

/// Appends the end.
pub fn close(program: &mut [u8], length: usize) -> Result<usize, Refusal> {
    if length + 1 > program.len() {
        return refuse(20, 0);
    }
    program[length] = b'E';
    Ok(length + 1)
}

/// Load, split, cut and close on a new bench; answers the program's length. The first refusal is told; what was accepted before it stays done.
pub fn cut_panel<const A: usize, P: Predictor, Q: Packing>(
    file: &[u8],
    tolerance: Option<u32>,
    points: &mut [[i32; A]],
    marks: &mut [u8],
    program: &mut [u8],
) -> Result<usize, Refusal> {
    let count = load::<A, P, Q>(file, points)?;
    split(points, count, tolerance.unwrap_or(USUAL), marks).or_else(|number| refuse(number, 0))?;
    let length = cut(points, marks, count, program, 0)?;
    close(program, length)
}
