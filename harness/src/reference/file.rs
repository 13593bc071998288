//! The panel file: store, judging and load.

use super::pack::Packing;
use super::predict::{Along, Predictor};
use super::range::Range;
use super::{refuse, Refusal, FEWEST, MOST};

/// Where the parts of a file begin that a load needs again after judging.
#[derive(Clone, Copy)]
struct Axis<'a> {
    range: Range,
    body: &'a [u8],
}

/// The next piece of `need` bytes at `at`, whose letter is looked at.
fn piece(file: &[u8], at: usize, need: usize, letter: u8) -> Result<&[u8], Refusal> {
    match file.get(at..at + need) {
        None => refuse(4, at),
        Some(bytes) if bytes[0] != letter => refuse(5, at),
        Some(bytes) => Ok(bytes),
    }
}

fn word(bytes: &[u8]) -> u32 {
    u32::from_le_bytes([bytes[0], bytes[1], bytes[2], bytes[3]])
}

/// Judges N and answers the vertex count.
fn judge_front<P: Predictor, Q: Packing>(file: &[u8], axes: usize, room: usize) -> Result<usize, Refusal> {
    let front = piece(file, 0, 8, b'N')?;
    let count = word(&front[4..]) as usize;
    if usize::from(front[1]) != axes {
        refuse(6, 0)
    } else if front[2] != P::NUMBER {
        refuse(7, 0)
    } else if front[3] != Q::NUMBER {
        refuse(8, 0)
    } else if !(FEWEST..=MOST).contains(&count) {
        refuse(9, 0)
    } else if room < count {
        refuse(10, 0)
    } else {
        Ok(count)
    }
}

/// Judges Q, V and the body of the axis that begins at `at`, and answers where the next piece begins.
fn judge_axis<P: Predictor, Q: Packing>(file: &[u8], at: usize, count: usize) -> Result<(Axis<'_>, usize), Refusal> {
    let q = piece(file, at, 10, b'Q')?;
    let range = Range::new(q[1], word(&q[2..]), word(&q[6..])).or_else(|number| refuse(number, at))?;
    let v = piece(file, at + 10, 5, b'V')?;
    let place = at + 15;
    let length = word(&v[1..]) as usize;
    let Some(body) = file[place..].get(..length) else {
        return refuse(4, place);
    };
    Q::judge(body, count).or_else(|number| refuse(number, place))?;
    let mut along = Along::default();
    for entry in Q::entries(body, count) {
        let code = along.code::<P>(entry);
        if code < 0 || code > range.most() {
            return refuse(17, place);
        }
    }
    Ok((Axis { range, body }, place + length))
}

/// Loads a panel: the whole file is judged, then the first points are filled. Answers the vertex count.
pub fn load<const A: usize, P: Predictor, Q: Packing>(file: &[u8], points: &mut [[i32; A]]) -> Result<usize, Refusal> {
    let count = judge_front::<P, Q>(file, A, points.len())?;
    let mut at = 8;
    let mut axes = [None; A];
    for axis in &mut axes {
        let (judged, next) = judge_axis::<P, Q>(file, at, count)?;
        *axis = Some(judged);
        at = next;
    }
    piece(file, at, 1, b'E')?;
    if file.len() > at + 1 {
        return refuse(18, at + 1);
    }
    for (a, axis) in axes.iter().flatten().enumerate() {
        let mut along = Along::default();
        for (point, entry) in points.iter_mut().zip(Q::entries(axis.body, count)) {
            point[a] = axis.range.place(along.code::<P>(entry));
        }
    }
    Ok(count)
}

/// Fills the front of the work list with the stored entries of one axis, or finds a coordinate outside its range.
fn fill<const A: usize, P: Predictor>(design: &[[i32; A]], a: usize, range: &Range, work: &mut [i32]) -> bool {
    let mut along = Along::default();
    for (point, entry) in design.iter().zip(work) {
        match range.code(point[a]) {
            Some(code) => *entry = along.stored::<P>(code),
            None => return false,
        }
    }
    true
}

/// Stores a panel at the front of the file list, and answers the file's length.
pub fn store<const A: usize, P: Predictor, Q: Packing>(
    design: &[[i32; A]],
    ranges: &[Range; A],
    work: &mut [i32],
    file: &mut [u8],
) -> Result<usize, Refusal> {
    let count = design.len();
    if !(FEWEST..=MOST).contains(&count) {
        return refuse(9, 0);
    }
    if work.len() < count {
        return refuse(10, 0);
    }
    let work = &mut work[..count];
    let mut length = 9;
    for (a, range) in ranges.iter().enumerate() {
        if !fill::<A, P>(design, a, range, work) {
            return refuse(19, 0);
        }
        length += 15 + Q::size(work);
    }
    if file.len() < length {
        return refuse(20, 0);
    }
    file[..4].copy_from_slice(&[b'N', A as u8, P::NUMBER, Q::NUMBER]);
    file[4..8].copy_from_slice(&(count as u32).to_le_bytes());
    let mut at = 8;
    for (a, range) in ranges.iter().enumerate() {
        fill::<A, P>(design, a, range, work);
        let size = Q::size(work);
        file[at] = b'Q';
        file[at + 1] = range.bits;
        file[at + 2..at + 6].copy_from_slice(&range.low_word.to_le_bytes());
        file[at + 6..at + 10].copy_from_slice(&range.high_word.to_le_bytes());
        file[at + 10] = b'V';
        file[at + 11..at + 15].copy_from_slice(&(size as u32).to_le_bytes());
        Q::write(work, &mut file[at + 15..at + 15 + size]);
        at += 15 + size;
    }
    file[at] = b'E';
    Ok(length)
}
