//! Changes to sound panel files: damage of every sort, and other forms of the same panel.

use crate::cases::ODD_ENDS;
use crate::random::Random;
use crate::reference::pack::{Fields, Packing, Words};

/// The offsets of the Q pieces of a sound file; V is 10 bytes further, the body 15.
fn axes<const A: usize>(file: &[u8]) -> [usize; A] {
    let mut at = 8;
    std::array::from_fn(|_| {
        let here = at;
        at += 15 + body_length(file, here);
        here
    })
}

fn body_length(file: &[u8], q: usize) -> usize {
    u32::from_le_bytes([file[q + 11], file[q + 12], file[q + 13], file[q + 14]]) as usize
}

fn put(file: &mut [u8], at: usize, word: u32) {
    file[at..at + 4].copy_from_slice(&word.to_le_bytes());
}

/// Damages a sound file in one way; in some ways it stays sound.
pub fn damage<const A: usize>(r: &mut Random, file: &mut Vec<u8>) {
    let starts = axes::<A>(file);
    let q = r.pick(&starts);
    let (v, body, length) = (q + 10, q + 15, body_length(file, q));
    let count = u32::from_le_bytes([file[4], file[5], file[6], file[7]]);
    let anywhere = r.below(file.len() as u64) as usize;
    match r.below(18) {
        0 => file[anywhere] = r.next() as u8,
        1 => file[anywhere] ^= 1 << r.below(8),
        2 => file.truncate(anywhere),
        3 => file.truncate((r.pick(&[0, 8, q, v, body, body + length]) + 2).saturating_sub(r.below(4) as usize)),
        4 => file.extend((0..r.between(1, 5)).map(|i| i as u8 * 69)),
        5 => file[r.below(8) as usize] = r.below(12) as u8,
        6 => put(file, 4, r.pick(&[0, 1, 2, 4096, 4097, 65536, u32::MAX, count + 1, count - 1])),
        7 => {
            let bits = file[q + 1];
            file[q + 1] = r.pick(&[0, 25, 255, 1, 24, bits + 1, bits - 1]);
        }
        8 => put(file, q + 2, r.pick(&ODD_ENDS)),
        9 => put(file, q + 6, r.pick(&ODD_ENDS)),
        10 => file[q + 2..q + 10].rotate_left(4),
        11 => put(file, v + 1, r.pick(&[0, 4, 5, 6, u32::MAX, 0x8000_0000, length as u32 + 1, length as u32 - 1])),
        12 => {
            let at = r.pick(&[0, q, v, body + length]);
            file[at] = r.pick(b"NQVEnq");
        }
        13 => file[body + 4] = r.pick(&[0, 1, 31, 32, 33, 64, 255]),
        14 => file[body + length - 1] ^= 1 << r.below(7),
        15 => {
            put(file, body + 4 * r.below(length as u64 / 4) as usize, r.pick(&[u32::MAX, 0x8000_0000, 0x7FFF_FFFF, 1 << 24, 0]))
        }
        16 => file.insert(anywhere, r.next() as u8),
        _ => drop(file.remove(anywhere)),
    }
}

/// Appends the bits of a field, high bit first.
fn push_bits(bits: &mut Vec<bool>, field: u32, width: u32) {
    bits.extend((0..width).rev().map(|k| field >> k & 1 == 1));
}

/// A body of packing 1 with any base and width that hold the entries; its spare bits are as given.
fn wide_body(r: &mut Random, entries: &[i32], spare: bool) -> Vec<u8> {
    let least = entries.iter().copied().min().unwrap_or(0);
    let greatest = entries.iter().copied().max().unwrap_or(0);
    let mut base = least;
    let mut width = 32 - (greatest.wrapping_sub(least) as u32).leading_zeros();
    match r.below(4) {
        0 => (base, width) = (r.next() as i32, 32),
        1 if width < 30 => (base, width) = (least.wrapping_sub(1 << width), width + 2),
        2 => width = width.max(r.below(33) as u32),
        _ => {}
    }
    let mut bits = Vec::new();
    for entry in entries {
        push_bits(&mut bits, entry.wrapping_sub(base) as u32, width);
    }
    while bits.len() % 8 != 0 {
        bits.push(spare);
    }
    let mut body = base.to_le_bytes().to_vec();
    body.push(width as u8);
    body.extend(bits.chunks(8).map(|byte| byte.iter().fold(0, |b, bit| b << 1 | u8::from(*bit))));
    body
}

/// The same panel in another form: other bases and widths, now and then one entry changed or spare bits set.
pub fn rebuilt<const A: usize>(r: &mut Random, file: &[u8]) -> Vec<u8> {
    let count = u32::from_le_bytes([file[4], file[5], file[6], file[7]]) as usize;
    let mut made = file[..8].to_vec();
    for q in axes::<A>(file) {
        let body = &file[q + 15..q + 15 + body_length(file, q)];
        let mut entries: Vec<i32> = match file[3] {
            0 => Words::entries(body, count).collect(),
            _ => Fields::entries(body, count).collect(),
        };
        if r.once_in(6) {
            let at = r.below(count as u64) as usize;
            entries[at] = entries[at].wrapping_add(r.pick(&[1, -1, 2, -5, 1 << 20, i32::MIN]));
        }
        let spare = r.once_in(8);
        let body = match file[3] {
            0 => entries.iter().flat_map(|entry| entry.to_le_bytes()).collect(),
            _ => wide_body(r, &entries, spare),
        };
        made.extend_from_slice(&file[q..q + 11]);
        made.extend_from_slice(&(body.len() as u32).to_le_bytes());
        made.extend(body);
    }
    made.push(b'E');
    made
}
