//! The two packings.

pub trait Packing {
    const NUMBER: u8;

    /// How many bytes the body of these entries has.
    fn size(entries: &[i32]) -> usize;

    /// Writes the body of these entries; `body` has just its length.
    fn write(entries: &[i32], body: &mut [u8]);

    /// Whether a body holds `count` entries soundly; if not, the refusal's number.
    fn judge(body: &[u8], count: usize) -> Result<(), u32>;

    /// The entries of a sound body.
    fn entries(body: &[u8], count: usize) -> impl Iterator<Item = i32>;
}

/// Packing 0: four bytes for each entry.
pub struct Words;

impl Packing for Words {
    const NUMBER: u8 = 0;

    fn size(entries: &[i32]) -> usize {
        4 * entries.len()
    }

    fn write(entries: &[i32], body: &mut [u8]) {
        for (bytes, entry) in body.chunks_exact_mut(4).zip(entries) {
            bytes.copy_from_slice(&entry.to_le_bytes());
        }
    }

    fn judge(body: &[u8], count: usize) -> Result<(), u32> {
        if body.len() == 4 * count {
            Ok(())
        } else {
            Err(15)
        }
    }

    #[inline]
    fn entries(body: &[u8], count: usize) -> impl Iterator<Item = i32> {
        body.chunks_exact(4).take(count).map(|b| i32::from_le_bytes([b[0], b[1], b[2], b[3]]))
    }
}

/// Packing 1: a base, a width, and fields of so many bits.
pub struct Fields;

/// Base and width come before the fields.
const FRONT: usize = 5;

fn field_bytes(count: usize, width: u32) -> usize {
    (count * width as usize + 7) / 8
}

/// The smallest entry, and the width that holds every entry less it.
fn base_and_width(entries: &[i32]) -> (i32, u32) {
    let base = entries.iter().copied().min().unwrap_or(0);
    let greatest = entries.iter().copied().max().unwrap_or(0);
    (base, 32 - (greatest.wrapping_sub(base) as u32).leading_zeros())
}

/// Takes fields off a row of bytes, high bits first.
struct FieldReader<'a> {
    bytes: std::slice::Iter<'a, u8>,
    width: u32,
    /// The bits read and not yet taken: the low `held` bits.
    bits: u64,
    held: u32,
}

impl FieldReader<'_> {
    #[inline]
    fn next(&mut self) -> u32 {
        while self.held < self.width {
            self.bits = self.bits << 8 | u64::from(*self.bytes.next().unwrap_or(&0));
            self.held += 8;
        }
        self.held -= self.width;
        (self.bits >> self.held & ((1 << self.width) - 1)) as u32
    }
}

impl Packing for Fields {
    const NUMBER: u8 = 1;

    fn size(entries: &[i32]) -> usize {
        FRONT + field_bytes(entries.len(), base_and_width(entries).1)
    }

    fn write(entries: &[i32], body: &mut [u8]) {
        let (base, width) = base_and_width(entries);
        body[..4].copy_from_slice(&base.to_le_bytes());
        body[4] = width as u8;
        let mut out = body[FRONT..].iter_mut();
        let (mut bits, mut held) = (0u64, 0);
        for entry in entries {
            bits = bits << width | u64::from(entry.wrapping_sub(base) as u32);
            held += width;
            while held >= 8 {
                held -= 8;
                if let Some(byte) = out.next() {
                    *byte = (bits >> held) as u8;
                }
            }
        }
        if let Some(byte) = out.next() {
            *byte = (bits << (8 - held)) as u8;
        }
    }

    fn judge(body: &[u8], count: usize) -> Result<(), u32> {
        if body.len() < FRONT || body[4] > 32 || body.len() != FRONT + field_bytes(count, body[4].into()) {
            return Err(15);
        }
        let spare = 8 * (body.len() - FRONT) - count * usize::from(body[4]);
        if spare > 0 && body[body.len() - 1] & ((1 << spare) - 1) != 0 {
            return Err(16);
        }
        Ok(())
    }

    #[inline]
    fn entries(body: &[u8], count: usize) -> impl Iterator<Item = i32> {
        let base = i32::from_le_bytes([body[0], body[1], body[2], body[3]]);
        let mut fields = FieldReader { bytes: body[FRONT..].iter(), width: body[4].into(), bits: 0, held: 0 };
        (0..count).map(move |_| base.wrapping_add(fields.next() as i32))
    }
}
