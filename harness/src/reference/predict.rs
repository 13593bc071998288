//! The nine predictors. Each is a type, so that a load is compiled for the one it is given.

/// The codes before an entry, the nearest first.
#[derive(Clone, Copy, Default)]
pub struct Before {
    v1: i32,
    v2: i32,
    v3: i32,
    v4: i32,
}

impl Before {
    #[inline]
    fn then(self, code: i32) -> Before {
        Before { v1: code, v2: self.v1, v3: self.v2, v4: self.v3 }
    }
}

pub trait Predictor {
    const NUMBER: u8;
    /// Whether the residue is an exclusive or; else it is a difference.
    const XOR: bool = false;

    fn prediction(before: Before, index: usize) -> i32;
}

pub struct Lag1;
pub struct Lag2;
pub struct Stride1;
pub struct Stride2;
pub struct StripIndex;
pub struct Ramp;
pub struct Xor1;
pub struct Xor2;
pub struct Null;

impl Predictor for Lag1 {
    const NUMBER: u8 = 0;
    #[inline]
    fn prediction(b: Before, _: usize) -> i32 {
        b.v1
    }
}

impl Predictor for Lag2 {
    const NUMBER: u8 = 1;
    #[inline]
    fn prediction(b: Before, _: usize) -> i32 {
        b.v2
    }
}

impl Predictor for Stride1 {
    const NUMBER: u8 = 2;
    #[inline]
    fn prediction(b: Before, _: usize) -> i32 {
        b.v1.wrapping_add(b.v1.wrapping_sub(b.v2))
    }
}

impl Predictor for Stride2 {
    const NUMBER: u8 = 3;
    #[inline]
    fn prediction(b: Before, _: usize) -> i32 {
        b.v2.wrapping_add(b.v2.wrapping_sub(b.v4))
    }
}

impl Predictor for StripIndex {
    const NUMBER: u8 = 4;
    #[inline]
    fn prediction(b: Before, _: usize) -> i32 {
        let d = b.v2.wrapping_sub(b.v4);
        b.v2.wrapping_add(if -8 < d && d < 8 { d } else { 2 })
    }
}

impl Predictor for Ramp {
    const NUMBER: u8 = 5;
    #[inline]
    fn prediction(_: Before, index: usize) -> i32 {
        index as i32
    }
}

impl Predictor for Xor1 {
    const NUMBER: u8 = 6;
    const XOR: bool = true;
    #[inline]
    fn prediction(b: Before, _: usize) -> i32 {
        b.v1
    }
}

impl Predictor for Xor2 {
    const NUMBER: u8 = 7;
    const XOR: bool = true;
    #[inline]
    fn prediction(b: Before, _: usize) -> i32 {
        b.v2
    }
}

impl Predictor for Null {
    const NUMBER: u8 = 8;
    #[inline]
    fn prediction(_: Before, _: usize) -> i32 {
        0
    }
}

/// Goes along one axis: from codes to stored entries, or back.
#[derive(Default)]
pub struct Along {
    before: Before,
    index: usize,
}

impl Along {
    /// The entry that is stored for a code.
    #[inline]
    pub fn stored<P: Predictor>(&mut self, code: i32) -> i32 {
        let predicted = P::prediction(self.before, self.index);
        let entry = match (self.index < 4, P::XOR) {
            (true, _) => code,
            (false, true) => code ^ predicted,
            (false, false) => code.wrapping_sub(predicted),
        };
        self.step(code);
        entry
    }

    /// The code that a stored entry stands for.
    #[inline]
    pub fn code<P: Predictor>(&mut self, entry: i32) -> i32 {
        let predicted = P::prediction(self.before, self.index);
        let code = match (self.index < 4, P::XOR) {
            (true, _) => entry,
            (false, true) => entry ^ predicted,
            (false, false) => entry.wrapping_add(predicted),
        };
        self.step(code);
        code
    }

    #[inline]
    fn step(&mut self, code: i32) {
        self.before = self.before.then(code);
        self.index += 1;
    }
}
