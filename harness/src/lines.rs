//! The lines that speed is measured on, in steps.

use crate::random::Random;

#[derive(Clone, Copy)]
pub enum Shape {
    /// A seam as design draws it: few vertices are kept.
    Smooth,
    /// Every vertex anywhere: nearly all are kept, and the parts are of like length.
    Noise,
    /// The worst case: each split takes off one vertex.
    Zigzag,
}

pub const SHAPES: [Shape; 3] = [Shape::Smooth, Shape::Noise, Shape::Zigzag];

impl Shape {
    pub fn name(self) -> &'static str {
        match self {
            Shape::Smooth => "smooth curve",
            Shape::Noise => "noise",
            Shape::Zigzag => "zigzag",
        }
    }

    /// A line of `count` points, of which each has the first `A` of three coordinates.
    pub fn line<const A: usize>(self, count: usize) -> Vec<[i32; A]> {
        let mut random = Random::new(0x5EA4);
        (0..count)
            .map(|i| {
                let all = self.point(i, count, &mut random);
                std::array::from_fn(|a| all[a])
            })
            .collect()
    }

    fn point(self, i: usize, count: usize, random: &mut Random) -> [i32; 3] {
        let along = i as f64 / (count - 1) as f64;
        match self {
            Shape::Smooth => {
                let turn = along * std::f64::consts::PI;
                [
                    (along * 80_000.0) as i32,
                    (turn.sin() * 12_000.0 + (3.0 * turn).sin() * 900.0) as i32,
                    ((2.0 * turn).cos() * 3_000.0) as i32,
                ]
            }
            Shape::Noise => std::array::from_fn(|_| random.between(-500_000, 500_000) as i32),
            Shape::Zigzag => {
                // The teeth shrink toward the end, so the tooth after a chord's start is always the heaviest.
                let tooth = 100 * (count - i) as i32;
                let side = if i % 2 == 0 { tooth } else { -tooth };
                [200 * i as i32, side, side / 2]
            }
        }
    }
}
