//! Functions of angles and the logarithm, by sums and products alone, so that every machine and every browser computes
//! the same digits; those of the systems differ in the last one.

use std::f64::consts::{FRAC_PI_2, LN_2, PI};

/// What is left of a quarter turn behind its digits in a number: half a turn is PI and this, twice.
const REST: f64 = 6.123_233_995_736_766e-17;

/// The sum of powers with these factors, the lowest first.
fn powers(x: f64, factors: &[f64]) -> f64 {
    factors.iter().rev().fold(0.0, |sum, factor| sum * x + factor)
}

/// The sine and the cosine of an angle.
pub fn sin_cos(angle: f64) -> (f64, f64) {
    let quarters = (angle / FRAC_PI_2).round();
    // the product of the quarters and the upper digits of a quarter turn is exact
    let upper = f64::from_bits(FRAC_PI_2.to_bits() & !0x7ff_ffff);
    let x = ((angle - quarters * upper) - quarters * (FRAC_PI_2 - upper)) - quarters * REST;
    let y = x * x;
    let sine = x + x * y * powers(y, &SINE);
    let cosine = 1.0 - 0.5 * y + y * y * powers(y, &COSINE);
    match quarters.rem_euclid(4.0) as u8 {
        0 => (sine, cosine),
        1 => (cosine, -sine),
        2 => (-sine, -cosine),
        _ => (-cosine, sine),
    }
}

/// The factors of the sine behind its first term, those of the cosine behind its second.
const SINE: [f64; 7] = [
    -1.0 / 6.0,
    1.0 / 120.0,
    -1.0 / 5_040.0,
    1.0 / 362_880.0,
    -1.0 / 39_916_800.0,
    1.0 / 6_227_020_800.0,
    -1.0 / 1_307_674_368_000.0,
];
const COSINE: [f64; 7] = [
    1.0 / 24.0,
    -1.0 / 720.0,
    1.0 / 40_320.0,
    -1.0 / 3_628_800.0,
    1.0 / 479_001_600.0,
    -1.0 / 87_178_291_200.0,
    1.0 / 20_922_789_888_000.0,
];

/// The sine of an angle.
pub fn sin(angle: f64) -> f64 {
    sin_cos(angle).0
}

/// The cosine of an angle.
pub fn cos(angle: f64) -> f64 {
    sin_cos(angle).1
}

/// The angle of the direction of a vector, from minus half a turn to half a turn; 0 for none.
pub fn angle([x, y]: [f64; 2]) -> f64 {
    let far = length([x, y]);
    if far == 0.0 {
        return 0.0;
    }
    // within the first eighth of a turn by a curve, nearly; then by how far that is off, which is little
    let (low, high) = (x.abs().min(y.abs()), x.abs().max(y.abs()));
    let slope = low / high;
    let near = slope * (PI / 4.0 + 0.273 * (1.0 - slope));
    let (sine, cosine) = sin_cos(near);
    let off = (low * cosine - high * sine) / far;
    let eighth = near + off * powers(off * off, &[1.0, 1.0 / 6.0, 3.0 / 40.0, 15.0 / 336.0]);
    let quarter = if y.abs() > x.abs() { FRAC_PI_2 - eighth } else { eighth };
    let half = if x < 0.0 { PI - quarter } else { quarter };
    if y < 0.0 {
        -half
    } else {
        half
    }
}

/// The length of a vector.
pub fn length([x, y]: [f64; 2]) -> f64 {
    (x * x + y * y).sqrt()
}

/// The natural logarithm of a number above 0.
pub fn ln(x: f64) -> f64 {
    // a power of two, and a rest between the roots of a half and of two
    let bits = x.to_bits();
    let (mut power, mut rest) = ((bits >> 52) as f64 - 1023.0, f64::from_bits(bits & ((1 << 52) - 1) | 1023 << 52));
    if rest > std::f64::consts::SQRT_2 {
        power += 1.0;
        rest /= 2.0;
    }
    let part = (rest - 1.0) / (rest + 1.0);
    let odd: Vec<f64> = (0..11).map(|k| 2.0 / f64::from(2 * k + 1)).collect();
    power * LN_2 + part * powers(part * part, &odd)
}

#[cfg(test)]
mod tests {
    use super::*;

    /// Angles of all sizes.
    fn angles() -> impl Iterator<Item = f64> {
        (-40_000..40_000)
            .map(|k| f64::from(k) * 0.37 * (1.0 + f64::from(k % 7) * 1e-9))
            .chain((-800..800).map(|k| f64::from(k) * 0.01))
    }

    #[test]
    fn as_the_system_has_them() {
        for angle in angles() {
            let (sine, cosine) = sin_cos(angle);
            assert!((sine - angle.sin()).abs() < 1e-15 && (cosine - angle.cos()).abs() < 1e-15, "{angle}");
        }
        for (k, turn) in angles().enumerate() {
            let far = [1e-6, 1.0, 3e5][k % 3];
            let [x, y] = [far * turn.cos(), far * turn.sin()];
            assert!((angle([x, y]) - y.atan2(x)).abs() < 1e-15, "{x} {y}");
            assert!((length([x, y]) / x.hypot(y) - 1.0).abs() < 1e-15, "{x} {y}");
        }
        for k in 1..100_000 {
            let x = f64::from(k) * 1e-9 * f64::from(k);
            assert!((ln(x) - x.ln()).abs() < 1e-14, "{x}");
        }
    }

    #[test]
    fn quarter_turns() {
        let wanted = [([1.0, 0.0], 0.0), ([0.0, 1.0], FRAC_PI_2), ([-1.0, 0.0], PI), ([0.0, -1.0], -FRAC_PI_2)];
        for (way, turn) in wanted {
            assert_eq!(angle(way), turn);
        }
        assert_eq!(sin_cos(0.0), (0.0, 1.0));
        assert_eq!((sin_cos(FRAC_PI_2).0, sin_cos(PI).1, ln(1.0), angle([0.0; 2])), (1.0, -1.0, 0.0, 0.0));
    }
}
