//! Lengths in tenths of a millimetre and angles in hundredths of a degree, as decimals with units.

/// A unit: so many decimals of it are kept.
pub struct Unit {
    pub name: &'static str,
    pub decimals: usize,
}

/// The units of a length, the one that may be left out first.
pub const LENGTHS: [Unit; 3] =
    [Unit { name: "mm", decimals: 1 }, Unit { name: "cm", decimals: 2 }, Unit { name: "m", decimals: 4 }];

/// The units of an angle.
pub const ANGLES: [Unit; 2] = [Unit { name: "deg", decimals: 2 }, Unit { name: "°", decimals: 2 }];

/// Why a decimal is no size.
#[derive(Debug, PartialEq, Eq)]
pub enum NoSize {
    /// It is not written as a decimal.
    Form,
    /// It has a digit beyond the decimals that are kept.
    TooFine,
    /// It has more digits than a 32-bit number.
    TooLong,
}

/// A decimal in the units of its last kept place, exactly.
pub fn decimal(text: &str, decimals: usize) -> Result<i32, NoSize> {
    let (negative, digits) = match text.strip_prefix('-') {
        Some(rest) => (true, rest),
        None => (false, text.strip_prefix('+').unwrap_or(text)),
    };
    let (whole, fraction) = digits.split_once('.').unwrap_or((digits, ""));
    let all_digits = |text: &str| text.bytes().all(|byte| byte.is_ascii_digit());
    if whole.is_empty() || digits.ends_with('.') || !all_digits(whole) || !all_digits(fraction) {
        return Err(NoSize::Form);
    }
    let fraction = fraction.trim_end_matches('0');
    if fraction.len() > decimals {
        return Err(NoSize::TooFine);
    }
    let size = format!("{whole}{fraction:0<decimals$}").parse::<i32>().map_err(|_| NoSize::TooLong)?;
    Ok(if negative { -size } else { size })
}

/// A length with its unit.
pub fn millimetres(tenths: i64) -> String {
    format!("{} mm", scaled(tenths, 10))
}

/// An angle with its unit.
pub fn degrees(hundredths: i64) -> String {
    format!("{} deg", scaled(hundredths, 100))
}

/// A decimal of so many parts, all its places written.
fn scaled(parts: i64, of: i64) -> String {
    let width = of.to_string().len() - 1;
    let size = parts.abs();
    format!("{}{}.{:0width$}", if parts < 0 { "-" } else { "" }, size / of, size % of)
}

#[cfg(test)]
mod tests {
    use super::*;

    #[test]
    fn decimals_are_exact() {
        assert_eq!(decimal("600.0", 1), Ok(6000));
        assert_eq!(decimal("600", 1), Ok(6000));
        assert_eq!(decimal("-0.5", 1), Ok(-5));
        assert_eq!(decimal("+1.5000", 4), Ok(15000));
        assert_eq!(decimal("0.05", 1), Err(NoSize::TooFine));
        assert_eq!(decimal("214748364.7", 1), Ok(i32::MAX));
        assert_eq!(decimal("214748364.8", 1), Err(NoSize::TooLong));
        for text in ["", "-", ".5", "5.", "1e3", "5,0", "--5", "-+5", "5.-1"] {
            assert_eq!(decimal(text, 1), Err(NoSize::Form), "{text}");
        }
    }

    #[test]
    fn printed_decimals_are_read_again() {
        for parts in [-17_999, -100, -99, -1, 0, 1, 9, 10, 17_999, 80_000] {
            assert_eq!(millimetres(parts).strip_suffix(" mm").map(|text| decimal(text, 1)), Some(Ok(parts as i32)));
            assert_eq!(degrees(parts).strip_suffix(" deg").map(|text| decimal(text, 2)), Some(Ok(parts as i32)));
        }
    }
}
