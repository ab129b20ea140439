//! Numbers as Rust has them, from the texts of values.

/// A number: its digits, without a zero at either end, and the power of ten of the last one. Of 0 there are none.
#[derive(PartialEq, Eq)]
struct Decimal {
    is_negative: bool,
    digits: String,
    exponent: i64,
}

impl Decimal {
    /// The number of a JSON text, if it is one of a number.
    fn of(text: &str) -> Option<Self> {
        let unsigned = text.strip_prefix('-').unwrap_or(text);
        if !unsigned.starts_with(|letter: char| letter.is_ascii_digit()) {
            return None;
        }
        let (factor, exponent) = unsigned.split_once('e').unwrap_or((unsigned, "0"));
        let (whole, fraction) = factor.split_once('.').unwrap_or((factor, ""));
        let all = [whole, fraction].concat();
        let significant = all.trim_end_matches('0');
        let moved = i64::try_from(all.len() - significant.len()).ok()?
            - i64::try_from(fraction.len()).ok()?;
        let digits = significant.trim_start_matches('0').to_owned();
        let is_zero = digits.is_empty();
        Some(Decimal {
            is_negative: !is_zero && unsigned.len() < text.len(),
            digits,
            exponent: if is_zero {
                0
            } else {
                exponent.parse::<i64>().ok()? + moved
            },
        })
    }
}

/// The number of a JSON text, where it is whole and one of 128 bits.
pub(crate) fn whole(text: &str) -> Option<i128> {
    let number = Decimal::of(text)?;
    if number.digits.is_empty() {
        return Some(0);
    }
    let power = 10_i128.checked_pow(u32::try_from(number.exponent).ok()?)?;
    let sign = if number.is_negative { -1 } else { 1 };
    let factor: i128 = number.digits.parse().ok()?;
    (sign * factor).checked_mul(power)
}

/// The double whose shortest text is that number, where there is one.
pub(crate) fn double(text: &str) -> Option<f64> {
    let nearest = nearest_double(text)?;
    let shortest = format!("{nearest:e}");
    (Decimal::of(&shortest) == Decimal::of(text)).then_some(nearest)
}

/// The double that is nearest to the number of a JSON text, which is infinite where that is beyond all of them.
pub(crate) fn nearest_double(text: &str) -> Option<f64> {
    Decimal::of(text).and_then(|_| text.parse().ok())
}
