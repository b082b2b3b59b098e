//! The words of a line as numbers.
use crate::source::shown;

/// The words of a line after its first one.
pub type Words<'a> = &'a [&'a str];

/// A type of whole numbers.
pub trait Whole: Sized {
    const LEAST: i128;
    const MOST: i128;
    fn of(number: i128) -> Option<Self>;
}

macro_rules! whole {
    ($($name:ident)*) => {
        $(impl Whole for $name {
            const LEAST: i128 = $name::MIN as i128;
            const MOST: i128 = $name::MAX as i128;
            fn of(number: i128) -> Option<Self> {
                number.try_into().ok()
            }
        })*
    };
}

whole!(u8 u32 usize i32 i64);

/// A whole number of the type that is asked for.
pub fn number<T: Whole>(word: &str) -> Result<T, String> {
    let digits = word.strip_prefix('-').unwrap_or(word);
    if let Some(rest) = word.strip_prefix('+') {
        return Err(format!("'{}' has a plus sign: write '{}'", shown(word), shown(rest)));
    }
    if digits.is_empty() || !digits.bytes().all(|byte| byte.is_ascii_digit()) {
        return Err(format!("'{}' is no whole number", shown(word)));
    }
    let outside = || format!("'{}' is not from {} to {}", shown(word), T::LEAST, T::MOST);
    word.parse().ok().and_then(T::of).ok_or_else(outside)
}

pub fn numbers<T: Whole>(words: Words) -> Result<Vec<T>, String> {
    words.iter().map(|word| number(word)).collect()
}

/// The one number of a line.
pub fn one<T: Whole>(words: Words) -> Result<T, String> {
    match words {
        [word] => number(word),
        _ => Err("one number belongs here".to_owned()),
    }
}

/// The powers of a line: finite numbers, as '8' or '0.125'.
pub fn powers(words: Words) -> Result<Vec<f32>, String> {
    words.iter().map(|word| power(word)).collect()
}

fn power(word: &str) -> Result<f32, String> {
    let is_decimal = |byte: u8| byte.is_ascii_digit() || b"-.eE+".contains(&byte);
    if !word.bytes().all(is_decimal) || word.starts_with('+') {
        return Err(format!("'{}' is no power: write a number as 8 or 0.125", shown(word)));
    }
    match word.parse::<f32>() {
        Ok(power) if power.is_finite() => Ok(power),
        Ok(_) => Err(format!("'{}' is too large for a power", shown(word))),
        Err(_) => Err(format!("'{}' is no power: write a number as 8 or 0.125", shown(word))),
    }
}

/// An entry of a schedule: 0 for '-', and s + 1 for slot s.
pub fn entry(word: &str) -> Result<u8, String> {
    if word == "-" {
        return Ok(0);
    }
    let slot = number::<u8>(word)?;
    slot.checked_add(1).ok_or_else(|| format!("'{slot}' is more than a schedule can hold"))
}

#[cfg(test)]
mod tests {
    use super::{entry, number, power};

    #[test]
    fn numbers_are_digits() {
        assert_eq!((number("7"), number("-7"), number("007")), (Ok(7_u32), Ok(-7_i32), Ok(7_u8)));
        for word in ["", "-", "+2", "2.0", "0x2", "٢", "1_0", "--1"] {
            assert!(number::<i64>(word).is_err(), "{word}");
        }
        assert!(number::<u8>("256").is_err() && number::<u32>("-1").is_err());
        assert!(number::<i64>(&"9".repeat(60)).is_err());
    }

    #[test]
    fn powers_are_finite() {
        assert_eq!((power("0.125"), power("-1e3")), (Ok(0.125), Ok(-1_000.0)));
        for word in ["NaN", "inf", "-infinity", "+1", "1e39", "8,0", "", "."] {
            assert!(power(word).is_err(), "{word}");
        }
    }

    #[test]
    fn entries_name_slots() {
        assert_eq!((entry("-"), entry("0"), entry("254")), (Ok(0), Ok(1), Ok(255)));
        assert!(entry("255").is_err());
    }
}
