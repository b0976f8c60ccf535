//! Sizes, as they are typed and as they are printed.

/// The units of a size, each 1,024 times the one before.
const UNITS: [char; 4] = ['K', 'M', 'G', 'T'];

/// The bytes that a size says: decimal digits, and K, M, G or T behind them.
pub fn parse(text: &str) -> Option<u64> {
    let last = text.chars().last()?.to_ascii_uppercase();
    let Some(unit) = UNITS.iter().position(|&unit| unit == last) else {
        return parse_number(text);
    };
    let number = parse_number(&text[..text.len() - 1])?;
    number.checked_mul(1 << (10 * (unit + 1)))
}

/// The number that decimal digits say, and nothing but digits.
pub fn parse_number(text: &str) -> Option<u64> {
    let only_digits = text.bytes().all(|byte| byte.is_ascii_digit());
    only_digits.then(|| text.parse().ok())?
}

/// A number with a comma before each three digits.
pub fn grouped(number: u64) -> String {
    let digits = number.to_string();
    let mut text = String::new();
    for (place, digit) in digits.chars().enumerate() {
        if place > 0 && (digits.len() - place).is_multiple_of(3) {
            text.push(',');
        }
        text.push(digit);
    }
    text
}

/// So many sectors, in words.
pub fn sectors(count: u64) -> String {
    match count {
        1 => "1 sector".to_string(),
        _ => format!("{} sectors", grouped(count)),
    }
}

/// Bytes in the largest unit of which there is one at least, with one digit
/// behind the point, rounded down.
pub fn readable(bytes: u64) -> String {
    let Some(unit) = (1..=UNITS.len()).rfind(|unit| bytes >> (10 * unit) > 0) else {
        return format!("{bytes} bytes");
    };
    let shift = 10 * unit;
    let tenths = (u128::from(bytes) * 10) >> shift;
    let (whole, tenth) = (tenths / 10, tenths % 10);
    let point = match tenth {
        0 => String::new(),
        _ => format!(".{tenth}"),
    };
    format!("{whole}{point} {}iB", UNITS[unit - 1])
}

#[cfg(test)]
mod tests {
    use super::*;

    #[test]
    fn sizes_are_parsed() {
        assert_eq!(parse("0"), Some(0));
        assert_eq!(parse("4096"), Some(4096));
        assert_eq!(parse("4K"), Some(4096));
        assert_eq!(parse("3m"), Some(3 << 20));
        assert_eq!(parse("1G"), Some(1 << 30));
        assert_eq!(parse("2T"), Some(2 << 40));
        assert_eq!(parse("16777215T"), Some(16_777_215 << 40));
    }

    #[test]
    fn other_texts_are_no_sizes() {
        for text in [
            "", "K", "-1", "+1", "1.5G", "1P", "1KK", " 1", "1 K", "0x10", "١",
        ] {
            assert_eq!(parse(text), None, "{text:?}");
        }
        assert_eq!(parse("18446744073709551616"), None);
        assert_eq!(parse("16777216T"), None);
    }

    #[test]
    fn numbers_are_grouped() {
        assert_eq!(grouped(0), "0");
        assert_eq!(grouped(999), "999");
        assert_eq!(grouped(1000), "1,000");
        assert_eq!(grouped(1_234_567), "1,234,567");
    }

    #[test]
    fn sectors_are_counted() {
        assert_eq!(sectors(1), "1 sector");
        assert_eq!(sectors(1000), "1,000 sectors");
    }

    #[test]
    fn sizes_are_readable() {
        assert_eq!(readable(1023), "1023 bytes");
        assert_eq!(readable(1024), "1 KiB");
        assert_eq!(readable(1536), "1.5 KiB");
        assert_eq!(readable(256 << 20), "256 MiB");
        assert_eq!(readable(u64::MAX), "16777215.9 TiB");
    }
}
