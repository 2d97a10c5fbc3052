//! Numbers as people write them.

/// A word as errors show it: a binary file may be one long word.
fn shown(text: &str) -> String {
    const MOST: usize = 40;
    let printable = |c: char| if c.is_control() { '?' } else { c };
    match text.char_indices().nth(MOST) {
        Some((end, _)) => format!("'{}..'", text[..end].chars().map(printable).collect::<String>()),
        None => format!("'{}'", text.chars().map(printable).collect::<String>()),
    }
}

/// A 64-bit number, decimal or hexadecimal with 0x. Digits may be grouped by `_`.
pub fn parse(text: &str) -> Result<u64, String> {
    let (digits, radix) = match text.strip_prefix("0x").or_else(|| text.strip_prefix("0X")) {
        Some(digits) => (digits, 16),
        None => (text, 10),
    };
    let shown = shown(text);
    let digits: String = digits.chars().filter(|c| *c != '_').collect();
    if digits.is_empty() || !digits.chars().all(|c| c.is_digit(radix)) {
        return Err(format!("{shown} is not a number: write it in decimal, or in hexadecimal after 0x"));
    }
    // Monitors print hexadecimal digits without 0x; taken as decimal they would be another number.
    if radix == 10 && digits.len() > 1 && digits.starts_with('0') {
        return Err(format!("{shown} begins with 0: write 0x before it if it is hexadecimal, else leave out the zeros"));
    }
    u64::from_str_radix(&digits, radix).map_err(|_| format!("{shown} is over 64 bits"))
}

#[cfg(test)]
mod tests {
    use super::parse;

    #[test]
    fn decimal_and_hexadecimal() {
        assert_eq!(parse("0"), Ok(0));
        assert_eq!(parse("40"), Ok(40));
        assert_eq!(parse("0x8000_0001"), Ok(0x8000_0001));
        assert_eq!(parse("0XFFFFFFFFFFFFFFFF"), Ok(u64::MAX));
        assert_eq!(parse("18446744073709551615"), Ok(u64::MAX));
    }

    #[test]
    fn what_is_no_number() {
        for text in ["", "0x", "_", "-1", "+1", "1g", "0x1g", "18446744073709551616", "0x10000000000000000", "007", "1 2"] {
            assert!(parse(text).is_err(), "{text}");
        }
    }
}
