//! Numbers and refusals as a reader sees them.

use bazintroa::Refusal;

/// `x` with at most `digits` significant digits, without zeros behind the point.
pub fn number(x: f64, digits: usize) -> String {
    if !x.is_finite() {
        return if x.is_nan() {
            "NaN".into()
        } else if x > 0.0 {
            "infinite".into()
        } else {
            "-infinite".into()
        };
    }
    if x == 0.0 {
        return "0".into();
    }
    let rounded = format!("{:.*e}", digits - 1, x);
    let (mantissa, exponent) = rounded.split_once('e').expect("an exponent");
    let exponent: i32 = exponent.parse().expect("a whole number");
    if (-5..7).contains(&exponent) {
        let places = (digits as i32 - 1 - exponent).max(0) as usize;
        without_zeros(&format!("{x:.places$}")).into()
    } else {
        format!("{}e{exponent}", without_zeros(mantissa))
    }
}

fn without_zeros(digits: &str) -> &str {
    if digits.contains('.') {
        digits.trim_end_matches('0').trim_end_matches('.')
    } else {
        digits
    }
}

/// A whole number with a comma between thousands.
pub fn count(n: usize) -> String {
    let digits = n.to_string();
    let mut text = String::new();
    for (i, digit) in digits.chars().enumerate() {
        if i > 0 && i % 3 == digits.len() % 3 {
            text.push(',');
        }
        text.push(digit);
    }
    text
}

/// "1 reading", "4,096 readings".
pub fn counted(n: usize, one: &str) -> String {
    format!("{} {one}{}", count(n), if n == 1 { "" } else { "s" })
}

/// "a", "a and b", "a, b and c".
pub fn listed(items: &[String]) -> String {
    match items {
        [] => String::new(),
        [one] => one.clone(),
        [first @ .., last] => format!("{} and {last}", first.join(", ")),
    }
}

/// A piece of a file in quotes, cut where it is long.
pub fn quoted(text: &str) -> String {
    let mut short: String = text.chars().take(40).collect();
    if short.len() < text.len() {
        short.push_str("..");
    }
    format!("{short:?}")
}

/// A refusal with its number.
pub fn refused(refusal: Refusal) -> String {
    format!("refused with {}: {refusal}", refusal.number())
}

#[cfg(test)]
mod tests {
    use super::*;

    #[test]
    fn numbers_have_six_digits_and_no_idle_zeros() {
        for (x, text) in [
            (0.0, "0"),
            (-0.0, "0"),
            (3.0, "3"),
            (40.0, "40"),
            (1000.0, "1000"),
            (0.001, "0.001"),
            (std::f64::consts::PI, "3.14159"),
            (-0.123456789, "-0.123457"),
            (999999.96, "1000000"),
            (0.99999999, "1"),
            (4503599627370500.0, "4.5036e15"),
            (1e-9, "1e-9"),
            (f64::NAN, "NaN"),
            (f64::INFINITY, "infinite"),
            (f64::NEG_INFINITY, "-infinite"),
        ] {
            assert_eq!(number(x, 6), text);
        }
    }

    #[test]
    fn counts_and_lists() {
        assert_eq!(count(0), "0");
        assert_eq!(count(999), "999");
        assert_eq!(count(4096), "4,096");
        assert_eq!(count(1234567), "1,234,567");
        assert_eq!(counted(1, "reading"), "1 reading");
        assert_eq!(counted(2, "reading"), "2 readings");
        assert_eq!(listed(&["a".into()]), "a");
        assert_eq!(listed(&["a".into(), "b".into(), "c".into()]), "a, b and c");
    }
}
