//! Numbers for readers.

/// So many of them.
pub fn counted(count: u64, what: &str) -> String {
    format!("{} {what}{}", digits(count), if count == 1 { "" } else { "s" })
}

/// A number with a comma before each three digits.
pub fn digits(number: u64) -> String {
    let plain = number.to_string();
    let mut text = String::new();
    for (place, digit) in plain.chars().enumerate() {
        if place > 0 && (plain.len() - place) % 3 == 0 {
            text.push(',');
        }
        text.push(digit);
    }
    text
}

#[cfg(test)]
mod tests {
    use super::*;

    #[test]
    fn numbers() {
        let numbers = [0, 999, 1000, 65535, 1_000_000, u64::MAX];
        let texts = ["0", "999", "1,000", "65,535", "1,000,000", "18,446,744,073,709,551,615"];
        assert_eq!(numbers.map(digits), texts);
        assert_eq!([0, 1, 2].map(|count| counted(count, "tick")), ["0 ticks", "1 tick", "2 ticks"]);
    }
}
