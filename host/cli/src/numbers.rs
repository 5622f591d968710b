//! Numbers for people, with their units.

use swarmtempo::TICKS_PER_SECOND;

/// A number in groups of three digits: 1,234,567.
pub fn grouped(number: u64) -> String {
    let digits = number.to_string();
    let mut out = String::new();
    for (i, digit) in digits.chars().enumerate() {
        if i > 0 && (digits.len() - i).is_multiple_of(3) {
            out.push(',');
        }
        out.push(digit);
    }
    out
}

/// A number of things, by the word for one of them.
pub fn counted(number: u64, one: &str) -> String {
    format!("{} {one}{}", grouped(number), if number == 1 { "" } else { "s" })
}

/// VIA ticks, and the seconds that they are: whole ones and millionths, rounded down.
pub fn ticks_and_seconds(ticks: u64) -> String {
    let second = u64::from(TICKS_PER_SECOND);
    let (whole, part) = (ticks / second, ticks % second * 1_000_000 / second);
    format!("{} ({}.{part:06} seconds)", counted(ticks, "VIA tick"), grouped(whole))
}

#[cfg(test)]
mod tests {
    use super::*;

    #[test]
    fn numbers_and_units() {
        assert_eq!(grouped(0), "0");
        assert_eq!(grouped(999), "999");
        assert_eq!(grouped(1_000), "1,000");
        assert_eq!(grouped(u64::MAX), "18,446,744,073,709,551,615");
        assert_eq!(counted(1, "item"), "1 item");
        assert_eq!(counted(0, "item"), "0 items");
        assert_eq!(ticks_and_seconds(783_360), "783,360 VIA ticks (1.000000 seconds)");
        assert_eq!(ticks_and_seconds(1), "1 VIA tick (0.000001 seconds)");
        assert_eq!(ticks_and_seconds(1_175_040), "1,175,040 VIA ticks (1.500000 seconds)");
    }
}
