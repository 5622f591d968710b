//! Times of an analyser's file.

use swarmtempo::Femtoseconds;

/// A unit of time.
#[derive(Clone, Copy, Debug, PartialEq, Eq)]
pub struct Unit(i128);

/// Their short and long names, and how many femtoseconds they have.
const UNITS: [(&str, &str, i128); 6] = [
    ("s", "seconds", 1_000_000_000_000_000),
    ("ms", "milliseconds", 1_000_000_000_000),
    ("us", "microseconds", 1_000_000_000),
    ("ns", "nanoseconds", 1_000_000),
    ("ps", "picoseconds", 1_000),
    ("fs", "femtoseconds", 1),
];

impl Unit {
    /// Of its name, short or long.
    pub fn of(name: &str) -> Option<Unit> {
        let name = name.trim().to_lowercase().replace(['\u{B5}', '\u{3BC}'], "u");
        let fits = |&&(short, long, _): &&(&str, &str, i128)| {
            name == short || name == long || name == *long.trim_end_matches('s')
        };
        UNITS.iter().find(fits).map(|&(_, _, unit)| Unit(unit))
    }

    /// Of the name of a column of times: `Time [s]`, `time_ns`, `Time(us)`, `nanoseconds`.
    pub fn of_column(name: &str) -> Option<Unit> {
        let name = name.trim().to_lowercase();
        let unit = name.strip_prefix("time").unwrap_or(&name);
        Unit::of(unit.trim_matches(|c: char| !c.is_alphabetic())).filter(|_| is_time(&name))
    }

    /// So many times this unit.
    pub fn times(self, count: i128) -> Option<Unit> {
        self.0.checked_mul(count).map(Unit)
    }

    /// A whole number of this unit.
    pub fn whole(self, count: u64) -> Option<Femtoseconds> {
        self.0.checked_mul(i128::from(count)).map(Femtoseconds)
    }

    /// A decimal number of this unit, as `-12`, `0.0000125` or `1.25e-05`, cut to whole femtoseconds.
    pub fn decimal(self, text: &str) -> Option<Femtoseconds> {
        let (mantissa, exponent) = match text.split_once(['e', 'E']) {
            Some((mantissa, exponent)) => (mantissa, exponent.parse::<i32>().ok()?),
            None => (text, 0),
        };
        let (negative, digits) = match mantissa.strip_prefix('-') {
            Some(digits) => (true, digits),
            None => (false, mantissa.strip_prefix('+').unwrap_or(mantissa)),
        };
        let (whole, part) = digits.split_once('.').unwrap_or((digits, ""));
        let both = [whole, part].concat();
        if both.is_empty() || !both.bytes().all(|byte| byte.is_ascii_digit()) {
            return None;
        }
        // All digits are a whole number, which the point and the exponent then move.
        let part_len = i32::try_from(part.len()).ok()?;
        let trimmed = both.trim_start_matches('0');
        let number: i128 = if trimmed.is_empty() { 0 } else { trimmed.parse().ok()? };
        let moved = exponent.checked_sub(part_len)?;
        let scaled = number.checked_mul(self.0)?;
        let ten = 10i128.checked_pow(moved.unsigned_abs());
        let value = match (moved < 0, ten) {
            (true, Some(ten)) => scaled / ten,
            (true, None) => 0,
            (false, Some(ten)) => scaled.checked_mul(ten)?,
            (false, None) if number == 0 => 0,
            (false, None) => return None,
        };
        Some(Femtoseconds(if negative { -value } else { value }))
    }
}

/// True for the name of a column of times: `time` with a unit or none after it, or a unit's long name.
pub fn is_time(name: &str) -> bool {
    let name = name.trim().to_lowercase();
    let unit = |name: &str| Unit::of(name).is_some();
    match name.strip_prefix("time") {
        Some(rest) => !rest.starts_with(char::is_alphabetic) || unit(rest),
        None => name.len() > 2 && unit(&name),
    }
}

/// A rate as sigrok writes it, `10 MHz` or `10000000`, in samples a second.
pub fn rate(text: &str) -> Option<u64> {
    let text = text.trim();
    let end = text.find(|c: char| !c.is_ascii_digit() && c != '.').unwrap_or(text.len());
    let (number, unit) = text.split_at(end);
    let factor = match unit.trim().to_lowercase().as_str() {
        "" | "hz" => 1u64,
        "khz" => 1_000,
        "mhz" => 1_000_000,
        "ghz" => 1_000_000_000,
        _ => return None,
    };
    let (whole, part) = number.split_once('.').unwrap_or((number, ""));
    let scale = 10u64.checked_pow(u32::try_from(part.len()).ok()?)?;
    let digits: u64 = [whole, part].concat().parse().ok()?;
    let rate = u128::from(digits) * u128::from(factor) / u128::from(scale);
    u64::try_from(rate).ok().filter(|&rate| rate > 0)
}

/// The time of a sample by its number.
pub fn of_sample(number: u64, rate: u64) -> Femtoseconds {
    Femtoseconds(i128::from(number) * Femtoseconds::SECOND.0 / i128::from(rate))
}

#[cfg(test)]
mod tests {
    use super::*;

    #[test]
    fn decimals() {
        let unit = |name: &str| Unit::of(name).expect("a unit");
        for (text, name, femtoseconds) in [
            ("0", "s", 0),
            ("1.25e-05", "s", 12_500_000_000),
            ("0.0000125", "seconds", 12_500_000_000),
            ("-0.5", "us", -500_000_000),
            ("+3.", "ns", 3_000_000),
            (".5", "ps", 500),
            ("12.3456789", "fs", 12),
            ("1E3", "ms", 1_000_000_000_000_000),
            ("7e-400", "s", 0),
            ("0e400", "s", 0),
        ] {
            assert_eq!(unit(name).decimal(text), Some(Femtoseconds(femtoseconds)), "{text} {name}");
        }
        for text in
            ["", ".", "-", "1,5", "1e", "0x10", "1 ", "1e400", "1e99999999999", "nan", "--1"]
        {
            assert_eq!(unit("s").decimal(text), None, "{text}");
        }
    }

    #[test]
    fn heads_and_rates() {
        for (name, unit) in [
            ("Time [s]", "s"),
            ("Time[ns]", "ns"),
            ("time_us", "us"),
            ("Time(\u{B5}s)", "us"),
            ("timens", "ns"),
            ("nanoseconds", "ns"),
        ] {
            assert!(is_time(name), "{name}");
            assert_eq!(Unit::of_column(name), Unit::of(unit), "{name}");
        }
        for (name, time) in [("Time", true), ("time of day", true), ("timer", false), ("s", false)]
        {
            assert_eq!((is_time(name), Unit::of_column(name)), (time, None), "{name}");
        }
        for (text, wanted) in [
            ("10 MHz", Some(10_000_000)),
            ("783.36 kHz", Some(783_360)),
            ("24000000", Some(24_000_000)),
            ("1 GHz", Some(1_000_000_000)),
            ("0 Hz", None),
            ("fast", None),
        ] {
            assert_eq!(rate(text), wanted, "{text}");
        }
        assert_eq!(of_sample(3, 10_000_000), Femtoseconds(300_000_000));
    }
}
