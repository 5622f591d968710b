//! A bar on a terminal, for a run that takes longer than half a second.

use super::style;
use super::sys;
use std::io::{self, IsTerminal, Write};
use std::time::{Duration, Instant};

/// Columns of a terminal that does not say.
const WIDTH: usize = 80;

/// The bar.
pub struct Progress {
    shown: bool,
    wanted: bool,
    /// Bytes of the list, where known.
    total: Option<u64>,
    start: Instant,
    next: Duration,
}

impl Progress {
    /// A bar for a list of so many bytes; none on a terminal that only prints, and none among the
    /// rows of a table.
    pub fn new(table: bool, total: Option<u64>) -> Progress {
        let among_rows = table && io::stdout().is_terminal();
        Progress {
            shown: false,
            wanted: io::stderr().is_terminal() && !style::dumb() && !among_rows,
            total,
            start: Instant::now(),
            next: Duration::from_millis(500),
        }
    }

    /// Now and then, the bar.
    pub fn show(&mut self, consumed: u64, records: u64) {
        let elapsed = self.start.elapsed();
        if !self.wanted || elapsed < self.next {
            return;
        }
        self.next = elapsed + Duration::from_millis(100);
        self.shown = true;
        // The last column stays free: some terminals go to the next line there.
        let width = sys::columns(&io::stderr()).unwrap_or(WIDTH) - 1;
        let bar = bar(consumed, self.total, records, elapsed, width);
        let _ = write!(io::stderr(), "\r{bar}\x1b[K");
        let _ = io::stderr().flush();
    }

    /// Takes the bar away.
    pub fn clear(&mut self) {
        if std::mem::take(&mut self.shown) {
            let _ = write!(io::stderr(), "\r\x1b[K");
        }
    }
}

/// The longest of some forms that fits.
fn bar(consumed: u64, total: Option<u64>, records: u64, elapsed: Duration, width: usize) -> String {
    // Records a microsecond are millions a second.
    let tenths = u128::from(records) * 10 / elapsed.as_micros().max(1);
    let speed = format!("{}.{} million records a second", tenths / 10, tenths % 10);
    let done = format!("{} MB", consumed / 1_000_000);
    let tail = format!("{done}, {records} records, {speed}");
    let forms = match total.filter(|&total| total > 0) {
        None => vec![tail, format!("{done}, {records} records"), done],
        Some(total) => {
            let consumed = consumed.min(total);
            let part = |whole: u64| u128::from(consumed) * u128::from(whole) / u128::from(total);
            let percent = format!("{} %", part(100));
            let filled = "#".repeat(usize::try_from(part(30)).unwrap_or(0));
            let left =
                elapsed.as_millis() * u128::from(total - consumed) / u128::from(consumed.max(1));
            let left = match (left + 500) / 1000 {
                1 => "1 second left".to_string(),
                left => format!("{left} seconds left"),
            };
            let barred = format!("[{filled:<30}] {percent:>5}");
            vec![
                format!("{barred}, {left}, {tail}"),
                format!("{barred}, {left}, {done}"),
                barred,
                format!("{percent}, {left}"),
                percent,
            ]
        }
    };
    forms.into_iter().find(|form| form.chars().count() <= width).unwrap_or_default()
}

#[cfg(test)]
mod tests {
    use super::*;

    #[test]
    fn bars_fit() {
        let second = Duration::from_secs(1);
        let text = bar(50_000_000, Some(100_000_000), 5_000_000, second, 120);
        let start = "[###############               ]  50 %, 1 second left, 50 MB, 5000000 records";
        assert!(text.starts_with(start), "{text}");
        assert!(bar(1, None, 1, second, 120).starts_with("0 MB, 1 records"));
        for width in 0..120 {
            for total in [None, Some(100_000_000)] {
                let text = bar(50_000_000, total, 5_000_000, second, width);
                assert!(text.chars().count() <= width, "{width}: {text}");
                assert!(width < 5 || !text.is_empty(), "{width}");
            }
        }
        assert_eq!(bar(50_000_000, Some(100_000_000), 5_000_000, second, 10), "50 %");
    }
}
