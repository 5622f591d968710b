//! Draws tracks of a Value Change Dump (standard input) as SVG (standard output):
//!
//! ```sh
//! swarmtempo run host/captures/cell.txt --text --quiet --vcd cell.vcd
//! cargo run --example wave -- enable data_clock data decoded < cell.vcd > docs/waveform.svg
//! ```

use std::collections::HashMap;
use std::io::Read;

const LEFT: f64 = 96.0;
const WIDTH: f64 = 1100.0;
const ROW: f64 = 34.0;
const HIGH: f64 = 18.0;
/// Nanoseconds of a VIA tick.
const TICK: f64 = 1e9 / 783_360.0;

/// The values of a track, each with its time in nanoseconds.
type Track = Vec<(f64, String)>;

/// The tracks of a dump by name, and its end in nanoseconds.
fn tracks(dump: &str) -> (HashMap<String, Track>, f64) {
    let mut names = HashMap::new();
    let mut tracks: HashMap<String, Track> = HashMap::new();
    let mut time = 0.0;
    for line in dump.lines() {
        let words: Vec<&str> = line.split_whitespace().collect();
        if let ["$var", _, _, code, name, ..] = words[..] {
            names.insert(code.to_string(), name.to_string());
        } else if let Some(at) = line.strip_prefix('#') {
            time = at.parse().unwrap_or(time);
        } else if !line.is_empty() && !line.starts_with('$') {
            let (value, code) = match words[..] {
                [value, code] => (&value[1..], code),
                _ => line.split_at(1),
            };
            if let Some(name) = names.get(code) {
                tracks.entry(name.clone()).or_default().push((time, value.to_string()));
            }
        }
    }
    (tracks, time)
}

fn level_path(track: &Track, end: f64, top: f64, x: impl Fn(f64) -> f64) -> String {
    let y = |value: &str| if value == "1" { top } else { top + HIGH };
    let mut path = String::new();
    for (time, value) in track {
        let (x, y) = (x(*time), y(value));
        let step =
            if path.is_empty() { format!("M{x:.1} {y:.1}") } else { format!("H{x:.1}V{y:.1}") };
        path.push_str(&step);
    }
    format!("<path d=\"{path}H{:.1}\"/>\n", x(end))
}

fn word_boxes(track: &Track, end: f64, top: f64, x: impl Fn(f64) -> f64) -> String {
    let mut out = String::new();
    for (i, (time, value)) in track.iter().enumerate() {
        let until = track.get(i + 1).map_or(end, |next| next.0);
        let (from, width) = (x(*time), x(until) - x(*time));
        out.push_str(&format!(
            "<rect x=\"{from:.1}\" y=\"{top:.1}\" width=\"{width:.1}\" height=\"{HIGH}\" rx=\"4\"/>\n"
        ));
        let words = value.replace('_', " ");
        if width > 6.2 * words.len() as f64 {
            let (middle, base) = (from + width / 2.0, top + 13.0);
            out.push_str(&format!(
                "<text x=\"{middle:.1}\" y=\"{base:.1}\" text-anchor=\"middle\">{words}</text>\n"
            ));
        }
    }
    out
}

fn main() {
    let wanted: Vec<String> = std::env::args().skip(1).collect();
    let mut dump = String::new();
    std::io::stdin().read_to_string(&mut dump).expect("a dump on standard input");
    let (tracks, end) = tracks(&dump);
    let x = |time: f64| LEFT + time / end * WIDTH;
    let height = ROW * wanted.len() as f64 + 36.0;
    println!("<svg xmlns=\"http://www.w3.org/2000/svg\" viewBox=\"0 0 {:.0} {height:.0}\" font-family=\"sans-serif\" font-size=\"11\">", LEFT + WIDTH + 12.0);
    println!("<rect width=\"100%\" height=\"100%\" fill=\"white\"/>");
    let ticks = end / TICK;
    let step = [1.0, 2.0, 5.0, 10.0, 20.0, 50.0, 100.0, 200.0, 500.0]
        .into_iter()
        .find(|step| ticks / step < 15.0)
        .unwrap_or(ticks / 10.0);
    for mark in 0..=(ticks / step) as u32 {
        let at = x(f64::from(mark) * step * TICK);
        println!("<path d=\"M{at:.1} 8V{:.1}\" stroke=\"#ddd\"/><text x=\"{at:.1}\" y=\"{:.1}\" text-anchor=\"middle\" fill=\"#555\">{:.0}t</text>", height - 22.0, height - 8.0, f64::from(mark) * step);
    }
    for (row, name) in wanted.iter().enumerate() {
        let top = 12.0 + ROW * row as f64;
        println!("<text x=\"8\" y=\"{:.1}\">{name}</text>", top + 13.0);
        let Some(track) = tracks.get(name) else {
            eprintln!("the dump has no track {name}");
            std::process::exit(1);
        };
        if track.iter().all(|(_, value)| value == "0" || value == "1") {
            let path = level_path(track, end, top, x);
            print!("<g fill=\"none\" stroke=\"#06c\" stroke-width=\"1.2\">{path}</g>");
        } else {
            let boxes = word_boxes(track, end, top, x);
            let boxes = boxes.replace("<rect", "<rect fill=\"#eef6ee\" stroke=\"#284\"");
            print!("{boxes}");
        }
    }
    println!("</svg>");
}
