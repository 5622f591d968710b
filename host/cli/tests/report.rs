//! `swarmtempo report`: the page by its text, its data against the states of a run, and in a browser.

mod common;

use common::{feed, has, program, shell, status, stderr, stdout, Folder};
use std::process::Command;
use swarmtempo::text::assemble;
use swarmtempo::{pieces, Chip, Lines, Machine, State, ANSWER_LEN};

const LAB: &str = include_str!("../../captures/lab.txt");

fn page(folder: &Folder, words: &[&str], list: &[u8]) -> String {
    let file = folder.path("page.html");
    let words = [&["report", "-", "-o", &file][..], words].concat();
    let done = program(&words, list);
    assert_eq!(status(&done), 0, "{}", stderr(&done));
    assert!(stdout(&done).is_empty());
    String::from_utf8(folder.get("page.html")).expect("UTF-8")
}

/// The text between two others.
fn between<'a>(text: &'a str, from: &str, to: &str) -> &'a str {
    let start = text.find(from).unwrap_or_else(|| panic!("no {from}")) + from.len();
    &text[start..start + text[start..].find(to).unwrap_or_else(|| panic!("no {to}"))]
}

fn data(page: &str) -> &str {
    between(page, "<script type=\"application/json\" id=\"data\">", "</script>")
}

fn numbers(data: &str, name: &str) -> Vec<u64> {
    let list = between(data, &format!("\"{name}\":["), "]");
    list.split(',').filter(|it| !it.is_empty()).map(|it| it.parse().expect("a number")).collect()
}

fn sums(deltas: Vec<u64>) -> Vec<u64> {
    let mut sum = 0;
    let add = |delta| {
        sum += delta;
        sum
    };
    deltas.into_iter().map(add).collect()
}

#[test]
fn what_is_on_the_page() {
    let folder = Folder::new("report");
    let shown = page(&folder, &["--text", "--cells=256"], LAB.as_bytes());
    assert!(shown.starts_with("<!DOCTYPE html>\n") && shown.ends_with("</html>\n"));
    // Nothing is fetched.
    for word in ["http:", "https:", " src=", "url(\"", "@import", "<link", "fetch("] {
        assert!(!shown.contains(word), "{word}");
    }
    for (fate, count) in
        [("written", 9), ("protected", 1), ("half", 1), ("illegal", 1), ("read", 7)]
    {
        let rows = shown.matches(&format!("<tr class=\"t {fate}")).count();
        assert_eq!(rows, count, "{fate}");
    }
    assert_eq!(shown.matches(" bad\" id=\"t").count(), 4);
    for words in [
        "<td>$3E $20 write cell 200</td><td class=\"b\">$33</td><td class=\"f\">written (was $00)</td>",
        "<td class=\"f\">kept out by protect</td>",
        "<td class=\"b\">%01110---</td><td class=\"f\">half sent (13 of 16 bits); 1 record refused meanwhile</td>",
        "<td>$4B is no command</td><td class=\"b\">-</td><td class=\"f\">illegal: ignored</td>",
        "the date read: 1995-05-04 02:40:19",
        "<h3 id=\"no8\">NO 8: a disk is there already, or none is (1 record)</h3>",
        "<b>What to do:</b> A DI before it is missing",
        "<td class=\"b\">5t DI internal 0 0 0</td>",
        "Clock chip with 256 cells. 19 transactions: 9 written, 1 kept out by protect",
        "  256 cells ",
        "  cells changed cell 3: $00 before, $5A after; cell 200: $00 before, $33 after",
        "@media print",
    ] {
        assert!(shown.contains(words), "{words}");
    }
    assert!(!shown.contains("id=\"left\""), "nothing is left out");
    // Names and nothing else in them.
    let file = folder.put("a<b>&\"c'.txt", LAB.as_bytes());
    let named = stdout(&program(&["report", "--text", &file], b""));
    assert!(named.contains("a&lt;b&gt;&amp;&quot;c'.txt</h1>"), "{}", &named[..400]);
    // An empty capture.
    let empty = page(&folder, &[], b"");
    assert!(empty.contains("<p>None.</p>") && empty.contains("<p>No record was refused.</p>"));
    // A cut one has a page, and a status.
    let cut = program(&["report", "-"], &[4, 0, b'S', b'E', 1, 0, 7]);
    assert_eq!(status(&cut), 1);
    assert!(stdout(&cut).contains("The capture ends amid a record (record cut short)"));
    assert!(stdout(&cut).contains("<h3 id=\"no1\">"));
}

/// All levels that the page draws, of a state.
fn mask(state: &State) -> u64 {
    let wires = state.wires();
    let Lines(lines) = state.lines;
    u64::from(wires.enable)
        | u64::from(wires.data_clock) << 1
        | u64::from(wires.data) << 2
        | u64::from(lines) << 3
        | u64::from(state.sel()) << 11
        | u64::from(state.level()) << 12
}

/// The items, VIA ticks and levels of all changes, by the library item by item.
fn changes(chip: Chip, list: &[u8]) -> Vec<(u64, u64, u64)> {
    let mut machine = Machine::fresh(chip);
    let mut all = vec![(0, 0, mask(&machine.state()))];
    let mut ticks = 0;
    for (piece, item) in pieces(list).zip(1..) {
        let mut answer = [0; ANSWER_LEN];
        machine.run_in(piece.as_ref(), &mut answer);
        if answer[2..4] != *b"OK" {
            continue;
        }
        let record = piece.as_ref();
        ticks += u64::from(u16::from_le_bytes([record[4], record[5]]));
        let levels = mask(&machine.state());
        if all.last().is_some_and(|last| last.2 != levels) {
            all.push((item, ticks, levels));
        }
    }
    all
}

#[test]
fn the_waveform_is_that_of_the_states() {
    let folder = Folder::new("report-data");
    let seek = include_str!("../../captures/seek.txt");
    for (text, chip) in [(LAB, Chip::Later), (LAB, Chip::First), (seek, Chip::First)] {
        let list = assemble(text).expect("in the form");
        let shown = page(&folder, &["--cells", &chip.cells().to_string()], &list);
        let data = data(&shown);
        let (items, ticks) = (sums(numbers(data, "items")), sums(numbers(data, "ticks")));
        let drawn = items.into_iter().zip(ticks).zip(numbers(data, "masks"));
        let drawn: Vec<_> = drawn.map(|((item, tick), mask)| (item, tick, mask)).collect();
        assert_eq!(drawn, changes(chip, &list));
    }
}

#[test]
fn a_long_capture_says_what_is_left_out() {
    let folder = Folder::new("report-long");
    let list = assemble(LAB).expect("in the form").repeat(200);
    let shown = page(&folder, &["--cells=256"], &list);
    for words in [
        "Clock chip with 256 cells. 3,800 transactions: ",
        "Of 3,800 transactions the first 2,000 are shown, and of later ones the first 500 that did not",
        "changes after it are not drawn. <code>report --from item:",
    ] {
        assert!(shown.contains(words), "{words}");
    }
    let rows = shown.matches("<tr class=\"t ").count();
    assert!((2_001..=2_500).contains(&rows), "{rows}");
    assert_eq!(numbers(data(&shown), "masks").len(), 20_000);
    assert!(shown.len() < 3_000_000, "{}", shown.len());
    // A part of it.
    let shown =
        page(&folder, &["--cells=256", "--from", "item:148500", "--to", "item:148543"], &list);
    assert!(
        shown.contains("Only a part was asked for: 2 of 3,800 transactions."),
        "{}",
        between(&shown, "<body>", "<h2>")
    );
    assert_eq!(shown.matches("<tr class=\"t ").count(), 2);
    let refused = b"\x02\0ZZ".repeat(5_000);
    let shown = page(&folder, &[], &refused);
    assert!(shown.contains("Of 5,000 refused records the first 2,000 are marked in the waveform."));
    assert!(
        shown.contains("<p>And 4,980 more: <code>swarmtempo run --refused</code> shows all.</p>")
    );
}

/// What a browser makes of a page and a script at its end.
fn browsed(folder: &Folder, page: &str, script: &str, hash: &str) -> String {
    let probed = page.replace("</body>", &format!("<script>{script}</script>\n</body>"));
    folder.put("probed.html", probed.as_bytes());
    let mut command = Command::new("chromium");
    command.args(["--headless", "--no-sandbox", "--disable-gpu", "--window-size=1280,1000"]);
    command.arg(format!("--user-data-dir={}", folder.path("profile")));
    command.args(["--virtual-time-budget=3000", "--dump-dom"]);
    command.arg(format!("file://{}{hash}", folder.path("probed.html")));
    let done = feed(&mut command, b"");
    assert!(done.status.success(), "{}", stderr(&done));
    stdout(&done)
}

/// Zoom, hover, jumps and the search, in a headless browser.
#[test]
fn in_a_browser() {
    if !has("chromium", "the page in a browser") {
        return;
    }
    let folder = Folder::new("report-browser");
    let shown = page(&folder, &["--text", "--cells=256"], LAB.as_bytes());
    let script = include_str!("probe/report.js");
    let dom = browsed(&folder, &shown, script, "#t7");
    assert!(dom.contains("data-ready=\"yes\""), "the script ran");
    let said = between(&dom, "<pre id=\"said\">", "</pre>").to_string();
    let lines: Vec<&str> = said.lines().collect();
    let wanted = [
        "hash 7 199.65 263.35",
        "all 0.00 744.00",
        "in 186.00 558.00",
        "right 372.00 744.00",
        "out 0.00 744.00",
        "row 13 469.05 511.95",
        "next 14",
        "box 1",
    ];
    assert_eq!(lines[..8], wanted, "{said}");
    assert!(lines[8].starts_with("hover since item 5"), "{said}");
    assert!(lines[8].contains("seconds): enable 0  data-clock "), "{said}");
    assert!(lines[8].ends_with("transaction 15: $4D write cell 3: half sent (13 of 16 bits); 1 record refused meanwhile"), "{said}");
    let wanted =
        ["clicked 14", "time time 61900.90 62075.10", "found 1", "paths 13 refused 1", "wide true"];
    assert_eq!(lines[9..14], wanted, "{said}");
}

/// A long page opens too, and a transaction that is not drawn says so; printed it is a document.
#[test]
fn a_long_page_in_a_browser() {
    if !has("chromium", "a long page in a browser") {
        return;
    }
    let folder = Folder::new("report-browser-long");
    let list = assemble(LAB).expect("in the form").repeat(200);
    let shown = page(&folder, &["--cells=256"], &list);
    let script = "document.getElementById('t1990').click(); var pre = document.createElement('pre'); pre.id = 'said'; \
                  pre.textContent = document.getElementById('seen').textContent; document.body.appendChild(pre);";
    let dom = browsed(&folder, &shown, script, "");
    assert!(dom.contains("data-ready=\"yes\""));
    let said = between(&dom, "<pre id=\"said\">", "</pre>");
    assert!(said.ends_with("It is not drawn: the waveform ends before it."), "{said}");
    let print = "chromium --headless --no-sandbox --disable-gpu --user-data-dir=\"$PWD/profile\" --no-pdf-header-footer \
                 --print-to-pdf=page.pdf \"file://$PWD/page.html\"";
    page(&folder, &["--text"], LAB.as_bytes());
    let done = shell(&folder, print, &[], b"");
    assert!(done.status.success(), "{}", stderr(&done));
    assert!(folder.get("page.pdf").starts_with(b"%PDF"));
}
