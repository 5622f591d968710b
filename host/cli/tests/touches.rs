//! `swarmtempo touches`: what of a capture can touch the clock.

mod common;

use common::{program, shell, status, stderr, stdout, Folder, SECOND};

const TEXT: &str = "\
12t SE
0t WR VIA.ORA $07
5t WR VIA.ORB $41
RAW 02 00 5A 5A
1t DI internal 0 0 0
7t DI internal 1 0 1
9t PW 5s
0t WR VIA.DDRB $06
65535t RS
0t RD VIA.ORB
3t MW VIA.DDRB $07 $06
0t KC 1
2t MW VIA.ORA $07 $06
1t MW VIA.ORB $03
";

/// The refused DI takes no time. An MW counts as its single writes, a KC and an MW elsewhere not.
const ROWS: &str = "      offset           VIA ticks  item
           0                  12  SE
          17                  17  WR VIA.ORB $41
          52                  33  PW 5s
          62                  33  WR VIA.DDRB $06
          73               65568  RS
          89               65571  WR VIA.DDRB $07
          89               65571  WR VIA.DDRB $06
         122               65574  WR VIA.ORB $03
";

#[test]
fn touches_of_a_capture() {
    let shown = program(&["touches", "--text", "-"], TEXT.as_bytes());
    assert_eq!((status(&shown), stdout(&shown)), (0, ROWS.to_string()), "{}", stderr(&shown));
    let records = swarmtempo::text::assemble(TEXT).expect("in the form");
    let shown = program(&["touches", "--cells=256", "-"], &records);
    assert_eq!((status(&shown), stdout(&shown)), (0, ROWS.to_string()), "{}", stderr(&shown));
    // What comes before a cut record is shown.
    let shown = program(&["touches", "-"], &[&records[..], &[9, 0, b'W']].concat());
    assert_eq!((status(&shown), stdout(&shown)), (1, ROWS.to_string()));
    assert!(stderr(&shown).contains("record cut short"), "{}", stderr(&shown));
    // More than one chunk.
    let shown = stdout(&program(&["touches", "-"], &SECOND.repeat(50_000)));
    assert_eq!(shown.lines().count(), 50_001);
    assert!(shown.ends_with("      299994               50000  SE\n"));
}

#[test]
fn two_captures() {
    let folder = Folder::new("touches");
    folder.put("a", TEXT.as_bytes());
    let compare = |other: &str| {
        folder.put("b", other.as_bytes());
        let done = shell(&folder, "exec \"$0\" touches --text a b", &[], b"");
        (status(&done), stdout(&done))
    };
    let agree = "0t SE\n9t VB\n0t WR VIA.ORB $41\n0t PW 5s\n8t WR VIA.DDRB $06\n0t RS\n\
                 0t WR VIA.DDRB $07\n0t MW VIA.DDRB $06\n0t WR VIA.ORB $03\n";
    assert_eq!(compare(agree), (0, "they agree: 8 items in both\n".into()));
    let ours = "a: at byte 52, after 33 VIA ticks: PW 5s";
    let b = "b: at byte 23, after 9 VIA ticks";
    for (from, to, wanted) in [
        ("PW 5s", "PW 6s", format!("they part after 2 items:\n  {ours}\n  {b}: PW 6s\n")),
        ("PW 5s", "SE", format!("they part after 2 items:\n  {ours}\n  {b}: SE\n")),
        ("0t WR VIA.ORB $03\n", "", {
            let ours = "a: at byte 122, after 65,574 VIA ticks: WR VIA.ORB $03";
            format!("they part after 7 items:\n  {ours}\n  b: no more\n")
        }),
        ("MW VIA.DDRB $06", "MW VIA.DDRB $05 $06", {
            let ours = "a: at byte 89, after 65,571 VIA ticks: WR VIA.DDRB $06";
            let b = "b: at byte 61, after 17 VIA ticks: WR VIA.DDRB $05";
            format!("they part after 6 items:\n  {ours}\n  {b}\n")
        }),
        ("DDRB $06", "ORB $06", {
            let ours = "a: at byte 62, after 33 VIA ticks: WR VIA.DDRB $06";
            let b = "b: at byte 33, after 17 VIA ticks: WR VIA.ORB $06";
            format!("they part after 3 items:\n  {ours}\n  {b}\n")
        }),
    ] {
        assert_eq!(compare(&agree.replace(from, to)), (1, wanted), "{from} {to}");
    }
}

#[test]
fn wrong_words() {
    for (words, wanted) in [
        (&["touches"][..], 64),
        (&["touches", "a", "b", "c"], 64),
        (&["touches", "-", "-"], 64),
        (&["touches", "-", "--text", "--records"], 64),
        (&["touches", "absent"], 74),
    ] {
        let done = program(words, b"");
        assert_eq!(status(&done), wanted, "{words:?}: {}", stderr(&done));
    }
    let wrong = program(&["touches", "-", "--text"], b"0t SE\n0t XX\n");
    assert_eq!(status(&wrong), 65);
    assert!(stderr(&wrong).starts_with("standard input:2:"), "{}", stderr(&wrong));
}
