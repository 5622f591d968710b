//! A state in words: what `Display` writes of a [`Machine`], a [`State`] and its parts.

use crate::{Chip, Command, DriveState, InLine, Machine, Phase, State, Wires};
use std::fmt;

const FLAGS: [&str; 7] =
    ["0 one second", "1 vertical blanking", "2 shift register", "3 CB2", "4 CB1", "5 T2", "6 T1"];

/// All of a machine's image.
pub fn image(machine: &Machine) -> String {
    let state = machine.state();
    let kind = String::from_utf8_lossy(&state.chip.kind()).into_owned();
    format!("State image of kind {kind}, {} bytes\n\n{state}", machine.image().len())
}

impl fmt::Display for Machine {
    fn fmt(&self, f: &mut fmt::Formatter<'_>) -> fmt::Result {
        f.write_str(&image(self))
    }
}

impl fmt::Display for State {
    fn fmt(&self, f: &mut fmt::Formatter<'_>) -> fmt::Result {
        let mut out = String::new();
        via(self, &mut out);
        clock(self, &mut out);
        disk(self, &mut out);
        f.write_str(out.trim_start())
    }
}

impl fmt::Display for Phase {
    fn fmt(&self, f: &mut fmt::Formatter<'_>) -> fmt::Result {
        f.write_str(&phase(*self))
    }
}

impl fmt::Display for DriveState {
    fn fmt(&self, f: &mut fmt::Formatter<'_>) -> fmt::Result {
        f.write_str(&drive(self))
    }
}

impl fmt::Display for Wires {
    fn fmt(&self, f: &mut fmt::Formatter<'_>) -> fmt::Result {
        let [enable, clock, data] = [self.enable, self.data_clock, self.data].map(u8::from);
        write!(f, "enable {enable} (low active), data-clock {clock}, data {data}")
    }
}

fn via(state: &State, out: &mut String) {
    out.push_str("\nVIA\n");
    for (name, output, dir, levels) in [
        ("port B", state.out_b, state.dir_b, state.port_b()),
        ("port A", state.out_a, state.dir_a, state.port_a()),
    ] {
        out.push_str(&format!(
            "  {name}    output bits ${output:02X}, directions ${dir:02X} (1 is output), levels ${levels:02X} (%{levels:08b})\n"
        ));
    }
    for line in (0..InLine::COUNT).filter_map(InLine::new) {
        let level = u8::from(state.inputs[usize::from(line.number())]);
        out.push_str(&format!("  IN {line}      {level} ({})\n", line.name()));
    }
    let (t1, t2) = (state.t1, state.t2);
    out.push_str(&format!(
        "  T1        counter {} VIA ticks (${0:04X}), latch {} VIA ticks (${1:04X}), {}, {}{}\n",
        t1.counter.0,
        t1.latch.0,
        if state.acr & 0x40 != 0 { "free run" } else { "one shot" },
        armed(t1.armed),
        if t1.due { ", load due at the next VIA tick" } else { "" },
    ));
    out.push_str(&format!(
        "  T2        counter {} VIA ticks (${0:04X}), low latch ${:02X}, {}, {}\n",
        t2.counter.0,
        t2.low,
        if state.acr & 0x20 != 0 { "standing still" } else { "running" },
        armed(t2.armed),
    ));
    out.push_str(&format!(
        "  SR ${:02X}, ACR ${:02X}, PCR ${:02X}\n",
        state.sr, state.acr, state.pcr
    ));
    let pulses = state.pulses;
    out.push_str(&format!("  shift     {}, {pulses} of 8 pulses counted\n", shift(state.acr)));
    out.push_str(&format!("  flags     ${:02X}: {}\n", state.flags, flags(state.flags)));
    out.push_str(&format!("  enables   ${:02X}: {}\n", state.enables, flags(state.enables)));
    out.push_str(&format!("  level     {}\n", state.level()));
}

/// What a pulse of the keyboard's clock does, by ACR bits 4 to 2.
fn shift(acr: u8) -> &'static str {
    match acr >> 2 & 7 {
        0b011 => "in by the keyboard's clock",
        0b111 => "out by the keyboard's clock",
        _ => "standing still",
    }
}

fn armed(armed: bool) -> &'static str {
    if armed {
        "armed"
    } else {
        "not armed"
    }
}

fn flags(byte: u8) -> String {
    let set: Vec<&str> = (0..7).filter(|i| byte >> i & 1 != 0).map(|i| FLAGS[i]).collect();
    if set.is_empty() {
        "none".into()
    } else {
        set.join(", ")
    }
}

fn clock(state: &State, out: &mut String) {
    out.push_str("\nClock chip\n");
    out.push_str(&format!("  wires     {}\n", state.wires()));
    out.push_str(&format!("  command   {}\n", phase(state.phase)));
    out.push_str(&format!("  protect   {}\n", if state.protect { "set" } else { "clear" }));
    let stopped = if state.seconds_stopped() { " (seconds stopped)" } else { "" };
    out.push_str(&format!("  test      ${:02X}{stopped}\n", state.test));
    out.push_str(&format!("  seconds   {} seconds: {}\n", state.seconds.0, date(state.seconds.0)));
    cells(state, out);
}

/// A row for sixteen cells; over those of the later chip, which are many, the low digits.
fn cells(state: &State, out: &mut String) {
    if state.chip == Chip::Later {
        let digits: Vec<String> = (0..16).map(|low| format!(" {low:X}")).collect();
        out.push_str(&format!("  {:<9}      {}\n", "256 cells", digits.join(" ")));
    }
    for (row, cells) in state.cells.chunks(16).enumerate() {
        let shown: Vec<String> = cells.iter().map(|cell| format!("{cell:02X}")).collect();
        let name = if row == 0 && state.chip == Chip::First { "cells" } else { "" };
        out.push_str(&format!("  {name:<9} ${:02X}: {}\n", 16 * row, shown.join(" ")));
    }
}

fn phase(phase: Phase) -> String {
    let bits = |count: u8, value: u8| match count {
        0 => "no bits".to_string(),
        1 => format!("1 bit, {value}"),
        _ => format!("{count} bits, {value:0width$b}", width = usize::from(count)),
    };
    match phase {
        Phase::Idle => "none, enable is up".into(),
        Phase::Listening { bits: count, value } => {
            format!("half-made: {} of the command taken", bits(count, value))
        }
        Phase::Taking { command, bits: count, value } => {
            let name = Command::of(command).map_or(String::new(), |it| it.to_string());
            format!("${command:02X} ({name}): {} of the data taken", bits(count, value))
        }
        Phase::Second { first, bits: count, value } => {
            let kind = if first & 0x80 != 0 { "read" } else { "write" };
            let bits = bits(count, value);
            format!("${first:02X} ({kind} of two bytes): {bits} of the second byte taken")
        }
        Phase::TakingExtended { first, second, bits: count, value } => {
            let name = Command::of_two(first, second).map_or(String::new(), |it| it.to_string());
            let bits = bits(count, value);
            format!("${first:02X} ${second:02X} ({name}): {bits} of the data taken")
        }
        Phase::Sending { byte, falls } => {
            format!("sending ${byte:02X}, {falls} falls of data-clock seen")
        }
        Phase::Ignoring => "ignored until enable goes up".into(),
    }
}

fn disk(state: &State, out: &mut String) {
    out.push_str("\nDisk\n");
    out.push_str(&format!("  lines on  {}\n", state.lines));
    out.push_str(&format!("  SEL       {}\n", u8::from(state.sel())));
    out.push_str(
        "  SN set    0 1 2 3 4 5 6 7 8 9 A B C D E F (0 to 5, C and F are the drive's own)\n",
    );
    for (name, levels) in ["internal", "external"].iter().zip(&state.sense) {
        let shown: Vec<&str> = levels.iter().map(|&on| if on { "1" } else { "0" }).collect();
        out.push_str(&format!("  {name}  {}\n", shown.join(" ")));
    }
    out.push_str("  drives\n");
    for (name, state) in ["internal", "external"].iter().zip(&state.drives) {
        out.push_str(&format!("  {name}  {}\n", drive(state)));
    }
    if state.strobe.steady {
        out.push_str(&format!("  strobe    steady for {:#}\n", state.strobe.ticks));
    }
}

fn drive(drive: &DriveState) -> String {
    let towards = |out: bool| if out { "towards track 0" } else { "towards track 79" };
    let disk = match (drive.disk, drive.locked) {
        (false, _) => "no disk",
        (true, false) => "disk",
        (true, true) => "locked disk",
    };
    let sides = if drive.double_sided { "double-sided" } else { "single-sided" };
    let motor = if drive.motor { "motor on" } else { "motor off" };
    let mut words =
        format!("track {}, {}, {disk}, {sides}, {motor}", drive.track, towards(drive.direction));
    if drive.step_left.0 > 0 {
        let way = towards(drive.step_direction);
        words.push_str(&format!(", stepping {way} with {:#} left", drive.step_left));
    }
    words
}

/// The date of so many seconds since 1 January 1904, midnight.
pub fn date(seconds: u32) -> String {
    let (mut days, time) = (seconds / 86_400, seconds % 86_400);
    let mut year = 1904;
    // 1904 to 2040: 2000, the only century year, is a leap year.
    let leap = |year: u32| year.is_multiple_of(4);
    while days >= 365 + u32::from(leap(year)) {
        days -= 365 + u32::from(leap(year));
        year += 1;
    }
    let lengths = [31, 28 + u32::from(leap(year)), 31, 30, 31, 30, 31, 31, 30, 31, 30, 31];
    let mut month = 0;
    while days >= lengths[month] {
        days -= lengths[month];
        month += 1;
    }
    let (hour, minute, second) = (time / 3600, time / 60 % 60, time % 60);
    format!("{year}-{:02}-{:02} {hour:02}:{minute:02}:{second:02}", month + 1, days + 1)
}

#[cfg(test)]
mod tests {
    use super::date;

    #[test]
    fn dates() {
        for (seconds, text) in [
            (0, "1904-01-01 00:00:00"),
            (59 * 86_400 + 86_399, "1904-02-29 23:59:59"),
            (366 * 86_400, "1905-01-01 00:00:00"),
            (2_082_844_800, "1970-01-01 00:00:00"),
            (3_034_799_999, "2000-03-01 23:59:59"),
            (u32::MAX, "2040-02-06 06:28:15"),
        ] {
            assert_eq!(date(seconds), text);
        }
    }
}
