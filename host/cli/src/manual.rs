//! The man page.

use super::commands::{Command, COMMANDS, GROUPS, STATUSES, TEXT_FORM, UNITS};

/// The page, for `man`.
pub fn page() -> String {
    let version = env!("CARGO_PKG_VERSION");
    let mut out = format!(".TH SWARMTEMPO 1 \"\" \"swarmtempo {version}\" \"User Commands\"\n");
    out.push_str(".SH NAME\nswarmtempo \\- lists and state images of the board\n");
    out.push_str(".SH SYNOPSIS\n.B swarmtempo\n");
    for command in &COMMANDS {
        let options = if command.flags.is_empty() { "" } else { "[OPTIONS]" };
        let rest = escaped(format!("{} {options}", command.operand).trim());
        out.push_str(&format!(".br\n\\fBswarmtempo {}\\fR {rest}\n", command.name));
    }
    out.push_str(".SH DESCRIPTION\n");
    paragraph(
        "swarmtempo runs lists of timed bus accesses and input events on the board (VIA, clock chip, \
         disk lines) and gives an answer to each. With no word a small list is run and explained. \
         A file named - is standard input or output; after -- there are no options.",
        &mut out,
    );
    for command in COMMANDS.iter().filter(|command| command.group().is_none()) {
        section(command, &mut out);
    }
    for group in &GROUPS {
        out.push_str(&format!(".SS {}\n", group.name));
        paragraph(group.about, &mut out);
        group.commands().for_each(|command| section(command, &mut out));
    }
    out.push_str(".SH TEXT FORM\n");
    paragraph(UNITS, &mut out);
    out.push_str(".PP\n.nf\n");
    for line in TEXT_FORM.lines() {
        out.push_str(&format!("{}\n", escaped(line)));
    }
    out.push_str(".fi\n.SH EXIT STATUS\n");
    paragraph(STATUSES, &mut out);
    out.push_str(".SH ENVIRONMENT\n");
    paragraph("NO_COLOR, where it is set, and TERM, where it is dumb: no colours, and with TERM dumb no bar.", &mut out);
    out
}

fn section(command: &Command, out: &mut String) {
    out.push_str(&format!(".SS {} {}\n", command.name, escaped(command.operand)));
    paragraph(command.about, out);
    for flag in command.flags {
        let name = escaped(flag.name);
        out.push_str(&format!(".TP\n.B {name} {}\n", flag.value));
        paragraph(flag.help, out);
    }
}

/// Lines that are filled, but for those that begin with a blank, which stay as they are.
fn paragraph(text: &str, out: &mut String) {
    let mut as_is = false;
    for line in text.lines() {
        if as_is != line.starts_with(' ') {
            as_is = !as_is;
            out.push_str(if as_is { ".nf\n" } else { ".fi\n" });
        }
        let line = escaped(line);
        out.push_str(if line.is_empty() { ".PP" } else { &line });
        out.push('\n');
    }
    out.push_str(if as_is { ".fi\n" } else { "" });
}

/// Text in which nothing is a request of the page's language.
fn escaped(text: &str) -> String {
    let text = text.replace('\\', "\\e").replace('-', "\\-");
    if text.starts_with(['.', '\'']) {
        format!("\\&{text}")
    } else {
        text
    }
}
