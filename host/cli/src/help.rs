//! Help: all commands, or one.

use super::commands::{Command, Group, COMMANDS, STATUSES, TEXT_FORM, UNITS};
use super::failure::called;

/// All commands.
pub fn all() -> String {
    let mut out = String::from("swarmtempo: lists and state images of the board\n\n");
    let called = called();
    out.push_str(&format!("  {:<42} a small list, run and explained\n", called.clone()));
    for command in &COMMANDS {
        out.push_str(&format!("  {:<42} {}\n", usage(command), command.brief));
    }
    out.push_str(&format!("\n{called} COMMAND --help has a command's options. A file named - is standard input or\noutput; after -- there are no options.\n"));
    out.push_str(&format!("\n{UNITS}\n\n"));
    TEXT_FORM.lines().for_each(|line| out.push_str(&format!("  {line}\n")));
    out.push_str(&format!("\n{STATUSES}\n"));
    out
}

/// One command.
pub fn of(command: &Command) -> String {
    let mut out = format!("{}\n\n{}\n", usage(command), command.about);
    if !command.flags.is_empty() {
        out.push('\n');
    }
    for flag in command.flags {
        let name = format!("{} {}", flag.name, flag.value);
        out.push_str(&format!("  {:<17} {}\n", name.trim_end(), flag.help));
    }
    out
}

/// A group's commands.
pub fn of_group(group: &Group) -> String {
    let called = called();
    let mut out = format!("{called} {}: {}\n\n", group.name, group.brief);
    for command in group.commands() {
        out.push_str(&format!("  {:<42} {}\n", usage(command), command.brief));
    }
    out.push_str(&format!("\n{}\n\n", group.about));
    out.push_str(&format!("{called} {} COMMAND --help has a command's options.\n", group.name));
    out
}

/// A command with what follows it.
fn usage(command: &Command) -> String {
    let mut words = vec![called(), command.name.to_string()];
    words.extend((!command.operand.is_empty()).then(|| command.operand.to_string()));
    if command.flags.len() == 1 {
        let flag = &command.flags[0];
        words.push(format!("[{} {}]", flag.name, flag.value).replace(" ]", "]"));
    } else if !command.flags.is_empty() {
        words.push("[OPTIONS]".to_string());
    }
    words.join(" ")
}
