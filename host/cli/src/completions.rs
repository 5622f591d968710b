//! Completions of the words, for shells.

use super::commands::{Command, Flag, COMMANDS, GROUPS};
use std::ffi::OsStr;

/// The shells.
pub const SHELLS: [&str; 3] = ["bash", "zsh", "fish"];

/// The completions of a shell, or none where there are none for it.
pub fn of(shell: &OsStr) -> Option<String> {
    match shell.to_str()? {
        "bash" => Some(bash()),
        "zsh" => Some(zsh()),
        "fish" => Some(fish()),
        _ => None,
    }
}

/// What a value or an operand can be.
enum Values {
    Nothing,
    Files,
    Words(Vec<&'static str>),
}

fn values(name: &str) -> Values {
    match name.trim_matches(['[', ']', '.']) {
        "A B" | "CAPTURE" | "EVENTS" | "FILE" | "IMAGE ASK" | "LIST" | "OLD" | "SHEET" | "TEXT" => {
            Values::Files
        }
        "WHEN" => Values::Words(vec!["always", "never", "auto"]),
        "CELLS" => Values::Words(vec!["20", "256"]),
        "UNIT" => Values::Words(vec!["s", "ms", "us", "ns", "ps", "fs"]),
        "PART" => Values::Words(vec!["clock", "via", "disk"]),
        "SHELL" => Values::Words(SHELLS.to_vec()),
        "COMMAND" => Values::Words(names()),
        _ => Values::Nothing,
    }
}

/// First words and what they do: of commands of one word, and of groups.
fn first_words() -> Vec<(&'static str, &'static str)> {
    let alone = COMMANDS.iter().filter(|command| command.group().is_none());
    let groups = GROUPS.iter().map(|group| (group.name, group.brief));
    alone.map(|command| (command.name, command.brief)).chain(groups).collect()
}

fn names() -> Vec<&'static str> {
    first_words().into_iter().map(|(name, _)| name).collect()
}

/// The options of a command, and those of all.
fn options(command: &Command) -> Vec<&'static str> {
    command.flags.iter().map(|flag| flag.name).chain(["--help", "--version"]).collect()
}

fn bash() -> String {
    let reply = |values: &Values| match values {
        Values::Nothing => "COMPREPLY=()".to_string(),
        Values::Files => "COMPREPLY=($(compgen -f -- \"$word\"))".to_string(),
        Values::Words(words) => {
            format!("COMPREPLY=($(compgen -W '{}' -- \"$word\"))", words.join(" "))
        }
    };
    let mut out = String::from("# bash completions of swarmtempo\n_swarmtempo() {\n");
    out.push_str("    local word=${COMP_WORDS[COMP_CWORD]} before=${COMP_WORDS[COMP_CWORD-1]}\n");
    out.push_str("    if [ \"$COMP_CWORD\" -eq 1 ]; then\n");
    let first = Values::Words([names(), vec!["--help", "--version"]].concat());
    out.push_str(&format!("        {}\n        return\n    fi\n", reply(&first)));
    out.push_str("    local command=${COMP_WORDS[1]}\n    case $command in\n");
    for group in &GROUPS {
        let second = reply(&Values::Words([group.last_words(), vec!["--help"]].concat()));
        out.push_str(&format!(
            "    {})\n        if [ \"$COMP_CWORD\" -eq 2 ]; then {second}; return; fi\n",
            group.name
        ));
        out.push_str("        command=\"$command ${COMP_WORDS[2]}\" ;;\n");
    }
    out.push_str("    esac\n    case $command:$before:$word in\n");
    for command in &COMMANDS {
        for Flag { name, value, .. } in command.flags.iter().filter(|flag| !flag.value.is_empty()) {
            let reply = reply(&values(value));
            out.push_str(&format!("    '{}':{name}:*) {reply} ;;\n", command.name));
        }
        let flags = reply(&Values::Words(options(command)));
        out.push_str(&format!("    '{}':*:-*) {flags} ;;\n", command.name));
        let operand = reply(&values(command.operand));
        out.push_str(&format!("    '{}':*) {operand} ;;\n", command.name));
    }
    out.push_str("    esac\n}\ncomplete -o filenames -F _swarmtempo swarmtempo\n");
    out
}

fn zsh() -> String {
    let action = |name: &str| match values(name) {
        Values::Nothing => String::new(),
        Values::Files => "_files".to_string(),
        Values::Words(words) => format!("({})", words.join(" ")),
    };
    let plain = |text: &str| {
        text.replace('\'', "'\\''").replace(':', "\\:").replace('[', "\\[").replace(']', "\\]")
    };
    let mut out = String::from("#compdef swarmtempo\n# zsh completions of swarmtempo\n");
    out.push_str("if (( CURRENT == 2 )); then\n    local -a commands=(\n");
    for (name, brief) in first_words() {
        out.push_str(&format!("        '{name}:{}'\n", plain(brief)));
    }
    out.push_str("    )\n    _describe command commands\n    return\nfi\n");
    out.push_str("local command=$words[2]\nshift words\n(( CURRENT-- ))\ncase $command in\n");
    for group in &GROUPS {
        out.push_str(&format!("{})\n    if (( CURRENT == 2 )); then\n", group.name));
        out.push_str("        local -a commands=(\n");
        for command in group.commands() {
            let (word, brief) = (command.last_word(), plain(command.brief));
            out.push_str(&format!("            '{word}:{brief}'\n"));
        }
        out.push_str("        )\n        _describe command commands\n        return\n    fi\n");
        out.push_str(
            "    command=\"$command $words[2]\"\n    shift words\n    (( CURRENT-- ))\n    ;;\n",
        );
    }
    out.push_str("esac\ncase $command in\n");
    for command in &COMMANDS {
        out.push_str(&format!(
            "'{}')\n    _arguments '--help[help]' '--version[version]'",
            command.name
        ));
        for flag in command.flags {
            let help = plain(flag.help);
            // A value follows a long option as a word, or after `=`.
            let long = flag.name.starts_with("--") && !flag.value.is_empty();
            let equals = if long { "=" } else { "" };
            out.push_str(&format!(" \\\n        '{}{equals}[{help}]", flag.name));
            if !flag.value.is_empty() {
                out.push_str(&format!(":{}:{}", flag.value, action(flag.value)));
            }
            out.push('\'');
        }
        if !command.operand.is_empty() {
            let name = command.operand.trim_matches(['[', ']', '.']);
            let which = if command.operand.ends_with("..") { "*" } else { "1" };
            out.push_str(&format!(" \\\n        '{which}:{name}:{}'", action(name)));
        }
        out.push_str("\n    ;;\n");
    }
    out.push_str("esac\n");
    out
}

fn fish() -> String {
    let plain = |text: &str| text.replace('\\', "\\\\").replace('\'', "\\'");
    let mut out = String::from("# fish completions of swarmtempo\n");
    let from = "__fish_seen_subcommand_from";
    for (name, brief) in first_words() {
        let brief = plain(brief);
        out.push_str(&format!(
            "complete -c swarmtempo -f -n __fish_use_subcommand -a {name} -d '{brief}'\n"
        ));
    }
    for group in &GROUPS {
        let name = group.name;
        let unsaid = format!("'{from} {name}; and not {from} {}'", group.last_words().join(" "));
        for command in group.commands() {
            let (word, brief) = (command.last_word(), plain(command.brief));
            out.push_str(&format!(
                "complete -c swarmtempo -f -n {unsaid} -a {word} -d '{brief}'\n"
            ));
        }
    }
    for command in &COMMANDS {
        let seen = match command.group() {
            None => format!("'{from} {}'", command.name),
            Some(group) => format!("'{from} {group}; and {from} {}'", command.last_word()),
        };
        for flag in command.flags {
            let kind = if flag.name.starts_with("--") { "-l" } else { "-s" };
            let word = flag.name.trim_start_matches('-');
            let value = match values(flag.value) {
                _ if flag.value.is_empty() => String::new(),
                Values::Nothing => " -x".to_string(),
                Values::Files => " -r -F".to_string(),
                Values::Words(words) => format!(" -x -a '{}'", words.join(" ")),
            };
            let help = plain(flag.help);
            out.push_str(&format!(
                "complete -c swarmtempo -n {seen} {kind} {word}{value} -d '{help}'\n"
            ));
        }
        let operands = match values(command.operand) {
            Values::Nothing => "-f".to_string(),
            Values::Files => "-F".to_string(),
            Values::Words(words) => format!("-f -a '{}'", words.join(" ")),
        };
        out.push_str(&format!("complete -c swarmtempo -n {seen} {operands}\n"));
    }
    out
}
