//! The table as it is shown.

use crate::{commands, Command};

/// Columns of a line.
const WIDTH: usize = 100;

/// Words in lines of some columns, each with this many spaces before it.
fn wrapped(text: &str, indent: usize) -> String {
    let mut lines = String::new();
    let mut column = 0;
    for word in text.split_whitespace() {
        if column > 0 && column + 1 + word.len() <= WIDTH {
            lines.push(' ');
            column += 1 + word.len();
        } else {
            let start = if column == 0 { "" } else { "\n" };
            lines += &format!("{start}{}", " ".repeat(indent));
            column = indent + word.len();
        }
        lines.push_str(word);
    }
    lines
}

fn program(command: &Command) -> &'static str {
    if command.of_script {
        "./zorambi"
    } else {
        "zorambi"
    }
}

/// The line of use.
pub fn usage(command: &Command) -> String {
    format!("use: {} {} {}", program(command), command.name, command.takes).trim_end().to_string() + "\n"
}

/// All that is said of a command.
pub fn help(command: &Command) -> String {
    let mut text = usage(command);
    let about = format!("{}.", command.about);
    text += &format!("\n{}\n", wrapped(&about[..1].to_uppercase(), 0) + &about[1..]);
    for paragraph in command.text.split("\n\n").filter(|paragraph| !paragraph.is_empty()) {
        text += &format!("\n{}\n", wrapped(paragraph, 0));
    }
    if !command.options.is_empty() {
        text += "\noptions:\n";
    }
    for option in command.options {
        let name = option.value.map_or(option.name.to_string(), |value| format!("{} {value}", option.name));
        text += &format!("  {name:<18}{}\n", wrapped(option.about, 20).trim_start());
    }
    if !command.examples.is_empty() {
        text += "\nfor instance:\n";
    }
    for example in command.examples {
        text += &format!("  {}\n{}\n", example.line, wrapped(example.about, 6));
    }
    text
}

/// All commands, a line each.
pub fn overview() -> String {
    let mut text = "use: zorambi COMMAND ..\n\n".to_string();
    let listed = |of_script| commands().iter().filter(move |command| command.of_script == of_script);
    for command in listed(false) {
        text += &format!("  {:<11}{}\n", command.name, command.about);
    }
    text += "\nand in the project's folder, by ./zorambi:\n\n";
    for command in listed(true) {
        text += &format!("  {:<11}{}\n", command.name, command.about);
    }
    text + "\n'zorambi help COMMAND' says more of one; 'zorambi --version' says which release this is.\n\
            Names that begin with a dash stand after '--'.\n"
}

/// One line a command: its name, what it is for, and its options, with tabs between.
pub fn list() -> String {
    let line = |command: &&Command| {
        let options: Vec<&str> = command.options.iter().map(|option| option.name).collect();
        format!("{}\t{}\t{}\n", command.name, command.about, options.join(" "))
    };
    commands().iter().map(line).collect()
}
