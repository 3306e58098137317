//! Writes the shell completions and the manual page of the program, made from the definitions of its command line.
//!
//! usage: pages FOLDER    writes FOLDER/bash-completion/completions/lubiksan, FOLDER/zsh/site-functions/_lubiksan,
//!                        FOLDER/fish/vendor_completions.d/lubiksan.fish and FOLDER/man/man1/lubiksan.1

use std::error::Error;
use std::fs;
use std::path::Path;

use clap::{Arg, Command};
use clap_complete::{generate, Generator, Shell};
use lubiksan_tool::args::parser;

fn main() -> Result<(), Box<dyn Error>> {
    let folder = std::env::args().nth(1).ok_or("usage: pages FOLDER")?;
    let folder = Path::new(&folder);
    completions(folder, "bash-completion/completions/lubiksan", Shell::Bash)?;
    completions(folder, "zsh/site-functions/_lubiksan", Shell::Zsh)?;
    completions(
        folder,
        "fish/vendor_completions.d/lubiksan.fish",
        Shell::Fish,
    )?;
    write(folder, "man/man1/lubiksan.1", manual(&parser()).as_bytes())
}

fn write(folder: &Path, name: &str, bytes: &[u8]) -> Result<(), Box<dyn Error>> {
    let file = folder.join(name);
    fs::create_dir_all(file.parent().ok_or("a file stands in a folder")?)?;
    Ok(fs::write(file, bytes)?)
}

fn completions(folder: &Path, name: &str, shell: impl Generator) -> Result<(), Box<dyn Error>> {
    let mut bytes = Vec::new();
    generate(shell, &mut parser(), "lubiksan", &mut bytes);
    write(folder, name, &bytes)
}

/// The manual page, in the macros of man(7).
fn manual(program: &Command) -> String {
    let name = program.get_name();
    let version = program.get_version().unwrap_or_default();
    let about = styled(program.get_about());
    let mut page = format!(".TH {} 1 \"\" \"{name} {version}\"\n", name.to_uppercase());
    page += &format!(".SH NAME\n{name} \\- {about}\n.SH SYNOPSIS\n");
    for command in program.get_subcommands() {
        page += &format!("{}\n.br\n", synopsis(name, command));
    }
    page += ".SH COMMANDS\n";
    for command in program.get_subcommands() {
        let (name, about) = (command.get_name(), styled(command.get_about()));
        page += &format!(".SS {name}\n{about}.\n");
        page += &arguments(command);
    }
    page += ".SH OPTIONS OF ALL COMMANDS\n";
    page += &arguments(program);
    let after = program.get_after_help().map(ToString::to_string);
    let after = after.unwrap_or_default();
    let status = after.strip_prefix("Exit status: ").unwrap_or(&after);
    page + &format!(".SH EXIT STATUS\n{}\n", escaped(status))
}

/// `lubiksan graph FILE [--format FORMAT] ..`
fn synopsis(program: &str, command: &Command) -> String {
    let mut line = format!(".B {program} {}\n", command.get_name());
    for argument in command.get_arguments().filter(|found| !is_help(found)) {
        let shown = spelled(argument);
        match argument.is_required_set() {
            true => line += &format!("{shown}\n"),
            false => line += &format!("[{shown}]\n"),
        }
    }
    line.trim_end().to_owned()
}

/// Each argument with what it is for.
fn arguments(command: &Command) -> String {
    let mut text = String::new();
    for argument in command.get_arguments().filter(|found| !is_help(found)) {
        let help = styled(argument.get_help());
        text += &format!(".TP\n{}\n{help}", spelled(argument));
        let values: Vec<String> = argument
            .get_possible_values()
            .iter()
            .map(|value| escaped(value.get_name()))
            .collect();
        if values.len() > 1 && argument.get_action().takes_values() {
            text += &format!(": {}", values.join(", "));
        }
        let defaults = argument.get_default_values().iter();
        for default in defaults.filter(|_| argument.get_action().takes_values()) {
            text += &format!(" (without it {})", escaped(&default.to_string_lossy()));
        }
        text += "\n";
    }
    text
}

fn is_help(argument: &Arg) -> bool {
    matches!(argument.get_id().as_str(), "help" | "version")
}

/// `\fB\-\-output\fR \fIOUT\fR`, or `\fIFILE\fR`; with dots where there may be several.
fn spelled(argument: &Arg) -> String {
    let names = argument.get_value_names().unwrap_or_default();
    let id = argument.get_id().as_str();
    let value = names.first().map_or(id.to_uppercase(), ToString::to_string);
    let value = format!("\\fI{}\\fR", escaped(&value));
    let several = argument
        .get_num_args()
        .is_some_and(|range| range.max_values() > 1);
    let dots = if several { ".." } else { "" };
    match argument.get_long() {
        None => value + dots,
        Some(long) if argument.get_action().takes_values() => {
            format!("\\fB\\-\\-{}\\fR {value}{dots}", escaped(long))
        }
        Some(long) => format!("\\fB\\-\\-{}\\fR", escaped(long)),
    }
}

fn styled(text: Option<&clap::builder::StyledStr>) -> String {
    escaped(&text.map(ToString::to_string).unwrap_or_default())
}

/// Backslashes and dashes as they are.
fn escaped(text: &str) -> String {
    text.replace('\\', "\\e").replace('-', "\\-")
}
