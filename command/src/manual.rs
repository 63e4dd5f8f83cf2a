//! The manual page, made of the words that the help is made of.

use clap::{Arg, Command, builder::PossibleValue};
use roff::{Inline, Roff, bold, italic, roman};

use crate::options::{EXAMPLES, STATUS};

/// The page as a source text for `man`.
pub fn manual(command: &mut Command) -> String {
    command.build();
    let mut page = Roff::new();
    page.control(
        "TH",
        ["GFF3", "1", "", &format!("gff3 {}", env!("CARGO_PKG_VERSION")), ""],
    );
    page.control("SH", ["NAME"]);
    page.text([roman(format!("gff3 - {}", about(command)))]);
    page.control("SH", ["SYNOPSIS"]);
    for subcommand in command.get_subcommands() {
        page.control("TP", []);
        page.text(usage(subcommand));
        page.text([roman(about(subcommand))]);
    }
    page.control("SH", ["DESCRIPTION"]);
    paragraphs(&mut page, &long_about(command));
    for subcommand in command
        .get_subcommands()
        .filter(|subcommand| subcommand.get_name() != "help")
    {
        page.control("SH", [format!("gff3 {}", subcommand.get_name()).as_str()]);
        paragraphs(&mut page, &long_about(subcommand));
        subcommand.get_arguments().for_each(|arg| argument(&mut page, arg));
    }
    page.control("SH", ["OPTIONS"]);
    command.get_arguments().for_each(|arg| argument(&mut page, arg));
    page.control("SH", ["EXIT STATUS"]);
    paragraphs(&mut page, STATUS);
    page.control("SH", ["EXAMPLES"]);
    for line in EXAMPLES.lines().skip(1) {
        page.control("PP", []);
        page.text([roman(line.trim_start())]);
    }
    page.to_roff()
}

fn about(command: &Command) -> String {
    command.get_about().map(ToString::to_string).unwrap_or_default()
}

fn long_about(command: &Command) -> String {
    command
        .get_long_about()
        .map_or_else(|| about(command), ToString::to_string)
}

fn usage(command: &Command) -> Vec<Inline> {
    let mut words = vec![bold(format!("gff3 {}", command.get_name()))];
    if command.get_arguments().any(|arg| !arg.is_positional()) {
        words.push(roman(" [OPTIONS]"));
    }
    for arg in command.get_positionals() {
        words.push(roman(" "));
        words.push(italic(arg.to_string()));
    }
    words
}

fn paragraphs(page: &mut Roff, text: &str) {
    for paragraph in text.split("\n\n") {
        page.control("PP", []);
        page.text([roman(paragraph)]);
    }
}

/// An option or a file, its help, and what it may be.
fn argument(page: &mut Roff, arg: &Arg) {
    page.control("TP", []);
    page.text([bold(name(arg))]);
    let help = arg.get_long_help().or_else(|| arg.get_help()).map(ToString::to_string);
    for (index, paragraph) in help.unwrap_or_default().split("\n\n").enumerate() {
        if index > 0 {
            page.control("IP", []);
        }
        page.text([roman(paragraph)]);
    }
    let values = arg.get_possible_values();
    if arg.get_action().takes_values() && !values.is_empty() {
        page.control("RS", []);
        values.iter().for_each(|value| possible_value(page, arg, value));
        page.control("RE", []);
    }
}

/// One of the words that an option takes, and what it means.
fn possible_value(page: &mut Roff, arg: &Arg, value: &PossibleValue) {
    let is_default = arg
        .get_default_values()
        .iter()
        .any(|default| *default == value.get_name());
    let help = value.get_help().map(ToString::to_string).unwrap_or_default();
    page.control("TP", []);
    page.text([bold(value.get_name())]);
    page.text([roman(format!("{help}{}", if is_default { " (default)" } else { "" }))]);
}

fn name(arg: &Arg) -> String {
    let short = arg.get_short().map(|short| format!("-{short}"));
    let long = arg.get_long().map(|long| format!("--{long}"));
    let names: Vec<_> = short.into_iter().chain(long).collect();
    let value = arg
        .get_value_names()
        .filter(|_| arg.get_action().takes_values())
        .map(|names| names[0].to_string());
    match (names.is_empty(), value) {
        (true, _) => arg.to_string(),
        (false, Some(value)) => format!("{} {value}", names.join(", ")),
        (false, None) => names.join(", "),
    }
}
