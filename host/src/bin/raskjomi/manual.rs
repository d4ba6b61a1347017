//! The man page, made from the tables of the help.

use crate::arguments::Arguments;
use crate::commands::Written;
use crate::failure::STATUSES;
use crate::help::{self, Command};
use crate::options;

/// It comes before the completions in the help.
pub const COMMANDS: [Command; 1] = [Command {
    name: "man",
    usage: "man",
    summary: "the man page, for `man -l`",
    details: "Kept as raskjomi.1 in a folder man1 of the manual's path, `man raskjomi` shows it.",
    example: "./raskjomi man",
    files: 0..=0,
    options: &[],
    run: man,
}];

/// `man`.
fn man(_: &Arguments) -> Written {
    let mut page = format!(".TH RASKJOMI 1 \"\" \"raskjomi {}\"\n", env!("CARGO_PKG_VERSION"));
    let mut section = |title: &str, text: &str| page += &format!(".SH {title}\n{}\n", roff(text));
    section("NAME", "raskjomi - reduces parity games and judges plans on them");
    section("SYNOPSIS", "raskjomi COMMAND ...");
    section("DESCRIPTION", &help::paragraphs().join("\n.PP\n"));
    let mut commands = String::new();
    for command in help::commands() {
        commands += &format!(".SS {}\n{}.\n.PP\n", roff(command.usage), roff(command.summary));
        commands += &format!("{}\n", roff(command.details));
        for option in options::of(command) {
            let about = options::about(command.name, option.name);
            commands += &format!(".TP\n\\fB{}\\fR\n{}\n", roff(&option.written()), roff(about));
        }
        commands += &format!(".PP\nExample:\n.PP\n.nf\n{}\n.fi\n", roff(command.example));
    }
    page += &format!(".SH COMMANDS\n{commands}");
    page += ".SH EXIT STATUS\n";
    for (status, meaning) in STATUSES {
        page += &format!(".TP\n\\fB{status}\\fR\n{}\n", roff(meaning));
    }
    Ok(page.into())
}

/// The text with what roff takes for its own escaped, and in ASCII, as it needn't know the encoding.
fn roff(text: &str) -> String {
    let plain = |c: char| match c {
        '\\' => "\\e".to_string(),
        '-' => "\\-".to_string(),
        _ if c.is_ascii() => c.to_string(),
        _ => format!("\\[u{:04X}]", u32::from(c)),
    };
    let escaped: String = text.chars().map(plain).collect();
    let line = |line: &str| match line {
        ".PP" => line.to_string(),
        _ if line.starts_with(['.', '\'']) => format!("\\&{line}"),
        _ => line.to_string(),
    };
    escaped.lines().map(line).collect::<Vec<String>>().join("\n")
}
