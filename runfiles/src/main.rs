//! The command `runfile`: run files that a person can write, read and see. Nothing of it is part of
//! what is proved: it stands on the model, and asks the proved bench for its listings.

mod account;
mod arguments;
mod bench;
mod delivery;
mod draw;
mod explain;
mod files;
mod hunt;
mod lines;
mod make;
mod reading;
mod shorten;
mod show;
mod source;
mod terminal;
mod trace;
mod view;
mod words;

use std::process::ExitCode;

use arguments::Given;

/// What a command comes to: its output, and whether it met what nobody should meet, that is a
/// disagreement or broken agreement.
pub struct Done {
    pub output: Vec<u8>,
    pub found: bool,
}

/// That, or why it could not be done.
pub type Outcome = Result<Done, String>;

/// How a command works: in a way of its own, or as a text made of one run file and its name.
enum Work {
    Own(fn(&Given) -> Outcome),
    OfRunFile(fn(&[u8], &str) -> Result<String, String>),
}

struct Command {
    name: &'static str,
    about: &'static str,
    help: &'static [&'static str],
    /// The options that it takes, each with a value.
    options: &'static [&'static str],
    work: Work,
}

const COMMANDS: &[Command] = &[
    Command {
        name: "make",
        about: "a text of one event a line becomes a run file",
        help: &[make::HELP],
        options: &["-o"],
        work: Work::Own(make::run),
    },
    Command {
        name: "show",
        about: "a run file becomes its text, with where and why a damaged one stops",
        help: &[show::HELP],
        options: &["-o"],
        work: Work::OfRunFile(|bytes, _| Ok(show::text_of(bytes))),
    },
    Command {
        name: "explain",
        about: "a run file and its listing side by side, each event in words",
        help: &[explain::HELP, bench::HELP],
        options: &["-o", "--bench", "--wrong"],
        work: Work::Own(explain::run),
    },
    Command {
        name: "draw",
        about: "a drawing (SVG) of a run: a lane for each host, messages as arrows",
        help: &[draw::HELP],
        options: &["-o"],
        work: Work::OfRunFile(draw::run),
    },
    Command {
        name: "view",
        about: "a page (HTML) of a run: the drawing with a cursor over its events",
        help: &[view::HELP],
        options: &["-o"],
        work: Work::OfRunFile(view::run),
    },
    Command {
        name: "hunt",
        about: "random runs, to find a disagreement or broken agreement",
        help: &[hunt::HELP, bench::HELP],
        options: &["--bench", "--wrong", "--into"],
        work: Work::Own(hunt::run),
    },
];

/// How it ends where a disagreement or broken agreement was met, and where it could not be done.
const FOUND: u8 = 1;
const FAILED: u8 = 2;

fn help() -> String {
    let rows = COMMANDS.iter().map(|command| format!("  {:9}{}\n", command.name, command.about));
    format!(
        "\
Run files that a person can write, read and see.

usage: runfile COMMAND [ARGUMENTS]

{}
`runfile COMMAND --help` says more. A run file or text that is `-`, or is left out,
is read from standard input. It ends with 0 where all is well, with 1 where it met a
disagreement or broken agreement, and with 2 where it could not do what was asked.
",
        rows.collect::<String>()
    )
}

fn command_named(name: &str) -> Result<&'static Command, String> {
    let names: Vec<&str> = COMMANDS.iter().map(|command| command.name).collect();
    let known = COMMANDS.iter().find(|command| command.name == name);
    known.ok_or_else(|| format!("expected {}, found `{}`", words::either(&names), name))
}

/// A text of a run file, by the one way that several commands share.
fn of_run_file(given: &Given, text: fn(&[u8], &str) -> Result<String, String>) -> Outcome {
    let input = files::read(given.at_most_one()?)?;
    let output = text(&input.bytes, &input.name)?.into_bytes();
    Ok(Done { output, found: false })
}

fn run(command: &Command, arguments: &[String]) -> Result<u8, String> {
    if arguments.iter().any(|argument| argument == "--help" || argument == "-h") {
        files::write(None, command.help.concat().as_bytes())?;
        return Ok(0);
    }
    let given = arguments::parse(command.name, command.options, arguments)?;
    let done = match command.work {
        Work::Own(work) => work(&given)?,
        Work::OfRunFile(text) => of_run_file(&given, text)?,
    };
    files::write(given.value("-o"), &done.output)?;
    Ok(if done.found { FOUND } else { 0 })
}

fn run_all(arguments: &[String]) -> Result<u8, String> {
    match arguments.split_first() {
        Some((name, _)) if name == "--help" || name == "-h" || name == "help" => {
            files::write(None, help().as_bytes()).map(|()| 0)
        }
        Some((name, rest)) => run(command_named(name)?, rest),
        None => Err(format!("expected a command\n{}", help().trim_end())),
    }
}

fn main() -> ExitCode {
    match arguments::of_process().and_then(|arguments| run_all(&arguments)) {
        Ok(code) => ExitCode::from(code),
        Err(error) => {
            eprintln!("runfile: {}", error.replace('\n', "\nrunfile: "));
            ExitCode::from(FAILED)
        }
    }
}
