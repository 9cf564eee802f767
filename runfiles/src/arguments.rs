//! The arguments of a command: options, each with a value, and the plain ones.

use std::env;

/// What a command was given.
pub struct Given {
    command: &'static str,
    pub plain: Vec<String>,
    options: Vec<(String, String)>,
}

impl Given {
    /// The value of an option, the last one where it was given more than once.
    pub fn value(&self, option: &str) -> Option<&str> {
        let named = self.options.iter().rev().find(|(name, _)| name == option);
        named.map(|(_, value)| value.as_str())
    }

    /// The one plain argument, or none.
    pub fn at_most_one(&self) -> Result<Option<&str>, String> {
        match self.plain.as_slice() {
            [] => Ok(None),
            [name] => Ok(Some(name)),
            [_, more, ..] => Err(self.unexpected("one file", more)),
        }
    }

    /// That something else was expected, and where to read what.
    pub fn unexpected(&self, expected: &str, found: &str) -> String {
        unexpected(self.command, expected, found)
    }
}

fn unexpected(command: &str, expected: &str, found: &str) -> String {
    format!("{}: expected {}, found `{}`; see runfile {0} --help", command, expected, found)
}

/// The arguments after the program's name.
pub fn of_process() -> Result<Vec<String>, String> {
    let text = |argument: std::ffi::OsString| {
        argument.into_string().map_err(|other| format!("expected text, found {:?}", other))
    };
    env::args_os().skip(1).map(text).collect()
}

/// Takes the options, of which only these are known, from the plain arguments.
pub fn parse(command: &'static str, known: &[&str], arguments: &[String]) -> Result<Given, String> {
    let mut given = Given { command, plain: Vec::new(), options: Vec::new() };
    let mut rest = arguments.iter();
    while let Some(argument) = rest.next() {
        if argument == "-" || !argument.starts_with('-') {
            given.plain.push(argument.clone());
        } else if known.contains(&argument.as_str()) {
            let value =
                rest.next().ok_or_else(|| format!("{}: {} wants a value", command, argument));
            given.options.push((argument.clone(), value?.clone()));
        } else {
            return Err(unexpected(command, "another option", argument));
        }
    }
    Ok(given)
}
