//! What is read from files or standard input, and written to files or standard output.

use std::fs::{self, File};
use std::io::{self, ErrorKind, Read, Write};

use model::listing::LONGEST_FILE;

use crate::terminal;

/// No input has more bytes than this: texts and run files that are too long are read, so that they
/// can be shown, and what is far from being either is not.
const MOST: usize = 64 * LONGEST_FILE;

/// What was read, and the name by which it is spoken of.
pub struct Input {
    pub name: String,
    pub bytes: Vec<u8>,
}

/// The bytes of a file; of standard input where none is named, or `-` is.
pub fn read(name: Option<&str>) -> Result<Input, String> {
    let (name, read) = match name {
        None | Some("-") => ("standard input", all_of(io::stdin().lock())),
        Some(name) => (name, File::open(name).and_then(all_of)),
    };
    let bytes = read.map_err(|error| format!("{} cannot be read: {}", name, error))?;
    if bytes.len() > MOST {
        return Err(format!(
            "{} has more than {} bytes: it is no run file, nor its text",
            name, MOST
        ));
    }
    Ok(Input { name: name.into(), bytes })
}

fn all_of(from: impl Read) -> io::Result<Vec<u8>> {
    let mut bytes = Vec::new();
    from.take(MOST as u64 + 1).read_to_end(&mut bytes)?;
    Ok(bytes)
}

/// Writes to a file; to standard output where none is named, or `-` is.
pub fn write(name: Option<&str>, bytes: &[u8]) -> Result<(), String> {
    match name {
        None | Some("-") => to_standard_output(bytes),
        Some(name) => {
            fs::write(name, bytes).map_err(|error| format!("{} cannot be written: {}", name, error))
        }
    }
}

/// Makes a folder where there is none; the empty name is the working folder.
pub fn make_folder(name: &str) -> Result<(), String> {
    match name {
        "" => Ok(()),
        _ => {
            fs::create_dir_all(name).map_err(|error| format!("{} cannot be made: {}", name, error))
        }
    }
}

/// A reader that has gone, as `head` does, is no fault. A terminal is spared what is no text.
fn to_standard_output(bytes: &[u8]) -> Result<(), String> {
    if bytes.contains(&0) && terminal::is_output() {
        return Err("a run file is no text for a terminal: name a file with -o FILE".into());
    }
    let mut output = io::stdout().lock();
    match output.write_all(bytes).and_then(|()| output.flush()) {
        Err(error) if error.kind() != ErrorKind::BrokenPipe => {
            Err(format!("standard output cannot be written: {}", error))
        }
        _ => Ok(()),
    }
}
