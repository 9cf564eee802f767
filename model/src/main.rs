//! Document 01 written a second time, with document 02's changes, from their sentences alone, to
//! compare the proved bench with. Without arguments it is a second bench: a run file from standard
//! input, its listing to standard output.

use std::env;
use std::io::{self, Read, Write};
use std::process::ExitCode;

use model::{builds, compare, listing, measure, wrong};

const USAGE: &str = "\
model < RUNFILE                      the listing of a run file
model --compare BENCH FOLDER FILES   compares so many listings with those of BENCH
model --counts BENCH FOLDER FILES    the same, and says what was met
model --wrong                        a run for each wrong build that breaks agreement
model --turned-away                  the same, silent where there is one
model --first-seeds                  the first of any runs that do so, in some minutes
model --measure BENCH FOLDER         times of listings, those of BENCH beside its own
model --file SEED                    the run file of a seed";

/// Reads one byte more than a run file may have, which is enough to see that it is too long.
fn bench() -> io::Result<()> {
    let mut bytes = Vec::with_capacity(listing::LONGEST_FILE + 1);
    io::stdin().lock().take(listing::LONGEST_FILE as u64 + 1).read_to_end(&mut bytes)?;
    let text = listing::list(&bytes, builds::RIGHT, &mut listing::Unwatched);
    io::stdout().lock().write_all(&text)
}

fn file(seed: &str) -> io::Result<bool> {
    match seed.parse() {
        Ok(seed) => io::stdout().write_all(&compare::file_of(seed, builds::RIGHT)).map(|()| true),
        Err(_) => usage(),
    }
}

fn compared(bench: &str, folder: &str, files: &str, counts: bool) -> io::Result<bool> {
    match files.parse() {
        Ok(files) => compare::run(bench.into(), folder.into(), files, counts),
        Err(_) => usage(),
    }
}

fn usage() -> io::Result<bool> {
    eprintln!("{}", USAGE);
    Ok(false)
}

fn run(arguments: &[&str]) -> io::Result<bool> {
    match arguments {
        [] => bench().map(|()| true),
        ["--compare", bench, folder, files] => compared(bench, folder, files, false),
        ["--counts", bench, folder, files] => compared(bench, folder, files, true),
        ["--wrong"] => Ok(wrong::run(true)),
        ["--turned-away"] => Ok(wrong::run(false)),
        ["--first-seeds"] => Ok(wrong::first_seeds()),
        ["--measure", bench, folder] => measure::run(bench.into(), folder.into()),
        ["--file", seed] => file(seed),
        _ => usage(),
    }
}

fn main() -> ExitCode {
    let arguments: Vec<String> = env::args().skip(1).collect();
    let arguments: Vec<&str> = arguments.iter().map(String::as_str).collect();
    match run(&arguments) {
        Ok(true) => ExitCode::SUCCESS,
        Ok(false) => ExitCode::FAILURE,
        Err(error) => {
            eprintln!("model: {}", error);
            ExitCode::FAILURE
        }
    }
}
