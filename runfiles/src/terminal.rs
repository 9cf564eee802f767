//! Whether standard output and standard error are a terminal, as the system's own links to them
//! say; where there are none, they are not.

use std::fs;

const OUTPUT: &str = "/proc/self/fd/1";
const ERROR: &str = "/proc/self/fd/2";

pub fn is_output() -> bool {
    is_terminal(OUTPUT)
}

pub fn is_error() -> bool {
    is_terminal(ERROR)
}

fn is_terminal(link: &str) -> bool {
    let leads_to = fs::read_link(link).unwrap_or_default();
    leads_to.starts_with("/dev/pts") || leads_to.to_string_lossy().starts_with("/dev/tty")
}
