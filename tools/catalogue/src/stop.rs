//! What ends a command before its time.

use std::io;

pub enum Stop {
    /// Nobody reads any more: nothing is said.
    Quiet,
    /// Wrong use, or something that cannot be read or written.
    Told(String),
}

impl From<String> for Stop {
    fn from(words: String) -> Stop {
        Stop::Told(words)
    }
}

/// What writing to standard output came to.
pub fn printed(result: io::Result<()>) -> Result<(), Stop> {
    result.map_err(|error| match error.kind() {
        io::ErrorKind::BrokenPipe => Stop::Quiet,
        _ => Stop::Told(format!("standard output cannot be written: {error}")),
    })
}
