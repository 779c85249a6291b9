//! The command `pattern`.

use std::ffi::OsString;
use std::io::{self, ErrorKind, Write};
use std::process::ExitCode;

use pattern_command::program::{self, Listener};
use pattern_command::wildcard;

/// Standard output and standard error.
struct Terminal;

impl Listener for Terminal {
    /// Whoever reads standard output may have had enough: then no one is left to be told.
    fn print(&mut self, out: &[u8]) -> io::Result<()> {
        let mut to = io::stdout().lock();
        match to.write_all(out).and_then(|()| to.flush()) {
            Err(error) if error.kind() == ErrorKind::BrokenPipe => Ok(()),
            done => done,
        }
    }

    fn tell(&mut self, line: &str) {
        let _ = writeln!(io::stderr(), "{}", line.trim_end());
    }
}

/// The words of the command line: a shell of Windows leaves wildcards to the program.
fn words() -> Vec<OsString> {
    let words = std::env::args_os().skip(1);
    if cfg!(windows) {
        words.flat_map(wildcard::expand).collect()
    } else {
        words.collect()
    }
}

fn main() -> ExitCode {
    ExitCode::from(program::run(&words(), &mut Terminal) as u8)
}
