//! The command `scatterflock`.

use std::env;
use std::io::{self, Write};
use std::process::ExitCode;

fn main() -> ExitCode {
    let words = env::args_os().skip(1).collect::<Vec<_>>();
    let mut out = io::stdout().lock();
    let ended = command::run_writing(&words, &mut io::stdin(), &mut out);
    eprint(&ended.errors);
    if let Err(error) = out.write_all(&ended.output).and_then(|()| out.flush()) {
        if error.kind() == io::ErrorKind::BrokenPipe {
            return ExitCode::from(command::UNHEARD);
        }
        eprint(&format!("scatterflock: the output cannot be written: {error}\n"));
        return ExitCode::from(command::UNWRITTEN);
    }
    ExitCode::from(ended.status)
}

/// What cannot even be written there is lost.
fn eprint(text: &str) {
    let _ = io::stderr().write_all(text.as_bytes());
}
