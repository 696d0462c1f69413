//! `second`: the sheet of a job file on standard input; `second draw N`: the
//! drawing of wall N; `second rewrite`: the job taken apart and written again;
//! `second traits`: what the job touches.

use std::io::{self, Read, Write};
use std::process::ExitCode;

const USAGE: &str = "usage: second | second draw N | second rewrite | second traits   \
                     (job file on standard input)";

/// The start of standard input, as much as can matter; the rest is read and
/// dropped so that a writer is not cut off.
fn read_input() -> io::Result<Vec<u8>> {
    let mut stdin = io::stdin().lock();
    let mut kept = Vec::new();
    stdin
        .by_ref()
        .take(second::MOST_BYTES_KEPT)
        .read_to_end(&mut kept)?;
    io::copy(&mut stdin, &mut io::sink())?;
    Ok(kept)
}

/// What is to be printed; `None` of arguments that ask for nothing there is.
fn run(arguments: &[&str]) -> io::Result<Option<Vec<u8>>> {
    Ok(match arguments {
        [] => Some(second::sheet(&read_input()?).into()),
        ["rewrite"] => Some(second::rewritten(&read_input()?)),
        ["traits"] => Some(second::traits::line(&read_input()?).into()),
        ["draw", number] => match number.parse() {
            Ok(number) => Some(second::drawing_line(&read_input()?, number).into()),
            Err(_) => None,
        },
        _ => None,
    })
}

/// Prints all of it; a job file need not end with a line.
fn print(bytes: &[u8]) -> io::Result<()> {
    let mut stdout = io::stdout().lock();
    stdout.write_all(bytes)?;
    stdout.flush()
}

fn main() -> ExitCode {
    let arguments: Vec<String> = std::env::args_os()
        .skip(1)
        .map(|word| word.to_string_lossy().into_owned())
        .collect();
    let words: Vec<&str> = arguments.iter().map(String::as_str).collect();
    let printed = run(&words).and_then(|bytes| match bytes {
        Some(bytes) => print(&bytes).map(|()| true),
        None => Ok(false),
    });
    match printed {
        Ok(true) => ExitCode::SUCCESS,
        Ok(false) => {
            eprintln!("{USAGE}");
            ExitCode::from(2)
        }
        Err(error) => {
            eprintln!("second: {error}");
            ExitCode::FAILURE
        }
    }
}
