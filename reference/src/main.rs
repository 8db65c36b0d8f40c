//! Reads a book on standard input and writes its answer, with the argument
//! `report` the whole report of each deal, or with `repair` the book repaired
//! after its way by mail, and to standard error the lines altered. With `netting`
//! it reads netting sets, one a line, and writes the reply to each.

use std::io::{self, Read, Write};
use std::process::ExitCode;

/// What goes to standard output and to standard error.
type Printed = (Vec<u8>, Vec<u8>);

fn main() -> ExitCode {
    let arguments: Vec<String> = std::env::args().skip(1).collect();
    let print: fn(&[u8]) -> Printed = match arguments.as_slice() {
        [] => |book| (reference::printed(book), Vec::new()),
        [word] if word == "report" => |book| (reference::printed_reports(book), Vec::new()),
        [word] if word == "repair" => reference::printed_repair,
        [word] if word == "netting" => |sets| (reference::printed_netting(sets), Vec::new()),
        _ => {
            eprintln!("usage: reference [report | repair] < book");
            eprintln!("       reference netting < sets");
            return ExitCode::from(2);
        }
    };
    match answer(print) {
        Ok(()) => ExitCode::SUCCESS,
        Err(error) => {
            eprintln!("reference: {error}");
            ExitCode::FAILURE
        }
    }
}

fn answer(print: fn(&[u8]) -> Printed) -> io::Result<()> {
    let mut input = Vec::new();
    io::stdin().lock().read_to_end(&mut input)?;
    let (output, error) = print(&input);
    let mut standard_output = io::stdout().lock();
    standard_output.write_all(&output)?;
    // A repaired book may end without a line feed and would wait in the buffer.
    standard_output.flush()?;
    io::stderr().lock().write_all(&error)
}
