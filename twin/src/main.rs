//! `twin list`, `twin dispatch`, `twin requests`, `twin edges`, `twin compare`,
//! `twin generate`: see README.md.

use std::io::{self, Read, Write};
use std::process::ExitCode;

use twin::compare::{self, Options, Wanted};
use twin::edges;
use twin::limits::{Limits, DAYLIST, DISPATCHLIST};
use twin::listing::listing;
use twin::requests;

const USAGE: &str = "usage: twin list < DAYFILE
       twin dispatch < DAYFILE
       twin requests < DAYFILE
       twin edges
       twin compare --daylist PATH [--files N] [--seed S] [--feed-in-pieces]
       twin compare --dispatchlist PATH [--files N] [--seed S] [--feed-in-pieces]
       twin generate [--dispatch] [--seed S] --file N > DAYFILE";

fn main() -> ExitCode {
    let arguments: Vec<String> = std::env::args().skip(1).collect();
    let outcome = match arguments.first().map(String::as_str) {
        Some("list") => print_of_input(DAYLIST, listing),
        Some("dispatch") => print_of_input(DISPATCHLIST, listing),
        Some("requests") => print_of_input(DAYLIST, |limits, input| {
            requests::print(&requests::requests(limits, input))
        }),
        Some("edges") => Ok(show_edges()),
        Some("compare") => Options::parse(&arguments[1..]).map(|options| compare::run(&options)),
        Some("generate") => generate(&arguments[1..]),
        _ => Err(USAGE.to_string()),
    };
    match outcome {
        Ok(true) => ExitCode::SUCCESS,
        Ok(false) => ExitCode::FAILURE,
        Err(message) => {
            eprintln!("{message}");
            ExitCode::from(2)
        }
    }
}

/// Prints a text made of the day file on standard input.
fn print_of_input(
    limits: Limits,
    text_of: impl Fn(Limits, &[u8]) -> String,
) -> Result<bool, String> {
    let mut input = Vec::new();
    let reading = io::stdin().lock().take(limits.most_input as u64).read_to_end(&mut input);
    reading.map_err(|error| format!("standard input: {error}"))?;
    print_bytes(text_of(limits, &input).as_bytes())
}

/// Prints one line per case; false if one differs.
fn show_edges() -> bool {
    let cases = edges::cases();
    for case in &cases {
        println!("{}", case.line());
    }
    cases.iter().all(edges::Case::agrees)
}

/// Prints one generated day file, to look at what `compare` fed.
fn generate(arguments: &[String]) -> Result<bool, String> {
    print_bytes(&Wanted::parse(arguments)?.day_file())
}

fn print_bytes(bytes: &[u8]) -> Result<bool, String> {
    let mut out = io::stdout().lock();
    let writing = out.write_all(bytes).and_then(|()| out.flush());
    writing.map_err(|error| format!("standard output: {error}"))?;
    Ok(true)
}
