//! Compares `daylist`, or `dispatchlist`, with the twin over generated day files.

mod report;
pub mod subject;

use std::fs;
use std::path::{Path, PathBuf};

use crate::generate::random::Random;
use crate::limits::DAYLIST;
use crate::listing::{lines, print, Line};
use crate::program::{self, Feeding};
use crate::thousands::both_take;
use report::{Coverage, Score};
use subject::Subject;

const DEFAULT_SEED: u64 = 1;
const SEED_VARIABLE: &str = "TWIN_SEED";
/// A program that fails so often need not be asked further.
const MOST_FAILURES: u64 = 20;

#[derive(Clone, Debug, PartialEq, Eq)]
pub struct Options {
    pub subject: Subject,
    pub program: PathBuf,
    pub files: u64,
    pub seed: u64,
    pub feed_in_pieces: bool,
}

impl Options {
    /// One of the two programs is named.
    pub fn parse(arguments: &[String]) -> Result<Options, String> {
        let (mut named, mut files, mut seed) = (Vec::new(), None, default_seed()?);
        let mut feed_in_pieces = false;
        let mut rest = arguments.iter();
        while let Some(argument) = rest.next() {
            let mut path = || value_of(argument, rest.next());
            match argument.as_str() {
                "--daylist" => named.push((Subject::Daylist, path()?)),
                "--dispatchlist" => named.push((Subject::Dispatchlist, path()?)),
                "--files" => files = Some(number_of(argument, rest.next())?),
                "--seed" => seed = number_of(argument, rest.next())?,
                "--feed-in-pieces" => feed_in_pieces = true,
                _ => return Err(format!("unknown argument {argument}")),
            }
        }
        let [(subject, path)] = named[..] else {
            return Err("one of --daylist PATH and --dispatchlist PATH is needed".to_string());
        };
        let files = files.unwrap_or(subject.files());
        Ok(Options { subject, program: path.into(), files, seed, feed_in_pieces })
    }
}

/// Which day file `twin generate` prints.
#[derive(Clone, Copy, Debug, PartialEq, Eq)]
pub struct Wanted {
    pub subject: Subject,
    pub seed: u64,
    pub file: u64,
}

impl Wanted {
    pub fn parse(arguments: &[String]) -> Result<Wanted, String> {
        let (mut subject, mut seed, mut file) = (Subject::Daylist, default_seed()?, None);
        let mut rest = arguments.iter();
        while let Some(argument) = rest.next() {
            match argument.as_str() {
                "--dispatch" => subject = Subject::Dispatchlist,
                "--seed" => seed = number_of(argument, rest.next())?,
                "--file" => file = Some(number_of(argument, rest.next())?),
                _ => return Err(format!("unknown argument {argument}")),
            }
        }
        Ok(Wanted { subject, seed, file: file.ok_or("--file N is missing")? })
    }

    pub fn day_file(&self) -> Vec<u8> {
        self.subject.day_file(self.seed, self.file)
    }
}

fn default_seed() -> Result<u64, String> {
    match std::env::var(SEED_VARIABLE) {
        Ok(text) => number_of(SEED_VARIABLE, Some(&text)),
        Err(_) => Ok(DEFAULT_SEED),
    }
}

fn value_of<'a>(name: &str, value: Option<&'a String>) -> Result<&'a String, String> {
    value.ok_or(format!("{name} needs a value"))
}

fn number_of(name: &str, value: Option<&String>) -> Result<u64, String> {
    let text = value_of(name, value)?;
    text.parse().map_err(|_| format!("{name} needs a number, not {text}"))
}

/// Runs the comparison and prints its report; true if nothing failed.
pub fn run(options: &Options) -> bool {
    let mut score = Score::default();
    let mut coverage = Coverage::new(options.subject);
    let mut files = 0;
    while files < options.files && score.failed < MOST_FAILURES {
        let input = options.subject.day_file(options.seed, files);
        let own_lines = lines(options.subject.limits(), &input);
        coverage.add(files, &input, &own_lines);
        let outcome = alike(options.subject, &input, &own_lines)
            .and_then(|()| agree(options, files, &input, &print(&own_lines)));
        if let Err(difference) = &outcome {
            tell_failure(options, files, &input, difference);
        }
        score.count(outcome.is_ok());
        files += 1;
    }
    if files < options.files {
        println!("stopped after {} failures", score.failed);
    }
    println!("seed {}, {} files, {} records listed", options.seed, files, coverage.records());
    coverage.report(&mut score);
    println!("{} passed, {} failed", score.passed, score.failed);
    score.failed == 0
}

/// `run-alike`: what both programs take they list alike. So where this holds, and each
/// program prints what the twin prints, the two print the same.
fn alike(subject: Subject, input: &[u8], own_lines: &[Line]) -> Result<(), String> {
    let asked = subject == Subject::Dispatchlist && both_take(input);
    if !asked || lines(DAYLIST, input) == own_lines {
        return Ok(());
    }
    Err("the twin does not list it alike for both programs".to_string())
}

/// Whether the program prints what the twin prints, byte for byte.
fn agree(options: &Options, number: u64, input: &[u8], own: &str) -> Result<(), String> {
    let feeding = feeding_of(options, number, input.len());
    let limit = options.subject.time_limit();
    let output = program::run(&options.program, input, feeding, limit)?;
    if output == own.as_bytes() {
        return Ok(());
    }
    Err(first_difference(own, &String::from_utf8_lossy(&output)))
}

/// With --feed-in-pieces every second file comes in pieces, a short one in
/// pieces of very few bytes.
fn feeding_of(options: &Options, number: u64, size: usize) -> Feeding {
    if !options.feed_in_pieces || number % 2 == 1 {
        return Feeding::AtOnce;
    }
    let longest = if size < 2_000 { 7 } else { 700 };
    Feeding::InPieces { longest, random: Random::for_file(!options.seed, number) }
}

fn first_difference(own: &str, other: &str) -> String {
    let (mut own_lines, mut other_lines) = (own.split('\n'), other.split('\n'));
    let mut number = 1;
    loop {
        match (own_lines.next(), other_lines.next()) {
            (Some(left), Some(right)) if left == right => number += 1,
            (None, None) => return "no line differs, but a byte does".to_string(),
            (left, right) => {
                return format!("line {number}: twin {}, program {}", shown(left), shown(right))
            }
        }
    }
}

fn shown(line: Option<&str>) -> String {
    line.map_or("nothing".to_string(), |line| format!("{line:?}"))
}

fn tell_failure(options: &Options, number: u64, input: &[u8], difference: &str) {
    let (name, seed) = (options.subject.name(), options.seed);
    let path = Path::new("/tmp").join(format!("twin-{name}-seed{seed}-file{number}.day"));
    println!("DIFFERENCE seed {seed} file {number}: {difference}");
    match fs::write(&path, input) {
        Ok(()) => println!("  saved as {}", path.display()),
        Err(error) => println!("  could not be saved as {}: {error}", path.display()),
    }
}

#[cfg(test)]
mod tests {
    use super::*;

    fn arguments(text: &str) -> Vec<String> {
        text.split_whitespace().map(String::from).collect()
    }

    fn parse(text: &str) -> Result<Options, String> {
        Options::parse(&arguments(text))
    }

    #[test]
    fn options() {
        for (name, subject) in
            [("--daylist", Subject::Daylist), ("--dispatchlist", Subject::Dispatchlist)]
        {
            let text = format!("{name} /bin/x --files 7 --seed 9 --feed-in-pieces");
            let program = PathBuf::from("/bin/x");
            let expected = Options { subject, program, files: 7, seed: 9, feed_in_pieces: true };
            assert_eq!(parse(&text), Ok(expected));
        }
        assert_eq!(parse("--daylist x").unwrap().files, 1_000);
        assert_eq!(parse("--dispatchlist x").unwrap().files, Subject::Dispatchlist.files());
        let both = "--daylist x --dispatchlist y";
        for wrong in
            ["", "--files 3", "--daylist", "--daylist x --files y", "--daylist x more", both]
        {
            assert!(parse(wrong).is_err());
        }
    }

    #[test]
    fn options_of_generate() {
        let parse = |text| Wanted::parse(&arguments(text));
        let wanted = Wanted { subject: Subject::Dispatchlist, seed: 9, file: 7 };
        assert_eq!(parse("--dispatch --seed 9 --file 7"), Ok(wanted));
        assert_eq!(parse("--file 7").unwrap().subject, Subject::Daylist);
        assert!(parse("--dispatch").is_err());
    }

    #[test]
    fn the_first_difference_is_told() {
        let told = first_difference("a\nb\nc\n", "a\nx\nc\n");
        assert_eq!(told, "line 2: twin \"b\", program \"x\"");
        let told = first_difference("a\n", "a");
        assert_eq!(told, "line 2: twin \"\", program nothing");
        let told = first_difference("a\n", "a\nb\n");
        assert_eq!(told, "line 2: twin \"\", program \"b\"");
    }
}
