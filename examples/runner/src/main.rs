//! A test runner: it asks first, and then builds, lists and runs only what is asked.
//!
//! usage: runner [--manifest-path FILE] [--junit FILE] [--why TEST] [--jobs N] [FILTER]..

mod cargo;
mod json;
mod junit;
mod running;

use cargo::Workspace;
use running::{run_all, Ran};
use std::collections::BTreeMap;
use std::process::ExitCode;
use test_select::{BinaryId, Question, TestName};

type Fault = Box<dyn std::error::Error>;

/// What the command line says.
#[derive(Default)]
struct Options {
    manifest: Option<String>,
    junit: Option<String>,
    why: Option<String>,
    jobs: Option<usize>,
    filters: Vec<String>,
}

impl Options {
    fn from_words(mut words: impl Iterator<Item = String>) -> Result<Options, Fault> {
        let mut options = Options::default();
        while let Some(word) = words.next() {
            let mut value = || words.next().ok_or(format!("{word} needs a value"));
            match word.as_str() {
                "--manifest-path" => options.manifest = Some(value()?),
                "--junit" => options.junit = Some(value()?),
                "--why" => options.why = Some(value()?),
                "--jobs" => options.jobs = Some(value()?.parse()?),
                "--" => options.filters.extend(&mut words),
                _ if word.starts_with("--") => return Err(format!("no such option: {word}").into()),
                _ => options.filters.push(word),
            }
        }
        Ok(options)
    }
}

fn main() -> ExitCode {
    match Options::from_words(std::env::args().skip(1)).and_then(|options| answer(&options)) {
        Ok(true) => ExitCode::SUCCESS,
        Ok(false) => ExitCode::FAILURE,
        Err(fault) => {
            eprintln!("runner: {fault}");
            ExitCode::from(2)
        }
    }
}

/// Whether all tests that were run passed.
fn answer(options: &Options) -> Result<bool, Fault> {
    let workspace = Workspace::read(options.manifest.as_deref())?;
    let plain = Question::new(&workspace.record).choice(&workspace.choice).table(&workspace.table);
    let question = options.filters.iter().fold(plain, |asked, filter| asked.filter(filter));
    let asked = question.binaries()?;
    eprintln!("{} test programs can matter", asked.len());
    if asked.is_empty() {
        return Ok(true);
    }
    let programs = workspace.build(&asked)?;
    let listings = workspace.list(&asked, &programs)?;
    if let Some(test) = &options.why {
        return why(&question, &listings, &asked, test);
    }
    let tests = question.tests(&listings)?;
    let jobs = options.jobs.unwrap_or_else(|| std::thread::available_parallelism().map_or(1, usize::from));
    let ran = run_all(&programs, &tests, jobs);
    for it in &ran {
        println!("{} {:8.3} s  {} {}", if it.passed { "pass" } else { "FAIL" }, it.seconds, it.binary, it.test);
    }
    if let Some(path) = &options.junit {
        std::fs::write(path, junit::report(&by_binary(&ran)))?;
    }
    let failed = ran.iter().filter(|it| !it.passed).count();
    eprintln!("{} tests ran, {failed} failed", ran.len());
    Ok(failed == 0)
}

/// Says of each binary that lists the test why it is chosen there, or not.
fn why(question: &Question, listings: &str, asked: &[BinaryId], test: &str) -> Result<bool, Fault> {
    for id in asked {
        println!("{id}: {}", question.why(listings, id, Some(&TestName(test.to_string())))?);
    }
    Ok(true)
}

fn by_binary(ran: &[Ran]) -> BTreeMap<&BinaryId, Vec<&Ran>> {
    let mut found: BTreeMap<&BinaryId, Vec<&Ran>> = BTreeMap::new();
    for it in ran {
        found.entry(&it.binary).or_default().push(it);
    }
    found
}
