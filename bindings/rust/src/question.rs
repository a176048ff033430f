//! Questions with typed answers.

use crate::{run, Files, Output, Refusal};
use std::fmt;

const RECORD: &str = "record.json";
const CHOICE: &str = "choice.json";
const TABLE: &str = "table.json";
const LISTINGS: &str = "listings.json";
const ACCOUNT: &str = "account.json";
const PATHS: &str = "paths.txt";

/// The id of a test binary, as nextest writes it.
#[derive(Clone, Debug, PartialEq, Eq, PartialOrd, Ord, Hash)]
pub struct BinaryId(pub String);

/// The name of a test, as its binary lists it.
#[derive(Clone, Debug, PartialEq, Eq, PartialOrd, Ord, Hash)]
pub struct TestName(pub String);

/// A feature of a package: without a name the package itself.
#[derive(Clone, Debug, PartialEq, Eq)]
pub struct Feature {
    pub package: String,
    pub name: Option<String>,
}

/// Why a feature is on.
#[derive(Clone, Debug, PartialEq, Eq)]
pub struct Explanation {
    /// The file that `check` takes.
    pub file: Vec<u8>,
    /// The numbers of its rules, in the order in which they are applied.
    pub rules: Vec<u64>,
}

/// What is to be said of an account or of an explanation.
#[derive(Clone, Debug, PartialEq, Eq)]
pub struct Verdict {
    pub accepted: bool,
    pub line: String,
}

/// A record, and under what it is asked: a choice of features, a platform's table, filters.
#[derive(Clone, Debug, Default)]
pub struct Question {
    files: Files,
    options: Vec<String>,
    filters: Vec<String>,
    flags: Vec<String>,
}

impl Question {
    /// A question on a record: default features, nothing known of the platform, no filter.
    pub fn new(record: impl AsRef<[u8]>) -> Question {
        Question::default().file("--record", RECORD, record)
    }

    /// Under this choice of features.
    pub fn choice(self, choice: impl AsRef<[u8]>) -> Question {
        self.file("--choice", CHOICE, choice)
    }

    /// On the platform with this table.
    pub fn table(self, table: impl AsRef<[u8]>) -> Question {
        self.file("--table", TABLE, table)
    }

    /// Tests that one of these filters chooses. Without any all tests are chosen.
    pub fn filter(mut self, filter: impl Into<String>) -> Question {
        self.filters.push(filter.into());
        self
    }

    /// Filters follow every declared dependency.
    pub fn declared(mut self) -> Question {
        self.flags.push("--declared".to_string());
        self
    }

    /// The tests that run, ascending by their binaries: `listings` says which tests each binary has.
    pub fn tests(&self, listings: impl AsRef<[u8]>) -> Result<Vec<(BinaryId, TestName)>, Refusal> {
        let files = self.files.clone().with(LISTINGS, listings);
        let words = self.words("tests", &["--listings", LISTINGS], &self.filters);
        let pair = |line: &str| {
            let (id, name) = line.split_once(' ').unwrap_or((line, ""));
            (BinaryId(id.to_string()), TestName(name.to_string()))
        };
        Ok(lines_of(&words, &files)?.iter().map(|line| pair(line)).collect())
    }

    /// The binaries that are asked for their tests, ascending; no other can hold a test that runs.
    pub fn binaries(&self) -> Result<Vec<BinaryId>, Refusal> {
        let words = self.words("binaries", &[], &self.filters);
        Ok(lines_of(&words, &self.files)?.into_iter().map(BinaryId).collect())
    }

    /// Why the test of the binary is chosen or not; without a test, why the binary is asked or not.
    pub fn why(&self, listings: impl AsRef<[u8]>, id: &BinaryId, test: Option<&TestName>) -> Result<String, Refusal> {
        let files = self.files.clone().with(LISTINGS, listings);
        let mut words = self.feature_words("why", &["--listings", LISTINGS]);
        words.extend(self.flags.iter().cloned());
        words.extend(self.filters.iter().flat_map(|filter| ["-E".to_string(), filter.clone()]));
        words.extend(["--".to_string(), id.0.clone()]);
        words.extend(test.map(|test| test.0.clone()));
        let output = run(&words, &files);
        if output.status > 1 || !output.stderr.is_empty() {
            return Err(Refusal::of(&output));
        }
        Ok(text_of(&output).trim_end().to_string())
    }

    /// The ids of the packages that are on, dependencies first.
    pub fn order(&self) -> Result<Vec<String>, Refusal> {
        lines_of(&self.feature_words("order", &[]), &self.files)
    }

    /// The account of what is on: the numbers of its rules.
    pub fn account(&self) -> Result<Vec<u64>, Refusal> {
        let output = run(&self.feature_words("account", &[]), &self.files);
        if output.status != 0 {
            return Err(Refusal::of(&output));
        }
        Ok(rules_in(&text_of(&output)))
    }

    /// Why the feature is on, or `None` where it is not.
    pub fn explain(&self, feature: &Feature) -> Result<Option<Explanation>, Refusal> {
        let mut words = self.feature_words("explain", &[]);
        words.push("--".to_string());
        words.push(feature.package.clone());
        words.extend(feature.name.clone());
        let output = run(&words, &self.files);
        match output.status {
            0 => Ok(Some(Explanation { rules: rules_in(&text_of(&output)), file: output.stdout })),
            _ if output.status == 1 && output.stderr.is_empty() => Ok(None),
            _ => Err(Refusal::of(&output)),
        }
    }

    /// What is to be said of the file of an account or of an explanation.
    pub fn check(&self, account: impl AsRef<[u8]>) -> Result<Verdict, Refusal> {
        let files = self.files.clone().with(ACCOUNT, account);
        let output = run(&self.feature_words("check", &["--account", ACCOUNT]), &files);
        if output.status > 1 || !output.stderr.is_empty() {
            return Err(Refusal::of(&output));
        }
        Ok(Verdict { accepted: output.status == 0, line: text_of(&output).trim_end().to_string() })
    }

    fn file(mut self, option: &str, name: &str, content: impl AsRef<[u8]>) -> Question {
        self.files = self.files.with(name, content);
        self.options.extend([option.to_string(), name.to_string()]);
        self
    }

    fn feature_words(&self, task: &str, more: &[&str]) -> Vec<String> {
        let mut words = vec!["test_select".to_string(), task.to_string()];
        words.extend(more.iter().map(|word| word.to_string()));
        words.extend(self.options.iter().cloned());
        words
    }

    fn words(&self, task: &str, more: &[&str], filters: &[String]) -> Vec<String> {
        let mut words = self.feature_words(task, more);
        words.extend(self.flags.iter().cloned());
        words.push("--".to_string());
        words.extend(filters.iter().cloned());
        words
    }
}

/// A filter for the tests of what depends on the packages to which these paths belong. A path is told from
/// the workspace's root; one that an `ignored` glob matches is passed over.
pub fn changed(record: impl AsRef<[u8]>, ignored: &[&str], paths: &[&str]) -> Result<String, Refusal> {
    let files = Files::new().with(RECORD, record).with(PATHS, paths.join("\n"));
    let mut words = vec!["test_select", "changed", "--record", RECORD, "--paths", PATHS];
    words.extend(ignored.iter().flat_map(|glob| ["--ignore", glob]));
    let lines = lines_of(&words, &files)?;
    Ok(lines.concat())
}

/// The lines that a run prints, where its status is 0.
fn lines_of<S: AsRef<str>>(words: &[S], files: &Files) -> Result<Vec<String>, Refusal> {
    let output = run(words, files);
    if output.status != 0 {
        return Err(Refusal::of(&output));
    }
    Ok(text_of(&output).lines().map(str::to_string).collect())
}

fn text_of(output: &Output) -> String {
    String::from_utf8_lossy(&output.stdout).into_owned()
}

/// The numbers of the list `rules` of an account or of an explanation, with which both end.
fn rules_in(text: &str) -> Vec<u64> {
    let (_, list) = text.rsplit_once('[').unwrap_or(("", ""));
    let (list, _) = list.split_once(']').unwrap_or(("", ""));
    list.split(',').filter_map(|number| number.parse().ok()).collect()
}

impl fmt::Display for BinaryId {
    fn fmt(&self, f: &mut fmt::Formatter<'_>) -> fmt::Result {
        f.write_str(&self.0)
    }
}

impl fmt::Display for TestName {
    fn fmt(&self, f: &mut fmt::Formatter<'_>) -> fmt::Result {
        f.write_str(&self.0)
    }
}
