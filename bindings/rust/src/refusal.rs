//! Why a question is not answered.

use crate::Output;
use std::fmt;

/// Why a question is not answered, as the program's line says.
#[derive(Clone, Debug, PartialEq, Eq)]
pub enum Refusal {
    /// The words are no command line.
    CommandLine(String),
    /// There is no file with this name.
    CannotRead(String),
    /// The file with this name is no JSON.
    BadJson(String),
    /// The file with this name has a value of another shape under this key.
    BadShape(String, String),
    /// The file with this name is not UTF-8.
    NotText(String),
    /// The record breaks a rule, or one of its own filters is refused: the lines that say so.
    Record(String),
    /// The choice names a feature that no member has: which of its extras, counted from 0.
    UnknownExtra(usize),
    /// A filter text is refused: the lines that say where and why.
    Filter(String),
    /// A pattern of paths is refused: the line that says why.
    Glob(String),
    /// The path does not lie below the workspace's root.
    NotBelow(String),
    /// There are no listings of the binary with this id.
    Lister(String),
    /// The listing of a binary is refused: its id and why.
    BadListing(String, String),
    /// There was no memory.
    OutOfMemory,
    /// Something else that the program prints.
    Other(String),
}

impl Refusal {
    /// What the lines of a run say whose status is not 0.
    pub(crate) fn of(output: &Output) -> Refusal {
        let text = String::from_utf8_lossy(&output.stderr);
        let text = text.strip_suffix('\n').unwrap_or(&text);
        if output.status == 2 {
            return Refusal::CommandLine(text.to_string());
        }
        Refusal::of_line(text).unwrap_or_else(|| Refusal::Other(text.to_string()))
    }

    fn of_line(text: &str) -> Option<Refusal> {
        if text == "out of memory" {
            return Some(Refusal::OutOfMemory);
        }
        if let Some(name) = text.strip_prefix("cannot read ") {
            return Some(Refusal::CannotRead(name.to_string()));
        }
        if let Some(place) = text.strip_prefix("choice: unknown extra ") {
            return place.parse().ok().map(Refusal::UnknownExtra);
        }
        if let Some(id) = text.strip_prefix("lister: ") {
            return Some(Refusal::Lister(id.to_string()));
        }
        if let Some((id, fault)) = text.strip_prefix("listing of ").and_then(|it| it.rsplit_once(": ")) {
            return Some(Refusal::BadListing(id.to_string(), fault.to_string()));
        }
        if text.starts_with("record: ") {
            return Some(Refusal::Record(text.to_string()));
        }
        if text.starts_with("filter ") {
            return Some(Refusal::Filter(text.to_string()));
        }
        if text.starts_with("ignore ") {
            return Some(Refusal::Glob(text.to_string()));
        }
        if let Some(path) = text.strip_prefix("path ").and_then(|it| it.strip_suffix(": not below the workspace's root")) {
            return Some(Refusal::NotBelow(path.to_string()));
        }
        Refusal::of_file(text)
    }

    fn of_file(text: &str) -> Option<Refusal> {
        if let Some(name) = text.strip_suffix(": bad JSON") {
            return Some(Refusal::BadJson(name.to_string()));
        }
        if let Some(name) = text.strip_suffix(": not UTF-8") {
            return Some(Refusal::NotText(name.to_string()));
        }
        let (name, key) = text.rsplit_once(": bad shape at ")?;
        Some(Refusal::BadShape(name.to_string(), key.to_string()))
    }
}

impl fmt::Display for Refusal {
    fn fmt(&self, f: &mut fmt::Formatter<'_>) -> fmt::Result {
        match self {
            Refusal::CannotRead(name) => write!(f, "cannot read {name}"),
            Refusal::BadJson(name) => write!(f, "{name}: bad JSON"),
            Refusal::BadShape(name, key) => write!(f, "{name}: bad shape at {key}"),
            Refusal::NotText(name) => write!(f, "{name}: not UTF-8"),
            Refusal::UnknownExtra(place) => write!(f, "choice: unknown extra {place}"),
            Refusal::NotBelow(path) => write!(f, "path {path}: not below the workspace's root"),
            Refusal::Lister(id) => write!(f, "lister: {id}"),
            Refusal::BadListing(id, fault) => write!(f, "listing of {id}: {fault}"),
            Refusal::OutOfMemory => f.write_str("out of memory"),
            Refusal::CommandLine(text)
            | Refusal::Record(text)
            | Refusal::Filter(text)
            | Refusal::Glob(text)
            | Refusal::Other(text) => f.write_str(text),
        }
    }
}

impl std::error::Error for Refusal {}
