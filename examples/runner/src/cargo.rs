//! What Cargo and the test programs say, as the files of `test_select`.

use crate::json::Json;
use crate::Fault;
use std::collections::{BTreeMap, BTreeSet};
use std::path::{Path, PathBuf};
use std::process::{Command, Stdio};
use std::{env, fs};
use test_select::BinaryId;

/// A workspace under its default features, on the host: the files of a question on it.
pub struct Workspace {
    pub record: Vec<u8>,
    pub choice: Vec<u8>,
    pub table: Vec<u8>,
    metadata: Json,
    manifest: Vec<String>,
    room: PathBuf,
}

/// A test program that was built.
pub struct Program {
    pub path: PathBuf,
    pub folder: PathBuf,
    pub environment: Vec<(String, String)>,
}

/// Those of a workspace, by the ids of their binaries.
pub type Programs = BTreeMap<BinaryId, Program>;

impl Workspace {
    /// Asks Cargo and rustc, and makes the files.
    pub fn read(manifest: Option<&str>) -> Result<Workspace, Fault> {
        let manifest: Vec<String> = manifest.iter().flat_map(|path| ["--manifest-path".into(), path.to_string()]).collect();
        let printed = output(Command::new("cargo").args(["metadata", "--format-version", "1", "--all-features"]).args(&manifest))?;
        let metadata = Json::read(std::str::from_utf8(&printed)?).ok_or("cargo metadata prints no JSON")?;
        let room = Path::new(metadata.at("target_directory").text()).join("runner");
        fs::create_dir_all(&room)?;
        let file = |name: &str| room.join(name);
        fs::write(file("metadata.json"), &printed)?;
        let record = output(convert()?.arg("record").arg(file("metadata.json")))?;
        fs::write(file("record.json"), &record)?;
        let flags = env::var("RUSTFLAGS").unwrap_or_default();
        fs::write(file("cfg.txt"), output(Command::new("rustc").args(["--print", "cfg"]).args(flags.split_whitespace()))?)?;
        let host = host()?;
        let table = output(convert()?.args(["table", "--triple", &host, "--record"]).arg(file("record.json")).arg(file("cfg.txt")))?;
        let choice = output(convert()?.args(["choice", "--record"]).arg(file("record.json")))?;
        Ok(Workspace { record, choice, table, metadata, manifest, room })
    }

    /// Builds the targets that hold the asked binaries.
    pub fn build(&self, asked: &[BinaryId]) -> Result<Programs, Fault> {
        let mut cargo = Command::new("cargo");
        cargo.args(["test", "--no-run", "--message-format", "json"]).args(&self.manifest);
        let targets: BTreeSet<Vec<String>> = asked.iter().map(target_flags).collect();
        cargo.args(targets.into_iter().flatten());
        let printed = output(cargo.stderr(Stdio::inherit()))?;
        let messages = std::str::from_utf8(&printed)?.lines().filter_map(Json::read);
        let built = messages.filter_map(|message| self.program(&message));
        Ok(built.filter(|(id, _)| asked.contains(id)).collect())
    }

    /// The listings of the asked binaries, as a file.
    pub fn list(&self, asked: &[BinaryId], programs: &Programs) -> Result<String, Fault> {
        let lists = self.room.join("lists");
        let _ = fs::remove_dir_all(&lists);
        for id in asked {
            let program = programs.get(id).ok_or(format!("cargo built no {id}"))?;
            let mut list = Command::new(&program.path);
            list.args(["--list", "--format", "terse"]).current_dir(&program.folder).envs(program.environment.iter().cloned());
            let path = lists.join(&id.0);
            fs::create_dir_all(path.parent().expect("a folder"))?;
            fs::write(path, output(&mut list)?)?;
        }
        let record = self.room.join("record.json");
        let listings = output(convert()?.args(["listings", "--built", "--record"]).arg(record).arg(lists))?;
        Ok(String::from_utf8(listings)?)
    }

    /// The test program that a message of Cargo tells of.
    fn program(&self, message: &Json) -> Option<(BinaryId, Program)> {
        let path = message.at("executable").text();
        if !message.at("profile").at("test").is_true() || path.is_empty() {
            return None;
        }
        let named = |it: &&Json| it.at("id").text() == message.at("package_id").text();
        let package = self.metadata.at("packages").list().iter().find(named)?;
        let folder = Path::new(package.at("manifest_path").text()).parent()?.to_path_buf();
        let environment = vec![
            ("CARGO_MANIFEST_DIR".to_string(), folder.display().to_string()),
            ("CARGO_PKG_NAME".to_string(), package.at("name").text().to_string()),
            ("CARGO_PKG_VERSION".to_string(), package.at("version").text().to_string()),
        ];
        let id = binary_id(package.at("name").text(), message.at("target"));
        Some((id, Program { path: PathBuf::from(path), folder, environment }))
    }
}

/// The id of a target's test binary, as nextest writes it.
fn binary_id(package: &str, target: &Json) -> BinaryId {
    let name = target.at("name").text();
    let kind = target.at("kind").list().first().map_or("", Json::text);
    BinaryId(match kind {
        "test" => format!("{package}::{name}"),
        "bin" | "example" | "bench" => format!("{package}::{kind}/{name}"),
        _ => package.to_string(),
    })
}

/// Cargo's options for the target that holds the binary.
fn target_flags(id: &BinaryId) -> Vec<String> {
    match id.0.split_once("::") {
        None => vec!["--lib".to_string()],
        Some((_, target)) => match target.split_once('/') {
            None => vec!["--test".to_string(), target.to_string()],
            Some((kind, name)) => vec![format!("--{kind}"), name.to_string()],
        },
    }
}

fn host() -> Result<String, Fault> {
    let told = String::from_utf8(output(Command::new("rustc").arg("-vV"))?)?;
    let host = told.lines().find_map(|line| line.strip_prefix("host: "));
    Ok(host.ok_or("rustc names no host")?.to_string())
}

/// The program that makes the files: `CARGO_WORKSPACE` names it, or it is the one built in this repository.
fn convert() -> Result<Command, Fault> {
    let built = concat!(env!("CARGO_MANIFEST_DIR"), "/../../crates/cargo_workspace/out/cargo_workspace");
    Ok(Command::new(env::var_os("CARGO_WORKSPACE").unwrap_or(built.into())))
}

/// What a command prints; it has to succeed.
fn output(command: &mut Command) -> Result<Vec<u8>, Fault> {
    let ended = command.stdin(Stdio::null()).stderr(Stdio::inherit()).output();
    let ended = ended.map_err(|fault| format!("{:?}: {fault}", command.get_program()))?;
    if !ended.status.success() {
        return Err(format!("{:?}: {}", command.get_program(), ended.status).into());
    }
    Ok(ended.stdout)
}
