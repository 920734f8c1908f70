//! Plants mistakes in a copy of the reference, one at a time, and sees whether they are found: by the host's calls, and by the reference that has none.

use crate::options::Options;
use std::fs;
use std::path::{Path, PathBuf};
use std::process::Command;

const CALLS: &str = "60000";

/// The folders of tests/ that are copied.
const COPIED: [&str; 5] = ["Cargo.toml", "Cargo.lock", "reference", "driver", "cases"];

struct Edit {
    name: String,
    file: String,
    old: String,
    new: String,
}

fn read_edit(path: &Path) -> Option<Edit> {
    let text = fs::read_to_string(path).ok()?;
    let mut lines = text.lines();
    let mut part = |key: &str| lines.next()?.strip_prefix(key).map(str::to_string);
    Some(Edit { name: path.file_stem()?.to_string_lossy().into_owned(), file: part("file: ")?, old: part("old: ")?, new: part("new: ")? })
}

fn copy(from: &Path, to: &Path) -> std::io::Result<()> {
    if from.is_dir() {
        fs::create_dir_all(to)?;
        for entry in fs::read_dir(from)? {
            let entry = entry?;
            copy(&entry.path(), &to.join(entry.file_name()))?;
        }
        return Ok(());
    }
    fs::copy(from, to).map(|_| ())
}

fn build(folder: &Path, target: &Path) -> Result<(), String> {
    let ended = Command::new("cargo").args(["build", "--quiet", "--offline", "--release", "--manifest-path"]).arg(folder.join("Cargo.toml")).env("CARGO_TARGET_DIR", target).output().map_err(|e| e.to_string())?;
    match ended.status.success() {
        true => Ok(()),
        false => Err(String::from_utf8_lossy(&ended.stderr).into_owned()),
    }
}

/// Whether a run of a driver finds a difference, and what it says last.
fn finds(command: &mut Command) -> Result<Option<String>, String> {
    let ended = command.output().map_err(|e| e.to_string())?;
    let said = String::from_utf8_lossy(&ended.stdout).into_owned();
    match ended.status.code() {
        Some(0) => Ok(None),
        Some(1) => Ok(Some(said)),
        _ => Err(format!("{}: {said}{}", ended.status, String::from_utf8_lossy(&ended.stderr))),
    }
}

fn try_edit(options: &Options, edit: &Edit, folder: &Path) -> Result<(bool, bool), String> {
    let target = folder.with_file_name("built");
    let file = folder.join(&edit.file);
    let whole = fs::read_to_string(&file).map_err(|e| e.to_string())?;
    if whole.matches(&edit.old).count() != 1 {
        return Err(format!("{}: the old text stands there {} times", edit.name, whole.matches(&edit.old).count()));
    }
    fs::write(&file, whole.replacen(&edit.old, &edit.new, 1)).map_err(|e| e.to_string())?;
    let built = build(folder, &target);
    fs::write(&file, whole).map_err(|e| e.to_string())?;
    built?;
    let broken = target.join("release");
    let by_host = finds(Command::new(broken.join("driver")).args(["host", "--calls", CALLS]).env("RATSUMBE_ROOT", &options.root))?;
    let program = format!("{} play --built all", broken.join("reference").display());
    let whole = std::env::current_exe().map_err(|e| e.to_string())?;
    let by_reference = finds(Command::new(whole).args(["random", "--built", "all", "--calls", CALLS, "--program", &program]).env("RATSUMBE_ROOT", &options.root))?;
    println!("--- {}: {} by the host, {} by the reference", edit.name, if by_host.is_some() { "found" } else { "not found" }, if by_reference.is_some() { "found" } else { "not found" });
    for said in by_host.iter().chain(&by_reference) {
        println!("{}", said.trim_end());
    }
    Ok((by_host.is_some(), by_reference.is_some()))
}

pub fn run(options: &Options) -> Result<String, String> {
    let planted = options.root.join("tests/planted");
    let mut edits: Vec<PathBuf> = fs::read_dir(&planted).map_err(|e| e.to_string())?.flatten().map(|entry| entry.path()).filter(|path| path.extension().is_some_and(|e| e == "edit")).collect();
    edits.sort();
    if let Some(only) = &options.only {
        edits.retain(|path| path.file_stem().is_some_and(|stem| stem == only.as_str()));
    }
    let folder = options.root.join("target/tests/planted/copy");
    let _ = fs::remove_dir_all(&folder);
    fs::create_dir_all(&folder).map_err(|e| e.to_string())?;
    for name in COPIED {
        copy(&options.root.join("tests").join(name), &folder.join(name)).map_err(|e| format!("{name}: {e}"))?;
    }
    let (mut host, mut reference) = (0, 0);
    let mut missed = Vec::new();
    for path in &edits {
        let edit = read_edit(path).ok_or(format!("{}: three lines, file, old and new", path.display()))?;
        let (by_host, by_reference) = try_edit(options, &edit, &folder)?;
        host += u64::from(by_host);
        reference += u64::from(by_reference);
        if !by_host && !by_reference {
            missed.push(edit.name);
        }
    }
    match missed.is_empty() {
        true => Ok(format!("{} mistakes planted, all found; {host} by the host, {reference} by the reference", edits.len())),
        false => Err(format!("not found: {}", missed.join(", "))),
    }
}
