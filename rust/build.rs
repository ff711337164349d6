//! Makes the archive that the crate links: the library `host` of this repository, proved and compiled for this machine by
//! `tools/native-object`, or the object that the environment variable `YAVOLEDU_OBJECT` names.

use std::env;
use std::fs;
use std::path::{Path, PathBuf};
use std::process::Command;

const HANDED_OBJECT: &str = "YAVOLEDU_OBJECT";
const ARCHIVE_NAME: &str = "yavoledu_host";

fn main() {
    if let Err(reason) = link_archive() {
        for line in reason.lines() {
            println!("cargo::error={line}");
        }
    }
}

fn link_archive() -> Result<(), String> {
    let target = Target::from_cargo()?;
    let folder = PathBuf::from(variable("OUT_DIR")?);
    println!("cargo::rerun-if-env-changed={HANDED_OBJECT}");
    let object = match env::var_os(HANDED_OBJECT).filter(|path| !path.is_empty()) {
        Some(path) => handed_object(PathBuf::from(path))?,
        None => built_object(&target, &folder)?,
    };
    target.check(&object)?;

    // An archive and not the object itself: Cargo hands it on to every crate that uses this one.
    let archive = folder.join(format!("lib{ARCHIVE_NAME}.a"));
    if archive.exists() {
        fs::remove_file(&archive)
            .map_err(|error| format!("{} can't be removed: {error}", archive.display()))?;
    }
    run(Command::new("ar").arg("crs").arg(&archive).arg(&object))?;
    println!("cargo::rustc-link-search=native={}", folder.display());
    println!("cargo::rustc-link-lib=static={ARCHIVE_NAME}");
    Ok(())
}

fn handed_object(object: PathBuf) -> Result<PathBuf, String> {
    println!("cargo::rerun-if-changed={}", object.display());
    // Cargo runs this program in a folder that the caller didn't choose.
    if !object.is_absolute() {
        return Err(format!(
            "{HANDED_OBJECT} is '{}': it has to be a path from / on",
            object.display()
        ));
    }
    Ok(object)
}

fn built_object(target: &Target, folder: &Path) -> Result<PathBuf, String> {
    for source in ["crates.txt", "tools"] {
        println!("cargo::rerun-if-changed=../{source}");
    }
    // Not the whole folder: rt writes into crates/*/out, and Cargo would build anew each time.
    let crates =
        fs::read_dir("../crates").map_err(|error| format!("../crates can't be read: {error}"))?;
    for entry in crates.flatten() {
        for part in ["src", "specs", "proofs"] {
            let source = entry.path().join(part);
            if source.exists() {
                println!("cargo::rerun-if-changed={}", source.display());
            }
        }
    }
    let host = variable("HOST")?;
    if first_word(&host) != first_word(&target.triple) {
        return Err(format!(
            "the target is {}, and the proved library is compiled for the machine that it is built on, {host}.\n\
             Make the object on the target's kind of machine (tools/native-object host OUT.o) and name it in {HANDED_OBJECT}.",
            target.triple
        ));
    }
    Command::new("rt").arg("version").output().map_err(|error| {
        format!(
            "`rt`, the command of Rattle's kit, can't be run ({error}): it proves and compiles the library.\n\
             Put it into PATH, or name a ready object in {HANDED_OBJECT} (tools/native-object host OUT.o makes one)."
        )
    })?;
    let crate_folder = PathBuf::from(variable("CARGO_MANIFEST_DIR")?);
    let repository = crate_folder
        .parent()
        .ok_or("this crate has to lie in its repository")?;
    let object = folder.join("host.o");
    run(Command::new(repository.join("tools/native-object"))
        .arg("host")
        .arg(&object)
        .current_dir(repository))?;
    Ok(object)
}

/// What the code is compiled for.
struct Target {
    triple: String,
    /// Its number in an ELF header.
    machine: u16,
}

impl Target {
    fn from_cargo() -> Result<Target, String> {
        let triple = variable("TARGET")?;
        let machine = match variable("CARGO_CFG_TARGET_ARCH")?.as_str() {
            "x86_64" => 62,
            "aarch64" => 183,
            _ => 0,
        };
        let known = machine != 0
            && variable("CARGO_CFG_TARGET_OS")? == "linux"
            && variable("CARGO_CFG_TARGET_POINTER_WIDTH")? == "64"
            && variable("CARGO_CFG_TARGET_ENDIAN")? == "little";
        if known {
            Ok(Target { triple, machine })
        } else {
            Err(format!(
                "yavoledu is for Linux on x86-64 and on 64-bit Arm, and the target is {triple}"
            ))
        }
    }

    /// The object is code for this target: else it would fail at the link, or later.
    fn check(&self, object: &Path) -> Result<(), String> {
        let bytes = fs::read(object)
            .map_err(|error| format!("{} can't be read: {error}", object.display()))?;
        // ELF, 64 bits, little-endian; from byte 16 on its type, 1 for an object, and its machine
        let [low, high] = self.machine.to_le_bytes();
        if bytes.starts_with(b"\x7fELF\x02\x01") && bytes.get(16..20) == Some(&[1, 0, low, high]) {
            Ok(())
        } else {
            Err(format!(
                "{} is not an object for {}",
                object.display(),
                self.triple
            ))
        }
    }
}

fn first_word(triple: &str) -> &str {
    triple.split('-').next().unwrap_or(triple)
}

fn variable(name: &str) -> Result<String, String> {
    env::var(name).map_err(|error| format!("Cargo's variable {name}: {error}"))
}

fn run(command: &mut Command) -> Result<(), String> {
    let program = command.get_program().to_string_lossy().into_owned();
    let output = command
        .output()
        .map_err(|error| format!("{program} can't be run: {error}"))?;
    if output.status.success() {
        return Ok(());
    }
    Err(format!(
        "{program} failed, {}:\n{}{}",
        output.status,
        String::from_utf8_lossy(&output.stdout),
        String::from_utf8_lossy(&output.stderr)
    ))
}
