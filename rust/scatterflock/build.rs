//! Links the archive: code for the machine that this is built for.
//!
//! The environment variable SCATTERFLOCK_ARCHIVE names it. Where that is not
//! set, it is the one that `make lib` makes at the top of the repository: on
//! x86-64 rt's own, elsewhere its functions compiled for the machine
//! (tools/native).

use std::env;
use std::fs;
use std::path::{Path, PathBuf};

fn main() {
    println!("cargo::rerun-if-env-changed=SCATTERFLOCK_ARCHIVE");
    let named = env::var_os("SCATTERFLOCK_ARCHIVE").map(PathBuf::from);
    let path = named.unwrap_or_else(made);
    println!("cargo::rerun-if-changed={}", path.display());
    let Ok(archive) = path.canonicalize() else {
        println!(
            "cargo::error=there is no archive {}: `make lib` makes it; one that is elsewhere can be \
             named in SCATTERFLOCK_ARCHIVE",
            path.display()
        );
        return;
    };
    if let (Some(found), Some(asked)) = (machine_of(&archive), machine_here()) {
        if found != asked {
            println!(
                "cargo::error=the archive {} is not code for this machine ({}): `make lib` makes one",
                archive.display(),
                variable("CARGO_CFG_TARGET_ARCH")
            );
            return;
        }
    }
    let folder = archive.parent().expect("a file is in a folder");
    let file = archive.file_name().expect("a file has a name");
    println!("cargo::rustc-link-search=native={}", folder.display());
    println!("cargo::rustc-link-lib=static:+verbatim={}", file.to_string_lossy());
    // For tests that link it into a program of their own.
    println!("cargo::rustc-env=SCATTERFLOCK_LIBRARY={}", archive.display());
}

fn variable(name: &str) -> String {
    env::var(name).expect("cargo sets it")
}

fn made() -> PathBuf {
    let folder = match variable("CARGO_CFG_TARGET_ARCH").as_str() {
        "x86_64" => "staticlib",
        _ => "native",
    };
    let top = PathBuf::from(variable("CARGO_MANIFEST_DIR")).join("../..");
    top.join("target").join(folder).join("libscatterflock.a")
}

/// The number of a machine in the head of an ELF file.
type Machine = [u8; 2];

/// The machine that the archive's first object is code for.
fn machine_of(archive: &Path) -> Option<Machine> {
    let bytes = fs::read(archive).ok()?;
    let start = bytes.windows(4).position(|four| four == b"\x7fELF")?;
    bytes.get(start + 18..start + 20)?.try_into().ok()
}

/// The machine that this is built for, where it is one of the two known.
fn machine_here() -> Option<Machine> {
    match variable("CARGO_CFG_TARGET_ARCH").as_str() {
        "x86_64" => Some([62, 0]),
        "aarch64" => Some([183, 0]),
        _ => None,
    }
}
