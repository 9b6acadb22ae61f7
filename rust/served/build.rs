//! Builds the program of `served.c` and `bundle.c` around
//! target/staticlib/libscatterflock.a, which is code for x86-64, with a compiler
//! for x86-64.

use std::env;
use std::path::PathBuf;
use std::process::Command;

fn main() {
    let variable = |name| env::var(name).expect("cargo sets it");
    let compiler = match variable("CARGO_CFG_TARGET_ARCH").as_str() {
        "x86_64" => "gcc",
        _ => "x86_64-linux-gnu-gcc",
    };
    let here = PathBuf::from(variable("CARGO_MANIFEST_DIR"));
    let [source, bundle, shared, header, archive] = [
        "served.c",
        "bundle.c",
        "served.h",
        "../../include/scatterflock.h",
        "../../target/staticlib/libscatterflock.a",
    ]
    .map(|file| here.join(file));
    for file in [&source, &bundle, &shared, &header, &archive] {
        println!("cargo::rerun-if-changed={}", file.display());
    }
    let program = PathBuf::from(variable("OUT_DIR")).join("served");
    let mut command = Command::new(compiler);
    command.args(["-std=c11", "-O2", "-Wall", "-Wextra", "-Werror", "-static", "-o"]);
    command.arg(&program).args([&source, &bundle, &archive]);
    match command.status() {
        Ok(status) if status.success() => {}
        Ok(status) => panic!("{compiler} ended with {status}"),
        Err(error) => panic!("{compiler} does not start: {error}"),
    }
    println!("cargo::rustc-env=SCATTERFLOCK_SERVED={}", program.display());
}
