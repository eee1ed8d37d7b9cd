//! Links the archive from where `RTR_LIB_DIR` says; else, for Linux, from this crate's `lib`; else,
//! in its repository, from `prebuilt`. Where none fits the target, it compiles the C file of the
//! same calls by `CC` or `cc`.

use std::path::{Path, PathBuf};
use std::process::Command;

fn main() {
    check_compiler();
    println!("cargo:rerun-if-env-changed=RTR_LIB_DIR");
    let folder = match std::env::var("RTR_LIB_DIR") {
        Ok(folder) => {
            let folder = PathBuf::from(folder);
            if !has_archive(&folder) {
                refuse(&format!(
                    "RTR_LIB_DIR is \"{}\", which has no librtr_wire.a",
                    folder.display()
                ));
            }
            folder
        }
        Err(_) => folders_with_archives()
            .into_iter()
            .find(|folder| has_archive(folder))
            .unwrap_or_else(compiled),
    };
    println!("cargo:rustc-link-search=native={}", folder.display());
    println!("cargo:rustc-link-lib=static=rtr_wire");
    println!("cargo:rerun-if-changed={}/librtr_wire.a", folder.display());
}

fn has_archive(folder: &Path) -> bool {
    folder.join("librtr_wire.a").is_file()
}

/// Refuses a compiler whose `core` lacks `error` and `net`, where there is no `std` for them.
fn check_compiler() {
    if std::env::var_os("CARGO_FEATURE_STD").is_some() {
        return;
    }
    let output = Command::new(setting("RUSTC")).arg("--version").output();
    let text = output.map_or(Vec::new(), |run| run.stdout);
    let text = String::from_utf8_lossy(&text);
    let minor = text
        .trim()
        .strip_prefix("rustc 1.")
        .and_then(|rest| rest.split('.').next());
    if matches!(minor.and_then(|digits| digits.parse::<u32>().ok()), Some(minor) if minor < 81) {
        refuse(&format!(
            "without the feature std it needs Rust 1.81 or newer, and this is {}",
            text.trim()
        ));
    }
}

/// Returns the folders that may have an archive for the target: none but for Linux on two
/// processors.
fn folders_with_archives() -> Vec<PathBuf> {
    let arch = setting("CARGO_CFG_TARGET_ARCH");
    let kind =
        ["OS", "POINTER_WIDTH", "ENDIAN"].map(|key| setting(&format!("CARGO_CFG_TARGET_{key}")));
    if !["x86_64", "aarch64"].contains(&arch.as_str()) || kind != ["linux", "64", "little"] {
        return Vec::new();
    }
    ["lib", "../../prebuilt"]
        .iter()
        .map(|name| here().join(name).join(&arch))
        .collect()
}

/// Compiles the C file to an archive, and returns its folder.
fn compiled() -> PathBuf {
    let to = PathBuf::from(setting("OUT_DIR"));
    let file = first_there(&["portable/rtr_wire.c", "../../prebuilt/portable/rtr_wire.c"]);
    let header = first_there(&["rtr.h", "../c/rtr.h"]);
    println!("cargo:rerun-if-changed={}", file.display());
    let object = to.join("rtr_wire.o");
    let archive = to.join("librtr_wire.a");
    run(Command::new(tool("CC", "cc"))
        .args(["-std=c11", "-O2", "-fPIC", "-c", "-I"])
        .arg(header.parent().expect("a file lies in a folder"))
        .arg(&file)
        .arg("-o")
        .arg(&object));
    run(Command::new(tool("AR", "ar"))
        .arg("crs")
        .arg(archive)
        .arg(object));
    to
}

/// Returns the first of these files that exists beside this one.
fn first_there(names: &[&str]) -> PathBuf {
    let mut paths = names.iter().map(|name| here().join(name));
    paths
        .find(|path| path.is_file())
        .unwrap_or_else(|| refuse(&format!("there is none of {names:?}")))
}

/// The tool for the target: what `CC_x86_64_unknown_freebsd` names, and where the target is this
/// machine, also `CC` or the usual one.
fn tool(name: &str, usual: &str) -> String {
    let target = setting("TARGET");
    let special = format!("{name}_{}", target.replace('-', "_"));
    for variable in [&special, name] {
        println!("cargo:rerun-if-env-changed={variable}");
    }
    if let Ok(tool) = std::env::var(&special) {
        return tool;
    }
    if target != setting("HOST") {
        refuse(&format!(
            "there is no archive for {target}: set {special} to the tool that makes it, \
             or RTR_LIB_DIR to the folder of a librtr_wire.a"
        ));
    }
    std::env::var(name).unwrap_or_else(|_| usual.to_string())
}

fn run(command: &mut Command) {
    if !matches!(command.status(), Ok(status) if status.success()) {
        refuse(&format!("this failed: {command:?}"));
    }
}

fn here() -> PathBuf {
    setting("CARGO_MANIFEST_DIR").into()
}

/// Returns a variable that cargo sets, about the target or this crate.
fn setting(name: &str) -> String {
    std::env::var(name).expect("cargo sets it for build scripts")
}

fn refuse(reason: &str) -> ! {
    eprintln!("rtr-wire: {reason}");
    std::process::exit(1)
}
