// SPDX-License-Identifier: ISC
//! Links libyezdopin.a: that of the folder YEZDOPIN_LIB_DIR, that for the target in the folder
//! prebuilt/, which the packaged crate has, in a clone what `make` builds, which is called
//! here, or where it is installed.

use std::env;
use std::fs;
use std::path::{Path, PathBuf};
use std::process::{exit, Command};

const ARCHIVE: &str = "libyezdopin.a";

// The folder that pkg-config tells.
fn told() -> Option<PathBuf> {
    let mut asking = Command::new("pkg-config");
    let answer = asking
        .args(["--variable=libdir", "yezdopin"])
        .output()
        .ok()?;
    let folder = String::from_utf8(answer.stdout).ok()?;
    answer.status.success().then(|| folder.trim_end().into())
}

// The target's system and processor. The library is machine code for some of them, and a linker for
// another refuses it less clearly.
fn target() -> (&'static str, &'static str) {
    let target = env::var("TARGET").expect("cargo names the target");
    match target.split_once('-') {
        Some(("x86_64", "pc-windows-gnu")) => ("windows", "x86_64"),
        Some(("x86_64", "apple-darwin")) => ("macos", "x86_64"),
        Some(("aarch64", "apple-darwin")) => ("macos", "aarch64"),
        Some(("x86_64", it)) if is_linux(it) => ("linux", "x86_64"),
        Some(("aarch64", it)) if is_linux(it) => ("linux", "aarch64"),
        _ => {
            eprintln!(
                "libyezdopin is machine code for Linux (gnu or musl) and macOS on x86-64-v2 or \
                 aarch64, and for Windows on x86-64-v2 (windows-gnu), and not for {target}"
            );
            exit(1)
        }
    }
}

// Whether a target is Linux with a C library that the crate runs on: Android's has another
// `errno`, and x32 other pointers.
fn is_linux(target: &str) -> bool {
    target.ends_with("linux-gnu") || target.ends_with("linux-musl")
}

// The folder above, if it is the repository's: it has the assembly text and what chooses a build.
// The folder above a packaged or vendored crate is anyone's.
fn clone_above(package: &Path) -> Option<PathBuf> {
    let root = package.join("..");
    let is_clone = root.join("c/c.mk").is_file() && root.join("c/dispatch.c").is_file();
    is_clone.then_some(root)
}

// The folder in which `make` builds the library for a target, in a clone of the repository, from
// the assembly text there; where the clone can't be written, cargo's own. Where `make` fails, an
// older or an installed library may serve.
fn made(root: &Path, system: &str, processor: &str) -> PathBuf {
    let sources = [
        "generated",
        "c/split.awk",
        "c/dispatch.c",
        "c/processor.c",
        "c/processor.h",
        "c/status.c",
        "c/probe.S",
        "c/include/yezdopin.h",
    ];
    for name in sources {
        println!("cargo:rerun-if-changed={}", root.join(name).display());
    }
    let host = env::var("HOST").expect("cargo names the host");
    let out = match system != "linux" || host.starts_with(processor) {
        true => "out".into(),
        false => format!("out/{processor}"),
    };
    let out = match has_room(&root.join(&out)) {
        true => out,
        false => env::var("OUT_DIR").expect("cargo names a folder"),
    };
    let folder = match system {
        "linux" => out.clone(),
        "macos" => format!("{out}/macos/{processor}"),
        _ => format!("{out}/{system}"),
    };
    let mut making = Command::new("make");
    making.args(["-s", &format!("OUT={out}")]);
    if system == "linux" {
        making.arg(format!("ARCH={processor}"));
    }
    making.arg(format!("{folder}/{ARCHIVE}"));
    let status = making.current_dir(root).env_remove("MAKEFLAGS").status();
    if !matches!(status, Ok(it) if it.success()) {
        eprintln!("the library was not built: {making:?}: {status:?}");
    }
    root.join(folder)
}

// Whether the archive is in a folder, or can be built there.
fn has_room(folder: &Path) -> bool {
    let probe = folder.join("probe");
    let is_writable = fs::create_dir_all(folder).and_then(|()| fs::write(&probe, ""));
    let _ = fs::remove_file(&probe);
    is_writable.is_ok() || folder.join(ARCHIVE).is_file()
}

// The folders that are tried, the first one first.
fn folders(system: &str, processor: &str) -> Vec<PathBuf> {
    if let Some(folder) = env::var_os("YEZDOPIN_LIB_DIR") {
        return vec![folder.into()];
    }
    let package = env::var_os("CARGO_MANIFEST_DIR").expect("cargo names the package's folder");
    let package = PathBuf::from(package);
    let prebuilt = package.join(format!("prebuilt/{system}-{processor}"));
    if prebuilt.join(ARCHIVE).is_file() {
        return vec![prebuilt];
    }
    let mut folders = vec![prebuilt];
    folders.extend(clone_above(&package).map(|root| made(&root, system, processor)));
    if system != "linux" {
        return folders;
    }
    folders.extend(told());
    // Where archives are installed, where pkg-config doesn't tell.
    let debian = format!("/usr/lib/{processor}-linux-gnu");
    folders.extend(["/usr/local/lib", &debian, "/usr/lib64", "/usr/lib"].map(PathBuf::from));
    folders
}

// The first of some folders that has the archive.
fn found(folders: &[PathBuf]) -> &PathBuf {
    let has_it = folders.iter().find(|it| it.join(ARCHIVE).is_file());
    has_it.unwrap_or_else(|| {
        eprintln!(
            "{ARCHIVE} isn't in any of {folders:?}: install it (`make install`), \
             or name its folder in YEZDOPIN_LIB_DIR"
        );
        exit(1)
    })
}

fn main() {
    println!("cargo:rerun-if-env-changed=YEZDOPIN_LIB_DIR");
    println!("cargo:rerun-if-env-changed=PKG_CONFIG_PATH");
    let (system, processor) = target();
    let folders = folders(system, processor);
    let folder = found(&folders);
    println!("cargo:rerun-if-changed={}", folder.join(ARCHIVE).display());
    println!("cargo:rustc-link-search=native={}", folder.display());
    println!("cargo:rustc-link-lib=static=yezdopin");
}
