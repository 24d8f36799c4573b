//! Finds libsmap: below the folder that `SMAP_DIR` names, or by the file that it has for
//! pkg-config, or within this crate, or among the packages of the repository that it lies in.

use std::env;
use std::fs;
use std::path::{Path, PathBuf};
use std::process::{exit, Command};

fn main() {
    for name in [
        "SMAP_DIR",
        "PKG_CONFIG",
        "PKG_CONFIG_PATH",
        "PKG_CONFIG_LIBDIR",
    ] {
        println!("cargo:rerun-if-env-changed={}", name);
    }
    println!("cargo:rerun-if-changed=build.rs");
    match named().or_else(installed).or_else(within).or_else(packaged) {
        Some((include, lib)) => link(&include, &lib),
        None => {
            eprintln!(
                "there is no libsmap {}: name the folder that has include/smap.h and lib/libsmap.a \
                 in SMAP_DIR, or that of its smap.pc in PKG_CONFIG_PATH",
                version()
            );
            exit(1);
        }
    }
}

fn link(include: &Path, lib: &Path) {
    let dynamic = env::var_os("CARGO_FEATURE_DYNAMIC").is_some();
    let kind = if dynamic { "dylib" } else { "static" };
    println!("cargo:rustc-link-search=native={}", lib.display());
    println!("cargo:rustc-link-lib={}=smap", kind);
    println!(
        "cargo:rustc-env=SMAP_HEADER={}",
        include.join("smap.h").display()
    );
    println!("cargo:include={}", include.display());
}

fn version() -> String {
    set("CARGO_PKG_VERSION")
}

fn set(name: &str) -> String {
    env::var(name).unwrap_or_default()
}

/// The folders of the header and of the library below the one that is named.
fn named() -> Option<(PathBuf, PathBuf)> {
    let folder = PathBuf::from(env::var_os("SMAP_DIR")?);
    let folder = folder.canonicalize().unwrap_or(folder);
    println!("cargo:rerun-if-changed={}", folder.join("lib").display());
    Some((folder.join("include"), folder.join("lib")))
}

/// Those that pkg-config knows of this version, where this machine is the one that it is built for.
fn installed() -> Option<(PathBuf, PathBuf)> {
    if set("HOST") != set("TARGET") {
        return None;
    }
    let wanted = format!("smap = {}", version());
    pkg_config(&["--exists", &wanted])?;
    let include = pkg_config(&["--variable=includedir", "smap"])?;
    let lib = pkg_config(&["--variable=libdir", "smap"])?;
    Some((PathBuf::from(include), PathBuf::from(lib)))
}

/// What pkg-config prints, where it is there and its status is 0.
fn pkg_config(words: &[&str]) -> Option<String> {
    let program = env::var_os("PKG_CONFIG").unwrap_or_else(|| "pkg-config".into());
    let output = Command::new(program).args(words).output().ok()?;
    let printed = String::from_utf8(output.stdout).ok()?;
    output.status.success().then(|| printed.trim().to_string())
}

/// Those that were packed into this crate, of which there is the static library alone.
fn within() -> Option<(PathBuf, PathBuf)> {
    let arch = set("CARGO_CFG_TARGET_ARCH");
    let folder = Path::new(&set("CARGO_MANIFEST_DIR"))
        .join("native")
        .join(arch);
    let is_for =
        set("CARGO_CFG_TARGET_OS") == "linux" && env::var_os("CARGO_FEATURE_DYNAMIC").is_none();
    (is_for && folder.join("lib/libsmap.a").exists())
        .then(|| (folder.join("include"), folder.join("lib")))
}

/// Those of the package for this processor, which is unpacked. `libsmap.so` is a link there and a copy here: the gate
/// of the repository, in which cargo puts what it makes, refuses links.
fn packaged() -> Option<(PathBuf, PathBuf)> {
    if set("CARGO_CFG_TARGET_OS") != "linux" {
        return None;
    }
    let name = format!("smap-{}-linux-{}", version(), set("CARGO_CFG_TARGET_ARCH"));
    let dist = Path::new(&set("CARGO_MANIFEST_DIR")).join("../../dist");
    let package = dist.join(format!("{}.tar.gz", name));
    let package = package.canonicalize().ok()?;
    println!("cargo:rerun-if-changed={}", package.display());
    let to = PathBuf::from(set("OUT_DIR"));
    let unpacked = Command::new("tar")
        .args(["--extract", "--gzip", "--file"])
        .arg(package)
        .arg("--directory")
        .arg(&to)
        .args(["--strip-components=1", "--exclude=libsmap.so"])
        .args([format!("{}/include", name), format!("{}/lib", name)])
        .status()
        .ok()?;
    let lib = to.join("lib");
    // One that an earlier build has left would be a link to what is copied.
    let _ = fs::remove_file(lib.join("libsmap.so"));
    fs::copy(lib.join("libsmap.so.1"), lib.join("libsmap.so")).ok()?;
    unpacked.success().then(|| (to.join("include"), lib))
}
