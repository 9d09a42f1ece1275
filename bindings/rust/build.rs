//! Finds the library: `LABRUN_DIR`, a folder with `liblabrun.so` or `liblabrun.a`; else the folder that a file `labrun.pc` names; else the
//! linker's own folders.
use std::path::{Path, PathBuf};
use std::{env, fs};

const USUAL: &str = "/usr/local/lib/pkgconfig:/usr/local/share/pkgconfig:/usr/lib/pkgconfig:/usr/share/pkgconfig";

/// What such a file says, as `scripts/install` writes it: `libdir` may be below `${prefix}`.
fn libdir(file: &Path) -> Option<PathBuf> {
    let text = fs::read_to_string(file).ok()?;
    let value = |name: &str| text.lines().find_map(|it| it.strip_prefix(name)?.strip_prefix('=')).map(str::trim);
    Some(value("libdir")?.replace("${prefix}", value("prefix").unwrap_or_default()).into())
}

fn folder() -> Option<PathBuf> {
    let named = env::var("PKG_CONFIG_PATH").unwrap_or_default();
    let mut folders = named.split(':').chain(USUAL.split(':')).filter(|it| !it.is_empty());
    env::var_os("LABRUN_DIR").map(PathBuf::from).or_else(|| folders.find_map(|it| libdir(&Path::new(it).join("labrun.pc"))))
}

fn main() {
    println!("cargo:rerun-if-env-changed=LABRUN_DIR");
    println!("cargo:rerun-if-env-changed=PKG_CONFIG_PATH");
    println!("cargo:rerun-if-changed=build.rs");
    let mut kind = "dylib";
    if let Some(folder) = folder() {
        println!("cargo:rustc-link-search=native={}", folder.display());
        if folder.join("liblabrun.a").exists() {
            kind = "static";
        }
    }
    println!("cargo:rustc-link-lib={kind}=labrun");
}
