//! Finds the C library. The environment variable CHROMESQUID_LIBRARY names its folder, by an
//! absolute path or relative to the folder of this file. Without the variable, the library is in
//! `lib` next to this file, or in `bin/program` of the repository that contains this crate. The
//! header next to the archive has the version of the library and the layout of its structs: if this
//! crate was written for others, the build fails and names the file.
use std::{
    env, fs,
    path::{Path, PathBuf},
};

/// The layout of `cs_options` that src/library.rs declares.
const OPTIONS_FORM: u32 = 4;

fn main() {
    println!("cargo:rerun-if-env-changed=CHROMESQUID_LIBRARY");
    let folder = folder();
    let (archive, header) = (folder.join("libchromesquid.a"), folder.join("chromesquid.h"));
    for file in [&archive, &header] {
        println!("cargo:rerun-if-changed={}", file.display());
        if !file.is_file() {
            panic!("there is no {}: make it by `bin/clib FOLDER`, and name the folder as CHROMESQUID_LIBRARY", file.display());
        }
    }
    want(&header, "CS_VERSION", version());
    want(&header, "CS_OPTIONS_FORM", OPTIONS_FORM);
    println!("cargo:rustc-link-search=native={}", folder.display());
    println!("cargo:rustc-link-lib=static=chromesquid");
}

fn folder() -> PathBuf {
    let here = PathBuf::from(env::var_os("CARGO_MANIFEST_DIR").unwrap());
    if let Some(folder) = env::var_os("CHROMESQUID_LIBRARY") {
        return here.join(folder);
    }
    let beside = here.join("lib");
    if beside.is_dir() {
        beside
    } else {
        here.join("../../bin/program")
    }
}

/// Returns the version of this package in the form of the library: 102 is 0.1.2.
fn version() -> u32 {
    let part = |name| env::var(name).unwrap().parse::<u32>().unwrap();
    part("CARGO_PKG_VERSION_MAJOR") * 10_000 + part("CARGO_PKG_VERSION_MINOR") * 100 + part("CARGO_PKG_VERSION_PATCH")
}

/// Ends the build if the header does not define this name as this number.
fn want(header: &Path, name: &str, number: u32) {
    let text = fs::read_to_string(header).unwrap_or_else(|error| panic!("{} cannot be read: {error}", header.display()));
    let line = text.lines().find_map(|line| line.strip_prefix("#define ")?.strip_prefix(name)?.strip_prefix(' '));
    if line.and_then(|it| it.trim().parse().ok()) != Some(number) {
        let found = line.unwrap_or("not there");
        panic!("{}: {name} is {found}, and this crate needs the library of which it is {number}", header.display());
    }
}
