//! Says where the static library is. GITHOPPU_LIBRARY is the folder of libgithoppu.a; without it the library is that of the folder in which this crate was
//! installed (PREFIX/lib beside PREFIX/share/githoppu/rust), or the one that tools/bindings installed in the repository.
//!
//! With the feature `disk` it compiles githoppu_store.c, which is beside this crate's folder where it is installed, by `cc` (or CC) and `ar` (or AR), over the
//! libsqlite3 that pkg-config finds.

use std::env;
use std::path::{Path, PathBuf};
use std::process::Command;

const LIBRARY: &str = "libgithoppu.a";

fn main() {
    println!("cargo:rerun-if-env-changed=GITHOPPU_LIBRARY");
    let here = PathBuf::from(env::var_os("CARGO_MANIFEST_DIR").expect("cargo sets it"));
    let library = match env::var_os("GITHOPPU_LIBRARY") {
        Some(folder) => PathBuf::from(folder),
        None => library_near(&here),
    };
    if !library.join(LIBRARY).is_file() {
        let place = library.display();
        panic!("there is no {LIBRARY} in {place}: run tools/install PREFIX in the repository of Githoppu, and set GITHOPPU_LIBRARY to PREFIX/lib");
    }
    println!("cargo:rerun-if-changed=build.rs");
    println!("cargo:rerun-if-changed={}", library.join(LIBRARY).display());
    if env::var_os("CARGO_FEATURE_DISK").is_some() {
        build_store(&here);
    }
    println!("cargo:rustc-link-search=native={}", library.display());
    println!("cargo:rustc-link-lib=static=githoppu");
}

/// The folder of the library that was installed with this crate, or, in the repository, beside it.
fn library_near(here: &Path) -> PathBuf {
    let installed = here.join("../../../lib");
    let beside = here.join("../out/prefix/lib");
    match beside.join(LIBRARY).is_file() {
        true => beside,
        false => installed,
    }
}

/// Runs a program, and gives what it printed.
fn run(command: &mut Command) -> String {
    match command.output() {
        Ok(done) if done.status.success() => String::from_utf8_lossy(&done.stdout).into_owned(),
        Ok(done) => panic!("{command:?}: {}", String::from_utf8_lossy(&done.stderr)),
        Err(why) => panic!("{command:?}: {why}"),
    }
}

/// Compiles the store on a disk, and links it with libsqlite3.
fn build_store(here: &Path) {
    let (source, includes) = match here.join("../githoppu_store.c").is_file() {
        true => (here.join("../githoppu_store.c"), vec![here.join("../../../include")]),
        false => (here.join("../c/githoppu_store.c"), vec![here.join("../c"), here.join("../../include")]),
    };
    let sqlite = Command::new("pkg-config").args(["--cflags", "--libs", "sqlite3"]).output();
    let words = match sqlite {
        Ok(found) if found.status.success() => String::from_utf8_lossy(&found.stdout).into_owned(),
        _ => panic!("pkg-config finds no sqlite3, which the feature `disk` needs: apt-get install pkg-config libsqlite3-dev"),
    };
    let out = PathBuf::from(env::var_os("OUT_DIR").expect("cargo sets it"));
    let (object, archive) = (out.join("githoppu_store.o"), out.join("libgithoppu_store.a"));
    let mut compile = Command::new(env::var_os("CC").unwrap_or_else(|| "cc".into()));
    compile.args(["-std=c11", "-O2", "-fPIC", "-Wall", "-Wextra"]).args(includes.iter().map(|folder| format!("-I{}", folder.display())));
    compile.args(words.split_whitespace().filter(|word| !word.starts_with("-l") && !word.starts_with("-L")));
    run(compile.arg("-c").arg(&source).arg("-o").arg(&object));
    run(Command::new(env::var_os("AR").unwrap_or_else(|| "ar".into())).arg("crs").arg(&archive).arg(&object));
    println!("cargo:rerun-if-env-changed=CC");
    println!("cargo:rerun-if-env-changed=AR");
    println!("cargo:rerun-if-changed={}", source.display());
    includes.iter().for_each(|folder| println!("cargo:rerun-if-changed={}", folder.display()));
    println!("cargo:rustc-link-search=native={}", out.display());
    println!("cargo:rustc-link-lib=static=githoppu_store");
    for word in words.split_whitespace() {
        if let Some(name) = word.strip_prefix("-l") {
            println!("cargo:rustc-link-lib={name}");
        } else if let Some(folder) = word.strip_prefix("-L") {
            println!("cargo:rustc-link-search=native={folder}");
        }
    }
}
