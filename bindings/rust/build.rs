//! Finds the proved archive: in the directory that `FORDLINNET_LIB` names; or where `bindings/archive` leaves it, in `target/staticlib` at
//! the top of the repository; or beside an installed crate (`bindings/install`). Then looks for its ABI: the archive has a symbol
//! `fordlinnet_abi_` with the number, and the crate links with no other.

use std::env;
use std::path::{Path, PathBuf};

/// `FORDLINNET_ABI` of the header.
const ABI: u32 = 2;

/// The ABI that an archive names.
fn abi_of(archive: &[u8]) -> Option<u32> {
    let name = b"fordlinnet_abi_";
    let at = archive.windows(name.len()).position(|window| window == name)? + name.len();
    let digits: String = archive[at..].iter().map(|&byte| char::from(byte)).take_while(char::is_ascii_digit).collect();
    digits.parse().ok()
}

fn directory(here: &Path) -> PathBuf {
    if let Some(named) = env::var_os("FORDLINNET_LIB") {
        return PathBuf::from(named);
    }
    let (built, installed) = (here.join("../../target/staticlib"), here.join("../../../lib"));
    if !here.join("../../crates.txt").exists() && installed.join("libfordlinnet.a").exists() {
        return installed;
    }
    built
}

fn main() {
    println!("cargo:rerun-if-env-changed=FORDLINNET_LIB");
    let here = PathBuf::from(env::var_os("CARGO_MANIFEST_DIR").expect("cargo sets it"));
    let directory = directory(&here);
    let archive = directory.join("libfordlinnet.a");
    println!("cargo:rerun-if-changed={}", archive.display());
    match std::fs::read(&archive) {
        Err(trouble) => println!("cargo:warning={}: {trouble}: run `bindings/archive`, or set FORDLINNET_LIB", archive.display()),
        Ok(bytes) => match abi_of(&bytes) {
            Some(ABI) => (),
            Some(other) => panic!("{} has ABI {other}, and this crate calls ABI {ABI}: see CHANGELOG.md", archive.display()),
            None => panic!("{} names no ABI: it is older than ABI 1, or no archive of Fordlinnet", archive.display()),
        },
    }
    println!("cargo:rustc-link-search=native={}", directory.display());
    println!("cargo:rustc-link-lib=static=fordlinnet");
}
