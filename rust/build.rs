//! Links the static library that `make library` writes at the root of the repository.

use std::env;
use std::fs;
use std::path::Path;

fn main() {
    let here = env::var("CARGO_MANIFEST_DIR").expect("cargo names the folder of the package");
    let folder = Path::new(&here).join("../target/staticlib");
    let library = folder.join("libreach_c.a");
    println!("cargo:rerun-if-changed={}", library.display());
    let Ok(archive) = fs::read(&library) else {
        panic!("target/staticlib/libreach_c.a is missing: run `make library` first");
    };
    let target = env::var("CARGO_CFG_TARGET_ARCH").expect("cargo names the processor");
    assert!(
        machine(&archive) == machine_of(&target),
        "target/staticlib/libreach_c.a was compiled for another processor than {target}"
    );
    println!("cargo:rustc-link-search=native={}", folder.display());
    println!("cargo:rustc-link-lib=static=reach_c");
}

/// The machine number in the header of the first object file.
fn machine(archive: &[u8]) -> Option<u16> {
    let object = archive.windows(4).position(|bytes| bytes == b"\x7fELF")?;
    let number = archive.get(object + 18..object + 20)?;
    Some(u16::from_le_bytes([number[0], number[1]]))
}

fn machine_of(target: &str) -> Option<u16> {
    match target {
        "x86_64" => Some(62),
        "aarch64" => Some(183),
        _ => None,
    }
}
