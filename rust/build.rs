//! Links the archive of the calls: the file that `YOLDRICK_ARCHIVE` names, by default the one that `tools/archive calls`
//! makes. A relative path counts from this crate.

use std::env;
use std::path::PathBuf;

fn main() {
    println!("cargo:rerun-if-env-changed=YOLDRICK_ARCHIVE");
    let here = PathBuf::from(env::var("CARGO_MANIFEST_DIR").unwrap());
    let archive = here.join(env::var("YOLDRICK_ARCHIVE").unwrap_or("../target/archive/libcalls.a".into()));
    assert!(archive.is_file(), "no {}: run tools/archive calls, or set YOLDRICK_ARCHIVE", archive.display());
    let stem = archive.file_stem().unwrap().to_str().unwrap();
    let name = stem.strip_prefix("lib").expect("an archive is named lib*.a");
    println!("cargo:rerun-if-changed={}", archive.display());
    println!("cargo:rustc-link-search=native={}", archive.parent().unwrap().display());
    println!("cargo:rustc-link-lib=static={name}");
}
