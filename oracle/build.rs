//! Lays out one source tree of copies: the given Rust files, unchanged, beside our stand-ins for the absent ones.
//! Then tells the linker where the archives of our library are.

use std::path::{Path, PathBuf};
use std::{env, fs};

const GIVEN: [&str; 9] = [
    "data_structures/bitset.rs",
    "voxel/utils.rs",
    "voxel/leaf_node/csg.rs",
    "voxel/leaf_node/flood_fill.rs",
    "voxel/leaf_node/tree_node.rs",
    "voxel/internal_node/csg.rs",
    "voxel/internal_node/flood_fill.rs",
    "voxel/internal_node/mod.rs",
    "voxel/internal_node/tree_node.rs",
];

const STAND_INS: [&str; 5] =
    ["lib.rs", "data_structures/mod.rs", "helpers.rs", "voxel/mod.rs", "voxel/leaf_node/mod.rs"];

/// The crates of our library whose calls are compared.
const ARCHIVES: [&str; 2] = ["bitset_calls", "calls"];

fn main() {
    let oracle = PathBuf::from(env::var("CARGO_MANIFEST_DIR").unwrap());
    let root = oracle.parent().unwrap();
    let tree = PathBuf::from(env::var("OUT_DIR").unwrap()).join("source");
    if tree.exists() {
        fs::remove_dir_all(&tree).unwrap();
    }
    copy_all(&rust_folder(root).join("src"), &GIVEN, &tree);
    copy_all(&oracle.join("stand_ins"), &STAND_INS, &tree);
    let archives = root.join("target/archive");
    println!("cargo:rustc-link-search=native={}", archives.display());
    ARCHIVES.iter().for_each(|name| link_archive(&archives, name));
}

/// The one variable that says where the Rust files are; a relative path counts from the repository's root.
fn rust_folder(root: &Path) -> PathBuf {
    println!("cargo:rerun-if-env-changed=YOLDRICK_RUST");
    root.join(env::var("YOLDRICK_RUST").unwrap_or("../shared/docs/src".into()))
}

fn copy_all(from: &Path, files: &[&str], tree: &Path) {
    for file in files {
        let (source, place) = (from.join(file), tree.join(file));
        assert!(source.is_file(), "no {}", source.display());
        fs::create_dir_all(place.parent().unwrap()).unwrap();
        fs::copy(&source, &place).unwrap();
        println!("cargo:rerun-if-changed={}", source.display());
    }
}

fn link_archive(folder: &Path, name: &str) {
    let archive = folder.join(format!("lib{name}.a"));
    assert!(archive.is_file(), "no {}: run tools/archive {name}", archive.display());
    println!("cargo:rustc-link-lib=static={name}");
    println!("cargo:rerun-if-changed={}", archive.display());
}
