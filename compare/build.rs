//! Lays the nine published files out as a crate: byte for byte as they are, but for one appended line in three of them.
use std::path::{Path, PathBuf};
use std::{env, fs};

/// Each published file with its length and its FNV-1a sum: a changed text is no longer the original.
const PUBLISHED: [(&str, usize, u64); 9] = [
    ("error.rs", 2414, 0xcf6c0eaad17444da),
    ("bdmv/common.rs", 3883, 0x9a0f36ebf596aa75),
    ("bdmv/register_model.rs", 6934, 0x4eb8597115a089bf),
    ("bdmv/nav_command.rs", 22449, 0x7ae78db56fa05d75),
    ("bdmv/movie_object.rs", 7143, 0x476db71bb8d2a1e1),
    ("bdmv/index_bdmv.rs", 13527, 0xf50eb58220d06c2a),
    ("bdmv/vm.rs", 21531, 0x06d64e08d709cbea),
    ("bdmv/mobj_runner.rs", 10287, 0x530e33dca1fa188c),
    ("bdmv/nav_driver.rs", 16408, 0x3f076ad9ffbb961f),
];

/// A child module sees its parent's private fields: what the public calls don't show.
const PROBED: [&str; 3] = ["bdmv/vm.rs", "bdmv/mobj_runner.rs", "bdmv/nav_driver.rs"];

fn fnv(bytes: &[u8]) -> u64 {
    bytes.iter().fold(0xcbf29ce484222325, |h, &b| (h ^ b as u64).wrapping_mul(0x100000001b3))
}

fn source(from: &Path, name: &str, length: usize, sum: u64) -> String {
    let path = from.join(name);
    println!("cargo:rerun-if-changed={}", path.display());
    let bytes = fs::read(&path).unwrap_or_else(|e| panic!("{}: {e}", path.display()));
    if env::var_os("MESCJADRO_MUTANT").is_none() {
        assert_eq!((bytes.len(), fnv(&bytes)), (length, sum), "{name} is not the published text");
    }
    String::from_utf8(bytes).expect("the published text is UTF-8")
}

/// Links the archive that MESCJADRO_LIBRARY names.
fn link() {
    println!("cargo:rerun-if-env-changed=MESCJADRO_LIBRARY");
    if env::var_os("CARGO_FEATURE_LIBRARY").is_none() {
        return;
    }
    let archive = PathBuf::from(env::var_os("MESCJADRO_LIBRARY").expect("MESCJADRO_LIBRARY names libmescjadro.a"));
    println!("cargo:rerun-if-changed={}", archive.display());
    println!("cargo:rustc-link-search=native={}", archive.parent().unwrap().display());
    println!("cargo:rustc-link-lib=static=mescjadro");
}

fn main() {
    link();
    let here = PathBuf::from(env::var_os("CARGO_MANIFEST_DIR").unwrap());
    let out = PathBuf::from(env::var_os("OUT_DIR").unwrap());
    println!("cargo:rerun-if-env-changed=MESCJADRO_RUST");
    println!("cargo:rerun-if-env-changed=MESCJADRO_MUTANT");
    let from = env::var_os("MESCJADRO_RUST").map_or(here.join("../../shared/docs/src"), PathBuf::from);
    fs::create_dir_all(out.join("bdmv")).unwrap();
    let mut tree = String::new();
    for (name, length, sum) in PUBLISHED {
        let mut text = source(&from, name, length, sum);
        if PROBED.contains(&name) {
            let probe = here.join("src/probe").join(Path::new(name).file_name().unwrap());
            println!("cargo:rerun-if-changed={}", probe.display());
            text.push_str(&format!("#[path = {probe:?}] pub mod probe;\n"));
        }
        let place = out.join(name);
        fs::write(&place, text).unwrap();
        let module = place.file_stem().unwrap().to_str().unwrap();
        let line = format!("#[path = {place:?}] pub mod {module};\n");
        match name.split_once('/') {
            None => tree.insert_str(0, &format!("{line}pub mod bdmv {{\npub use crate::mpls;\n")),
            Some(_) => tree.push_str(&line),
        }
    }
    tree.push_str("}\n");
    fs::write(out.join("tree.rs"), tree).unwrap();
}
