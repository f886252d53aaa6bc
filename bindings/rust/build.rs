//! Links libnixu.a: of the folder `NIXU_LIB`, else of `lib` beside this package, as in a release, else where `bindings/build` leaves it.
use std::path::{Path, PathBuf};
use std::{env, fs};

const ARCHIVE: &str = "libnixu.a";

fn main() {
    println!("cargo:rerun-if-env-changed=NIXU_LIB");
    let folders = match env::var_os("NIXU_LIB") {
        Some(named) => vec![PathBuf::from(named)],
        None => folders_beside(PathBuf::from(env::var_os("CARGO_MANIFEST_DIR").expect("cargo sets it"))),
    };
    for folder in &folders {
        println!("cargo:rerun-if-changed={}", folder.join(ARCHIVE).display());
    }
    match folders.iter().find(|folder| folder.join(ARCHIVE).is_file()) {
        Some(folder) => {
            warn_if_unproved(&folder.join(ARCHIVE));
            println!("cargo:rustc-link-search=native={}", folder.display());
            println!("cargo:rustc-link-lib=static=nixu");
        }
        None => {
            let searched: Vec<_> = folders.iter().map(|folder| folder.display().to_string()).collect();
            eprintln!("there is no {ARCHIVE} in {}: run bindings/build, or set NIXU_LIB to its folder", searched.join(" or "));
            std::process::exit(1);
        }
    }
}

fn folders_beside(package: PathBuf) -> Vec<PathBuf> {
    let beside = package.parent().unwrap_or(&package).to_path_buf();
    vec![beside.join("lib"), beside.join("out/lib")]
}

fn warn_if_unproved(archive: &Path) {
    const MARK: &[u8] = b"nixu_unproved";
    let bytes = fs::read(archive).unwrap_or_default();
    if bytes.windows(MARK.len()).any(|part| part == MARK) {
        println!("cargo:warning={} is built without proof", archive.display());
    }
}
