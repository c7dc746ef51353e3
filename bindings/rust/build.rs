//! Links the proved rules. The folder with libdine.a is the one that `DINE_LIB` names, by its full path, or else
//! ../lib. If there is none, ../build makes one, with the C compiler `CC`: of the library that was proved and built, or
//! where that is not, or `DINE_NOKIT` is set, of the rules as C. In a package ./build does that.
use std::env::var;
use std::path::{Path, PathBuf};
use std::process::Command;

fn main() {
    for name in ["DINE_LIB", "DINE_NOKIT", "CC", "AR"] {
        println!("cargo:rerun-if-env-changed={name}");
    }
    let here = Path::new("../lib");
    if here.is_dir() {
        // The library may be built later.
        println!("cargo:rerun-if-changed={}", here.display());
    }
    let folder = match var("DINE_LIB") {
        Ok(folder) => existing(Path::new(&folder)),
        Err(_) if var("DINE_NOKIT").is_err() && here.join("libdine.a").is_file() => existing(here),
        Err(_) => compiled(),
    };
    println!("cargo:rustc-link-search=native={}", folder.display());
    println!("cargo:rustc-link-lib=static=dine");
}

fn existing(folder: &Path) -> PathBuf {
    let folder = folder.canonicalize().unwrap_or_else(|_| folder.to_path_buf());
    let library = folder.join("libdine.a");
    assert!(library.is_file(), "no {}: DINE_LIB is the folder of libdine.a, by its full path", library.display());
    println!("cargo:rerun-if-changed={}", library.display());
    folder
}

fn compiled() -> PathBuf {
    let folder = PathBuf::from(var("OUT_DIR").expect("cargo sets it"));
    let build = if Path::new("../build").exists() { "../build" } else { "build" };
    let words = "is not here: take dine from its repository, by path or git, or from the package of bindings/package";
    assert!(Path::new(build).exists(), "bindings/build {words}");
    for path in ["c", "../c", "../../programs/made"] {
        if Path::new(path).exists() {
            println!("cargo:rerun-if-changed={path}");
        }
    }
    let nokit = var("DINE_NOKIT").is_ok().then_some("--nokit");
    let ran = Command::new("sh").arg(build).args(nokit).arg(&folder).output().expect("sh runs");
    let said = String::from_utf8_lossy(&ran.stderr);
    assert!(ran.status.success(), "{build} made no library; is there a C compiler?\n{said}");
    folder
}
