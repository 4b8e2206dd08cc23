//! Links the archive that `embed/build` has made: in the folder that VARUKONI_LIB names, else in
//! `lib` beside this one, as in a folder made by `embed/build --to`, else in `out/lib` of the
//! repository.

use std::env;
use std::path::PathBuf;

const ARCHIVE: &str = "libvarukoni_ports.a";

fn main() {
    println!("cargo:rerun-if-env-changed=VARUKONI_LIB");
    let above = PathBuf::from(env::var_os("CARGO_MANIFEST_DIR").expect("cargo sets it")).join("..");
    let mut folders = vec![above.join("lib"), above.join("out").join("lib")];
    if let Some(folder) = env::var_os("VARUKONI_LIB") {
        folders = vec![PathBuf::from(folder)];
    }
    let found = folders.iter().find(|folder| folder.join(ARCHIVE).is_file());
    let folder = match found {
        Some(folder) => folder.display(),
        None => panic!(
            "{} is in none of {:?}: run embed/build first",
            ARCHIVE, folders
        ),
    };
    println!("cargo:rustc-link-search=native={}", folder);
    println!("cargo:rustc-link-lib=static=varukoni_ports");
    println!("cargo:rerun-if-changed={}/{}", folder, ARCHIVE);
}
