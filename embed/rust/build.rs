//! Says where the archive of the proved engine is: in the folder that `ONDAJUSTA_ARCHIVE` names, or in the repository's target folder.

use std::env;
use std::path::PathBuf;

fn main() {
    let folder = match env::var_os("ONDAJUSTA_ARCHIVE") {
        Some(folder) => PathBuf::from(folder),
        None => PathBuf::from(env!("CARGO_MANIFEST_DIR")).join("../../target/staticlib"),
    };
    let archive = folder.join("libembed.a");
    if !archive.is_file() {
        println!(
            "cargo:warning={} is missing: `embed/archive` makes it",
            archive.display()
        );
    }
    println!("cargo:rerun-if-env-changed=ONDAJUSTA_ARCHIVE");
    println!("cargo:rerun-if-changed={}", archive.display());
    println!("cargo:rustc-link-search=native={}", folder.display());
    println!("cargo:rustc-link-lib=static=embed");
}
