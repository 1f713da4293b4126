// Links the archive that `tools/archive.sh` writes; BUZHNAEL_ARCHIVE names another place.
use std::env;
use std::path::PathBuf;

fn main() {
    println!("cargo:rerun-if-env-changed=BUZHNAEL_ARCHIVE");
    let archive = match env::var_os("BUZHNAEL_ARCHIVE") {
        Some(path) => PathBuf::from(path),
        None => PathBuf::from(env::var_os("CARGO_MANIFEST_DIR").unwrap()).join("../../target/staticlib/libmd.a"),
    };
    println!("cargo:rerun-if-changed={}", archive.display());
    if !archive.exists() {
        println!("cargo:warning=no archive at {}: run `tools/archive.sh`", archive.display());
    }
    let folder = archive.parent().expect("the path of an archive");
    let name = archive.file_name().and_then(|n| n.to_str()).unwrap_or_default();
    let name = name.strip_prefix("lib").and_then(|n| n.strip_suffix(".a")).expect("an archive is named lib….a");
    println!("cargo:rustc-link-search=native={}", folder.display());
    println!("cargo:rustc-link-lib=static={name}");
}
