//! Links the archives of gixobj_c and of each feature, in the folder that CINGUEPO_LIB names.
use std::env::{var, var_os};
use std::path::Path;

fn main() {
    println!("cargo:rerun-if-env-changed=CINGUEPO_LIB");
    let folder = var("CINGUEPO_LIB").expect("CINGUEPO_LIB names the folder of the archives");
    println!("cargo:rustc-link-search=native={folder}");
    link(&folder, "gixobj_c", "`tools/archive gixobj_c` makes it");
    for feature in ["reencode", "fsck", "edit"] {
        if var_os(format!("CARGO_FEATURE_{}", feature.to_uppercase())).is_some() {
            let name = format!("gixobj_c_{feature}");
            let how = format!("`tools/archive {name}` makes it, for the feature `{feature}`");
            link(&folder, &name, &how);
        }
    }
    link(&folder, "libc_c", "the folder `c` of the toolchain has it");
}

/// Links an archive. Ends the build with a hint if it is missing.
fn link(folder: &str, name: &str, how: &str) {
    let path = Path::new(folder).join(format!("lib{name}.a"));
    println!("cargo:rerun-if-changed={}", path.display());
    assert!(path.is_file(), "{} is missing: {how}", path.display());
    println!("cargo:rustc-link-lib=static={name}");
}
