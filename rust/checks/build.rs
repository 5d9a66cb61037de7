//! With the feature `before`, which the binary `turns` needs: where both archives lie under their other names. The script `rust/turns` makes
//! them.
use std::path::Path;

fn main() {
    println!("cargo:rerun-if-changed=build.rs");
    if std::env::var_os("CARGO_FEATURE_BEFORE").is_none() {
        return;
    }
    let manifest = std::env::var("CARGO_MANIFEST_DIR").expect("cargo names the crate's folder");
    let folder = Path::new(&manifest).join("../target/turns");
    for archive in ["libluffafter.a", "libluffbefore.a"] {
        println!("cargo:rerun-if-changed={}", folder.join(archive).display());
    }
    println!("cargo:rustc-link-search=native={}", folder.display());
}
