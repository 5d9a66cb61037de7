//! Links the proved library, which `bin/archive` writes to target/staticlib in the repository's root. Where the archive is
//! missing it says so and ends the build; where it is older than a source of the library it warns.
use std::path::Path;
use std::time::SystemTime;

fn main() {
    let manifest = std::env::var("CARGO_MANIFEST_DIR").expect("cargo names the crate's folder");
    let root = Path::new(&manifest).join("../..");
    let root = root.canonicalize().unwrap_or(root);
    let folder = root.join("target/staticlib");
    let archive = folder.join("libluffbutton.a");
    let crates = root.join("crates");
    println!("cargo:rerun-if-changed={}", archive.display());
    println!("cargo:rerun-if-changed={}", crates.display());
    if !archive.is_file() {
        eprintln!(
            "luffbutton: target/staticlib/libluffbutton.a is missing: run `bin/archive` in {}",
            root.display()
        );
        std::process::exit(1);
    }
    if newest(&crates) > newest(&archive) {
        println!("cargo:warning=libluffbutton.a is older than a source in crates: run `bin/archive`");
    }
    println!("cargo:rustc-link-search=native={}", folder.display());
    println!("cargo:rustc-link-lib=static=luffbutton");
}

/// When the file, or anything in the folder, last changed; what `rt` keeps in folders named `out` aside.
fn newest(path: &Path) -> SystemTime {
    let own = path
        .metadata()
        .and_then(|data| data.modified())
        .expect("a file of the repository has a date");
    // A folder that got its `out` has a new date by that alone.
    let own = if path.join("out").is_dir() {
        SystemTime::UNIX_EPOCH
    } else {
        own
    };
    let inside = path.read_dir().into_iter().flatten().flatten();
    inside
        .filter(|entry| entry.file_name() != "out")
        .map(|entry| newest(&entry.path()))
        .fold(own, Ord::max)
}
