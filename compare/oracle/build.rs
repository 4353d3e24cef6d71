//! Declares the reference's own files as modules of this package's library, and links the product
//! if it is there.
//!
//! The files are compiled where they lie, unchanged; of those that keep to themselves what an export
//! for C gives, a copy with our lines of `src/peeks` behind it. The copies and a list of module
//! declarations are written into cargo's output folder; `src/lib.rs` includes the list.
//!
//! The package `bounded` has this build script too. Its copies have the changes of `build/kept.rs`, and its
//! sources the cfg `bounded`.

#[path = "build/kept.rs"]
mod kept;

use std::path::{Path, PathBuf};
use std::{env, fs};

/// The folder that holds the reference's `src/`; a relative one is taken from the project root.
const SOURCE_VARIABLE: &str = "MSFT_TYPELIB_SRC";
const DEFAULT_SOURCE: &str = "../shared/docs/src";
const SOURCE_HINT: &str = "set MSFT_TYPELIB_SRC to the folder that holds the reference's src/";

/// The product's static library; a relative path is taken from the project root. Without it,
/// nothing that calls the product is built.
const ARCHIVE_VARIABLE: &str = "MSFT_TYPELIB_ARCHIVE";

/// The package whose copy of the reference is kept to its tables.
const BOUNDED: &str = "bounded";

/// The given files. A clone also holds a `lib.rs` and the `Error` type; `src/lib.rs` here stands
/// in for both, so they are not built.
const MODULES: [&str; 16] = [
    "arraydesc",
    "custdata",
    "func",
    "guid",
    "guidentry",
    "impfile",
    "impinfo",
    "iterators",
    "name",
    "param",
    "refrecord",
    "typeinfo",
    "typelib",
    "types",
    "util",
    "var",
];

/// The files with private fields that a comparison must see: the bytes of a record, and the numbers
/// of a cursor. Each gets our lines behind it, which only read them; those behind `typelib` put a
/// library's numbers beside bytes that hold none.
const PEEKED: [&str; 7] = [
    "arraydesc",
    "impfile",
    "impinfo",
    "iterators",
    "param",
    "refrecord",
    "typelib",
];

fn main() {
    println!("cargo::rustc-check-cfg=cfg(bounded)");
    if is_bounded() {
        println!("cargo::rustc-cfg=bounded");
    }
    declare_reference();
    link_product();
}

fn is_bounded() -> bool {
    env::var("CARGO_PKG_NAME").is_ok_and(|name| name == BOUNDED)
}

fn declare_reference() {
    println!("cargo::rerun-if-env-changed={SOURCE_VARIABLE}");

    let source = env::var_os(SOURCE_VARIABLE).unwrap_or(DEFAULT_SOURCE.into());
    let folder = cargo_folder("CARGO_MANIFEST_DIR")
        .join("../..")
        .join(source)
        .join("src");
    let mut declarations = String::new();
    for module in MODULES {
        let mut file = absolute(&folder.join(module).with_extension("rs"), SOURCE_HINT);
        println!("cargo::rerun-if-changed={}", file.display());
        if PEEKED.contains(&module) {
            file = with_peeks(&file, module);
        }
        declarations += &format!("#[path = {file:?}]\nmod {module};\n");
    }

    let list = cargo_folder("OUT_DIR").join("modules.rs");
    fs::write(&list, declarations).expect("cargo's output folder can be written");
}

/// A copy of the reference's file with our lines behind it. Of the files that are changed, each has some.
fn with_peeks(file: &Path, module: &str) -> PathBuf {
    let peeks = cargo_folder("CARGO_MANIFEST_DIR")
        .join("../oracle/src/peeks")
        .join(module)
        .with_extension("rs");
    println!("cargo::rerun-if-changed={}", peeks.display());
    let read = |part: &Path| fs::read_to_string(part).expect("a source can be read");
    let mut text = read(file);
    if is_bounded() {
        text = kept::changed(module, text);
    }
    let copy = cargo_folder("OUT_DIR").join(module).with_extension("rs");
    fs::write(&copy, text + "\n" + &read(&peeks)).expect("cargo's output folder can be written");
    copy
}

/// Links the archive and says so to the sources by the cfg `product`.
fn link_product() {
    println!("cargo::rustc-check-cfg=cfg(product)");
    println!("cargo::rerun-if-env-changed={ARCHIVE_VARIABLE}");
    let Some(archive) = env::var_os(ARCHIVE_VARIABLE).filter(|path| !path.is_empty()) else {
        return;
    };
    let archive = cargo_folder("CARGO_MANIFEST_DIR")
        .join("../..")
        .join(archive);
    let archive = absolute(
        &archive,
        "set MSFT_TYPELIB_ARCHIVE to the product's static library",
    );
    let folder = archive.parent().expect("a file lies in a folder");
    let name = archive.file_name().expect("a file has a name");
    println!("cargo::rerun-if-changed={}", archive.display());
    println!("cargo::rustc-link-search=native={}", folder.display());
    println!("cargo::rustc-link-lib=static:+verbatim={}", name.display());
    println!("cargo::rustc-cfg=product");
}

/// The folder that cargo names in the given variable.
fn cargo_folder(variable: &str) -> PathBuf {
    env::var_os(variable).expect("set by cargo").into()
}

/// Paths are read from the place of the list of declarations and by the linker, so they must be
/// absolute.
fn absolute(file: &Path, hint: &str) -> PathBuf {
    file.canonicalize()
        .unwrap_or_else(|error| panic!("{}: {error}; {hint}", file.display()))
}
