//! Links the proved library, liblabel_book.a: the one in LABEL_BOOK_LIB_DIR if that is set (as
//! `./install PREFIX` puts it into PREFIX/lib), else the one that `./build library` writes.
use std::env;
use std::path::PathBuf;

const ARCHIVE: &str = "liblabel_book.a";

fn main() {
    println!("cargo::rerun-if-env-changed=LABEL_BOOK_LIB_DIR");
    let folder = match env::var_os("LABEL_BOOK_LIB_DIR") {
        Some(folder) => PathBuf::from(folder),
        None => PathBuf::from(
            env::var_os("CARGO_MANIFEST_DIR").expect("cargo says where the package is"),
        )
        .join("../../target/staticlib"),
    };
    let archive = folder.join(ARCHIVE);
    println!("cargo::rerun-if-changed={}", archive.display());
    if !archive.is_file() {
        println!("cargo::error=there is no {ARCHIVE} in {}", folder.display());
        println!("cargo::error=write it with `./build library`, in the repository's folder,");
        println!("cargo::error=or set LABEL_BOOK_LIB_DIR to the folder that has it");
        return;
    }
    println!("cargo::rustc-link-search=native={}", folder.display());
    println!("cargo::rustc-link-lib=static=label_book");
}
