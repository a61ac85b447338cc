//! Lays the crate's files out, unchanged, under OUT_DIR/automerge, with our glue beside them. Nothing of the crate is in
//! the repository: the files are read from the folder AUTOMERGE_SRC and pinned here.

use std::path::{Path, PathBuf};
use std::{env, fs, process};

/// A file of the crate, its length and its hash (FNV-1a, 64 bits).
struct Pin(&'static str, usize, u64);

const UNCHANGED: [Pin; 8] = [
    Pin("storage/parse.rs", 20007, 0xb9af1ead876c7068),
    Pin("storage/parse/leb128.rs", 3008, 0xe63596b6d09cfc9b),
    Pin(
        "storage/columns/column_specification.rs",
        5409,
        0x4a8da489407e64de,
    ),
    Pin("storage/columns/raw_column.rs", 10366, 0x7cac888d80a86555),
    Pin("columnar/encoding/rle.rs", 7027, 0x9502cf09e8e6203f),
    Pin("columnar/encoding/boolean.rs", 4366, 0x5d253f8cc8760739),
    Pin("columnar/encoding/raw.rs", 2436, 0x7f8265c428b4d999),
    Pin("columnar/column_range/delta.rs", 2661, 0x2acfef9cd2cb3e99),
];

/// Of this file only the module `compression` is taken: the rest leans on files that are not at hand.
const COLUMNS: Pin = Pin("storage/columns.rs", 13574, 0x8d91ad9e7c26e1d6);

fn main() {
    println!("cargo:rerun-if-env-changed=AUTOMERGE_SRC");
    println!("cargo:rerun-if-changed=glue");
    let here = PathBuf::from(env::var("CARGO_MANIFEST_DIR").unwrap());
    let src = match env::var("AUTOMERGE_SRC") {
        Ok(folder) => PathBuf::from(folder),
        Err(_) => here.join("../../shared/docs"),
    };
    let out = PathBuf::from(env::var("OUT_DIR").unwrap()).join("automerge");
    let _ = fs::remove_dir_all(&out);
    for pin in UNCHANGED {
        put(&out.join(pin.0), &pinned(&src, &pin));
    }
    let columns = pinned(&src, &COLUMNS);
    put(&out.join("storage/compression.rs"), compression(&columns));
    copy_glue(&here.join("glue"), &out);
}

/// The text of a file of the crate, which must be the pinned one.
fn pinned(src: &Path, Pin(name, length, hash): &Pin) -> String {
    let path = src.join("src").join(name);
    println!("cargo:rerun-if-changed={}", path.display());
    let text = fs::read_to_string(&path).unwrap_or_else(|e| {
        stop(&format!(
            "{}: {e}\nAUTOMERGE_SRC names a folder with the src/ of automerge 0.11.0 in it",
            path.display()
        ))
    });
    if (text.len(), fnv(&text)) != (*length, *hash) {
        stop(&format!(
            "{} is not the file of automerge 0.11.0 that the records are made with:\nit has {} bytes and the hash {:016x}, and the pin says {length} bytes and {hash:016x}",
            path.display(),
            text.len(),
            fnv(&text)
        ));
    }
    text
}

fn fnv(text: &str) -> u64 {
    text.bytes().fold(0xcbf29ce484222325, |hash, byte| {
        (hash ^ u64::from(byte)).wrapping_mul(0x100000001b3)
    })
}

/// The module `compression` of columns.rs, verbatim.
fn compression(columns: &str) -> &str {
    let start = columns
        .find("pub(crate) mod compression {")
        .expect("the module compression");
    let end = start + columns[start..].find("\n}\n").expect("its end") + 3;
    &columns[start..end]
}

fn copy_glue(from: &Path, to: &Path) {
    for entry in fs::read_dir(from).unwrap() {
        let path = entry.unwrap().path();
        let target = to.join(path.file_name().unwrap());
        if path.is_dir() {
            copy_glue(&path, &target);
        } else {
            assert!(!target.exists(), "glue hides {}", target.display());
            put(&target, &fs::read_to_string(&path).unwrap());
        }
    }
}

fn put(path: &Path, text: &str) {
    fs::create_dir_all(path.parent().unwrap()).unwrap();
    fs::write(path, text).unwrap();
}

fn stop(why: &str) -> ! {
    eprintln!("oracle: {why}");
    process::exit(1)
}
