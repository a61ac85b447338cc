// Links the archive of the boundary, which `tests/c archive` has `rt lib` write for x86-64, and where that cannot be, says why. GRUNDAVOK_LIB names
// another folder that holds a libcapi.a, as `bindings/native FOLDER` writes it.
use std::env;
use std::path::PathBuf;

fn folder() -> PathBuf {
    match env::var_os("GRUNDAVOK_LIB") {
        Some(folder) => folder.into(),
        None => PathBuf::from(env::var_os("CARGO_MANIFEST_DIR").unwrap()).join("../../crates/capi/out"),
    }
}

fn main() {
    println!("cargo:rerun-if-env-changed=GRUNDAVOK_LIB");
    let folder = folder();
    let archive = folder.join("libcapi.a");
    println!("cargo:rerun-if-changed={}", archive.display());
    let target = env::var("TARGET").unwrap();
    let named = env::var_os("GRUNDAVOK_LIB").is_some();
    if !named && !(target.starts_with("x86_64-") && target.contains("-linux-")) {
        println!("cargo:warning=not linked: libcapi.a is x86-64 Linux code, and this is {target}; the crate's tests are not run");
    } else if !archive.exists() {
        println!("cargo:warning=not linked: there is no libcapi.a (tests/c archive writes it); the crate's tests are not run");
    } else {
        println!("cargo:rustc-link-search=native={}", folder.display());
        println!("cargo:rustc-link-lib=static=capi");
        println!("cargo:rustc-cfg=grundavok_linked");
    }
}
