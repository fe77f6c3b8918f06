//! Links the base's libpokerbox.a, from the folder that base.sh names.

fn main() {
    println!("cargo:rerun-if-env-changed=POKERBOX_BASE_LIB_DIR");
    let folder = std::env::var("POKERBOX_BASE_LIB_DIR").unwrap_or_else(|_| {
        eprintln!("POKERBOX_BASE_LIB_DIR names no folder: run base.sh");
        std::process::exit(1)
    });
    println!("cargo:rerun-if-changed={folder}/libpokerbox.a");
    println!("cargo:rustc-link-search=native={folder}");
    println!("cargo:rustc-link-lib=static=pokerbox");
}
