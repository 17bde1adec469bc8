//! Links the archive that run.sh builds; its folder is in ARCHIVE.
fn main() {
    let folder = std::env::var("ARCHIVE").expect("run run.sh");
    println!("cargo:rustc-link-search=native={folder}");
    println!("cargo:rustc-link-lib=static=dmap");
    println!("cargo:rerun-if-env-changed=ARCHIVE");
    println!("cargo:rerun-if-changed={folder}/libdmap.a");
}
