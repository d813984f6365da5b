// Links the proved code, which `rt lib --cpu x86-64` in crates/snapshot has written. SNAPSHOT_LIB names another folder,
// by its full path.
fn main() {
    let written = concat!(env!("CARGO_MANIFEST_DIR"), "/../crates/snapshot/out");
    let folder = std::env::var("SNAPSHOT_LIB").unwrap_or_else(|_| written.to_string());
    if !std::path::Path::new(&folder).join("libsnapshot.a").exists() {
        println!(
            "cargo:warning={folder} has no libsnapshot.a: `rt lib --cpu x86-64` in crates/snapshot, or set SNAPSHOT_LIB"
        );
    }
    println!("cargo:rustc-link-search=native={folder}");
    println!("cargo:rustc-link-lib=static=snapshot");
    println!("cargo:rerun-if-changed={folder}/libsnapshot.a");
    println!("cargo:rerun-if-env-changed=SNAPSHOT_LIB");
}
