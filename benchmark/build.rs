// The version of the compiler, which the head of the output states.
fn main() {
    let rustc = std::env::var("RUSTC").unwrap();
    let told = std::process::Command::new(rustc).arg("--version").output().unwrap();
    println!("cargo:rustc-env=RUSTC_VERSION={}", String::from_utf8_lossy(&told.stdout).trim());
    println!("cargo:rerun-if-changed=build.rs");
}
