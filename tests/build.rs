// The archives of the proved functions: `tools/archives` writes them.
fn main() {
    let folder = format!("{}/../target/staticlib", env!("CARGO_MANIFEST_DIR"));
    println!("cargo:rustc-link-search=native={folder}");
    for archive in ["gutilamboy", "gutilamboy_codec", "gutilamboy_walker"] {
        println!("cargo:rustc-link-lib=static={archive}");
        println!("cargo:rerun-if-changed={folder}/lib{archive}.a");
    }
}
