// Links the static library of the crate `exports`.
fn main() {
    let repo = format!("{}/..", std::env::var("CARGO_MANIFEST_DIR").unwrap());
    println!("cargo:rustc-link-search=native={repo}/crates/exports/out");
    println!("cargo:rustc-link-lib=static=exports");
    println!("cargo:rerun-if-changed={repo}/crates/exports/out/libexports.a");
}
