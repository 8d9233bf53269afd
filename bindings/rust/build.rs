//! Links the proved library, from crates/panel/out or from the folder that PANEL_DIR names.

fn main() {
    let usual = format!("{}/../../crates/panel/out", env!("CARGO_MANIFEST_DIR"));
    let dir = std::env::var("PANEL_DIR").unwrap_or(usual);
    println!("cargo:rustc-link-search=native={dir}");
    println!("cargo:rustc-link-lib=static=panel");
    println!("cargo:rerun-if-env-changed=PANEL_DIR");
    println!("cargo:rerun-if-changed={dir}/libpanel.a");
}
