//! Links the proved library from PANEL_DIR, and from PEERS_DIR those trees of C and C++ that PEERS names.

fn main() {
    let panel = std::env::var("PANEL_DIR").expect("PANEL_DIR: the folder of libpanel.a; bench/run sets it");
    println!("cargo:rustc-link-search=native={panel}");
    println!("cargo:rustc-link-lib=static=panel");
    println!("cargo:rerun-if-changed={panel}/libpanel.a");
    for name in ["PANEL_DIR", "PEERS_DIR", "PEERS"] {
        println!("cargo:rerun-if-env-changed={name}");
    }
    let dir = std::env::var("PEERS_DIR").unwrap_or_default();
    let peers = std::env::var("PEERS").unwrap_or_default();
    println!("cargo:rustc-link-search=native={dir}");
    for peer in ["std_map", "avl_set", "gtree"] {
        println!("cargo:rustc-check-cfg=cfg({peer})");
        if peers.split(' ').any(|name| name == peer) {
            println!("cargo:rustc-cfg={peer}");
            println!("cargo:rustc-link-lib=static={peer}");
            println!("cargo:rerun-if-changed={dir}/lib{peer}.a");
        }
    }
    if peers.contains("gtree") {
        println!("cargo:rustc-link-lib=dylib=glib-2.0");
    }
    if !peers.is_empty() {
        println!("cargo:rustc-link-lib=dylib=stdc++");
    }
}
