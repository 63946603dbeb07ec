//! Links the static library that `tools/build extlang` wrote, and the peers
//! whose Debian packages are installed.

use std::path::Path;
use std::process::Command;

/// Where Debian's packages have their headers.
const HEADERS: &str = "/usr/include";
/// The name of a peer, a header that shows that it is installed, its libraries.
const PEERS: [(&str, &str, &[&str]); 3] = [
    ("knot", "libzscanner/scanner.h", &["knot", "zscanner"]),
    ("bind", "dns/rdata.h", &["dns", "isc"]),
    ("ldns", "ldns/ldns.h", &["ldns"]),
];

fn main() {
    let folder = Path::new(env!("CARGO_MANIFEST_DIR")).join("../target/staticlib");
    println!("cargo:rerun-if-changed={}", folder.join("libextlang.a").display());
    println!("cargo:rustc-link-search=native={}", folder.display());
    println!("cargo:rustc-link-lib=static=extlang");
    println!("cargo:rerun-if-env-changed=WITHOUT");
    let without = std::env::var("WITHOUT").unwrap_or_default();
    for (name, header, libraries) in PEERS {
        let header = Path::new(HEADERS).join(header);
        println!("cargo:rustc-check-cfg=cfg({name})");
        println!("cargo:rerun-if-changed={}", header.display());
        println!("cargo:rerun-if-changed=src/peers/{name}.c");
        if header.exists() && !without.split_whitespace().any(|word| word == name) {
            build(name, libraries);
        }
    }
}

/// The Rust code sees the name of a peer as a flag. One that cannot be compiled
/// here is left out.
fn build(name: &str, libraries: &[&str]) {
    // Cargo sets it for every build script.
    let folder = std::env::var("OUT_DIR").unwrap();
    let source = format!("src/peers/{name}.c");
    let (object, library) = (format!("{folder}/{name}.o"), format!("{folder}/libbench_{name}.a"));
    let compiled = run("cc", &["-O2", "-Wall", "-Wextra", "-c", &source, "-o", &object]);
    if !compiled || !run("ar", &["rcs", &library, &object]) {
        println!("cargo:warning={source} cannot be compiled, so {name} is left out");
        return;
    }
    println!("cargo:rustc-link-search=native={folder}");
    println!("cargo:rustc-link-lib=static=bench_{name}");
    libraries.iter().for_each(|library| println!("cargo:rustc-link-lib=dylib={library}"));
    println!("cargo:rustc-cfg={name}");
}

fn run(program: &str, words: &[&str]) -> bool {
    Command::new(program).args(words).status().is_ok_and(|status| status.success())
}
