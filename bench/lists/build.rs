//! Links the console's library (or the one that BENCH_LIBRARY names), compiles the C peer, and looks for pixman.

use std::env;
use std::path::{Path, PathBuf};
use std::process::Command;

const PEER: &str = "../peer";
const SOURCES: [&str; 7] = ["circles", "copies", "fills", "lines", "list", "pens", "text"];

fn main() {
    link_console();
    build_peer();
    find_pixman();
}

fn link_console() {
    println!("cargo:rerun-if-env-changed=BENCH_LIBRARY");
    let library = env::var("BENCH_LIBRARY").unwrap_or("../../crates/bench_console/out/libbench_console.a".into());
    let library = PathBuf::from(library).canonicalize().expect("the console's library");
    println!("cargo:rerun-if-changed={}", library.display());
    let stem = library.file_stem().and_then(|stem| stem.to_str()).expect("a name");
    let name = stem.strip_prefix("lib").expect("a name like libbench_console.a");
    println!("cargo:rustc-link-search=native={}", library.parent().expect("a folder").display());
    println!("cargo:rustc-link-lib=static={name}");
}

fn build_peer() {
    println!("cargo:rerun-if-changed={PEER}");
    let out = PathBuf::from(env::var("OUT_DIR").expect("cargo's folder"));
    let archive = out.join("libpeer.a");
    let _ = std::fs::remove_file(&archive);
    let mut ar = Command::new("ar");
    ar.arg("crs").arg(&archive);
    for source in SOURCES {
        let object = out.join(source).with_extension("o");
        let file = Path::new(PEER).join(source).with_extension("c");
        run(Command::new("cc").args(["-O3", "-std=c11", "-Wall", "-Wextra", "-c", "-o"]).arg(&object).arg(&file));
        ar.arg(object);
    }
    run(&mut ar);
    println!("cargo:rustc-link-search=native={}", out.display());
    println!("cargo:rustc-link-lib=static=peer");
}

fn run(command: &mut Command) {
    assert!(command.status().expect("the C compiler").success(), "{command:?}");
}

/// Where Debian's libpixman-1-dev is not installed, its column stays empty.
fn find_pixman() {
    println!("cargo:rustc-check-cfg=cfg(pixman)");
    println!("cargo:rerun-if-env-changed=PKG_CONFIG_PATH");
    let pkg_config = |asked: &str| Command::new("pkg-config").args([asked, "pixman-1"]).output();
    if !pkg_config("--exists").is_ok_and(|found| found.status.success()) {
        return;
    }
    let flags = pkg_config("--libs-only-L").expect("pkg-config");
    for folder in String::from_utf8_lossy(&flags.stdout).split_whitespace() {
        println!("cargo:rustc-link-search=native={}", folder.trim_start_matches("-L"));
    }
    println!("cargo:rustc-link-lib=pixman-1");
    println!("cargo:rustc-cfg=pixman");
}
