//! Tells cargo where `libtahvenno.a` is: in TAHVENNO_LIB_DIR, or where `box/build` puts it, or `box/install`.
use std::env;
use std::path::PathBuf;

fn main() {
    let own = |name| env::var(name).expect("cargo sets it");
    let below = |folder| PathBuf::from(own("CARGO_MANIFEST_DIR")).join(folder).join(own("CARGO_CFG_TARGET_ARCH"));
    // a clone may lie below a PREFIX, so its own archive comes first
    let built = below("../../target/box");
    let found = if built.is_dir() { built } else { below("../../../lib/tahvenno") };
    let folder = env::var_os("TAHVENNO_LIB_DIR").map(PathBuf::from).unwrap_or(found);
    println!("cargo:rerun-if-env-changed=TAHVENNO_LIB_DIR");
    println!("cargo:rerun-if-changed={}", folder.join("libtahvenno.a").display());
    println!("cargo:rustc-link-search=native={}", folder.display());
}
