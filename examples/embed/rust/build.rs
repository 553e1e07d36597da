//! Links the archive in the folder that REDPLAY_LIB names: libredplay.a, as packages have it; or else libredplay_c.a, and liblibc_c.a of
//! the Rattle kit, of which it is joined.

use std::path::Path;

fn main() {
    println!("cargo:rerun-if-env-changed=REDPLAY_LIB");
    let folder = std::env::var("REDPLAY_LIB").unwrap_or_default();
    if !folder.is_empty() {
        println!("cargo:rustc-link-search=native={folder}");
    }
    let is_joined = Path::new(&folder).join("libredplay.a").is_file();
    let archives: &[&str] = if is_joined { &["redplay"] } else { &["redplay_c", "libc_c"] };
    for archive in archives {
        println!("cargo:rustc-link-lib=static={archive}");
    }
}
