//! Links the static library: MITRELILAC_LIB names its folder, where it isn't the one to which `tools/build mitrelilac` writes.

use std::env;
use std::path::Path;

fn main() {
    let usual = Path::new(&env::var("CARGO_MANIFEST_DIR").unwrap()).join("../target/staticlib");
    let folder = env::var_os("MITRELILAC_LIB").map_or(usual, Into::into);
    println!("cargo:rerun-if-env-changed=MITRELILAC_LIB");
    println!(
        "cargo:rerun-if-changed={}",
        folder.join("libmitrelilac.a").display()
    );
    println!("cargo:rustc-link-search=native={}", folder.display());
    println!("cargo:rustc-link-lib=static=mitrelilac");
}
