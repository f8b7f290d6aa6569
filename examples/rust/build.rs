// Links the static library: from the folder LIFT_LIB_DIR, or from where the
// repository builds it.
use std::env;
use std::path::PathBuf;

fn main() {
    let folder = match env::var("LIFT_LIB_DIR") {
        Ok(folder) => PathBuf::from(folder),
        Err(_) => {
            PathBuf::from(env::var("CARGO_MANIFEST_DIR").unwrap()).join("../../target/staticlib")
        }
    };
    println!("cargo:rustc-link-search=native={}", folder.display());
    println!("cargo:rustc-link-lib=static=gateway");
    println!(
        "cargo:rerun-if-changed={}",
        folder.join("libgateway.a").display()
    );
    println!("cargo:rerun-if-env-changed=LIFT_LIB_DIR");
}
