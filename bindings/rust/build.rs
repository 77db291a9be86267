// Links the proved archive, which `rt lib` writes in crates/tool_log_c. TOOL_LOG_ARCHIVE_DIR names another folder for it.
use std::{env, path::PathBuf};

fn main() {
    let crate_folder = PathBuf::from(env::var("CARGO_MANIFEST_DIR").unwrap());
    let folder = crate_folder.join(env::var("TOOL_LOG_ARCHIVE_DIR").unwrap_or("../../crates/tool_log_c/out".to_string()));
    println!("cargo:rustc-link-search=native={}", folder.display());
    println!("cargo:rustc-link-lib=static=tool_log_c");
    println!("cargo:rerun-if-changed={}", folder.join("libtool_log_c.a").display());
    println!("cargo:rerun-if-env-changed=TOOL_LOG_ARCHIVE_DIR");
}
