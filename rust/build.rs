// Links the proved library, and compiles the Rust original, where it is to be found, for the tests and the benchmark.
use std::env;
use std::path::{Path, PathBuf};
use std::process::Command;

const ORIGINAL: &str = "../shared/src--operational-transform--src--lib.rs.txt";

fn main() {
    let root = PathBuf::from(env::var("CARGO_MANIFEST_DIR").unwrap()).parent().unwrap().to_path_buf();
    let library = root.join("target/staticlib");
    println!("cargo:rustc-link-search=native={}", library.display());
    println!("cargo:rustc-link-lib=static=c_api");
    println!("cargo:rerun-if-changed={}", library.join("libc_api.a").display());

    println!("cargo:rustc-check-cfg=cfg(original)");
    println!("cargo:rerun-if-env-changed=OT_RS");
    let original = env::var("OT_RS").map_or_else(|_| root.join(ORIGINAL), PathBuf::from);
    println!("cargo:rerun-if-changed={}", original.display());
    println!("cargo:rustc-env=OT_RS_LOOKED_FOR={}", original.display());
    if original.is_file() {
        let out = PathBuf::from(env::var("OUT_DIR").unwrap());
        compile("bytecount", Path::new("bytecount.rs"), &out, None);
        compile("operational_transform", &original, &out, Some("bytecount"));
        println!("cargo:rustc-link-search={}", out.display());
        println!("cargo:rustc-cfg=original");
    }
}

// As the original's own manifest would have it compiled in release.
fn compile(name: &str, source: &Path, out: &Path, needs: Option<&str>) {
    println!("cargo:rerun-if-changed={}", source.display());
    let rustc = env::var("RUSTC").unwrap();
    let mut command = Command::new(rustc);
    command.args(["--crate-type", "rlib", "--edition", "2021", "-C", "opt-level=3", "--cap-lints", "allow"]);
    command.args(["--crate-name", name]).arg("-L").arg(out).arg("--out-dir").arg(out);
    if let Some(other) = needs {
        command.arg("--extern").arg(format!("{other}={}", out.join(format!("lib{other}.rlib")).display()));
    }
    let status = command.arg(source).status().expect("rustc runs");
    assert!(status.success(), "{} compiles", source.display());
}
