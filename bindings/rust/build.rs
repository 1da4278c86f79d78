//! Finds the library: in the folder that PTAB_LIB_DIR names, else by pkg-config.
use std::env;
use std::process::Command;

/// What `pkg-config --libs ptab` says.
fn flags() -> Result<String, String> {
    let program = env::var("PKG_CONFIG").unwrap_or_else(|_| "pkg-config".into());
    let done = Command::new(&program).args(["--libs", "ptab"]).output().map_err(|why| format!("{program}: {why}"))?;
    if !done.status.success() {
        return Err(String::from_utf8_lossy(&done.stderr).into_owned());
    }
    String::from_utf8(done.stdout).map_err(|why| why.to_string())
}

fn main() {
    for name in ["PTAB_LIB_DIR", "PKG_CONFIG", "PKG_CONFIG_PATH"] {
        println!("cargo:rerun-if-env-changed={name}");
    }
    if let Ok(folder) = env::var("PTAB_LIB_DIR") {
        println!("cargo:rustc-link-search=native={folder}");
        println!("cargo:rustc-link-lib=ptab");
        println!("cargo:rustc-link-arg=-Wl,-rpath,{folder}");
        return;
    }
    let flags = flags().unwrap_or_else(|why| panic!("no library ptab; install it, or set PTAB_LIB_DIR to its folder: {why}"));
    for flag in flags.split_whitespace() {
        if let Some(folder) = flag.strip_prefix("-L") {
            println!("cargo:rustc-link-search=native={folder}");
        } else if let Some(name) = flag.strip_prefix("-l") {
            println!("cargo:rustc-link-lib={name}");
        } else {
            println!("cargo:rustc-link-arg={flag}");
        }
    }
}
