//! Asks pkg-config where libaes3 is: `PKG_CONFIG_PATH` leads it below another prefix. With `AES3_STATIC` in the environment the static
//! archive is linked, else the shared library.

use std::env;
use std::process::{exit, Command};

/// What pkg-config says of aes3, as words.
fn asked(option: &str) -> Vec<String> {
    let program = env::var("PKG_CONFIG").unwrap_or_else(|_| "pkg-config".into());
    match Command::new(&program).args([option, "aes3 >= 0.1", "aes3 < 0.2"]).output() {
        Ok(said) if said.status.success() => {
            String::from_utf8_lossy(&said.stdout).split_whitespace().map(String::from).collect()
        }
        Ok(said) => {
            eprint!("{}", String::from_utf8_lossy(&said.stderr));
            eprintln!("aes3-sys: pkg-config finds no libaes3 of version 0.1: install it (bin/install), and set PKG_CONFIG_PATH");
            exit(1)
        }
        Err(error) => {
            eprintln!("aes3-sys: {program} can't be run: {error}");
            exit(1)
        }
    }
}

fn main() {
    for name in ["PKG_CONFIG", "PKG_CONFIG_PATH", "AES3_STATIC"] {
        println!("cargo:rerun-if-env-changed={name}");
    }
    let kind = if env::var_os("AES3_STATIC").is_some() { "static=" } else { "" };
    for word in asked("--libs") {
        if let Some(folder) = word.strip_prefix("-L") {
            println!("cargo:rustc-link-search=native={folder}");
        } else if let Some(library) = word.strip_prefix("-l") {
            println!("cargo:rustc-link-lib={kind}{library}");
        }
    }
}
