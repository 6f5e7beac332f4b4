//! Finds the library: in the folder R10_LIB_DIR, or by pkg-config.
use std::env;
use std::path::Path;
use std::process::Command;

/// The words of what pkg-config prints: a backslash takes the next letter as it is, such as a space of a folder's name.
fn words_of(said: &str) -> Vec<String> {
    let (mut words, mut letters) = (vec![String::new()], said.chars());
    while let Some(it) = letters.next() {
        if it.is_whitespace() {
            words.push(String::new());
        } else if let Some(word) = words.last_mut() {
            word.extend(if it == '\\' { letters.next() } else { Some(it) });
        }
    }
    words
}

fn main() {
    println!("cargo::rerun-if-env-changed=R10_LIB_DIR");
    println!("cargo::rerun-if-env-changed=R10_STATIC");
    println!("cargo::rerun-if-env-changed=PKG_CONFIG_PATH");
    if let Ok(folder) = env::var("R10_LIB_DIR") {
        let is_static = env::var_os("R10_STATIC").is_some() || !Path::new(&folder).join("libr10.so").exists();
        println!("cargo::rerun-if-changed={folder}");
        println!("cargo::rustc-link-search=native={folder}");
        println!("cargo::rustc-link-lib={}=r10", if is_static { "static" } else { "dylib" });
        return;
    }
    let said = Command::new("pkg-config").args(["--libs", "r10"]).output();
    let words = match said {
        Ok(said) if said.status.success() => words_of(&String::from_utf8_lossy(&said.stdout)),
        _ => {
            println!("cargo::error=libr10 is not found: install it, so that pkg-config knows r10, or set R10_LIB_DIR to the folder with libr10.a");
            return;
        }
    };
    println!("cargo::rustc-link-lib=dylib=r10");
    for word in &words {
        if let Some(folder) = word.strip_prefix("-L") {
            println!("cargo::rustc-link-search=native={folder}");
        }
    }
}
