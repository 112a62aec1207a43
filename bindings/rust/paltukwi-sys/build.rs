//! Finds libreis, and tells cargo how to link it: in the folder that `PALTUKWI_LIB_DIR` names, else by `pkg-config`.
//!
//! `PALTUKWI_LINK` is `static` or `shared`. Without it a folder's `libreis.a` is taken where it is there, and `pkg-config` is
//! asked for the shared library.

use std::env;
use std::fs;
use std::path::{Path, PathBuf};
use std::process::{exit, Command};

/// The header that these declarations are of: a library fits where the first two parts are the same.
const VERSION: &str = env!("CARGO_PKG_VERSION");

/// What an ELF file of this machine says of itself.
const MACHINE_X86_64: u16 = 62;

#[derive(Clone, Copy, PartialEq)]
enum Link {
    Static,
    Shared,
}

fn main() {
    println!("cargo:rerun-if-changed=build.rs");
    for name in ["PALTUKWI_LIB_DIR", "PALTUKWI_LINK", "PKG_CONFIG", "PKG_CONFIG_PATH", "DOCS_RS"] {
        println!("cargo:rerun-if-env-changed={name}");
    }
    // The documents are made without a library.
    if env::var_os("DOCS_RS").is_some() {
        return;
    }
    if let Err(what) = find() {
        eprintln!("paltukwi-sys: {what}");
        exit(1);
    }
}

fn find() -> Result<(), String> {
    let link = wanted_link()?;
    match env::var_os("PALTUKWI_LIB_DIR") {
        Some(folder) => in_folder(&PathBuf::from(folder), link),
        None => by_pkg_config(link.unwrap_or(Link::Shared)),
    }
}

fn wanted_link() -> Result<Option<Link>, String> {
    match env::var("PALTUKWI_LINK").as_deref() {
        Err(_) => Ok(None),
        Ok("static") => Ok(Some(Link::Static)),
        Ok("shared") => Ok(Some(Link::Shared)),
        Ok(other) => Err(format!("PALTUKWI_LINK is static or shared, and not {other}")),
    }
}

// ---- a folder

fn in_folder(folder: &Path, link: Option<Link>) -> Result<(), String> {
    let (archive, shared) = (folder.join("libreis.a"), folder.join("libreis.so"));
    let link = link.unwrap_or(if archive.exists() { Link::Static } else { Link::Shared });
    let library = if link == Link::Static { archive } else { shared };
    let bytes = fs::read(&library).map_err(|error| {
        format!(
            "no library: {} ({error}). PALTUKWI_LIB_DIR is the folder of libreis.a or libreis.so",
            library.display()
        )
    })?;
    let start = if link == Link::Static { first_member(&bytes) } else { Some(&bytes[..]) };
    match start.and_then(machine) {
        Some(MACHINE_X86_64) => {}
        Some(other) => {
            return Err(format!(
                "{} is for another machine ({other} in ELF) than x86-64",
                library.display()
            ))
        }
        None => return Err(format!("{} is no library of ELF files", library.display())),
    }
    println!("cargo:rerun-if-changed={}", library.display());
    println!("cargo:rustc-link-search=native={}", folder.display());
    println!("cargo:rustc-link-lib={}=reis", if link == Link::Static { "static" } else { "dylib" });
    Ok(())
}

/// The first ELF file of an archive: behind its eight bytes of magic, each member has a head of 60 bytes, with the size in
/// decimal digits at 48, and stands at an even place.
fn first_member(archive: &[u8]) -> Option<&[u8]> {
    let mut rest = archive.strip_prefix(b"!<arch>\n")?;
    loop {
        let size = std::str::from_utf8(rest.get(48..58)?).ok()?.trim_end().parse::<usize>().ok()?;
        let member = rest.get(60..)?;
        if member.starts_with(b"\x7fELF") {
            return Some(member);
        }
        rest = member.get(size.checked_next_multiple_of(2)?..)?;
    }
}

/// The machine that an ELF file is for.
fn machine(file: &[u8]) -> Option<u16> {
    let number = file.strip_prefix(b"\x7fELF")?.get(14..16)?;
    Some(u16::from_le_bytes([number[0], number[1]]))
}

// ---- pkg-config

fn by_pkg_config(link: Link) -> Result<(), String> {
    let described = pkg_config(&["--variable=pcfiledir"])?;
    println!("cargo:rerun-if-changed={}/reis.pc", described.trim());
    let version = pkg_config(&["--modversion"])?;
    if first_two(version.trim()) != first_two(VERSION) {
        return Err(format!(
            "the library has version {}, and these bindings are for {VERSION}",
            version.trim()
        ));
    }
    let mut words = vec!["--libs"];
    if link == Link::Static {
        words.push("--static");
    }
    for word in pkg_config(&words)?.split_whitespace() {
        if let Some(folder) = word.strip_prefix("-L") {
            println!("cargo:rustc-link-search=native={folder}");
        } else if word == "-lreis" && link == Link::Static {
            println!("cargo:rustc-link-lib=static=reis");
        } else if let Some(name) = word.strip_prefix("-l") {
            println!("cargo:rustc-link-lib=dylib={name}");
        } else {
            println!("cargo:rustc-link-arg={word}");
        }
    }
    if link == Link::Static {
        // The folder is left out of the words above where it is one of the system's.
        println!("cargo:rustc-link-search=native={}", pkg_config(&["--variable=libdir"])?.trim());
    }
    Ok(())
}

/// What pkg-config says of the library.
fn pkg_config(words: &[&str]) -> Result<String, String> {
    let program = env::var_os("PKG_CONFIG").unwrap_or_else(|| "pkg-config".into());
    let hint = "Install libreis (make install PREFIX=..) and name its lib/pkgconfig in PKG_CONFIG_PATH, or name the folder of \
                libreis.a or libreis.so in PALTUKWI_LIB_DIR";
    match Command::new(&program).args(words).arg("reis").output() {
        Ok(output) if output.status.success() => {
            Ok(String::from_utf8_lossy(&output.stdout).into_owned())
        }
        Ok(output) => {
            let said = String::from_utf8_lossy(&output.stderr);
            Err(format!("pkg-config finds no libreis: {}. {hint}", said.trim().replace('\n', "; ")))
        }
        Err(error) => {
            Err(format!("{} can't be run: {error}. {hint}", Path::new(&program).display()))
        }
    }
}

fn first_two(version: &str) -> Vec<&str> {
    version.split('.').take(2).collect()
}
