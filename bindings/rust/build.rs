//! Links the archive that NIFFORAN_LIB names: a file, or a folder that has it.

use std::env;
use std::fs;
use std::path::{Path, PathBuf};

/// The names of an archive in a folder: of one that is proved, and of one that isn't.
const PROVED: &str = "libnifforan_c.a";
const UNPROVED: &str = "libnifforan_c_unproved.a";

/// What the archive is to define: a call of the library, and what the library calls of the kit that it was built by.
const DEFINED: [&str; 2] = ["nifforan_create", "rattle_alloc"];

const HOW: &str = "make one by `bindings/build FOLDER` in a clone of Nifforan (within two minutes without a proof: \
                   `bindings/build --unproved FOLDER`), and set NIFFORAN_LIB to the full path of FOLDER";

fn main() {
    println!("cargo::rerun-if-env-changed=NIFFORAN_LIB");
    println!("cargo::rerun-if-changed=build.rs");
    if env::var_os("DOCS_RS").is_some() {
        return; // which links nothing
    }
    match archive().and_then(whole) {
        Ok((file, archive)) => link(&file, &archive),
        Err(lacking) => println!("cargo::error={lacking}: {HOW}"),
    }
}

/// The archive that NIFFORAN_LIB names.
fn archive() -> Result<PathBuf, String> {
    let Some(named) = env::var_os("NIFFORAN_LIB").map(PathBuf::from) else {
        return Err(format!("NIFFORAN_LIB names no {PROVED}"));
    };
    if named.is_file() {
        return Ok(named);
    }
    [PROVED, UNPROVED]
        .iter()
        .flat_map(|name| [named.join(name), named.join("lib").join(name)])
        .find(|file| file.is_file())
        .ok_or(format!("NIFFORAN_LIB={} has no {PROVED}", named.display()))
}

/// The file and what it has, if it defines all that is linked.
fn whole(file: PathBuf) -> Result<(PathBuf, Vec<u8>), String> {
    let archive = fs::read(&file).map_err(|error| format!("{}: {error}", file.display()))?;
    let names = index(&archive).unwrap_or_default();
    let has = |name: &str| {
        names
            .split(|byte| *byte == 0)
            .any(|it| it == name.as_bytes())
    };
    match DEFINED.iter().find(|name| !has(name)) {
        None => Ok((file, archive)),
        Some(name) => Err(format!("{} doesn't define {name}", file.display())),
    }
}

/// The names that an archive of System V defines, each with a zero behind it: its first member has their number, a place
/// for each, and the names.
fn index(archive: &[u8]) -> Option<&[u8]> {
    let (header, content) = archive
        .strip_prefix(b"!<arch>\n")?
        .split_first_chunk::<60>()?;
    let size = str::from_utf8(header.strip_prefix(b"/ ")?.get(46..56)?).ok()?;
    let (count, content) = content
        .get(..size.trim().parse().ok()?)?
        .split_first_chunk()?;
    content.get(4 * u32::from_be_bytes(*count) as usize..)
}

fn link(file: &Path, archive: &[u8]) {
    println!("cargo::rerun-if-changed={}", file.display());
    if file.ends_with(UNPROVED) {
        println!(
            "cargo::warning=the library in {} is not proved",
            file.display()
        );
    }
    // by one name, whatever the file's
    let out = PathBuf::from(env::var_os("OUT_DIR").expect("cargo sets it"));
    fs::write(out.join(PROVED), archive).expect("cargo's folder can be written");
    println!("cargo::rustc-link-search=native={}", out.display());
    println!("cargo::rustc-link-lib=static=nifforan_c");
}
