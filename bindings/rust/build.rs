//! Finds libhot: below the folder `HOT_DIR`, else in the package that this crate lies in, else by pkg-config. The archive is linked
//! where there is one, and with `HOT_SHARED=1` the shared library. A library of another major version, or of an earlier minor one, is
//! refused.
use std::path::{Path, PathBuf};
use std::{env, fs, process};

/// The version from which on the library has the calls of `ffi.rs`.
const MAJOR: u32 = 3;
const MINOR: u32 = 1;

fn main() {
    for name in ["HOT_DIR", "HOT_SHARED", "PKG_CONFIG", "PKG_CONFIG_PATH"] {
        println!("cargo:rerun-if-env-changed={name}");
    }
    let folder = find()
        .and_then(|(folder, header)| check(&header).map(|_| folder))
        .unwrap_or_else(|why| {
            eprintln!(
                "libhot {MAJOR}.{MINOR} was not found: {why}\nset HOT_DIR to the folder that has lib/libhot.a, or PKG_CONFIG_PATH"
            );
            process::exit(1);
        });
    let is_shared = env::var_os("HOT_SHARED").is_some() || !folder.join("libhot.a").is_file();
    let folder = if is_shared { folder } else { best(folder) };
    // Cargo builds anew where a file that is named here is missing.
    let name = if is_shared { "libhot.so" } else { "libhot.a" };
    println!("cargo:rerun-if-changed={}", folder.join(name).display());
    let folder = folder.display();
    println!("cargo:rustc-link-search=native={folder}");
    if is_shared {
        println!("cargo:rustc-link-lib=dylib=hot");
        // This crate's own tests find it so. A crate that depends on this one sets its own, by DEP_HOT_LIBDIR.
        println!("cargo:rustc-link-arg=-Wl,-rpath,{folder}");
    } else {
        println!("cargo:rustc-link-lib=static=hot");
    }
    println!("cargo:libdir={folder}");
}

/// The folder of the archive for AVX2, where there is one and all that is compiled is for processors that have it.
fn best(folder: PathBuf) -> PathBuf {
    let features = env::var("CARGO_CFG_TARGET_FEATURE").unwrap_or_default();
    let has = |name: &&str| features.split(',').any(|it| it == *name);
    let third = folder.join("glibc-hwcaps/x86-64-v3");
    let is_third = ["avx2", "bmi1", "bmi2", "f16c", "fma", "lzcnt", "movbe"]
        .iter()
        .all(has);
    if is_third && third.join("libhot.a").is_file() {
        third
    } else {
        folder
    }
}

/// What the crate knows of the library is true of the versions from this one on to the next major one.
fn check(header: &Path) -> Result<(), String> {
    println!("cargo:rerun-if-changed={}", header.display());
    let text = fs::read_to_string(header).map_err(|why| format!("{}: {why}", header.display()))?;
    match (number(&text, "MAJOR"), number(&text, "MINOR")) {
        (Some(major), Some(minor)) if major == MAJOR && (major, minor) >= (MAJOR, MINOR) => Ok(()),
        (Some(major), Some(minor)) => Err(format!("{} is of version {major}.{minor}", header.display())),
        _ => Err(format!("{} says no version", header.display())),
    }
}

/// The number of a part of the version, as the header says it.
fn number(header: &str, part: &str) -> Option<u32> {
    let name = format!("HOT_VERSION_{part}");
    header
        .lines()
        .filter_map(|line| line.strip_prefix("#define "))
        .find_map(|line| line.trim().strip_prefix(name.as_str()))
        .and_then(|number| number.trim().parse().ok())
}

/// The folder that the library is in, and its header.
fn find() -> Result<(PathBuf, PathBuf), String> {
    let below = |folder: &Path| (folder.join("lib"), folder.join("include/hot.h"));
    if let Some(folder) = env::var_os("HOT_DIR") {
        return Ok(below(Path::new(&folder)));
    }
    let package = env::var_os("CARGO_MANIFEST_DIR").map(|it| Path::new(&it).join("../../../.."));
    match package {
        Some(folder) if folder.join("lib/libhot.a").is_file() => Ok(below(&folder)),
        _ => {
            // Unlike --atleast-version this has pkg-config say which version there is.
            ask_pkg_config("--exists", &format!("hot >= {MAJOR}.{MINOR}"))?;
            let header = Path::new(&ask_pkg_config("--variable=includedir", "hot")?).join("hot.h");
            Ok((ask_pkg_config("--variable=libdir", "hot")?.into(), header))
        }
    }
}

fn ask_pkg_config(what: &str, of: &str) -> Result<String, String> {
    let tool = env::var("PKG_CONFIG").unwrap_or_else(|_| "pkg-config".into());
    let asked = process::Command::new(&tool).args(["--print-errors", what, of]).output();
    let said = asked.map_err(|why| format!("{tool}: {why}"))?;
    if said.status.success() {
        Ok(String::from_utf8_lossy(&said.stdout).trim().to_owned())
    } else {
        Err(String::from_utf8_lossy(&said.stderr).into_owned())
    }
}
