//! Finds the proved library and links it, after a look at whether it is there, has this
//! crate's version and, in the repository, is no older than its sources. It says which
//! library it took; each error says what to run.

use std::path::{Path, PathBuf};
use std::process::Command;
use std::time::SystemTime;
use std::{env, fs, io};

/// The variable that names a folder with the library. Its sources are not looked at.
const FOLDER_VARIABLE: &str = "POLGAMIR_LIB_DIR";

/// A program that writes the version of the library that it is linked with.
const PROBE: &str = r#"
extern "C" {
    fn polgamir_version() -> u32;
}

fn main() {
    print!("{}", unsafe { polgamir_version() });
}
"#;

/// A library that was found.
struct Found {
    folder: PathBuf,
    /// Who named it.
    by: &'static str,
    /// The folder of its sources, in the repository.
    sources: Option<PathBuf>,
}

fn main() {
    for variable in [FOLDER_VARIABLE, "PKG_CONFIG", "PKG_CONFIG_PATH", "PKG_CONFIG_LIBDIR"] {
        println!("cargo::rerun-if-env-changed={variable}");
    }
    println!("cargo::rerun-if-changed=build.rs");
    let found = match found() {
        Ok(found) => found,
        Err(complaint) => return println!("cargo::error={complaint}"),
    };
    let folder = fs::canonicalize(&found.folder).unwrap_or(found.folder);
    let (file, kind) = match folder.join("libpolgamir.so") {
        shared if shared.is_file() && !folder.join("libpolgamir.a").is_file() => (shared, "dylib"),
        _ => (folder.join("libpolgamir.a"), "static"),
    };
    println!("cargo::rerun-if-changed={}", file.display());
    if let Err(complaint) = look_at(&file, found.sources.as_deref()) {
        return println!("cargo::error={complaint}");
    }
    println!("cargo::warning=links {}, {}", file.display(), found.by);
    println!("cargo::rustc-link-search=native={}", folder.display());
    println!("cargo::rustc-link-lib={kind}=polgamir");
    println!("cargo::metadata=lib_dir={}", folder.display());
}

/// The library to link: the one that is named, else an installed one of this
/// version, else the repository's.
fn found() -> Result<Found, String> {
    if let Some(folder) = env::var_os(FOLDER_VARIABLE) {
        return Ok(Found { folder: folder.into(), by: "which POLGAMIR_LIB_DIR names", sources: None });
    }
    let installed = installed();
    if let Ok(folder) = installed {
        return Ok(Found { folder, by: "which pkg-config finds", sources: None });
    }
    let repository = PathBuf::from(env::var_os("CARGO_MANIFEST_DIR").unwrap_or_default()).join("../../..");
    if repository.join("tools/library").is_file() {
        let (folder, sources) = (repository.join("target/lib"), Some(repository.join("crates")));
        return Ok(Found { folder, by: "which tools/library wrote", sources });
    }
    Err(format!(
        "no proved library: {FOLDER_VARIABLE} names no folder, {}, and this crate does not stand in its repository; \
         install polgamir {}, or set {FOLDER_VARIABLE} to the folder that has libpolgamir.a",
        installed.unwrap_err(),
        env!("CARGO_PKG_VERSION")
    ))
}

/// The folder of the installed library of this version, or what pkg-config says of it.
fn installed() -> Result<PathBuf, String> {
    let program = env::var_os("PKG_CONFIG").unwrap_or_else(|| "pkg-config".into());
    let ask = |argument: &str| -> Result<String, String> {
        let said = Command::new(&program).args([argument, "polgamir"]).output();
        let said = said.map_err(|error| format!("pkg-config cannot be run ({error})"))?;
        match said.status.success() {
            true => Ok(String::from_utf8_lossy(&said.stdout).trim().to_owned()),
            false => Err("pkg-config finds no polgamir".into()),
        }
    };
    if env::var_os("TARGET") != env::var_os("HOST") && env::var_os("PKG_CONFIG").is_none() {
        return Err("the pkg-config of another machine is named by no PKG_CONFIG".into());
    }
    let own = env!("CARGO_PKG_VERSION").rsplit_once('.').map(|(minor, _)| minor);
    match ask("--modversion")? {
        version if version.rsplit_once('.').map(|(minor, _)| minor) == own => Ok(ask("--variable=libdir")?.into()),
        version => {
            Err(format!("pkg-config finds polgamir {version}, and this crate is for {}", env!("CARGO_PKG_VERSION")))
        }
    }
}

/// What is wrong with the library, and what to run.
fn look_at(library: &Path, sources: Option<&Path>) -> Result<(), String> {
    let shown = library.display();
    let Ok(built) = fs::metadata(library).and_then(|file| file.modified()) else {
        return Err(format!(
            "the proved library {shown} is missing: run `tools/library` at the root of the repository, or set \
             {FOLDER_VARIABLE} to the folder that has libpolgamir.a"
        ));
    };
    if let Some(sources) = sources.filter(|folder| folder.is_dir()) {
        println!("cargo::rerun-if-changed={}", sources.display());
        let newest = newest_in(sources).map_err(|error| format!("{}: {error}", sources.display()))?;
        if let Some((_, source)) = newest.filter(|(time, _)| *time > built) {
            let source = fs::canonicalize(&source).unwrap_or(source);
            return Err(format!(
                "the proved library {shown} is older than {}: run `tools/library` at the root of the repository",
                source.display()
            ));
        }
    }
    if env::var_os("TARGET") != env::var_os("HOST") {
        println!("cargo::warning=the library is for another machine: its version is not looked at here");
        return Ok(());
    }
    let wanted = own_version();
    match version_in(library) {
        Some(version) if version / 1_000 == wanted / 1_000 => Ok(()), // patches fit each other, as the header promises
        Some(version) => Err(format!(
            "the proved library {shown} has version {}.{}.{}, and this crate is for {}: run `tools/library` in the \
             repository of this crate, or install polgamir {3}",
            version / 1_000_000,
            version / 1_000 % 1_000,
            version % 1_000,
            env!("CARGO_PKG_VERSION")
        )),
        None => Err(format!(
            "the proved library {shown} does not say its version, or does not link here, on {}: run `tools/library` in \
             the repository of this crate, on x86-64 Linux",
            env::var("HOST").unwrap_or_default()
        )),
    }
}

/// The newest file of code, definitions and proofs below a folder, with its time. What `rt` makes
/// stands in folders `out`.
fn newest_in(folder: &Path) -> io::Result<Option<(SystemTime, PathBuf)>> {
    let mut newest = None;
    for entry in fs::read_dir(folder)? {
        let entry = entry?;
        let path = entry.path();
        let found = if entry.file_type()?.is_dir() {
            if path.ends_with("out") {
                continue;
            }
            newest_in(&path)?
        } else if path.extension().is_some_and(|ending| ending == "rt" || ending == "antt") {
            Some((entry.metadata()?.modified()?, path))
        } else {
            None
        };
        newest = newest.max(found);
    }
    Ok(newest)
}

/// This crate's version, as `polgamir_version` counts it: 1,000,000 × major + 1,000 × minor +
/// patch.
fn own_version() -> u32 {
    let parts = [env!("CARGO_PKG_VERSION_MAJOR"), env!("CARGO_PKG_VERSION_MINOR"), env!("CARGO_PKG_VERSION_PATCH")];
    let [major, minor, patch] = parts.map(|part| part.parse::<u32>().expect("a part of a version is a number"));
    1_000_000 * major + 1_000 * minor + patch
}

/// The version that the library says it has: a small program is linked with it and run.
fn version_in(library: &Path) -> Option<u32> {
    let out = PathBuf::from(env::var_os("OUT_DIR")?);
    let (source, program) = (out.join("version.rs"), out.join("version"));
    fs::write(&source, PROBE).ok()?;
    let built = Command::new(env::var_os("RUSTC")?)
        .args(["--edition=2021", "-o"])
        .arg(&program)
        .arg("-Clink-arg=".to_owned() + library.to_str()?)
        .arg(&source)
        .output()
        .ok()?;
    if !built.status.success() {
        return None;
    }
    let said = Command::new(&program).env("LD_LIBRARY_PATH", library.parent()?).output().ok()?;
    String::from_utf8(said.stdout).ok()?.parse().ok()
}
