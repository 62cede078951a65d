//! Finds libheskavern.a, the archive of the proved library: in the folder that HESKAVERN_ARCHIVE_DIR names; or else
//! where pkg-config says that one of the version of this crate is installed; or else in what the crate stands in, the
//! release, or the repository, whose script builds it where it is missing or old.

use std::env;
use std::fs;
use std::path::{Path, PathBuf};
use std::process::{exit, Command, Output, Stdio};

const ARCHIVE: &str = "libheskavern.a";

fn main() {
    let folder = fits_the_target().and_then(|()| archive_folder()).unwrap_or_else(|message| {
        eprintln!("heskavern: {message}");
        exit(1);
    });
    println!("cargo:rerun-if-changed={}", folder.join(ARCHIVE).display());
    println!("cargo:rustc-link-search=native={}", folder.display());
    println!("cargo:rustc-link-lib=static=heskavern");
}

/// The kit builds for one kind of machine.
fn fits_the_target() -> Result<(), String> {
    let of_target = |what: &str| env::var(format!("CARGO_CFG_TARGET_{what}")).unwrap_or_default();
    match (of_target("ARCH").as_str(), of_target("OS").as_str()) {
        ("x86_64", "linux") => Ok(()),
        (arch, os) => Err(format!("{ARCHIVE} is for x86-64 Linux, and this is built for {arch} {os}")),
    }
}

/// The folder of the archive.
fn archive_folder() -> Result<PathBuf, String> {
    println!("cargo:rerun-if-env-changed=HESKAVERN_ARCHIVE_DIR");
    if let Some(named) = env::var_os("HESKAVERN_ARCHIVE_DIR") {
        let folder = PathBuf::from(named);
        if folder.join(ARCHIVE).is_file() {
            return Ok(folder);
        }
        return Err(format!(
            "HESKAVERN_ARCHIVE_DIR is {}, where there is no {ARCHIVE}; a folder that is not absolute is looked for in \
             that of the crate",
            folder.display()
        ));
    }
    let (package, version) = (of_cargo("CARGO_MANIFEST_DIR")?, of_cargo("CARGO_PKG_VERSION")?);
    let root = Path::new(&package).join("../..");
    match installed(&version) {
        Some(folder) if is_repository(&root) => {
            println!("cargo:warning=the installed archive is linked, and not the repository's: {}", folder.display());
            Ok(folder)
        }
        Some(folder) => Ok(folder),
        None => archive_of(&root, &version),
    }
}

/// Whether it is the repository of this crate: any folder may have a file of the name `build`.
fn is_repository(root: &Path) -> bool {
    ["build", "crates.txt", "include/heskavern.h"].iter().all(|name| root.join(name).is_file())
}

/// What cargo tells of the package.
fn of_cargo(variable: &str) -> Result<String, String> {
    env::var(variable).map_err(|_| format!("cargo sets no {variable}"))
}

/// The folder of the installed archive, if pkg-config knows of one of this version, or of a later one with the same
/// first number.
fn installed(version: &str) -> Option<PathBuf> {
    for variable in ["PKG_CONFIG", "PKG_CONFIG_PATH", "PKG_CONFIG_LIBDIR", "PKG_CONFIG_SYSROOT_DIR"] {
        println!("cargo:rerun-if-env-changed={variable}");
    }
    let major: u32 = version.split('.').next()?.parse().ok()?;
    let there = pkg_config(&["--modversion", "heskavern"])?;
    if pkg_config(&["--exists", &format!("heskavern >= {version}"), &format!("heskavern < {}", major + 1)]).is_none() {
        println!("cargo:warning=heskavern {there} is installed, and passed over: this crate is {version}");
        return None;
    }
    // a space in a path is marked there
    let folder = PathBuf::from(pkg_config(&["--variable=libdir", "heskavern"])?.replace("\\ ", " "));
    if folder.join(ARCHIVE).is_file() {
        return Some(folder);
    }
    println!("cargo:warning=heskavern {there} is installed, and passed over: no {ARCHIVE} is in {}", folder.display());
    None
}

/// What pkg-config answers, if it is here and says yes.
fn pkg_config(words: &[&str]) -> Option<String> {
    let program = env::var_os("PKG_CONFIG").unwrap_or_else(|| "pkg-config".into());
    let Output { status, stdout, .. } = Command::new(program).args(words).output().ok()?;
    if !status.success() {
        return None;
    }
    String::from_utf8(stdout).ok().map(|said| said.trim_end_matches('\n').to_string())
}

/// The folder of the archive in what the crate stands in.
fn archive_of(root: &Path, version: &str) -> Result<PathBuf, String> {
    if root.join("SHA256SUMS").is_file() && root.join("lib").join(ARCHIVE).is_file() {
        Ok(root.join("lib"))
    } else if is_repository(root) {
        build_archive(root)
    } else {
        Err(format!(
            "there is no {ARCHIVE}: set HESKAVERN_ARCHIVE_DIR to the folder that has it, or install heskavern \
             {version} where pkg-config finds it, or leave this crate in its place, bindings/rust of a release or of \
             the repository"
        ))
    }
}

/// The folder of the repository's archive, once its script has seen to it that it is built from the crates as they
/// stand. Proving them takes some minutes, and cargo shows nothing of what the script says unless it fails.
fn build_archive(root: &Path) -> Result<PathBuf, String> {
    let crates = fs::read_dir(root.join("crates")).into_iter().flatten().flatten();
    // of a crate all but its folder `out`, in which the kit keeps its work
    let parts = crates.flat_map(|it| ["src", "specs", "proofs"].map(|part| it.path().join(part)));
    let sources = ["build", "crates.txt", "KIT"].map(|name| root.join(name));
    for source in sources.into_iter().chain(parts.filter(|part| part.is_dir())) {
        println!("cargo:rerun-if-changed={}", source.display());
    }
    let script = root.join("build");
    match Command::new(&script).arg("library").stdout(Stdio::null()).status() {
        Ok(status) if status.success() => Ok(root.join("target/staticlib")),
        Ok(_) => Err(format!(
            "`{} library` could not build {ARCHIVE}, see what it says above; or set HESKAVERN_ARCHIVE_DIR to a folder \
             that has it, or install it where pkg-config finds it",
            script.display()
        )),
        Err(error) => Err(format!("{}: {error}", script.display())),
    }
}
