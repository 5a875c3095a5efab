//! Finds the library and has it linked: the first in the folder that `HUNK_LIB_DIR` names, beside this package in an archive or
//! a clone, in `native/TARGET` of it, or where pkg-config says. README.md tells how to choose. Where there is none, it says so in
//! three lines, and ends with status 1.

use std::path::{Path, PathBuf};
use std::process::{exit, Command};
use std::{env, fmt, fs};

/// The files of a library, and what a linker calls each.
type Files = &'static [(&'static str, &'static str)];

/// What a build leaves of the static library: everywhere, and in a clone.
const STATIC: Files = &[("libhunk.a", "hunk"), ("libhunk_c.a", "hunk_c")];
/// What stands for the shared one: of Linux, macOS, and Windows by gcc.
const SHARED: Files = &[("libhunk.so", "hunk"), ("libhunk.dylib", "hunk"), ("libhunk.dll.a", "hunk")];
/// The same for MSVC's linker, which was not tried.
const STATIC_MSVC: Files = &[("hunk.lib", "hunk")];
const SHARED_MSVC: Files = &[("hunk.dll.lib", "hunk.dll")];

/// What the script goes by, beside the program of pkg-config.
const SETTINGS: [&str; 7] = ["HUNK_LIB_DIR", "HUNK_STATIC", "DOCS_RS", "PKG_CONFIG", "PKG_CONFIG_PATH", "PKG_CONFIG_LIBDIR",
    "PKG_CONFIG_SYSROOT_DIR"];

/// A library that is there.
struct Library {
    folder: PathBuf,
    file: &'static str,
    name: &'static str,
    kind: &'static str,
}

impl fmt::Display for Library {
    /// In the words of cargo.
    fn fmt(&self, f: &mut fmt::Formatter<'_>) -> fmt::Result {
        writeln!(f, "cargo:rustc-link-search=native={}", self.folder.display())?;
        writeln!(f, "cargo:rustc-link-lib={}={}", self.kind, self.name)?;
        write!(f, "cargo:rerun-if-changed={}", self.folder.join(self.file).display())
    }
}

/// What cargo says of the target.
fn told(name: &str) -> String {
    env::var(name).unwrap_or_default()
}

/// The library in a folder: the static one where there is a choice and none was made.
fn library_in(folder: &Path) -> Option<Library> {
    let is_shared = env::var_os("CARGO_FEATURE_SHARED").is_some();
    let (takes_static, takes_shared) = match env::var("HUNK_STATIC") {
        Ok(chosen) => (chosen != "0", chosen == "0"),
        Err(_) => (!is_shared, true),
    };
    let (of_static, of_shared) = match told("CARGO_CFG_TARGET_ENV").as_str() {
        "msvc" => (STATIC_MSVC, SHARED_MSVC),
        _ => (STATIC, SHARED),
    };
    let first = |kind, files: Files| {
        let &(file, name) = files.iter().find(|it| folder.join(it.0).is_file())?;
        Some(Library { folder: folder.into(), file, name, kind })
    };
    let found = if takes_static { first("static", of_static) } else { None };
    found.or_else(|| if takes_shared { first("dylib", of_shared) } else { None })
}

/// Whether the target has the processor and the system of this machine.
fn is_native() -> bool {
    let (host, target) = (told("HOST"), told("TARGET"));
    host.split('-').next() == target.split('-').next() && host.contains(&told("CARGO_CFG_TARGET_OS"))
}

/// The folders that belong to this package. What an archive has, and a build of a clone, is for this machine, but for what the
/// clone has in a folder for each other machine, whose name the target begins with.
fn own_folders() -> Vec<PathBuf> {
    let package = PathBuf::from(told("CARGO_MANIFEST_DIR"));
    let target = told("TARGET");
    let mut folders = Vec::new();
    if is_native() {
        let (arch, system) = (told("CARGO_CFG_TARGET_ARCH"), told("CARGO_CFG_TARGET_OS"));
        let debian = format!("../../../lib/{arch}-{system}-{}", target.rsplit('-').next().unwrap_or_default());
        folders.extend(["../../../lib", &debian, "../../crates/hunk_c/out"].map(|it| package.join(it)));
    }
    let ported = fs::read_dir(package.join("../../ports/out")).into_iter().flatten().flatten();
    folders.extend(ported.filter(|it| target.starts_with(&*it.file_name().to_string_lossy())).map(|it| it.path()));
    folders.push(package.join("native").join(&target));
    folders
}

/// The folder that pkg-config tells. It is asked for another machine only by a program that was named.
fn packaged_folder() -> Option<PathBuf> {
    let program = env::var_os("PKG_CONFIG");
    if program.is_none() && !is_native() {
        return None;
    }
    let mut call = Command::new(program.unwrap_or_else(|| "pkg-config".into()));
    call.env("PKG_CONFIG_ALLOW_SYSTEM_LIBS", "1").args(["--libs-only-L", concat!("hunk >= ", env!("CARGO_PKG_VERSION"))]);
    let answer = call.output().ok().filter(|it| it.status.success())?;
    let quoted = answer.stdout.strip_prefix(b"-L")?;
    // A backslash stands before each byte that a shell would read, and a space or the end of the line behind the folder.
    let mut bytes = quoted.iter().copied();
    let mut folder = Vec::new();
    while let Some(byte) = bytes.next().filter(|it| !it.is_ascii_whitespace()) {
        folder.push(if byte == b'\\' { bytes.next()? } else { byte });
    }
    Some(String::from_utf8(folder).ok()?.into())
}

fn find() -> Result<Library, String> {
    if let Some(folder) = env::var_os("HUNK_LIB_DIR") {
        let lacking = || format!("no such library is in the folder of HUNK_LIB_DIR, {}", Path::new(&folder).display());
        return library_in(Path::new(&folder)).ok_or_else(lacking);
    }
    let own = own_folders().iter().find_map(|it| library_in(it));
    let found = own.or_else(|| library_in(&packaged_folder()?));
    found.ok_or_else(|| format!("no library for {} is beside this package, and pkg-config knows none", told("TARGET")))
}

fn main() {
    println!("cargo:rerun-if-changed=build.rs");
    for name in SETTINGS {
        println!("cargo:rerun-if-env-changed={name}");
    }
    // There is no library where docs.rs makes the pages, and they need none.
    if env::var_os("DOCS_RS").is_some() {
        return;
    }
    match find() {
        Ok(library) => println!("{library}"),
        Err(lacking) => {
            eprintln!("hunk: {lacking}.");
            eprintln!("Set HUNK_LIB_DIR to a folder with libhunk.a (MSVC: hunk.lib), or with HUNK_STATIC=0 the shared library.");
            eprintln!("Or install libhunk, and have pkg-config find its hunk.pc by PKG_CONFIG_PATH.");
            exit(1);
        }
    }
}
