//! Links the archives of the proved calls. Where FEED_MERGE names the original feed_merge.rs, edits it for the tests that run it
//! beside this crate (`cfg(original)`).
use std::path::{Path, PathBuf};
use std::process::{exit, Command};

const ARCHIVE: &str = "POLLENDRIFT_ARCHIVE";
/// The archives of the merge, and those that a feature adds.
const MERGE: [&str; 2] = ["owned", "exports"];
const ADDED: [(&str, &str); 2] = [
    ("CARGO_FEATURE_DEPTH", "depth_exports"),
    ("CARGO_FEATURE_JSON", "json_exports"),
];
const ORIGINAL: &str = "FEED_MERGE";

fn fail(why: &str) -> ! {
    eprintln!("{why}");
    exit(1)
}

fn run(what: &str, command: &mut Command) {
    match command.status() {
        Ok(status) if status.success() => {}
        Ok(status) => fail(&format!("{what} ended with {status}")),
        Err(e) => fail(&format!("{what} could not be started: {e}")),
    }
}

/// The archives that this build links.
fn libraries() -> Vec<&'static str> {
    let of_features = ADDED
        .into_iter()
        .filter(|(feature, _)| std::env::var_os(feature).is_some())
        .map(|(_, library)| library);
    MERGE.into_iter().chain(of_features).collect()
}

/// Archives of the repository. To make them takes minutes of proving, of which cargo would show nothing, so that is asked for.
fn of_repository(root: &Path, libraries: &[&str]) -> Vec<PathBuf> {
    let path = |library: &&str| root.join(format!("target/staticlib/lib{library}.a"));
    if let Some(absent) = libraries.iter().find(|library| !path(library).is_file()) {
        fail(&format!(
            "There is no target/staticlib/lib{absent}.a yet. Make the archives of the proved calls first, in the repository's root:\n\n    \
             bash support/made archive {}\n\n\
             The first time this proves the calls, which takes minutes and shows its progress. Where the Rattle \
             kit with `rt` is not at hand, set {ARCHIVE} to archives that were made elsewhere (host/README.md).",
            libraries.join(" ")
        ));
    }
    libraries.iter().map(path).collect()
}

/// An archive that the environment names.
fn named(path: PathBuf) -> PathBuf {
    let shown = path.display();
    if path.is_relative() {
        fail(&format!(
            "{ARCHIVE} names '{shown}'. Give its whole path: a build script does not know which folder that is relative to."
        ));
    }
    if !path.is_file() {
        fail(&format!(
            "{ARCHIVE} names '{shown}', and there is no such file."
        ));
    }
    path
}

/// The archives that the environment names, or those of the repository where it names none.
fn archives(root: &Path) -> Vec<PathBuf> {
    println!("cargo:rerun-if-env-changed={ARCHIVE}");
    match std::env::var_os(ARCHIVE) {
        Some(paths) if !paths.is_empty() => std::env::split_paths(&paths).map(named).collect(),
        _ => of_repository(root, &libraries()),
    }
}

/// Links each archive, and tells the tests where they are.
fn link(archives: &[PathBuf], out: &Path) {
    println!("cargo:rustc-link-search=native={}", out.display());
    let mut copies = Vec::new();
    for (i, archive) in archives.iter().enumerate() {
        println!("cargo:rerun-if-changed={}", archive.display());
        let copy = out.join(format!("libpollendrift_{i}.a"));
        if let Err(e) = std::fs::copy(archive, &copy) {
            fail(&format!("{}: {e}", archive.display()));
        }
        println!("cargo:rustc-link-lib=static=pollendrift_{i}");
        copies.push(copy);
    }
    let copies =
        std::env::join_paths(copies).unwrap_or_else(|e| fail(&format!("the build folder: {e}")));
    println!("cargo:rustc-env={ARCHIVE}={}", Path::new(&copies).display());
}

/// Writes the edited original to `out`, if it is at hand.
fn original(root: &Path, out: &Path) -> bool {
    println!("cargo:rerun-if-env-changed={ORIGINAL}");
    let Some(path) = std::env::var_os(ORIGINAL).map(PathBuf::from) else {
        return false;
    };
    println!("cargo:rerun-if-changed={}", path.display());
    if std::fs::read(&path).is_err() {
        return false;
    }
    let source = root.join("tests/oracle/edit.rs");
    println!("cargo:rerun-if-changed={}", source.display());
    let edit = out.join("edit");
    let rustc = std::env::var_os("RUSTC").unwrap_or_else(|| "rustc".into());
    run(
        "the compiler",
        Command::new(rustc)
            .args(["--edition", "2021", "-o"])
            .arg(&edit)
            .arg(&source),
    );
    let merge = out.join("merge.rs");
    run("edit", Command::new(&edit).arg(&path).arg(&merge));
    // A module's own comment may not stand in an included file.
    let text = std::fs::read_to_string(&merge).unwrap_or_else(|e| fail(&format!("merge.rs: {e}")));
    let text: String = text
        .lines()
        .filter(|line| !line.starts_with("//!"))
        .flat_map(|line| [line, "\n"])
        .collect();
    std::fs::write(&merge, text).unwrap_or_else(|e| fail(&format!("merge.rs: {e}")));
    true
}

fn main() {
    let root = Path::new(env!("CARGO_MANIFEST_DIR")).join("..");
    let out = PathBuf::from(std::env::var_os("OUT_DIR").expect("cargo sets OUT_DIR"));
    link(&archives(&root), &out);
    println!("cargo:rustc-check-cfg=cfg(original)");
    if original(&root, &out) {
        println!("cargo:rustc-cfg=original");
    }
}
