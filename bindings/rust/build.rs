//! Links the proved library, and says plainly what is missing. The archive is the one that BINTROCHIS_ARCHIVE names, or that of the
//! repository that this crate stands in, for the processor that is compiled for. If the Rattle kit is there, scripts/native-lib is asked
//! for it, which builds it where it is missing or older than its sources.

use std::path::{Path, PathBuf};
use std::process::Command;

fn main() {
    println!("cargo:rerun-if-env-changed=BINTROCHIS_ARCHIVE");
    let archive = match std::env::var_os("BINTROCHIS_ARCHIVE") {
        Some(archive) => PathBuf::from(archive),
        None => of_repository(&PathBuf::from(env!("CARGO_MANIFEST_DIR")).join("../..")),
    };
    println!("cargo:rerun-if-changed={}", archive.display());
    if !archive.is_file() {
        missing(&format!("There is no archive {}.", archive.display()));
    }
    let (folder, name) = (archive.parent(), archive.file_name());
    if let (Some(folder), Some(name)) = (folder, name) {
        println!("cargo:rustc-link-search=native={}", folder.display());
        println!(
            "cargo:rustc-link-lib=static:+verbatim={}",
            name.to_string_lossy()
        );
    }
}

fn of_repository(top: &Path) -> PathBuf {
    let script = top.join("scripts/native-lib");
    if !script.is_file() {
        missing("This crate does not stand in its repository, which would build the library.");
    }
    for source in ["crates", "crates.txt", "scripts/native-lib"] {
        println!("cargo:rerun-if-changed={}", top.join(source).display());
    }
    let [host, target] = ["HOST", "TARGET"].map(|kind| std::env::var(kind).unwrap_or_default());
    let processor = target.split('-').next().unwrap_or_default();
    let (folder, words) = if host.split('-').next() == Some(processor) {
        ("target/native".to_string(), vec![])
    } else {
        (
            format!("target/native-{processor}"),
            vec!["--for", processor],
        )
    };
    let archive = top.join(folder).join("libbintrochis.a");
    if Command::new("rt").arg("version").output().is_err() {
        if !archive.is_file() {
            missing("The library is not built yet, and there is no rt on the path, the Rattle kit, to build it.");
        }
        println!(
            "cargo:warning=There is no rt on the path to ask whether {} is older than its sources.",
            archive.display()
        );
        return archive;
    }
    match Command::new(&script).args(words).status() {
        Ok(status) if status.success() => archive,
        _ => missing("scripts/native-lib failed; run it by hand to see why."),
    }
}

fn missing(what: &str) -> ! {
    eprintln!("{what}");
    eprintln!("Build it in the repository by scripts/native-lib, or name an archive by BINTROCHIS_ARCHIVE.");
    std::process::exit(1);
}
