//! Links the proved static library, and has the kit's `rt` prove and build it
//! where it is missing or older than what it is made from.

mod crates;
mod progress;
mod rt;

use std::path::{Path, PathBuf};
use std::process::exit;
use std::time::SystemTime;
use std::{env, fs, io};

/// The crate that the library is made from, with those that it needs.
const NAME: &str = "aez_c";

/// Where the library is put for those who link it, below the project's root.
const LIBRARY: &str = "target/staticlib/libaez.a";

/// The folders of a crate that are read when it is proved. rt writes beside them.
const PARTS: [&str; 3] = ["src", "specs", "proofs"];

fn main() {
    if let Err(message) = link_proved_library() {
        eprintln!("{message}");
        exit(1);
    }
}

fn link_proved_library() -> Result<(), String> {
    see_that_the_target_is_served()?;
    let package = env::var_os("CARGO_MANIFEST_DIR").ok_or("cargo has not said where we are")?;
    let root = Path::new(&package).join("..");
    let list = root.join("crates.txt");
    let lines = fs::read_to_string(&list).map_err(|error| trouble(&list, &error))?;
    let crates = crates::needed_by(NAME, &lines);
    if crates.is_empty() {
        return Err(format!("crates.txt does not list {NAME}"));
    }
    let folder_of = |name: &str| root.join("crates").join(name);
    let mut sources: Vec<PathBuf> = Vec::from([list]);
    for name in &crates {
        let parts = PARTS.map(|part| folder_of(name).join(part));
        sources.extend(parts.into_iter().filter(|part| part.exists()));
    }

    let library = root.join(LIBRARY);
    if !is_current(&library, &sources)? {
        let folder = folder_of(NAME);
        rt::prove_and_build(&folder, &crates)?;
        put(&folder.join(format!("out/lib{NAME}.a")), &library)?;
    }
    for path in sources.iter().chain([&library]) {
        println!("cargo:rerun-if-changed={}", path.display());
    }
    let folder = library.parent().ok_or("the library is in no folder")?;
    println!("cargo:rustc-link-search=native={}", folder.display());
    println!("cargo:rustc-link-lib=static=aez");
    // For the test that links it from C.
    println!("cargo:rustc-env=AEZ_LIBRARY={}", library.display());
    Ok(())
}

/// The library is machine code for one kind of system.
fn see_that_the_target_is_served() -> Result<(), String> {
    let of_target = |part| env::var(format!("CARGO_CFG_TARGET_{part}")).unwrap_or_default();
    let (arch, os) = (of_target("ARCH"), of_target("OS"));
    if (arch.as_str(), os.as_str()) == ("x86_64", "linux") {
        return Ok(());
    }
    Err(format!(
        "jarrovento needs x86-64 Linux, and this build is for {arch} {os}. The proved library, \
         {LIBRARY}, is machine code, and the Rattle kit builds it for no other \
         system. Build and run it on such a machine, or in a container of one."
    ))
}

/// Whether the library is there and no source is newer. This is not left to rt: who is
/// given a current library needs none, and with nothing to prove it still takes a while.
fn is_current(library: &Path, sources: &[PathBuf]) -> Result<bool, String> {
    let Ok(built) = library.metadata().and_then(|found| found.modified()) else {
        return Ok(false);
    };
    for source in sources {
        if newest(source)? > built {
            return Ok(false);
        }
    }
    Ok(true)
}

/// When the file, or the last of the files in the folder and below it, was changed.
/// Folders count too: a file that was taken away changes its folder.
fn newest(path: &Path) -> Result<SystemTime, String> {
    let found = path.metadata().map_err(|error| trouble(path, &error))?;
    let mut latest = found.modified().map_err(|error| trouble(path, &error))?;
    if found.is_dir() {
        for entry in fs::read_dir(path).map_err(|error| trouble(path, &error))? {
            let entry = entry.map_err(|error| trouble(path, &error))?;
            latest = latest.max(newest(&entry.path())?);
        }
    }
    Ok(latest)
}

/// Puts a copy of the file there, whole or not at all.
fn put(file: &Path, there: &Path) -> Result<(), String> {
    let whole = there.with_extension("new");
    if let Some(folder) = there.parent() {
        fs::create_dir_all(folder).map_err(|error| trouble(folder, &error))?;
    }
    fs::copy(file, &whole).map_err(|error| trouble(file, &error))?;
    fs::rename(&whole, there).map_err(|error| trouble(there, &error))
}

fn trouble(path: &Path, error: &io::Error) -> String {
    format!("{}: {error}", path.display())
}
