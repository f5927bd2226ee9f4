//! Finds the runtime: the static library libsfi_run.a that `SFI_RUN_LIBRARY` names, or else the file of C that a package of
//! this crate holds, which it compiles, or else the library of the repository or the installation that holds this crate, or
//! that in `~/.local/lib` or `/usr/local/lib`. `SFI_RUN_LIBRARY` may name libsfi_run_native.a, which runs native code.
use std::env;
use std::fs;
use std::path::{Path, PathBuf};
use std::process::Command;

const NAME: &str = "libsfi_run.a";
const SOURCE: &str = "c/suygapid_run.c";

/// A call that the library for native code has alone.
const NATIVE_CALL: &[u8] = b"sfi_run_engine\0";

fn named() -> Option<PathBuf> {
    env::var_os("SFI_RUN_LIBRARY").map(PathBuf::from)
}

fn places() -> Vec<PathBuf> {
    let top = Path::new(env!("CARGO_MANIFEST_DIR")).join("../..");
    let home = env::var_os("HOME").map(|it| PathBuf::from(it).join(".local/lib"));
    let folders = [top.join("crates/sfi_run/out/linked"), top.join("../../lib")];
    let usual = home.into_iter().chain([PathBuf::from("/usr/local/lib")]);
    folders
        .into_iter()
        .chain(usual)
        .map(|it| it.join(NAME))
        .collect()
}

/// A command of the compiler's, with its first words: what `NAME_TARGET` names, as for another processor, or `NAME`, or `usual`.
fn command(name: &str, usual: &str) -> Command {
    let of_target = format!("{name}_{}", env::var("TARGET").unwrap().replace('-', "_"));
    let given = [of_target, name.to_string()];
    for it in &given {
        println!("cargo:rerun-if-env-changed={it}");
    }
    let found = given.iter().find_map(|it| env::var(it).ok());
    let words = found.unwrap_or_else(|| usual.to_string());
    let mut words = words.split_whitespace();
    let mut command = Command::new(words.next().unwrap_or(usual));
    command.args(words);
    command
}

fn run(command: &mut Command) {
    match command.status() {
        Ok(status) if status.success() => {}
        Ok(status) => panic!("{command:?} failed: {status}"),
        Err(error) => panic!(
            "{command:?} can't be run: {error}; a C compiler has to be there, or CC to name one"
        ),
    }
}

/// Compiles the file of C to a static library. It is an interpreter, which is optimized in any profile.
fn compiled(source: &Path) -> PathBuf {
    let folder = PathBuf::from(env::var_os("OUT_DIR").unwrap());
    let (object, library) = (folder.join("suygapid_run.o"), folder.join(NAME));
    run(command("CC", "cc")
        .args(["-std=c11", "-O2", "-fPIC", "-c"])
        .arg(source)
        .arg("-o")
        .arg(&object));
    run(command("AR", "ar").arg("rcs").args([&library, &object]));
    library
}

fn main() {
    println!("cargo:rerun-if-env-changed=SFI_RUN_LIBRARY");
    let source = Path::new(env!("CARGO_MANIFEST_DIR")).join(SOURCE);
    let found = match named() {
        Some(library) => Some(library),
        None if source.is_file() => Some(compiled(&source)),
        None => places().into_iter().find(|it| it.is_file()),
    };
    let library = found
        .and_then(|it| it.canonicalize().ok())
        .unwrap_or_else(|| {
            panic!(
            "{NAME} isn't found: SFI_RUN_LIBRARY has to name it, or ./install to have installed it"
        )
        });
    println!("cargo:rerun-if-changed={}", library.display());
    println!(
        "cargo:rustc-link-search=native={}",
        library.parent().unwrap().display()
    );
    let stem = library.file_stem().unwrap().to_string_lossy();
    println!(
        "cargo:rustc-link-lib=static={}",
        stem.trim_start_matches("lib")
    );
    let bytes = fs::read(&library).unwrap();
    if bytes.windows(NATIVE_CALL.len()).any(|it| it == NATIVE_CALL) {
        println!("cargo:rustc-cfg=native");
    }
}
