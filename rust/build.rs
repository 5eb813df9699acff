//! Links the native library: assembled from dist/, which holds what the proved sources compile to; or proved and compiled here, where STARTERBELL_PROVE is set; or
//! the archive that STARTERBELL_LIB names.

use std::env;
use std::ffi::OsString;
use std::fs;
use std::path::{Path, PathBuf};
use std::process::Command;

const ARCHIVE: &str = "libstarterbell.a";

fn main() {
    let out = PathBuf::from(env::var_os("OUT_DIR").expect("cargo sets OUT_DIR"));
    let archive = out.join(ARCHIVE);
    let _ = fs::remove_file(&archive); // an old one: ar would add to it
    match (named("STARTERBELL_LIB"), named("STARTERBELL_PROVE")) {
        (Some(built), _) => take(Path::new(&built), &archive),
        (None, Some(_)) => prove(&archive),
        (None, None) => assemble(&out, &archive),
    }
    println!("cargo:rustc-link-search=native={}", out.display());
    println!("cargo:rustc-link-lib=static=starterbell");
}

/// What the environment names, if it isn't empty.
fn named(variable: &str) -> Option<OsString> {
    println!("cargo:rerun-if-env-changed={variable}");
    env::var_os(variable).filter(|value| !value.is_empty())
}

fn set(variable: &str) -> String {
    env::var(variable).unwrap_or_else(|_| panic!("cargo sets {variable}"))
}

fn package() -> &'static Path {
    Path::new(env!("CARGO_MANIFEST_DIR"))
}

/// An archive that was built elsewhere.
fn take(built: &Path, archive: &Path) {
    println!("cargo:rerun-if-changed={}", built.display());
    if let Err(why) = fs::copy(built, archive) {
        panic!("STARTERBELL_LIB names {}, which can't be read: {why}. A path that isn't absolute counts from {}", built.display(), package().display());
    }
}

/// The machine that is built for, if there is code for it.
fn machine() -> String {
    let part = |name: &str| set(&format!("CARGO_CFG_TARGET_{name}"));
    let (machine, system) = (part("ARCH"), part("OS"));
    let known = ["x86_64", "aarch64"].contains(&machine.as_str()) && part("POINTER_WIDTH") == "64" && part("ENDIAN") == "little";
    if system != "linux" || !known {
        panic!("there is code for Linux on x86_64 and aarch64, and none for {}; STARTERBELL_LIB may name an archive for it", set("TARGET"));
    }
    machine
}

/// Assembles what the proved sources compile to, with the C compiler of the machine that is built for.
fn assemble(out: &Path, archive: &Path) {
    let source = package().join(format!("dist/starterbell-{}.s", machine()));
    println!("cargo:rerun-if-changed={}", source.display());
    warn_of_other_sources(&source);
    let object = out.join("starterbell.o");
    run(tool("CC", "cc", "gcc").arg("-c").arg(&source).arg("-o").arg(&object));
    run(tool("AR", "ar", "ar").arg("crs").arg(archive).arg(&object));
}

/// The command that the environment names, for this target or for all; else the usual one, or where another machine is built for, that of its tool chain.
fn tool(variable: &str, here: &str, across: &str) -> Command {
    let (machine, own) = (machine(), format!("{variable}_{}", set("TARGET").replace('-', "_")));
    let usual = if set("HOST").starts_with(&machine) { here.into() } else { format!("{machine}-linux-gnu-{across}") };
    let words = named(&own).or_else(|| named(variable)).map_or(usual, |words| words.to_string_lossy().into_owned());
    let mut words = words.split_whitespace();
    let mut command = Command::new(words.next().unwrap_or(here));
    command.args(words);
    command
}

/// In a checkout whose crates have changed since dist/ was written, what is linked isn't what stands in crates/.
fn warn_of_other_sources(source: &Path) {
    let root = package().join("..");
    let Ok(said) = Command::new(root.join("tools/sources")).arg("host_c").output() else { return };
    println!("cargo:rerun-if-changed={}", root.join("crates").display());
    println!("cargo:rerun-if-changed={}", root.join("crates.txt").display());
    let sum = String::from_utf8_lossy(&said.stdout);
    let text = fs::read_to_string(source).unwrap_or_default();
    if said.status.success() && !text.contains(&format!("sources: {}", sum.trim())) {
        println!("cargo:warning=dist/ was compiled from other sources than stand in crates/ now; STARTERBELL_PROVE=1 builds from these");
    }
}

/// Proves what isn't proved yet, some minutes the first time, and compiles it. Cargo shows nothing of what a build script says before it ends, so progress goes to
/// the terminal, if there is one.
fn prove(archive: &Path) {
    let root = package().parent().expect("this package stands in the project's root");
    for source in ["crates", "crates.txt", "tools"] {
        println!("cargo:rerun-if-changed={}", root.join(source).display());
    }
    let mut build = Command::new(root.join("tools/native-lib"));
    build.arg("host_c").arg(archive).arg(machine());
    if let Ok(terminal) = fs::OpenOptions::new().write(true).open("/dev/tty") {
        build.stderr(terminal);
    }
    run(&mut build);
}

fn run(command: &mut Command) {
    let program = command.get_program().to_string_lossy().into_owned();
    match command.status() {
        Ok(status) if status.success() => {}
        Ok(status) => panic!("{program} failed ({status}); what it said is above"),
        Err(why) => panic!("{program} can't be run: {why}"),
    }
}
