// Finds the library to link. On x86-64 Linux that is the proved archive libdenkumari.a, which bindings/build.sh builds, where it is at hand: in the
// repository, or in the installation that this crate stands in (tools/install). Elsewhere, and where there is none, the same code as C (portable/denkumari.c,
// docs/PORTABLE.md) is compiled, by CC or the first of cc, gcc and clang. DENKUMARI_LIB names the folder of a libdenkumari.a to be taken and no other;
// DENKUMARI_PORTABLE=1 takes the C in any case.
use std::env;
use std::path::{Path, PathBuf};
use std::process::Command;

fn main() {
    for name in ["DENKUMARI_LIB", "DENKUMARI_PORTABLE", "CC", "AR"] {
        println!("cargo:rerun-if-env-changed={name}");
    }
    let here = PathBuf::from(env::var("CARGO_MANIFEST_DIR").expect("cargo sets it"));
    let folder = match env::var("DENKUMARI_LIB") {
        Ok(named) => archive_in(PathBuf::from(named)),
        Err(_) => proved_archive(&here).ok_or(()).or_else(|()| compiled(&here)),
    };
    match folder {
        Ok(folder) => {
            println!("cargo:rustc-link-search=native={}", folder.display());
            println!("cargo:rustc-link-lib=static=denkumari");
        }
        // cargo stops here and shows the line, where otherwise the linker would say that it cannot find -ldenkumari
        Err(why) => println!("cargo::error={why}"),
    }
}

fn is_x86_64_linux() -> bool {
    let said = |name| env::var(name).unwrap_or_default();
    said("CARGO_CFG_TARGET_ARCH") == "x86_64" && said("CARGO_CFG_TARGET_OS") == "linux"
}

fn archive_in(folder: PathBuf) -> Result<PathBuf, String> {
    let archive = folder.join("libdenkumari.a");
    println!("cargo:rerun-if-changed={}", archive.display());
    if archive.is_file() {
        return Ok(folder);
    }
    Err(format!("there is no {}: DENKUMARI_LIB is the folder of a libdenkumari.a", archive.display()))
}

// The folder of a proved archive, in the repository or in the installation.
fn proved_archive(here: &Path) -> Option<PathBuf> {
    if !is_x86_64_linux() || env::var_os("DENKUMARI_PORTABLE").is_some() {
        return None;
    }
    let own = [here.join("../../target/staticlib"), here.join("../../../lib")];
    for folder in &own {
        println!("cargo:rerun-if-changed={}", folder.join("libdenkumari.a").display());
    }
    own.into_iter().find(|folder| folder.join("libdenkumari.a").is_file())
}

// Compiles the C into an archive of its own, and gives that one's folder.
fn compiled(here: &Path) -> Result<PathBuf, String> {
    let places = [("../../portable", "../../include"), ("../portable", "../../../include")];
    let (source, include) = places
        .iter()
        .map(|(source, include)| (here.join(source).join("denkumari.c"), here.join(include)))
        .find(|(source, _)| source.is_file())
        .ok_or("there is neither a proved archive nor portable/denkumari.c: set DENKUMARI_LIB to the folder of a libdenkumari.a")?;
    println!("cargo:rerun-if-changed={}", source.display());
    println!("cargo:rerun-if-changed={}", include.join("denkumari.h").display());
    let out = PathBuf::from(env::var("OUT_DIR").expect("cargo sets it"));
    let (object, archive) = (out.join("denkumari.o"), out.join("libdenkumari.a"));
    let _ = std::fs::remove_file(&archive); // ar would keep what is in it
    let compiling = |command: &mut Command| {
        command.args(["-std=c99", "-O3", "-fPIC", "-c"]).arg(&source).arg("-I").arg(&include).arg("-o").arg(&object);
    };
    first_of("CC", &["cc", "gcc", "clang"], compiling, "a C compiler compiles portable/denkumari.c")?;
    let packing = |command: &mut Command| {
        command.arg("crs").arg(&archive).arg(&object);
    };
    first_of("AR", &["ar", "llvm-ar"], packing, "ar puts it into an archive")?;
    Ok(out)
}

// Runs the tool that a variable names, which may have words of its own, else the first of these that can be started.
fn first_of(variable: &str, names: &[&str], with: impl Fn(&mut Command), what: &str) -> Result<(), String> {
    let (target, host) = (env::var("TARGET").unwrap_or_default(), env::var("HOST").unwrap_or_default());
    let named = env::var(variable).ok();
    if named.is_none() && variable == "CC" && target != host {
        return Err(format!("{what}, for {target} and not for this {host}: set CC to a compiler for it"));
    }
    let names: Vec<&str> = named.as_deref().map_or_else(|| names.to_vec(), |name| vec![name]);
    for name in &names {
        let mut words = name.split_whitespace();
        let mut command = Command::new(words.next().unwrap_or_default());
        with(command.args(words));
        match command.status() {
            Ok(status) if status.success() => return Ok(()),
            Ok(status) => return Err(format!("{what}: {name} ended with {status}")),
            Err(_) => {}
        }
    }
    Err(format!("{what}, and none of {} can be started: set {variable} to one", names.join(", ")))
}
