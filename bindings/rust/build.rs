//! Finds the static library libevaporation.a: in the folder that EVAPORATION_LIB names, in the package of this crate, in
//! the release or the repository that this crate is in, or where pkg-config has it installed.
use std::env;
use std::path::PathBuf;
use std::process::{exit, Command};

const NAME: &str = "libevaporation.a";

/// The folder that pkg-config names.
fn installed() -> Option<PathBuf> {
    let run = Command::new("pkg-config").args(["--variable=libdir", "evaporation"]).output().ok()?;
    let folder = String::from_utf8(run.stdout).ok()?;
    run.status.success().then(|| PathBuf::from(folder.trim().replace("\\ ", " ")))
}

fn find() -> Option<PathBuf> {
    if let Some(named) = env::var_os("EVAPORATION_LIB") {
        return Some(PathBuf::from(named));
    }
    let here = PathBuf::from(env::var_os("CARGO_MANIFEST_DIR")?);
    let top = here.parent()?.parent()?;
    let near = [here.join("lib"), top.join("lib"), top.join("target/lib"), top.join("target/c")];
    near.into_iter().find(|folder| folder.join(NAME).exists()).or_else(installed)
}

/// Says what is wrong and ends the build.
fn stop(why: String) -> ! {
    eprintln!("evaporation: {why}");
    exit(1)
}

fn main() {
    println!("cargo:rerun-if-env-changed=EVAPORATION_LIB");
    println!("cargo:rerun-if-env-changed=PKG_CONFIG_PATH");
    let target = env::var("TARGET").unwrap_or_default();
    if !(target.starts_with("x86_64-") && target.contains("-linux")) {
        stop(format!("the library is for x86-64 Linux, and the target is {target}"))
    }
    let Some(folder) = find() else {
        stop(format!(
            "no {NAME}; bash c/install PREFIX installs it for pkg-config, or EVAPORATION_LIB names its folder"
        ))
    };
    let library = folder.join(NAME);
    if !library.exists() {
        stop(format!("{} is not there", library.display()))
    }
    println!("cargo:rerun-if-changed={}", library.display());
    println!("cargo:rustc-link-search=native={}", folder.display());
    println!("cargo:rustc-link-lib=static=evaporation");
}
