//! Finds the library and has it linked: in the folder that `GIRZOHAL_LIB` names, else in this package, else by pkg-config,
//! else where `make -C bindings/c` puts it in a checkout.

use std::env;
use std::path::{Path, PathBuf};
use std::process::{exit, Command};

/// The targets that there is code for.
const TARGETS: [&str; 2] = ["x86_64-unknown-linux-gnu", "aarch64-unknown-linux-gnu"];

fn main() {
    for name in ["GIRZOHAL_LIB", "PKG_CONFIG_PATH"] {
        println!("cargo:rerun-if-env-changed={name}");
    }
    let target = variable("TARGET");
    if !TARGETS.contains(&target.as_str()) {
        fail(&format!(
            "there is no library for the target {target}, only for {}",
            TARGETS.join(" and ")
        ));
    }
    // docs.rs builds the pages and links nothing
    if env::var_os("DOCS_RS").is_some() {
        return;
    }
    let dynamic = env::var_os("CARGO_FEATURE_DYNAMIC").is_some();
    let (file, kind) = if dynamic {
        ("libgirzohal.so", "dylib")
    } else {
        ("libgirzohal.a", "static")
    };
    let folder = folder_of(file, &target);
    println!("cargo:rerun-if-changed={}", folder.join(file).display());
    println!("cargo:rustc-link-search=native={}", folder.display());
    println!("cargo:rustc-link-lib={kind}=girzohal");
    println!("cargo:lib={}", folder.display());
}

/// The folder that has the library.
fn folder_of(file: &str, target: &str) -> PathBuf {
    if let Some(folder) = env::var_os("GIRZOHAL_LIB").map(PathBuf::from) {
        if folder.join(file).is_file() {
            return folder;
        }
        fail(&format!(
            "GIRZOHAL_LIB is {}, but there is no {file} in it",
            folder.display()
        ));
    }
    let here = PathBuf::from(variable("CARGO_MANIFEST_DIR"));
    let found = [
        Some(here.join("archive").join(target)),
        installed(target),
        made(&here, target),
    ];
    let found = found
        .into_iter()
        .flatten()
        .find(|it| it.join(file).is_file());
    found.unwrap_or_else(|| {
        fail(&format!(
            "there is no {file} for {target}: install the C library, so that pkg-config finds girzohal 0.1, \
             or let GIRZOHAL_LIB name the folder that has {file}"
        ))
    })
}

/// Where pkg-config finds the library; it knows those of this machine only.
fn installed(target: &str) -> Option<PathBuf> {
    if target != variable("HOST") {
        return None;
    }
    let program = env::var_os("PKG_CONFIG").unwrap_or_else(|| "pkg-config".into());
    let run = |arguments: &[&str]| Command::new(&program).args(arguments).output().ok();
    let fits = run(&["--exists", "girzohal >= 0.1 girzohal < 0.2"])?;
    let said = run(&["--variable=libdir", "girzohal"])?;
    let folder = String::from_utf8(said.stdout).ok()?;
    (fits.status.success() && said.status.success()).then(|| PathBuf::from(folder.trim()))
}

/// Where `make` puts the library in a checkout.
fn made(here: &Path, target: &str) -> Option<PathBuf> {
    (target == variable("HOST")).then(|| here.join("../../c/out"))
}

fn variable(name: &str) -> String {
    env::var(name).unwrap_or_else(|_| fail(&format!("cargo gives no {name}")))
}

fn fail(why: &str) -> ! {
    eprintln!("girzohal-sys: {why}");
    exit(1)
}
