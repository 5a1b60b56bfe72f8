//! Tells the library its commit, and names the shared one.
use std::env;
use std::path::Path;
use std::process::Command;

/// What git answers in this folder, whatever repository the variables of a caller name.
fn git(words: &[&str]) -> Option<String> {
    let ran = Command::new("git")
        .args(words)
        .env_remove("GIT_DIR")
        .env_remove("GIT_WORK_TREE")
        .output()
        .ok()?;
    let text = String::from_utf8(ran.stdout).ok()?;
    ran.status.success().then(|| text.trim().to_string())
}

/// The commit of the sources, if they are in their own repository: a copy in another one isn't of its commit. What is
/// compiled may have changed since.
fn own_commit() -> Option<String> {
    const SOURCES: [&str; 7] =
        ["src", "build.rs", "Cargo.toml", "../names", "../rust", "../../Cargo.toml", "../../Cargo.lock"];
    let top = git(&["rev-parse", "--show-toplevel"])?;
    if Path::new(&top).canonicalize().ok()? != Path::new("../..").canonicalize().ok()? {
        return None;
    }
    let log = git(&["rev-parse", "--git-path", "logs/HEAD"])?;
    for path in SOURCES.into_iter().chain([&*log]) {
        println!("cargo:rerun-if-changed={path}");
    }
    let mut words = vec!["--no-optional-locks", "status", "--porcelain", "--untracked-files=no", "--"];
    words.extend(SOURCES);
    let changed = !git(&words)?.is_empty();
    let commit = git(&["rev-parse", "--short=12", "HEAD"])?;
    Some(format!("{commit}{}", if changed { "-dirty" } else { "" }))
}

fn main() {
    println!("cargo:rerun-if-env-changed=LEXICON_COMMIT");
    println!("cargo:rerun-if-changed=build.rs");
    let commit = match env::var("LEXICON_COMMIT") {
        Ok(given) => Some(given).filter(|it| !it.is_empty() && it.bytes().all(|byte| byte.is_ascii_hexdigit())),
        Err(env::VarError::NotPresent) => own_commit(),
        Err(env::VarError::NotUnicode(_)) => None,
    };
    let commit = commit.map_or_else(String::new, |commit| format!(" ({commit})"));
    println!("cargo:rustc-env=LEXICON_COMMIT={commit}");
    println!("cargo:rustc-env=LEXICON_TARGET={}", env::var("TARGET").unwrap());
    // A target that the Rust crate's build script parses. Another text, such as one with a line for cargo, isn't used.
    println!("cargo:rerun-if-env-changed=TARGET_LEXICON_HOST");
    let host = env::var("TARGET_LEXICON_HOST").unwrap_or_default();
    println!("cargo:rustc-env=LEXICON_HOST={}", if host.bytes().all(|it| it.is_ascii_graphic()) { &host } else { "" });

    let version = |part| env::var(format!("CARGO_PKG_VERSION_{part}")).unwrap();
    let name = format!("{}.{}", version("MAJOR"), version("MINOR"));
    match &*env::var("CARGO_CFG_TARGET_OS").unwrap() {
        "macos" => println!("cargo:rustc-cdylib-link-arg=-Wl,-install_name,@rpath/libtarget_lexicon.{name}.dylib"),
        _ if env::var("CARGO_CFG_TARGET_FAMILY").as_deref() == Ok("unix") => {
            println!("cargo:rustc-cdylib-link-arg=-Wl,-soname,libtarget_lexicon.so.{name}");
            println!("cargo:rustc-cdylib-link-arg=-nostartfiles");
        }
        _ => {}
    }
}
