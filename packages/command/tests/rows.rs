//! The command as its users run it: each page of rows in this folder, a file `.t`, has commands and what they write.
//! Cram tries them, which is Debian's python3-cram; `cram3 -i --shell=/bin/bash PAGE.t`, with the program on the path,
//! writes what they write now.
#![cfg(unix)]
use std::env;
use std::path::Path;
use std::process::Command;

#[test]
fn rows() {
    let folder = Path::new(env!("CARGO_BIN_EXE_target-lexicon"))
        .parent()
        .expect("the program is in a folder");
    let path = env::var("PATH").unwrap_or_default();
    let ran = Command::new("bash")
        .args([
            "-c",
            "printf '%s\\0' *.t | xargs -0 -n 1 -P 5 cram3 --shell=/bin/bash",
        ])
        .current_dir(concat!(env!("CARGO_MANIFEST_DIR"), "/tests"))
        .env("PATH", format!("{}:{path}", folder.display()))
        .output()
        .expect("bash is there");
    let said = [ran.stdout, ran.stderr].concat();
    assert!(ran.status.success(), "{}", String::from_utf8_lossy(&said));
}
