//! Has tools/archive prove the filters and write their archive, and has cargo link it.

use std::fs::{self, File, OpenOptions};
use std::io::{BufRead, BufReader, IsTerminal, Write};
use std::os::unix::process::parent_id;
use std::path::PathBuf;
use std::process::{Command, Stdio};

// cargo keeps what a build script writes to itself until the script ends, and a proof takes minutes. So the script writes where cargo
// writes; but not to a file, where each of the two would write over the other.
fn cargos_standard_error() -> Option<File> {
    let path = format!("/proc/{}/fd/2", parent_id());
    if fs::metadata(&path).ok()?.is_file() {
        return None;
    }
    OpenOptions::new().write(true).open(path).ok()
}

fn main() {
    let here = PathBuf::from(std::env::var("CARGO_MANIFEST_DIR").unwrap());
    let top = here.join("../..").canonicalize().expect("the repository");
    let mut archive = Command::new(top.join("tools/archive"))
        .stdout(Stdio::piped())
        .stderr(Stdio::piped())
        .spawn()
        .expect("tools/archive of the repository");
    // What tools/archive says is shown as it comes; where that is not possible, cargo has the last line for a warning, which it repeats at
    // later builds.
    let mut shown = cargos_standard_error();
    let mut last = None;
    for line in BufReader::new(archive.stderr.take().unwrap()).lines() {
        let line = line.expect("a line of tools/archive");
        if let Some(shown) = &mut shown {
            // On a terminal cargo's progress bar may stand in the line, and goes.
            let clear = if shown.is_terminal() { "\r\x1b[K" } else { "" };
            let _ = writeln!(shown, "{clear}{line}");
        }
        eprintln!("{line}");
        last = Some(line);
    }
    let done = archive.wait_with_output().expect("tools/archive's answer");
    assert!(done.status.success(), "tools/archive failed");
    if let (None, Some(line)) = (shown, last) {
        println!("cargo:warning={line}");
    }
    for path in String::from_utf8_lossy(&done.stdout).lines() {
        println!("cargo:rerun-if-changed={path}");
    }

    let name = "libfilter_exports.a";
    let out = PathBuf::from(std::env::var("OUT_DIR").unwrap());
    fs::copy(top.join("target/staticlib").join(name), out.join(name)).expect("the archive");
    println!("cargo:rustc-link-search=native={}", out.display());
    println!("cargo:rustc-link-lib=static=filter_exports");
}
