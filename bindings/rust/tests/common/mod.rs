//! What the tests share: images of source texts, by the program sfi.
use std::env;
use std::io::Write;
use std::path::Path;
use std::process::{Command, Stdio};

pub fn built(source: &str) -> Vec<u8> {
    built_with(source, &[])
}

pub fn built_with(source: &str, options: &[&str]) -> Vec<u8> {
    let beside = Path::new(env!("CARGO_MANIFEST_DIR")).join("../../crates/sfi/out/sfi");
    let sfi = env::var_os("SFI").unwrap_or_else(|| {
        if beside.exists() {
            beside.into()
        } else {
            "sfi".into()
        }
    });
    let mut child = Command::new(sfi)
        .arg("build")
        .args(options)
        .stdin(Stdio::piped())
        .stdout(Stdio::piped())
        .spawn()
        .unwrap();
    child
        .stdin
        .take()
        .unwrap()
        .write_all(source.as_bytes())
        .unwrap();
    let text = String::from_utf8(child.wait_with_output().unwrap().stdout).unwrap();
    let digits = text.trim();
    (0..digits.len())
        .step_by(2)
        .map(|at| u8::from_str_radix(&digits[at..at + 2], 16).unwrap())
        .collect()
}
