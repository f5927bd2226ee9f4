//! The declarations of ffi.rs are those of the headers, as this machine's C compiler lays them out.
use std::fmt::Write;
use std::path::Path;
use std::process::Command;

/// The name that a structure has in C.
fn name_in_c(name: &str) -> String {
    match name {
        "Verdict" | "Finding" => format!("sfi_{}", name.to_lowercase()),
        "StoredVersion" => "sfi_device_stored_version".to_string(),
        _ => format!("sfi_device_{}", name.to_lowercase()),
    }
}

#[test]
fn layouts() {
    let (mut wanted, mut program) = (String::new(), String::from("#include <stdio.h>\n"));
    for header in ["sfi_device.h", "sfi_device_store.h", "sfi_device_plugins.h"] {
        writeln!(program, "#include \"{header}\"").unwrap();
    }
    program += "int main(void) {\n";
    sfi_device::ffi::layouts(|name, field, number| {
        let c = name_in_c(name);
        let asked = if field.is_empty() { format!("sizeof(struct {c})") } else { format!("offsetof(struct {c}, {field})") };
        writeln!(wanted, "{asked} {number}").unwrap();
        writeln!(program, "    printf(\"{asked} %zu\\n\", {asked});").unwrap();
    });
    program += "    return 0;\n}\n";
    let room = std::env::temp_dir().join(format!("sfi_device_layouts_{}", std::process::id()));
    std::fs::create_dir(&room).unwrap();
    std::fs::write(room.join("layouts.c"), program).unwrap();
    let top = Path::new(env!("CARGO_MANIFEST_DIR")).join("../..");
    let compiled = Command::new("cc")
        .arg("-I")
        .arg(top.join("device"))
        .arg("-I")
        .arg(top.join("crates/sfi_c/include"))
        .arg("-o")
        .arg(room.join("layouts"))
        .arg(room.join("layouts.c"))
        .status();
    let said = Command::new(room.join("layouts")).output();
    std::fs::remove_dir_all(&room).unwrap();
    assert!(compiled.unwrap().success());
    assert_eq!(String::from_utf8(said.unwrap().stdout).unwrap(), wanted);
}
