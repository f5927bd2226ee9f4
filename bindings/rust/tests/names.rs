//! Tests of `names`. The bytes of a table are those of docs/IMAGE.md.
use sfi_run::names::{
    api, export, exports, import, import_signature, imports, signature, Entry, NameError,
};

const CODE: u32 = 0x0100_0000;

fn entry(address: u32, name: &str) -> Vec<u8> {
    let mut bytes = address.to_le_bytes().to_vec();
    bytes.push(name.len() as u8);
    bytes.extend(name.bytes());
    bytes
}

/// The image of one sandbox of 4096 bytes, whose code is 64 times ebreak, with a table that has this version.
fn named(exports: &[u8], imports: &[u8], version: u32) -> Vec<u8> {
    let mut table = [exports, imports].concat();
    for number in [version, exports.len() as u32, imports.len() as u32] {
        table.extend(number.to_le_bytes());
    }
    table.extend(b"SFIN");
    let head = [1, CODE, 256, 0x0180_0000, 4096, CODE, 0, table.len() as u32];
    let words = head.into_iter().chain([0x0010_0073; 64]);
    let mut image = b"SFI1".to_vec();
    image.extend(words.flat_map(u32::to_le_bytes));
    image.extend(table);
    image
}

#[test]
fn addresses() {
    let entries = [entry(CODE, "add"), entry(7, "add"), entry(9, "x")].concat();
    let image = named(&entries, &entry(CODE + 16, "log"), 5);
    assert_eq!(export(&image, 0, "add"), Ok(CODE));
    assert_eq!(export(&image, 0, "x"), Ok(9));
    assert_eq!(import(&image, 0, "log"), Ok(CODE + 16));
    assert_eq!(api(&image, 0), Ok(5));
    let listed = |address, name: &str| Entry {
        name: name.to_string(),
        address,
    };
    let all = vec![listed(CODE, "add"), listed(7, "add"), listed(9, "x")];
    assert_eq!(exports(&image, 0), Ok(all));
    assert_eq!(imports(&image, 0), Ok(vec![listed(CODE + 16, "log")]));
}

#[test]
fn what_is_missing() {
    let right = named(&entry(CODE, "add"), &[], 0);
    let bad = named(&entry(CODE, "a b"), &[], 0);
    let none = [&right[..right.len() - 1], b"M"].concat();
    for (image, sandbox, name, why) in [
        (&right, 0, "ad", NameError::NoName),
        (&right, 1, "add", NameError::NoSandbox),
        (&bad, 0, "add", NameError::BadTable),
        (&none, 0, "add", NameError::NoTable),
        (&right[1..].to_vec(), 0, "add", NameError::NoImage),
    ] {
        assert_eq!(export(image, sandbox, name), Err(why));
        if why != NameError::NoName {
            assert_eq!(exports(image, sandbox), Err(why));
            assert_eq!(imports(image, sandbox), Err(why));
        }
    }
}

#[test]
fn signatures_of_so_many() {
    for (others, found) in [(510, Some("()v".to_string())), (511, None)] {
        let mut entries = [entry(CODE, "add"), entry(0, ".add()v")].concat();
        entries.extend((0..others).flat_map(|_| entry(0, "x")));
        assert_eq!(
            signature(&named(&entries, &[], 0), 0, "add"),
            Ok(found.clone())
        );
        assert_eq!(
            import_signature(&named(&[], &entries, 0), 0, "add"),
            Ok(found)
        );
    }
}
