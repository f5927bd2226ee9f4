//! Tests of a host's own limits, on bytes that are spelled here as docs/IMAGE.md has them.
use sfi_run::sizes::{check, Region, Sizes, TooLarge};

const ANY: u32 = u32::MAX;

/// The bytes of an image in words whose sandboxes have so much code and data, two gates and three first data bytes.
fn image(sandboxes: &[(u32, u32)]) -> Vec<u8> {
    let mut made = b"SFIW".to_vec();
    let mut put = |numbers: &[u32], bytes: &[u8]| {
        numbers.iter().for_each(|it| made.extend(it.to_le_bytes()));
        made.extend(bytes);
    };
    put(&[sandboxes.len() as u32], b"");
    for (number, &(code, data)) in (1..).zip(sandboxes) {
        let base = number << 24;
        put(&[base, code, base + (1 << 23), data, base, 2, 3], b"");
        put(&[base, 0, base + 16, 1], b"");
        put(&[], &[2, 0x90].repeat(code as usize / 2));
        put(&[], b"abc");
    }
    made
}

fn passes(image: &[u8], code: u32, data: u32) -> Result<(), TooLarge> {
    check(image, Sizes { code, data })
}

#[test]
fn limits() {
    let given = image(&[(256, 4096), (1024, 1 << 22)]);
    let refused = |sandbox, region, size, most| {
        Err(TooLarge {
            sandbox,
            region,
            size,
            most,
        })
    };
    assert_eq!(passes(&given, ANY, ANY), Ok(()));
    assert_eq!(passes(&given, 1024, 1 << 22), Ok(()));
    assert_eq!(
        passes(&given, 1023, ANY),
        refused(1, Region::Code, 1024, 1023)
    );
    assert_eq!(
        passes(&given, ANY, 4096),
        refused(1, Region::Data, 1 << 22, 4096)
    );
    assert_eq!(
        passes(&given, 255, 4095),
        refused(0, Region::Code, 256, 255)
    );
    let told = passes(&given, 256, 4095).unwrap_err().to_string();
    assert_eq!(
        told,
        "sandbox 0 has 4096 bytes of data, and this host takes at most 4095"
    );
}

#[test]
fn what_is_no_image() {
    let given = image(&[(256, 4096), (1024, 1 << 22)]);
    for length in 0..given.len() {
        assert_eq!(
            passes(&given[..length], 1024, 1 << 22),
            Ok(()),
            "{length} bytes"
        );
    }
    assert!(passes(&given[..36], ANY, 256).is_err());
    assert_eq!(passes(&given[..35], 0, 0), Ok(()));
    assert_eq!(passes(&[0xFF; 64], ANY, ANY), Ok(()));
}
