//! What an image's table of names says, as `sfi-cc --export` and `--import` write it. It is what the image says of itself, and
//! may be anything: an address that can't be entered, read or written is refused by what does so.
use crate::sys;
use std::error::Error;
use std::fmt;

/// How many bytes a name has at most.
const NAME_MOST: usize = 255;
/// Of how many exports, or imports, a signature is looked for: in more it would take long.
const MOST_ENTRIES: u32 = 512;

/// Why there is no address of a name.
#[derive(Clone, Copy, Debug, PartialEq, Eq)]
pub enum NameError {
    /// The bytes are no image.
    NoImage,
    /// It has no sandbox of that number.
    NoSandbox,
    /// The sandbox's first data bytes end in no table's magic.
    NoTable,
    /// They end in the magic, and what stands before it is no table's.
    BadTable,
    /// The table doesn't have the name.
    NoName,
}

/// A name of a table, with what it stands for.
#[derive(Clone, Debug, PartialEq, Eq)]
pub struct Entry {
    /// Its visible characters of ASCII. Where the first is a point, the entry is a claim of the tools.
    pub name: String,
    /// The address of the function, the object or the gate, or the number of a claim.
    pub address: u32,
}

impl fmt::Display for NameError {
    fn fmt(&self, to: &mut fmt::Formatter<'_>) -> fmt::Result {
        to.write_str(match self {
            NameError::NoImage => "the bytes are no image",
            NameError::NoSandbox => "there is no such sandbox",
            NameError::NoTable => "there is no table of names",
            NameError::BadTable => "the table of names is broken",
            NameError::NoName => "the table doesn't have the name",
        })
    }
}

impl Error for NameError {}

/// The number that a call wrote, if it found one.
fn found(status: u32, number: u32) -> Result<u32, NameError> {
    match status {
        0 => Ok(number),
        1 => Err(NameError::NoImage),
        2 => Err(NameError::NoSandbox),
        3 => Err(NameError::NoTable),
        4 => Err(NameError::BadTable),
        _ => Err(NameError::NoName),
    }
}

type LookUp = unsafe extern "C" fn(*const u8, usize, u32, *const u8, usize, *mut u32) -> u32;

fn address(call: LookUp, image: &[u8], sandbox: u32, name: &str) -> Result<u32, NameError> {
    let mut address = 0;
    // SAFETY: the bytes of both can be read, and the number written, during the call.
    let status = unsafe {
        call(
            image.as_ptr(),
            image.len(),
            sandbox,
            name.as_ptr(),
            name.len(),
            &mut address,
        )
    };
    found(status, address)
}

/// The address of a function to call, or of an object of the data, in that sandbox of the image.
pub fn export(image: &[u8], sandbox: u32, name: &str) -> Result<u32, NameError> {
    address(sys::sfi_run_export, image, sandbox, name)
}

/// The address of a gate, at which pc is when it is called.
pub fn import(image: &[u8], sandbox: u32, name: &str) -> Result<u32, NameError> {
    address(sys::sfi_run_import, image, sandbox, name)
}

type List = unsafe extern "C" fn(*const u8, usize, u32, u32, *mut u8, *mut u32, *mut u32) -> u32;

/// The entry at an index of those that a call lists, if there is one.
fn entry_at(
    call: List,
    image: &[u8],
    sandbox: u32,
    index: u32,
) -> Result<Option<Entry>, NameError> {
    let (mut name, mut size, mut address) = ([0; NAME_MOST], 0, 0);
    // SAFETY: the bytes can be read, the name has room for the longest, and the numbers can be written, during the call.
    let status = unsafe {
        let (first, length) = (image.as_ptr(), image.len());
        call(
            first,
            length,
            sandbox,
            index,
            name.as_mut_ptr(),
            &mut size,
            &mut address,
        )
    };
    match found(status, address) {
        Err(NameError::NoName) => Ok(None),
        found => Ok(Some(Entry {
            address: found?,
            name: name[..size as usize]
                .iter()
                .copied()
                .map(char::from)
                .collect(),
        })),
    }
}

/// The entries that a call lists.
fn entries(call: List, image: &[u8], sandbox: u32) -> Result<Vec<Entry>, NameError> {
    let mut entries = Vec::new();
    for index in 0..=u32::MAX {
        match entry_at(call, image, sandbox, index)? {
            Some(entry) => entries.push(entry),
            None => break,
        }
    }
    Ok(entries)
}

/// The functions that a host may call, the objects that it may use, and the claims about them. Each costs a look at the whole
/// table, so a large one takes long.
pub fn exports(image: &[u8], sandbox: u32) -> Result<Vec<Entry>, NameError> {
    entries(sys::sfi_run_export_at, image, sandbox)
}

/// The gates that the code calls, and the claims about them and the stack. Each costs as much.
pub fn imports(image: &[u8], sandbox: u32) -> Result<Vec<Entry>, NameError> {
    entries(sys::sfi_run_import_at, image, sandbox)
}

/// How many words the value of a letter takes in registers, if it can be a parameter's.
fn words_of(letter: u8) -> Option<usize> {
    match letter {
        b'y' | b'c' | b'h' | b'k' | b't' | b'i' | b'u' | b'f' | b'p' | b's' => Some(1),
        b'l' | b'm' | b'd' | b'b' | b'w' => Some(2),
        _ => None,
    }
}

/// Whether a text is a signature: letters of parameters in brackets, which take at most eight words, and that of a result.
pub(crate) fn is_signature(text: &str) -> bool {
    if let [b'(', parameters @ .., b')', result] = text.as_bytes() {
        let words: Option<usize> = parameters.iter().copied().map(words_of).sum();
        return words.map_or(false, |words| words <= 8) && b"ychktiulmfdpsv".contains(result);
    }
    false
}

/// The signature that the first claim about a name has which can be read, of entries that aren't too many.
fn claimed(
    call: List,
    image: &[u8],
    sandbox: u32,
    name: &str,
) -> Result<Option<String>, NameError> {
    if entry_at(call, image, sandbox, MOST_ENTRIES)?.is_some() {
        return Ok(None);
    }
    let entries = entries(call, image, sandbox)?.into_iter();
    let mut claims = entries.filter(|entry| entry.address == 0);
    Ok(claims.find_map(|entry| {
        let text = entry.name.strip_prefix('.')?.strip_prefix(name)?;
        is_signature(text).then(|| text.to_string())
    }))
}

/// What the image claims that a function takes and returns, as `(ii)i` of `int add(int, int)`: docs/IMAGE.md has the letters.
/// Of more than 512 exports with their claims it claims nothing; so it is with imports.
pub fn signature(image: &[u8], sandbox: u32, name: &str) -> Result<Option<String>, NameError> {
    claimed(sys::sfi_run_export_at, image, sandbox, name)
}

/// What the image claims that the code passes to a gate, and takes from it.
pub fn import_signature(
    image: &[u8],
    sandbox: u32,
    name: &str,
) -> Result<Option<String>, NameError> {
    claimed(sys::sfi_run_import_at, image, sandbox, name)
}

/// The version of the host's interface for which the code is made.
pub fn api(image: &[u8], sandbox: u32) -> Result<u32, NameError> {
    let mut version = 0;
    // SAFETY: the bytes can be read, and the number written, during the call.
    let status = unsafe { sys::sfi_run_api(image.as_ptr(), image.len(), sandbox, &mut version) };
    found(status, version)
}
