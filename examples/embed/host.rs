//! Checks the image on standard input, and lists its first findings:
//!
//!     host [CAPACITY] < IMAGE        # the image's own bytes; room for CAPACITY findings, 2 if absent
//!     host 0 SIZE < IMAGE            # SIZE bytes at a time, and no findings but the first
//!     host parts < IMAGE             # what is in it where it is accepted, as parts.c prints it
use std::io::Read;
use std::process::exit;

/// `struct sfi_finding`.
#[repr(C)]
#[derive(Clone, Copy, Default)]
struct Finding {
    sandbox: u32,
    address: u32,
    rule: u32,
}

/// `struct sfi_verdict`.
#[repr(C)]
#[derive(Default)]
struct Verdict {
    status: u32,
    layout_fault: u32,
    sandboxes: u32,
    bundles: u32,
    findings: u32,
    first: Finding,
}

/// `struct sfi_part`.
#[repr(C)]
#[derive(Default)]
struct Part {
    format: u32,
    code_base: u32,
    code_size: u32,
    data_base: u32,
    data_size: u32,
    start: u32,
    gates: u32,
    init_size: u32,
    code_offset: usize,
    init_offset: usize,
}

/// `struct sfi_gate`.
#[repr(C)]
#[derive(Clone, Default)]
struct Gate {
    address: u32,
    service: u32,
}

/// `struct sfi_stream`.
#[repr(C)]
struct Stream {
    words: [u64; 119],
}

const _: () = assert!(size_of::<Finding>() == 12 && size_of::<Verdict>() == 32);
const _: () = assert!(size_of::<Part>() == 32 + 2 * size_of::<usize>() && size_of::<Gate>() == 8);

extern "C" {
    fn sfi_c_findings(
        image: *const u8,
        length: usize,
        array: *mut Finding,
        capacity: usize,
        verdict: *mut Verdict,
    ) -> u32;
    fn sfi_c_part(image: *const u8, length: usize, number: u32, part: *mut Part) -> u32;
    fn sfi_c_gates(image: *const u8, length: usize, number: u32, array: *mut Gate, capacity: usize) -> u32;
    fn sfi_c_begin(stream: *mut Stream);
    fn sfi_c_feed(stream: *mut Stream, bytes: *const u8, length: usize);
    fn sfi_c_end(stream: *const Stream, verdict: *mut Verdict) -> u32;
}

/// The verdict on the image, with its findings at the front of the array, as many as it has room for.
fn findings(image: &[u8], array: &mut [Finding]) -> Verdict {
    let mut verdict = Verdict::default();
    // SAFETY: references and slices are never null, and those to be written overlap nothing.
    unsafe { sfi_c_findings(image.as_ptr(), image.len(), array.as_mut_ptr(), array.len(), &mut verdict) };
    verdict
}

/// The verdict on the bytes of the source, of which it keeps one piece at a time.
fn verdict_in_pieces(mut source: impl Read, size: usize) -> std::io::Result<Verdict> {
    let mut stream = Stream { words: [0; 119] };
    let mut verdict = Verdict::default();
    let mut piece = vec![0; size];
    // SAFETY: as above; and nothing else writes the stream.
    unsafe { sfi_c_begin(&mut stream) };
    loop {
        let length = source.read(&mut piece)?;
        if length == 0 {
            break;
        }
        unsafe { sfi_c_feed(&mut stream, piece.as_ptr(), length) };
    }
    unsafe { sfi_c_end(&stream, &mut verdict) };
    Ok(verdict)
}

/// The image's sandbox of that number.
fn part(image: &[u8], number: u32) -> Option<Part> {
    let mut part = Part::default();
    // SAFETY: as above.
    let status = unsafe { sfi_c_part(image.as_ptr(), image.len(), number, &mut part) };
    (status == 0).then_some(part)
}

/// The `count` gates of its sandbox of that number.
fn gates_of(image: &[u8], number: u32, count: u32) -> Vec<Gate> {
    let mut gates = vec![Gate::default(); count as usize];
    // SAFETY: as above.
    unsafe { sfi_c_gates(image.as_ptr(), image.len(), number, gates.as_mut_ptr(), gates.len()) };
    gates
}

/// A line for each sandbox, one for where it lies in the image, and one for each of its gates.
fn print_parts(image: &[u8]) {
    for (number, part) in (0..).map_while(|number| Some((number, part(image, number)?))) {
        let Part { format, code_base, code_size, data_base, data_size, start, gates, init_size, .. } = part;
        print!("sandbox {number} code {code_base:08x} {code_size} data {data_base:08x} {data_size}");
        println!(" start {start:08x} gates {gates} init {init_size}");
        println!("bytes format {format} code {} init {}", part.code_offset, part.init_offset);
        for Gate { address, service } in gates_of(image, number, gates) {
            println!("gate {address:08x} {service}");
        }
    }
}

/// The verdict's line, and its status as the program's.
fn finish(verdict: &Verdict) -> ! {
    match verdict.status {
        0 => println!("accepted sandboxes={} bundles={}", verdict.sandboxes, verdict.bundles),
        1 => {
            let Finding { sandbox, address, rule } = verdict.first;
            println!("refused findings={} first=V{rule} sandbox={sandbox} at={address:08x}", verdict.findings);
        }
        _ => println!("layout fault {}", verdict.layout_fault),
    }
    exit(verdict.status as i32)
}

fn main() -> std::io::Result<()> {
    let words: Vec<String> = std::env::args().skip(1).collect();
    let mut image = Vec::new();
    if let [_, size] = &words[..] {
        finish(&verdict_in_pieces(std::io::stdin(), size.parse().expect("a number"))?);
    }
    std::io::stdin().read_to_end(&mut image)?;
    if words == ["parts"] {
        let verdict = findings(&image, &mut []);
        if verdict.status == 0 {
            print_parts(&image);
        }
        exit(verdict.status as i32);
    }
    let capacity = words.first().map_or(2, |word| word.parse().expect("a number"));
    let mut array = vec![Finding::default(); capacity];
    let verdict = findings(&image, &mut array);
    for Finding { sandbox, address, rule } in array.iter().take(verdict.findings as usize) {
        println!("{sandbox} {address:08x} V{rule}");
    }
    finish(&verdict)
}
